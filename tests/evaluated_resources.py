"""Made resources of the type Made, for tests/evaluated: items with and without values, ids and extensions, choices, and values that are often equal."""

import copy
import json

UCUM = "http://unitsofmeasure.org"
TEXTS = ["a", "b", "ab", "B", "a b", "é", "10", "9", "true", "2020", "😀", "\uffee"]
CODES = ["a", "b", "ab", "mg", "10", "a b"]
LINKS = ["a", "http://a", "urn:b", UCUM]
DAYS = ["2020", "2020-01", "2020-01-15", "2020-01-14", "2019-12-31", "2020-02", "2021", "2019"]
MOMENTS = [
    "2020-01-15T10:00:00Z", "2020-01-15T11:00:00+01:00", "2020-01-15T10:00:00.000Z", "2020-01-15T10:00:00.5Z", "2020-01-15T10:00:00.50Z",
    "2020-01-01T00:00:00+14:00", "2019-12-31T10:00:00Z", "2020-01-15T23:30:00-01:00", "2020-01-16T00:30:00Z", "2020-01-16T00:30:00+01:00",
    "2019-12-31T23:59:60Z", "2020-01-01T00:00:00Z", "2019-12-31T23:59:59.9Z", "2020-01-01T05:29:60+05:30", "2020-02-29T23:00:00-02:00",
    "2020-03-01T01:00:00Z", "0001-01-01T00:30:00+01:00", "9999-12-31T23:30:00-01:00",
]  # fmt: skip
HOURS = ["10:00:00", "10:00:00.0", "09:59:59", "10:00:00.5", "10:00:00.50", "23:59:60", "10:01:00"]


class Digits(str):
    """A JSON number as it is written."""


WHOLES = [Digits(it) for it in ("0", "1", "2", "3", "10", "-1")]
DECIMALS = [*WHOLES, *(Digits(it) for it in ("1.0", "1.50", "1.5", "10e-1", "1E1", "0.1", "-0.0", "12345678901234567890.1", "12345678901234567890.10", "2.5"))]
POOLS = {
    "boolean": [True, False], "integer": WHOLES, "unsignedInt": WHOLES[:5], "positiveInt": WHOLES[1:5], "decimal": DECIMALS, "string": TEXTS,
    "markdown": TEXTS, "code": CODES, "id": ["a", "b", "10"], "uri": LINKS, "url": LINKS, "canonical": LINKS, "oid": ["urn:oid:1.2", "urn:oid:1.3"],
    "uuid": ["urn:uuid:c757873d-ec9a-4326-a141-556f43239520"], "base64Binary": ["YQ==", "Yg=="], "instant": MOMENTS, "date": DAYS,
    "dateTime": [*DAYS, *MOMENTS], "time": HOURS, "http://hl7.org/fhirpath/System.String": ["a", "b", "t"],
}  # fmt: skip
# How often an element stands in an object: these seldom, and any other one as often as where it stands says.
SELDOM = {"id": 0.15, "extension": 0.1, "modifierExtension": 0.04, "meta": 0.05, "language": 0.05, "text": 0.05, "contained": 0.6}
DEEPEST = 4


def written(value):
    """A value as JSON, its numbers as they were written."""
    if isinstance(value, Digits):
        return str(value)
    if isinstance(value, dict):
        return "{" + ",".join(f"{json.dumps(name)}:{written(it)}" for name, it in value.items()) + "}"
    if isinstance(value, list):
        return "[" + ",".join(map(written, value)) + "]"
    return json.dumps(value, ensure_ascii=False)


class Resources:
    """Makes resources. `types` are the Types of tests/fhirpath_model.py."""

    def __init__(self, draw, types):
        self.draw, self.types, self.kept = draw, types, {}

    def happens(self, share):
        return self.draw.random() < share

    def resource(self, name="Made", depth=0):
        said = {"resourceType": name}
        likely = 0.85 if depth == 0 else 0.25 if name == "Made" else 0.7
        self.fill(said, name, depth, likely)
        return said

    def fill(self, said, node, depth, likely):
        for name, element in self.types.elements[node]:
            is_own_text = name == "text" and self.types.codes_of(element) != ["Narrative"]
            share = likely if is_own_text else SELDOM.get(name, likely)
            if depth >= DEEPEST and not self.is_simple(element):
                share = 0
            if name == "contained" and depth:
                share = 0.2 if depth < 3 else 0
            if name == "modifierExtension" and depth > 1 or not self.happens(1 if element["min"] else share):
                continue
            codes = self.types.codes_of(element)
            for code in self.draw.sample(codes, 2 if len(codes) > 1 and self.happens(0.04) else 1):
                self.put(said, name.replace("[x]", code[0].upper() + code[1:]), element, code, depth)

    def is_simple(self, element):
        return "type" in element and all(self.types.kind(it["code"]) in ("primitive-type", "system") for it in element["type"])

    def put(self, said, property, element, code, depth):
        length = self.draw.choice((1, 2, 2, 3) if depth else (1, 2, 3, 4, 4)) if element["max"] == "*" else 1
        if self.types.kind(code) in ("primitive-type", "system"):
            self.put_primitives(said, property, element, code, length, depth)
            return
        values = [self.value(element, code, depth + 1) for _ in range(length)]
        said[property] = values if element["max"] == "*" else values[0]

    def put_primitives(self, said, property, element, code, length, depth):
        values, companions = [], []
        for _ in range(length):
            has_companion = code in POOLS and self.types.kind(code) != "system" and self.happens(0.18)
            values.append(None if has_companion and self.happens(0.5) else self.draw.choice(POOLS[code]) if code in POOLS else "<div/>")
            companions.append(self.companion(depth + 1) if has_companion else None)
        for name, found in ((property, values), (f"_{property}", companions)):
            if any(it is not None for it in found):
                said[name] = found if element["max"] == "*" else found[0]

    def companion(self, depth):
        made = {"id": self.draw.choice("abt")} if self.happens(0.5) else {}
        if not made or self.happens(0.4):
            made["extension"] = [self.extension(depth)]
        return made

    def extension(self, depth):
        made = {"url": self.draw.choice("uv")}
        if self.happens(0.6) or depth >= DEEPEST:
            self.put(made, *self.draw.choice(EXTENDED), depth)
        else:
            made["extension"] = [self.extension(depth + 1) for _ in range(self.draw.choice((1, 2)))]
        return made

    def value(self, element, code, depth):
        """A value of a complex type, of an element with children of its own, or a resource; often one that is equal to another of its type."""
        if code == "Resource":
            return self.resource(self.draw.choice(("Made", "Other", "Other")), depth)
        if code == "Extension":
            return self.extension(depth)
        node = element.get("contentReference", "#" + element["id"])[1:]
        node = node if node in self.types.elements else code
        kept = self.kept.setdefault("parts" if code == "BackboneElement" else code, [])
        if kept and self.happens(0.45):
            return self.varied(self.draw.choice(kept))
        made = {}
        if code in ("Quantity", "Age") and self.happens(0.6):
            made = {"value": self.draw.choice(DECIMALS[:12]), "unit": "mg", "system": UCUM, "code": "mg"}
        while not made:
            self.fill(made, node, depth, 0.65)
        kept.append(made)
        return copy.deepcopy(made)

    def varied(self, value):
        """A copy of a value, sometimes without one of its members."""
        made = copy.deepcopy(value)
        names = [it for it in made if len(made) > 1 and f"_{it}" not in made and not it.startswith("_")]
        if names and self.happens(0.3):
            del made[self.draw.choice(names)]
        return made


EXTENDED = [
    (f"value{code[0].upper()}{code[1:]}", {"max": "1"}, code) for code in ("boolean", "integer", "decimal", "string", "code", "date", "dateTime", "time")
]
