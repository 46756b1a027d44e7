#!/usr/bin/env python3
"""Writes the made pairs of tests/data/counterexamples: definitions into made.txt, pairs of profiles into made-pairs.txt. Of the types of R4's
form in examples/given it writes r4.txt, r4-pairs.txt, and the unread rules that a user vouches for into r4-given.txt.

Each pair is of a profile that should be wider than its base, at one element and in one respect: how many items there are, their types, a
fixed value, a pattern, a binding, a length, bounds, closed slices, or how many items a slice has. Around it the derived profile has more
rules, so that a resource has to meet these too. Run it with a number of pairs for each respect; what it writes is the same each time."""

import json
import pathlib
import random
import sys

ROOT = pathlib.Path(__file__).resolve().parent.parent
DATA = ROOT / "tests/data/counterexamples"
BASE = "http://hl7.org/fhir/StructureDefinition/"
OWN = "http://example.org/made/"
TEXT = "http://hl7.org/fhirpath/System.String"
PRIMITIVES = (
    "boolean integer unsignedInt positiveInt decimal string markdown code id uri url canonical "
    "date dateTime instant time oid uuid base64Binary"
).split()
ELEMENT = "hasValue() or (children().count() > id.count())"


def element(path, low, high, *types, **more):
    made = {"id": path, "path": path, "min": low, "max": high}
    if types:
        made["type"] = [{"code": it} if isinstance(it, str) else it for it in types]
    made.update(more)
    return made


def constraint(key, expression):
    return {"key": key, "severity": "error", "expression": expression}


def definition(name, kind, base, elements, is_abstract=False):
    return {
        "resourceType": "StructureDefinition",
        "url": BASE + name,
        "name": name,
        "kind": kind,
        "abstract": is_abstract,
        "type": name,
        "baseDefinition": BASE + base,
        "derivation": "specialization",
        "snapshot": {"element": elements},
    }


def primitive(name):
    return definition(
        name,
        "primitive-type",
        "Element",
        [
            element(name, 0, "*", constraint=[constraint("ele-1", ELEMENT)]),
            element(f"{name}.id", 0, "1", TEXT),
            element(f"{name}.extension", 0, "*", "Extension"),
            element(f"{name}.value", 0, "1", TEXT),
        ],
    )


def complex_type(name, *children, constraints=()):
    rules = [constraint("ele-1", ELEMENT), *constraints]
    return definition(
        name,
        "complex-type",
        "Element",
        [
            element(name, 0, "*", constraint=rules),
            element(f"{name}.id", 0, "1", TEXT),
            element(f"{name}.extension", 0, "*", "Extension"),
            *children,
        ],
    )


def backbone(path):
    return [
        element(f"{path}.id", 0, "1", TEXT),
        element(f"{path}.extension", 0, "*", "Extension"),
        element(f"{path}.modifierExtension", 0, "*", "Extension"),
    ]


def resource(name, *children, constraints=()):
    rules = [constraint("dom-2", "contained.contained.empty()"), *constraints]
    return definition(
        name,
        "resource",
        "DomainResource",
        [
            element(name, 0, "*", constraint=rules),
            element(f"{name}.id", 0, "1", "id"),
            element(f"{name}.contained", 0, "*", "Resource"),
            element(f"{name}.extension", 0, "*", "Extension"),
            *children,
        ],
    )


CHOICE = ["string", "code", "uri", "boolean", "decimal", "integer", "date", "dateTime", "Coding", "CodeableConcept", "Quantity", "Reference"]


def types():
    yield definition("Element", "complex-type", "Nothing", [element("Element", 0, "*"), element("Element.id", 0, "1", TEXT), element("Element.extension", 0, "*", "Extension")], True)
    yield definition("Resource", "resource", "Nothing", [element("Resource", 0, "*"), element("Resource.id", 0, "1", "id")], True)
    yield definition("DomainResource", "resource", "Resource", [element("DomainResource", 0, "*"), element("DomainResource.id", 0, "1", "id"), element("DomainResource.contained", 0, "*", "Resource"), element("DomainResource.extension", 0, "*", "Extension")], True)
    yield from map(primitive, PRIMITIVES)
    yield complex_type("Extension", element("Extension.url", 1, "1", TEXT), element("Extension.value[x]", 0, "1", *CHOICE), constraints=[constraint("ext-1", "extension.exists() != value.exists()")])
    yield complex_type("BackboneElement", element("BackboneElement.modifierExtension", 0, "*", "Extension"))
    yield complex_type("Coding", element("Coding.system", 0, "1", "uri"), element("Coding.code", 0, "1", "code"), element("Coding.display", 0, "1", "string"))
    yield complex_type("CodeableConcept", element("CodeableConcept.coding", 0, "*", "Coding"), element("CodeableConcept.text", 0, "1", "string"))
    yield complex_type("Quantity", element("Quantity.value", 0, "1", "decimal"), element("Quantity.unit", 0, "1", "string"), element("Quantity.system", 0, "1", "uri"), element("Quantity.code", 0, "1", "code"), constraints=[constraint("qty-3", "code.empty() or system.exists()")])
    yield complex_type("Period", element("Period.start", 0, "1", "dateTime"), element("Period.end", 0, "1", "dateTime"), constraints=[constraint("per-1", "start.hasValue().not() or end.hasValue().not() or (start <= end)")])
    yield complex_type("HumanName", element("HumanName.use", 0, "1", "code"), element("HumanName.family", 0, "1", "string"), element("HumanName.given", 0, "*", "string"), element("HumanName.period", 0, "1", "Period"))
    yield complex_type("Identifier", element("Identifier.system", 0, "1", "uri"), element("Identifier.value", 0, "1", "string"), element("Identifier.period", 0, "1", "Period"))
    yield complex_type("Reference", element("Reference.reference", 0, "1", "string"), element("Reference.display", 0, "1", "string"))
    yield resource("Patient", element("Patient.identifier", 0, "*", "Identifier"), element("Patient.active", 0, "1", "boolean"), element("Patient.name", 0, "*", "HumanName"), element("Patient.birthDate", 0, "1", "date"))
    yield resource("Group", element("Group.identifier", 0, "*", "Identifier"), element("Group.quantity", 0, "1", "unsignedInt"))
    yield resource("Sheet", *sheet())
    yield resource("Form", *form(), constraints=[constraint("frm-1", "title.exists() or note.exists()")])


def sheet():
    yield element("Sheet.identifier", 0, "*", "Identifier")
    yield element("Sheet.status", 1, "1", "code", binding={"strength": "required", "valueSet": OWN + "vs/status"})
    yield element("Sheet.category", 0, "*", "CodeableConcept")
    yield element("Sheet.code", 1, "1", "CodeableConcept")
    yield element("Sheet.tag", 0, "*", "Coding")
    yield element("Sheet.label", 0, "*", "string")
    yield element("Sheet.subject", 0, "1", {"code": "Reference", "targetProfile": [BASE + "Patient", BASE + "Group"]})
    yield element("Sheet.about", 0, "*", "Reference")
    yield element("Sheet.issued", 0, "1", "instant")
    yield element("Sheet.day", 0, "1", "date")
    yield element("Sheet.time", 0, "1", "time")
    yield element("Sheet.count", 0, "1", "integer")
    yield element("Sheet.number", 0, "1", "positiveInt")
    yield element("Sheet.amount", 0, "1", "decimal")
    yield element("Sheet.note", 0, "1", "markdown")
    yield element("Sheet.kind", 0, "1", "code")
    yield element("Sheet.value[x]", 0, "1", "decimal", "integer", "string", "boolean", "dateTime", "CodeableConcept", "Quantity")
    yield element("Sheet.part", 0, "*", "BackboneElement")
    yield from backbone("Sheet.part")
    yield element("Sheet.part.name", 1, "1", "string")
    yield element("Sheet.part.code", 0, "1", "CodeableConcept")
    yield element("Sheet.part.value[x]", 0, "1", "decimal", "integer", "string", "date", "Quantity")
    yield element("Sheet.part.size", 0, "1", "integer")
    yield element("Sheet.part.who", 0, "*", "HumanName")
    yield element("Sheet.part.part", 0, "*", contentReference="#Sheet.part")


def form():
    yield element("Form.url", 0, "1", "uri")
    yield element("Form.title", 0, "1", "string")
    yield element("Form.note", 0, "1", "string")
    yield element("Form.status", 1, "1", "code")
    yield element("Form.item", 0, "*", "BackboneElement")
    yield from backbone("Form.item")
    yield element("Form.item.linkId", 1, "1", "string")
    yield element("Form.item.text", 0, "1", "string")
    yield element("Form.item.kind", 1, "1", "code", binding={"strength": "required", "valueSet": OWN + "vs/kinds"})
    yield element("Form.item.answer[x]", 0, "1", "string", "integer", "Coding")
    yield element("Form.item.item", 0, "*", contentReference="#Form.item")


def value_set(name, system, codes):
    url = OWN + "vs/" + name
    include = {"system": OWN + "cs/" + system, "concept": [{"code": it} for it in codes]}
    return {"resourceType": "ValueSet", "url": url, "compose": {"include": [include]}}


SETS = {
    "status": ("status", "draft active retired"),
    "kinds": ("kinds", "group text number date"),
    "two-kinds": ("kinds", "group text"),
    "letters": ("letters", "a b c d e f"),
    "vowels": ("letters", "a e"),
    "consonants": ("letters", "b c d f"),
    "other": ("other", "a b z"),
    "colours": ("colours", "red green blue"),
}

# The elements of a resource, or of its data types, with the types that each may have.
SCALARS = {
    "string": ["Sheet.part.name", "Sheet.label", "Sheet.part.who.family", "Form.title", "Form.item.text", "Form.item.linkId", "Patient.name.family", "Patient.identifier.value", "Sheet.code.text", "Sheet.identifier.value"],
    "markdown": ["Sheet.note"],
    "code": ["Sheet.kind", "Form.status", "Patient.name.use", "Sheet.tag.code", "Sheet.code.coding.code", "Form.item.kind", "Sheet.status"],
    "uri": ["Form.url", "Sheet.identifier.system", "Sheet.tag.system"],
    "integer": ["Sheet.count", "Sheet.part.size"],
    "positiveInt": ["Sheet.number"],
    "decimal": ["Sheet.amount"],
    "date": ["Sheet.day", "Patient.birthDate"],
    "dateTime": ["Patient.name.period.start", "Sheet.identifier.period.end"],
    "instant": ["Sheet.issued"],
    "time": ["Sheet.time"],
    "boolean": ["Patient.active"],
    "unsignedInt": ["Group.quantity"],
}
OPTIONAL = [
    "Sheet.identifier", "Sheet.category", "Sheet.tag", "Sheet.label", "Sheet.subject", "Sheet.about", "Sheet.issued", "Sheet.day", "Sheet.count",
    "Sheet.note", "Sheet.value[x]", "Sheet.part", "Sheet.part.code", "Sheet.part.value[x]", "Sheet.part.who", "Sheet.part.part", "Sheet.contained",
    "Sheet.extension", "Sheet.code.coding", "Sheet.code.coding.system", "Sheet.part.who.family", "Sheet.part.extension", "Sheet.id",
    "Form.item", "Form.item.text", "Form.item.item", "Form.item.answer[x]", "Form.url", "Form.contained", "Form.item.modifierExtension",
    "Patient.name", "Patient.name.given", "Patient.name.period", "Patient.name.period.start", "Patient.identifier", "Patient.birthDate", "Patient.active",
]
REPEATING = [
    "Sheet.identifier", "Sheet.category", "Sheet.tag", "Sheet.label", "Sheet.about", "Sheet.part", "Sheet.part.who", "Sheet.part.part", "Sheet.contained",
    "Sheet.extension", "Sheet.code.coding", "Sheet.part.who.given", "Form.item", "Form.item.item", "Form.contained", "Patient.name", "Patient.name.given",
    "Patient.identifier",
]
SINGLE = ["Sheet.subject", "Sheet.day", "Sheet.count", "Sheet.note", "Sheet.value[x]", "Sheet.part.code", "Sheet.part.value[x]", "Form.url", "Form.item.text", "Form.item.answer[x]", "Patient.birthDate", "Patient.name.family", "Sheet.part.who.period"]
CHOICES = {
    "Sheet.value[x]": ["decimal", "integer", "string", "boolean", "dateTime", "CodeableConcept", "Quantity"],
    "Sheet.part.value[x]": ["decimal", "integer", "string", "date", "Quantity"],
    "Form.item.answer[x]": ["string", "integer", "Coding"],
    "Sheet.extension.value[x]": CHOICE,
    "Sheet.part.extension.value[x]": CHOICE,
}
VALUES = {
    "string": ["x", "some text", "Ward 7"],
    "markdown": ["*x*", "a note"],
    "code": ["a", "b", "red"],
    "uri": ["urn:a", "http://example.org/b"],
    "integer": [0, 7, -3],
    "positiveInt": [1, 12],
    "unsignedInt": [0, 5],
    "decimal": ["1.50", "0.01"],
    "date": ["2000-01-01", "2024-02", "1999"],
    "dateTime": ["2000-01-01", "2024-02-29T10:00:00Z"],
    "instant": ["2000-01-01T00:00:00Z", "2024-02-29T10:00:00Z"],
    "time": ["12:00:00", "00:00:00"],
    "boolean": [True, False],
}
CONCEPTS = {"path": ["Sheet.code", "Sheet.category", "Sheet.part.code"], "coding": ["Sheet.tag", "Sheet.code.coding"]}


class Decimal(float):
    """A number that keeps its digits."""

    def __new__(cls, text):
        made = super().__new__(cls, text)
        made.text = text
        return made

    def __repr__(self):
        return self.text


def plain(value):
    return Decimal(value) if isinstance(value, str) and value.replace(".", "").isdigit() and "." in value else value


def upper(code):
    return code[0].upper() + code[1:]


OF_TYPES = {it["id"] for made in types() if made["type"] in ("Patient", "Group", "Sheet", "Form") for it in made["snapshot"]["element"]}


def with_parents(elements):
    """The elements, with those of data types above them that the type of the resource doesn't have itself."""
    made, seen = [], set()
    for it in elements:
        parts = it["path"].split(".")
        for count in range(3, len(parts)):
            above = ".".join(parts[:count])
            if above not in OF_TYPES and above not in seen and all(other["id"] != above for other in elements):
                made.append({"id": above, "path": above})
                seen.add(above)
        made.append(it)
    return made


class Maker:
    def __init__(self, seed):
        self.random = random.Random(seed)
        self.profiles = []
        self.pairs = []

    def choose(self, items):
        return self.random.choice(list(items))

    def profile(self, type_code, elements, parent=None):
        name = f"p{len(self.profiles)}"
        self.profiles.append(
            {
                "resourceType": "StructureDefinition",
                "url": OWN + name,
                "name": name,
                "kind": "resource",
                "abstract": False,
                "type": type_code,
                "baseDefinition": parent or BASE + type_code,
                "derivation": "constraint",
                "differential": {"element": elements},
            }
        )
        return OWN + name

    def noise(self, type_code, place):
        """Rules of other elements, which the derived profile has besides."""
        stem = ".".join(place.split(".")[:2])
        places = [it for it in OPTIONAL if it.startswith(type_code + ".") and it.count(".") == 1 and it != stem]
        # A resource in a resource can't have others, and an extension is told by its url.
        places = [it for it in places if "contained" not in it]
        made = [{"id": it, "path": it, "min": 1} for it in self.random.sample(places, min(len(places), self.choose([0, 1, 2])))]
        if type_code == "Sheet" and self.random.random() < 0.3 and stem != "Sheet.category" and not any(it["id"] == "Sheet.category" for it in made):
            made += self.slices("Sheet.category", {"lab": ("lab", 1, "1"), "vs": ("vs", 0, "*")}, "open")
        if self.random.random() < 0.2:
            rules = {"Sheet": "day.exists() or count.exists()", "Form": "url.exists()", "Patient": "name.exists() implies birthDate.exists()", "Group": "quantity.exists() xor identifier.exists()"}
            if not stem.endswith((".day", ".count", ".url", ".name", ".birthDate", ".quantity")):
                made.insert(0, {"id": type_code, "path": type_code, "constraint": [constraint("own-1", rules[type_code])]})
        return made

    def pair(self, place, own, base):
        """A pair of a profile with some rules at a place, and noise, and of one with other rules there."""
        type_code = place.split(".")[0]
        noise = self.noise(type_code, place)
        own, base = with_parents([*noise, *own]), with_parents(base)
        derived = self.profile(type_code, own) if own else BASE + type_code
        self.pairs.append((derived, self.profile(type_code, base)))

    def slices(self, place, slices, rules):
        made = [{"id": place, "path": place, "slicing": {"discriminator": [{"type": "pattern", "path": "$this"}], "rules": rules}}]
        for name, (code, low, high) in slices.items():
            pattern = {"coding": [{"code": code}]} if place.endswith(("category", ".code")) else {"code": code}
            key = "patternCodeableConcept" if place.endswith(("category", ".code")) else "patternCoding"
            made.append({"id": f"{place}:{name}", "path": place, "sliceName": name, "min": low, "max": high, key: pattern})
        return made

    # ---- one respect each

    def least(self):
        place = self.choose(OPTIONAL)
        self.pair(place, [], [{"id": place, "path": place, "min": self.choose([1, 1, 2]) if place in REPEATING else 1}])

    def most(self):
        place = self.choose(REPEATING + SINGLE)
        most = self.choose(["0", "1", "2", "3"]) if place in REPEATING else "0"
        own = [{"id": place, "path": place, "max": str(int(most) + self.choose([1, 2]))}] if place in REPEATING and self.random.random() < 0.3 else []
        self.pair(place, own, [{"id": place, "path": place, "max": most}])

    def types(self):
        if self.random.random() < 0.25:
            return self.targets()
        place = self.choose(CHOICES)
        codes = CHOICES[place]
        narrow = self.random.sample(codes, self.choose([1, 2]))
        own = []
        if self.random.random() < 0.4:
            wide = [it for it in codes if it in narrow or self.random.random() < 0.5]
            if len(wide) > len(narrow):
                own = [{"id": place, "path": place, "type": [{"code": it} for it in wide]}]
        self.pair(place, own, [{"id": place, "path": place, "type": [{"code": it} for it in narrow]}])

    def targets(self):
        place = self.choose(["Sheet.subject", "Sheet.about"])
        target = self.choose(["Patient", "Group"])
        self.pair(place, [], [{"id": place, "path": place, "type": [{"code": "Reference", "targetProfile": [BASE + target]}]}])

    def scalar(self):
        code = self.choose(SCALARS)
        return code, self.choose(SCALARS[code])

    def fixed(self):
        if self.random.random() < 0.2:
            return self.coded("fixed")
        while True:
            code, place = self.scalar()
            if code in VALUES and place not in ("Sheet.status", "Form.item.kind"):
                break
        value = plain(self.choose(VALUES[code]))
        self.pair(place, [], [{"id": place, "path": place, "fixed" + upper(code): value}])

    def coded(self, what):
        kind = self.choose(CONCEPTS)
        place = self.choose(CONCEPTS[kind])
        coding = {"system": OWN + "cs/letters", "code": self.choose("abc")}
        value = coding if kind == "coding" else {"coding": [coding]}
        code = "Coding" if kind == "coding" else "CodeableConcept"
        own = []
        if what == "pattern" and self.random.random() < 0.5:
            part = {"code": coding["code"]} if self.random.random() < 0.5 else {"system": coding["system"]}
            own = [{"id": place, "path": place, "pattern" + code: part if kind == "coding" else {"coding": [part]}}]
        self.pair(place, own, [{"id": place, "path": place, what + code: value}])

    def pattern(self):
        if self.random.random() < 0.6:
            return self.coded("pattern")
        place = self.choose(["Sheet.identifier", "Patient.identifier", "Sheet.part.who", "Patient.name"])
        if place.endswith("identifier"):
            value = {"system": "urn:nation:id", "value": "7"} if self.random.random() < 0.5 else {"system": "urn:nation:id"}
            self.pair(place, [], [{"id": place, "path": place, "patternIdentifier": value}])
        else:
            self.pair(place, [], [{"id": place, "path": place, "patternHumanName": {"use": "official", "given": ["a"]}}])

    def binding(self):
        pairs = [("letters", "vowels"), ("letters", "consonants"), ("vowels", "consonants"), ("other", "letters"), (None, "letters"), (None, "colours"), ("kinds", "two-kinds"), ("status", "colours")]
        own_set, base_set = self.choose(pairs)
        kind = self.choose([*CONCEPTS, "code"])
        place = self.choose(["Sheet.kind", "Form.status", "Patient.name.use", "Sheet.tag.code"] if kind == "code" else CONCEPTS[kind])
        if kind == "code" and own_set == "other":
            own_set = "letters"
        own = [{"id": place, "path": place, "binding": {"strength": "required", "valueSet": OWN + "vs/" + own_set}}] if own_set else []
        self.pair(place, own, [{"id": place, "path": place, "binding": {"strength": "required", "valueSet": OWN + "vs/" + base_set}}])

    def length(self):
        code = self.choose(["string", "string", "markdown", "uri", "code"])
        place = self.choose([it for it in SCALARS[code] if it not in ("Sheet.status", "Form.item.kind")])
        most = self.choose([1, 5, 20, 200])
        own = [{"id": place, "path": place, "maxLength": most * self.choose([2, 10])}] if self.random.random() < 0.5 else []
        self.pair(place, own, [{"id": place, "path": place, "maxLength": most}])

    def range(self):
        bounds = {"integer": [-5, 3, 8, 100], "positiveInt": [2, 3, 8, 100], "decimal": ["0.5", "1.25", "7.5", "100.0"], "date": ["1990-01-01", "2000-05", "2010", "2030-12-31"], "dateTime": ["1990-01-01", "2001-05-01", "2010-01-01", "2030-12-31"], "instant": ["1990-01-01T00:00:00Z", "2001-05-01T00:00:00Z", "2010-01-01T00:00:00Z", "2030-12-31T00:00:00Z"], "time": ["01:00:00", "08:00:00", "12:00:00", "20:00:00"]}
        code = self.choose(bounds)
        place = self.choose(SCALARS[code])
        values = [plain(it) for it in bounds[code]]
        low, high = "minValue" + upper(code), "maxValue" + upper(code)
        own = {}
        if self.random.random() < 0.5:
            own = {low: values[0], high: values[3]}
        base = self.choose([{low: values[1]}, {high: values[2]}, {low: values[1], high: values[2]}])
        self.pair(place, [{"id": place, "path": place, **own}] if own else [], [{"id": place, "path": place, **base}])

    def closed(self):
        place = self.choose(["Sheet.category", "Sheet.tag", "Sheet.code.coding"])
        base = self.slices(place, {"x": ("x", 0, "*"), "y": ("y", 0, "1")}, "closed")
        own = self.choose([[], self.slices(place, {"x": ("x", 0, "*"), "y": ("y", 0, "1")}, "open"), self.slices(place, {"x": ("x", 0, "*"), "y": ("y", 0, "1"), "z": ("z", 0, "*")}, "closed")])
        self.pair(place, own, base)

    def bounds(self):
        place = self.choose(["Sheet.category", "Sheet.tag", "Sheet.code.coding"])
        low, high = self.choose([(1, "*"), (1, "1"), (0, "1"), (0, "0"), (2, "*")])
        rules = self.choose(["open", "open", "closed"])
        base = self.slices(place, {"x": ("x", low, high), "y": ("y", 0, "*")}, rules)
        wide = self.slices(place, {"x": ("x", 0, "*"), "y": ("y", 0, "*")}, rules)
        more = self.slices(place, {"x": ("x", max(low - 1, 0), "3"), "y": ("y", 0, "*")}, rules)
        self.pair(place, self.choose([wide, wide, more]), base)


RESPECTS = [Maker.least, Maker.most, Maker.types, Maker.fixed, Maker.pattern, Maker.binding, Maker.length, Maker.range, Maker.closed, Maker.bounds]


def line(made):
    name = made["url"].rsplit("/", 1)[1]
    return f"{made['resourceType']}-{name}.json {json.dumps(made, ensure_ascii=False)}\n"


# What profiles of R4's Patient ask for, and what a wider one does, if it isn't the type itself.
OF_PATIENTS = [
    ([], [{"id": "Patient.name", "path": "Patient.name", "min": 1}]),
    ([], [{"id": "Patient.gender", "path": "Patient.gender", "binding": {"strength": "required", "valueSet": OWN + "vs/two-genders"}}]),
    ([], [{"id": "Patient.name", "path": "Patient.name"}, {"id": "Patient.name.family", "path": "Patient.name.family", "maxLength": 20}]),
    ([{"id": "Patient.photo", "path": "Patient.photo", "min": 1}], [{"id": "Patient.photo", "path": "Patient.photo", "max": "1"}]),
    ([{"id": "Patient.name", "path": "Patient.name", "min": 1}], [{"id": "Patient.contained", "path": "Patient.contained", "max": "0"}]),
]


def of_r4():
    """The types and sets of examples/given, and pairs of profiles of patients."""
    for file in sorted((ROOT / "examples/given/package").glob("*.json")):
        yield f"{file.name} {json.dumps(json.loads(file.read_text()), ensure_ascii=False)}\n"
    genders = {"system": "http://hl7.org/fhir/administrative-gender", "concept": [{"code": "female"}, {"code": "male"}]}
    yield line({"resourceType": "ValueSet", "url": OWN + "vs/two-genders", "compose": {"include": [genders]}})


def write_r4():
    maker = Maker(45)
    for own, base in OF_PATIENTS:
        derived = maker.profile("Patient", own) if own else BASE + "Patient"
        maker.pairs.append((derived, maker.profile("Patient", base)))
    (DATA / "r4.txt").write_text("".join([*of_r4(), *map(line, maker.profiles)]))
    (DATA / "r4-pairs.txt").write_text("".join(f"{derived} {base}\n" for derived, base in maker.pairs))
    texts = (ROOT / "examples/given/hl7-r4.txt").read_text().split("\n")
    (DATA / "r4-given.txt").write_text("".join(f"{it}\n" for it in texts if it and not it.startswith("#")))


def main():
    each = int(sys.argv[1]) if len(sys.argv) > 1 else 30
    skipped = set(pathlib.Path(sys.argv[2]).read_text().split("\n")) if len(sys.argv) > 2 else set()
    maker = Maker(45)
    kept = []
    for respect in RESPECTS:
        count = 0
        while count < each:
            respect(maker)
            derived, base = maker.pairs.pop()
            if f"{derived} {base}" not in skipped:
                kept.append((derived, base))
                count += 1
    used = {it for pair in kept for it in pair}
    sets = [value_set(name, system, codes.split()) for name, (system, codes) in SETS.items()]
    profiles = [it for it in maker.profiles if it["url"] in used]
    (DATA / "made.txt").write_text("".join(map(line, [*types(), *sets, *profiles])))
    (DATA / "made-pairs.txt").write_text("".join(f"{derived} {base}\n" for derived, base in kept))
    write_r4()


if __name__ == "__main__":
    main()
