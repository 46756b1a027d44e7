"""A JSON schema of what a FHIR profile and the types below it say, for comparisons.

It leaves out what a JSON schema of draft 7 can't say: arrays that are parallel, days that exist, the order of dates, and how many items a
slice has at most. Slices are those that a fixed value in a property tells apart. Of bindings those are read that are required, by a
profile, to value sets that list their codes.
"""

import json
import re

SYSTEM = "http://hl7.org/fhirpath/System."
DATE = r"[0-9]{4}(-(0[1-9]|1[0-2])(-(0[1-9]|[12][0-9]|3[01]))?)?"
DAY = r"[0-9]{4}-[0-9]{2}-[0-9]{2}"
TIME = r"([01][0-9]|2[0-3]):[0-5][0-9]:([0-5][0-9]|60)(\.[0-9]+)?"
ZONE = r"(Z|[+-]((0[0-9]|1[0-3]):[0-5][0-9]|14:00))"
RELATIVE = r"[A-Z][A-Za-z]*/[A-Za-z0-9.-]{1,64}(/_history/[A-Za-z0-9.-]{1,64})?$"
COMPANION = {"$ref": "#/definitions/Companion"}


def text(pattern):
    return {"type": "string", "pattern": f"^({pattern})$"}


def whole(least):
    return {"type": "integer", "minimum": least, "maximum": 2**31 - 1}


PRIMITIVES = {
    "boolean": {"type": "boolean"},
    "integer": whole(-(2**31)),
    "unsignedInt": whole(0),
    "positiveInt": whole(1),
    "decimal": {"type": "number"},
    "string": text(r"[^\u0000-\u0008\u000b\u000c\u000e-\u001f]+"),
    "uri": text(r"[^ \t\r\n]+"),
    "code": text(r"[^ \t\r\n]+([ \t\r\n][^ \t\r\n]+)*"),
    "date": text(DATE),
    "dateTime": text(f"{DATE}|{DAY}T{TIME}{ZONE}"),
    "instant": text(f"{DAY}T{TIME}{ZONE}"),
    "time": text(TIME),
}


def asked(element):
    """What an element asks of a primitive value, beside its type."""
    made = {}
    for property, value in element.items():
        if property.startswith(("fixed", "pattern")):
            made["const"] = value
        elif property == "maxLength":
            made["maxLength"] = value
        elif property.startswith(("minValue", "maxValue")) and isinstance(value, (int, float)):
            made["minimum" if property.startswith("min") else "maximum"] = value
    return made


def targeted(targets):
    """A reference: one that is relative has the type of a target."""
    types = "|".join(it.rsplit("/", 1)[1] for it in targets)
    return {"properties": {"reference": {"pattern": f"^(?!{RELATIVE})|^({types})/"}}}


def several(value, least):
    return {"type": "array", "minItems": least, "items": value}


def or_null(value):
    return {"anyOf": [{"type": "null"}, value]}


def listed(value_set):
    """The codes that a value set lists, if it lists them all."""
    parts = [it.get("concept") for it in value_set["compose"]["include"]]
    return [it["code"] for part in parts for it in part] if all(parts) else None


class Writer:
    """The definitions of a package, and the profile that is written."""

    def __init__(self, path, url):
        with open(path, encoding="utf-8") as file:
            resources = [it["resource"] for it in json.load(file)["entry"]]
        structures = [it for it in resources if it["resourceType"] == "StructureDefinition"]
        self.types = {it["type"]: it for it in structures if it["derivation"] != "constraint"}
        self.profile = next(it for it in structures if it["url"] == url)
        self.codes = {it["url"]: listed(it) for it in resources if it["resourceType"] == "ValueSet"}

    def children(self, definition, id):
        """The elements below one, by their names."""
        below = re.compile(re.escape(id) + r"\.([^.:]+)")
        found = ((below.fullmatch(it["id"]), it) for it in definition["snapshot"]["element"])
        return {match.group(1): it for match, it in found if match}

    def slices(self, own):
        """Of each slice of a profile's element its element, and a schema of the items in it."""
        name = re.compile(re.escape(own.get("id", ".")) + r":[^.:]+")
        for slice in (it for it in self.profile["snapshot"]["element"] if name.fullmatch(it["id"])):
            children = self.children(self.profile, slice["id"])
            fixed = {it["path"]: asked(children[it["path"]]) for it in own["slicing"]["discriminator"]}
            yield slice, {"type": "object", "properties": fixed, "required": [*fixed]}

    def item(self, definition, element, code, own):
        """A value that may be in a slice, and then is as the slice's element asks, which has all that the others have."""
        made = self.value(definition, element, code, own)
        for slice, belongs in self.slices(own):
            made = {"if": belongs, "then": self.object(self.types[code], code, slice["id"]), "else": made}
        return made

    def bound(self, own):
        """What a profile's element asks of a code."""
        binding = own.get("binding", {})
        codes = self.codes.get(binding.get("valueSet")) if binding.get("strength") == "required" else None
        return {"enum": codes} if codes else {}

    def value(self, definition, element, code, own):
        """A value of a type: `element` is the type's, and `own` the profile's, or empty."""
        if code.startswith(SYSTEM):
            return {"type": "string", "minLength": 1}
        if code in PRIMITIVES:
            return {**PRIMITIVES[code], **asked(own), **self.bound(own)}
        if self.children(definition, element["id"]):
            return self.object(definition, element["id"], own.get("id"))
        if own and self.children(self.profile, own["id"]):
            return self.object(self.types[code], code, own["id"])
        entries = own.get("type", element["type"])
        targets = next((it["targetProfile"] for it in entries if it["code"] == code and "targetProfile" in it), None)
        reference = {"$ref": f"#/definitions/{code}"}
        return {"allOf": [reference, targeted(targets)]} if targets else reference

    def object(self, definition, id, own_id):
        """An object of the type's element, and of the profile's."""
        owns = self.children(self.profile, own_id) if own_id else {}
        made, required = {}, []
        for name, element in self.children(definition, id).items():
            own = owns.get(name, {})
            least = own.get("min", element["min"])
            allowed = {it["code"] for it in own.get("type", element["type"])}
            codes = [it["code"] for it in element["type"] if it["code"] in allowed]
            for code in codes:
                property = name.replace("[x]", code[0].upper() + code[1:])
                value = self.item(definition, element, code, own)
                self.put(made, property, value, code in PRIMITIVES, least if element["max"] not in ("0", "1") else None)
                there = [{"contains": belongs} for slice, belongs in self.slices(own) if slice["min"]]
                made[property].update({"allOf": there} if there else {})
            if least and len(codes) == 1:
                required.append(property)
        if definition["kind"] == "resource" and "." not in id:
            made["resourceType"] = {"const": definition["type"]}
        return {"type": "object", "minProperties": 1, "additionalProperties": False, "properties": made, "required": required}

    def put(self, made, property, value, is_primitive, least):
        """Puts in a property, with its companion where it is primitive; `least` is none where one value stands."""
        if least is None:
            made[property] = value
            if is_primitive:
                made["_" + property] = COMPANION
        else:
            made[property] = several(or_null(value) if is_primitive else value, max(least, 1))
            if is_primitive:
                made["_" + property] = several(or_null(COMPANION), 1)


def json_schema(path, url):
    """Of a profile of a package, which is one file."""
    writer = Writer(path, url)
    definitions = {it: writer.object(found, it, None) for it, found in writer.types.items() if found["kind"] != "primitive-type"}
    definitions["Companion"] = definitions.get("Element", False)
    concrete = (it for it, found in writer.types.items() if found["kind"] == "resource" and not found["abstract"])
    definitions["Resource"] = {"anyOf": [{"$ref": f"#/definitions/{it}"} for it in concrete]}
    type = writer.profile["type"]
    head = {"$schema": "http://json-schema.org/draft-07/schema#", "definitions": definitions}
    return {**head, **writer.object(writer.types[type], type, type)}
