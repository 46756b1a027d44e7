"""What the packages and the resources of tests/modelled have in common: the types, which are of FHIR's form, value sets and code systems, and values."""

import decimal
import json
import re

SITE = "http://example.org/made/"
SYSTEM_STRING = "http://hl7.org/fhirpath/System.String"
SYSTEMS = [SITE + "red", SITE + "blue", SITE + "green"]
CODES = ["a", "b", "c"]
DECIMALS = [decimal.Decimal(it) for it in ("1", "1.0", "2.5", "3")]
DATES = ["2020", "2020-05", "2020-05-17", "2021-02"]
TEXTS = ["a", "b", "abc"]
URLS = [SITE + it for it in ("height", "width", "extension-one")]
VALUES = {
    "string": TEXTS, "code": CODES, "uri": SYSTEMS, "integer": [0, 1, 2], "decimal": DECIMALS, "boolean": [True, False], "date": DATES,
    SYSTEM_STRING: URLS,
}
PATTERNS = {
    "Coding": [{"system": SYSTEMS[0]}, {"code": "a"}, {"system": SYSTEMS[0], "code": "b"}, {"system": SYSTEMS[1]}],
    "CodeableConcept": [{"coding": [{"system": SYSTEMS[0]}]}, {"coding": [{"code": "a"}, {"code": "b"}]}, {"text": "a"}],
    "Period": [{"start": "2020"}, {"end": "2020-05"}],
    "Extension": [{"url": URLS[0]}],
    "Reference": [{"reference": "Other/1"}],
}
# The profiles that types name; the versions of all of them are 1.
NAMED = {
    "Coding": ["coding-one", "coding-two"], "Extension": ["extension-one"], "Other": ["other-one"], "Thing": ["thing-one"], "Period": ["period-one"],
}
TARGETS = [SITE + it for it in ("Resource", "DomainResource", "Other", "Thing", "other-one", "thing-one")]
NOWHERE = SITE + "nowhere"
VALUE_SETS = [f"{SITE}set-{number}" for number in range(6)]
PAIRS = 8


def written(value):
    """The JSON text of a value, in which a decimal keeps its digits."""
    mark = "decimal "
    return re.sub(f'"{mark}([^"]*)"', r"\1", json.dumps(value, default=lambda it: f"{mark}{it}"))


def maybe(draw, chance):
    return draw.random() < chance


def alike(text):
    """Texts of the kind of one."""
    return next((it for it in (CODES, TEXTS, SYSTEMS, DATES, URLS) if text in it), TEXTS)


# ---- the types, which are of FHIR's form


def element(identifier, least, most, *types, **more):
    entries = [it if isinstance(it, dict) else {"code": it} for it in types]
    return {"id": identifier, "path": re.sub(r":[^.]*", "", identifier), "min": least, "max": most, **({"type": entries} if types else {}), **more}


def must(key, expression, severity="error"):
    return {"key": key, "severity": severity, "human": key, "expression": expression}


def definition(url, type_of, kind, elements, base, derivation="constraint", is_abstract=False):
    said = {"resourceType": "StructureDefinition", "url": SITE + url, "version": "1", "kind": kind, "abstract": is_abstract, "type": type_of}
    return {**said, "derivation": derivation, **({"baseDefinition": base} if base else {}), "snapshot": {"element": elements}}


def a_type(name, kind, elements, base, is_abstract=False, **root):
    return definition(name, name, kind, [element(name, 0, "*", **root), *elements], base and SITE + base, "specialization", is_abstract)


def data_type(name, *elements, kind="complex-type", base="Element", is_abstract=False):
    """A type that has an id and extensions. A complex one has HL7's own constraint that an element has a value or a child, and a primitive one
    hasn't: else that would refuse, too, what JSON may not have."""
    own = [element(f"{name}.id", 0, "1", SYSTEM_STRING), element(f"{name}.extension", 0, "*", "Extension")]
    said = must("ele-1", "hasValue() or (children().count() > id.count())")
    return a_type(name, kind, [*own, *elements], base, is_abstract, constraint=[said] if kind == "complex-type" else [])


def resource_type(name, *elements, base="DomainResource", is_abstract=False):
    own = [element(f"{name}.id", 0, "1", SYSTEM_STRING)]
    if base:
        own += [element(f"{name}.contained", 0, "*", "Resource")]
        own += [element(f"{name}.{it}", 0, "*", "Extension") for it in ("extension", "modifierExtension")]
    return a_type(name, "resource", [*own, *elements], base, is_abstract)


def all_types():
    yield data_type("Element", base=None, is_abstract=True)
    for name in ("string", "code", "uri", "boolean", "integer", "decimal", "date"):
        value = element(f"{name}.value", 0, "1", SYSTEM_STRING)
        yield data_type(name, value, kind="primitive-type", base="string" if name == "code" else "Element")
    yield data_type("BackboneElement", element("BackboneElement.modifierExtension", 0, "*", "Extension"), is_abstract=True)
    parts = [("system", "uri"), ("code", "code"), ("display", "string")]
    yield data_type("Coding", *(element(f"Coding.{name}", 0, "1", code) for name, code in parts))
    coding, text = element("CodeableConcept.coding", 0, "*", "Coding"), element("CodeableConcept.text", 0, "1", "string")
    yield data_type("CodeableConcept", coding, text)
    in_order = must("per-1", "start.empty() or end.empty() or start <= end")
    period = data_type("Period", element("Period.start", 0, "1", "date"), element("Period.end", 0, "1", "date"))
    period["snapshot"]["element"][0]["constraint"].append(in_order)
    yield period
    yield data_type("Reference", element("Reference.reference", 0, "1", "string"), element("Reference.display", 0, "1", "string"))
    url, value = element("Extension.url", 1, "1", SYSTEM_STRING), element("Extension.value[x]", 0, "1", "string", "code", "Coding", "boolean")
    yield data_type("Extension", url, value)
    yield resource_type("Resource", base=None, is_abstract=True)
    yield resource_type("DomainResource", base="Resource", is_abstract=True)
    about = element("Other.about", 0, "*", "Reference", constraint=[must("other-1", "%resource.title.exists()")])
    yield resource_type("Other", element("Other.title", 0, "1", "string"), about)
    yield resource_type("Thing", *things())


def things():
    """The elements of the resource of which most profiles are."""
    for name, most, code in [
        ("title", "1", "string"), ("note", "*", "string"), ("count", "1", "integer"), ("score", "*", "decimal"), ("level", "1", "decimal"),
        ("day", "1", "date"), ("status", "1", "code"), ("topic", "*", "CodeableConcept"), ("tag", "*", "Coding"), ("period", "*", "Period"),
        ("about", "*", "Reference"),
    ]:
        yield element(f"Thing.{name}", 0, most, code)
    yield element("Thing.value[x]", 0, "1", "string", "integer", "Coding", "boolean")
    yield element("Thing.part", 0, "*", "BackboneElement", constraint=[must("part-1", "text.count() < 3")])
    yield element("Thing.part.id", 0, "1", SYSTEM_STRING)
    yield element("Thing.part.extension", 0, "*", "Extension")
    yield element("Thing.part.modifierExtension", 0, "*", "Extension")
    yield element("Thing.part.kind", 1, "1", "code")
    yield element("Thing.part.text", 0, "*", "string")
    yield element("Thing.part.reading[x]", 0, "1", "string", "Coding", "integer")
    yield element("Thing.part.subject", 0, "1", "Resource")
    yield element("Thing.part.part", 0, "*", contentReference="#Thing.part")


TYPES = {it["type"]: it for it in all_types()}


# ---- value sets and code systems


def code_systems(draw):
    for url in SYSTEMS:
        concepts = []
        for code in draw.sample([*CODES, "d"], draw.choice([1, 2, 3])):
            (concepts[-1].setdefault("concept", []) if concepts and maybe(draw, 0.4) else concepts).append({"code": code})
        content = draw.choice(["complete"] * 6 + ["fragment"])
        yield {"resourceType": "CodeSystem", "url": url, "status": "active", "content": content, "concept": concepts, **version(draw, 0.6)}


def version(draw, chance):
    return {"version": draw.choice("112")} if maybe(draw, chance) else {}


def include(draw):
    """Concepts of a system, some or all of them, or those of other value sets, or what both have. Few can't be told."""
    made, way = {}, draw.random()
    if way < 0.8:
        made["system"] = draw.choice(SYSTEMS) if maybe(draw, 0.97) else NOWHERE
        if maybe(draw, 0.5):
            made["concept"] = [{"code": it} for it in draw.sample(CODES, draw.choice([1, 2]))]
        made.update(version(draw, 0.3))
    if way > 0.6:
        made["valueSet"] = [it + draw.choice(["", "", "|1"]) for it in draw.sample(VALUE_SETS, draw.choice([1, 1, 2]))]
    if maybe(draw, 0.02):
        made["filter"] = [{"property": "p", "op": "=", "value": "v"}]
    return made


def listed(draw):
    return {"system": draw.choice(SYSTEMS[:2]), "concept": [{"code": it} for it in draw.sample(CODES, draw.choice([1, 2]))]}


def value_sets(draw):
    """The first two list concepts alone, so that others have something to rest on."""
    for number, url in enumerate(VALUE_SETS):
        if number < 2:
            compose = {"include": [listed(draw) for _ in range(2)]}
        else:
            compose = {"include": [include(draw) for _ in range(draw.choice([1, 1, 2]))]}
            if maybe(draw, 0.5):
                compose["exclude"] = [include(draw) if maybe(draw, 0.3) else listed(draw)]
        yield {"resourceType": "ValueSet", "url": url, "status": "active", "compose": compose, **version(draw, 0.2)}
