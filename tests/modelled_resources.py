"""Resources for tests/modelled, each made at random: some by the types alone, some changed in one place, and some with what can't stand there."""

import copy
import decimal
import re

from modelled_types import CODES, DATES, DECIMALS, SYSTEMS, TEXTS, TYPES, URLS, VALUES, alike, maybe


def put(draw, made, name, value):
    """A property of a primitive, perhaps with a companion, or with that alone."""
    made[name] = value
    if maybe(draw, 0.1):
        made["_" + name] = companion(draw)
        if maybe(draw, 0.4):
            del made[name]


def put_several(draw, made, name, values):
    """An array of a primitive, perhaps with one of companions; where one of the two has null the other has something."""
    made[name] = [draw.choice(values) for _ in range(draw.choice([1, 1, 2, 3]))]
    if maybe(draw, 0.15):
        companions = [companion(draw) if maybe(draw, 0.6) else None for _ in made[name]]
        made[name] = [None if it and maybe(draw, 0.4) else value for it, value in zip(companions, made[name])]
        made["_" + name] = companions
        for written_name in (name, "_" + name):
            if not any(it is not None for it in made[written_name]):
                del made[written_name]


def companion(draw):
    return {"id": "i"} if maybe(draw, 0.3) else {"extension": [extension(draw, 1)]}


def coding(draw):
    made = {}
    if maybe(draw, 0.8):
        put(draw, made, "system", draw.choice(SYSTEMS[:2]))
    if maybe(draw, 0.8):
        put(draw, made, "code", draw.choice(CODES))
    if maybe(draw, 0.25):
        put(draw, made, "display", draw.choice(TEXTS))
    if maybe(draw, 0.06):
        made["extension"] = [extension(draw, 1)]
    return made or {"code": "a"}


def concept(draw):
    made = {"coding": several(draw, coding)} if maybe(draw, 0.8) else {}
    return {**made, "text": draw.choice(TEXTS)} if maybe(draw, 0.4) or not made else made


def period(draw):
    made = {}
    for name in draw.choice([["start"], ["start"], ["end"], ["start", "end"]]):
        put(draw, made, name, draw.choice(DATES))
    return made


def reference(draw):
    return draw.choice([{}, {}, {"display": "a"}]) | draw.choice([
        {"reference": "Thing/1"}, {"reference": "Other/1"}, {"reference": "Other/1/_history/2"}, {"reference": "http://example.com/Other/1"},
        {"reference": "#o"}, {"reference": "Missing/1"}, {"reference": "Other"}, {"display": "b"}, {"_reference": {"extension": [extension(draw, 1)]}},
    ])


def extension(draw, depth=0):
    made = {"url": draw.choice(URLS)}
    way = draw.random()
    if way < 0.7:
        put_choice(draw, made, "value", draw.choice(["string", "string", "code", "boolean", "Coding"]) if depth == 0 else "string")
    elif way < 0.8 and depth == 0:
        made["extension"] = [extension(draw, 1)]
    return made


def put_choice(draw, made, stem, code):
    """A choice, in rare cases in two forms."""
    name = stem + code[0].upper() + code[1:]
    if code == "Coding":
        made[name] = coding(draw)
    else:
        put(draw, made, name, draw.choice(VALUES[code]))
    if maybe(draw, 0.03):
        made[stem + "Coding"] = {"code": "a"}


def part(draw, depth=0):
    made = {}
    if maybe(draw, 0.95):
        put(draw, made, "kind", draw.choice(CODES))
    if maybe(draw, 0.4):
        put_several(draw, made, "text", TEXTS)
    if maybe(draw, 0.5):
        put_choice(draw, made, "reading", draw.choice(["string", "Coding", "integer"]))
    if maybe(draw, 0.15):
        made[draw.choice(["extension", "modifierExtension"])] = [extension(draw, 1)]
    if maybe(draw, 0.15):
        made["subject"] = other(draw) if maybe(draw, 0.7) else thing(draw, 1)
    if maybe(draw, 0.3) and depth < 2:
        made["part"] = [part(draw, depth + 1) for _ in range(draw.choice([1, 1, 2]))]
    return made or {"kind": "a"}


def other(draw):
    made = {"resourceType": "Other"}
    if maybe(draw, 0.6):
        put(draw, made, "title", draw.choice(TEXTS))
    if maybe(draw, 0.3):
        made["about"] = [reference(draw)]
    return made


def several(draw, one):
    return [one(draw) for _ in range(draw.choice([1, 1, 2, 2, 3]))]


def thing(draw, depth=0, likely=()):
    """A resource that has few or many of its elements, and more of those that are likely."""
    made, usual = {"resourceType": "Thing"}, draw.choice([0.05, 0.1, 0.3]) if depth == 0 else 0.1

    def has(name):
        return maybe(draw, 0.6 if name in likely else usual)

    if has("id"):
        made["id"] = "i"
    for name, values in [("title", TEXTS), ("count", [0, 1, 2, 3]), ("level", DECIMALS), ("day", DATES), ("status", CODES)]:
        if has(name):
            put(draw, made, name, draw.choice(values))
    for name, values in [("note", TEXTS), ("score", DECIMALS)]:
        if has(name):
            put_several(draw, made, name, values)
    if has("value"):
        put_choice(draw, made, "value", draw.choice(["string", "integer", "Coding", "boolean"]))
    for name, one in [
        ("topic", concept), ("tag", coding), ("period", period), ("about", reference), ("part", part), ("extension", extension),
        ("modifierExtension", extension),
    ]:
        if has(name):
            made[name] = several(draw, one)
    if has("contained") and depth == 0:
        made["contained"] = several(draw, contained)
    return made


def contained(draw):
    """A resource in another one; few are of a type that no resource may be of."""
    if maybe(draw, 0.05):
        return {"resourceType": draw.choice(["Resource", "DomainResource"])}
    return other(draw) if maybe(draw, 0.6) else thing(draw, 1)


def resource(draw, likely):
    return other(draw) if maybe(draw, 0.03) else thing(draw, likely=likely)


def named_in(definitions, pair):
    """The names of those elements of resources of which a profile of a pair says more than the type, or something else."""
    usual = TYPES["Thing"]["snapshot"]["element"]
    said = [it for one in definitions if one["url"] in pair for it in one["snapshot"]["element"] if it not in usual]
    return sorted({re.split(r"[.:\[]", it["id"])[1] for it in said if "." in it["id"]})


def objects_in(value):
    """All objects of a JSON value, the outermost first."""
    if isinstance(value, dict):
        yield value
    if isinstance(value, (dict, list)):
        for inner in value.values() if isinstance(value, dict) else value:
            yield from objects_in(inner)


def places_in(value):
    """All objects and names of a JSON value at which a member stands; arrays with an order several times."""
    return [(at, name) for at in objects_in(value) for name in at for _ in range(3 if isinstance(at[name], list) and len(at[name]) > 1 else 1)]


def changed(draw, one, likely):
    """A resource that differs in one place, if at all: by a member of another resource, a value, a companion in its place, or the entries of an array."""
    if maybe(draw, 0.4):
        donor = thing(draw, likely=likely)
        name = draw.choice([it for it in donor if it in likely] or list(donor))
        return {**one, name: donor[name]}
    made = copy.deepcopy(one)
    at, name = draw.choice(places_in(made))
    value, way = at[name], draw.random()
    if isinstance(value, list) and way < 0.9:
        at[name] = rearranged(draw, value)
    elif name not in ("resourceType", "id") and isinstance(value, str) and way < 0.6:
        at[name] = draw.choice(alike(value))
    elif name not in ("resourceType", "id", "url") and not isinstance(value, (list, dict)) and way < 0.8:
        at["_" + name] = companion(draw)
        del at[name]
    elif name != "resourceType" and len(at) > 1:
        del at[name]
    return made


def rearranged(draw, entries):
    """An array with an entry more or less, or in another order."""
    place = draw.randrange(len(entries))
    ways = [[*entries, copy.deepcopy(entries[place])], entries[::-1], draw.sample(entries, len(entries))]
    if len(entries) > 1:
        ways += [entries[:place] + entries[place + 1:]] * 2
    return draw.choice(ways)


def spoilt(draw, one):
    """A resource that differs in one place by what JSON or a type may not have there, as most of these."""
    made = copy.deepcopy(one)
    at, name = draw.choice(places_in(made))
    value, beside = at[name], "_" + name.lstrip("_")
    ways = [{name: it} for it in (None, [], {}, "")] + [{"unknown": 1}, {"_unknown": {"id": "i"}}]
    ways += [{"resourceType": draw.choice(["Resource", "Coding", "Missing"])}]
    if isinstance(value, list):
        ways += [{name: [*value, None]}, {name: [None, *value[1:]]}, {name: value[0]}, {beside: [None]}, {beside: [None] * len(value)}]
        ways += [{beside: [{"id": "i"}] * draw.choice([len(value), len(value) + 1])}]
    elif isinstance(value, dict):
        ways += [{name: [value]}, {name: "a"}, {beside: {"id": "i"}}]
    else:
        ways += [{name: [value]}, {name: {"id": "i"}}] + [{beside: it} for it in (None, {}, {"id": ""}, {"id": "i", "value": "a"}, [{"id": "i"}])]
        ways += [{name: it} for it in (True, 2**31, -(2**31) - 1, decimal.Decimal("1.5"), " a", "a  b")]
        ways += [{name: "2021-02-29"}] * (10 if value in DATES else 1)
    at.update(draw.choice(ways))
    return made
