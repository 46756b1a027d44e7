"""Small packages and pairs of profiles for tests/modelled, each made at random from a seed. All that is made can be used by the program."""

import collections
import copy
import re

from modelled_types import (
    CODES, DATES, NAMED, NOWHERE, PAIRS, PATTERNS, SITE, SYSTEMS, SYSTEM_STRING, TARGETS, TEXTS, TYPES, URLS, VALUES, VALUE_SETS, alike, code_systems,
    definition, element, maybe, must, value_sets,
)


# ---- snapshots


def suffix(code):
    return "Uri" if code == SYSTEM_STRING else code[0].upper() + code[1:]


def last_of(identifier):
    return identifier.rpartition(".")[2]


def is_slice(one):
    return ":" in last_of(one["id"])


def only_type(one):
    return one["type"][0]["code"] if len(one.get("type", [])) == 1 else None


def is_part(one):
    """Whether an element has the children of `Thing.part`, as that and the one that refers to it have."""
    return "contentReference" in one or only_type(one) == "BackboneElement"


def is_valued(one):
    return any(it.startswith(("fixed", "pattern")) for it in one)


class Snapshot:
    """The elements of a profile while it is made."""

    def __init__(self, elements):
        self.elements = copy.deepcopy(elements)

    def find(self, identifier):
        return next((it for it in self.elements if it["id"] == identifier), None)

    def below(self, identifier):
        return [it for it in self.elements if it["id"].startswith(f"{identifier}.")]

    def block(self, identifier):
        """An element and all that stands below it."""
        return [it for it in self.elements if it["id"] == identifier or it["id"].startswith(f"{identifier}.")]

    def slices(self, identifier):
        return [it for it in self.elements if it["id"].startswith(f"{identifier}:") and "." not in it["id"][len(identifier):]]

    def expand(self, one):
        """Gives an element the children of its type, or of the content to which it refers."""
        source = "Thing.part" if is_part(one) else only_type(one)
        if self.below(one["id"]) or source in (SYSTEM_STRING, "Resource"):
            return False
        elements = TYPES[source.partition(".")[0]]["snapshot"]["element"]
        made = [renamed(it, source, one["id"]) for it in elements if it["id"].startswith(f"{source}.")]
        if self.elements[0]["id"] != "Thing":
            made = [referring_to(it, "Thing") for it in made]
        place = self.elements.index(one) + 1
        self.elements[place:place] = made
        return True

    def add_slices(self, one, blocks):
        """Slices stand behind the element that they are of, and behind its children."""
        place = self.elements.index(self.block(one["id"])[-1]) + 1
        self.elements[place:place] = [it for block in blocks for it in block]

    def remove(self, identifier):
        block = self.block(identifier)
        self.elements = [it for it in self.elements if it not in block]


def renamed(one, old, new):
    """An element under another id."""
    identifier = new + one["id"][len(old):]
    return {**copy.deepcopy(one), "id": identifier, "path": re.sub(r":[^.]*", "", identifier)}


def referring_to(one, type_of):
    """An element of a type's definition as it stands in another one: what it refers to for its content stands in that of the type."""
    reference = one.get("contentReference", "")
    return {**one, "contentReference": SITE + type_of + reference} if reference.startswith("#") else one


# ---- what a profile may ask: each function makes an element ask for more, if it can


def narrow_count(draw, _, one):
    top = 3 if one["max"] == "*" else int(one["max"])
    if maybe(draw, 0.5):
        one["min"] = min(top, one["min"] + 1)
    else:
        one["max"] = str(max(one["min"], top - 1))
    return True


def ask_value(draw, _, one):
    """A fixed value or a pattern."""
    code = only_type(one)
    if is_valued(one) or code not in VALUES and code not in PATTERNS:
        return False
    stem = draw.choice(["fixed", "pattern"]) if code in VALUES else draw.choice(["pattern", "pattern", "fixed"])
    one[stem + suffix(code)] = copy.deepcopy(draw.choice(VALUES.get(code) or PATTERNS[code]))
    return True


def ask_binding(draw, _, one):
    codes = [it["code"] for it in one.get("type", [])]
    if "binding" in one or not set(codes) & {"string", "code", "Coding", "CodeableConcept"} or len(codes) > 1 and maybe(draw, 0.5):
        return False
    value_set = draw.choice(VALUE_SETS) if maybe(draw, 0.95) else NOWHERE
    one["binding"] = {"strength": draw.choice(["required"] * 4 + ["extensible"]), "valueSet": value_set}
    return True


def ask_length(draw, _, one):
    if only_type(one) not in ("string", "code", "uri"):
        return False
    one["maxLength"] = draw.choice([1, 2, 3])
    return True


def ask_bound(draw, _, one):
    """A bound of a number or of a date, also where other types may stand."""
    codes = [it["code"] for it in one.get("type", []) if it["code"] in ("integer", "decimal", "date")]
    if not codes:
        return False
    name = draw.choice(["minValue", "maxValue"]) + suffix(codes[0])
    if name not in one:
        one[name] = draw.choice(VALUES[codes[0]])
    return True


def ask_types(draw, _, one):
    """Fewer types of a choice."""
    if len(one.get("type", [])) < 2:
        return False
    kept = draw.sample(one["type"], draw.randrange(1, len(one["type"])))
    one["type"] = [it for it in one["type"] if it in kept]
    return True


def ask_targets(draw, _, one):
    if only_type(one) != "Reference" or "targetProfile" in one["type"][0]:
        return False
    one["type"] = [{"code": "Reference", "targetProfile": some_targets(draw)}]
    return True


def some_targets(draw):
    return draw.sample(TARGETS, draw.choice([1, 1, 2])) + [NOWHERE] * maybe(draw, 0.1)


def ask_profile(draw, _, one):
    """Profiles of an element's types, and types of resources where any may stand."""
    code = only_type(one)
    if code == "Resource" and "profile" not in one["type"][0]:
        entries = [{"code": "Other"}, {"code": "Thing"}, profiled(draw, "Other"), profiled(draw, "Thing"), {**profiled(draw, "Other"), "code": "Resource"}]
        chosen = draw.sample(entries, draw.choice([1, 1, 2]))
        one["type"] = list({it["code"]: it for it in chosen}.values())
        return True
    if code not in NAMED or "profile" in one["type"][0] or TYPES[code]["kind"] == "resource":
        return False
    one["type"] = [profiled(draw, code)]
    return True


def profiled(draw, code):
    """A type entry with profiles of the type, of which few are there in another version alone."""
    names = draw.sample(NAMED[code], draw.choice(range(1, len(NAMED[code]) + 1)))
    return {"code": code, "profile": [SITE + it + draw.choice([""] * 8 + ["|1", "|1", "|2"]) for it in names]}


def ask_below(draw, snapshot, one):
    """Children of an element, of which another rule may then say something."""
    if not (only_type(one) or is_part(one)) or one["id"].count(".") > 3 or not snapshot.expand(one):
        return False
    return add_rule(draw, snapshot, snapshot.below(one["id"]))


CONSTRAINTS = {
    "Thing": [
        "title.exists()", "note.count() < 3", "count > 1", "tag.exists(code = 'a')", "value is string", "value.empty() or value is Coding",
        "part.all(kind = 'a')", "descendants().count() < 20", "'a' in note", "note.where($this = 'a').empty()",
        "contained.ofType(Other).count() = contained.count()",
    ],
    "BackboneElement": ["kind = 'a' or kind = 'c'", "text.exists() implies reading.exists()", "%resource.title.exists()", "title.matches('a')"],
    "Coding": ["system.exists() implies code.exists()"],
    "Extension": ["value.exists() implies value is string"],
    "string": ["$this = 'a' or $this = 'b'", "hasValue()"],
    "code": ["$this = 'a' or $this = 'b'", "hasValue()"],
}


def ask_constraint(draw, _, one):
    code = "Thing" if one["id"] == "Thing" else only_type(one)
    if code not in CONSTRAINTS:
        return False
    said = one.setdefault("constraint", [])
    said.append(must(f"made-{len(said)}", draw.choice(CONSTRAINTS[code]), draw.choice(["error", "error", "warning"])))
    return True


# ---- slices


def new_slice(draw, one, name, **more):
    """A slice of an element, with what the element says of its types."""
    kept = {it: copy.deepcopy(one[it]) for it in ("type", "contentReference") if it in one}
    most = draw.choice(["1", "1", "*", "*", "*", "0"])
    if one["max"] != "*" and (most == "*" or int(most) > int(one["max"])):
        most = one["max"]
    least = draw.choice([0, 0, 0, 1]) if most != "0" else 0
    return {**element(f"{one['id']}:{name}", least, most), "sliceName": name, **kept, **more}


def block_of(one, paths=()):
    """A slice with the children of its type, and with those below each of the paths but their last name."""
    made = Snapshot([one])
    made.expand(made.elements[0])
    for path in paths:
        for end in range(1, path.count(".") + 1):
            made.expand(made.find(f"{one['id']}.{'.'.join(path.split('.')[:end])}"))
    return made


def told_by_values(draw, one, values_of_paths):
    """Two slices that are told by a value at each path."""
    blocks = []
    for place in range(2):
        block = block_of(new_slice(draw, one, f"slice{place}"), values_of_paths)
        for path, values in values_of_paths.items():
            at = block.find(f"{one['id']}:slice{place}.{path}")
            code = only_type(at)
            at[draw.choice(["fixed", "pattern"] if code in VALUES else ["pattern"]) + suffix(code)] = values[place]
        blocks.append(block.elements)
    return [{"type": draw.choice(["value", "pattern"]), "path": it} for it in values_of_paths], blocks


def told_by_presence(draw, one, name, beside=None):
    """Two slices of which one has a child and the other hasn't, perhaps also told by a value."""
    by_value, blocks = told_by_values(draw, one, beside or {})
    for place, block in enumerate(blocks):
        at = next(it for it in block if it["id"] == f"{one['id']}:slice{place}.{name}")
        at.update({"min": 1, "max": "1"} if place else {"min": 0, "max": "0"})
    return [*by_value, {"type": "exists", "path": name.removesuffix("[x]")}], blocks


def told_by_type(draw, one, name, types):
    """Two slices that are told by the type of a child."""
    blocks = [block_of(new_slice(draw, one, f"slice{place}")) for place in range(2)]
    for place, block in enumerate(blocks):
        block.find(f"{one['id']}:slice{place}.{name}")["type"] = [{"code": it} for it in types[place]]
    return [{"type": "type", "path": name.removesuffix("[x]")}], [it.elements for it in blocks]


def told_by_itself(draw, one, kind, ways):
    """Slices that are told by the item, each with what it asks of it."""
    chosen = draw.sample(ways, min(len(ways), draw.choice([1, 2, 2])))
    return [{"type": kind, "path": "$this"}], [[new_slice(draw, one, f"slice{place}", **it)] for place, it in enumerate(chosen)]


def choice_slices(draw, one):
    return told_by_itself(draw, one, "type", [{"type": [copy.deepcopy(it)]} for it in one["type"]])


def extension_slices(draw, one):
    """By the url that the slice fixes, or by that of the profile that it names."""
    blocks = []
    for place, url in enumerate(draw.sample(URLS, draw.choice([1, 2, 3]))):
        made = new_slice(draw, one, f"slice{place}")
        if url == URLS[2] and maybe(draw, 0.8):
            blocks.append([{**made, "type": [{"code": "Extension", "profile": [url + draw.choice(["", "|1", "|2"])]}]}])
        else:
            block = block_of(made)
            block.find(f"{made['id']}.url")["fixedUri"] = url
            blocks.append(block.elements)
    return [{"type": "value", "path": "url"}], blocks


def plain_slices(draw, one):
    """Of primitives by their own value."""
    code = only_type(one)
    return told_by_itself(draw, one, draw.choice(["value", "pattern"]), [{draw.choice(["fixed", "pattern"]) + suffix(code): it} for it in VALUES[code]])


def coding_slices(draw, one):
    ends = {"system": SYSTEMS, "code": CODES}
    return draw.choice([
        lambda: told_by_itself(draw, one, "pattern", [{"patternCoding": it} for it in PATTERNS["Coding"]]),
        lambda: told_by_values(draw, one, {it: ends[it] for it in draw.choice([["system"], ["code"], ["system", "code"]])}),
        lambda: told_by_presence(draw, one, "display"),
    ])()


def concept_slices(draw, one):
    return draw.choice([
        lambda: told_by_itself(draw, one, "pattern", [{"patternCodeableConcept": it} for it in PATTERNS["CodeableConcept"]]),
        lambda: told_by_values(draw, one, {"coding.code": CODES}),
        lambda: told_by_values(draw, one, {"coding.system": SYSTEMS}),
        lambda: told_by_presence(draw, one, "text"),
    ])()


def period_slices(draw, one):
    return draw.choice([lambda: told_by_values(draw, one, {"start": DATES}), lambda: told_by_presence(draw, one, "end")])()


def part_slices(draw, one):
    return draw.choice([
        lambda: told_by_values(draw, one, {"kind": CODES}),
        lambda: told_by_values(draw, one, {"text": TEXTS}),
        lambda: told_by_values(draw, one, {"extension.url": URLS}),
        lambda: told_by_type(draw, one, "reading[x]", [["string"], ["Coding", "integer"]]),
        lambda: told_by_type(draw, one, "subject", [["Other"], ["Thing"]]),
        lambda: told_by_presence(draw, one, "reading[x]"),
        lambda: told_by_presence(draw, one, "reading[x]", {"kind": CODES}),
    ])()


def resource_slices(draw, one):
    other_types = [[{"code": "Other"}], [profiled(draw, "Other")]]
    return told_by_itself(draw, one, "type", [{"type": draw.choice(other_types)}, {"type": [{"code": "Thing"}]}])


SLICES = {
    "Extension": extension_slices, "Coding": coding_slices, "CodeableConcept": concept_slices, "Period": period_slices, "Resource": resource_slices,
    "BackboneElement": part_slices, "string": plain_slices, "code": plain_slices, "integer": plain_slices, "decimal": plain_slices,
}


def ask_slices(draw, snapshot, one):
    """Slices of an element that has none."""
    name, code = last_of(one["id"]), "BackboneElement" if is_part(one) else only_type(one)
    is_choice = len(one.get("type", [])) > 1 and name.endswith("[x]")
    if "." not in one["id"] or is_slice(one) or snapshot.slices(one["id"]) or one["id"].count(".") > 3 or not (is_choice or code in SLICES):
        return False
    discriminators, blocks = (choice_slices if is_choice else SLICES[code])(draw, one)
    is_usual = name in ("extension", "modifierExtension") or name.endswith("[x]") and discriminators[0]["type"] == "type"
    if not (is_usual and maybe(draw, 0.4)):
        one["slicing"] = {"discriminator": discriminators, "rules": draw.choice(["open", "open", "closed", "openAtEnd"])}
        if maybe(draw, 0.5):
            one["slicing"]["ordered"] = maybe(draw, 0.8)
    snapshot.add_slices(one, blocks)
    return True


# ---- profiles

# Each with how often it is tried.
ASKS = {
    narrow_count: 15, ask_value: 15, ask_binding: 14, ask_length: 6, ask_bound: 8, ask_types: 5, ask_targets: 8, ask_profile: 10, ask_below: 14,
    ask_constraint: 10, ask_slices: 16,
}


def in_some_order(draw, elements):
    """The elements, of which each type is as likely to come first as another one, since most are texts and extensions."""
    by_type = collections.defaultdict(list)
    for it in draw.sample(elements, len(elements)):
        by_type[tuple(entry["code"] for entry in it.get("type", []))].append(it)
    while by_type:
        types = draw.choice(list(by_type))
        yield by_type[types].pop()
        if not by_type[types]:
            del by_type[types]


def is_done(draw, change, snapshot, elements):
    """Makes a change at one of the elements, if it can be made at any."""
    return any(change(draw, snapshot, it) for it in in_some_order(draw, elements))


def add_rule(draw, snapshot, elements=None):
    """A rule more at one of the elements; at a root there are constraints alone."""
    for ask in draw.choices(list(ASKS), list(ASKS.values()), k=20):
        if is_done(draw, ask, snapshot, [it for it in elements or snapshot.elements if "." in it["id"] or ask is ask_constraint]):
            return True
    return False


def profile(name, type_of, snapshot, base=None):
    return definition(name, type_of, TYPES[type_of]["kind"], snapshot.elements, base or SITE + type_of)


def named_profiles(draw):
    """The profiles that types name. That of extensions leaves their url open, since a slice may be told by another one."""
    for type_of, names in NAMED.items():
        for name in names:
            snapshot = Snapshot(TYPES[type_of]["snapshot"]["element"])
            for _ in range(draw.choice([1, 2, 3])):
                add_rule(draw, snapshot, [it for it in snapshot.elements if it["id"] != "Extension.url"])
            yield profile(name, type_of, snapshot)


def base_profile(draw, name):
    """A profile on a type, with more of what has most forms: slices and bindings."""
    snapshot = Snapshot(TYPES["Thing"]["snapshot"]["element"])
    for _ in range(draw.choice([1, 2, 3, 4])):
        add_rule(draw, snapshot)
    for ask in draw.choices([ask_slices, ask_binding], [3, 2], k=draw.choice([0, 1, 2, 2])):
        is_done(draw, ask, snapshot, snapshot.elements)
    return profile(name, "Thing", snapshot)


# ---- profiles on other profiles: what is said before is narrowed, and in some of them a rule is widened or dropped too


def drop_rule(draw, _, one):
    rules = [it for it in one if it.startswith(("fixed", "pattern", "minValue", "maxValue")) or it in ("maxLength", "binding", "constraint")]
    if not rules or ":" in one["id"]:
        return False
    del one[draw.choice(rules)]
    return True


def change_slicing(draw, _, one):
    if "slicing" not in one:
        return False
    slicing = one["slicing"]
    way = draw.randrange(3)
    if way == 0:
        slicing["rules"] = draw.choice(["open", "closed", "openAtEnd"])
    elif way == 1:
        slicing["ordered"] = not slicing.get("ordered", False)
    else:
        slicing["discriminator"] = slicing["discriminator"][::-1]
    return True


def turn_slices(_, snapshot, one):
    """The slices of an element in the other order."""
    slices = snapshot.slices(one["id"])
    if len(slices) < 2:
        return False
    blocks = [snapshot.block(it["id"]) for it in slices]
    for it in slices:
        snapshot.remove(it["id"])
    snapshot.add_slices(one, blocks[::-1])
    return True


def drop_slice(_, snapshot, one):
    if not is_slice(one):
        return False
    snapshot.remove(one["id"])
    return True


def recount_slice(draw, _, one):
    if not is_slice(one):
        return False
    one.update({"min": 0, "max": draw.choice(["0", "1", "*"])})
    return True


def double_slice(draw, snapshot, one):
    """A slice more that looks for other values, or for the same."""
    new = f"{one['id']}n"
    if not is_slice(one) or snapshot.find(new):
        return False
    block = [renamed(it, one["id"], new) for it in snapshot.block(one["id"])]
    for it in block:
        for rule in [rule for rule in it if rule.startswith(("fixed", "pattern")) and isinstance(it[rule], str)]:
            it[rule] = draw.choice(alike(it[rule]))
    block[0]["sliceName"] = last_of(new).partition(":")[2]
    first = snapshot.elements.index(one)
    place = first if maybe(draw, 0.5) else first + len(block)
    snapshot.elements[place:place] = block
    return True


def widen_count(draw, _, one):
    if ":" in one["id"]:
        return False
    one["min"] = max(0, one["min"] - 1)
    if maybe(draw, 0.5) and one["max"] != "*":
        one["max"] = draw.choice(["1", "2"])
    return True


def change_types(draw, _, one):
    """Other profiles or targets, or none."""
    entries = [it for it in one.get("type", []) if "profile" in it or "targetProfile" in it]
    if not entries or is_slice(one):
        return False
    entry = draw.choice(entries)
    if "targetProfile" in entry:
        entry["targetProfile"] = some_targets(draw)
    elif maybe(draw, 0.5):
        del entry["profile"]
    elif entry["code"] in NAMED:
        entry.update(profiled(draw, entry["code"]))
    return True


def change_value(draw, _, one):
    """A fixed value in place of a pattern, or the other way round, or another value of the type."""
    rules = [it for it in one if it.startswith(("fixed", "pattern"))]
    if not rules:
        return False
    value, ending = one.pop(rules[0]), re.sub("^(fixed|pattern)", "", rules[0])
    if maybe(draw, 0.3) and isinstance(value, dict):
        value = copy.deepcopy(draw.choice(PATTERNS[ending]))
    one[draw.choice(["fixed", "pattern"]) + ending] = value
    return True


def change_binding(draw, _, one):
    if "binding" not in one:
        return False
    one["binding"] = {**one["binding"], "valueSet": draw.choice(VALUE_SETS)}
    return True


def drop_below(_, snapshot, one):
    below = snapshot.below(one["id"])
    if not below or ":" in one["id"] or "." not in one["id"] or one["id"] == "Thing.part" or any(is_slice(it) for it in below):
        return False
    snapshot.elements = [it for it in snapshot.elements if it not in below]
    return True


CHANGES = [
    drop_rule, change_slicing, turn_slices, drop_slice, recount_slice, double_slice, widen_count, change_types, change_value, change_binding, drop_below,
]


def derived_profile(draw, name, base):
    snapshot = Snapshot(base["snapshot"]["element"])
    for _ in range(draw.choice([0, 1, 1, 2, 3])):
        add_rule(draw, snapshot)
    for _ in range(draw.choice([0, 0, 1, 2])):
        is_done(draw, draw.choice(CHANGES), snapshot, [it for it in snapshot.elements if "." in it["id"]])
    return profile(name, "Thing", snapshot, base["url"])


def package(draw):
    """The definitions of a package, and the pairs of a derived profile and its base that it has."""
    shared = [*TYPES.values(), *code_systems(draw), *value_sets(draw), *named_profiles(draw)]
    bases = [base_profile(draw, f"base-{number}") for number in range(PAIRS)]
    pairs = [(derived_profile(draw, f"derived-{number}", base), base) for number, base in enumerate(bases)]
    return [*shared, *bases, *(derived for derived, _ in pairs)], [(derived["url"], base["url"]) for derived, base in pairs]
