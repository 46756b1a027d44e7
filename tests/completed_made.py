"""Small packages of types, and of profiles by differential in chains, for tests/completed: each is made at random from a seed."""

import copy
import decimal
import typing

from modelled_types import SITE, SYSTEM_STRING, element, maybe, must

PROFILES, LONE = 12, 4
SLICES = ["a", "b", "a:b"]
SETS = [SITE + it for it in ("set-1", "set-2", "set-3|2")]
EXPRESSIONS = ["true", "id.empty()", "children().count() < 3"]
# The values of `fixed[x]`, `pattern[x]` and the bounds under their suffixes.
VALUES = {
    "String": ["a", "b"], "Code": ["c"], "Integer": [0, 3], "Decimal": [decimal.Decimal("1.0"), decimal.Decimal("2.50")], "Date": ["2020"],
    "Coding": [{"system": SITE + "red", "code": "a"}, {"code": "b"}], "Concept": [{"coding": [{"code": "a"}], "text": "t"}], "Boolean": [True, False],
}
# What stands in the place of one member of an element, which is then wrong.
WRONG = [
    ("id", "Thing..x"), ("id", "Thing.part:"), ("id", "Thing.:a"), ("id", "Thing.part:a/b"), ("id", ""), ("id", 3), ("path", ["Thing"]), ("sliceName", 1),
    ("min", "1"), ("min", -1), ("min", 1.5), ("min", 2147483648), ("max", 1), ("max", "01"), ("max", "n"), ("max", ""), ("max", "2147483648"),
    ("maxLength", "3"), ("maxLength", 2147483648), ("contentReference", {}), ("type", {}), ("type", ["string"]), ("type", [{}]), ("type", [{"code": 1}]),
    ("type", [{"code": "string"}, {"code": "string"}]), ("type", [{"code": "string", "profile": SITE + "a"}]), ("constraint", [{"severity": "error"}]),
    ("type", [{"code": "Reference", "targetProfile": [1]}]), ("constraint", [{"key": "k", "severity": "fatal"}]), ("constraint", {}), ("constraint", ["k"]),
    ("constraint", [{"key": "k", "expression": True}]), ("binding", []), ("binding", {"strength": "must"}), ("binding", {"valueSet": 1}), ("slicing", []),
    ("slicing", {"rules": "some"}), ("slicing", {"ordered": "true"}), ("slicing", {"discriminator": {}}), ("slicing", {"discriminator": [{"type": "kind"}]}),
    ("slicing", {"discriminator": [{"path": 1}]}), ("min", None), ("min", True),
]


class Package(typing.NamedTuple):
    """The definitions of each file under its name, in the order in which the files are read, and the urls to ask for."""

    files: dict
    urls: list


# ---- types, which bring their snapshots


class Shapes:
    """The types of a package, and what stands below an element by its type or by the element that it refers to."""

    def __init__(self, draw):
        self.draw, self.of = draw, {}

    def add(self, name, *elements, kind="complex-type", **more):
        own = [element(f"{name}.id", 0, "1", SYSTEM_STRING), element(f"{name}.extension", 0, "*", "Extension")]
        listed = [element(name, 0, "*", constraint=[must(f"{name}-1", "true")]), *own, *elements]
        self.of[name] = {it["id"]: it for it in listed}
        return structure(name, name, kind, "specialization", SITE + "Element", snapshot={"element": listed}, **more)

    def children(self, place):
        """The names and the places of the children of a place, which is a type and an id in it."""
        name, identifier = place
        one = self.of[name][identifier]
        found = [(it.rpartition(".")[2], (name, it)) for it in self.of[name] if it.startswith(f"{identifier}.") and "." not in it[len(identifier) + 1:]]
        found = [it for it in found if ":" not in it[0]]
        if found:
            return found
        if "contentReference" in one:
            target = one["contentReference"].rpartition("#")[2]
            return self.children((target.partition(".")[0], target))
        codes = [it["code"] for it in one.get("type", []) if it["code"] in self.of]
        return self.children((code := self.draw.choice(codes), code)) if codes else []

    def types(self, place):
        return [it["code"] for it in self.of[place[0]][place[1]].get("type", [])]


def structure(url, type_of, kind, derivation, base, **more):
    said = {"resourceType": "StructureDefinition", "url": SITE + url, "kind": kind, "abstract": False, "type": type_of, "derivation": derivation}
    return {**said, **({"baseDefinition": base} if base else {}), **more}


def simple_types(shapes):
    """Data types without a choice of their own."""
    for name in ("string", "code", "integer", "date", "decimal"):
        yield shapes.add(name, element(f"{name}.value", 0, "1", SYSTEM_STRING), kind="primitive-type")
    yield shapes.add("Span", element("Span.start", 0, "1", "date"), element("Span.end", 0, "1", "date"))
    yield shapes.add("Coding", element("Coding.system", 0, "1", "string"), element("Coding.code", 0, "1", "code"))
    yield shapes.add("Concept", element("Concept.coding", 0, "*", "Coding"), element("Concept.text", 0, "1", "string"))
    yield shapes.add("Quantity", element("Quantity.value", 0, "1", "decimal"), element("Quantity.unit", 0, "1", "string"))
    yield shapes.add("Reference", element("Reference.reference", 0, "1", "string"))
    yield shapes.add("BackboneElement", element("BackboneElement.modifierExtension", 0, "*", "Extension"))
    yield shapes.add("Resource", kind="resource")


def all_types(draw, shapes):
    yield from simple_types(shapes)
    parts = [element("Name.family", 0, "1", "string"), element("Name.given", 0, "*", "string"), element("Name.span", 0, "1", "Span")]
    if maybe(draw, 0.5):
        told = {"discriminator": [{"type": "value", "path": "url"}], "rules": "open"}
        parts += [element("Name.extension:old", 0, "1", "Extension", sliceName="old"), element("Name.prefix", 0, "*", "string", slicing=told)]
    yield shapes.add("Name", *parts)
    value = element("Extension.value[x]", 0, "1", "string", "Coding", "Quantity", "Name")
    yield shapes.add("Extension", element("Extension.url", 1, "1", SYSTEM_STRING), value)
    yield shapes.add("Thing", *things(draw), kind="resource", **some_version(draw))
    site = SITE + "Thing"
    others = [element("Other.part", 0, "*", contentReference=f"{site}{draw.choice(['', '', '|1', '|2'])}#Thing.part"), element("Other.name", 0, "*", "Name")]
    if maybe(draw, 0.6):
        others.append(element("Other.again", 0, "*", contentReference="#Other.part"))
    yield shapes.add("Other", *others, kind="resource")


def some_version(draw):
    return {"version": draw.choice("12")} if maybe(draw, 0.5) else {}


def things(draw):
    """The elements of a resource, with parts of parts, and references to them."""
    leaves = [
        element("Thing.note", 0, "*", "string"), element("Thing.status", 1, "1", "code", binding={"strength": "required", "valueSet": SETS[0]}),
        element("Thing.code", 0, "*", "Concept", binding={"strength": "example"}), element("Thing.name", 0, "*", "Name"), element("Thing.span", 0, "1", "Span"),
        element("Thing.value[x]", 0, "1", "string", "integer", "Quantity", "Concept", "Name"), element("Thing.contained", 0, "*", "Resource"),
        element("Thing.about", 0, "*", {"code": "Reference", "targetProfile": [SITE + "Thing"]}), element("Thing.modifierExtension", 0, "*", "Extension"),
    ]
    draw.shuffle(leaves)
    yield from leaves[:draw.randint(3, len(leaves))]
    yield element("Thing.part", 0, "*", "BackboneElement", constraint=[must("part-1", "true"), must("part-2", "id.empty()", "warning")])
    own = ["id", "extension", "modifierExtension"][:draw.randint(0, 3)]
    yield from (element(f"Thing.part.{it}", 0, "*", SYSTEM_STRING if it == "id" else "Extension") for it in own)
    yield element("Thing.part.kind", 1, "1", "code", patternCode="c")
    yield element("Thing.part.reading[x]", 0, "1", "Quantity", "Coding")
    if maybe(draw, 0.7):
        yield element("Thing.part.sub", 0, "*", "BackboneElement")
        yield element("Thing.part.sub.text", 0, "1", "string", maxLength=9)
        yield element("Thing.part.sub.name", 0, "*", "Name")
        yield element("Thing.part.sub.part", 0, "*", contentReference="#Thing.part")
    yield element("Thing.part.part", 0, "*", contentReference="#Thing.part")
    yield element("Thing.again", 0, "5", contentReference="#Thing.part")


# ---- the ids of a differential


def step(draw, shapes, identifier, place):
    """A child of an element, or a slice of it."""
    if ":" not in identifier.rpartition(".")[2] and maybe(draw, 0.3 if "." in identifier else 0.03):
        return f"{identifier}:{slice_name(draw, shapes, identifier, place)}", place
    children = shapes.children(place)
    if not children:
        return None
    name, found = draw.choice(children)
    return f"{identifier}.{name}", found


def slice_name(draw, shapes, identifier, place):
    codes = shapes.types(place)
    if identifier.endswith("[x]") and codes and maybe(draw, 0.8):
        code = draw.choice(codes)
        return identifier.rpartition(".")[2][:-3] + code[0].upper() + code[1:]
    return draw.choice(SLICES)


def place_of(shapes, identifier):
    """The place of an id in the types, or none where they have no such element."""
    first, *segments = identifier.split(".")
    place = (first.partition(":")[0],) * 2
    for it in segments:
        name, _, sliced = it.partition(":")
        place = dict(shapes.children(place)).get(name)
        if place is None:
            return None
        code = sliced[len(name) - 3:] if name.endswith("[x]") else ""
        named = next((known for known in shapes.types(place) if code and known.lower() == code.lower()), None)
        place = (named, named) if named in shapes.of else place
    return place


def walk(draw, shapes, root, known):
    """Ids from an element down to one below it, each with its place."""
    start = draw.choice(known) if known and maybe(draw, 0.5) else root
    place = place_of(shapes, start) or (root, root)
    ids = [(start, place)] if place_of(shapes, start) else [(root, place)]
    for _ in range(draw.choice([0, 1, 1, 2, 2, 3, 3, 4, 5])):
        following = step(draw, shapes, *ids[-1])
        if following is None:
            break
        ids.append((following[0], place_of(shapes, following[0]) or following[1]))
    return ids


def above(identifier):
    """The ids that stand above one: those of which it is a slice, or a child."""
    made, found = "", []
    for it in identifier.split("."):
        name = it.partition(":")[0]
        found += [made + name, made + it] if it != name else [made + it]
        made += it + "."
    return found[:-1]


# ---- what a differential says of an element


def path(identifier):
    return ".".join(it.partition(":")[0] for it in identifier.split("."))


def said(draw, shapes, identifier, place, narrowed=None):
    """An element of a differential. Its type is the one that has the children below it, where it is one of several."""
    made = {"id": identifier}
    if maybe(draw, 0.9):
        made["path"] = path(identifier) if maybe(draw, 0.97) else draw.choice(["Thing.valueString", "Other.x", ""])
    last, codes = identifier.rpartition(".")[2], shapes.types(place)
    if ":" in last and maybe(draw, 0.75):
        made["sliceName"] = last.partition(":")[2]
    if last.startswith("value[x]:value") and maybe(draw, 0.9):
        narrowed = narrowed or next((it for it in codes or [place[0]] if it.lower() == last[14:].lower()), None)
    if narrowed in codes and len(codes) > 1 and maybe(draw, 0.9):
        made["type"] = [{"code": narrowed}]
    for ask in draw.choices(ASKED, k=draw.choice([0, 1, 1, 2, 3])):
        ask(draw, made, codes)
    return made


def ask_bounds(draw, made, _):
    if maybe(draw, 0.6):
        made["min"] = draw.choice([0, 1, 1, 2] if maybe(draw, 0.3) else [0, 1])
    if maybe(draw, 0.6):
        made["max"] = draw.choice(["1", "2", "3", "*", "*"] if made.get("min") or maybe(draw, 0.9) else ["0"])


def ask_constraint(draw, made, _):
    keys = draw.sample(["part-1", "Thing-1", "p-1", "p-2"], draw.choice([0, 1, 1, 2]))
    made["constraint"] = [must(key, draw.choice(EXPRESSIONS) if maybe(draw, 0.3) else "true", draw.choice(["error"] * 4 + ["warning"])) for key in keys]
    if maybe(draw, 0.1):
        made["constraint"] += [{"key": "p-3"}]
    if maybe(draw, 0.2):
        made["constraint"] += copy.deepcopy(made["constraint"])


def ask_value(draw, made, _):
    stem = draw.choice(["fixed", "pattern", "minValue", "maxValue"])
    suffix = draw.choice([*VALUES] if stem in ("fixed", "pattern") else ["Integer", "Decimal", "Date"])
    if not any(it.startswith(stem) for it in made):
        made[stem + suffix] = copy.deepcopy(draw.choice(VALUES[suffix]))


def ask_length(draw, made, _):
    made["maxLength"] = draw.choice([0, 5, 20, -1])


def ask_binding(draw, made, _):
    made["binding"] = {"strength": draw.choice(["required", "required", "extensible", "preferred", "example"]), "description": "d"}
    if maybe(draw, 0.8):
        made["binding"]["valueSet"] = draw.choice(SETS)


def ask_types(draw, made, codes):
    """Some of the types of an element, with profiles and targets."""
    if not codes or "type" in made:
        return
    made["type"] = [{"code": it} for it in draw.sample(codes, draw.choice([1, 1, len(codes)]))]
    if maybe(draw, 0.4):
        made["type"][0]["profile"] = draw.sample([SITE + "p-0", SITE + "p-1|1", SITE + "Name"], draw.choice([0, 1, 2]))
    if maybe(draw, 0.2):
        made["type"][0].update(targetProfile=[SITE + "p-2"], aggregation=["bundled"])
    if maybe(draw, 0.05):
        made["type"] = draw.choice([[], [{"code": "Span"}], [{"code": "Nowhere"}]])


def ask_slicing(draw, made, _):
    made["slicing"] = {"rules": draw.choice(["open", "closed", "openAtEnd"]), "description": "d"}
    if maybe(draw, 0.8):
        paths = draw.sample(["$this", "url", "code", "resolve()"], draw.choice([0, 1, 1, 2]))
        made["slicing"]["discriminator"] = [{"type": draw.choice(["value", "exists", "pattern", "type", "profile"]), "path": it} for it in paths]
    if maybe(draw, 0.4):
        made["slicing"]["ordered"] = draw.choice([True, False])
    if maybe(draw, 0.1):
        del made["slicing"]["rules"]
        made["slicing"]["ordered"] = False


def ask_unread(_, made, __):
    made.update(short="s", definition="d", mustSupport=True, base={"path": "Element", "min": 7, "max": "x"}, mapping=[{"identity": "m", "map": "x"}])


def ask_reference(draw, made, _):
    if maybe(draw, 0.1):
        made["contentReference"] = draw.choice(["#Thing.part", "#Thing.part.sub", "#Thing.nowhere", "Thing.part", f"{SITE}Thing#Thing.part"])


ASKED = [
    *[ask_bounds] * 5, *[ask_constraint] * 4, *[ask_value] * 3, ask_length, ask_binding, ask_types, ask_types, ask_slicing, ask_slicing, ask_unread,
    ask_reference,
]


# ---- profiles


class Profile(typing.NamedTuple):
    """A profile, the type of its elements, and the ids that its snapshot has for sure where it has one."""

    tree: dict
    root: str
    known: list


def differential(draw, shapes, root, known):
    """The elements of a differential: mostly with all that has to stand above them."""
    wanted, narrowed, is_sparse = {}, {}, maybe(draw, 0.15)
    for _ in range(draw.choice([0, 1, 2, 3, 4, 5])):
        ids = walk(draw, shapes, root, known)
        wanted[ids[-1][0]] = ids[-1][1]
        narrowed.update({above(it)[-1]: place[0] for it, place in ids if "." in it})
        if ":" in ids[-1][0].rpartition(".")[2] and maybe(draw, 0.4):
            wanted[f"{above(ids[-1][0])[-1]}:{draw.choice(SLICES)}"] = ids[-1][1]
        for it in above(ids[-1][0]):
            if maybe(draw, 0.2 if it in known else 0.6 if is_sparse else 0.98):
                wanted.setdefault(it, place_of(shapes, it) or (root, root))
    made = [said(draw, shapes, it, place, narrowed.get(it)) for it, place in wanted.items()]
    if maybe(draw, 0.7):
        made.sort(key=lambda it: it["id"])
    elif maybe(draw, 0.7):
        draw.shuffle(made)
    return made


def profile(draw, shapes, number, before):
    """A profile of a type, or of a profile before it."""
    base = draw.choice(before) if before and maybe(draw, 0.6) else None
    root = base.root if base else draw.choice(["Thing", "Thing", "Thing", "Other", "Name", "Extension"])
    known = base.known if base else [*shapes.of[root]]
    canonical = base.tree["url"] if base else SITE + root
    elements = differential(draw, shapes, root, known)
    made = structure(f"p-{number}", root, "resource" if root in ("Thing", "Other") else "complex-type", "constraint", canonical, **some_version(draw))
    if maybe(draw, 0.15):
        made["snapshot"] = {"element": brought(draw, shapes, root)}
        known = [it["id"] for it in made["snapshot"]["element"]]
    if elements or maybe(draw, 0.7):
        made["differential"] = {"element": elements}
    if maybe(draw, 0.05) and "snapshot" not in made:
        made["snapshot"] = draw.choice([{}, {"element": []}, {"extension": []}])
    return Profile(made, root, list(dict.fromkeys([*known, *(it["id"] for it in elements)])))


def brought(draw, shapes, root):
    """A snapshot that a profile brings: that of the type, with slices that have some children."""
    made = copy.deepcopy([*shapes.of[root].values()])
    for one in draw.sample(made, min(len(made), 3)):
        if one["id"] == root or ":" in one["id"]:
            continue
        identifier = f"{one['id']}:{draw.choice('ab')}"
        block = [{**one, "id": identifier, "sliceName": "s", "min": 0}]
        for name, place in shapes.children(place_of(shapes, one["id"]))[:draw.choice([0, 0, 1, 2])]:
            block.append({**shapes.of[place[0]][place[1]], "id": f"{identifier}.{name}", "path": path(f"{identifier}.{name}")})
        behind = max(number for number, it in enumerate(made) if it["id"] == one["id"] or maybe(draw, 0.8) and it["id"].startswith(one["id"] + "."))
        made[behind + 1:behind + 1] = block
    for one in draw.sample(made, 3):
        one.update({it: value for it, value in said(draw, shapes, one["id"], (root, root)).items() if it not in ("min", "max", "sliceName", "type")})
    return made


# ---- what has no snapshot

WAYS = [
    "wrong", "wrong", "wrong", "twice", "twice", "both", "forms", "lost", "over", "base", "base", "version", "cycle", "cycle", "kind", "gone", "untyped",
]
LOST = ["Thing.lost", "Lost", "Thing.part.lost:a", "Thing.part.kind.lost", "Other", "Thing.lost.note", "Thing.note.value.x"]


# What a definition of its own says that is wrong, or that is as far as it may go.
BORDERS = [("min", 2147483647), ("max", "2147483647"), ("max", "0"), ("maxLength", 2147483647), ("maxLength", -2147483648), ("maxLength", -2147483649)]
KINDS = [{"snapshot": it} for it in ([], "x", None, {"element": {}}, {"element": ["x"]}, {"element": None})]
KINDS += [{"differential": it} for it in ([], "x", None, {"element": {}}, {"element": ["x"]}, {"element": None}, {}, {"element": []})]
TWICE = [[{"id": "Thing.part"}, {"id": "Thing.part", "min": "x"}], [{"id": "Thing.part"}, {"id": "Thing.part"}], [{"id": "Thing.x"}, {"id": "Thing.x"}]]
# A slice below a slice, whose child inherits from that of the last one's element.
NESTED = [{"id": "Thing.part:a"}, {"id": "Thing.part:a.kind"}, {"id": "Thing.part:a.kind.id", "maxLength": 7}, {"id": "Thing.part:a.kind:b"}]
NESTED += [{"id": "Thing.part:a.kind:b.id", "patternString": "a"}]


def lone(draw, number):
    """A profile of which one thing is said."""
    made = structure(f"lone-{number}", "Thing", "resource", "constraint", SITE + "Thing")
    way = draw.random()
    if way < 0.7:
        name, value = draw.choice(WRONG + BORDERS + BORDERS)
        return {**made, "differential": {"element": [{"id": "Thing.part", name: value}]}}
    if way < 0.9:
        return {**made, **draw.choice(KINDS)}
    if way < 0.97:
        return {**made, "differential": {"element": draw.choice([*TWICE, NESTED])}}
    return {**made, "derivation": "specialization", "type": "Own"}


def spoil(draw, made, profiles):
    """Makes one profile wrong."""
    member = "snapshot" if made.get("snapshot", {}).get("element") else "differential"
    elements = made.setdefault(member, {"element": []})["element"]
    way = draw.choice(WAYS)
    if way in ("wrong", "twice", "both", "forms", "over") and not elements:
        elements.append({"id": made["type"]})
    if way in ("wrong", "both", "forms", "over"):
        changes = {"forms": [("fixedString", "a"), ("fixedCode", "c")], "over": [("min", 3), ("max", "2")]}
        one = draw.choice(elements)
        elements += [{"id": one["id"]}] if way == "both" else []
        one.update(changes.get(way, [draw.choice(WRONG[6:] if way == "both" else WRONG)]))
    elif way == "twice" and member == "differential":
        elements.insert(draw.randint(0, len(elements)), {"id": draw.choice(elements)["id"], "max": "1"})
    elif way == "lost" and member == "differential":
        elements.append({"id": draw.choice(LOST)})
    elif way == "kind":
        made[draw.choice(["snapshot", "differential"])] = draw.choice([[], "x", {"element": {}}, {"element": "x"}, {"element": ["x"]}, None])
    elif way == "gone":
        made.pop("baseDefinition")
    else:
        spoil_base(draw, made, profiles, way)


def spoil_base(draw, made, profiles, way):
    if way == "base":
        made["baseDefinition"] = draw.choice([SITE + "nowhere", "", f"{SITE}Thing|", f"{SITE}Thing|", "|1", SETS[0]])
    elif way == "version":
        made["baseDefinition"] += draw.choice(["|1", "|2"])
    elif way == "cycle":
        other = draw.choice(profiles).tree
        made["baseDefinition"], other["baseDefinition"] = other["url"], made["url"]
    elif way == "untyped":
        made.update(derivation="specialization", type="Own")


# ---- files


def package(draw):
    shapes = Shapes(draw)
    types, profiles = [*all_types(draw, shapes)], []
    for number in range(PROFILES):
        profiles.append(profile(draw, shapes, number, profiles))
    for it in draw.sample(profiles[PROFILES // 4:], draw.choice([0, 1, 2, 3])):
        spoil(draw, it.tree, profiles)
    definitions = [*types, *(it.tree for it in profiles), {"resourceType": "ValueSet", "url": SETS[0]}, {"resourceType": "ValueSet", "url": SITE + "p-1"}]
    if maybe(draw, 0.2):
        definitions.append(structure("Span2", "Span", "complex-type", "specialization", SITE + "Element", snapshot={"element": [
            element("Span", 0, "*"), element("Span.end", 1, "1", "date"), element("Span.length", 0, "1", "integer"),
        ]}))
    lonely = [lone(draw, number) for number in range(LONE)]
    definitions += lonely
    draw.shuffle(definitions)
    asked = [it.tree["url"] for it in profiles] + [it["url"] for it in lonely] + [SITE + draw.choice(["Thing", "Name", "Other"])]
    return Package(files_of(draw, definitions), [*asked, *([SITE + "nowhere"] if maybe(draw, 0.2) else [])])


def files_of(draw, definitions):
    """Some definitions have a file of their own, and some stand in bundles of bundles."""
    files, rest = {}, list(definitions)
    while rest:
        number = draw.choice([1, 1, 3, 9])
        some, rest = rest[:number], rest[number:]
        entries = [{"resource": it} for it in some]
        if len(entries) > 3:
            entries[1:3] = [{"resource": {"resourceType": "Bundle", "entry": entries[1:3]}}]
        tree = some[0] if len(some) == 1 else {"resourceType": "Bundle", "entry": entries}
        files[f"{draw.choice('ABab')}{len(files)}.json"] = tree
    return {name: files[name] for name in sorted(files, key=str.encode)}


def in_files(tree):
    """The definitions of a file, in their order."""
    if tree["resourceType"] != "Bundle":
        return [tree]
    return [found for it in tree["entry"] for found in in_files(it["resource"])]
