"""A model of what FHIR R4 asks of a resource: whether it is one by the definitions of types, and whether it conforms to the snapshot of a profile.

It is written from the pages of the standard (http://hl7.org/fhir/R4) that each part names, and from docs/DECISIONS.md and docs/USAGE.md where these
leave a choice. It shares nothing with the program, and is as short as it can be: it looks at every rule of every element anew, and is slow.

A rule that isn't judged (docs/USAGE.md, "What is read of a profile") may hold or not. None stands under a negation, so a resource conforms whatever
such rules mean if it does where none of them holds, and violates the profile if it does where all of them hold. Else it is open.
"""

import collections
import datetime
import decimal
import re
import typing

SYSTEM_TYPES = "http://hl7.org/fhirpath/System."
MANY = "*"
# How each rule is named that `Model.faults` finds broken.
RULES = (
    "misfit", "root", "type", "target", "profile", "fixed", "pattern", "length", "bound", "binding", "constraint", "min", "max",
    "two-slices", "slice-min", "slice-max", "closed", "ordered", "end",
)

# What stands where there is no JSON at all, not even null.
NOTHING = object()


class Node(typing.NamedTuple):
    """An element of a snapshot."""

    url: str
    id: str


class Misfit(Exception):
    """A JSON value isn't what the definitions of types make of it."""


class Item:
    """A value of a resource: its type, its JSON, and the items below it under the names of elements. The JSON of a primitive is its value alone, and
    there is none where only a companion stands."""

    def __init__(self, type_code, value, is_primitive=False):
        self.type, self.json, self.is_primitive = type_code, value, is_primitive
        self.children = collections.defaultdict(list)

    def under(self, name):
        return self.children.get(name, [])

    def all_children(self):
        return [it for items in self.children.values() for it in items]

    def descendants(self):
        return [found for child in self.all_children() for found in [child, *child.descendants()]]

    def has_value(self):
        return self.is_primitive and self.json is not None


# ---- Data Types (datatypes.html), "Primitive Types": what a value of each may be; and JSON (json.html): as what it is written


def is_text(value, form):
    return isinstance(value, str) and re.fullmatch(form, value, re.ASCII) is not None


def is_whole(value):
    return isinstance(value, int) and not isinstance(value, bool)


def is_number(value):
    return is_whole(value) or isinstance(value, decimal.Decimal)


def is_date(value):
    """A year, a month or a day that the calendar has."""
    if not is_text(value, r"\d{4}(-\d{2}(-\d{2})?)?"):
        return False
    try:
        datetime.date(*parts_of(value), *[1] * (3 - len(parts_of(value))))
    except ValueError:
        return False
    return True


PRIMITIVES = {
    "boolean": lambda value: isinstance(value, bool),
    "integer": lambda value: is_whole(value) and -(2**31) <= value < 2**31,
    "decimal": is_number,
    "string": lambda value: is_text(value, r"[ \r\n\t\S]+"),
    "code": lambda value: is_text(value, r"[^\s]+(\s[^\s]+)*"),
    "uri": lambda value: is_text(value, r"\S+"),
    "date": is_date,
}


# ---- ElementDefinition (elementdefinition.html): fixed[x], pattern[x], minValue[x], maxValue[x]


def is_equal(one, other):
    """Exactly the same JSON, the order of members aside. The digits of a decimal count (Data Types, decimal), so 1.0 isn't 1.00."""
    if isinstance(one, dict) and isinstance(other, dict):
        return one.keys() == other.keys() and all(is_equal(one[name], other[name]) for name in one)
    if isinstance(one, list) and isinstance(other, list):
        return len(one) == len(other) and all(map(is_equal, one, other))
    if is_number(one) and is_number(other):
        return str(one) == str(other)
    return isinstance(one, type(other)) and isinstance(other, type(one)) and one == other


def fits(value, pattern):
    """What the pattern has stands in the value, at least: each member of an object, and each entry of an array at any place."""
    if isinstance(pattern, dict):
        return isinstance(value, dict) and all(name in value and fits(value[name], part) for name, part in pattern.items())
    if isinstance(pattern, list):
        return isinstance(value, list) and all(any(fits(entry, part) for entry in value) for part in pattern)
    return is_equal(value, pattern)


def parts_of(date):
    return [int(part) for part in date.split("-")]


def is_at_most(one, other):
    """Whether a number is at most another one, or a date no later. Dates of several precisions have an order where a part that both have differs."""
    if is_number(one):
        return one <= other
    for part, other_part in zip(parts_of(one), parts_of(other)):
        if part != other_part:
            return part < other_part
    return len(parts_of(one)) == len(parts_of(other))


# ---- FHIRPath (fhirpath.html): what each expression that a made package has means, written down by hand. Any other one isn't judged.


def values_of(items):
    return [it.json for it in items]


def is_one(items, test):
    """Whether one item stands there, and is so: an operator on several items has a fault, and on none it gives nothing."""
    return len(items) == 1 and test(items[0])


def implies(condition, consequence):
    return not condition or consequence


def is_in_order(period):
    """Both operands of `or` are evaluated, so that an end without a value, which has no order, is a fault."""
    starts, ends = period.under("start"), period.under("end")
    if not starts or not ends:
        return True
    return starts[0].has_value() and ends[0].has_value() and is_at_most(starts[0].json, ends[0].json)


EXPRESSIONS = {
    "hasValue() or (children().count() > id.count())": lambda item, _: item.has_value() or len(item.all_children()) > len(item.under("id")),
    "hasValue()": lambda item, _: item.has_value(),
    "$this = 'a' or $this = 'b'": lambda item, _: item.json in ("a", "b"),
    "title.exists()": lambda item, _: bool(item.under("title")),
    "note.count() < 3": lambda item, _: len(item.under("note")) < 3,
    "text.count() < 3": lambda item, _: len(item.under("text")) < 3,
    "'a' in note": lambda item, _: "a" in values_of(item.under("note")),
    "note.where($this = 'a').empty()": lambda item, _: "a" not in values_of(item.under("note")),
    "count > 1": lambda item, _: is_one(item.under("count"), lambda it: it.has_value() and it.json > 1),
    "tag.exists(code = 'a')": lambda item, _: any("a" in values_of(it.under("code")) for it in item.under("tag")),
    "value is string": lambda item, _: is_one(item.under("value"), lambda it: it.type in ("string", "code")),
    "value.exists() implies value is string":
        lambda item, _: implies(item.under("value"), is_one(item.under("value"), lambda it: it.type in ("string", "code"))),
    "value.empty() or value is Coding":
        lambda item, _: not item.under("value") or is_one(item.under("value"), lambda it: it.type == "Coding"),
    "part.all(kind = 'a')": lambda item, _: all(values_of(it.under("kind")) == ["a"] for it in item.under("part")),
    "descendants().count() < 20": lambda item, _: len(item.descendants()) < 20,
    "contained.ofType(Other).count() = contained.count()": lambda item, _: all(it.type == "Other" for it in item.under("contained")),
    "kind = 'a' or kind = 'c'": lambda item, _: values_of(item.under("kind")) in (["a"], ["c"]),
    "text.exists() implies reading.exists()": lambda item, _: implies(item.under("text"), bool(item.under("reading"))),
    "%resource.title.exists()": lambda _, resource: bool(resource.under("title")),
    "system.exists() implies code.exists()": lambda item, _: implies(item.under("system"), bool(item.under("code"))),
    "start.empty() or end.empty() or start <= end": lambda item, _: is_in_order(item),
}


# ---- the definitions of a package


def version_of(canonical):
    """The url of a canonical and its version, if it has one (References, canonical)."""
    url, mark, version = canonical.rpartition("|")
    return (url, version) if mark else (canonical, None)


def is_version(definition, version):
    """Whether a definition is the one that a canonical names by this version."""
    return version is None or definition.get("version", version) == version


def name_of(node):
    """The name under which the items of an element stand: that of a choice is written without its `[x]`, and that of a slice without the slice."""
    return node.id.rpartition(".")[2].partition(":")[0].removesuffix("[x]")


def with_values(element):
    """An element whose `fixed[x]`, `pattern[x]`, `minValue[x]` and `maxValue[x]` stand under their names without the type."""
    found = [(re.fullmatch(r"(fixed|pattern|minValue|maxValue)[A-Z]\w*", name), value) for name, value in element.items()]
    return {**element, **{name[1]: value for name, value in found if name}}


class Definitions:
    """The elements of all snapshots (elementdefinition.html): those below each one, and its slices, in the order of the snapshot."""

    def __init__(self, resources):
        structures = [it for it in resources if it["resourceType"] == "StructureDefinition"]
        self.structures = {it["url"]: it for it in structures}
        self.types = {it["type"]: it for it in structures if it["derivation"] == "specialization"}
        self.elements, self.names = {}, {}
        self.children, self.slices = collections.defaultdict(list), collections.defaultdict(list)
        self.roots = {url: Node(url, it["snapshot"]["element"][0]["id"]) for url, it in self.structures.items()}
        for structure in structures:
            for element in structure["snapshot"]["element"]:
                self.add(Node(structure["url"], element["id"]), element)

    def add(self, node, element):
        self.elements[node], self.names[node] = with_values(element), name_of(node)
        parent, _, name = node.id.rpartition(".")
        if ":" in name:
            self.slices[Node(node.url, node.id.rpartition(":")[0])].append(node)
        elif parent:
            self.children[Node(node.url, parent)].append(node)

    def is_root(self, node):
        return node == self.roots[node.url]

    def type_root(self, code):
        return self.roots[self.types[code]["url"]]

    def named(self, canonical):
        """The definition that a canonical names, or none."""
        url, version = version_of(canonical)
        found = self.structures.get(url)
        return found if found and is_version(found, version) else None

    def content_target(self, node):
        """The element whose content this one refers to (contentReference): of its own definition, or of the one whose canonical stands in front."""
        reference = self.elements[node].get("contentReference")
        if not reference:
            return None
        front, _, identifier = reference.partition("#")
        return Node(version_of(front)[0] or node.url, identifier)

    def holder(self, node):
        """The element whose children stand below this one: its own, or those of its content reference."""
        target = self.content_target(node)
        return target if target and not self.children.get(node) else node

    def children_of(self, node):
        return self.children.get(self.holder(node), [])

    def type_entries(self, node):
        """The types of an element: of a content reference without children of its own those of the element that it names."""
        return self.elements[self.holder(node)].get("type") or self.elements[self.content_target(node) or node].get("type", [])

    def is_resource(self, code):
        return code in self.types and self.types[code]["kind"] == "resource"

    def covers(self, wanted, code):
        """Whether a type entry's code allows a type. An abstract type of resources, as Resource, allows those that derive from it
        (Resource, DomainResource)."""
        while wanted != code and self.is_resource(code):
            base = self.structures.get(self.types[code].get("baseDefinition"))
            code = base["type"] if base else None
        return wanted == code


# ---- JSON (json.html): which item a JSON value is, by the definitions of types alone


class Form(typing.NamedTuple):
    """What a property says of an item: under which name it stands, its type, whether it is in an array, and which element it goes by."""

    name: str
    code: str
    repeats: bool
    node: Node


class Reader:
    """Makes items of JSON."""

    def __init__(self, definitions):
        self.definitions = definitions
        self.forms_known = {}

    def resource(self, value):
        """A resource names its type, which isn't an abstract one."""
        code = value.get("resourceType") if isinstance(value, dict) else None
        if not isinstance(code, str) or not self.definitions.is_resource(code) or self.definitions.types[code]["abstract"]:
            raise Misfit("a resource of no type")
        item = Item(code, value)
        self.fill(item, value, self.definitions.type_root(code), "resourceType")
        return item

    def forms(self, node):
        """The properties of an object, by the elements below its own. A choice has one for each type (Formats, choice of data types). Whether an
        element is an array hangs on its type's definition, and never on a profile."""
        if node not in self.forms_known:
            self.forms_known[node] = dict(self.forms_of(node))
        return self.forms_known[node]

    def forms_of(self, node):
        for child in self.definitions.children[node]:
            name, element = self.definitions.names[child], self.definitions.elements[child]
            for code in [entry["code"] for entry in self.definitions.type_entries(child)]:
                written = name + code[0].upper() + code[1:] if child.id.endswith("[x]") else name
                yield written, Form(name, code, element["max"] not in ("0", "1"), child)

    def fill(self, item, value, node, passed_over=None):
        """Reads the properties of an object. None is null, and no object and no array is empty."""
        if not isinstance(value, dict) or not value:
            raise Misfit("no object, or an empty one")
        forms = self.forms(node)
        for name in value:
            is_companion = name.startswith("_") and name[1:] in forms and forms[name[1:]].code in PRIMITIVES
            if name not in forms and not is_companion and name != passed_over:
                raise Misfit(f"no element {name}")
        for name, form in forms.items():
            if name in value or form.code in PRIMITIVES and "_" + name in value:
                item.children[form.name] += self.items(form, value, name)

    def items(self, form, members, name):
        """The items of a property. A primitive may have a companion beside it, under the same name behind a `_`, with its id and its extensions."""
        pair = [members.get(name, NOTHING), members.get("_" + name, NOTHING) if form.code in PRIMITIVES else NOTHING]
        if not form.repeats:
            return [self.item(form, *pair)]
        arrays = [it for it in pair if it is not NOTHING]
        if any(not isinstance(it, list) or not it for it in arrays) or len({len(it) for it in arrays}) > 1:
            raise Misfit(f"{name} is no array, or an empty one, or one longer than that of the companions")
        entries = [[NOTHING] * len(arrays[0]) if it is NOTHING else it for it in pair]
        return [self.item(form, *map(self.without_null, entry) if form.code in PRIMITIVES else entry) for entry in zip(*entries)]

    @staticmethod
    def without_null(entry):
        """In an array of primitives, or of companions, null says that nothing stands there."""
        return NOTHING if entry is None else entry

    def item(self, form, value, companion):
        if form.code in PRIMITIVES:
            return self.primitive(form.code, value, companion)
        if form.code.startswith(SYSTEM_TYPES):
            if not isinstance(value, str) or not value:
                raise Misfit("no text")
            return Item(form.code, value, True)
        if self.definitions.is_resource(form.code):
            return self.resource(value)
        item, holder = Item(form.code, value), self.definitions.holder(form.node)
        self.fill(item, value, holder if self.definitions.children.get(holder) else self.definitions.type_root(form.code))
        return item

    def primitive(self, code, value, companion):
        """A value, a companion, or both. A companion holds an id and extensions, and nothing else."""
        if value is NOTHING and companion is NOTHING:
            raise Misfit("neither a value nor a companion")
        if value is not NOTHING and not PRIMITIVES[code](value):
            raise Misfit(f"no {code}")
        item = Item(code, None if value is NOTHING else value, True)
        if companion is not NOTHING:
            if isinstance(companion, dict) and companion.keys() - {"id", "extension"}:
                raise Misfit("a companion with more")
            self.fill(item, companion, self.definitions.type_root(code))
        return item


# ---- ValueSet (valueset.html), "Composition Rules", and CodeSystem (codesystem.html): which concepts, as pairs of system and code, a value set has


class ValueSets:
    def __init__(self, resources):
        self.value_sets = {it["url"]: it for it in resources if it["resourceType"] == "ValueSet"}
        self.code_systems = {it["url"]: it for it in resources if it["resourceType"] == "CodeSystem"}

    def concepts(self, canonical, resting=()):
        """The concepts of a value set, or none where they can't be told: it isn't there, has a filter, or rests on what can't be told, or on itself."""
        url, version = version_of(canonical)
        found = self.value_sets.get(url)
        if not found or not is_version(found, version) or url in resting:
            return None
        included, excluded = (
            [self.concepts_of(part, (*resting, url)) for part in found["compose"].get(which, [])] for which in ("include", "exclude")
        )
        if None in included + excluded:
            return None
        return set().union(*included) - set().union(*excluded)

    def concepts_of(self, part, resting):
        """What one include or exclude takes: what its system and all of its value sets have in common."""
        taken = [self.concepts(it, resting) for it in part.get("valueSet", [])]
        if "system" in part:
            taken.append(self.concepts_of_system(part))
        if not taken or None in taken or "filter" in part:
            return None
        return set.intersection(*taken)

    def concepts_of_system(self, part):
        """The concepts that are listed, or all of a complete code system, of the version if both say one."""
        if "concept" in part:
            return {(part["system"], it["code"]) for it in part["concept"]}
        found = self.code_systems.get(part["system"])
        if not found or found["content"] != "complete" or "version" in part and not is_version(found, part["version"]):
            return None
        return {(part["system"], code) for code in codes_of(found["concept"])}


def codes_of(concepts):
    """The codes of concepts and of those that are nested in them."""
    return [code for it in concepts for code in [it["code"], *codes_of(it.get("concept", []))]]


# ---- Profiling (profiling.html) and ElementDefinition (elementdefinition.html): what the elements of a snapshot ask of an item


class Model:
    """The definitions of a package, and what they ask."""

    def __init__(self, resources):
        self.definitions = Definitions(resources)
        self.reader = Reader(self.definitions)
        self.value_sets = ValueSets(resources)
        self.concepts_known = {}
        self.do_unread_rules_hold, self.is_unread_met = True, False

    def reading(self, resource):
        """The item that a resource is, or the misfit for which it is none."""
        try:
            return self.reader.resource(resource)
        except Misfit as misfit:
            return misfit

    def verdict(self, url, reading):
        """How a resource stands to a profile, `conforms`, `violates` or `open`, and the first that it breaks."""
        self.is_unread_met = False
        certain = next(self.broken(url, reading, True), None)
        if certain or not self.is_unread_met:
            return "violates" if certain else "conforms", certain
        possible = next(self.broken(url, reading, False), None)
        return "open" if possible else "conforms", possible

    def broken(self, url, reading, do_unread_rules_hold=True):
        """What a resource breaks of a profile, where the rules that aren't judged hold, or don't: each with the word of its rule in front."""
        self.do_unread_rules_hold = do_unread_rules_hold
        if isinstance(reading, Misfit):
            yield f"misfit: {reading}"
        else:
            yield from self.faults(reading, self.definitions.roots[url], reading)

    def unread(self):
        """Whether a rule that isn't judged holds."""
        self.is_unread_met = True
        return self.do_unread_rules_hold

    def conforms(self, item, node, resource):
        return next(self.faults(item, node, resource), None) is None

    def faults(self, item, node, resource):
        """The rules that an item breaks at an element, and below it. At all but roots it has to be as the definition of its own type asks, too."""
        if self.definitions.is_resource(item.type):
            resource = item
        if self.definitions.is_root(node):
            yield from self.root_faults(item, node)
        else:
            yield from self.type_faults(item, node, resource)
            if item.type in self.definitions.types:
                yield from self.faults(item, self.definitions.type_root(item.type), resource)
        yield from self.value_faults(item, node)
        yield from self.constraint_faults(item, node, resource)
        for child in self.definitions.children_of(node):
            if not (item.is_primitive and self.definitions.names[child] == "value"):
                yield from self.child_faults(item, child, resource)

    # -- ElementDefinition.type

    def root_faults(self, item, node):
        wanted = self.definitions.structures[node.url]["type"]
        if not self.definitions.covers(wanted, item.type):
            yield f"root: {item.type} is no {wanted}"

    def type_faults(self, item, node, resource):
        """One entry has to allow the item: by its code, and by the targets and the profiles that it names."""
        entries = self.definitions.type_entries(node)
        covering = [entry for entry in entries if self.definitions.covers(entry["code"], item.type)]
        pointing = [entry for entry in covering if self.allows_target(entry, item)]
        if not entries or any(self.allows_profile(entry, item, resource) for entry in pointing):
            return
        yield f"{'profile' if pointing else 'target' if covering else 'type'}: {node.id}"

    def allows_target(self, entry, item):
        """A relative reference names the type of its target (References, literal references), which one of the target profiles has to allow."""
        targets = entry.get("targetProfile", [])
        reference = item.under("reference") if entry["code"] == "Reference" else []
        found = re.fullmatch(r"([A-Za-z]+)/[A-Za-z0-9.-]{1,64}(/_history/[A-Za-z0-9.-]{1,64})?", reference[0].json or "") if reference else None
        if not targets or not found:
            return True
        named = [self.definitions.named(it) for it in targets]
        return any(self.definitions.covers(it["type"], found[1]) if it else self.unread() for it in named)

    def allows_profile(self, entry, item, resource):
        """Where an entry names profiles, the item has to conform to one of them."""
        named = [self.definitions.named(it) for it in entry.get("profile", [])]
        return not named or any(
            self.conforms(item, self.definitions.roots[it["url"]], resource) if it else self.unread() for it in named
        )

    # -- ElementDefinition.fixed[x], pattern[x], minValue[x], maxValue[x], maxLength, binding

    def value_faults(self, item, node):
        element = self.definitions.elements[node]
        if "fixed" in element and (item.is_primitive and item.children or not is_equal(item.json, element["fixed"])):
            yield f"fixed: {node.id}"
        if "pattern" in element and not fits(item.json, element["pattern"]):
            yield f"pattern: {node.id}"
        if "minValue" in element and self.is_comparable(item, element["minValue"]) and not is_at_most(element["minValue"], item.json):
            yield f"bound: {node.id}"
        if "maxValue" in element and self.is_comparable(item, element["maxValue"]) and not is_at_most(item.json, element["maxValue"]):
            yield f"bound: {node.id}"
        if "maxLength" in element and isinstance(item.json, str) and len(item.json) > element["maxLength"]:
            yield f"length: {node.id}"
        binding = element.get("binding", {})
        if binding.get("strength") == "required" and not self.is_bound(item, binding["valueSet"]):
            yield f"binding: {node.id}"

    @staticmethod
    def is_comparable(item, bound):
        """Whether a bound says something of an item: of a number where it is one, and of a date where it is one. A bound of another type isn't made."""
        return item.has_value() and (item.type in ("integer", "decimal") and is_number(bound) or item.type == "date" and is_date(bound))

    def is_bound(self, item, canonical):
        """Whether a code, or one of a concept's codings, is in a value set (Terminologies). A code has no system of its own; other values
        aren't looked up."""
        if canonical not in self.concepts_known:
            self.concepts_known[canonical] = self.value_sets.concepts(canonical)
        concepts = self.concepts_known[canonical]
        codings = {"Coding": [item], "CodeableConcept": item.under("coding")}.get(item.type)
        is_textual = item.type in ("string", "code", "uri")
        if concepts is None or not is_textual and codings is None:
            return self.unread()
        if is_textual:
            return item.json is None or item.json in {code for _, code in concepts}
        return any((it.json.get("system"), it.json.get("code")) in concepts for it in codings)

    # -- ElementDefinition.constraint

    def constraint_faults(self, item, node, resource):
        """Those of severity `error` have to be true, also those of the element that a content reference names."""
        target = self.definitions.content_target(node)
        for carrier in [node, target] if target else [node]:
            for constraint in self.definitions.elements[carrier].get("constraint", []):
                if constraint["severity"] == "error" and not self.is_true(constraint["expression"], item, resource):
                    yield f"constraint: {node.id} {constraint['key']}"

    def is_true(self, expression, item, resource):
        meaning = EXPRESSIONS.get(expression)
        return meaning(item, resource) if meaning else self.unread()

    # -- ElementDefinition.min, max

    def child_faults(self, item, node, resource):
        """What an element asks of an item's children under its name: how many there are, each of them, and how they stand in its slices."""
        children = item.under(self.definitions.names[node])
        yield from self.count_faults("", len(children), node)
        for child in children:
            yield from self.faults(child, node, resource)
        if self.definitions.slices.get(node):
            yield from self.slice_faults(children, node, resource)

    def count_faults(self, prefix, count, node):
        element = self.definitions.elements[node]
        if count < element["min"]:
            yield f"{prefix}min: {count} of {node.id}"
        if element["max"] != MANY and count > int(element["max"]):
            yield f"{prefix}max: {count} of {node.id}"

    # -- Profiling, "Slicing" and "Discriminator"; ElementDefinition.slicing

    def slice_faults(self, children, node, resource):
        """No child belongs to two slices, each slice holds as many as it says, and each of them is as the slice asks."""
        slices = self.definitions.slices[node]
        slices_of = [[it for it in slices if self.belongs(child, it, node)] for child in children]
        if any(len(it) > 1 for it in slices_of):
            yield f"two-slices: {node.id}"
        for slice_node in slices:
            members = [child for child, its in zip(children, slices_of) if slice_node in its]
            yield from self.count_faults("slice-", len(members), slice_node)
            for child in members:
                yield from self.faults(child, slice_node, resource)
        yield from self.sequence_faults(slices_of, slices, node)

    def sequence_faults(self, slices_of, slices, node):
        """A closed slicing has no child outside of its slices. An ordered one has them in the order of the definition, those outside aside. One that
        is open at its end has those outside behind all others."""
        slicing = self.definitions.elements[node].get("slicing", {})
        if slicing.get("rules") == "closed" and [] in slices_of:
            yield f"closed: {node.id}"
        places = [slices.index(it[0]) for it in slices_of if it]
        if slicing.get("ordered") and places != sorted(places):
            yield f"ordered: {node.id}"
        are_outside = [not it for it in slices_of]
        if slicing.get("rules") == "openAtEnd" and are_outside != sorted(are_outside):
            yield f"end: {node.id}"

    def belongs(self, child, slice_node, node):
        """Whether an item meets all discriminators of a slice. Without a `slicing` extensions are told by their url, and choices by their type."""
        by_default = {"type": "type", "path": "$this"} if node.id.endswith("[x]") else {"type": "value", "path": "url"}
        slicing = self.definitions.elements[node].get("slicing", {"discriminator": [by_default]})
        return all(self.meets(child, slice_node, it["type"], it["path"]) for it in slicing["discriminator"])

    def meets(self, child, slice_node, kind, path):
        """What the element at the path says, below the slice, is looked for among the items at the path."""
        items, at = [child], slice_node
        for name in [] if path == "$this" else path.split("."):
            items = [found for item in items for found in item.under(name)]
            at = next((it for it in self.definitions.children.get(at, []) if self.definitions.names[it] == name), None)
        element = self.definitions.elements[at] if at else {}
        if kind == "exists":
            return bool(items) == (element["min"] > 0)
        if kind == "type":
            return any(self.definitions.covers(entry["code"], it.type) for entry in element["type"] for it in items)
        if "fixed" in element:
            return any(is_equal(it.json, element["fixed"]) for it in items)
        if "pattern" in element:
            return any(fits(it.json, element["pattern"]) for it in items)
        # An extension is told by the url of the profile that its slice names.
        profiles = self.definitions.elements[slice_node]["type"][0]["profile"]
        return version_of(profiles[0])[0] in values_of(items)
