"""A model of how the snapshot of a profile is made of its differential and of its base's snapshot, by FHIR R4.

It is written from the standard (http://hl7.org/fhir/R4): Profiling (profiling.html), "Snapshots" and "Slicing"; ElementDefinition (elementdefinition.html),
id, path, sliceName, slicing and contentReference; StructureDefinition (structuredefinition.html), snapshot, differential and baseDefinition; References
(references.html), "Canonical URLs". Where these leave a choice, it goes by docs/USAGE.md, "Snapshots", and by docs/DECISIONS.md, "Elements" and "Snapshots".
It shares nothing with the program, and is as short as it can be.

`Model(definitions)` takes the definitions of a package in the order of its files; `snapshot(url)` is the list of the elements, or the number of a fault.
"""

import re
import typing

MANY = "*"
LARGEST = 2 ** 31 - 1
STEMS = ("fixed", "pattern", "minValue", "maxValue")
# Profiling, "Slicing": how extensions and choices are told apart where nothing says so.
OF_EXTENSIONS = {"discriminator": [{"type": "value", "path": "url"}], "rules": "open"}
OF_CHOICES = {"discriminator": [{"type": "type", "path": "$this"}], "rules": "open"}


class Wrong(Exception):
    """A tree isn't what is read there."""


class Fault(Exception):
    """A definition has no snapshot."""


class Node(typing.NamedTuple):
    """An element, the names of its children, and the ids of its slices."""

    element: dict
    children: list
    slices: list


# ---- ElementDefinition: what is read of an element. Each function gives what it reads, or raises `Wrong`.


def need(is_right):
    if not is_right:
        raise Wrong


def text(value):
    need(isinstance(value, str))
    return value


def truth(value):
    need(isinstance(value, bool))
    return value


def is_whole(value):
    return isinstance(value, int) and not isinstance(value, bool)


def count(value):
    need(is_whole(value) and 0 <= value <= LARGEST)
    return value


def integer(value):
    need(is_whole(value) and -LARGEST - 1 <= value <= LARGEST)
    return value


def most(value):
    need(isinstance(value, str) and re.fullmatch(r"\*|0|[1-9][0-9]*", value))
    need(value == MANY or int(value) <= LARGEST)
    return value


def one_of(*codes):
    def read(value):
        need(isinstance(value, str) and value in codes)
        return value
    return read


def list_of(read):
    def read_all(value):
        need(isinstance(value, list))
        return [read(it) for it in value]
    return read_all


def parts(readers, *required):
    """An object with members that are read; all others are passed over. An empty array is as none."""
    def read(value):
        need(isinstance(value, dict))
        made = {name: reader(value[name]) for name, reader in readers.items() if name in value}
        need(all(it in made for it in required))
        return {name: it for name, it in made.items() if it != []}
    return read


def types(value):
    """The types of an element: no code stands there twice."""
    entries = list_of(parts({"code": text, "profile": list_of(text), "targetProfile": list_of(text)}, "code"))(value)
    need(len({it["code"] for it in entries}) == len(entries))
    return entries


DISCRIMINATOR = parts({"type": one_of("value", "exists", "pattern", "type", "profile"), "path": text})
SLICING = parts({"discriminator": list_of(DISCRIMINATOR), "ordered": truth, "rules": one_of("closed", "open", "openAtEnd")})
CONSTRAINT = parts({"key": text, "severity": one_of("error", "warning"), "expression": text}, "key")
BINDING = parts({"strength": one_of("required", "extensible", "preferred", "example"), "valueSet": text})
ELEMENT = parts({
    "id": text, "path": text, "sliceName": text, "slicing": SLICING, "min": count, "max": most, "contentReference": text, "type": types,
    "maxLength": integer, "constraint": list_of(CONSTRAINT), "binding": BINDING,
}, "id")


def choices(tree):
    """The values of an element under their stems, each with its name: there may be one of each stem."""
    made = {}
    for name, value in tree.items():
        stem = next((it for it in STEMS if re.match(f"{it}[A-Z]", name)), None)
        if stem:
            need(stem not in made)
            made[stem] = (name, value)
    return made


def element_of(tree):
    """What is read of an element, by itself: its id can be read, and its `min` isn't over its `max`."""
    made = {**ELEMENT(tree), **choices(tree)}
    need(is_readable(made["id"]) and bounds_fit(made))
    return made


def bounds_fit(element):
    if "min" not in element or element.get("max", MANY) == MANY:
        return True
    return element["min"] <= int(element["max"])


def written(element):
    """An element as it stands in JSON."""
    made = {name: it for name, it in element.items() if name not in STEMS}
    return {**made, **dict(element[it] for it in STEMS if it in element)}


# ---- ElementDefinition, id: segments with a name, and perhaps that of a slice


def is_readable(identifier):
    """No part of an id is empty, and no slice is one of a slice."""
    return all(re.fullmatch(r"[^:]+(:[^/]+)?", it) for it in identifier.split("."))


def front_of(identifier):
    """The id of the element that this one is a child of, or a slice of a child."""
    return identifier.rpartition(".")[0]


def sliced_of(identifier):
    """The id of the element that this one is a slice of, if it is a slice."""
    front, dot, last = identifier.rpartition(".")
    return front + dot + last.partition(":")[0] if ":" in last else None


def name_of(identifier):
    return identifier.rpartition(".")[2].partition(":")[0]


def path_of(identifier):
    return ".".join(it.partition(":")[0] for it in identifier.split("."))


def twin_of(identifier):
    """The id without the name of its last slice, if it has one."""
    segments = identifier.split(".")
    sliced = [place for place, it in enumerate(segments) if ":" in it]
    return ".".join([*segments[:sliced[-1]], segments[sliced[-1]].partition(":")[0], *segments[sliced[-1] + 1:]]) if sliced else None


# ---- one element over another


def laid_over(upper, lower):
    """What a differential says replaces what is inherited; constraints are added, where the same isn't there."""
    own, constraints = upper.get("constraint", []), list(lower.get("constraint", []))
    constraints += [it for place, it in enumerate(own) if it not in constraints and it not in own[:place]]
    return {**lower, **upper, **({"constraint": constraints} if constraints else {})}


def moved(element, identifier):
    """What an element hands on to one of another id."""
    return {**element, "id": identifier, "path": path_of(identifier)}


def as_slice(element):
    """A slice may be missing, and isn't sliced itself."""
    return {**without(element, "slicing"), "min": 0}


def without(element, *names):
    return {name: it for name, it in element.items() if name not in names}


# ---- StructureDefinition: what a definition brings, and on what it rests


class Definition:
    """A StructureDefinition: its elements, or `None` where one of them is wrong."""

    def __init__(self, tree):
        self.tree, self.url = tree, tree["url"]
        self.is_type = tree.get("derivation") != "constraint"
        self.brings = self.has_own()
        self.elements = self.read_elements("snapshot" if self.brings else "differential")
        self.by_id = {}
        for it in self.elements or []:
            self.by_id.setdefault(it["id"], it)

    def has_own(self):
        """A snapshot is brought where it has elements, or isn't of its kind."""
        if "snapshot" not in self.tree:
            return False
        snapshot = self.tree["snapshot"]
        return not isinstance(snapshot, dict) or snapshot.get("element", []) != []

    def read_elements(self, member):
        try:
            holder = self.tree.get(member, {})
            need(isinstance(holder, dict))
            return list_of(element_of)(holder.get("element", []))
        except Wrong:
            return None

    def own_fault(self):
        """What is wrong with its own elements."""
        if self.elements is None:
            return "S3"
        return "S4" if not self.brings and len(self.by_id) < len(self.elements) else None

    def own_node(self, identifier):
        """The node of an element in a snapshot that is brought."""
        if identifier not in self.by_id:
            return None
        children = [name_of(it) for it in self.by_id if front_of(it) == identifier and not sliced_of(it)]
        return Node(self.by_id[identifier], children, [it for it in self.by_id if sliced_of(it) == identifier])


class Model:
    """The snapshots of the definitions of a package."""

    def __init__(self, definitions):
        self.definitions = [Definition(it) for it in definitions if it["resourceType"] == "StructureDefinition"]
        self.by_url = {it.url: it for it in self.definitions}
        self.types = {}
        for it in self.definitions:
            if it.is_type:
                self.types.setdefault(it.tree.get("type"), it)
        self.nodes = {}

    def named_by(self, canonical):
        """The definition that a canonical names. One without a version is of any version."""
        if not isinstance(canonical, str):
            return None
        url, bar, version = canonical.rpartition("|") if "|" in canonical else (canonical, "", "")
        found = self.by_url.get(url)
        if not found or bar and not version:
            return None
        return found if not bar or "version" not in found.tree or found.tree["version"] == version else None

    def base_of(self, definition):
        return self.named_by(definition.tree.get("baseDefinition"))

    def chain(self, definition):
        """A definition and those on which it rests, down to one that brings a snapshot."""
        found = []
        while not (found and found[-1].brings):
            if definition is None:
                raise Fault("S1")
            if definition in found:
                raise Fault("S2")
            if definition.is_type and not definition.brings:
                raise Fault("S3")
            found.append(definition)
            definition = self.base_of(definition)
        return found

    def is_grounded(self, definition):
        try:
            return all(it.elements is not None for it in self.chain(definition))
        except Fault:
            return False

    # ---- what each element inherits

    def node(self, definition, identifier):
        """The node of an id in the snapshot of a definition, or none. What asks for itself gets none."""
        key = (definition.url, identifier)
        if key not in self.nodes:
            self.nodes[key] = None
            if self.is_grounded(definition):
                self.nodes[key] = definition.own_node(identifier) if definition.brings else self.made_node(definition, identifier)
        return self.nodes[key]

    def made_node(self, definition, identifier):
        """What the differential says, laid over what is inherited."""
        found = self.inherited(definition, identifier)
        if found is None:
            return None
        said, base = definition.by_id.get(identifier, {}), self.base_of(definition)
        element = laid_over(said, found.element)
        new = [it for it in definition.by_id if sliced_of(it) == identifier and not self.node(base, it)]
        slices = [*found.slices, *new]
        if slices and "slicing" not in element:
            element = {**element, **implied(identifier)}
        children = list(found.children)
        if self.is_touched(definition, identifier, children):
            for source in self.sources(definition, identifier, element):
                children += [it for it in source.children if it not in children]
        return Node(element, children, slices) if bounds_fit(element) else None

    def is_touched(self, definition, identifier, children):
        """Whether the differential has a child of an element that the base doesn't have, or a slice of one."""
        return any(front_of(it) == identifier and name_of(it) not in children for it in definition.by_id)

    def inherited(self, definition, identifier):
        """What the differential is laid over: an element, and the children and slices that come with it."""
        of_base = self.node(self.base_of(definition), identifier)
        if of_base:
            return of_base
        if sliced_of(identifier):
            sliced = self.node(definition, sliced_of(identifier)) if identifier in definition.by_id else None
            return sliced and Node(as_slice(moved(sliced.element, identifier)), [], [])
        return self.new_child(definition, identifier)

    def new_child(self, definition, identifier):
        """A child that the base doesn't have comes with its siblings where the differential has one of them."""
        name, parent = name_of(identifier), front_of(identifier)
        above = self.node(definition, parent) if parent else None
        if above is None or name not in above.children:
            return None
        for source in self.sources(definition, parent, above.element):
            if name in source.children:
                found = self.node(source.definition, f"{source.id}.{name}")
                return found and Node(moved(found.element, identifier), [], [])
        return None

    def sources(self, definition, identifier, element):
        """Where an element may get children from: the element without its last slice, the root of its only type, and the element that it refers to."""
        found = []
        if twin_of(identifier):
            found.append((definition, twin_of(identifier)))
        codes = [it["code"] for it in element.get("type", [])]
        if len(codes) == 1 and codes[0] in self.types:
            found.append((self.types[codes[0]], codes[0]))
        if "#" in element.get("contentReference", ""):
            canonical, _, target = element["contentReference"].partition("#")
            found.append((self.named_by(canonical) if canonical else definition, target))
        for source, name in found:
            at = self.node(source, name) if source else None
            if at:
                yield Source(source, name, at.children)

    # ---- the snapshot

    def snapshot(self, url):
        try:
            if url not in self.by_url:
                raise Fault("S1")
            chain = self.chain(self.by_url[url])
            for it in reversed(chain):
                self.check(it)
            definition = chain[0]
            return [written(it) for it in (definition.elements if definition.brings else self.in_order(definition))]
        except Fault as fault:
            return str(fault)

    def is_made(self, url):
        return url in self.by_url and not self.by_url[url].brings

    def check(self, definition):
        """Faults of a definition whose base has a snapshot."""
        if definition.own_fault():
            raise Fault(definition.own_fault())
        if not definition.brings:
            there = {it["id"] for it in self.in_order(definition)}
            base = self.base_of(definition)
            ids = base.by_id if base.brings else {it["id"] for it in self.in_order(base)}
            if not there.issuperset([*ids, *definition.by_id]):
                raise Fault("S3")

    def in_order(self, definition):
        """Each element, then its children, and then its slices."""
        root = next((it for it in self.chain(definition)[-1].by_id if not front_of(it) and not sliced_of(it)), None)
        return self.below(definition, root) if root else []

    def below(self, definition, identifier):
        node = self.node(definition, identifier)
        if node is None:
            raise Fault("S3")
        made = [node.element]
        for it in [*(f"{identifier}.{name}" for name in node.children), *node.slices]:
            made += self.below(definition, it)
        return made


class Source(typing.NamedTuple):
    """An element from which another one gets children."""

    definition: Definition
    id: str
    children: list


def implied(identifier):
    """The slicing of an element that has slices, where nothing says it."""
    name = name_of(identifier)
    if name in ("extension", "modifierExtension"):
        return {"slicing": OF_EXTENSIONS}
    return {"slicing": OF_CHOICES} if name.endswith("[x]") else {}
