"""What each rule of docs/USAGE.md ("When the answer is no") asks of two elements, for tests/countered: whether the one that is told does fail there.

`derive` names a pair that fails where all pairs that it has found count. So a rule that asks for a pair of slices or profiles fails only where there is
no such pair to be found, and each rule can be judged by what the two elements say. Only of `constraint` it isn't looked whether others entail it.
"""

import re

import model

ITEM_RULES = ("type", "fixed", "pattern", "range", "length", "binding", "constraint", "children")
KIDS_RULES = ("slot", "cardinality", "slice", "criteria", "bounds", "closed", "ordered", "end")


def bounds_of(element):
    return element["min"], float("inf") if element["max"] == model.MANY else int(element["max"])


def is_within(derived, base):
    (least, most), (base_least, base_most) = bounds_of(derived), bounds_of(base)
    return base_least <= least and most <= base_most


def slice_name(node):
    return node.id.rpartition(".")[2].partition(":")[2]


class Rules:
    """The rules over the definitions of a model. Each is asked of a node of the derived side, one of the base, and the name behind the rule."""

    def __init__(self, modelled):
        self.model, self.definitions = modelled, modelled.definitions

    def wrong(self, pair, rule):
        """What is wrong with a pair and a rule that are told to fail, or none."""
        kind, *nodes = pair.split(" ")
        nodes = [model.Node(*it.split("#", 1)) for it in nodes]
        word, _, name = rule.partition(" ")
        if len(nodes) != 2 or any(it not in self.definitions.elements for it in nodes):
            return "the pair names no two elements"
        if word not in {"item": ITEM_RULES, "kids": KIDS_RULES}.get(kind, ()):
            return f"no rule {word} of {kind}"
        return None if getattr(self, f"{word}_fails")(*nodes, name) else "the rule doesn't fail by what the two elements say"

    def elements(self, *nodes):
        return [self.definitions.elements[it] for it in nodes]

    # -- of an item

    def type_fails(self, derived, base, _):
        if self.definitions.is_root(base) or self.definitions.is_root(derived):
            types = [self.definitions.structures[it.url]["type"] for it in (base, derived)]
            return self.definitions.is_root(base) != self.definitions.is_root(derived) or not self.definitions.covers(*types)
        allowed = self.definitions.type_entries(base)
        return bool(allowed) and any(not any(self.allows(it, entry) for it in allowed) for entry in self.definitions.type_entries(derived))

    def allows(self, base, derived):
        """Whether a type entry of the base allows one of the derived side: its code, its targets by their types, and its profiles."""
        if not self.definitions.covers(base["code"], derived["code"]):
            return False
        targets, profiles = base.get("targetProfile"), base.get("profile")
        if targets and not derived.get("targetProfile") or profiles and not derived.get("profile"):
            return False
        return all(self.allows_target(targets, it) for it in derived.get("targetProfile", []) if targets) and \
            all(self.allows_profile(profiles, it) for it in derived.get("profile", []) if profiles)

    def allows_target(self, targets, one):
        named = self.definitions.named(one)
        others = [it for it in map(self.definitions.named, targets) if it]
        return one in targets or named is not None and any(self.definitions.covers(it["type"], named["type"]) for it in others)

    def allows_profile(self, profiles, one):
        """A pair of the two roots is found where both are there."""
        return one in profiles or self.definitions.named(one) is not None and any(map(self.definitions.named, profiles))

    def fixed_fails(self, derived, base, _):
        derived, base = self.elements(derived, base)
        return "fixed" in base and not ("fixed" in derived and model.is_equal(derived["fixed"], base["fixed"]))

    def pattern_fails(self, derived, base, _):
        derived, base = self.elements(derived, base)
        return "pattern" in base and not any(it in derived and model.fits(derived[it], base["pattern"]) for it in ("fixed", "pattern"))

    def range_fails(self, derived, base, _):
        derived, base = self.elements(derived, base)
        for name in [it for it in base if re.match("(minValue|maxValue).", it)]:
            ends = [base[name], derived.get(name)] if name.startswith("min") else [derived.get(name), base[name]]
            if name not in derived or not model.is_at_most(*ends):
                return True
        return False

    def length_fails(self, derived, base, _):
        derived, base = self.elements(derived, base)
        return "maxLength" in base and derived.get("maxLength", float("inf")) > base["maxLength"]

    def binding_fails(self, derived, base, _):
        wanted, given = [
            it["binding"]["valueSet"] if it.get("binding", {}).get("strength") == "required" else None for it in self.elements(base, derived)
        ]
        if wanted is None or wanted == given:
            return False
        concepts = [it and self.model.value_sets.concepts(it) for it in (given, wanted)]
        return None in concepts or not concepts[0] <= concepts[1]

    def constraint_fails(self, derived, base, key):
        """Those of the element that a content reference names count as its own."""
        said, known = [
            [it for carrier in [node, self.definitions.content_target(node)] if carrier for it in self.definitions.elements[carrier].get("constraint", [])]
            for node in (base, derived)
        ]
        texts = {it["expression"] for it in known if it["severity"] == "error"}
        return any(it["key"] == key and it["severity"] == "error" and it["expression"] not in texts for it in said)

    def children_fails(self, derived, base, _):
        return bool(self.definitions.children_of(base)) and not self.definitions.children_of(derived)

    # -- of what stands below

    def child(self, node, name):
        wanted = name.removesuffix("[x]")
        return next((it for it in self.definitions.children_of(node) if self.definitions.names[it] == wanted), None)

    def children_named(self, derived, base, name):
        """The two elements of a name that a rule speaks of."""
        return [self.child(it, name.partition(":")[0]) for it in (derived, base)]

    def slot_fails(self, derived, base, name):
        own, of_base = self.children_named(derived, base, name)
        return of_base is not None and own is None

    def cardinality_fails(self, derived, base, name):
        both = self.children_named(derived, base, name)
        return None not in both and not is_within(*self.elements(*both))

    def slices_named(self, derived, base, name):
        """The slices of a name on both sides, of which one may lack it."""
        both = self.children_named(derived, base, name)
        wanted = name.partition(":")[2]
        return [next((it for it in self.definitions.slices.get(node, []) if slice_name(it) == wanted), None) for node in both]

    def slice_fails(self, derived, base, name):
        own, of_base = self.slices_named(derived, base, name)
        return of_base is not None and own is None

    def bounds_fails(self, derived, base, name):
        """A slice of an element with a `max` of 0 has no items, so that it asks for too few where the base's has a `min` over 0
        (docs/DECISIONS.md, "A profile against itself")."""
        own, of_base = self.slices_named(derived, base, name)
        is_empty = self.definitions.elements[self.children_named(derived, base, name)[0]]["max"] == "0"
        if is_empty and of_base and self.definitions.elements[of_base]["min"] > 0:
            return True
        return own is not None and of_base is not None and not is_within(*self.elements(own, of_base))

    def slicing(self, node):
        """The slicing of an element; without one extensions are told by their url, and choices by their type."""
        by_default = {"type": "type", "path": "$this"} if node.id.endswith("[x]") else {"type": "value", "path": "url"}
        return self.definitions.elements[node].get("slicing", {"discriminator": [by_default], "rules": "open"})

    def criteria_fails(self, derived, base, name):
        own, of_base = self.slices_named(derived, base, name)
        if own is None or of_base is None:
            return False
        discriminators = [self.slicing(it)["discriminator"] for it in self.children_named(derived, base, name)]
        return discriminators[0] != discriminators[1] or any(self.sought(own, it) != self.sought(of_base, it) for it in discriminators[0])

    def sought(self, node, discriminator):
        """What a discriminator looks for below a slice."""
        at = node
        for step in [] if discriminator["path"] == "$this" else discriminator["path"].split("."):
            at = at and next((it for it in self.definitions.children.get(at, []) if self.definitions.names[it] == step), None)
        element = self.definitions.elements[at] if at else {}
        if discriminator["type"] == "exists":
            return element["min"] > 0
        if discriminator["type"] == "type":
            return [it["code"] for it in element["type"]]
        found = [(it, repr(element[it])) for it in ("fixed", "pattern") if it in element]
        return found or self.definitions.elements[node]["type"][0]["profile"]

    def slices_of(self, node):
        return [slice_name(it) for it in self.definitions.slices.get(node, []) if self.definitions.elements[it]["max"] != "0"]

    def further(self, derived, base):
        """The derived slices that may have items, and which the base hasn't."""
        names = [slice_name(it) for it in self.definitions.slices.get(base, [])]
        return [it for it in self.slices_of(derived) if it not in names]

    def closed_fails(self, derived, base, name):
        own, of_base = self.children_named(derived, base, name)
        rules = [self.slicing(it).get("rules") for it in (own, of_base)]
        return rules[1] == "closed" and (rules[0] != "closed" or bool(self.further(own, of_base)))

    def ordered_fails(self, derived, base, name):
        own, of_base = self.children_named(derived, base, name)
        both = [[it for it in self.slices_of(one) if it in self.slices_of(other)] for one, other in ((own, of_base), (of_base, own))]
        return bool(self.slicing(of_base).get("ordered")) and (not self.slicing(own).get("ordered") or both[0] != both[1])

    def end_fails(self, derived, base, name):
        own, of_base = self.children_named(derived, base, name)
        further, names = self.further(own, of_base), self.slices_of(own)
        stand_behind = not further or bool(self.slicing(own).get("ordered")) and names[len(names) - len(further):] == further
        is_ended = self.slicing(own).get("rules") in ("closed", "openAtEnd")
        return self.slicing(of_base).get("rules") == "openAtEnd" and not (is_ended and stand_behind)
