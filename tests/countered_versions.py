"""New versions of the packages of tests/modelled, for tests/countered: in one definition of each that is changed, one thing is."""

import copy
import json

import modelled_made
import modelled_types
from modelled_types import SITE, maybe

# What stands behind the url of OLD's profile, and behind that of its value set, beside NEW's.
OLD = "-of-old"


def new_version(draw, definitions, pairs):
    """The definitions of a new version: the profiles of pairs are changed, or one that others may name, or one is taken out."""
    made = copy.deepcopy(definitions)
    if maybe(draw, 0.5):
        own = {url for pair in pairs for url in pair}
        for one in [it for it in made if it["url"] in own]:
            change_profile(draw, one)
        return made
    shared = [it for it in made if it["resourceType"] != "StructureDefinition" or it["url"].rpartition("/")[2] in sum(modelled_types.NAMED.values(), [])]
    one = draw.choice(shared)
    if maybe(draw, 0.1):
        made.remove(one)
    elif one["resourceType"] == "StructureDefinition":
        change_profile(draw, one)
    else:
        others = (modelled_types.value_sets if one["resourceType"] == "ValueSet" else modelled_types.code_systems)(draw)
        one.update(next(it for it in others if it["url"] == one["url"]))
    return made


def change_profile(draw, one):
    """Asks for one thing more, or drops or changes one."""
    snapshot = modelled_made.Snapshot(one["snapshot"]["element"])
    elements = [it for it in snapshot.elements if it["id"] != "Extension.url" and "." in it["id"]]
    if maybe(draw, 0.4):
        modelled_made.add_rule(draw, snapshot, elements)
    else:
        any(modelled_made.is_done(draw, it, snapshot, elements) for it in draw.sample(modelled_made.CHANGES, len(modelled_made.CHANGES)))
    one["snapshot"]["element"] = snapshot.elements


def touched(old, new):
    """The urls of the definitions that aren't equal in both versions, and of those that name such ones, at first hand or by others between them."""
    texts = [{it["url"]: json.dumps({**it, "baseDefinition": None}, default=str) for it in side} for side in (old, new)]
    found = {url for url in texts[0].keys() | texts[1].keys() if texts[0].get(url) != texts[1].get(url)}
    while True:
        more = {url for side in texts for url, text in side.items() if any(f'"{it}"' in text or f'"{it}|' in text for it in found)} - found
        if not more:
            return found
        found |= more


def beside(old_model, new_model, url, new, changed):
    """NEW's definitions and OLD's profile under another url, as docs/USAGE.md ("A new version") has them: all that it names means NEW's, but for a value
    set of a binding, which means the concepts that it has in OLD. One that can't be read, and has changed, or what it rests on, is another one there."""
    one = copy.deepcopy(old_model.definitions.structures[url])
    one["url"], added = url + OLD, {}
    for it in one["snapshot"]["element"]:
        canonical = it.get("binding", {}).get("valueSet")
        concepts = canonical and old_model.value_sets.concepts(canonical)
        is_other = concepts is None and canonical in changed
        if canonical and (is_other or concepts != new_model.value_sets.concepts(canonical)):
            it["binding"]["valueSet"] = canonical + OLD
            if concepts is not None:
                added[canonical + OLD] = listed(canonical + OLD, concepts)
    return [*new, one, *added.values()]


def listed(url, concepts):
    parts = [{"system": system, "concept": [{"code": code}]} for system, code in sorted(concepts)]
    return {"resourceType": "ValueSet", "url": url, "status": "active", "compose": {"include": parts}}
