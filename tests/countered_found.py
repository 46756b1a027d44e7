"""Looks by the model alone for resources that conform to one profile and not to another one, for tests/countered."""

import copy
import re
import typing

import model
import modelled_resources

# After so many changes another resource is begun with.
STRIDE = 12


class Side(typing.NamedTuple):
    """A profile, and the model of the definitions over which it is meant."""

    model: model.Model
    url: str

    def broken(self, resource, do_unread_rules_hold):
        return self.model.broken(self.url, self.model.reading(resource), do_unread_rules_hold)

    def conforms(self, resource, do_unread_rules_hold):
        return next(self.broken(resource, do_unread_rules_hold), None) is None


def is_witness(derived, base, resource):
    """Whether a resource conforms to the derived profile and violates the base, whatever the rules mean that aren't judged."""
    return derived.conforms(resource, False) and not base.conforms(resource, True)


def likely_names(definitions, derived, base):
    """The names of elements of resources that are likely to matter, twice: those at which the two profiles differ, and all of which one says more than
    its type does."""
    told = [{it["id"]: it for one in definitions if one["url"] == url for it in one["snapshot"]["element"]} for url in (derived, base)]
    differing = [it for it in told[0].keys() | told[1].keys() if told[0].get(it) != told[1].get(it)]
    names = {re.split(r"[.:\[]", it)[1] for it in differing if "." in it}
    return sorted(names), modelled_resources.named_in(definitions, (derived, base))


def conforming(draw, side, likely, steps, do_unread_rules_hold=False):
    """Resources that conform to a profile: made ones, of which each is changed in one place as long as it breaks no more than before."""
    for step in range(steps):
        is_first = step % STRIDE == 0
        names = draw.choice(likely)
        made = beginning(draw, names, step // STRIDE) if is_first else modelled_resources.changed(draw, at, names)
        broken = sum(1 for _ in side.broken(made, do_unread_rules_hold))
        if is_first or broken <= least:
            at, least = made, broken
        if not broken:
            yield made


def beginning(draw, likely, number):
    """The resource that has nothing, and then some at random."""
    return modelled_resources.thing(draw, likely=likely) if number else {"resourceType": "Thing", "id": "i"}


def witness(draw, derived, base, likely, steps):
    """A resource that conforms to the derived profile and violates the base, or none."""
    return next((it for it in conforming(draw, derived, likely, steps) if not base.conforms(it, True)), None)


def shrunk(resource, is_wanted):
    """What is left of a resource where members and entries are taken away as long as it is wanted."""
    smaller = next((it for it in smaller_ones(resource) if is_wanted(it)), None)
    return resource if smaller is None else shrunk(smaller, is_wanted)


def smaller_ones(value):
    """JSON values with one member or entry less, here or further down."""
    if isinstance(value, dict):
        places = [it for it in value if it != "resourceType"]
    else:
        places = range(len(value)) if isinstance(value, list) else []
    for place in places:
        without = copy.copy(value)
        del without[place]
        yield without
        for inner in smaller_ones(value[place]):
            other = copy.copy(value)
            other[place] = inner
            yield other
