"""The label part of a node (label_defs: Keys, LabelData)."""

from dataclasses import dataclass

from .base import FinMap, FinSet, position, sized_addr_key, slice_get
from .octets import Fec

# ---- orders

KIND_KEYS = {'p2mp': 0, 'up': 1, 'down': 2}


def fec_key(fec):
    return (KIND_KEYS[fec.kind],) + sized_addr_key(fec.root) + fec.opaque


def branch_key(branch):
    return (branch.node, branch.label) + fec_key(branch.fec)


def node_key(node):
    return node


def same_fec(a, b):
    return fec_key(a) == fec_key(b)


# ---- data

@dataclass(frozen=True)
class Branch:
    fec: Fec
    node: int
    label: int


@dataclass(frozen=True)
class End:
    """The end of an LDP session that is up: when it came up, whether its hold was run, and the id of the next message."""

    raised: int
    held: bool
    next: int


@dataclass(frozen=True)
class Free:
    pass


@dataclass(frozen=True)
class Mapped:
    fec: Fec
    upstream: int


@dataclass(frozen=True)
class Leaving:
    fec: Fec
    upstream: int


@dataclass(frozen=True)
class Resting:
    until: int


@dataclass(frozen=True)
class Place:
    """How long a copy may be on a link, which FECs are trees, and the neighbour towards the root of a tree."""

    life: int
    is_tree: object
    upstream: object


@dataclass(frozen=True)
class LabelData:
    labels: tuple
    branches: FinSet
    leaves: FinSet
    waiting: FinSet
    ends: FinMap


FIRST_LABEL = 16


def fresh(count):
    return LabelData((Free(),) * count, FinSet(branch_key), FinSet(fec_key), FinSet(fec_key), FinMap(node_key))


def use_of(part, label):
    return None if label < FIRST_LABEL else slice_get(part.labels, label - FIRST_LABEL)


def label_at(place):
    return None if place is None else FIRST_LABEL + place


def free_label(part):
    return label_at(position(lambda usage: isinstance(usage, Free), part.labels))


def is_mapped(fec, usage):
    return isinstance(usage, Mapped) and same_fec(usage.fec, fec)


def mapped_label(part, fec):
    return label_at(position(lambda usage: is_mapped(fec, usage), part.labels))


def has_branch(part, fec):
    return any(same_fec(branch.fec, fec) for branch in part.branches.items)


def has_tree(part, fec):
    return has_branch(part, fec) or part.leaves.contains(fec)


def is_up(part, node):
    return part.ends.get(node) is not None


def is_ready(part, node):
    end = part.ends.get(node)
    return False if end is None else end.held


def mapped_trees(uses):
    return tuple(usage.fec for usage in uses if isinstance(usage, Mapped))


def trees(part):
    """The trees of the node, in their order: those with a branch, a leaf, or a mapped label."""
    return FinSet(fec_key, tuple(branch.fec for branch in part.branches.items) + part.leaves.items + mapped_trees(part.labels)).items


def is_rested(now, usage):
    return isinstance(usage, Resting) and usage.until <= now


def is_hold_due(life, now, end):
    return not end.held and end.raised + life + 1 <= now


def due(place, now, part):
    return sum(is_rested(now, usage) for usage in part.labels) + sum(is_hold_due(place.life, now, end) for end in part.ends.values())
