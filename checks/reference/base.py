"""Numbers, octets, addresses, prefixes and patterns (mv_base), and finite maps and sets in an order of their keys."""

from dataclasses import dataclass


# ---- numbers and octets

def to_be_bytes(width, number):
    return tuple(number.to_bytes(width, 'big'))


def from_be_bytes(octets):
    return int.from_bytes(bytes(octets), 'big')


def slice_get(items, place):
    return items[place] if 0 <= place < len(items) else None


def position(test, items):
    """The place of the first of the items that passes the test."""
    for place, item in enumerate(items):
        if test(item):
            return place
    return None


def flat_map(step, items):
    return tuple(found for item in items for found in step(item))


def found_in(find, items):
    """What is found in a list (edge_defs Imported)."""
    return tuple(found for found in (find(item) for item in items) if found is not None)


# ---- the checksum of the Internet protocols (RFC 1071 section 1)

def ones_add(a, b):
    return a + b if a + b < 65536 else a + b - 65535


def words(octets):
    even = octets if len(octets) % 2 == 0 else octets + (0,)
    return [even[place] * 256 + even[place + 1] for place in range(0, len(even), 2)]


def checksum(octets):
    total = 0
    for word in words(octets):
        total = ones_add(total, word)
    return 65535 - total


# ---- addresses

@dataclass(frozen=True)
class V4:
    octets: tuple


@dataclass(frozen=True)
class V6:
    octets: tuple


def same_addr(a, b):
    return a == b


def addr_octets(addr):
    return addr.octets


def addr_part(addr):
    """The numbers by which addresses are ordered (edge_defs Keys; addr_key of choice_defs)."""
    return ((4,) if isinstance(addr, V4) else (6,)) + addr.octets


def sized_addr_key(addr):
    """The numbers by which the addresses of entries and of trees are distinguished (pim_defs Entries; label_defs Keys)."""
    return (4 if isinstance(addr, V4) else 6, len(addr.octets)) + addr.octets


def word_part(addr):
    return () if addr is None else addr_part(addr)


@dataclass(frozen=True)
class Prefix:
    addr: object
    bits: int


def same_front(own, other, bits):
    if type(own) is not type(other):
        return False
    after = 8 * len(own.octets) - bits
    return from_be_bytes(own.octets) // 2 ** after == from_be_bytes(other.octets) // 2 ** after


def covers(prefix, addr):
    return same_front(prefix.addr, addr, prefix.bits)


# ---- patterns, None being the wildcard

@dataclass(frozen=True)
class Pattern:
    source: object
    group: object


def rank(pattern):
    match (pattern.source is None, pattern.group is None):
        case (False, False):
            return 4
        case (False, True):
            return 3
        case (True, False):
            return 2
        case _:
            return 1


# ---- finite maps and sets

class FinMap:
    """A finite map. `order` gives what a key is ordered by, and keys are one where that is one."""

    def __init__(self, order, entries=()):
        self.order = order
        self.entries = tuple(sorted(entries, key=lambda entry: order(entry[0])))

    def without(self, key):
        return tuple(entry for entry in self.entries if self.order(entry[0]) != self.order(key))

    def insert(self, key, value):
        return FinMap(self.order, self.without(key) + ((key, value),))

    def remove(self, key):
        return FinMap(self.order, self.without(key))

    def get(self, key):
        for own, value in self.entries:
            if self.order(own) == self.order(key):
                return value
        return None

    def contains_key(self, key):
        return len(self.without(key)) < len(self.entries)

    def keys(self):
        return tuple(key for key, _ in self.entries)

    def values(self):
        return tuple(value for _, value in self.entries)

    def retain_keys(self, test):
        return FinMap(self.order, tuple(entry for entry in self.entries if test(entry[0])))

    def __len__(self):
        return len(self.entries)


def from_entries(order, entries):
    """The map of a list of entries. At a key that is there twice it has the first value."""
    made = FinMap(order)
    for key, value in reversed(entries):
        made = made.insert(key, value)
    return made


class FinSet:
    """A finite set, likewise."""

    def __init__(self, order, items=()):
        self.order = order
        one_each = {order(item): item for item in reversed(items)}
        self.items = tuple(one_each[key] for key in sorted(one_each))

    def insert(self, item):
        return FinSet(self.order, (item,) + self.items)

    def remove(self, item):
        return self.retain(lambda own: self.order(own) != self.order(item))

    def contains(self, item):
        return any(self.order(own) == self.order(item) for own in self.items)

    def retain(self, test):
        return FinSet(self.order, tuple(item for item in self.items if test(item)))

    def union(self, other):
        return FinSet(self.order, self.items + other.items)

    def __len__(self):
        return len(self.items)
