"""PIM Join/Prune messages of IPv4 and IPv6, and their reading with the first fault that is met (pim_joinprune: Reading)."""

from dataclasses import dataclass

from .base import V4, V6, checksum, from_be_bytes


@dataclass(frozen=True)
class JpSource:
    kind: str
    addr: object


@dataclass(frozen=True)
class Group:
    group: object
    joins: tuple
    prunes: tuple


@dataclass(frozen=True)
class JoinPrune:
    neighbour: object
    holdtime: int
    groups: tuple


@dataclass(frozen=True)
class PimFault:
    place: int
    word: str


@dataclass(frozen=True)
class Family:
    octet: int
    addr: type
    addr_len: int
    mask_len: int


FAMILIES = (Family(1, V4, 4, 32), Family(2, V6, 16, 128))


class Stop(Exception):
    """A fault, with the number of octets from its place to the end."""

    def __init__(self, left, word):
        super().__init__(word)
        self.left = left
        self.word = word


# ---- fields: each gives its value and the octets after it

def octet_at(octets):
    if not octets:
        raise Stop(0, 'short')
    return octets[0], octets[1:]


def known_at(value, word, octets):
    octet, rest = octet_at(octets)
    if octet != value:
        raise Stop(len(octets), word)
    return rest


def number_at(octets):
    if len(octets) < 2:
        raise Stop(len(octets), 'short')
    return from_be_bytes(octets[:2]), octets[2:]


def address_at(family, octets):
    if len(octets) < family.addr_len:
        raise Stop(len(octets), 'short')
    return family.addr(octets[:family.addr_len]), octets[family.addr_len:]


def family_at(octets):
    octet, rest = octet_at(octets)
    for family in FAMILIES:
        if family.octet == octet:
            return family, rest
    raise Stop(len(octets), 'family')


def unicast_at(octets):
    family, octets = family_at(octets)
    octets = known_at(0, 'encoding', octets)
    return address_at(family, octets)


def kind_at(octets):
    flags, rest = octet_at(octets)
    kind = {0: 'sg', 1: 'rpt', 3: 'star'}.get(flags % 4)
    if kind is None:
        raise Stop(len(octets), 'flags')
    return kind, rest


def source_at(family, octets):
    octets = known_at(family.octet, 'family', octets)
    octets = known_at(0, 'encoding', octets)
    kind, octets = kind_at(octets)
    octets = known_at(family.mask_len, 'mask-length', octets)
    addr, octets = address_at(family, octets)
    return JpSource(kind, addr), octets


def is_multicast(addr):
    first = addr.octets[0]
    return first // 16 == 14 if isinstance(addr, V4) else first == 255


def multicast_at(family, octets):
    addr, rest = address_at(family, octets)
    if not is_multicast(addr):
        raise Stop(len(octets), 'not-multicast')
    return addr, rest


def group_address_at(family, octets):
    octets = known_at(family.octet, 'family', octets)
    octets = known_at(0, 'encoding', octets)
    _, octets = octet_at(octets)
    octets = known_at(family.mask_len, 'mask-length', octets)
    return multicast_at(family, octets)


def all_at(read, family, count, octets):
    found = []
    for _ in range(count):
        one, octets = read(family, octets)
        found.append(one)
    return tuple(found), octets


def group_at(family, octets):
    group, octets = group_address_at(family, octets)
    joined, octets = number_at(octets)
    pruned, octets = number_at(octets)
    joins, octets = all_at(source_at, family, joined, octets)
    prunes, octets = all_at(source_at, family, pruned, octets)
    return Group(group, joins, prunes), octets


def family_of(addr):
    return next(family for family in FAMILIES if isinstance(addr, family.addr))


def fields_at(octets):
    neighbour, octets = unicast_at(octets)
    _, octets = octet_at(octets)
    count, octets = octet_at(octets)
    holdtime, octets = number_at(octets)
    groups, octets = all_at(group_at, family_of(neighbour), count, octets)
    return JoinPrune(neighbour, holdtime, groups), octets


def whole_of(octets):
    message, rest = fields_at(octets)
    if rest:
        raise Stop(len(rest), 'trailing')
    return message


# ---- the message

ROUTER = (0xFE, 0x80) + (0,) * 13 + (1,)
ALL_PIM_ROUTERS = (0xFF, 2) + (0,) * 13 + (0x0D,)


def pseudo_of(fields):
    """What the checksum covers in front of a message with these octets after its header."""
    if not fields or fields[0] != 2:
        return ()
    return ROUTER + ALL_PIM_ROUTERS + tuple((4 + len(fields)).to_bytes(4, 'big')) + (0, 0, 0, 103)


def sum_of(first, reserved, fields):
    return checksum(pseudo_of(fields) + (first, reserved, 0, 0) + fields)


def headed(octets):
    first, reserved, rest = octets[0], octets[1], octets[4:]
    if first // 16 != 2:
        raise Stop(len(octets), 'version')
    if first % 16 != 3:
        raise Stop(len(octets), 'pim-type')
    if sum_of(first, reserved, rest) != from_be_bytes(octets[2:4]):
        raise Stop(2 + len(rest), 'checksum')
    return whole_of(rest)


def decoded(octets):
    """The message that the octets spell, or their first fault and its place."""
    try:
        if len(octets) < 4:
            raise Stop(0, 'short')
        return headed(octets)
    except Stop as fault:
        return PimFault(len(octets) - fault.left, fault.word)
