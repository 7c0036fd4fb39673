"""Readers of what nodes write: BGP messages and LDP PDUs, by the tables of their fields, and the streams that are fed with
them in pieces (mv_base/framing: Cut, Feed).

A reader takes fields from the front of octets. Where a field cannot be what it has to be, it raises `Misread` with a word; the
place within the message is not given, as no node of this network ever puts such octets.
"""

from dataclasses import dataclass

from .base import V4, V6, Prefix
from . import octets as forms


class Misread(Exception):
    pass


class Fields:
    """Octets that are taken from the front."""

    def __init__(self, octets):
        self.left = tuple(octets)

    def octets(self, count):
        if len(self.left) < count:
            raise Misread('short')
        taken, self.left = self.left[:count], self.left[count:]
        return taken

    def number(self, count):
        return int.from_bytes(bytes(self.octets(count)), 'big')

    def rest(self):
        return self.octets(len(self.left))

    def part(self, count):
        return Fields(self.octets(count))

    def expect(self, count, value, word):
        if self.number(count) != value:
            raise Misread(word)

    def end(self):
        if self.left:
            raise Misread('trailing')


def addr_of(octets):
    if len(octets) not in (4, 16):
        raise Misread('address')
    return V4(octets) if len(octets) == 4 else V6(octets)


# ---- FEC elements and tunnels: kind, family, address length, root, opaque length, opaque value

def read_fec(fields):
    kind = {6: 'p2mp', 7: 'up', 8: 'down'}.get(fields.number(1))
    family, length = fields.number(2), fields.number(1)
    if kind is None or (family, length) not in ((1, 4), (2, 16)):
        raise Misread('fec')
    root = addr_of(fields.octets(length))
    return forms.Fec(kind, root, fields.octets(fields.number(2)))


def read_pmsi(fields):
    """Flags, tunnel type, label, identifier."""
    flags = fields.number(1)
    fields.expect(1, 2, 'tunnel-type')
    label = fields.number(3) >> 4
    fec = read_fec(fields)
    fields.end()
    return forms.Pmsi(flags % 2 == 1, forms.Mldp(fec), label or None)


# ---- routes: type, length, fields

def read_any_or_addr(fields):
    bits = fields.number(1)
    if bits not in (0, 32, 128):
        raise Misread('length')
    return None if bits == 0 else addr_of(fields.octets(bits // 8))


def read_addr(fields):
    addr = read_any_or_addr(fields)
    if addr is None:
        raise Misread('wildcard')
    return addr


def read_route(fields):
    kind = fields.number(1)
    own = fields.part(fields.number(1))
    rd = own.octets(8)
    if kind == 1:
        route = forms.Intra(rd, addr_of(own.rest()))
    elif kind == 3:
        route = forms.Selective(rd, read_any_or_addr(own), read_any_or_addr(own), addr_of(own.rest()))
    elif kind == 5:
        route = forms.Active(rd, read_addr(own), read_addr(own))
    elif kind == 7:
        route = forms.SourceJoin(rd, own.number(4), read_addr(own), read_addr(own))
    else:
        raise Misread('route-type')
    own.end()
    return route


def read_unicast(afi, fields):
    """Length in bits of what comes after it; label, Route Distinguisher, prefix (RFC 8277 section 2)."""
    bits = fields.number(1) - 88
    fields.octets(3)
    rd = fields.octets(8)
    front = fields.octets((bits + 7) // 8)
    addr = V4(padded(4, front)) if afi == 1 else V6(padded(16, front))
    return forms.Unicast(rd, Prefix(addr, bits))


def padded(count, octets):
    return octets + (0,) * (count - len(octets))


def read_key(family, fields):
    if family in ((1, 128), (2, 128)):
        return read_unicast(family[0], fields)
    if family in ((1, 5), (2, 5)):
        return forms.Mcast(family[0], read_route(fields))
    raise Misread('family')


def read_keys(family, fields):
    keys = []
    while fields.left:
        keys.append(read_key(family, fields))
    return tuple(keys)


def hop_addr(family, hop):
    """That of a VPN route has a Route Distinguisher in front, and that of VPN-IPv6 may be an IPv4-mapped address."""
    octets = hop[8:] if family[1] == 128 else hop
    if family == (2, 128) and len(octets) == 16 and octets[:12] == forms.MAPPED_FRONT:
        return V4(octets[12:])
    return addr_of(octets)


# ---- UPDATE messages: withdrawn length, attributes length, attributes of flags, type, length and value

def read_reach(fields):
    """AFI, SAFI, next hop after its length, a reserved octet, keys."""
    family = (fields.number(2), fields.number(1))
    hop = fields.octets(fields.number(1))
    fields.octets(1)
    return hop_addr(family, hop), read_keys(family, fields)


def read_unreach(fields):
    return read_keys((fields.number(2), fields.number(1)), fields)


def read_comms(fields):
    comms = []
    while fields.left:
        comms.append(fields.octets(8))
    return tuple(comms)


def read_update(fields):
    fields.octets(fields.number(2))
    attributes = fields.part(fields.number(2))
    next_hop, reached, unreached, comms, pmsi = None, (), (), (), None
    while attributes.left:
        flags, kind = attributes.number(1), attributes.number(1)
        value = attributes.part(attributes.number(2 if flags & 0x10 else 1))
        if kind == 14:
            next_hop, reached = read_reach(value)
        elif kind == 15:
            unreached = read_unreach(value)
        elif kind == 16:
            comms = read_comms(value)
        elif kind == 22:
            pmsi = read_pmsi(value)
    return forms.Update(tuple(forms.Advert(key, next_hop, comms, pmsi) for key in reached), unreached)


# ---- label messages: type, length, id, TLVs; and PDUs: version, length, LDP identifier, messages

def read_label_message(fields):
    kind = fields.number(2)
    own = fields.part(fields.number(2))
    own.octets(4)
    make = {0x0400: forms.Mapping, 0x0402: forms.Withdraw, 0x0403: forms.Release}.get(kind)
    if make is None:
        return forms.Ignored(kind)
    found = {}
    while own.left:
        reported = own.number(2) & 0x3FFF
        value = own.part(own.number(2))
        found[reported] = read_fec(value) if reported == 0x0100 else value.number(4) & 0xFFFFF
        value.end()
    return make(found[0x0100], found[0x0200])


def read_pdu(body):
    """The messages, and the fault after them, if there is one."""
    fields = Fields(body)
    fields.octets(6)
    messages = ()
    try:
        while fields.left:
            messages += (read_label_message(fields),)
    except Misread as fault:
        return messages, str(fault)
    return messages, None


# ---- what is at the front of a stream

@dataclass(frozen=True)
class More:
    pass


@dataclass(frozen=True)
class Whole:
    count: int
    messages: tuple


@dataclass(frozen=True)
class Bad:
    """A fault, and the messages of its unit before it."""

    offset: int
    reason: str
    messages: tuple = ()


def number_at(octets, place):
    return Fields(octets[place:]).number(2)


def message_front(octets):
    """A BGP message: marker, length, type, body."""
    if len(octets) < 19:
        return More()
    if any(octet != 255 for octet in octets[:16]):
        return Bad(0, 'marker')
    length, kind = number_at(octets, 16), octets[18]
    if not 19 <= length <= 4096:
        return Bad(16, 'message-length')
    if not 1 <= kind <= 5:
        return Bad(18, 'message-type')
    if kind == 2 and length < 23 or kind == 4 and length != 19:
        return Bad(16, 'message-length')
    if len(octets) < length:
        return More()
    try:
        return Whole(length, (read_update(Fields(octets[19:length])) if kind == 2 else forms.Other(kind),))
    except Misread as fault:
        return Bad(19, str(fault))


def pdu_front(octets):
    if len(octets) < 4:
        return More()
    length = number_at(octets, 2)
    if number_at(octets, 0) != 1:
        return Bad(0, 'version')
    if not 6 <= length <= 4096:
        return Bad(2, 'pdu-length')
    if len(octets) < 4 + length:
        return More()
    messages, fault = read_pdu(octets[4:4 + length])
    if fault is not None:
        return Bad(10, fault, messages)
    return Whole(4 + length, messages)


# ---- streams

@dataclass(frozen=True)
class Fed:
    """The messages that wait, the octets held back, how many octets came before these, and the first fault."""

    waiting: tuple = ()
    held: tuple = ()
    before: int = 0
    fault: object = None


def cut(front, octets):
    """The messages of the whole units and those before the fault that follows, the octets after the units, and the fault."""
    messages, place = (), 0
    while place < len(octets):
        found = front(octets[place:])
        if isinstance(found, More):
            break
        if isinstance(found, Bad):
            return messages + found.messages, octets[place:], (place + found.offset, found.reason)
        messages, place = messages + found.messages, place + found.count
    return messages, octets[place:], None


def further(place, count):
    return min(place + count, 2 ** 64 - 1)


def fed(front, old, piece):
    if old.fault is not None:
        return old
    whole = old.held + piece
    messages, rest, fault = cut(front, whole)
    return Fed(
        waiting=old.waiting + messages,
        held=rest if fault is None else (),
        before=further(old.before, len(whole) - len(rest)),
        fault=None if fault is None else (further(old.before, fault[0]), fault[1]))
