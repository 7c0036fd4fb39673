"""BGP messages of any octets, by the tables of their fields, up to the first fault with its place and word (bgp_values, bgp_messages:
FirstFault, Spelling; mldp: mldp_fec).

Each field is tried in the order of its table: it needs more octets than an enclosing length leaves; it needs more than the input has;
its own condition fails. `Fault` has the place, counted from the first octet of the input that the reader was handed.
"""

from dataclasses import dataclass

from .base import V4, V6, Prefix
from . import octets as forms


class Fault(Exception):
    """The first fault: its place and its word."""

    def __init__(self, place, word):
        super().__init__(f'{place} {word}')
        self.place, self.word = place, word

    def inside(self, front, place):
        """The same fault in an input that begins so many octets further on, with its word after an outer one."""
        return Fault(self.place + place, front + self.word)


# ---- routes, tunnels and messages that no edge of a network writes

@dataclass(frozen=True)
class Inter:
    rd: tuple
    source_as: int


@dataclass(frozen=True)
class Leaf:
    key: object
    originator: object


@dataclass(frozen=True)
class SharedJoin:
    rd: tuple
    source_as: int
    source: object
    group: object


@dataclass(frozen=True)
class OtherRoute:
    kind: int
    octets: tuple


@dataclass(frozen=True)
class NoTunnel:
    pass


@dataclass(frozen=True)
class Ingress:
    addr: object


@dataclass(frozen=True)
class OtherTunnel:
    kind: int
    ident: tuple


# ---- fields

def addr(octets):
    return V4(octets) if len(octets) == 4 else V6(octets)


def number(octets):
    return int.from_bytes(bytes(octets), 'big')


class Bounded:
    """Octets from a place on, up to the end of an enclosing length, which may be after the end of the input."""

    def __init__(self, octets, place, end, passed):
        self.octets, self.place, self.end, self.passed = octets, place, end, passed

    def left(self):
        return self.end - self.place

    def take(self, count):
        if count > self.left():
            raise Fault(self.place, self.passed)
        if self.place + count > len(self.octets):
            raise Fault(self.place, 'short')
        taken = self.octets[self.place:self.place + count]
        self.place += count
        return taken

    def number(self, count):
        return number(self.take(count))


# ---- FEC elements (RFC 6388 section 2.2)

FEC_KINDS = {6: 'p2mp', 7: 'up', 8: 'down'}
OPAQUE_LIMIT = 64


def is_opaque(opaque):
    """The place of the first TLV that has not its form; None where all have."""
    at = 0
    while at < len(opaque):
        head = 5 if opaque[at] == 255 else 3
        if at + head > len(opaque):
            return at
        length = number(opaque[at + head - 2:at + head])
        if at + head + length > len(opaque) or (opaque[at] == 1 and length != 4):
            return at
        at += head + length
    return None


def read_fec(octets):
    """The FEC element at the front, and how many octets it has."""
    fields = Bounded(octets, 0, len(octets), 'short')
    kind = FEC_KINDS.get(fields.number(1))
    if kind is None:
        raise Fault(0, 'kind')
    family = fields.number(2)
    if family not in (1, 2):
        raise Fault(1, 'family')
    length = fields.number(1)
    if length != (4 if family == 1 else 16):
        raise Fault(3, 'address-length')
    root = addr(fields.take(length))
    place, opaque_length = fields.place, fields.number(2)
    if opaque_length > OPAQUE_LIMIT:
        raise Fault(place, 'opaque-too-long')
    start, opaque = fields.place, fields.take(opaque_length)
    wrong = is_opaque(opaque)
    if wrong is not None:
        raise Fault(start + wrong, 'opaque-shape')
    return forms.Fec(kind, root, opaque), fields.place


# ---- tunnel attributes (RFC 6514 section 5)

IDENT_LIMIT = 96


def read_tunnel(kind, ident):
    if kind == 2:
        try:
            fec, length = read_fec(ident)
        except Fault as fault:
            raise fault.inside('fec.', 5) from None
        if length != len(ident) or fec.kind != 'p2mp':
            raise Fault(5, 'identifier')
        return forms.Mldp(fec)
    fits = {0: len(ident) == 0, 6: len(ident) in (4, 16)}.get(kind, len(ident) <= IDENT_LIMIT)
    if not fits:
        raise Fault(5, 'identifier')
    return NoTunnel() if kind == 0 else Ingress(addr(ident)) if kind == 6 else OtherTunnel(kind, ident)


def read_pmsi(octets):
    fields = Bounded(octets, 0, len(octets), 'short')
    flags, kind = fields.number(1), fields.number(1)
    if kind > 7:
        raise Fault(1, 'tunnel-type')
    label = fields.number(3) >> 4
    return forms.Pmsi(flags % 2 == 1, read_tunnel(kind, octets[fields.place:]), label or None)


# ---- routes (RFC 6514 section 4)

SMALL = 'length-too-small'


def read_word(fields, afi, is_wild, words):
    """A length octet and an address of so many bits; None for a wildcard."""
    place, bits = fields.place, fields.number(1)
    if bits == 0 and not is_wild:
        raise Fault(place, 'wildcard')
    if bits not in ((0, 32) if afi == 1 else (0, 128)):
        raise Fault(place, words)
    return None if bits == 0 else addr(fields.take(bits // 8))


def read_group(fields, afi, is_wild):
    place = fields.place + 1
    group = read_word(fields, afi, is_wild, 'group-length')
    if group is not None:
        front = group.octets[0]
        if not (224 <= front <= 239 if afi == 1 else front == 255):
            raise Fault(place, 'group-not-multicast')
    return group


def read_originator(fields):
    place, rest = fields.place, fields.take(fields.left())
    if len(rest) not in (4, 16):
        raise Fault(place, 'originator-length')
    return addr(rest)


def ended(fields):
    if fields.left() > 0:
        raise Fault(fields.place, 'length-too-large')


def read_key_route(fields, afi, kind):
    """The fields of a route of type 2 or 3."""
    rd = fields.take(8)
    if kind == 2:
        route = Inter(rd, fields.number(4))
        ended(fields)
        return route
    source = read_word(fields, afi, True, 'source-length')
    group = read_group(fields, afi, True)
    return forms.Selective(rd, source, group, read_originator(fields))


def read_leaf(fields, afi):
    place, kind = fields.place, fields.number(1)
    if kind not in (2, 3):
        raise Fault(place, 'key-type')
    place, length = fields.place, fields.number(1)
    if length > fields.left():
        raise Fault(place, SMALL)
    inner = Bounded(fields.octets, fields.place, fields.place + length, SMALL)
    key = read_key_route(inner, afi, kind)
    fields.place = inner.place
    return Leaf(key, read_originator(fields))


def read_fields(fields, afi, kind):
    if kind in (2, 3):
        return read_key_route(fields, afi, kind)
    if kind == 4:
        return read_leaf(fields, afi)
    if kind not in (1, 5, 6, 7):
        return OtherRoute(kind, fields.take(fields.left()))
    rd = fields.take(8)
    if kind == 1:
        return forms.Intra(rd, read_originator(fields))
    source_as = None if kind == 5 else fields.number(4)
    source = read_word(fields, afi, False, 'source-length')
    group = read_group(fields, afi, False)
    ended(fields)
    return forms.Active(rd, source, group) if kind == 5 else (SharedJoin if kind == 6 else forms.SourceJoin)(rd, source_as, source, group)


def read_route(afi, octets):
    """The route at the front, and how many octets it has."""
    head = Bounded(octets, 0, len(octets), 'short')
    kind, length = head.number(1), head.number(1)
    fields = Bounded(octets, 2, 2 + length, SMALL)
    return read_fields(fields, afi, kind), 2 + length


def read_unicast(afi, octets):
    """The unicast route at the front (RFC 8277 section 2), and how many octets it has."""
    bits = octets[0] - 88
    most = 32 if afi == 1 else 128
    count = 12 + (bits + 7) // 8
    if not 0 <= bits <= most or count > len(octets):
        raise Fault(0, 'prefix')
    front = octets[12:count] + (0,) * (most // 8 - (count - 12))
    kept = number(front) >> (most - bits) << (most - bits)
    return forms.Unicast(octets[4:12], Prefix(addr(tuple(kept.to_bytes(most // 8, 'big'))), bits)), count


# ---- attributes (RFC 4271 section 4.3; RFC 4760 sections 3 and 4)

READ = {(1, 5): (4, 16), (2, 5): (4, 16), (1, 128): (12, 24), (2, 128): (12, 24)}


def read_key(pair, octets):
    if pair[1] == 128:
        return read_unicast(pair[0], octets)
    try:
        route, length = read_route(pair[0], octets)
    except Fault as fault:
        raise fault.inside('route.', 0) from None
    return forms.Mcast(pair[0], route), length


def read_keys(pair, value, at):
    keys = []
    while at < len(value):
        try:
            key, length = read_key(pair, value[at:])
        except Fault as fault:
            raise fault.inside('', at) from None
        keys.append(key)
        at += length
    return keys


def hop_in(pair, octets):
    if pair[1] == 5:
        return addr(octets)
    hop = octets[8:]
    return V4(hop[12:]) if pair[0] == 2 and hop[:12] == forms.MAPPED_FRONT else addr(hop)


class Attributes:
    """What the attributes of an UPDATE said so far."""

    def __init__(self):
        self.seen, self.reach, self.unreach, self.hop, self.comms, self.pmsi = set(), [], [], None, (), None

    def read(self, kind, value, start, head):
        """An attribute whose first octet and whose value are at these places."""
        if kind in (14, 15):
            if len(value) < 3:
                raise Fault(start, 'attribute-length')
            pair = (number(value[:2]), value[2])
            if pair not in READ:
                return
            if kind == 15:
                self.unreach = self.inner(head, '', lambda: read_keys(pair, value, 3))
            else:
                self.read_reach(pair, value, start, head)
        elif kind == 16:
            if len(value) % 8 != 0:
                raise Fault(start, 'attribute-length')
            self.comms = tuple(value[at:at + 8] for at in range(0, len(value), 8))
        else:
            self.pmsi = self.inner(head, 'pmsi.', lambda: read_pmsi(value))

    def inner(self, head, front, reader):
        try:
            return reader()
        except Fault as fault:
            raise fault.inside(front, head) from None

    def read_reach(self, pair, value, start, head):
        if len(value) < 4:
            raise Fault(start, 'attribute-length')
        length = value[3]
        if length not in READ[pair]:
            raise Fault(head + 3, 'next-hop')
        if len(value) < 4 + length + 1:
            raise Fault(start, 'attribute-length')
        self.hop = hop_in(pair, value[4:4 + length])
        self.reach = self.inner(head, '', lambda: read_keys(pair, value, 4 + length + 1))

    def update(self):
        return forms.Update(tuple(forms.Advert(key, self.hop, self.comms, self.pmsi) for key in self.reach), tuple(self.unreach))


def read_attributes(octets, start, end):
    reported = Attributes()
    while start < end:
        if end - start < 2:
            raise Fault(start, 'attribute-length')
        flags, kind = octets[start], octets[start + 1]
        if kind in reported.seen:
            raise Fault(start, 'attribute-list')
        size = 2 if flags & 16 else 1
        head = start + 2 + size
        if head > end:
            raise Fault(start, 'attribute-length')
        length = number(octets[start + 2:head])
        if head + length > end:
            raise Fault(start, 'attribute-length')
        if kind in (14, 15, 16, 22):
            reported.seen.add(kind)
            reported.read(kind, octets[head:head + length], start, head)
        start = head + length
    return reported.update()


# ---- messages (RFC 4271 section 4)

HEADER = 19
BOUNDS = {1: (19, 4096), 2: (23, 4096), 3: (19, 4096), 4: (19, 19), 5: (19, 4096)}


def message_length(octets):
    """The length that the header of a message says."""
    if any(octet != 0xFF for octet in octets[:16]):
        raise Fault(0, 'marker')
    length, kind = number(octets[16:18]), octets[18]
    if not 19 <= length <= 4096:
        raise Fault(16, 'message-length')
    if kind not in BOUNDS:
        raise Fault(18, 'message-type')
    least, most = BOUNDS[kind]
    if not least <= length <= most:
        raise Fault(16, 'message-length')
    return length


def read_message(octets):
    """A whole message."""
    if octets[18] != 2:
        return forms.Other(octets[18])
    at = 21 + number(octets[19:21])
    if at > len(octets):
        raise Fault(19, 'attribute-list')
    if at + 2 > len(octets) or at + 2 + number(octets[at:at + 2]) > len(octets):
        raise Fault(at, 'attribute-list')
    return read_attributes(octets, at + 2, at + 2 + number(octets[at:at + 2]))


def messages_in(octets):
    """The whole messages before the first fault, and that fault, or None. A message that is not whole is no fault."""
    messages, at = [], 0
    try:
        while len(octets) - at >= HEADER:
            length = message_length(octets[at:at + HEADER])
            if len(octets) - at < length:
                break
            messages.append(read_message(octets[at:at + length]))
            at += length
    except Fault as fault:
        return messages, fault.inside('', at)
    return messages, None
