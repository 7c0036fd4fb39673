"""Trees, tunnels, routes and messages as data, and the octets that are written of each (mldp: mldp_fec, mldp_msgs; bgp_values:
pmsi_attr, mvpn_nlri; bgp_messages/bgp_update: Written; mvpn_model: Packet). Routes and tunnels that no edge of this network
originates are left out."""

from dataclasses import dataclass

from .base import V4, V6, addr_octets, checksum, flat_map, to_be_bytes


# ---- FEC elements (RFC 6388 section 2.2)

@dataclass(frozen=True)
class Fec:
    kind: str
    root: object
    opaque: tuple


KIND_OCTETS = {'p2mp': 6, 'up': 7, 'down': 8}


def root_text(addr):
    return ((0, 1, 4) if isinstance(addr, V4) else (0, 2, 16)) + addr.octets


def fec_written(fec):
    return (KIND_OCTETS[fec.kind],) + root_text(fec.root) + to_be_bytes(2, len(fec.opaque)) + fec.opaque


# ---- PMSI Tunnel attributes (RFC 6514 section 5)

@dataclass(frozen=True)
class Mldp:
    fec: Fec


@dataclass(frozen=True)
class Pmsi:
    leaf_info: bool
    tunnel: Mldp
    label: object


def three(number):
    return to_be_bytes(4, number)[1:]


def pmsi_written(pmsi):
    label = 0 if pmsi.label is None else pmsi.label
    return (1 if pmsi.leaf_info else 0, 2) + three(16 * label) + fec_written(pmsi.tunnel.fec)


# ---- MCAST-VPN routes (RFC 6514 section 4)

@dataclass(frozen=True)
class Intra:
    rd: tuple
    originator: object


@dataclass(frozen=True)
class Selective:
    rd: tuple
    source: object
    group: object
    originator: object


@dataclass(frozen=True)
class Active:
    rd: tuple
    source: object
    group: object


@dataclass(frozen=True)
class SourceJoin:
    rd: tuple
    source_as: int
    source: object
    group: object


def sized(addr):
    return ((32,) if isinstance(addr, V4) else (128,)) + addr.octets


def any_or_sized(addr):
    return (0,) if addr is None else sized(addr)


def route_kind(route):
    return {Intra: 1, Selective: 3, Active: 5, SourceJoin: 7}[type(route)]


def route_fields(route):
    match route:
        case Intra(rd, originator):
            return rd + addr_octets(originator)
        case Selective(rd, source, group, originator):
            return rd + any_or_sized(source) + any_or_sized(group) + addr_octets(originator)
        case Active(rd, source, group):
            return rd + sized(source) + sized(group)
        case SourceJoin(rd, source_as, source, group):
            return rd + to_be_bytes(4, source_as) + sized(source) + sized(group)


def route_written(route):
    return (route_kind(route), len(route_fields(route))) + route_fields(route)


# ---- keys and changes

@dataclass(frozen=True)
class Mcast:
    afi: int
    route: object


@dataclass(frozen=True)
class Unicast:
    rd: tuple
    prefix: object


@dataclass(frozen=True)
class Advert:
    key: object
    next_hop: object
    comms: tuple
    pmsi: object


@dataclass(frozen=True)
class Reach:
    advert: Advert


@dataclass(frozen=True)
class Unreach:
    key: object


@dataclass(frozen=True)
class Update:
    reach: tuple
    unreach: tuple


@dataclass(frozen=True)
class Other:
    """A BGP message that is no UPDATE."""

    kind: int


# ---- UPDATE messages (RFC 4271 section 4.3; RFC 4760 sections 3 and 4)

def attribute_head(flags, kind, length):
    return (flags | 16, kind) + to_be_bytes(2, length) if length > 255 else (flags, kind, length)


def attribute(flags, kind, value):
    return attribute_head(flags, kind, len(value)) + value


def path_text():
    return attribute(0x40, 1, (0,)) + attribute(0x40, 2, ()) + attribute(0x40, 5, to_be_bytes(4, 100))


def afi_of(addr):
    return 1 if isinstance(addr, V4) else 2


MAPPED_FRONT = (0,) * 10 + (0xFF,) * 2


def mapped(addr):
    return MAPPED_FRONT + addr.octets if isinstance(addr, V4) else addr.octets


def pair(key):
    return to_be_bytes(2, key.afi) + (5,) if isinstance(key, Mcast) else to_be_bytes(2, afi_of(key.prefix.addr)) + (128,)


def hop_of(key, addr):
    if isinstance(key, Mcast):
        return (len(addr_octets(addr)),) + addr_octets(addr)
    octets = mapped(addr) if afi_of(key.prefix.addr) == 2 else addr_octets(addr)
    return (8 + len(octets),) + (0,) * 8 + octets


ADVERTISED = (0x00, 0x00, 0x31)
WITHDRAWN = (0x80, 0x00, 0x00)


def octets_for(bits):
    return (bits + 7) // 8


def vpn_text(label, rd, prefix):
    return (88 + prefix.bits,) + label + rd + addr_octets(prefix.addr)[:octets_for(prefix.bits)]


def key_text(label, key):
    return route_written(key.route) if isinstance(key, Mcast) else vpn_text(label, key.rd, key.prefix)


def reach_value(advert):
    return pair(advert.key) + hop_of(advert.key, advert.next_hop) + (0,) + key_text(ADVERTISED, advert.key)


def unreach_value(key):
    return pair(key) + key_text(WITHDRAWN, key)


def tunnel_text(pmsi):
    return () if pmsi is None else attribute(0xC0, 22, pmsi_written(pmsi))


def advert_text(advert):
    return path_text() + attribute(0x80, 14, reach_value(advert)) + attribute(0xC0, 16, flat_map(lambda comm: comm, advert.comms)) + tunnel_text(advert.pmsi)


def attributes_of(change):
    return advert_text(change.advert) if isinstance(change, Reach) else attribute(0x80, 15, unreach_value(change.key))


def update_header(length, kind):
    return (255,) * 16 + to_be_bytes(2, length) + (kind,)


def message_text(attributes):
    return update_header(23 + len(attributes), 2) + (0, 0) + to_be_bytes(2, len(attributes)) + attributes


def update_written(change):
    return message_text(attributes_of(change))


# ---- label messages (RFC 5036 sections 3.1 and 3.5)

@dataclass(frozen=True)
class Mapping:
    fec: Fec
    label: int


@dataclass(frozen=True)
class Withdraw:
    fec: Fec
    label: int


@dataclass(frozen=True)
class Release:
    fec: Fec
    label: int


@dataclass(frozen=True)
class Ignored:
    kind: int


def tlv(kind, value):
    return to_be_bytes(2, kind) + to_be_bytes(2, len(value)) + value


def label_message_type(message):
    return {Mapping: 0x0400, Withdraw: 0x0402, Release: 0x0403}[type(message)]


def written_message(number, message):
    body = tlv(0x0100, fec_written(message.fec)) + tlv(0x0200, to_be_bytes(4, message.label))
    return to_be_bytes(2, label_message_type(message)) + to_be_bytes(2, 4 + len(body)) + to_be_bytes(4, number) + body


def pdu_written(me, number, message):
    """A PDU with this message alone, of that id."""
    text = written_message(number, message)
    return to_be_bytes(2, 1) + to_be_bytes(2, 6 + len(text)) + addr_octets(me) + (0, 0) + text


# ---- packets of IPv4 (RFC 791 section 3.1) and IPv6 (RFC 8200 section 3)

def packet_header(source, group, total, total_sum):
    return (0x45, 0) + to_be_bytes(2, total) + (0, 0, 0, 0, 64, 17) + to_be_bytes(2, total_sum) + addr_octets(source) + addr_octets(group)


def packet(source, group, payload):
    if isinstance(source, V6):
        return (0x60, 0, 0, 0) + to_be_bytes(2, len(payload)) + (17, 64) + addr_octets(source) + addr_octets(group) + payload
    total = 20 + len(payload)
    return packet_header(source, group, total, checksum(packet_header(source, group, total, 0))) + payload
