"""Frames in octets, made and read: Ethernet, MPLS (RFC 3032), IPv4 (RFC 791), IPv6 (RFC 8200), TCP (RFC 9293) and PIM (RFC 7761)."""

import struct
from dataclasses import dataclass

from captures import COOKED, COOKED_2, ETHERNET, RAW

IPV4, IPV6, MPLS, MPLS_UPSTREAM = 0x0800, 0x86DD, 0x8847, 0x8848
VLANS = (0x8100, 0x88A8, 0x9100)
TCP, UDP, PIM = 6, 17, 103
# the flags of TCP
FIN, SYN, RST, PSH, ACK = 1, 2, 4, 8, 16


def number(value, size):
    return value.to_bytes(size, 'big')


def checksum(octets):
    """The Internet checksum (RFC 1071)."""
    even = octets + bytes(len(octets) % 2)
    total = sum(struct.unpack(f'>{len(even) // 2}H', even))
    while total > 0xffff:
        total = (total & 0xffff) + (total >> 16)
    return 0xffff - total


# ---- Ethernet and MPLS

def ethernet(destination, source, kind, payload):
    return destination + source + number(kind, 2) + payload


def group_address(group):
    """The Ethernet address of a group (RFC 1112 section 6.4, RFC 2464 section 7)."""
    if len(group) == 4:
        return b'\x01\x00\x5e' + bytes([group[1] & 0x7f]) + group[2:]
    return b'\x33\x33' + group[-4:]


def kind_of(packet):
    return IPV4 if packet[0] >> 4 == 4 else IPV6


def group_of(packet):
    """The destination of a packet of IPv4 or IPv6."""
    return packet[16:20] if kind_of(packet) == IPV4 else packet[24:40]


def mpls(label, ttl, packet):
    """A packet under one label, which is the last of its stack."""
    last = 1
    return number(label << 12 | last << 8 | ttl, 4) + packet


# ---- IP

def ipv4(source, destination, protocol, ttl, payload):
    do_not_fragment = 0x4000
    front = struct.pack('>BBHHHBB', 0x45, 0, 20 + len(payload), 0, do_not_fragment, ttl, protocol)
    ends = source + destination
    return front + number(checksum(front + bytes(2) + ends), 2) + ends + payload


def ipv6(source, destination, next_header, hop_limit, payload):
    return struct.pack('>IHBB', 6 << 28, len(payload), next_header, hop_limit) + source + destination + payload


def pseudo_header(source, destination, protocol, length):
    """What the checksum of the payload covers in front of it (RFC 9293 section 3.1, RFC 8200 section 8.1)."""
    if len(source) == 4:
        return source + destination + struct.pack('>BBH', 0, protocol, length)
    return source + destination + struct.pack('>IHBB', length, 0, 0, protocol)


# ---- TCP

# the greatest segment on Ethernet, and a window of 2^30 - 2^14 octets (RFC 7323 section 2.2): more may be in transit than 65,535
LARGEST, WINDOW, SCALE = 1460, 0xffff, 14
SYN_OPTIONS = struct.pack('>BBH', 2, 4, LARGEST) + struct.pack('>BBBB', 1, 3, 3, SCALE)


def tcp(source, destination, ports, sequence, acknowledged, flags, payload=b''):
    """A segment between two IPv4 addresses and ports."""
    options = SYN_OPTIONS if flags & SYN else b''
    words = 5 + len(options) // 4
    front = struct.pack('>HHIIBBH', *ports, sequence, acknowledged, words << 4, flags, WINDOW)
    after = bytes(2) + options + payload
    whole = pseudo_header(source, destination, TCP, len(front) + 2 + len(after)) + front + bytes(2) + after
    return front + number(checksum(whole), 2) + after


# ---- PIM

KINDS = {'sg': 4, 'rpt': 5, 'star': 7}


def encoded(address, front=b''):
    """An address after its family, its encoding and what else is in front of it (RFC 7761 section 4.9.1)."""
    return bytes([1 if len(address) == 4 else 2, 0]) + front + address


def masked(address, flags):
    return encoded(address, bytes([flags, 8 * len(address)]))


def source_field(source):
    return masked(bytes(source.addr.octets), KINDS[source.kind])


def group_field(group):
    counts = number(len(group.joins), 2) + number(len(group.prunes), 2)
    return masked(bytes(group.group.octets), 0) + counts + b''.join(map(source_field, (*group.joins, *group.prunes)))


def join_prune(message, source, destination):
    """The octets of a Join/Prune message (RFC 7761 section 4.9.5) from that source to that destination, which count with IPv6."""
    groups = b''.join(map(group_field, message.groups))
    body = encoded(bytes(message.neighbour.octets)) + bytes([0, len(message.groups)]) + number(message.holdtime, 2) + groups
    pseudo = pseudo_header(source, destination, PIM, 4 + len(body)) if len(source) == 16 else b''
    return b'\x23\0' + number(checksum(pseudo + b'\x23\0\0\0' + body), 2) + body


# ---- reading

@dataclass(frozen=True)
class Packet:
    """A packet of IPv4 or IPv6: its two addresses, its protocol and what it carries. A fragment carries only a part of that."""

    source: bytes
    destination: bytes
    protocol: int
    payload: bytes
    is_fragment: bool = False


# by the type of the link, where the type of what a frame carries is, and where that begins
LINKS = {ETHERNET: (12, 14), COOKED: (14, 16), COOKED_2: (0, 20)}
# extension headers of IPv6 that are of 8 octets and more by their second octet, the authentication header, and the fragment header
EXTENSIONS, AUTHENTICATION, FRAGMENT = (0, 43, 60), 51, 44


def number_at(octets, at, size):
    return int.from_bytes(octets[at:at + size], 'big')


def kind_by_version(octets):
    """What comes after a label, or on a link without types, by its version."""
    return {4: IPV4, 6: IPV6}.get(octets[0] >> 4) if octets else None


def without_labels(octets):
    """What comes after the last label of a stack."""
    at = 0
    while at + 4 <= len(octets) and not octets[at + 2] & 1:
        at += 4
    return octets[at + 4:]


def carried(link, frame):
    """The type of what a frame carries, and its octets, after tags of VLANs and labels."""
    if link == RAW:
        return kind_by_version(frame), frame
    if link not in LINKS:
        return None, b''
    at, begin = LINKS[link]
    kind, octets = number_at(frame, at, 2), frame[begin:]
    while kind in VLANS:
        kind, octets = number_at(octets, 2, 2), octets[4:]
    if kind in (MPLS, MPLS_UPSTREAM):
        octets = without_labels(octets)
        kind = kind_by_version(octets)
    return kind, octets


def read_ipv4(octets):
    if len(octets) < 20 or octets[0] >> 4 != 4:
        return None
    header, total = 4 * (octets[0] & 15), number_at(octets, 2, 2)
    is_fragment = bool(number_at(octets, 6, 2) & 0x3fff)
    # a total of 0 is that of a segment which the network card had yet to cut
    return Packet(octets[12:16], octets[16:20], octets[9], octets[header:total or None], is_fragment)


def read_ipv6(octets):
    if len(octets) < 40 or octets[0] >> 4 != 6:
        return None
    length, protocol, at = number_at(octets, 4, 2), octets[6], 40
    end, is_fragment = 40 + length if length else len(octets), False
    while protocol in (*EXTENSIONS, AUTHENTICATION, FRAGMENT) and at + 8 <= len(octets):
        size = 8
        if protocol in EXTENSIONS:
            size = 8 + 8 * octets[at + 1]
        if protocol == AUTHENTICATION:
            size = 8 + 4 * octets[at + 1]
        if protocol == FRAGMENT:
            is_fragment = bool(number_at(octets, at + 2, 2) & 0xfff9)
        protocol, at = octets[at], at + size
    return Packet(octets[8:24], octets[24:40], protocol, octets[at:end], is_fragment)


def read_frame(link, frame):
    """The packet that a frame carries, or none."""
    kind, octets = carried(link, frame)
    if kind == IPV4:
        return read_ipv4(octets)
    return read_ipv6(octets) if kind == IPV6 else None


@dataclass(frozen=True)
class Segment:
    """A segment of TCP."""

    ports: tuple
    sequence: int
    flags: int
    octets: bytes


def read_tcp(octets):
    if len(octets) < 20:
        return None
    return Segment((number_at(octets, 0, 2), number_at(octets, 2, 2)), number_at(octets, 4, 4), octets[13], octets[4 * (octets[12] >> 4):])


def read_udp(octets):
    """The ports and the datagram."""
    return (number_at(octets, 0, 2), number_at(octets, 2, 2)), octets[8:number_at(octets, 4, 2) or None]
