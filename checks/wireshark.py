#!/usr/bin/env python3
"""Compares what tshark reads in messages of BGP, LDP and PIM with what `mvpn decode` reads in the same octets, in cases that are
laid out here, and in all that the nodes of the examples put: `wireshark.py [--command COMMAND]`.

Field values are written here as MCAST-VPN routes of AFI 1 (RFC 6514 section 4; the wildcards of RFC 6625 section 2),
PMSI Tunnel attributes (RFC 6514 section 5) and multipoint FEC elements (RFC 6388 sections 2.2 and 3.2), in messages
of a pcap file, and as whole messages of BGP (RFC 4271), of LDP (RFC 5036) and of PIM (Join/Prune, RFC 7761 section
4.9.5), in the layout that the writers of the program have. The fields that tshark reports of a message become the lines
that the program is to write. The program gets the octets alone: `./mvpn` of this repository, unless another is named.

Each example is replayed with `--wire`. What a node puts for another one over BGP, or over LDP, is one case: its octets go
to tshark as a stream of TCP in short segments. There may be no fault, no message may be missing, and the lines have to be
those that the program writes of the stream.

The file that `tools/wireshark.py` makes of each example and its report is one more case, and so is that of a network whose edges
have tables of several segments. tshark may report no malformed field, no error and no wrong checksum. It has to report as many
UPDATEs and messages of LDP as the nodes put; and in the order of the events, each at the tick that the reference program has for
it, what they put, the Join/Prune messages, the copies on links with labels and TTLs, and the datagrams that leave.

The file that `pcap` writes of each example is one more case. capinfos has to count as many frames of Ethernet as the replay has
hops; tcpdump has to report the label and the TTL of each; and tshark may report no malformed field, no error and no wrong checksum,
and has to report each hop with its tick, its nodes, a label at the bottom of its stack without a traffic class, its TTL, and the
flow of the datagram below, by what the reference program has of it. In `udp-datagrams.txt` the datagrams of UDP are read too.

tshark 4.0.17 does not report all, so the cases keep within this:
- The key of a leaf route is reported as octets. It is a route, so tshark reads them again in a message of their own.
- Originators, roots, and endpoints of ingress replication are IPv4: those of IPv6 are not reported, or reported wrongly.
- The opaque value in a PMSI Tunnel attribute has one TLV, of type 1 or 255.
- The two reserved octets in an identifier of RSVP-TE are not reported: they are zero (RFC 4875 section 19.1.1).
- FEC elements end to end have opaque values of 7 octets: after another length the next element is not found.
- Of an UPDATE at most one route is reported.
- A next hop of 4 octets in front of routes of AFI 2 and SAFI 5 is a fault to tshark. The length of such a next hop says
  its family (RFC 6515), so this fault is none, and the next hop is read here.
- VPN-IPv6 routes are reported in one text. Their route distinguishers are of type 0 or 1.
- What the program refuses has no line of tshark's, so no case has a fault.

Prints the cases that differ, and then 'N passed, M failed'. Without tshark nothing is compared, and nothing failed.
"""

import argparse
import ipaddress
import itertools
import pathlib
import re
import shlex
import shutil
import socket
import struct
import subprocess
import sys
import tempfile
import xml.etree.ElementTree as xml

from reference import events, report
from reference.pcap import hops_of
from reference.script import read
from reference.world import clock_of, start
from rows import REPLAYED, starts

TOP = pathlib.Path(__file__).resolve().parent.parent
# octets of a segment of a stream: some messages lie in two or three of them
SEGMENT = 100


# ---- octets of field values

def number(value, size):
    return value.to_bytes(size, 'big')


def addr(text):
    return socket.inet_aton(text)


def sized(text):
    """An address after its length in bits; the wildcard `*` is a length of 0."""
    return b'\0' if text == '*' else b'\x20' + addr(text)


def route(kind, *fields):
    octets = b''.join(fields)
    return bytes([kind, len(octets)]) + octets


def inter(rd, source_as):
    return route(2, rd, number(source_as, 4))


def selective(rd, source, group, originator):
    return route(3, rd, sized(source), sized(group), addr(originator))


def flow(source, group):
    return sized(source) + sized(group)


def pmsi(flags, kind, label, identifier=b'', low=0):
    """`low` is the four bits after the label."""
    return bytes([flags, kind]) + number(16 * label + low, 3) + identifier


def fec(kind, root, opaque):
    """The root is an address of IPv4."""
    return bytes([kind]) + number(1, 2) + b'\4' + addr(root) + number(len(opaque), 2) + opaque


def tlv(kind, value):
    return bytes([kind]) + number(len(value), 2) + value


# Route Distinguishers of the three types (RFC 4364 section 4.2)
RD_0 = number(0, 2) + number(65000, 2) + number(1, 4)
RD_1 = number(1, 2) + addr('192.0.2.1') + number(200, 2)
RD_2 = number(2, 2) + number(4200000001, 4) + number(7, 2)

LSP_ID = tlv(1, number(1048576, 4))
EXTENDED = b'\xff' + number(7, 2) + number(3, 2) + b'abc'

ROUTES = {
    'intra': route(1, RD_0, addr('192.0.2.7')),
    'intra-rd-1': route(1, RD_1, addr('192.0.2.7')),
    'intra-rd-2': route(1, RD_2, addr('203.0.113.255')),
    'inter': inter(RD_0, 65001),
    'inter-rd-2': inter(RD_2, 4200000001),
    'selective': selective(RD_0, '10.1.0.9', '232.1.1.1', '192.0.2.7'),
    'selective-any-any': selective(RD_1, '*', '*', '192.0.2.7'),
    'selective-any-source': selective(RD_0, '*', '239.255.0.1', '192.0.2.8'),
    'selective-any-group': selective(RD_2, '10.1.0.9', '*', '192.0.2.7'),
    'leaf-inter': route(4, inter(RD_1, 65001), addr('192.0.2.9')),
    'leaf-selective': route(4, selective(RD_0, '10.1.0.9', '232.1.1.1', '192.0.2.7'), addr('192.0.2.9')),
    'leaf-any-any': route(4, selective(RD_2, '*', '*', '192.0.2.7'), addr('192.0.2.9')),
    'active': route(5, RD_0, flow('10.1.0.9', '232.1.1.1')),
    'active-rd-1': route(5, RD_1, flow('223.255.255.255', '224.0.1.0')),
    'shared': route(6, RD_0, number(65001, 4), flow('10.9.9.9', '239.1.1.1')),
    'shared-rd-2': route(6, RD_2, number(0, 4), flow('10.9.9.9', '239.1.1.1')),
    'source': route(7, RD_0, number(65001, 4), flow('10.1.0.9', '232.1.1.1')),
    'source-rd-1': route(7, RD_1, number(4294967295, 4), flow('10.1.0.9', '232.1.1.1')),
    'other': route(9, bytes.fromhex('010203')),
}
ROUTES['all'] = b''.join(ROUTES.values())

PMSIS = {
    'none': pmsi(0, 0, 0),
    'none-leaf': pmsi(1, 0, 0),
    'none-label': pmsi(0, 0, 17),
    'rsvp-te': pmsi(0, 1, 0, addr('10.0.0.1') + bytes(2) + number(5, 2) + addr('192.0.2.9')),
    'rsvp-te-leaf': pmsi(1, 1, 18, addr('10.0.0.1') + bytes(2) + number(65535, 2) + addr('192.0.2.9')),
    'mldp': pmsi(0, 2, 0, fec(6, '192.0.2.1', LSP_ID)),
    'mldp-leaf': pmsi(1, 2, 0, fec(6, '192.0.2.1', LSP_ID)),
    'mldp-label': pmsi(0, 2, 1048575, fec(6, '192.0.2.1', LSP_ID)),
    'mldp-extended': pmsi(1, 2, 16, fec(6, '192.0.2.1', EXTENDED)),
    'pim-ssm': pmsi(0, 3, 0, addr('192.0.2.1') + addr('232.1.1.1')),
    'pim-sm': pmsi(0, 4, 0, addr('192.0.2.1') + addr('239.1.1.1')),
    'bidir-pim': pmsi(0, 5, 0, addr('192.0.2.1') + addr('239.1.1.1')),
    'ingress': pmsi(0, 6, 0, addr('192.0.2.5')),
    'ingress-leaf-label': pmsi(1, 6, 300, addr('192.0.2.5')),
    'ingress-low-bits': pmsi(0, 6, 300, addr('192.0.2.5'), low=1),
    'ingress-flags': pmsi(254, 6, 1, addr('192.0.2.5')),
    'ingress-all-flags': pmsi(255, 6, 1, addr('192.0.2.5')),
}

FECS = {
    'p2mp': fec(6, '192.0.2.1', LSP_ID),
    'up': fec(7, '192.0.2.2', LSP_ID),
    'down': fec(8, '192.0.2.3', LSP_ID),
    'two-tlvs': fec(6, '192.0.2.1', LSP_ID + tlv(2, b'hello world')),
    'extended': fec(7, '192.0.2.1', EXTENDED + LSP_ID),
    'no-opaque': fec(7, '192.0.2.2', b''),
    'longest': fec(8, '192.0.2.1', tlv(3, bytes(61))),
}
FECS['three'] = FECS['p2mp'] + FECS['up'] + FECS['down']


# ---- messages, as the program's writers lay them out

def attribute(flags, kind, value):
    """A path attribute, with an extended length where it needs one (RFC 4271 section 4.3)."""
    if len(value) > 255:
        return bytes([flags | 0x10, kind]) + number(len(value), 2) + value
    return bytes([flags, kind, len(value)]) + value


def bgp(kind, body=b''):
    return b'\xff' * 16 + number(19 + len(body), 2) + bytes([kind]) + body


def update_of(*attributes):
    octets = b''.join(attributes)
    return bgp(2, number(0, 2) + number(len(octets), 2) + octets)


def announce(family, next_hop, nlri, communities=(), tunnel_value=None):
    """ORIGIN, AS_PATH, LOCAL_PREF, MP_REACH_NLRI, Extended Communities, and PMSI Tunnel where there is one."""
    hop = (bytes(8) if family[2] == 128 else b'') + addr(next_hop)
    attributes = [
        attribute(0x40, 1, b'\0'),
        attribute(0x40, 2, b''),
        attribute(0x40, 5, number(100, 4)),
        attribute(0x80, 14, family + bytes([len(hop)]) + hop + b'\0' + nlri),
        attribute(0xc0, 16, b''.join(communities)),
    ]
    if tunnel_value is not None:
        attributes.append(attribute(0xc0, 22, tunnel_value))
    return update_of(*attributes)


def withdraw(family, nlri):
    return update_of(attribute(0x80, 15, family + nlri))


def vpn_ipv4(label, rd, prefix, bits):
    """A VPN-IPv4 route (RFC 4364 section 4.3.4)."""
    return bytes([88 + bits]) + number(label, 3) + rd + addr(prefix)[:(bits + 7) // 8]


def pdu(*messages):
    octets = b''.join(messages)
    return number(1, 2) + number(6 + len(octets), 2) + addr('192.0.2.2') + number(0, 2) + octets


def ldp(kind, message_id, tlvs=b''):
    return number(kind, 2) + number(4 + len(tlvs), 2) + number(message_id, 4) + tlvs


def label_message(kind, message_id, element, label):
    return ldp(kind, message_id, wide_tlv(0x100, element) + wide_tlv(0x200, number(label, 4)))


def wide_tlv(kind, value):
    return number(kind, 2) + number(len(value), 2) + value


MCAST_IPV4, VPN_IPV4 = number(1, 2) + b'\5', number(1, 2) + b'\x80'
TARGET, IMPORT, SOURCE_AS = (bytes.fromhex(c) for c in ('0002fde800000001', '010bc00002010001', '0009fde800000000'))

BGPS = {
    'open': bgp(1, b'\4' + number(65000, 2) + number(180, 2) + addr('192.0.2.1') + b'\0'),
    'notification': bgp(3, b'\6\2'),
    'keepalive': bgp(4),
    'refresh': bgp(5, number(1, 2) + b'\0\5'),
    'intra': announce(MCAST_IPV4, '192.0.2.1', ROUTES['intra'], [TARGET], PMSIS['mldp']),
    'selective': announce(MCAST_IPV4, '192.0.2.1', ROUTES['selective-any-any'], [TARGET], PMSIS['mldp-leaf']),
    'active': announce(MCAST_IPV4, '192.0.2.1', ROUTES['active'], [TARGET]),
    'source': announce(MCAST_IPV4, '192.0.2.2', ROUTES['source'], [IMPORT]),
    'no-communities': announce(MCAST_IPV4, '192.0.2.2', ROUTES['source']),
    'many-communities': announce(MCAST_IPV4, '192.0.2.2', ROUTES['source'], [TARGET, IMPORT, SOURCE_AS] * 12),
    'unicast': announce(VPN_IPV4, '192.0.2.1', vpn_ipv4(0x31, RD_0, '10.1.0.0', 16), [TARGET, IMPORT, SOURCE_AS]),
    'unicast-20': announce(VPN_IPV4, '192.0.2.1', vpn_ipv4(0x31, RD_1, '10.1.16.0', 20), [TARGET]),
    'unicast-32': announce(VPN_IPV4, '192.0.2.1', vpn_ipv4(0x31, RD_2, '10.1.2.3', 32), [TARGET]),
    'withdraw-source': withdraw(MCAST_IPV4, ROUTES['source']),
    'withdraw-unicast': withdraw(VPN_IPV4, vpn_ipv4(0x800000, RD_0, '10.1.0.0', 16)),
}
BGPS['all'] = b''.join(BGPS.values())

LDPS = {
    'mapping': pdu(label_message(0x400, 1, FECS['p2mp'], 16)),
    'withdraw': pdu(label_message(0x402, 2, FECS['p2mp'], 1048575)),
    'release': pdu(label_message(0x403, 4294967295, FECS['extended'], 300)),
    'keepalive': pdu(ldp(0x201, 9)),
    'two': pdu(label_message(0x400, 1, FECS['up'], 17), label_message(0x403, 2, FECS['down'], 18)),
}
LDPS['all'] = b''.join(LDPS.values())


def checksum(octets):
    """The Internet checksum of an even number of octets (RFC 1071)."""
    total = sum(struct.unpack(f'>{len(octets) // 2}H', octets))
    while total > 0xffff:
        total = (total & 0xffff) + (total >> 16)
    return number(0xffff - total, 2)


def source(kind, address):
    """An Encoded-Source address (RFC 7761 section 4.9.1)."""
    return bytes([1, 0, {'sg': 4, 'rpt': 5, 'star': 7}[kind], 32]) + addr(address)


def group(address, joins=(), prunes=()):
    """A group with its joined and pruned sources, each a kind and an address."""
    counts = number(len(joins), 2) + number(len(prunes), 2)
    return bytes([1, 0, 0, 32]) + addr(address) + counts + b''.join(source(*s) for s in [*joins, *prunes])


def join_prune(neighbour, holdtime, *groups):
    fields = b'\1\0' + addr(neighbour) + bytes([0, len(groups)]) + number(holdtime, 2) + b''.join(groups)
    return b'\x23\0' + checksum(b'\x23\0\0\0' + fields) + fields


SG, STAR, RPT = ('sg', '10.1.0.9'), ('star', '10.9.9.9'), ('rpt', '10.1.0.8')

JOIN_PRUNES = {
    'join': join_prune('10.2.0.1', 1, group('232.1.1.1', [SG])),
    'prune': join_prune('10.2.0.1', 210, group('232.1.1.1', [], [SG])),
    'shared': join_prune('192.0.2.1', 210, group('239.1.1.1', [STAR], [RPT])),
    'all-kinds': join_prune(
        '10.2.0.1',
        210,
        group('239.1.1.1', [STAR, SG, RPT], [RPT, STAR, SG]),
        group('232.1.1.1', [SG], [SG]),
        group('224.0.1.0', [], [('star', '223.255.255.255')]),
        group('239.255.255.255', [('rpt', '10.0.0.0')]),
    ),
    'holdtime-0': join_prune('10.2.0.1', 0, group('232.1.1.1', [], [SG])),
    'holdtime-65535': join_prune('10.2.0.1', 65535, group('232.1.1.1', [SG])),
    'no-groups': join_prune('10.2.0.1', 210),
    'no-sources': join_prune('10.2.0.1', 210, group('232.1.1.1')),
    'many-sources': join_prune(
        '10.2.0.1',
        210,
        group('239.1.1.1', [('sg', f'10.1.{i // 256}.{i % 256}') for i in range(300)], [RPT] * 257),
    ),
    'many-groups': join_prune('10.2.0.1', 210, *(group(f'232.1.1.{i}', [SG]) for i in range(255))),
}


# ---- messages and packets of one value

def update(flags, kind, value):
    """An UPDATE with one path attribute, which has an extended length (RFC 4271 section 4.3)."""
    attribute = bytes([flags | 0x10, kind]) + number(len(value), 2) + value
    body = number(0, 2) + number(len(attribute), 2) + attribute
    return b'\xff' * 16 + number(19 + len(body), 2) + b'\2' + body


def reach(routes):
    """An UPDATE with MP_REACH_NLRI, AFI 1 and SAFI 5 (RFC 4760 section 3, RFC 6514 section 4)."""
    return update(0x80, 14, number(1, 2) + b'\5' + b'\4' + addr('192.0.2.1') + b'\0' + routes)


def tunnel(attribute):
    """An UPDATE with a PMSI Tunnel attribute."""
    return update(0xc0, 22, attribute)


def label_mapping(fecs):
    """A PDU of LDP with a Label Mapping Message, an FEC TLV and a label (RFC 5036 sections 3.1 to 3.5.7)."""
    tlvs = number(0x100, 2) + number(len(fecs), 2) + fecs + number(0x200, 2) + number(4, 2) + number(18, 4)
    message = number(0x400, 2) + number(4 + len(tlvs), 2) + number(1, 4) + tlvs
    return number(1, 2) + number(6 + len(message), 2) + addr('192.0.2.1') + number(0, 2) + message


def ipv4(place, ttl, protocol, target, payload):
    header = struct.pack('>BBHHHBBH', 0x45, 0, 20 + len(payload), place, 0, ttl, protocol, 0)
    return header + addr('192.0.2.1') + addr(target) + payload


def segment(port, place, at, octets):
    """A packet of TCP to the port, on the connection of that number, with the octets that it has from `at` on."""
    tcp = struct.pack('>HHIIBBHHH', 40000 + place, port, 1 + at, 1, 0x50, 0x18, 65535, 0, 0)
    return ipv4(place, 64, 6, '192.0.2.2', tcp + octets)


def to_port(port):
    """Packets of TCP to the port, each of a connection of its own."""
    return lambda place, message: segment(port, place, 0, message)


def to_routers(place, message):
    """A packet to all PIM routers (RFC 7761 section 4.9)."""
    return ipv4(place, 1, 103, '224.0.0.13', message)


def pcap(packets):
    """A pcap file with these packets of IPv4 on Ethernet."""
    octets = struct.pack('<IHHiIII', 0xa1b2c3d4, 2, 4, 0, 0, 65535, 1)
    for place, packet in enumerate(packets):
        frame = bytes(12) + b'\x08\x00' + packet
        octets += struct.pack('<IIII', place, 0, len(frame), len(frame)) + frame
    return octets


# ---- lines of the fields that tshark reports

NLRI = 'bgp.mcast_vpn_nlri'
PMSI = 'bgp.update.path_attribute.pmsi.'
LABEL = 'bgp.update.path_attribute.mpls_label_value_20bits'
LDP = 'ldp.msg.tlv.'
ROUTE_WORDS = {1: 'intra', 2: 'inter', 3: 'selective', 5: 'active', 6: 'shared', 7: 'source'}
FEC_WORDS = {6: 'p2mp', 7: 'up', 8: 'down'}
REACH = 'bgp.update.path_attribute.mp_reach_nlri'
UNREACH = 'bgp.update.path_attribute.mp_unreach_nlri'
BGP_WORDS = {1: 'open', 3: 'notification', 4: 'keepalive', 5: 'refresh'}
LDP_WORDS = {0x400: 'mapping', 0x402: 'withdraw', 0x403: 'release'}
EXPERT, MALFORMED = '_ws.expert.message', '_ws.malformed'
# what tshark reports of a next hop of IPv4 where it looks for one of IPv6
SHORT_HOP = 'Unknown Next Hop length (4 bytes)'


class Told(dict):
    """The fields of one value, by name. A field that tshark did not report is a KeyError."""

    def __init__(self):
        super().__init__()
        self.fields = []

    def add(self, field):
        """The first field of a name stands for it; `fields` has all of them."""
        self.setdefault(field.get('name'), field)
        self.fields.append(field)

    def number(self, name):
        return int(self[name].get('show'), 0)

    def octets(self, name):
        return self[name].get('value')

    def addr(self, name):
        return spelled(self[name].get('show'))

    def part(self, name):
        """A source or a group, or `*`."""
        bits = self.number(f'{NLRI}_{name}_length')
        return self.addr(f'{NLRI}_{name}_addr_ipv{6 if bits == 128 else 4}') if bits else '*'

    def inside(self, *prefixes):
        """The octets of all fields whose names begin so, in the order of the message."""
        return ''.join(self.octets(name) for name in self if name.startswith(prefixes))

    def has_ipv4_hop(self):
        """Whether routes of AFI 2 and SAFI 5 come after a next hop of IPv4."""
        if REACH + '.safi' not in self:
            return False
        family = self.number(REACH + '.afi'), self.number(REACH + '.safi')
        return family == (2, 5) and self.octets(REACH + '.next_hop').startswith('04')

    def has_fault(self):
        """Whether tshark reports a fault, or of anything that is unusual."""
        said = [field.get('show') for field in self.fields if field.get('name') == EXPERT]
        if self.has_ipv4_hop() and said == [SHORT_HOP]:
            return False
        return bool(said) or MALFORMED in self


def spelled(text):
    """An address as the program writes it: an IPv4-mapped one as that of IPv4, another one of IPv6 in eight groups of four digits."""
    address = ipaddress.ip_address(text)
    return str(getattr(address, 'ipv4_mapped', None) or address.exploded)


def route_line(reported):
    kind = reported.number(NLRI + '_route_type')
    originator = NLRI + '_origin_router_ipv4'
    if kind == 4:
        key = lines_of('nlri', [bytes.fromhex(reported.octets(NLRI + '_route_key'))])[0]
        return ' '.join(['leaf', reported.addr(originator)] + key)
    if kind not in ROUTE_WORDS:
        return f'other {kind} {reported.octets(NLRI)}'
    words = [ROUTE_WORDS[kind], reported.octets(NLRI + '_rd')]
    if kind in (2, 6, 7):
        words.append(str(reported.number(NLRI + '_source_as')))
    if kind in (3, 5, 6, 7):
        words += [reported.part('source'), reported.part('group')]
    if kind in (1, 3):
        words.append(reported.addr(originator))
    return ' '.join(words)


def identifier_text(kind, reported):
    if kind == 1:
        reserved = '0000'
        return reported.octets(PMSI + 'rsvp.id') + reserved + reported.inside(PMSI + 'rsvp.tunnel_id', PMSI + 'rsvp.ext_')
    if kind == 2:
        mldp = PMSI + 'mldp.fec.'
        word = FEC_WORDS[reported.number(mldp + 'type')]
        return f'{word} {reported.addr(mldp + "root_nodev4")} {reported.inside(mldp + "opaque_value", mldp + "opaque_ext")}'
    if kind == 6:
        return reported.addr(PMSI + 'ingress_rep_ip')
    return reported.inside(PMSI + {0: 'tunnel_id.', 3: 'pimssm.', 4: 'pimsm.', 5: 'bidir_pim_tree.'}[kind]) or '-'


def pmsi_line(reported):
    """Leaf information is the lowest of the flags, and a label of 0 is none (RFC 6514 section 5)."""
    leaf, kind = reported.number(PMSI + 'tunnel.flags') % 2, reported.number(PMSI + 'tunnel.type')
    return f'pmsi {leaf} {kind} {reported.number(LABEL) or "-"} {identifier_text(kind, reported)}'


def communities_text(reported):
    """The octets of all communities, which tshark reports by type, sub-type and parts of the value."""
    parts = re.compile(r'bgp\.ext_com\.(type|stype_\w+|value_\w+)$')
    octets = ''.join(f.get('value') for f in reported.fields if parts.match(f.get('name')))
    return ','.join(octets[i:i + 16] for i in range(0, len(octets), 16)) or '-'


def tunnel_octets(reported):
    """The octets of an attribute whose tunnel is an mLDP P2MP LSP."""
    if PMSI + 'tunnel.type' not in reported:
        return '-'
    return reported.inside(PMSI + 'tunnel.flags', PMSI + 'tunnel.type') + reported[LABEL].get('unmaskedvalue') + reported.inside(PMSI + 'mldp.')


def rd_octets(text):
    """Those of a route distinguisher of type 0 or 1 (RFC 4364 section 4.2)."""
    front, after = text.split(':')
    if '.' in front:
        return (number(1, 2) + addr(front) + number(int(after), 2)).hex()
    return (number(0, 2) + number(int(front), 2) + number(int(after), 4)).hex()


def vpn_ipv6_text(reported):
    rd, prefix, bits = re.search(r' RD=(\S+), IPv6=(\S+)/(\d+)$', reported['bgp.label_stack'].get('showname')).groups()
    return f'unicast {rd_octets(rd)} {spelled(prefix)}/{bits}'


def nlri_text(reported, attribute, prefix):
    is_six = reported.number(attribute + '.afi') == 2
    if reported.number(attribute + '.safi') == 5:
        return f'ipv{6 if is_six else 4} {route_line(reported)}'
    if is_six:
        return vpn_ipv6_text(reported)
    return f'unicast {reported.octets("bgp.rd")} {reported.addr(prefix)}/{reported.number("bgp.prefix_length") - 88}'


def next_hop(reported):
    if reported.has_ipv4_hop():
        return socket.inet_ntoa(bytes.fromhex(reported.octets(REACH + '.next_hop'))[1:])
    is_six = REACH + '.next_hop.ipv6' in reported
    return reported.addr(f'{REACH}.next_hop.ipv{6 if is_six else 4}')


def bgp_line(reported):
    kind = reported.number('bgp.type')
    if kind != 2:
        return BGP_WORDS[kind]
    if REACH + '.safi' in reported:
        key = nlri_text(reported, REACH, 'bgp.mp_reach_nlri_ipv4_prefix')
        return f'update\nreach {next_hop(reported)} {communities_text(reported)} {tunnel_octets(reported)} {key}'
    return f'update\nunreach {nlri_text(reported, UNREACH, "bgp.mp_unreach_nlri_ipv4_prefix")}'


def ldp_line(reported):
    kind = reported.number('ldp.msg.type')
    if kind not in LDP_WORDS:
        return f'ignored {kind}'
    return f'{LDP_WORDS[kind]} {reported.number(LDP + "generic.label")} {fec_line(reported)}'


def fec_line(reported):
    word = FEC_WORDS[reported.number(LDP + 'fec.type')]
    return f'{word} {reported.addr(LDP + "ldp_p2mp.ipv4_rtnodeaddr")} {reported.octets(LDP + "ldp_p2mp.opvalue") or "-"}'


def inner(field, name):
    """What the first field of that name inside a field shows."""
    return field.find(f".//field[@name='{name}']").get('show')


def source_line(word, field):
    """The kind by the flags W and R (RFC 7761 section 4.9.1)."""
    flags = inner(field, 'pim.source_addr.flags.w') + inner(field, 'pim.source_addr.flags.r')
    kind = {'00': 'sg', '01': 'rpt', '11': 'star'}[flags]
    return f'{word} {kind} {inner(field, "pim.source")}'


def join_prune_lines(reported):
    if reported.number('pim.cksum.status') != 1:
        return 'tshark: another checksum'
    lines = [f'joinprune {reported.addr("pim.unicast")} {reported.number("pim.holdtime")}']
    for field in reported.fields:
        name = field.get('name')
        if name == 'pim.group_set':
            lines.append(f'group {inner(field, "pim.group")}')
        if name in ('pim.join_ip', 'pim.prune_ip'):
            lines.append(source_line(name[4:-3], field))
    return '\n'.join(lines)


# by command: its cases, the packet and the message that carry them, the first field of a value, the lines of its fields
COMMANDS = {
    'nlri': (ROUTES, to_port(179), reach, NLRI + '_route_type', route_line),
    'pmsi': (PMSIS, to_port(179), tunnel, PMSI + 'tunnel.flags', pmsi_line),
    'fec': (FECS, to_port(646), label_mapping, LDP + 'fec.type', fec_line),
    'bgp': (BGPS, to_port(179), bytes, 'bgp.marker', bgp_line),
    'ldp': (LDPS, to_port(646), bytes, 'ldp.msg.ubit', ldp_line),
    'pim': (JOIN_PRUNES, to_routers, bytes, 'pim.version', join_prune_lines),
}


def dissect(capture, *options):
    """What tshark reports of each packet of a file: its elements with a name, in their order."""
    with tempfile.NamedTemporaryFile(suffix='.pcap') as file:
        file.write(capture)
        file.flush()
        run = subprocess.run(['tshark', '-n', '-r', file.name, '-T', 'pdml', *options], capture_output=True, text=True)
    if run.returncode:
        sys.exit(run.stderr)
    return [[element for element in packet.iter() if element.get('name')] for packet in xml.fromstring(run.stdout)]


def values_of(elements, first):
    """What is in front of the values of a packet, and then each value: it begins with the field `first`."""
    reported = [Told()]
    for element in elements:
        if element.get('name') == first:
            reported.append(Told())
        reported[-1].add(element)
    return reported


def line_of(line, reported):
    if reported.has_fault():
        return 'tshark: a fault'
    try:
        return line(reported)
    except KeyError as name:
        return f'tshark: no field {name}'


def lines_of(command, octets):
    """For each of the octets the lines of what tshark reads in them."""
    _, packet, message, first, line = COMMANDS[command]
    packets = dissect(pcap(packet(place, message(o)) for place, o in enumerate(octets)))
    return [[line_of(line, reported) for reported in values_of(elements, first)[1:]] for elements in packets]


# ---- what the nodes of the examples put

# by kind of session: its port, the place of the length in a message or PDU, and how many of its octets that does not count
SESSIONS = {'bgp': (179, 16, 0), 'ldp': (646, 2, 4)}


def streams_of(report):
    """The octets that one node puts for another one over one kind of session, by these three."""
    streams = {}
    for line in report.splitlines():
        word, *session, octets = line.split()
        if word == 'put':
            streams.setdefault(tuple(session), bytearray()).extend(bytes.fromhex(octets))
    return streams


def parts(octets, at, more, begin=0):
    """The octets from `begin` on, cut into parts: each has at the place `at` the number of its octets, but for `more` of them."""
    while begin < len(octets):
        length = more + int.from_bytes(octets[begin + at:begin + at + 2], 'big')
        yield octets[begin:begin + length]
        begin += max(1, length)


def count_of(kind, octets):
    """How many messages the octets have."""
    _, at, more = SESSIONS[kind]
    if kind == 'bgp':
        return sum(1 for _ in parts(octets, at, more))
    return sum(1 for pdu in parts(octets, at, more) for _ in parts(pdu, 2, 4, begin=10))


def segments(kind, octets):
    """The octets of streams of that kind as packets, each with the number of its stream."""
    for place, stream in enumerate(octets):
        for at in range(0, len(stream), SEGMENT):
            yield place, segment(SESSIONS[kind][0], place, at, bytes(stream[at:at + SEGMENT]))


def stream_lines(kind, octets):
    """For each of these streams the lines of what tshark reads in it, and one more where it reports a fault or misses a message."""
    *_, first, line = COMMANDS[kind]
    places, packets = zip(*segments(kind, octets))
    lines = [[] for _ in octets]
    for place, elements in zip(places, dissect(pcap(packets))):
        front, *values = values_of(elements, first)
        lines[place] += ['tshark: a fault'] * front.has_fault() + [line_of(line, reported) for reported in values]
    for own, stream in zip(lines, octets):
        if len(own) != count_of(kind, stream):
            own.append(f'tshark: {len(own)} messages of {count_of(kind, stream)}')
    return lines


def replayed(program, name, text):
    """What the program writes of a script, with the lines of the wire."""
    run = subprocess.run([*program, 'replay', '--wire'], input=text, capture_output=True, text=True)
    if run.returncode not in REPLAYED:
        sys.exit(f'{name}: status {run.returncode}')
    return run.stdout


def examples():
    """The names and the texts of the examples."""
    return {path.name: path.read_text() for path in sorted((TOP / 'examples').glob('*.txt'))}


def example_cases(reports, kind):
    """The names, octets and lines of the streams of that kind in the reports of the examples."""
    names, octets = [], []
    for name in examples():
        for (own, *nodes), stream in streams_of(reports[name]).items():
            if own == kind:
                names.append(' '.join([name, *nodes]))
                octets.append(stream)
    return zip(names, octets, stream_lines(kind, octets))


# ---- the files of tools/wireshark.py

# payloads of the examples are shorter than a header of UDP; checksums are looked at
SHOWN = ['--disable-protocol', 'udp', '-o', 'ip.check_checksum:TRUE', '-o', 'tcp.check_checksum:TRUE']
STATUSES = ('ip.checksum.status', 'tcp.checksum.status', 'pim.cksum.status')
# the severity of an error, and the status of a checksum that is right
ERROR, GOOD = 0x800000, '1'
TOOL_SEGMENT = 1460


def many_sites():
    """A network of two edges, of which one has so many sites that what it puts takes several segments."""
    edges = ['edge E1 192.0.2.1', 'edge E2 192.0.2.2', 'link E1 E2 1']
    vrfs = [f'vrf V{number} E{number} 1 65000:1 65000:1 highest' for number in (1, 2)]
    sites = [line for n in range(1, 41) for line in (f'site S{n} 10.{n}.0.0/16', f'iface I{n} V1 S{n} 10.{n}.0.1')]
    return ''.join(line + '\n' for line in [*edges, *vrfs, *sites, 'events', 'heal', 'move bgp E1 E2 7', 'settle'])


def captured(name, text, reported):
    """The file that the tool writes of a script and its report."""
    with tempfile.NamedTemporaryFile(suffix='.txt') as file:
        file.write(text.encode())
        file.flush()
        tool = [sys.executable, str(TOP / 'tools' / 'wireshark.py'), file.name]
        run = subprocess.run(tool, input=reported.encode(), capture_output=True)
    if run.returncode:
        sys.exit(f'{name}: {run.stderr.decode()}')
    return run.stdout


def ends_text(scenario, line):
    return f'{scenario.nodes[line.start].name} {scenario.nodes[line.end].name}'


def flow_text(octets):
    """Source and destination of a packet of IPv4 or IPv6."""
    places = (12, 16, 20) if octets[0] >> 4 == 4 else (8, 24, 40)
    return ' '.join(str(ipaddress.ip_address(octets[begin:end])) for begin, end in zip(places, places[1:]))


def shown_of_line(scenario, line):
    """How a line of a report is seen."""
    match line:
        case report.Put():
            return [f'put {line.kind} {ends_text(scenario, line)}'] * -(-len(line.octets) // TOOL_SEGMENT)
        case report.Hop():
            return [f'hop {ends_text(scenario, line)} {line.label} {line.ttl}']
        case report.Out():
            return [f'out {scenario.ifaces[line.iface].name} {flow_text(bytes(line.octets))}']
    return []


def shown_of_event(scenario, event, reason):
    """How an event is seen before its lines: a message of a customer's router, unless its octets are none."""
    if event.word in ('join', 'prune', 'pim') and not (reason or '').startswith('bytes'):
        return [f'pim {scenario.ifaces[event.iface].name}']
    return []


def wanted_shown(text):
    """What the file of a script has to show, by the reference program: each with its tick."""
    script = read(text)
    scenario, world = script.scenario, start(script.scenario)
    for timed in script.events:
        tick, reason = clock_of(world), events.refusal(world, timed.event)
        new = events.outcome(world, timed)
        lines = [line for lines in new.acts for line in lines]
        seen = [shown_of_event(scenario, timed.event, reason), *(shown_of_line(scenario, line) for line in lines)]
        yield from (f'{tick} {one}' for several in seen for one in several)
        if isinstance(new, events.Halted):
            return
        world = new.world


def ends_told(scenario, reported):
    """The nodes between which a frame goes, by their Ethernet addresses."""
    numbers = [int.from_bytes(bytes.fromhex(reported.octets(name))[4:], 'big') for name in ('eth.src', 'eth.dst')]
    return ' '.join(scenario.nodes[number].name for number in numbers)


def shown_of_packet(scenario, reported):
    """How a packet is seen, or nothing where it has no octets of a line."""
    kind, *nodes = reported['frame.interface_name'].get('show').split(' ')
    if kind in SESSIONS and nodes:
        return f'put {kind} {ends_told(scenario, reported)}' if reported.number('tcp.len') else ''
    if nodes:
        return f'hop {ends_told(scenario, reported)} {reported.number("mpls.label")} {reported.number("mpls.ttl")}'
    if 'pim.type' in reported:
        return f'pim {kind}'
    family = 'ip' if 'ip.src' in reported else 'ipv6'
    return f'out {kind} {reported[family + ".src"].get("show")} {reported[family + ".dst"].get("show")}'


def tick_of(reported):
    seconds, nanoseconds = reported['frame.time_epoch'].get('show').split('.')
    return (int(seconds) * 10 ** 9 + int(nanoseconds)) // 10 ** 6


def faults_told(reported):
    """The faults of a packet; the length of a next hop that tshark does not know is none."""
    shows = [(field.get('name'), field.get('show')) for field in reported.fields]
    errors = sum(name == '_ws.expert.severity' and int(show) == ERROR for name, show in shows)
    known = sum(name == EXPERT and show == SHORT_HOP for name, show in shows)
    if errors > known or (MALFORMED in reported and not errors):
        yield 'a fault'
    yield from (name for name, show in shows if name in STATUSES and show != GOOD)


def file_differs(scenario, text, told_report, packets):
    """In what tshark reports something else of a file than it has to."""
    for place, reported in enumerate(packets, 1):
        yield from (f'packet {place}: {fault}' for fault in faults_told(reported))
    seen = [(tick_of(reported), shown_of_packet(scenario, reported)) for reported in packets]
    came, wanted = [f'{tick} {one}' for tick, one in seen if one], list(wanted_shown(text))
    yield from (f'{own!r} and not {other!r}' for own, other in itertools.zip_longest(came, wanted) if own != other)
    for kind, name in (('bgp', 'bgp.type'), ('ldp', 'ldp.msg.type')):
        found = sum(field.get('name') == name for reported in packets for field in reported.fields)
        put = sum(count_of(kind, octets) for (own, *_), octets in streams_of(told_report).items() if own == kind)
        if found != put:
            yield f'{found} messages of {kind}, and not {put}'


def file_cases(program, reports):
    """By name, in what the files of the tool differ from what they have to be."""
    texts = {**examples(), 'many-sites': many_sites()}
    for name, text in texts.items():
        told_report = reports.get(name) or replayed(program, name, text)
        packets = []
        for elements in dissect(captured(name, text, told_report), *SHOWN):
            packets += values_of(elements, 'frame.interface_name')[1:]
        yield name, list(file_differs(read(text).scenario, text, told_report, packets))


# ---- the files of hops

UDP_SHOWN = ['-o', 'udp.check_checksum:TRUE', '-o', 'ip.check_checksum:TRUE']


def told_by(*command):
    """The lines that a tool writes of a file."""
    ran = subprocess.run(list(map(str, command)), capture_output=True, text=True)
    return ran.stdout.splitlines() if ran.returncode == 0 else [f'status {ran.returncode}: {ran.stderr}']


def hop_of_packet(reported):
    """How a frame is seen."""
    ends = [int.from_bytes(bytes.fromhex(reported.octets(name))[4:], 'big') for name in ('eth.src', 'eth.dst')]
    shim = [reported.number(f'mpls.{name}') for name in ('label', 'exp', 'bottom', 'ttl')]
    family = 'ip' if 'ip.src' in reported else 'ipv6'
    return ' '.join(map(str, [tick_of(reported), *ends, *shim, *(reported[f'{family}.{end}'].get('show') for end in ('src', 'dst'))]))


def wanted_hop(hop):
    return f'{hop.tick} {hop.start} {hop.end} {hop.label} 0 1 {hop.ttl} {flow_text(bytes(hop.octets))}'


def tools_differ(octets, wanted):
    """In what capinfos and tcpdump report something else of a file of hops than they have to."""
    with tempfile.NamedTemporaryFile(suffix='.pcap') as file:
        file.write(octets)
        file.flush()
        if shutil.which('capinfos'):
            seen = dict(line.split(':', 1) for line in told_by('capinfos', '-M', '-c', '-E', file.name) if ':' in line)
            seen = {name: value.strip() for name, value in seen.items()}
            if (seen.get('Number of packets'), seen.get('File encapsulation')) != (str(len(wanted)), 'ether'):
                yield f'capinfos tells {seen}'
        if shutil.which('tcpdump'):
            shims = [f'MPLS (label {hop.label}, tc 0, [S], ttl {hop.ttl})' for hop in wanted]
            lines = told_by('tcpdump', '-n', '-t', '-r', file.name)
            yield from (f'tcpdump tells {own!r} and not {other!r}' for own, other in itertools.zip_longest(lines, shims)
                        if own is None or other is None or not own.startswith(other))


def hop_file_differs(name, text, octets):
    """In what tools report something else of the file of hops of an example than they have to."""
    wanted = hops_of(read(text))[0]
    options = UDP_SHOWN if name == 'udp-datagrams.txt' else SHOWN
    packets = [values_of(elements, 'frame.encap_type')[1] for elements in dissect(octets, *options)] if wanted else []
    for place, reported in enumerate(packets, 1):
        yield from (f'packet {place}: {fault}' for fault in faults_told(reported))
        if options is UDP_SHOWN and (reported.number('udp.checksum.status'), reported.number('udp.dstport')) != (1, 5004):
            yield f'packet {place}: another datagram of UDP'
    came = [hop_of_packet(reported) for reported in packets]
    yield from (f'{own!r} and not {other!r}' for own, other in itertools.zip_longest(came, map(wanted_hop, wanted)) if own != other)
    yield from tools_differ(octets, wanted)


def hop_file_cases(program):
    """By name, in what the files of hops of the examples differ from what they have to be."""
    for name, text in examples().items():
        run = subprocess.run([*program, 'pcap'], input=text.encode(), capture_output=True)
        if run.returncode not in REPLAYED:
            sys.exit(f'{name}: pcap ended with status {run.returncode}')
        yield name, list(hop_file_differs(name, text, run.stdout))


# ---- the comparison

def own_cases(command):
    """The names, octets and lines of the cases that are laid out here."""
    cases = COMMANDS[command][0]
    return zip(cases, cases.values(), lines_of(command, cases.values()))


def differs(program, command, octets, lines):
    """What the program writes of the octets where it is not these lines, or nothing."""
    run = subprocess.run([*program, 'decode', command], input=octets.hex() + '\n', capture_output=True, text=True)
    wanted = ''.join(line + '\n' for line in lines)
    return '' if (run.stdout, run.returncode) == (wanted, 0) else f'wanted\n{wanted}came, with status {run.returncode},\n{run.stdout}'


def main():
    options = argparse.ArgumentParser(description='Compares what tshark and the program read.')
    options.add_argument('--command', default=str(TOP / 'mvpn'), help='runs the program')
    program = shlex.split(options.parse_args().command)
    if not shutil.which('tshark'):
        print('tshark is not installed, so nothing was compared')
        print('0 passed, 0 failed')
        return 0
    if not starts(program):
        print('the program does not start\n0 passed, 1 failed')
        return 1
    reports = {name: replayed(program, name, text) for name, text in examples().items()}
    cases = [(command, *case) for command in COMMANDS for case in own_cases(command)]
    cases += [(kind, *case) for kind in SESSIONS for case in example_cases(reports, kind)]
    results = [(f'{command}, {name}', differs(program, command, octets, lines)) for command, name, octets, lines in cases]
    results += [(f'file of {name}', '\n'.join(reported)) for name, reported in file_cases(program, reports)]
    results += [(f'hops of {name}', '\n'.join(reported)) for name, reported in hop_file_cases(program)]
    differing = [f'{name}: {reported}' for name, reported in results if reported]
    for reported in differing:
        print(reported)
    print('%d passed, %d failed' % (len(results) - len(differing), len(differing)))
    return 1 if differing else 0


if __name__ == '__main__':
    sys.exit(main())
