#!/usr/bin/env python3
"""Writes what a replay put on the wire as a pcapng file, for Wireshark: `wireshark.py SCENARIO [REPORT] > OUT.pcapng`.

SCENARIO is a file with a scenario and its script, taken as well formed. The report is the one that `replay --wire` writes for it; it
is in REPORT or comes on standard input. The file has an interface for each link, each session and each customer's interface:

    link A B            the copies of datagrams that go from one node to the other, in MPLS: each `hop` line, when it was put
    bgp A B, ldp A B    the session as TCP, to port 179 or 646
    NAME                the Join/Prune messages that the customer's router sends, and the datagrams that leave: each `out` line

What is on a session's wire is what `put` lines say: octets are in transit from then on, whatever becomes of them (docs/PROTOCOL.md,
Sessions in octets). A `take` line has no octets of its own, and is seen as their acknowledgement; so octets that are lost in transit
are seen as put, and are not acknowledged. When a session comes up, the end of the higher address opens a connection (RFC 4271 section
6.8, RFC 5036 section 2.5.2) from a port that no other connection has, and an end that notices a loss resets its connection.

`join`, `prune` and `pim` events are seen as the messages that they mean, refused ones too, with the refusal as a comment; only
octets that are refused as `bytes` are none, and left out. The scenario has no address of a customer's router: it is 169.254.0.1 and
fe80::1. A tick is a millisecond, and within a tick each packet comes a nanosecond after the one before it; `timeline.py` says how
the tick of a line is found. Nodes have their addresses of the scenario, and their names in a block for name resolution.
"""

import argparse
import pathlib
import sys
from dataclasses import dataclass

# after this folder, which has a module of the name of one there
sys.path.append(str(pathlib.Path(__file__).resolve().parent.parent / 'checks'))

from captures import interface_block, name_block, packet_block, section_block
from packets import ACK, IPV4, LARGEST, MPLS, PIM, PSH, RST, SYN, TCP, ethernet, group_address, group_of, ipv4, ipv6, join_prune
from packets import kind_of, mpls, number, tcp
from reference.octets import packet
from reference.pim import message_of
from reference.scenario import edge_of, sessions
from reference.script import read
from timeline import Began, Noticed, OtherScript, Raised, Told, timeline

PORTS = {'bgp': 179, 'ldp': 646}
# the first port of those for connections that are opened (RFC 6335 section 6), and how many there are
FIRST_PORT, PORT_COUNT = 49152, 16384
# a customer's router and all PIM routers (RFC 7761 section 4.9), by the number of octets of an address
ROUTERS = {4: bytes([169, 254, 0, 1]), 16: bytes.fromhex('fe80') + bytes(13) + b'\1'}
PIM_ROUTERS = {4: bytes([224, 0, 0, 13]), 16: bytes.fromhex('ff02') + bytes(13) + b'\x0d'}
# of a connection after another one, so much higher is the first number of its octets
FIRST_SEQUENCE = 64_000
# nanoseconds of a tick
TICK = 1_000_000


def node_address(node):
    """The Ethernet address of a node, by its number."""
    return b'\x02\0\0\0' + number(node, 2)


def router_address(iface):
    """That of the customer's router behind an interface."""
    return b'\x02\0\0\1' + number(iface, 2)


# ---- sessions as TCP

class Connection:
    """A connection of TCP from a port of one node to a service of another one, by their names. For each of them there is the number of
    the octet that it puts next, and of the octet that it takes next."""

    def __init__(self, opener, listener, ports, first):
        self.opener, self.listener, self.ports = opener, listener, ports
        self.next = {opener: first, listener: first}
        self.taken = {opener: 0, listener: 0}

    def peer(self, node):
        return self.listener if node == self.opener else self.opener

    def segment(self, node, flags, octets=b''):
        """What a node puts, as node, ports, the two numbers, flags and octets. A SYN counts as an octet."""
        ports = self.ports if node == self.opener else self.ports[::-1]
        sent = node, ports, self.next[node], self.taken[node], flags, octets
        self.next[node] = (self.next[node] + len(octets) + bool(flags & SYN)) % 2 ** 32
        return sent

    def handshake(self):
        yield self.segment(self.opener, SYN)
        self.taken[self.listener] = self.next[self.opener]
        yield self.segment(self.listener, SYN | ACK)
        self.taken[self.opener] = self.next[self.listener]
        yield self.segment(self.opener, ACK)

    def put(self, node, octets):
        for at in range(0, len(octets), LARGEST):
            is_last = at + LARGEST >= len(octets)
            yield self.segment(node, PSH | ACK if is_last else ACK, octets[at:at + LARGEST])

    def take(self, node, count):
        self.taken[node] = (self.taken[node] + count) % 2 ** 32
        yield self.segment(node, ACK)

    def reset(self, node):
        yield self.segment(node, RST | ACK)


# ---- frames

@dataclass(frozen=True)
class Frame:
    """A frame at an interface of the file, which is named."""

    interface: str
    octets: bytes
    comment: str = ''


def octets_in(word):
    return b'' if word == '-' else bytes.fromhex(word)


def datagram_of(event):
    """The packet that a `send` or a `packet` hands in."""
    return bytes(packet(event.source, event.group, event.octets) if event.word == 'send' else event.octets)


class Wire:
    """What is on the wires of a network, after some first things that happened."""

    def __init__(self, scenario):
        self.scenario = scenario
        self.numbers = {node.name: number for number, node in enumerate(scenario.nodes)}
        self.ifaces = {iface.name: number for number, iface in enumerate(scenario.ifaces)}
        wires = [('link', link.a, link.b) for link in scenario.links] + [(one.kind, one.a, one.b) for one in sessions(scenario)]
        named = [(kind, scenario.nodes[a].name, scenario.nodes[b].name) for kind, a, b in wires]
        # by kind and two nodes in either order, the name of the interface
        self.wires = {way: ' '.join((kind, a, b)) for kind, a, b in named for way in ((kind, a, b), (kind, b, a))}
        self.connections, self.opened, self.datagrams = {}, 0, []

    def interfaces(self):
        return [*dict.fromkeys(self.wires.values()), *self.ifaces]

    def address(self, node):
        return bytes(self.scenario.nodes[self.numbers[node]].addr.octets)

    def hardware(self, node):
        return node_address(self.numbers[node])

    # ---- sessions

    def connection(self, over):
        return self.connections[self.wires[over]]

    def segments(self, over, sent):
        """Frames of the segments that are sent on a session."""
        for node, ports, sequence, acknowledged, flags, octets in sent:
            peer = self.connection(over).peer(node)
            ends = self.address(node), self.address(peer)
            whole = ipv4(*ends, TCP, 64, tcp(*ends, ports, sequence, acknowledged, flags, octets))
            yield Frame(self.wires[over], ethernet(self.hardware(peer), self.hardware(node), IPV4, whole))

    def raised(self, over):
        opener, listener = sorted(over[1:], key=self.address, reverse=True)
        port = FIRST_PORT + self.opened % PORT_COUNT
        self.opened += 1
        first = self.opened * FIRST_SEQUENCE % 2 ** 32
        self.connections[self.wires[over]] = Connection(opener, listener, (port, PORTS[over[0]]), first)
        return self.segments(over, self.connection(over).handshake())

    def noticed(self, over):
        return self.segments(over, self.connection(over).reset(over[1]))

    # ---- customers

    def join_prune(self, event, refusal):
        """A customer's router sends a Join/Prune message."""
        iface = self.scenario.ifaces[event.iface]
        octets = bytes(event.octets)
        is_six = octets[4] == 2 if event.word == 'pim' else len(iface.addr.octets) == 16
        router, routers = (ends[16 if is_six else 4] for ends in (ROUTERS, PIM_ROUTERS))
        if event.word != 'pim':
            octets = join_prune(message_of(self.scenario, event).message, router, routers)
        whole = (ipv6 if is_six else ipv4)(router, routers, PIM, 1, octets)
        frame = ethernet(group_address(routers), router_address(event.iface), kind_of(whole), whole)
        return Frame(iface.name, frame, f'refused: {refusal}' if refusal else '')

    def began(self, event, refusal):
        if event.word in ('send', 'packet') and not refusal:
            self.datagrams.append(datagram_of(event))
        if event.word in ('join', 'prune', 'pim') and not refusal.startswith('bytes'):
            yield self.join_prune(event, refusal)

    def out(self, name, octets):
        edge = edge_of(self.scenario, self.ifaces[name])
        return Frame(name, ethernet(group_address(group_of(octets)), node_address(edge), kind_of(octets), octets))

    # ---- copies

    def hop(self, start, end, label, ttl, number):
        copy = mpls(label, ttl, self.datagrams[number - 1])
        return Frame(self.wires['link', start, end], ethernet(self.hardware(end), self.hardware(start), MPLS, copy))

    # ---- all

    def reported(self, words):
        """The frames of a line of the report."""
        match words:
            case ('put', kind, start, end, octets):
                over = kind, start, end
                return self.segments(over, self.connection(over).put(start, octets_in(octets)))
            case ('take', kind, start, end, octets):
                over = kind, start, end
                return self.segments(over, self.connection(over).take(end, len(octets_in(octets))))
            case ('hop', start, end, label, ttl, number):
                return [self.hop(start, end, int(label), int(ttl), int(number))]
            case ('out', _, iface, octets):
                return [self.out(iface, octets_in(octets))]
        return []

    def frames(self, one):
        """The frames of what happens next."""
        match one:
            case Began(_, event, refusal):
                return self.began(event, refusal)
            case Raised(_, over):
                return self.raised(over)
            case Noticed(_, over):
                return self.noticed(over)
            case Told(_, words):
                return self.reported(words)


# ---- the file

def capture(scenario, happened):
    """The blocks of the file."""
    wire = Wire(scenario)
    places = {name: place for place, name in enumerate(wire.interfaces())}
    yield section_block('mvpn')
    yield from map(interface_block, places)
    yield name_block({bytes(node.addr.octets): node.name for node in scenario.nodes})
    tick, count = 0, 0
    for one in happened:
        tick, count = one.tick, count if one.tick == tick else 0
        for frame in wire.frames(one):
            yield packet_block(places[frame.interface], tick * TICK + min(count, TICK - 1), frame.octets, frame.comment)
            count += 1


def main():
    options = argparse.ArgumentParser(description='Writes what a replay put on the wire as a pcapng file.')
    options.add_argument('scenario', type=pathlib.Path)
    options.add_argument('report', nargs='?', type=pathlib.Path, help='of replay --wire; else it comes on standard input')
    given = options.parse_args()
    script = read(given.scenario.read_text())
    report = given.report.read_text() if given.report else sys.stdin.read()
    try:
        happened = timeline(script, report)
    except OtherScript:
        sys.exit('the report is not the one that replay --wire writes of this script')
    sys.stdout.buffer.writelines(capture(script.scenario, happened))


if __name__ == '__main__':
    main()
