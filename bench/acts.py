"""What the program of bench/edge/ plays at one edge: a scenario, and the acts of each kind of measurement.

The edge has a VRF of a VPN that is at 31 other edges too, with a core node between them. Each of these has sent it a unicast
route, an inclusive one, and routes of flows. Its customers have made 1,023 of the 1,024 entries that an edge may hold, or two.
The octets are written by the definitions' transliteration in checks/reference.
"""

import pathlib
import sys

sys.path.insert(0, str(pathlib.Path(__file__).resolve().parent.parent / 'checks'))

from reference.base import V4, Pattern, checksum, to_be_bytes
from reference.octets import Advert, Mapping, Mcast, Reach, SourceJoin, Unreach, Withdraw, packet, pdu_written, update_written
from reference.place import EdgePlace, Value, lsp, own_addr, own_vrfs, tunnel_number
from reference.routes import (
    active_key, import_target, inclusive_route, own_import, plain_value, selective_key, tunnel_value, unicast_routes)
from reference.script import read

PEERS = range(1, 32)
CORE = 32
FLOWS = 255
FEW_FLOWS = 25
IN_A_TURN = 1000
RAISED, HELD, DELAYED = 5, 8, 12

# The flow of the edge's own site that other edges have joined, and one that a customer joins and no other has.
OWN_FLOW = V4((10, 0, 0, 9)), V4((239, 1, 0, 1))
NEW_FLOW = V4((10, 8, 0, 200)), V4((239, 1, 8, 200))


def scenario(ifaces):
    """The text: the edge has an interface to the site of its sources, and so many to a site of receivers."""
    nodes = [f'edge E{k} 192.0.2.{k + 1}' for k in (0, *PEERS)] + ['core C 192.0.2.99']
    links = [f'link E{k} C 1' for k in (0, *PEERS)]
    vrfs = [f'vrf V{k} E{k} 1 65000:{k + 1} 65000:1 highest' for k in (0, *PEERS)]
    sites = [f'site S{k} 10.{k}.0.0/16' for k in (0, *PEERS)] + ['site R 10.100.0.0/16']
    own = ['iface A V0 S0 10.0.0.1'] + [f'iface I{n} V0 R 10.100.{n // 250}.{n % 250 + 1}' for n in range(ifaces)]
    others = [f'iface A{k} V{k} S{k} 10.{k}.0.1' for k in PEERS]
    return '\n'.join(nodes + links + vrfs + sites + own + others + ['events', ''])


def act(letter, number=0, octets=()):
    """An act as the program reads it."""
    return letter.encode() + bytes(to_be_bytes(2, number) + to_be_bytes(2, len(octets)) + tuple(octets))


# ---- messages of customers (RFC 7761 section 4.9.5)

def join_prune(iface_addr, source, group, is_join):
    counts = (0, 1, 0, 0) if is_join else (0, 0, 0, 1)
    fields = (1, 0) + iface_addr.octets + (0, 1, 0, 210) + (1, 0, 0, 32) + group.octets + counts + (1, 0, 4, 32) + source.octets
    return (0x23, 0) + to_be_bytes(2, checksum((0x23, 0, 0, 0) + fields)) + fields


class Edge:
    """The acts at edge 0 of the scenario with so many interfaces to receivers, and routes of so many flows of each other edge."""

    def __init__(self, ifaces, flows):
        self.text = scenario(ifaces)
        self.read = read(self.text).scenario
        self.flows = flows

    def place(self, edge):
        return EdgePlace(self.read, None, edge)

    def pim(self, receiver, flow, is_join):
        """A join or a prune at the interface of that receiver."""
        iface = receiver + 1
        return act('p', iface, join_prune(self.read.ifaces[iface].addr, *flow, is_join))

    # ---- routes of the other edges

    def flow_route(self, peer, kind, number):
        """A selective route, a Source Active route, or a Source Tree Join of the peer for the flow of that number."""
        place, own = self.place(peer), own_vrfs(self.place(peer))[0]
        source, group = flow_of(peer, number)
        match kind:
            case 'selective':
                tunnel = tunnel_value(place, own.vrf, tunnel_number(own.vrf, number + 1))
                return selective_key(place, own.vrf, Pattern(source, group)), tunnel
            case 'active':
                return active_key(own.vrf, source, group), plain_value(place, own.vrf)
            case 'join':
                return self.join_route(peer, OWN_FLOW[0], group)

    def join_route(self, peer, source, group):
        """The Source Tree Join of the peer for a source at the edge's own site (RFC 6514 section 11.1.3)."""
        own = own_vrfs(self.place(0))[0].vrf
        comms = (import_target(own_import(self.place(0), own)),)
        return Mcast(1, SourceJoin(own.rd, self.read.system, source, group)), Value(own_addr(self.place(peer)), comms, None)

    def routes(self, peer):
        """A unicast route, an inclusive one, and those of flows."""
        place, own = self.place(peer), own_vrfs(self.place(peer))[0]
        yield from unicast_routes(place, own)
        yield inclusive_route(place, own)
        for number in range(self.flows):
            for kind in KINDS:
                yield self.flow_route(peer, kind, number)

    def advertised(self, peer, route):
        key, value = route
        return act('T', peer, update_written(Reach(Advert(key, value.next_hop, value.comms, value.pmsi))))

    def withdrawn(self, peer, route):
        return act('T', peer, update_written(Unreach(route[0])))

    # ---- label messages

    def label_message(self, of):
        """A message of the core node for the edge's inclusive tunnel."""
        fec = lsp(own_addr(self.place(0)), tunnel_number(own_vrfs(self.place(0))[0].vrf, 0))
        return act('t', CORE, pdu_written(self.read.nodes[CORE].addr, 1, of(fec, 1000)))


KINDS = 'selective', 'active', 'join'


def flow_of(peer, number):
    return V4((10, peer, 0, number + 1)), V4((239, 1, peer, number + 1))


def wanted_flow(number):
    """The flows that customers of the edge want, whose sources are at the sites of the other edges."""
    return flow_of(PEERS[number % len(PEERS)], number // len(PEERS))


# ---- what comes first

def sessions():
    """All sessions come up, and the hold of the one over LDP is run."""
    yield act('c', RAISED)
    yield from (act('R', peer) for peer in PEERS)
    yield act('r', CORE)
    yield act('c', HELD)
    yield act('x')


def handed_out():
    yield from (act('H', peer) for peer in PEERS)
    yield act('h', CORE)


def first(edge, with_entries):
    """What is there before the measurement: sessions, routes, and entries at the receivers."""
    yield from sessions()
    for peer in PEERS:
        yield from (edge.advertised(peer, route) for route in edge.routes(peer))
    yield edge.advertised(1, edge.join_route(1, *OWN_FLOW))
    yield edge.label_message(Mapping)
    yield from with_entries(edge)
    yield act('c', DELAYED)
    yield act('x')
    yield from handed_out()


def thousand_entries(edge):
    """Each flow is joined at four interfaces, and three of them at a fifth one."""
    for number in range(4 * FLOWS + 3):
        yield edge.pim(number // FLOWS, wanted_flow(number % FLOWS), True)


def hundred_entries(edge):
    """Each of 25 flows is joined at four interfaces."""
    for number in range(4 * FEW_FLOWS):
        yield edge.pim(number // FEW_FLOWS, wanted_flow(number % FEW_FLOWS), True)


def two_entries(edge):
    """The flow of the own site is joined at two interfaces."""
    yield edge.pim(0, OWN_FLOW, True)
    yield edge.pim(1, OWN_FLOW, True)


# ---- what is measured, in turns of a thousand acts; what is handed out besides does not count

def joins_among(edge, flows):
    """Flows, of so many, are pruned and joined at one interface. Others want them still, so no peer is sent anything."""
    for number in range(IN_A_TURN // 2):
        for is_join in (False, True):
            yield edge.pim(0, wanted_flow(number % flows), is_join)


def joins(edge):
    """Those of all flows."""
    return joins_among(edge, FLOWS)


def few_joins(edge):
    """Those of the flows of `hundred_entries`."""
    return joins_among(edge, FEW_FLOWS)


def told_joins(edge):
    """A flow is joined and pruned that no other interface wants: its upstream is sent that."""
    for _ in range(IN_A_TURN // 2):
        for is_join in (True, False):
            yield edge.pim(0, NEW_FLOW, is_join)
            yield act('H', NEW_FLOW[0].octets[1])


def messages(edge):
    """A route of a peer is advertised and withdrawn, of each kind in turn."""
    for number in range(IN_A_TURN // 2):
        peer = PEERS[number % len(PEERS)]
        route = edge.flow_route(peer, KINDS[number % len(KINDS)], 150 + number // len(PEERS))
        yield edge.advertised(peer, route)
        yield edge.withdrawn(peer, route)


def labels(edge):
    """The core node withdraws its label of the edge's inclusive tunnel, and maps it again."""
    for _ in range(IN_A_TURN // 2):
        yield edge.label_message(Withdraw)
        yield edge.label_message(Mapping)
        yield act('h', CORE)


def enters(edge):
    """A datagram of the own site enters."""
    del edge
    octets = packet(*OWN_FLOW, (0,) * 80)
    yield from (act('e', 0, octets) for _ in range(IN_A_TURN))
