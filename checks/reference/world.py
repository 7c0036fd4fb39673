"""The state of the whole network, what `state` counts, and the acts of a network with their lines (network_defs: World, Counts,
Acts)."""

from dataclasses import dataclass, replace

from . import datagrams, labels, report
from .base import flat_map, slice_get
from .datagrams import DISCARDED, Fate, arriving_fate, branches_of, entering_fate, tree_of
from .labels import use_of
from .nodes import SYSTEM, core_at, part_of, place_of, start_nodes
from .place import EdgeData, OwnVrf, label_place
from .scenario import sessions
from .sessions import Direction, OctetNetwork, octet_run, octets_over, started


@dataclass(frozen=True)
class Datagram:
    site: int
    source: object
    group: object
    octets: tuple


@dataclass(frozen=True)
class LinkCopy:
    label: int
    ttl: int
    put_at: int
    number: int


@dataclass(frozen=True)
class World:
    network: OctetNetwork
    copies: dict
    datagrams: tuple


def scenario_of(world):
    return world.network.state.scenario


def clock_of(world):
    return world.network.state.clock


def with_copies(start, end, copies, world):
    return replace(world, copies={**world.copies, (start, end): copies})


# ---- sessions and links

def directions(scenario):
    return flat_map(lambda session: (Direction(session.kind, session.a, session.b), Direction(session.kind, session.b, session.a)), sessions(scenario))


def link_ways(scenario):
    return flat_map(lambda link: ((link.a, link.b), (link.b, link.a)), scenario.links)


def start(scenario):
    return World(started(start_nodes(scenario), directions(scenario)), {way: () for way in link_ways(scenario)}, ())


def is_joined(world, session):
    return world.network.joined[Direction(session.kind, session.a, session.b)]


def is_up(world, kind, number, peer):
    state = world.network.state.node[number]
    if kind == 'bgp':
        return isinstance(state, EdgeData) and state.control.peers.contains_key(peer)
    return labels.is_up(part_of(state), peer)


def are_held(world, session):
    node = world.network.state.node
    return labels.is_ready(part_of(node[session.a]), session.b) and labels.is_ready(part_of(node[session.b]), session.a)


def is_ready(world, session):
    return is_joined(world, session) and (session.kind == 'bgp' or are_held(world, session))


# ---- the five numbers

def octets_in_transit(world):
    return sum(len(world.network.transit[over]) for over in directions(scenario_of(world)))


def all_copies(world):
    return flat_map(lambda way: world.copies[way], link_ways(scenario_of(world)))


def datagrams_with_copy(copies, count):
    return sum(any(copy.number == number for copy in copies) for number in range(1, count + 1))


def node_due(nodes, number):
    state = nodes.node[number]
    if isinstance(state, EdgeData):
        return datagrams.due(place_of(nodes, number), nodes.clock, state)
    return labels.due(label_place(nodes.scenario, core_at(nodes, number), number), nodes.clock, state)


def all_nodes(scenario):
    return tuple(range(len(scenario.nodes)))


def due_timers(world):
    return sum(node_due(world.network.state, number) for number in all_nodes(scenario_of(world)))


def unready(world):
    return sum(not is_ready(world, session) for session in sessions(scenario_of(world)))


def state_line(world):
    copies = all_copies(world)
    return report.State(octets_in_transit(world), len(copies), datagrams_with_copy(copies, len(world.datagrams)), due_timers(world), unready(world))


# ---- acts of the control plane

@dataclass(frozen=True)
class Acted:
    world: World
    lines: tuple


@dataclass(frozen=True)
class Lacks:
    """A node that needs a label where none is free."""

    node: int


def put_line(puts, over):
    octets = octets_over(over, puts)
    return (report.Put(over.kind, over.start, over.end, octets),) if octets else ()


def put_lines(scenario, puts):
    return flat_map(lambda over: put_line(puts, over), directions(scenario))


def at_node(world, node, before, acts):
    new = octet_run(SYSTEM, world.network, acts)
    if new is None:
        return Lacks(node)
    return Acted(replace(world, network=new.network), before + put_lines(scenario_of(world), new.puts))


def is_of_session(kind, a, b):
    return lambda over: over.kind == kind and (over.start, over.end) in ((a, b), (b, a))


def is_at(node):
    return lambda over: node in (over.start, over.end)


def leads_to(node):
    return lambda over: over.end == node


def is_from_peer(kind, a, b):
    return lambda over: over == Direction(kind, b, a)


# ---- copies

def copy_on(world, ttl, number, branch):
    return LinkCopy(branch.label, ttl, clock_of(world), number)


def with_branches(node, ttl, number, branches, world):
    for branch in branches:
        world = with_copies(node, branch.node, world.copies[node, branch.node] + (copy_on(world, ttl, number, branch),), world)
    return world


def fated(world, node, ttl, number, octets, before, fate):
    """The datagram leaves at interfaces, and goes on branches."""
    outs = tuple(report.Out(number, iface, octets) for iface in fate.outs)
    hops = tuple(report.Hop(node, branch.node, branch.label, ttl, number) for branch in fate.branches)
    return Acted(with_branches(node, ttl, number, fate.branches, world), before + outs + hops)


def datagram_at(world, number):
    return slice_get(world.datagrams, number - 1)


def entering(world, number):
    """The last datagram enters at a VRF."""
    vrf, datagram = slice_get(scenario_of(world).vrfs, number), datagram_at(world, len(world.datagrams))
    state = None if vrf is None else world.network.state.node[vrf.edge]
    if datagram is None or not isinstance(state, EdgeData):
        return Acted(world, ())
    fate = entering_fate(
        place_of(world.network.state, vrf.edge), clock_of(world), state, OwnVrf(number, vrf), datagram.site, datagram.source, datagram.group)
    return fated(world, vrf.edge, 255, len(world.datagrams), datagram.octets, (), fate)


def fate_at(world, number, sender, label, datagram):
    state = world.network.state.node[number]
    if isinstance(state, EdgeData):
        return arriving_fate(place_of(world.network.state, number), clock_of(world), state, sender, label, datagram.source, datagram.group)
    fec = tree_of(sender, use_of(state, label))
    return DISCARDED if fec is None else Fate((), branches_of(state, fec))


def with_ttl(ttl, fate):
    return replace(fate, branches=()) if ttl <= 1 else fate


def without_copy(world, start, end, place):
    copies = world.copies[start, end]
    return with_copies(start, end, copies[:place - 1] + copies[place:], world)


def landing(world, start, end, place):
    """The copy at that place, counted from 1, lands."""
    copy = slice_get(world.copies[start, end], place - 1)
    datagram = None if copy is None else datagram_at(world, copy.number)
    if datagram is None:
        return Acted(world, ()) if copy is None else Acted(without_copy(world, start, end, place), ())
    left = without_copy(world, start, end, place)
    fate = with_ttl(copy.ttl, fate_at(left, end, start, copy.label, datagram))
    return fated(left, end, copy.ttl - 1, copy.number, datagram.octets, (report.Land(start, end, copy.label, copy.number),), fate)


def aged(world):
    """The copies that have been on their links for longer than they may are removed."""
    life, now = scenario_of(world).life, clock_of(world)
    return replace(world, copies={way: tuple(copy for copy in copies if now <= copy.put_at + life) for way, copies in world.copies.items()})


# ---- acts

def act(world, one):
    """The network after an act, with its lines, or the node that runs out of labels. An act is a tuple of its word and its fields."""
    match one:
        case ('tick', ticks):
            new = at_node(world, 0, (), [('call', ('elapse', ticks))])
            return replace(new, world=aged(new.world)) if isinstance(new, Acted) else new
        case ('timers', node):
            return at_node(world, node, (), [('call', ('own', node, ('timers',)))])
        case ('move', kind, a, b, count):
            over = Direction(kind, a, b)
            return at_node(world, b, (report.Take(kind, a, b, world.network.transit[over][:count]),), [('move', over, count)])
        case ('lose', kind, a, b):
            return at_node(world, a, (), [('lose', is_of_session(kind, a, b))])
        case ('notice', kind, a, b):
            return at_node(world, a, (), [('forget', is_from_peer(kind, a, b)), ('call', ('own', a, ('noticed', kind, b)))])
        case ('raise first', kind, a, b):
            return at_node(world, a, (), [('join', is_of_session(kind, a, b)), ('call', ('own', a, ('raised', kind, b)))])
        case ('raise second', kind, a, b):
            return at_node(world, b, (), [('call', ('own', b, ('raised', kind, a)))])
        case ('restart', node):
            return at_node(world, node, (), [('lose', is_at(node)), ('forget', leads_to(node)), ('call', ('reset', node))])
        case ('set cost', a, b, cost):
            return at_node(world, a, (), [('call', ('set cost', a, b, cost))])
        case ('reroute', node):
            return at_node(world, node, (), [('call', ('reroute', node))])
        case ('at', node, call):
            return at_node(world, node, (), [('call', ('own', node, call))])
        case ('enter', vrf):
            return entering(world, vrf)
        case ('land', a, b, place):
            return landing(world, a, b, place)
        case ('drop', a, b, place):
            return Acted(without_copy(world, a, b, place), ())
        case ('tell',):
            return Acted(world, (state_line(world),))
