"""The nodes of a network, what they do with messages and at calls, and what their steps put (network_defs: Nodes, System;
network_defs/node_defs: Puts). A node's state is an `EdgeData`, or the `LabelData` of a core node."""

from dataclasses import dataclass, replace

from . import labels, place as edge_place
from .base import flat_map, slice_get
from .held import put_to
from .label_steps import effect, label_step, next_id
from .octets import Update, Other, pdu_written, update_written
from .place import EdgeData, EdgePlace, addr_of, label_place
from .scenario import Scenario, core_of, edges, with_cost
from .sessions import Direction, Put, Stepped, System
from .steps import LabelStep, edge_step, own_label_call


@dataclass(frozen=True)
class Nodes:
    """All nodes of a scenario: the links at their present costs, the links at the costs that each node has acted on, the clock."""

    scenario: Scenario
    links: tuple
    known: tuple
    clock: int
    node: tuple


def is_edge(scenario, number):
    found = slice_get(scenario.nodes, number)
    return found is not None and found.edge


def fresh_node(scenario, number):
    return edge_place.fresh(scenario.labels) if is_edge(scenario, number) else labels.fresh(scenario.labels)


def start_nodes(scenario):
    every = range(len(scenario.nodes))
    return Nodes(scenario, scenario.links, tuple(scenario.links for _ in every), 0, tuple(fresh_node(scenario, number) for number in every))


def with_node(nodes, at, new):
    return replace(nodes, node=nodes.node[:at] + (new,) + nodes.node[at + 1:])


def core_at(nodes, number):
    """The core by the costs that the node has acted on."""
    return core_of(len(nodes.scenario.nodes), nodes.known[number])


def place_of(nodes, number):
    return EdgePlace(nodes.scenario, core_at(nodes, number), number)


def part_of(state):
    return state.part if isinstance(state, EdgeData) else state


# ---- what steps put

def bgp_puts(place, old, new):
    """Each change of a table goes in an UPDATE message of its own."""
    return flat_map(
        lambda peer: [Put(Direction('bgp', place.me, peer), update_written(change)) for change in put_to(place, old, new, peer)],
        edges(place.scenario))


def numbered_puts(me, addr, ends, puts):
    """Each label message goes in a PDU of its own; the ids to each neighbour grow by one."""
    found = ()
    for put in puts:
        end = ends.get(put.to)
        if end is not None:
            found += (Put(Direction('ldp', me, put.to), pdu_written(addr, end.next, put.message)),)
            ends = ends.insert(put.to, replace(end, next=next_id(end.next)))
    return found


def label_puts(me, addr, place, now, step):
    own, _ = effect(place, now, step.old, step.call)
    return numbered_puts(me, addr, own.part.ends, step.new.puts)


# ---- steps of a node

def puts_of(nodes, number, row):
    at = label_place(nodes.scenario, core_at(nodes, number), number)
    return flat_map(lambda step: label_puts(number, addr_of(nodes.scenario, number), at, nodes.clock, step), row)


def edge_stepped(nodes, number, edge, call):
    new = edge_step(place_of(nodes, number), nodes.clock, edge, call)
    if new is None:
        return None
    puts = bgp_puts(place_of(nodes, number), edge.control, new.edge.control) + puts_of(nodes, number, new.row)
    return Stepped(with_node(nodes, number, new.edge), puts)


def core_stepped(nodes, number, part, call):
    new = label_step(label_place(nodes.scenario, core_at(nodes, number), number), nodes.clock, part, call)
    return None if new is None else Stepped(with_node(nodes, number, new.part), puts_of(nodes, number, (LabelStep(part, call, new),)))


def node_called(nodes, number, call):
    state = nodes.node[number]
    if isinstance(state, EdgeData):
        return edge_stepped(nodes, number, state, call)
    own = own_label_call(call)
    return Stepped(nodes, ()) if own is None else core_stepped(nodes, number, state, own)


def call_of(sender, message):
    return ('update' if isinstance(message, (Update, Other)) else 'label', sender, message)


def nodes_called(call, nodes):
    """Calls are 'own' node call, 'elapse' ticks, 'reset' node, 'set cost' a b cost, and 'reroute' node."""
    match call:
        case ('own', number, own):
            return node_called(nodes, number, own)
        case ('elapse', ticks):
            return Stepped(replace(nodes, clock=nodes.clock + ticks), ())
        case ('reset', number):
            return Stepped(with_node(nodes, number, fresh_node(nodes.scenario, number)), ())
        case ('set cost', a, b, cost):
            return Stepped(replace(nodes, links=with_cost(a, b, cost, nodes.links)), ())
        case ('reroute', number):
            return node_called(replace(nodes, known=nodes.known[:number] + (nodes.links,) + nodes.known[number + 1:]), number, ('rerouted',))


SYSTEM = System(lambda direction, message, nodes: node_called(nodes, direction.end, call_of(direction.start, message)), nodes_called)
