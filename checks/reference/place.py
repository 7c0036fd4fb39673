"""The keys and values of routes, the place of an edge, and an edge as plain data (edge_defs: Keys, Place, Edge)."""

from dataclasses import dataclass

from . import labels
from .base import FinMap, FinSet, V4, addr_part, position, same_addr, slice_get, to_be_bytes, word_part
from .octets import Active, Fec, Intra, Mcast, Selective, SourceJoin, route_written, vpn_text
from .pim import entry_key
from .scenario import Core, Scenario, Vrf

# ---- the order of keys

def afi_of(addr):
    return 1 if isinstance(addr, V4) else 2


def route_parts(route):
    match route:
        case Intra(rd, originator):
            return ((1,), rd, addr_part(originator))
        case Selective(rd, source, group, originator):
            return ((3,), rd, word_part(source), word_part(group), addr_part(originator))
        case Active(rd, source, group):
            return ((5,), rd, addr_part(source), addr_part(group))
        case SourceJoin(rd, source_as, source, group):
            return ((7, source_as), rd, addr_part(source), addr_part(group))


def key_parts(key):
    """Unicast keys before multicast keys, those of AFI 1 before those of AFI 2, and then the octets that spell them."""
    if isinstance(key, Mcast):
        return ((1, key.afi), route_written(key.route)) + route_parts(key.route)
    return ((0, afi_of(key.prefix.addr)), vpn_text((), key.rd, key.prefix), key.rd, addr_part(key.prefix.addr), (key.prefix.bits,))


@dataclass(frozen=True)
class Value:
    """What a route says besides its key."""

    next_hop: object
    comms: tuple
    pmsi: object


def same_value(a, b):
    return a == b


# ---- places

@dataclass(frozen=True)
class EdgePlace:
    scenario: Scenario
    core: Core
    me: int


def addr_of(scenario, node):
    found = slice_get(scenario.nodes, node)
    return V4(()) if found is None else found.addr


def node_with(scenario, addr):
    return position(lambda node: same_addr(node.addr, addr), scenario.nodes)


@dataclass(frozen=True)
class OwnVrf:
    id: int
    vrf: Vrf


def own_vrfs(place):
    return tuple(OwnVrf(number, vrf) for number, vrf in enumerate(place.scenario.vrfs) if vrf.edge == place.me)


def own_addr(place):
    return addr_of(place.scenario, place.me)


def lsp_opaque(number):
    return (1, 0, 4) + to_be_bytes(4, number)


def is_lsp_opaque(opaque):
    return opaque[:3] == (1, 0, 4) and len(opaque) == 7


def lsp(root, number):
    return Fec('p2mp', root, lsp_opaque(number))


def tunnel_number(vrf, number):
    return vrf.number * 1048576 + number


def is_tree(scenario, fec):
    return fec.kind == 'p2mp' and any(same_addr(node.addr, fec.root) for node in scenario.nodes)


def upstream(scenario, core, node, fec):
    root = node_with(scenario, fec.root)
    return None if root is None else core.toward(node, root)


def label_place(scenario, core, node):
    return labels.Place(scenario.life, lambda fec: is_tree(scenario, fec), lambda fec: upstream(scenario, core, node, fec))


# ---- what an edge keeps

@dataclass(frozen=True)
class Note:
    iface: int
    source: object
    group: object


def note_key(note):
    return ((note.iface,), addr_part(note.source), addr_part(note.group))


@dataclass(frozen=True)
class VrfPattern:
    vrf: int
    pattern: object


def pattern_key(at):
    return ((at.vrf,), word_part(at.pattern.source), word_part(at.pattern.group))


@dataclass(frozen=True)
class VrfFlow:
    vrf: int
    source: object
    group: object


def flow_key(flow):
    return ((flow.vrf,), addr_part(flow.source), addr_part(flow.group))


@dataclass(frozen=True)
class Selected:
    number: int
    since: int
    run: bool


@dataclass(frozen=True)
class Import:
    """The VRF at an edge that a VRF Route Import names."""

    addr: object
    number: int


@dataclass(frozen=True)
class Site:
    """An upstream that is a site of the VRF itself."""

    site: int


@dataclass(frozen=True)
class Remote:
    """An upstream that is another edge, by one of its unicast routes."""

    edge: int
    rd: tuple
    route_import: Import
    source_as: int


@dataclass(frozen=True)
class TakenRoute:
    value: Value
    since: int
    run: bool


@dataclass(frozen=True)
class Control:
    entries: FinMap
    notes: FinSet
    selections: FinMap
    flows: FinMap
    peers: FinMap


@dataclass(frozen=True)
class EdgeData:
    control: Control
    part: labels.LabelData


def no_control():
    return Control(FinMap(entry_key), FinSet(note_key), FinMap(pattern_key), FinMap(flow_key), FinMap(labels.node_key))


def fresh(count):
    return EdgeData(no_control(), labels.fresh(count))
