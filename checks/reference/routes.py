"""The routes that an edge originates, and what a VRF makes of those that are taken (edge_defs: Originated, Imported)."""

from dataclasses import dataclass, replace

from .base import V4, FinMap, addr_octets, flat_map, found_in, from_be_bytes, same_addr, slice_get, to_be_bytes
from .octets import Active, Intra, Mcast, Mldp, Pmsi, Selective, SourceJoin, Unicast
from .place import Import, Value, afi_of, is_lsp_opaque, key_parts, lsp, own_addr, own_vrfs, tunnel_number
from .scenario import is_of_vrf, local_routes

# ---- communities


def import_comm(named):
    return (0x01, 0x0B) + addr_octets(named.addr) + to_be_bytes(2, named.number)


def source_as_comm(number):
    return (0x00, 0x09) + to_be_bytes(2, number) + (0, 0, 0, 0)


def import_target(named):
    return (0x01, 0x02) + addr_octets(named.addr) + to_be_bytes(2, named.number)


def own_import(place, vrf):
    return Import(own_addr(place), vrf.number)


# ---- keys and values

def afi_by(source, group):
    if source is not None:
        return afi_of(source)
    return 1 if group is None else afi_of(group)


def inclusive_key(place, vrf):
    return Mcast(1, Intra(vrf.rd, own_addr(place)))


def selective_key(place, vrf, pattern):
    return Mcast(afi_by(pattern.source, pattern.group), Selective(vrf.rd, pattern.source, pattern.group, own_addr(place)))


def active_key(vrf, source, group):
    return Mcast(afi_of(source), Active(vrf.rd, source, group))


def plain_value(place, vrf):
    return Value(own_addr(place), vrf.targets, None)


def unicast_value(place, vrf):
    return replace(plain_value(place, vrf), comms=vrf.targets + (import_comm(own_import(place, vrf)), source_as_comm(place.scenario.system)))


def tunnel_value(place, vrf, number):
    return replace(plain_value(place, vrf), pmsi=Pmsi(False, Mldp(lsp(own_addr(place), number)), None))


# ---- the routes that an edge originates

def inclusive_route(place, own):
    return (inclusive_key(place, own.vrf), tunnel_value(place, own.vrf, tunnel_number(own.vrf, 0)))


def unicast_routes(place, own):
    return tuple((Unicast(own.vrf.rd, route.prefix), unicast_value(place, own.vrf)) for route in local_routes(place.scenario, own.id))


def is_iface_of(scenario, vrf, iface):
    found = slice_get(scenario.ifaces, iface)
    return found is not None and is_of_vrf(vrf, found)


def notes_of(place, control, vrf):
    return tuple(note for note in control.notes.items if is_iface_of(place.scenario, vrf, note.iface))


def active_routes(place, control, own):
    return tuple((active_key(own.vrf, note.source, note.group), plain_value(place, own.vrf)) for note in notes_of(place, control, own.id))


def selective_routes(place, control, own):
    return tuple(
        (selective_key(place, own.vrf, at.pattern), tunnel_value(place, own.vrf, tunnel_number(own.vrf, selected.number)))
        for at, selected in control.selections.entries if at.vrf == own.id)


def routes_of(place, control, own):
    return (inclusive_route(place, own),) + unicast_routes(place, own) + selective_routes(place, control, own) + active_routes(place, control, own)


def originated(place, control):
    return flat_map(lambda own: routes_of(place, control, own), own_vrfs(place))


# ---- communities of routes that are taken

def is_admitted(vrf, comms):
    return any(comm in vrf.targets for comm in comms)


def has_comm(wanted, comms):
    return any(comm == wanted for comm in comms)


def import_in(comm):
    return Import(V4(comm[2:6]), from_be_bytes(comm[6:])) if comm[:2] == (0x01, 0x0B) else None


def source_as_in(comm):
    return from_be_bytes(comm[2:4]) if comm[:2] == (0x00, 0x09) and comm[4:] == (0, 0, 0, 0) else None


def only_one(items):
    return items[0] if len(items) == 1 else None


# ---- which routes are used

@dataclass(frozen=True)
class JoinBy:
    route_import: Import
    source_as: int


def join_by(peer, value):
    """What a unicast route says for a Source Tree Join, where it is used."""
    named, source_as = only_one(found_in(import_in, value.comms)), only_one(found_in(source_as_in, value.comms))
    if named is None or source_as is None:
        return None
    return JoinBy(named, source_as) if same_addr(named.addr, peer) and same_addr(value.next_hop, peer) else None


def lsp_of(pmsi):
    if pmsi is None or not isinstance(pmsi.tunnel, Mldp):
        return None
    fec = pmsi.tunnel.fec
    return fec if fec.kind == 'p2mp' and is_lsp_opaque(fec.opaque) else None


def tunnel_by(peer, originator, value):
    fec = lsp_of(value.pmsi)
    return fec if fec is not None and same_addr(fec.root, peer) and same_addr(originator, peer) else None


def inclusive_of(key):
    match key:
        case Mcast(1, Intra(_, originator)):
            return originator
        case _:
            return None


def is_passed_over(afi, source, group):
    return afi == 2 and source is None and group is None


def selective_of(key):
    match key:
        case Mcast(afi, Selective(_, source, group, _) as route) if not is_passed_over(afi, source, group):
            return route
        case _:
            return None


@dataclass(frozen=True)
class FlowRoute:
    source: object
    group: object


def active_of(key):
    match key:
        case Mcast(_, Active(_, source, group)):
            return FlowRoute(source, group)
        case _:
            return None


# ---- what a VRF uses

def taken_from(control, peer):
    taken = control.peers.get(peer)
    return FinMap(key_parts) if taken is None else taken


def imported_inclusive(vrf, peer, entry):
    key, taken = entry
    originator = inclusive_of(key)
    return tunnel_by(peer, originator, taken.value) if originator is not None and is_admitted(vrf, taken.value.comms) else None


@dataclass(frozen=True)
class ImportedSelective:
    route: Selective
    fec: object


def imported_selective(vrf, peer, entry):
    key, taken = entry
    route = selective_of(key)
    if route is None or not is_admitted(vrf, taken.value.comms):
        return None
    fec = tunnel_by(peer, route.originator, taken.value)
    return None if fec is None else ImportedSelective(route, fec)


def imported_active(vrf, entry):
    key, taken = entry
    return active_of(key) if is_admitted(vrf, taken.value.comms) else None


def imported_join(place, vrf, entry):
    key, taken = entry
    match key:
        case Mcast(_, SourceJoin(rd, source_as, source, group)):
            is_own = rd == vrf.rd and source_as == place.scenario.system and has_comm(import_target(own_import(place, vrf)), taken.value.comms)
            return FlowRoute(source, group) if is_own else None
        case _:
            return None
