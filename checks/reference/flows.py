"""The upstream that a VRF chooses for a source, and the flows of an edge's VRFs (choice_defs: Choice; edge_defs: Upstream,
Flows)."""

from dataclasses import dataclass

from .base import Prefix, addr_octets, addr_part, covers, flat_map, found_in, from_entries, same_addr
from .octets import Unicast
from .pim import asks
from .place import Remote, Site, VrfFlow, addr_of, flow_key, own_vrfs
from .routes import FlowRoute, imported_active, is_admitted, is_iface_of, join_by, notes_of, taken_from
from .scenario import ifaces_where, is_of_vrf, local_routes
from .script import Source

# ---- the choice


@dataclass(frozen=True)
class LocalOrigin:
    site: int


@dataclass(frozen=True)
class RemoteOrigin:
    edge: int
    address: object
    rd: tuple


@dataclass(frozen=True)
class KnownRoute:
    prefix: Prefix
    origin: object


def hash_of(source, group):
    """The exclusive or of all octets of a flow's source and group."""
    found = 0
    for octet in addr_octets(source) + addr_octets(group):
        found ^= octet
    return found


def candidate_edges(routes, source):
    """The edges of the longest routes that cover the source, each once, by rising address."""
    covering = [route for route in routes if covers(route.prefix, source)]
    longest = max((route.prefix.bits for route in covering), default=0)
    origins = [route.origin for route in covering if route.prefix.bits == longest and isinstance(route.origin, RemoteOrigin)]
    return [edge for _, edge in sorted({(addr_part(origin.address), origin.edge) for origin in origins})]


def hashed_edge(routes, source, group):
    edges = candidate_edges(routes, source)
    return edges[hash_of(source, group) % len(edges)] if edges else None


def cost_by(rule, cost, routes, source, group):
    """What a rule compares before addresses: the cost by `nearest`; by `hash` whether it is the edge that the hash names."""
    match rule:
        case 'nearest':
            return cost
        case 'hash':
            chosen = hashed_edge(routes, source, group)
            return lambda edge: 0 if edge == chosen else 1
        case _:
            return lambda edge: 0


def negated(parts):
    """Octets whose order is turned around: both have one length."""
    return tuple(-part for part in parts)


def route_rank(cost, route):
    """Better routes have lower ranks (route_cmp): longer prefixes first; local origins before remote ones; then the least cost,
    the highest address, and the least route distinguisher."""
    match route.origin:
        case LocalOrigin(_):
            return (-route.prefix.bits, 0)
        case RemoteOrigin(edge, address, rd):
            return (-route.prefix.bits, 1, cost(edge), negated(addr_part(address)), rd)


def is_better(cost, route, other):
    return route_rank(cost, route) < route_rank(cost, other)


def best_route(cost, routes, source):
    """The best one of the routes that cover the source, and the first one of those that are equally good."""
    best = None
    for route in reversed(routes):
        if covers(route.prefix, source) and (best is None or not is_better(cost, best, route)):
            best = route
    return best


# ---- the upstream of a VRF

def known_route(place, vrf, peer, entry):
    key, taken = entry
    if not isinstance(key, Unicast) or not is_admitted(vrf, taken.value.comms):
        return None
    address = addr_of(place.scenario, peer)
    return None if join_by(address, taken.value) is None else KnownRoute(key.prefix, RemoteOrigin(peer, address, key.rd))


def known_from(place, vrf, peer, taken):
    return found_in(lambda entry: known_route(place, vrf, peer, entry), taken.entries)


def known_routes(place, control, own):
    local = tuple(KnownRoute(route.prefix, LocalOrigin(route.site)) for route in local_routes(place.scenario, own.id))
    return local + flat_map(lambda peer: known_from(place, own.vrf, *peer), control.peers.entries)


def upstream_by(control, route):
    match route.origin:
        case LocalOrigin(site):
            return Site(site)
        case RemoteOrigin(edge, address, rd):
            taken = taken_from(control, edge).get(Unicast(rd, route.prefix))
            by = None if taken is None else join_by(address, taken.value)
            return None if by is None else Remote(edge, rd, by.route_import, by.source_as)


def upstream_for(place, control, own, source, group):
    routes = known_routes(place, control, own)
    cost = cost_by(own.vrf.rule, lambda edge: place.core.cost(place.me, edge), routes, source, group)
    route = best_route(cost, routes, source)
    return None if route is None else upstream_by(control, route)


# ---- sources that are known to send

def active_flows(place, control, own):
    noted = tuple(FlowRoute(note.source, note.group) for note in notes_of(place, control, own.id))
    return noted + flat_map(lambda peer: found_in(lambda entry: imported_active(own.vrf, entry), peer[1].entries), control.peers.entries)


def same_flow(source, group, flow):
    return same_addr(flow.source, source) and same_addr(flow.group, group)


def is_active(place, control, own, source, group):
    return any(same_flow(source, group, flow) for flow in active_flows(place, control, own))


# ---- what interfaces ask for

def is_asking(place, now, control, own, source, group, iface):
    return asks(control.entries, iface, source, group, is_active(place, control, own, source, group), now)


def ifaces_of(place, own):
    return ifaces_where(lambda number, iface: is_of_vrf(own.id, iface), place.scenario)


def asking_ifaces(place, now, control, own, source, group):
    return tuple(iface for iface in ifaces_of(place, own) if is_asking(place, now, control, own, source, group, iface))


def is_flow(place, now, control, own, flow):
    return any(is_asking(place, now, control, own, flow.source, flow.group, iface) for iface in ifaces_of(place, own))


# ---- flows

def joined_by(place, own, at):
    """The (S,G) that an entry joins itself."""
    match at.entry:
        case Source(source, group) if is_iface_of(place.scenario, own.id, at.iface):
            return FlowRoute(source, group)
        case _:
            return None


def possible_flows(place, control, own):
    return found_in(lambda at: joined_by(place, own, at), control.entries.keys()) + active_flows(place, control, own)


def with_upstream(place, control, own, flow):
    return (VrfFlow(own.id, flow.source, flow.group), upstream_for(place, control, own, flow.source, flow.group))


def vrf_flows(place, now, control, own):
    return tuple(with_upstream(place, control, own, flow) for flow in possible_flows(place, control, own) if is_flow(place, now, control, own, flow))


def flows_at(place, now, control):
    return from_entries(flow_key, flat_map(lambda own: vrf_flows(place, now, control, own), own_vrfs(place)))
