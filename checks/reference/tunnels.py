"""The tunnels that an edge transmits on, and those of which it is a leaf (selective_defs: Selective; edge_defs: Tunnels)."""

from dataclasses import dataclass

from .base import FinSet, Pattern, flat_map, found_in, rank, same_addr
from .flows import same_flow
from .labels import fec_key
from .octets import Fec
from .place import Remote, addr_of, lsp, own_addr, own_vrfs, tunnel_number
from .routes import imported_inclusive, imported_join, imported_selective, taken_from

# ---- patterns


@dataclass(frozen=True)
class Selection:
    pattern: Pattern
    number: int
    since: int
    run: bool


@dataclass(frozen=True)
class LearnedRoute:
    pattern: Pattern
    fec: Fec
    since: int
    run: bool


def allows(word, addr):
    return word is None or same_addr(word, addr)


def matches(pattern, source, group):
    return allows(pattern.source, source) and allows(pattern.group, group)


def is_ready(source, group, selection):
    return selection.run and matches(selection.pattern, source, group)


def transmitted(selections, source, group):
    """The selection on whose tunnel a root transmits the flow; None for the inclusive tunnel."""
    chosen = None
    for selection in reversed(selections):
        if is_ready(source, group, selection) and (chosen is None or not rank(selection.pattern) < rank(chosen.pattern)):
            chosen = selection
    return chosen


def overtakes(source, group, route, other):
    return other.run and matches(other.pattern, source, group) and rank(route.pattern) < rank(other.pattern)


def is_wanted(routes, source, group, route):
    return matches(route.pattern, source, group) and not any(overtakes(source, group, route, other) for other in routes)


def wanted(routes, source, group):
    return tuple(route for route in routes if is_wanted(routes, source, group, route))


# ---- at a root

def selections_of(control, vrf):
    return tuple(Selection(at.pattern, selected.number, selected.since, selected.run) for at, selected in control.selections.entries if at.vrf == vrf)


def number_by(selection):
    return 0 if selection is None else selection.number


def transmit_tunnel(place, control, own, source, group):
    return lsp(own_addr(place), tunnel_number(own.vrf, number_by(transmitted(selections_of(control, own.id), source, group))))


def is_joined_by(place, own, source, group, taken):
    return any(same_flow(source, group, flow) for flow in found_in(lambda entry: imported_join(place, own.vrf, entry), taken.entries))


def is_joined_in(place, control, own, source, group):
    """Whether another edge has joined (S,G) at the VRF."""
    return any(is_joined_by(place, own, source, group, taken) for taken in control.peers.values())


# ---- at an egress

def learned_route(place, own, peer, entry):
    imported = imported_selective(own.vrf, addr_of(place.scenario, peer), entry)
    if imported is None:
        return None
    return LearnedRoute(Pattern(imported.route.source, imported.route.group), imported.fec, entry[1].since, entry[1].run)


def learned_routes(place, control, own, peer):
    return found_in(lambda entry: learned_route(place, own, peer, entry), taken_from(control, peer).entries)


def inclusive_tunnels(place, own, peer, taken):
    return found_in(lambda entry: imported_inclusive(own.vrf, addr_of(place.scenario, peer), entry), taken.entries)


def flow_tunnels(place, control, own, flow, upstream):
    """The selective tunnels that a flow of the VRF wants: those of its upstream alone."""
    if not isinstance(upstream, Remote):
        return ()
    return tuple(route.fec for route in wanted(learned_routes(place, control, own, upstream.edge), flow.source, flow.group))


def flows_of(control, vrf):
    return tuple(entry for entry in control.flows.entries if entry[0].vrf == vrf)


def tunnels_of(place, control, own):
    inclusive = flat_map(lambda peer: inclusive_tunnels(place, own, *peer), control.peers.entries)
    return inclusive + flat_map(lambda flow: flow_tunnels(place, control, own, *flow), flows_of(control, own.id))


def leaves(place, control):
    return FinSet(fec_key, flat_map(lambda own: tunnels_of(place, control, own), own_vrfs(place)))
