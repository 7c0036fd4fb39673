"""Where a datagram goes that enters at a VRF, or that arrives at an edge under a label; and how many timers of an edge are due
(edge_defs: Datagrams, Due)."""

from dataclasses import dataclass

from . import labels, pim
from .base import flat_map, slice_get
from .flows import asking_ifaces, upstream_for
from .labels import Mapped, same_fec, use_of
from .place import Remote, Site, addr_of, label_place, own_vrfs
from .routes import imported_inclusive, imported_selective
from .scenario import is_of_site
from .tunnels import is_joined_in, transmit_tunnel


@dataclass(frozen=True)
class Fate:
    """The interfaces at which a datagram leaves, and the branches on which a copy is put."""

    outs: tuple = ()
    branches: tuple = ()


DISCARDED = Fate()


def branches_of(part, fec):
    return tuple(branch for branch in part.branches.items if same_fec(branch.fec, fec))


# ---- a datagram that enters

def is_from_site(site, upstream):
    return isinstance(upstream, Site) and upstream.site == site


def is_from_edge(edge, upstream):
    return isinstance(upstream, Remote) and upstream.edge == edge


def is_outside(scenario, site, iface):
    found = slice_get(scenario.ifaces, iface)
    return found is not None and not is_of_site(site, found)


def entering_fate(place, now, edge, own, site, source, group):
    if not is_from_site(site, upstream_for(place, edge.control, own, source, group)):
        return DISCARDED
    outs = tuple(iface for iface in asking_ifaces(place, now, edge.control, own, source, group) if is_outside(place.scenario, site, iface))
    is_sent_on = is_joined_in(place, edge.control, own, source, group)
    return Fate(outs, branches_of(edge.part, transmit_tunnel(place, edge.control, own, source, group)) if is_sent_on else ())


# ---- a datagram that arrives

def is_tunnel(fec, own):
    return own is not None and same_fec(own, fec)


def selective_fec(imported):
    return None if imported is None else imported.fec


def is_route_of(place, own, peer, fec, entry):
    address = addr_of(place.scenario, peer)
    return is_tunnel(fec, imported_inclusive(own.vrf, address, entry)) or is_tunnel(fec, selective_fec(imported_selective(own.vrf, address, entry)))


def is_imported_from(place, own, fec, peer, taken):
    return any(is_route_of(place, own, peer, fec, entry) for entry in taken.entries)


def outs_from(place, now, control, own, fec, source, group, peer, taken):
    """Delivered at a VRF that imports a route of the tunnel, where its upstream for the source is the tunnel's root."""
    if is_imported_from(place, own, fec, peer, taken) and is_from_edge(peer, upstream_for(place, control, own, source, group)):
        return asking_ifaces(place, now, control, own, source, group)
    return ()


def outs_at(place, now, control, fec, source, group, own):
    return flat_map(lambda peer: outs_from(place, now, control, own, fec, source, group, *peer), control.peers.entries)


def outs_of(place, now, edge, fec, source, group):
    if not edge.part.leaves.contains(fec):
        return ()
    return flat_map(lambda own: outs_at(place, now, edge.control, fec, source, group, own), own_vrfs(place))


def tree_of(sender, usage):
    """The tree to which a label is mapped towards the neighbour that a copy came from."""
    return usage.fec if isinstance(usage, Mapped) and usage.upstream == sender else None


def arriving_fate(place, now, edge, sender, label, source, group):
    fec = tree_of(sender, use_of(edge.part, label))
    if fec is None:
        return DISCARDED
    return Fate(outs_of(place, now, edge, fec, source, group), branches_of(edge.part, fec))


# ---- timers that are due

def is_selection_due(delay, now, selected):
    return not selected.run and selected.since + delay <= now


def due_delays(place, now, peer, entry):
    """The delays of a selective route that are due: one for each VRF that imports it."""
    if entry[1].run or entry[1].since + place.scenario.delay > now:
        return 0
    return sum(imported_selective(own.vrf, addr_of(place.scenario, peer), entry) is not None for own in own_vrfs(place))


def due_from(place, now, peer, taken):
    return sum(due_delays(place, now, peer, entry) for entry in taken.entries)


def due(place, now, edge):
    control = edge.control
    return (labels.due(label_place(place.scenario, place.core, place.me), now, edge.part) + pim.due(control.entries, now)
            + sum(is_selection_due(place.scenario.delay, now, selected) for selected in control.selections.values())
            + sum(due_from(place, now, peer, taken) for peer, taken in control.peers.entries))
