"""Scenarios (scenario_defs: Vpn, Home), the sessions of a network (mvpn_model: Sessions), and its core (mv_base/core_walks)."""

import functools
from dataclasses import dataclass, replace

from .base import Prefix, flat_map, slice_get


@dataclass(frozen=True)
class Node:
    name: str
    addr: object
    edge: bool


@dataclass(frozen=True)
class Link:
    a: int
    b: int
    cost: int


@dataclass(frozen=True)
class Vrf:
    name: str
    edge: int
    number: int
    rd: tuple
    targets: tuple
    rule: str


@dataclass(frozen=True)
class Site:
    name: str
    prefixes: tuple


@dataclass(frozen=True)
class Iface:
    name: str
    vrf: int
    site: int
    addr: object


@dataclass(frozen=True)
class Scenario:
    life: int
    delay: int
    labels: int
    system: int
    nodes: tuple
    links: tuple
    vrfs: tuple
    sites: tuple
    ifaces: tuple


# ---- VPNs

def is_of_site(site, iface):
    return iface.site == site


def is_of_vrf(vrf, iface):
    return iface.vrf == vrf


def is_attached_at(scenario, vrf, site):
    return any(is_of_site(site, iface) and is_of_vrf(vrf, iface) for iface in scenario.ifaces)


def edge_of(scenario, iface):
    """The edge of an interface's VRF."""
    found = slice_get(scenario.ifaces, iface)
    vrf = None if found is None else slice_get(scenario.vrfs, found.vrf)
    return None if vrf is None else vrf.edge


def ifaces_where(test, scenario):
    return tuple(number for number, iface in enumerate(scenario.ifaces) if test(number, iface))


def entered(scenario, site):
    """The VRFs at which a datagram of the site enters."""
    return tuple(vrf for vrf in range(len(scenario.vrfs)) if is_attached_at(scenario, vrf, site))


# ---- local routes

@dataclass(frozen=True)
class Route:
    prefix: Prefix
    site: int


def local_routes(scenario, vrf):
    """Each prefix of each site that is attached at the VRF itself."""
    sites = [number for number in range(len(scenario.sites)) if is_attached_at(scenario, vrf, number)]
    return flat_map(lambda number: [Route(prefix, number) for prefix in scenario.sites[number].prefixes], sites)


# ---- sessions

@dataclass(frozen=True)
class Session:
    kind: str
    a: int
    b: int


def edges(scenario):
    return tuple(number for number, node in enumerate(scenario.nodes) if node.edge)


def bgp_sessions(ends):
    if not ends:
        return ()
    a, later = ends[0], ends[1:]
    return tuple(Session('bgp', a, b) for b in later) + bgp_sessions(later)


def sessions(scenario):
    """First those over BGP, for each two of the edges, and then one over LDP for each link."""
    return bgp_sessions(edges(scenario)) + tuple(Session('ldp', link.a, link.b) for link in scenario.links)


# ---- the core

@dataclass(frozen=True)
class Core:
    """The least cost of a walk between two nodes, and the lowest first step of such a walk."""

    costs: dict
    firsts: dict

    def cost(self, start, end):
        return self.costs[start, end]

    def toward(self, start, end):
        return self.firsts.get((start, end))


def with_cost(a, b, cost, links):
    """The links, that between the two nodes at that cost."""
    return tuple(replace(link, cost=cost) if (link.a, link.b) in ((a, b), (b, a)) else link for link in links)


def steps_from(links, node):
    """The neighbours of a node, each with the cost of the link to it."""
    return [(link.b, link.cost) for link in links if link.a == node] + [(link.a, link.cost) for link in links if link.b == node]


def least_costs(count, links, end):
    """The least cost of a walk from each node to that end: as many rounds as there are nodes, each with one more link."""
    found = {end: 0}
    for _ in range(count):
        longer = dict(found)
        for node in range(count):
            for other, cost in steps_from(links, node):
                if other in found:
                    longer[node] = min(longer.get(node, cost + found[other]), cost + found[other])
        found = longer
    return found


@functools.lru_cache(maxsize=64)
def core_of(count, links):
    """The core of so many nodes and these links at their costs."""
    costs, firsts = {}, {}
    for end in range(count):
        least = least_costs(count, links, end)
        for node, cost in least.items():
            costs[node, end] = cost
            if node != end:
                firsts[node, end] = min(other for other, first in steps_from(links, node) if other in least and first + least[other] == cost)
    return Core(costs, firsts)
