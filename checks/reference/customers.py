"""Which events concern a VPN, and where two reports part for it (customer_laws: Concerns, Reported, Room)."""

from . import report
from .history import vpn_of_iface, vpns_of_site
from .scenario import edge_of


def is_edge_of_vpn(scenario, vpn, node):
    """Some interface of the VPN is one of the node."""
    return any(vpn_of_iface(scenario, iface) == vpn and edge_of(scenario, iface) == node for iface in range(len(scenario.ifaces)))


def concerns(scenario, vpn, event):
    """The event is at an interface of the VPN or at a site that is attached to it, moves the clock, or runs the timers of an edge of
    it or restarts one."""
    match event.word:
        case 'join' | 'prune' | 'pim' | 'active' | 'idle':
            return vpn_of_iface(scenario, event.iface) == vpn
        case 'send' | 'packet':
            return vpn in vpns_of_site(scenario, event.site)
        case 'timers' | 'restart':
            return is_edge_of_vpn(scenario, vpn, event.a)
    return event.word in ('tick', 'settle')


def own_events(scenario, vpn, events, refused):
    """The events that concern the VPN, each with whether it was accepted, and its place."""
    return [(timed.event, place not in refused, place) for place, timed in enumerate(events) if concerns(scenario, vpn, timed.event)]


def outs_of(lines, number):
    return sorted(line.iface for _, line in lines if isinstance(line, report.Out) and line.number == number)
