"""What the events of a past alone say of customers and sessions, and what is promised of a report (mvpn_model: Past, Unready,
Safe, Once). A past is a list of `Step`s: an event that was not refused, and the clock at it."""

from dataclasses import dataclass

from . import report
from .base import FinMap, covers, flat_map
from .pim import IfaceEntry, applied, asks_by, entry_key, kept_at, message_of
from .scenario import edge_of, is_attached_at, sessions
from .script import Rpt, Source, Star


@dataclass(frozen=True)
class Step:
    event: object
    clock: int


# ---- VPNs and homes

def vpn_of(scenario, vrf):
    return frozenset(scenario.vrfs[vrf].targets)


def vpn_of_iface(scenario, iface):
    return vpn_of(scenario, scenario.ifaces[iface].vrf)


def vpns_of_site(scenario, site):
    return {vpn_of_iface(scenario, number) for number, iface in enumerate(scenario.ifaces) if iface.site == site}


def home(scenario, vpn, source):
    """The site with the longest prefix that covers the source, of the sites that are attached to the VPN."""
    vrfs = [number for number in range(len(scenario.vrfs)) if vpn_of(scenario, number) == vpn]
    attached = [site for site in range(len(scenario.sites)) if any(is_attached_at(scenario, vrf, site) for vrf in vrfs)]
    found = [(prefix.bits, site) for site in attached for prefix in scenario.sites[site].prefixes if covers(prefix, source)]
    return max(found)[1] if found else None


# ---- joined state, active sources, receivers

def entries_behind(scenario, past):
    """The entries of all interfaces, as a fold over the events: messages change them, timers end those that expired, and a restart
    of an interface's edge ends its own."""
    entries = FinMap(entry_key)
    for step in past:
        match step.event.word:
            case 'join' | 'prune' | 'pim':
                given = message_of(scenario, step.event)
                entries = applied(entries, given.iface, given.message, step.clock)
            case 'restart':
                entries = entries.retain_keys(lambda at: edge_of(scenario, at.iface) != step.event.a)
    return entries


def active_behind(scenario, past):
    """The interface, source and group of each `active` that no `idle` and no restart of its edge has ended."""
    noted = set()
    for step in past:
        event = step.event
        match event.word:
            case 'active':
                noted.add((event.iface, event.source, event.group))
            case 'idle':
                noted.discard((event.iface, event.source, event.group))
            case 'restart':
                noted = {note for note in noted if edge_of(scenario, note[0]) != event.a}
    return noted


def receivers(scenario, past, clock, site, source, group):
    """All interfaces of the VPN that belong to another site and ask for the flow, where the site is the home of its source."""
    vpns = vpns_of_site(scenario, site)
    if not vpns:
        return ()
    vpn = next(iter(vpns))
    if home(scenario, vpn, source) != site:
        return ()
    entries = entries_behind(scenario, past)
    noted = active_behind(scenario, past)
    is_active = any(vpn_of_iface(scenario, iface) == vpn and (own, to) == (source, group) for iface, own, to in noted)

    def is_receiver(number, iface):
        expiries = [entries.get(IfaceEntry(number, entry)) for entry in (Source(source, group), Star(group), Rpt(source, group))]
        return vpn_of(scenario, iface.vrf) == vpn and iface.site != site and asks_by(clock, is_active, *expiries)

    return tuple(number for number, iface in enumerate(scenario.ifaces) if is_receiver(number, iface))


# ---- sessions

class Sessions:
    """Which sessions are joined, which ends are up since when, and whether their holds were run, by the events alone."""

    def __init__(self, scenario):
        self.scenario = scenario
        self.all = sessions(scenario)
        self.joined = set()
        self.ends = {}
        self.clock = 0

    def raised(self, session):
        self.joined.add(session)
        self.ends[session, session.a] = self.ends[session, session.b] = (self.clock, False)

    def timed(self, node):
        for (session, end), (since, run) in list(self.ends.items()):
            if end == node:
                self.ends[session, end] = (since, run or since + self.scenario.life + 1 <= self.clock)

    def named(self, event):
        return next(one for one in self.all if one.kind == event.kind and {one.a, one.b} == {event.a, event.b})

    def happen(self, event):
        match event.word:
            case 'tick':
                self.clock += event.count
            case 'timers':
                self.timed(event.a)
            case 'settle':
                for node in range(len(self.scenario.nodes)):
                    self.timed(node)
            case 'raise':
                self.raised(self.named(event))
            case 'lose':
                self.joined.discard(self.named(event))
            case 'notice':
                self.ends.pop((self.named(event), event.a), None)
            case 'heal':
                for session in self.all:
                    if session not in self.joined:
                        self.raised(session)
            case 'restart':
                self.joined = {one for one in self.joined if event.a not in (one.a, one.b)}
                self.ends = {at: end for at, end in self.ends.items() if at[1] != event.a}

    def is_ready(self, session):
        if session not in self.joined:
            return False
        return session.kind == 'bgp' or all(self.ends[session, end][1] for end in (session.a, session.b))

    def unready(self):
        return sum(not self.is_ready(session) for session in self.all)


# ---- promises of a report: its lines, each with the place of its event in the script

def is_calm(line):
    return line == report.State(0, 0, 0, 0, 0)


def unsafe_lines(script, lines, datagrams):
    """The `out` lines that name no earlier datagram, or other octets than its own, or an interface of another VPN."""
    scenario, wrong = script.scenario, []
    for place, line in lines:
        if not isinstance(line, report.Out):
            continue
        sent = datagrams.get(line.number)
        is_safe = (
            sent is not None and sent.event <= place and sent.octets == line.octets
            and vpns_of_site(scenario, sent.site) == {vpn_of_iface(scenario, line.iface)})
        if not is_safe:
            wrong.append((place, line))
    return wrong


QUIET = ('send', 'packet', 'hop', 'drain', 'state')


def windows(script, lines, refused):
    """The windows: from right after a calm line to a `drain`, or a `state` whose copies are 0; all events in it that were not
    refused send, land or report. Each is a pair of places in the script, without the first and with the last."""
    reported = {place: line for place, line in lines if isinstance(line, report.State)}
    found = []
    for first, line in reported.items():
        if not is_calm(line):
            continue
        for last in range(first + 1, len(script.events)):
            word = script.events[last].event.word
            if last not in refused and word not in QUIET:
                break
            if word == 'drain' or (last in reported and reported[last].copies == 0):
                found.append((first, last))
    return found


def not_once(script, lines, refused, datagrams, wanted):
    """The datagrams of windows whose `out` lines do not name exactly their receivers, each once."""
    outs = {}
    for _, line in lines:
        if isinstance(line, report.Out):
            outs.setdefault(line.number, []).append(line.iface)
    ways = windows(script, lines, refused)
    wrong, judged = [], 0
    for number, sent in datagrams.items():
        if any(first < sent.event <= last for first, last in ways):
            judged += 1
            if sorted(outs.get(number, [])) != sorted(wanted[number]):
                wrong.append((number, sent, outs.get(number, []), wanted[number]))
    return wrong, judged
