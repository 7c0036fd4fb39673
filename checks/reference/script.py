"""Events, and scenarios and scripts read from a text, or its first fault (scenario_lines; scenario_text: event_lines)."""

from dataclasses import dataclass

from .base import Pattern
from .lines import TextFault, lines_of, tried
from .scenario import Iface, Link, Node, Scenario, Site, Vrf, least_costs
from .words import addr_in, ipv4_in, is_name, is_unicast, prefixes_in, rd_in, targets_in


@dataclass(frozen=True)
class Event:
    """An event by the first word of its line, with what the other words say."""

    word: str
    kind: str = None
    a: int = None
    b: int = None
    count: int = None
    iface: int = None
    entry: object = None
    site: int = None
    vrf: int = None
    source: object = None
    group: object = None
    octets: tuple = ()


@dataclass(frozen=True)
class Timed:
    line: int
    event: Event


@dataclass(frozen=True)
class Script:
    scenario: Scenario
    events: tuple


# ---- what a join or a prune names

@dataclass(frozen=True)
class Star:
    group: object


@dataclass(frozen=True)
class Source:
    source: object
    group: object


@dataclass(frozen=True)
class Rpt:
    source: object
    group: object


# ---- what the lines so far declared

# the highest value of each setting, and its value where it is not given
SETTINGS = {'life': (1000, 2), 'delay': (1000, 3), 'labels': (65536, 4096), 'as': (65535, 65000)}
RULES = ('highest', 'nearest', 'hash')


def joins(link, a, b):
    return (link.a, link.b) in ((a, b), (b, a))


def same_family(*addrs):
    """Whether those that are no wildcards are of one family."""
    return len({type(addr) for addr in addrs if addr is not None}) <= 1


class Draft:
    """What the lines so far declared, and what one line more says of it."""

    def __init__(self):
        self.settings = {}
        self.nodes, self.links, self.vrfs, self.sites, self.ifaces = [], [], [], [], []
        self.names = {}

    def scenario(self):
        values = [self.settings.get(word, default) for word, (_, default) in SETTINGS.items()]
        return Scenario(*values, tuple(self.nodes), tuple(self.links), tuple(self.vrfs), tuple(self.sites), tuple(self.ifaces))

    # ---- words that declare or name a thing

    def new_name(self, line, place):
        line.must(is_name(line.word(place)), place, 'name')
        line.must(line.word(place) not in self.names, place, 'again')
        return line.word(place)

    def named(self, line, place, things):
        """The number of the thing of that kind, which the word names."""
        found, number = self.names.get(line.word(place), (None, None))
        line.must(found is things, place, 'unknown')
        return number

    def edge_named(self, line, place):
        number = self.named(line, place, self.nodes)
        line.must(self.nodes[number].edge, place, 'unknown')
        return number

    def add(self, things, thing):
        self.names[thing.name] = (things, len(things))
        things.append(thing)

    # ---- lines of the scenario

    def declare(self, line):
        """The line of a scenario; whether it ends it."""
        word = line.word(0)
        if word in SETTINGS:
            self.set(line, word)
        elif word in ('edge', 'core'):
            self.add_node(line, word == 'edge')
        elif word in ('link', 'vrf', 'site', 'iface'):
            getattr(self, f'add_{word}')(line)
        else:
            line.must(word == 'events', 0, 'word')
            line.counted(0)
            if self.is_apart():
                raise TextFault(line.number, 1, 'apart')
        return word == 'events'

    def is_apart(self):
        return len(least_costs(len(self.nodes), tuple(self.links), 0)) < len(self.nodes)

    def set(self, line, word):
        line.counted(1)
        line.must(word not in self.settings, 0, 'again')
        self.settings[word] = line.number_to(1, SETTINGS[word][0])

    def add_node(self, line, is_edge):
        edges = sum(node.edge for node in self.nodes)
        line.must(len(self.nodes) < 64 and not (is_edge and edges >= 32), 0, 'limit')
        line.counted(2)
        name, addr = self.new_name(line, 1), line.read(2, ipv4_in, 'address')
        line.must(is_unicast(addr), 2, 'address')
        line.must(all(node.addr != addr for node in self.nodes), 2, 'again')
        self.add(self.nodes, Node(name, addr, is_edge))

    def add_link(self, line):
        line.must(len(self.links) < 256, 0, 'limit')
        line.counted(3)
        a, b = self.named(line, 1, self.nodes), self.named(line, 2, self.nodes)
        line.must(not any(joins(link, a, b) for link in self.links), 2, 'again')
        cost = line.number_to(3, 65535)
        line.must(a != b, 2, 'self')
        self.links.append(Link(a, b, cost))

    def add_vrf(self, line):
        line.must(len(self.vrfs) < 256, 0, 'limit')
        line.counted(6)
        name, edge = self.new_name(line, 1), self.edge_named(line, 2)
        number = line.number_to(3, 4095)
        beside = [vrf for vrf in self.vrfs if vrf.edge == edge]
        line.must(all(vrf.number != number for vrf in beside), 3, 'again')
        rd = line.read(4, rd_in, 'rd')
        line.must(all(vrf.rd != rd for vrf in beside), 4, 'again')
        targets = line.read(5, targets_in, 'targets')
        line.must(line.word(6) in RULES, 6, 'choice')
        own = set(targets)
        line.must(all(own.isdisjoint(vrf.targets) or own == set(vrf.targets) for vrf in self.vrfs), 5, 'overlap')
        line.must(all(own != set(vrf.targets) for vrf in beside), 5, 'vpn')
        self.add(self.vrfs, Vrf(name, edge, number, rd, targets, line.word(6)))

    def add_site(self, line):
        line.must(len(self.sites) < 512, 0, 'limit')
        line.counted(2)
        name, prefixes = self.new_name(line, 1), line.read(2, prefixes_in, 'prefix')
        self.add(self.sites, Site(name, prefixes))

    def add_iface(self, line):
        line.must(len(self.ifaces) < 1024, 0, 'limit')
        line.counted(4)
        name, vrf, site = self.new_name(line, 1), self.named(line, 2, self.vrfs), self.named(line, 3, self.sites)
        addr = line.read(4, addr_in, 'address')
        targets, prefixes = set(self.vrfs[vrf].targets), set(self.sites[site].prefixes)
        of_vpn = [(iface.site, set(self.vrfs[iface.vrf].targets) == targets) for iface in self.ifaces]
        line.must(all(is_same for other, is_same in of_vpn if other == site), 3, 'mixed')
        taken = [other for other, is_same in of_vpn if other != site and is_same and prefixes & set(self.sites[other].prefixes)]
        line.must(not taken, 3, 'taken')
        self.add(self.ifaces, Iface(name, vrf, site, addr))

    # ---- lines of events

    def event(self, line):
        """The event of a line that has as many words as it may."""
        match line.word(0):
            case 'tick' as word:
                return Event(word, count=line.number_to(1, 1000000))
            case 'timers' | 'restart' as word:
                return Event(word, a=self.named(line, 1, self.nodes))
            case 'move' | 'lose' | 'notice' | 'raise' as word:
                return self.session_event(line, word)
            case 'hop' | 'drop' | 'cost' as word:
                return self.link_event(line, word)
            case 'join' | 'prune' | 'active' | 'idle' as word:
                return self.flow_event(line, word)
            case 'select' | 'unselect' as word:
                return self.select_event(line, word)
            case 'pim' as word:
                return Event(word, iface=self.named(line, 1, self.ifaces), octets=line.payload(2))
            case 'packet' as word:
                return Event(word, site=self.named(line, 1, self.sites), octets=line.payload(2))
            case 'send' as word:
                site, source, group = self.named(line, 1, self.sites), line.source(2), line.group(3)
                octets = line.payload(4)
                line.must(same_family(source, group), 3, 'family')
                return Event(word, site=site, source=source, group=group, octets=octets)
            case word:
                return Event(word)

    def are_linked(self, line, a, b, place):
        line.must(a != b, place, 'self')
        line.must(any(joins(link, a, b) for link in self.links), place, 'link')

    def session_event(self, line, word):
        kind = line.word(1)
        line.must(kind in ('bgp', 'ldp'), 1, 'choice')
        a, b = [self.edge_named(line, place) if kind == 'bgp' else self.named(line, place, self.nodes) for place in (2, 3)]
        count = line.number_to(4, 999999999) if word == 'move' else None
        if kind == 'bgp':
            line.must(a != b, 3, 'self')
        else:
            self.are_linked(line, a, b, 3)
        return Event(word, kind=kind, a=a, b=b, count=count)

    def link_event(self, line, word):
        a, b = self.named(line, 1, self.nodes), self.named(line, 2, self.nodes)
        count = line.number_to(3, 65535 if word == 'cost' else 999999999)
        self.are_linked(line, a, b, 2)
        return Event(word, a=a, b=b, count=count)

    def flow_event(self, line, word):
        iface, is_rpt = self.named(line, 1, self.ifaces), len(line.words) == 5
        is_star = line.word(2) == '*' and word in ('join', 'prune') and not is_rpt
        source, group = None if is_star else line.source(2), line.group(3)
        line.must(not is_rpt or line.word(4) == 'rpt', 4, 'choice')
        line.must(same_family(self.ifaces[iface].addr, source, group), 3, 'family')
        if word in ('active', 'idle'):
            return Event(word, iface=iface, source=source, group=group)
        entry = Star(group) if is_star else Rpt(source, group) if is_rpt else Source(source, group)
        return Event(word, iface=iface, entry=entry)

    def select_event(self, line, word):
        vrf = self.named(line, 1, self.vrfs)
        source = None if line.word(2) == '*' else line.source(2)
        group = None if line.word(3) == '*' else line.group(3)
        line.must(same_family(source, group), 3, 'family')
        return Event(word, vrf=vrf, entry=Pattern(source, group))


# ---- the text

# the words that begin a line of an event, by how many words come after them
BEHIND = {
    0: ('heal', 'settle', 'drain', 'state'), 1: ('tick', 'timers', 'restart'), 2: ('pim', 'packet'),
    3: ('lose', 'notice', 'raise', 'hop', 'drop', 'cost', 'active', 'idle', 'select', 'unselect'), 4: ('move', 'send')}
COUNTS = {word: (count, count) for count, words in BEHIND.items() for word in words} | {'join': (3, 4), 'prune': (3, 4)}
EVENT_LIMIT = 200000


def event_of(draft, line, before):
    line.must(line.word(0) in COUNTS, 0, 'word')
    line.must(before < EVENT_LIMIT, 0, 'limit')
    line.counted(*COUNTS[line.word(0)])
    return draft.event(line)


def read(text):
    """The script that the text says, in octets or as a str. Raises its first TextFault."""
    return read_lines(lines_of(text if isinstance(text, bytes) else text.encode()))


def read_lines(rows):
    """The script that the lines say."""
    draft, events, is_script = Draft(), [], False
    for number, row in enumerate(rows, 1):
        line = tried(number, row)
        if line is None:
            continue
        if is_script:
            events.append(Timed(number, event_of(draft, line, len(events))))
        else:
            is_script = draft.declare(line)
    if not is_script:
        raise TextFault(len(rows) + 1, 1, 'events')
    return Script(draft.scenario(), tuple(events))
