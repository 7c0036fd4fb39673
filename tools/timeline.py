"""At which event of its script each line of a report was written, and so at which tick of the clock.

A report of `replay --wire` does not say so of every line. A `state`, a `refused` and a `halt` line name their events. `out` and `hop`
lines name their datagram, and a `land` line is of the next `hop` or `drain`. A `take` line is of a `move` or of a `settle`, which goes
on while octets are in transit. A `put` line is of an event at the node that puts:

- of a `raise` or a `heal`, where its UPDATEs are the table of an edge towards a peer whose session comes up then;
- of a customer's event or a selection, where one of its UPDATEs names the flow or the pattern of that event in its VPN (RFC 6514
  section 4);
- of a label session only after the hold of its end, and of the node's timers only where one of them may be due.

Where this leaves several events, as several joins of one flow at one edge, the line counts for the first of them, and one that
withdraws routes for the last, as after the prune of the last receiver. A script with a `state` after each event leaves none open.
"""

import functools
from collections import Counter, defaultdict
from dataclasses import dataclass

from reference.pim import message_of
from reference.refusals import edge_of_vrf
from reference.scenario import edge_of, sessions

# events of customers and selections, with the types of the routes that an edge puts for them
JOINS, NOTES, SELECTIONS = ('join', 'prune', 'pim'), ('active', 'idle'), ('select', 'unselect')
ASKING = {**dict.fromkeys(JOINS, (7,)), **dict.fromkeys(NOTES, (5, 7)), **dict.fromkeys(SELECTIONS, (3,))}
# events that withdraw what the ones before them announce
ENDING = ('idle', 'unselect')
# events after which nothing is looked for in front of them: their lines are their own
MARKS = ('move', 'settle', 'state')


class OtherScript(Exception):
    """The report is not one of the script."""


# ---- what happens

@dataclass(frozen=True)
class Began:
    """An event, before its lines; `refusal` is the reason for which it is refused, or empty."""

    tick: int
    event: object
    refusal: str


@dataclass(frozen=True)
class Raised:
    """A session of a kind comes up between two nodes."""

    tick: int
    over: tuple


@dataclass(frozen=True)
class Noticed:
    """The first of the two nodes notices that the session is lost."""

    tick: int
    over: tuple


@dataclass(frozen=True)
class Told:
    """A line of the report, by its words."""

    tick: int
    words: tuple


# ---- routes that an edge puts

@dataclass(frozen=True)
class Route:
    """A route that an UPDATE announces or withdraws: its type, 0 for a unicast route, and its RD, source and group in octets."""

    is_announced: bool
    kind: int
    rd: bytes = b''
    source: bytes = b''
    group: bytes = b''


def number_at(octets, at, size):
    return int.from_bytes(octets[at:at + size], 'big')


def sized(octets, at):
    """The address after its length in bits, none for a wildcard, and the place after it."""
    end = at + 1 + octets[at] // 8
    return octets[at + 1:end], end


def mcast_routes(octets, is_announced):
    """MCAST-VPN routes end to end (RFC 6514 section 4): source and group are after the RD, and the source AS of type 7."""
    at = 0
    while at < len(octets):
        kind, end = octets[at], at + 2 + octets[at + 1]
        if kind in (3, 5, 7):
            source, after = sized(octets, at + (14 if kind == 7 else 10))
            yield Route(is_announced, kind, octets[at + 2:at + 10], source, sized(octets, after)[0])
        else:
            yield Route(is_announced, kind)
        at = end


def attribute_routes(kind, value):
    """The routes of MP_REACH_NLRI and of MP_UNREACH_NLRI (RFC 4760 sections 3 and 4)."""
    if kind not in (14, 15):
        return
    is_announced = kind == 14
    if value[2] == 5:
        yield from mcast_routes(value[5 + value[3]:] if is_announced else value[3:], is_announced)
    else:
        yield Route(is_announced, 0)


def update_routes(message):
    at = 23 + number_at(message, 19, 2)
    while at < len(message):
        begin = at + (4 if message[at] & 0x10 else 3)
        end = begin + number_at(message, at + 2, begin - at - 2)
        yield from attribute_routes(message[at + 1], message[begin:end])
        at = end


@functools.lru_cache(maxsize=64)
def routes_of(text):
    """The routes of the UPDATEs that are put, by the hexadecimal text of their octets."""
    octets, at, found = bytes.fromhex(text), 0, []
    while at < len(octets):
        end = at + number_at(octets, at + 16, 2)
        found += update_routes(octets[at:end])
        at = end
    return found


def octets_of(addr):
    return b'' if addr is None else bytes(addr.octets)


def is_in_message(message, route):
    """Whether a Join/Prune message joins the flow of a route that is announced, or prunes that of one that is withdrawn."""
    for group in message.groups:
        for source in group.joins if route.is_announced else group.prunes:
            if octets_of(group.group) == route.group and (source.kind == 'star' or octets_of(source.addr) == route.source):
                return True
    return False


def is_of_vpn(scenario, event, route):
    """Whether the route's RD is one of the VPN of the event: its own VRF's, or another one's with a Route Target of that."""
    own = scenario.vrfs[event.vrf if event.word in SELECTIONS else scenario.ifaces[event.iface].vrf]
    return any(bytes(vrf.rd) == route.rd and set(vrf.targets) & set(own.targets) for vrf in scenario.vrfs)


def names(scenario, event, route):
    """Whether a route of the event's kind is the one for which it asks."""
    if not is_of_vpn(scenario, event, route):
        return False
    if event.word in JOINS:
        return is_in_message(message_of(scenario, event).message, route)
    asked = event.entry if event.word in SELECTIONS else event
    flow = octets_of(asked.source), octets_of(asked.group)
    return (route.source, route.group) == flow and route.is_announced == (event.word not in ENDING)


# ---- events and lines, one after another

def back(over):
    """The other direction of the session."""
    kind, start, end = over
    return kind, end, start


class Walk:
    """What is known of the network after some first events and some first lines. A direction of a session is its kind and the names
    of the node that puts and of the one that takes."""

    def __init__(self, script, report):
        self.scenario, self.events = script.scenario, script.events
        self.lines = [tuple(line.split(' ')) for line in report.splitlines()]
        self.refusals = {int(words[1]): ' '.join(words[2:]) for words in self.lines if words[0] == 'refused'}
        self.sessions = [(session.kind, self.name(session.a), self.name(session.b)) for session in sessions(self.scenario)]
        self.order = {way: place for place, way in enumerate(way for over in self.sessions for way in (over, back(over)))}
        self.at = self.place = self.clock = self.datagrams = 0
        # directions that are joined, ends that are up and ends whose hold was run, and the octets in transit
        self.joined, self.up, self.held, self.transit = set(), set(), set(), Counter()
        # by node, the ticks from which a timer may be due, each with the end of a label session that it holds back, or none
        self.due = defaultdict(list)
        self.happened = []

    def name(self, node):
        return self.scenario.nodes[node].name

    def over(self, event):
        return event.kind, self.name(event.a), self.name(event.b)

    def edge(self, event):
        """The edge at which a customer's event or a selection is."""
        return self.name(edge_of_vrf(self.scenario, event.vrf) if event.iface is None else edge_of(self.scenario, event.iface))

    # ---- lines

    def next(self):
        return self.lines[self.at] if self.at < len(self.lines) else ('end',)

    def tell(self):
        """The next line happens."""
        words = self.next()
        if words[0] == 'put' and words[1:4] in self.joined:
            self.transit[words[1:4]] += len(words[4]) // 2
        if words[0] == 'take':
            self.transit[words[1:4]] -= len(words[4]) // 2
        self.happened.append(Told(self.clock, words))
        self.at += 1

    def tell_up_to(self, word):
        """The lines up to the next one of that first word happen."""
        while self.next()[0] != word:
            if self.next()[0] == 'end':
                raise OtherScript
            self.tell()
        self.tell()

    def is_in_transit(self):
        return any(count > 0 for count in self.transit.values())

    # ---- what a node puts

    def is_asked(self, event):
        """Whether the next line is what the event's edge may have put for it."""
        words = self.next()
        if words[:3] != ('put', 'bgp', self.edge(event)):
            return False
        routes = routes_of(words[4])
        is_of_kind = all(route.kind in ASKING[event.word] for route in routes)
        return is_of_kind and any(names(self.scenario, event, route) for route in routes)

    def is_withdrawal(self):
        """Whether the next line withdraws routes and announces none."""
        return not any(route.is_announced for route in routes_of(self.next()[4]))

    def is_asked_later(self):
        """Whether it is of one of the events that come next."""
        for timed in self.events[self.place + 1:]:
            if timed.event.word in MARKS:
                return False
            if timed.event.word in ASKING and timed.line not in self.refusals and self.is_asked(timed.event):
                return True
        return False

    def puts(self, node, may):
        """A node puts in one act what it may put: one line for each session, in their order."""
        last = -1
        while self.next()[0] == 'put':
            words = self.next()
            place = self.order[words[1:4]]
            if words[2] != node or place <= last or not may(words):
                return
            last = place
            self.tell()

    def is_reaction(self, words, taken):
        """Whether a node may have put that by itself, or for what it took over a direction: joins for other edges and label messages."""
        if words[1] == 'ldp':
            return words[1:4] in self.held or words[1:4] == back(taken)
        return taken[0] == 'bgp' and all(route.kind == 7 for route in routes_of(words[4]))

    def reacts(self, node, taken=('bgp', '', '')):
        self.puts(node, lambda words: self.is_reaction(words, taken) and not self.is_asked_later())

    # ---- sessions

    def cut(self, over):
        for way in (over, back(over)):
            self.joined.discard(way)
            del self.transit[way]

    def down(self, end):
        self.up.discard(end)
        self.held.discard(end)
        self.due[end[1]] = [(tick, held) for tick, held in self.due[end[1]] if held != end]

    def notice(self, end):
        self.happened.append(Noticed(self.clock, end))
        self.down(end)
        self.reacts(end[1], end)

    def raise_session(self, over):
        """Each of the ends comes up in its turn: one of BGP puts its table, and one of LDP is held back."""
        self.happened.append(Raised(self.clock, over))
        self.cut(over)
        self.joined |= {over, back(over)}
        for end in (over, back(over)):
            self.up.add(end)
            if end[0] == 'ldp':
                self.due[end[1]].append((self.clock + self.scenario.life + 1, end))
            else:
                self.puts(end[1], lambda words: words[1:4] == end)

    def heal(self):
        for over in self.sessions:
            if over not in self.joined:
                for end in (over, back(over)):
                    if end in self.up:
                        self.notice(end)
                self.raise_session(over)

    def restart(self, node):
        for over in self.sessions:
            if node in over[1:]:
                self.cut(over)
                self.down(over if over[1] == node else back(over))
        self.due[node] = []

    # ---- octets and copies

    def take(self):
        """A node takes octets; the direction over which it does."""
        if self.next()[0] != 'take':
            raise OtherScript
        over = self.next()[1:4]
        self.tell()
        if over[0] == 'bgp':
            self.due[over[2]].append((self.clock + self.scenario.delay, None))
        return over

    def move(self):
        while self.next()[0] == 'put':
            self.tell()
        over = self.take()
        self.reacts(over[2], over)

    def settle(self):
        """While octets are in transit it is not at its end, and what is put is its own."""
        for node in self.scenario.nodes:
            self.timers(node.name)
        while self.is_in_transit() and self.next()[0] in ('put', 'take'):
            if self.next()[0] == 'put':
                self.tell()
                continue
            over = self.take()
            if not self.is_in_transit():
                self.reacts(over[2], over)
        self.transit.clear()

    def timers(self, node):
        ended = [(tick, held) for tick, held in self.due[node] if tick <= self.clock]
        self.due[node] = [(tick, held) for tick, held in self.due[node] if tick > self.clock]
        self.held |= {held for _, held in ended if held}
        if ended:
            self.reacts(node)

    def leave(self, number):
        """A datagram leaves, and goes on."""
        while (self.next()[0] == 'out' and self.next()[1] == number) or (self.next()[0] == 'hop' and self.next()[5] == number):
            self.tell()

    def land(self):
        self.tell_up_to('land')
        self.leave(self.happened[-1].words[4])

    def drain(self):
        while self.next()[0] == 'land':
            self.land()

    def send(self):
        self.datagrams += 1
        self.leave(str(self.datagrams))

    # ---- events

    def ask(self, event):
        edge = self.edge(event)
        if event.word in JOINS:
            self.due[edge].append((self.clock + message_of(self.scenario, event).message.holdtime, None))
        if self.is_asked(event) and not (self.is_withdrawal() and self.is_asked_later()):
            self.puts(edge, lambda words: words[1] == 'ldp' or self.is_asked(event))

    def happen(self, event):
        """An event that is not refused."""
        match event.word:
            case 'tick':
                self.clock += event.count
            case 'timers':
                self.due[self.name(event.a)].append((self.clock, None))
                self.timers(self.name(event.a))
            case 'lose':
                self.cut(self.over(event))
            case 'notice':
                self.notice(self.over(event))
            case 'raise':
                self.raise_session(min(self.over(event), back(self.over(event)), key=self.order.get))
            case 'restart':
                self.restart(self.name(event.a))
            case 'cost':
                for node in self.scenario.nodes:
                    self.reacts(node.name)
            case 'hop':
                self.land()
            case 'send' | 'packet':
                self.send()
            case 'state':
                self.tell_up_to('state')
            case 'heal' | 'settle' | 'drain' | 'move':
                getattr(self, event.word)()
            case word if word in ASKING:
                self.ask(event)

    def run(self):
        halted = [int(words[1]) for words in self.lines if words[0] == 'halt']
        for self.place, timed in enumerate(self.events):
            refusal = self.refusals.get(timed.line, '')
            self.happened.append(Began(self.clock, timed.event, refusal))
            if refusal:
                self.tell_up_to('refused')
            else:
                self.happen(timed.event)
            if timed.line in halted:
                break
        while self.next()[0] != 'end':
            self.tell()
        return self.happened


def timeline(script, report):
    """All that happens, in its order."""
    return Walk(script, report).run()
