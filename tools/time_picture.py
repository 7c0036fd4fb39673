"""A script in time, as a picture: each event is a row, from the top down, with the tick of the clock and its line.

In front of it are bars: of each session, dark where it is ready and pale where it is joined, but an end is held or down; and of each
customer's interface, where it has joined something. A datagram is a dot at the interfaces of its site when it is sent, and an arrow to
each interface at which it leaves, when it leaves; the dot is empty where it left nowhere. A `state` line is a mark after the event:
full where the network is calm, and else with its five numbers.
"""

from dataclasses import dataclass, field

from reference.base import FinMap
from reference.history import Sessions
from reference.pim import applied, counts, entry_key, kept_at, message_of
from reference.scenario import edge_of
from reference.script import Rpt
from svg import COLOURS, INK, Picture, arrow, line_through, text_at
from timeline import Began, timeline

ROW, SESSION, IFACE, LETTER = 20, 24, 56, 6.6
# the most letters of a line that are shown
MOST = 48
READY, PALE_BAR, CALM, BUSY = '#2e8540', '#b9d8c0', '#2e8540', '#c4541a'


@dataclass
class Row:
    """An event with what is there after it: the sessions that are ready and joined, the interfaces that ask, and what its lines say."""

    tick: int
    event: object
    refusal: str
    ready: list = field(default_factory=list)
    joined: list = field(default_factory=list)
    asking: set = field(default_factory=set)
    sent: int = 0
    outs: list = field(default_factory=list)
    state: str = ''


class Asking:
    """What the interfaces have joined, event by event (mvpn_model: Past)."""

    def __init__(self, scenario):
        self.scenario, self.entries = scenario, FinMap(entry_key)

    def happen(self, event, clock):
        match event.word:
            case 'join' | 'prune' | 'pim':
                given = message_of(self.scenario, event)
                self.entries = applied(self.entries, given.iface, given.message, clock)
            case 'settle':
                self.entries = kept_at(self.entries, clock)
            case 'restart':
                self.entries = self.entries.retain_keys(lambda at: edge_of(self.scenario, at.iface) != event.a)

    def ifaces(self, clock):
        return {at.iface for at, expiry in self.entries.entries if not isinstance(at.entry, Rpt) and counts(clock, expiry)}


def rows_of(script, report):
    """A row for each event that happened, and how many datagrams were accepted."""
    sessions, asking = Sessions(script.scenario), Asking(script.scenario)
    rows, count = [], 0
    for one in timeline(script, report):
        if isinstance(one, Began):
            row = Row(one.tick, one.event, one.refusal)
            rows.append(row)
            if not one.refusal:
                sessions.happen(one.event)
                asking.happen(one.event, one.tick)
                if one.event.word in ('send', 'packet'):
                    count += 1
                    row.sent = count
            row.ready = [session for session in sessions.all if sessions.is_ready(session)]
            row.joined = [session for session in sessions.all if session in sessions.joined]
            row.asking = asking.ifaces(sessions.clock)
        elif words := getattr(one, 'words', ()):
            if words[0] == 'out':
                rows[-1].outs.append((int(words[1]), words[2]))
            elif words[0] == 'state':
                rows[-1].state = ' '.join(words[1:])
    return rows


class Columns:
    """Where things are: events at the left, then sessions, then interfaces."""

    def __init__(self, script, lines):
        scenario = script.scenario
        self.text = 96
        self.first = self.text + LETTER * max(map(len, lines), default=0) + 30
        self.sessions = {session: self.first + SESSION * place for place, session in enumerate(Sessions(scenario).all)}
        begin = self.first + SESSION * len(self.sessions) + 20
        self.ifaces = {number: begin + IFACE * place for place, number in enumerate(range(len(scenario.ifaces)))}
        self.state = begin + IFACE * len(self.ifaces) + 10
        self.width = self.state + 110


def bars(xs, rows, has, colour, width):
    """A bar at each column for each row after which it has what is asked."""
    for key, x in xs.items():
        for place, row in enumerate(rows):
            if has(row, key):
                yield line_through([(x, ROW * place), (x, ROW * (place + 1))], colour, width)


def heads(script, columns):
    scenario = script.scenario
    for session, x in columns.sessions.items():
        words = f'{session.kind} {scenario.nodes[session.a].name} {scenario.nodes[session.b].name}'
        yield text_at((x, -24), words, 11, more=f' text-anchor="start" transform="rotate(-60 {x:.0f} -20)"')
    for number, x in columns.ifaces.items():
        yield text_at((x, -24), scenario.ifaces[number].name, 12, COLOURS[0], True)


def events(script, lines, rows, columns):
    for place, (row, line) in enumerate(zip(rows, lines)):
        y, number = ROW * (place + 0.5), script.events[place].line
        yield text_at((40, y), str(row.tick), 11, more=' text-anchor="end"')
        yield text_at((80, y), str(number), 10, '#999999', more=' text-anchor="end"')
        yield text_at((columns.text, y), line, 12, BUSY if row.refusal else INK, more=' text-anchor="start"')
        if row.state:
            words = 'calm' if row.state == '0 0 0 0 0' else row.state
            yield text_at((columns.state, y), words, 12, CALM if words == 'calm' else BUSY, True, ' text-anchor="start"')


def datagrams(script, rows, columns):
    scenario = script.scenario
    numbers = {iface.name: number for number, iface in enumerate(scenario.ifaces)}
    sent = {row.sent: (place, row.event.site) for place, row in enumerate(rows) if row.sent}
    left = {number for row in rows for number, _ in row.outs}
    for number, (place, site) in sent.items():
        for iface in (at for at, one in enumerate(scenario.ifaces) if one.site == site):
            x, y, fill = columns.ifaces[iface], ROW * (place + 0.5), COLOURS[0] if number in left else 'white'
            yield f'<circle cx="{x:.0f}" cy="{y:.0f}" r="5" fill="{fill}" stroke="{COLOURS[0]}" stroke-width="2"/>'
            yield text_at((x - 14, y), str(number), 11, COLOURS[0], True)
    for place, row in enumerate(rows):
        for number, name in row.outs:
            begin, site = sent[number]
            start = next(columns.ifaces[at] for at, one in enumerate(scenario.ifaces) if one.site == site)
            end = columns.ifaces[numbers[name]], ROW * (place + 0.5)
            yield arrow([(start, ROW * (begin + 0.5)), end], COLOURS[0], f'out {number} {name}')


def shortened(line):
    return line if len(line) <= MOST else f'{line[:MOST - 2]}..'


def time_picture(text, script, report):
    """The picture of the script that the text says."""
    rows, all_lines = rows_of(script, report), text.splitlines()
    lines = [shortened(' '.join(all_lines[timed.line - 1].split())) for timed in script.events[:len(rows)]]
    columns = Columns(script, lines)
    grid = [line_through([(10, ROW * place), (columns.width - 10, ROW * place)], '#eeeeee', 1) for place in range(len(rows) + 1)]
    shown = [
        *grid, *bars(columns.sessions, rows, lambda row, session: session in row.joined, PALE_BAR, 10),
        *bars(columns.sessions, rows, lambda row, session: session in row.ready, READY, 10),
        *bars(columns.ifaces, rows, lambda row, iface: iface in row.asking, '#cfe0f1', 16),
        *heads(script, columns), *events(script, lines, rows, columns), *datagrams(script, rows, columns),
        text_at((40, -24), 'tick', 11, more=' text-anchor="end"'), text_at((80, -24), 'line', 10, '#999999', more=' text-anchor="end"')]
    return Picture(0, -110, columns.width, 130 + ROW * len(rows), shown)
