#!/usr/bin/env python3
"""Makes an input of `audit` of captures of a real network: `observe.py [OPTION..] SCENARIO CAPTURE.. > INPUT`

SCENARIO is a text of docs/FORMATS.md with the edges, VRFs, sites and customers' interfaces; what follows its line `events`, if
there is one, is left out. Each CAPTURE is a file of pcap or pcapng of one customer's interface, named by it: `Y1.pcap`, or
`Y1.in.pcap` and `Y1.out.pcap` where each has one direction, as the edge sees it (sightings.py says how the direction is known
otherwise). The clocks of the files are taken to agree, up to a twentieth of a second.

    --stable BEGIN..END     a span of time in which the network is calm, as the operator says: all joins that count in it are there, and
                            so are the trees. In seconds since 1970, or after a `+` since the first frame. Several may be given
    --own IFACE=ADDRESS     an Ethernet address by which the edge sends at that interface
    --delay SECONDS         for how long a datagram may be on its way, 1 where it is not given: of several with the same octets, one that
                            leaves is taken for one that has not left there yet and is no older
    --output FILE           writes the input there, and not to standard output
    --map FILE              writes, for each line of the input that comes of a frame, its number, the file and the frame
    --judge                 has the input judged, and writes the answer by file and frame
    --command COMMAND       what judges it, in the place of `./mvpn`

Join/Prune messages become `pim` events, with the checksum of the project's profile where their own is right; reports and leaves of
IGMP and MLD become joins and prunes; the first datagram of a flow at a site is noted as `active`. A UDP datagram to a group that
enters is a `packet`, and one that leaves an `out` line of the datagram with the same octets, but for TTL and header checksum; where
there is none, its number is 0, which names none. A tick is a second since the first frame. A stable span is cut at each message, and
at each second at which an entry of an earlier one may expire. Each piece with datagrams is a window: its ticks and new flows, `state`,
the packets and `drain`; its `state` line has five zeros. A payload of more than 64 octets is replaced by its digest, with the same
addresses and ports.

An input that would pass the limits of the program is split, at the ends of spans and then within one. With --output and --map the
files then end in `.1`, `.2` and so on. What is passed over, and where spans are cut, is reported on standard error. The status is 0, and
with --judge 8 where an answer is `no`; it is 2 where the captures show no directions, or are none.
"""

import argparse
import bisect
import pathlib
import shlex
import subprocess
import sys
from dataclasses import dataclass, field

# after this folder, as tools/wireshark.py does
sys.path.append(str(pathlib.Path(__file__).resolve().parent.parent / 'checks'))

from captures import NoCapture
from memberships import is_source, spelled
from reference.base import V4, V6
from reference.history import Step, home, receivers, vpn_of_iface
from reference.lines import TextFault
from reference.script import read
from sightings import Datagram, Leaving, Message, NoDirection, Reading, Seen

TOP = pathlib.Path(__file__).resolve().parent.parent
SECOND = 10 ** 9
# the limits of an input (docs/FORMATS.md, Limits), and of a `tick`
OCTETS, EVENTS, TICKS = 16_777_216, 200_000, 1_000_000
EVER = 1 << 80
# by how much the clocks of two captures may differ
SKEW = SECOND // 20
CALM = 'state 0 0 0 0 0'
# the events that say what interfaces ask for
TELLING = ('tick', 'join', 'prune', 'pim', 'active')


# ---- which datagram left

class Pairing:
    """Which of the datagrams that entered each one that left is: of those with the same octets, first one of the same VPN, that was sent
    from the home of its source, and has not left there yet."""

    def __init__(self, scenario, datagrams, delay):
        self.scenario, self.delay = scenario, delay
        self.same, self.homes = {}, {}
        for datagram in datagrams:
            self.same.setdefault(datagram.key, []).append(datagram)

    def is_home(self, datagram):
        at = datagram.seen.iface, datagram.source
        if at not in self.homes:
            source = (V4 if len(datagram.source) == 4 else V6)(tuple(datagram.source))
            self.homes[at] = home(self.scenario, vpn_of_iface(self.scenario, at[0]), source) == self.scenario.ifaces[at[0]].site
        return self.homes[at]

    def candidates(self, leaving):
        """Those that entered about then, or else the last one before."""
        known = self.same.get(leaving.key, [])
        first = bisect.bisect_left(known, leaving.seen.time - self.delay, key=time_of)
        last = bisect.bisect_right(known, leaving.seen.time + SKEW, key=time_of)
        return known[first:last] or known[max(0, first - 1):first] or known[:1]

    def rank(self, leaving, datagram):
        """The greatest one counts. What is seen to leave before it enters was seen by a clock that is late."""
        iface, age = leaving.seen.iface, leaving.seen.time - datagram.seen.time
        is_own = vpn_of_iface(self.scenario, iface) == vpn_of_iface(self.scenario, datagram.seen.iface)
        is_new = iface not in datagram.left and -SKEW <= age <= self.delay
        return is_own, self.is_home(datagram), is_new, age >= 0, -abs(age)

    def pair(self, all_leaving):
        for leaving in all_leaving:
            known = self.candidates(leaving)
            if known:
                leaving.datagram = max(known, key=lambda datagram: self.rank(leaving, datagram))
                leaving.datagram.left.setdefault(leaving.seen.iface, []).append(leaving)


def time_of(one):
    return one.seen.time


# ---- time

@dataclass(frozen=True)
class Piece:
    """A part of time, from its begin up to its end, and whether the network is calm in it."""

    begin: int
    end: int
    is_calm: bool


class Clock:
    """Ticks are seconds since the first frame."""

    def __init__(self, first):
        self.first = first

    def tick(self, time):
        return max(0, (time - self.first) // SECOND)

    def text(self, time):
        return f'+{(time - self.first) / SECOND:.6f}'

    def time(self, text):
        """The time that the words of an option say, in nanoseconds."""
        whole, _, part = text.removeprefix('+').partition('.')
        nanoseconds = int(whole) * SECOND + int(part.ljust(9, '0')[:9] or 0)
        return nanoseconds + self.first if text.startswith('+') else nanoseconds

    def cuts(self, messages):
        """When a span is cut: at each message, and where an entry of one may expire."""
        expiries = {self.first + (self.tick(one.seen.time) + one.holdtime) * SECOND for one in messages if one.holdtime}
        return sorted(expiries | {one.seen.time for one in messages})


def pieces_of(spans, cuts):
    """All of time in pieces."""
    found, at = [], -EVER
    for begin, end in spans:
        inside = cuts[bisect.bisect_right(cuts, begin):bisect.bisect_left(cuts, end)]
        edges = [begin, *inside, end]
        found.append(Piece(at, begin, False))
        found += [Piece(*part, True) for part in zip(edges, edges[1:])]
        at = end
    return [*found, Piece(at, EVER, False)]


# ---- an input

@dataclass
class Input:
    """The lines of an input: those of the scenario and the script, and those of the report in front of each of its markers and after
    the last one. Beside each is what it comes of, if that was seen."""

    scenario: list
    events: list = field(default_factory=list)
    markers: list = field(default_factory=list)
    times: list = field(default_factory=list)
    left: dict = field(default_factory=dict)
    tick: int = 0
    count: int = 0
    windows: int = 0
    is_calm: bool = False

    def event(self, text, of=None):
        self.events.append((text, of))
        return len(self.scenario) + 1 + len(self.events)

    def ticks_to(self, tick):
        while self.tick < tick:
            step = min(TICKS, tick - self.tick)
            self.event(f'tick {step}')
            self.tick += step

    def mark(self, text, time, of=None):
        self.markers.append((text, of))
        self.times.append(time)

    def leave(self, text, of, least):
        """An `out` line is after the markers up to its time, and no fewer than so many."""
        place = max(least, bisect.bisect_right(self.times, of.seen.time))
        self.left.setdefault(place, []).append((text, of))

    def lines(self):
        yield from ((line, None) for line in [*self.scenario, 'events'])
        yield from self.events
        yield 'report', None
        for place in range(len(self.markers) + 1):
            yield from self.left.get(place, [])
            yield from self.markers[place:place + 1]

    def text(self):
        return ''.join(f'{line}\n' for line, _ in self.lines())

    def fits(self):
        return len(self.events) <= EVENTS and sum(len(line) + 1 for line, _ in self.lines()) <= OCTETS


class Composer:
    """Makes the inputs of what was seen."""

    def __init__(self, scenario, lines, reading, spans):
        self.scenario, self.lines = scenario, lines
        self.clock = Clock(reading.first)
        self.messages, self.datagrams, self.leaving = reading.messages, reading.datagrams, reading.leaving
        self.spans, self.cuts = spans, self.clock.cuts(reading.messages)

    def inputs(self, begin=-EVER, end=EVER):
        """Inputs of the datagrams that entered in that part of time; several where one would pass the limits."""
        made = self.made(begin, end)
        if made.fits():
            return [made]
        middle = self.middle(begin, end)
        if middle is None:
            sys.exit('what a single datagram wants does not fit into an input')
        print(f'an input of {len(made.events)} events is split at {self.clock.text(middle)}', file=sys.stderr)
        return self.inputs(begin, middle) + self.inputs(middle, end)

    def middle(self, begin, end):
        """The end of a span, or else a time between two datagrams."""
        ends = [after for _, after in self.spans if begin < after < end]
        times = sorted({one.seen.time for one in self.datagrams if begin <= one.seen.time < end})
        inside = [one for one in ends if times and times[0] < one <= times[-1]]
        return inside[len(inside) // 2] if inside else times[len(times) // 2] if len(times) > 1 else None

    def made(self, begin, end):
        one = Input(self.lines)
        numbers, flows = {}, set()
        spans = [(max(begin, first), min(end, last)) for first, last in self.spans if max(begin, first) < min(end, last)]
        for piece in pieces_of(spans, self.cuts):
            messages = within(self.messages, piece, end)
            datagrams = within(self.datagrams, piece, end)
            put = self.put_window if piece.is_calm else self.put_between
            put(one, piece, messages, datagrams, flows, numbers, begin)
        self.put_leaving(one, numbers, begin, end)
        return one

    def put_message(self, one, message):
        one.ticks_to(self.clock.tick(message.seen.time))
        for text in message.lines:
            line = one.event(text, message)
        if message.refusal:
            one.mark(f'refused {line} {message.refusal}', message.seen.time, message)

    def put_note(self, one, datagram, flows):
        """The first datagram of a flow at a site is noted, where the family is that of the interface."""
        iface = self.scenario.ifaces[datagram.seen.iface]
        flow = iface.site, datagram.source, datagram.group
        if flow not in flows and is_source(datagram.source) and len(iface.addr.octets) == len(datagram.source):
            flows.add(flow)
            one.event(f'active {iface.name} {spelled(datagram.source)} {spelled(datagram.group)}', datagram)

    def put_packet(self, one, datagram, numbers):
        one.count += 1
        site = self.scenario.sites[self.scenario.ifaces[datagram.seen.iface].site]
        one.event(f'packet {site.name} {datagram.octets.hex()}', datagram)
        numbers[datagram] = one.count, len(one.markers)

    def put_between(self, one, piece, messages, datagrams, flows, numbers, begin):
        """Outside of a window. What is sent there must not fall into the window before it, which an event ends that is no send."""
        for seen in sorted([*messages, *datagrams], key=time_of):
            if isinstance(seen, Message):
                self.put_message(one, seen)
                continue
            self.put_note(one, seen, flows)
            if begin <= seen.seen.time:
                one.ticks_to(self.clock.tick(seen.seen.time))
                if one.is_calm:
                    one.event('settle')
                    one.is_calm = False
                self.put_packet(one, seen, numbers)

    def put_window(self, one, piece, messages, datagrams, flows, numbers, begin):
        for message in messages:
            self.put_message(one, message)
        if not datagrams:
            return
        one.ticks_to(self.clock.tick(piece.end - 1))
        for datagram in datagrams:
            self.put_note(one, datagram, flows)
        one.event('state')
        one.mark(CALM, piece.begin)
        for datagram in datagrams:
            self.put_packet(one, datagram, numbers)
        one.event('drain')
        one.is_calm = True
        one.windows += 1

    def put_leaving(self, one, numbers, begin, end):
        for leaving in self.leaving:
            iface = self.scenario.ifaces[leaving.seen.iface].name
            if leaving.datagram in numbers:
                number, least = numbers[leaving.datagram]
                one.leave(f'out {number} {iface} {leaving.datagram.octets.hex()}', leaving, least)
            elif leaving.datagram is None and begin <= leaving.seen.time < end:
                one.leave(f'out 0 {iface} {leaving.octets.hex()}', leaving, 0)


def within(seen, piece, end):
    first = bisect.bisect_left(seen, piece.begin, key=time_of)
    return seen[first:bisect.bisect_left(seen, min(piece.end, end), key=time_of)]


# ---- the answer

class Judge:
    """Explains an answer of `audit` by what was seen."""

    def __init__(self, scenario, clock, one):
        self.scenario, self.clock, self.one = scenario, clock, one
        self.seen = [of for _, of in one.lines()]

    def frame(self, seen):
        return f'frame {seen.frame} of {seen.file} ({self.clock.text(seen.time)})'

    def iface(self, seen):
        return self.scenario.ifaces[seen.iface].name

    def entered(self, datagram):
        site = self.scenario.sites[self.scenario.ifaces[datagram.seen.iface].site].name
        return f'site {site} sent it in {self.frame(datagram.seen)}'

    def past(self, line):
        """The accepted events of customers in front of a line, and the clock there."""
        kept = [
            text for text, of in self.one.events[:line - len(self.one.scenario) - 2]
            if text.split()[0] in TELLING and not (isinstance(of, Message) and of.refusal)]
        steps, clock = [], 0
        for timed in read('\n'.join([*self.one.scenario, 'events', *kept, ''])).events:
            steps.append(Step(timed.event, clock))
            clock += timed.event.count if timed.event.word == 'tick' else 0
        return steps, clock

    def lost(self, line, datagram):
        iface = self.scenario.ifaces[datagram.seen.iface]
        flow = [(V4 if len(octets) == 4 else V6)(tuple(octets)) for octets in (datagram.source, datagram.group)]
        asking = receivers(self.scenario, *self.past(line), iface.site, *flow)
        lacking = [self.scenario.ifaces[number].name for number in asking if number not in datagram.left]
        left = [f'{self.iface(own[0].seen)} in {self.frame(own[0].seen)}' for own in datagram.left.values()]
        where = f'it left at {", ".join(left)}' if left else 'it left nowhere'
        return f'lost at {", ".join(lacking)}: {self.entered(datagram)}; {where}'

    def sentence(self, line, reason):
        of = self.seen[line - 1]
        if isinstance(of, Datagram):
            return self.lost(line, of)
        if not isinstance(of, Leaving):
            return f'{reason}: the input itself is at fault'
        left = f'{self.frame(of.seen)} left at {self.iface(of.seen)}'
        if of.datagram is None:
            return f'unknown: {left}, and no datagram with these octets entered'
        first = of.datagram.left[of.seen.iface][0]
        return {
            'admit': f'leaked: {left}, which is of another VPN: {self.entered(of.datagram)}',
            'again': f'doubled: {left}, as {self.frame(first.seen)} did: {self.entered(of.datagram)}',
            'asked': f'unasked: {left}, where nobody asks for it: {self.entered(of.datagram)}',
        }.get(reason, f'{reason}: {left}, by the input before its datagram: {self.entered(of.datagram)}')


def judged(command, judge, text):
    """The answer, with what it means, and the status."""
    run = subprocess.run([*command, 'audit'], input=text, capture_output=True, text=True)
    words = run.stdout.split()
    if run.returncode == 8 and len(words) == 3:
        return f'{run.stdout}{judge.sentence(int(words[1]), words[2])}\n', 8
    return run.stdout + run.stderr, run.returncode


# ---- the command

def scenario_of(path):
    """The scenario of a file, and its lines."""
    lines = path.read_text().splitlines()
    events = next((at for at, line in enumerate(lines) if line.split() == ['events']), len(lines))
    return read('\n'.join([*lines[:events], 'events', ''])).scenario, lines[:events]


def number_of(scenario, name):
    found = [number for number, iface in enumerate(scenario.ifaces) if iface.name == name]
    if not found:
        sys.exit(f'{name}: no interface of the scenario')
    return found[0]


def captures_of(scenario, paths):
    """Each capture with its interface and its direction, by its name."""
    for path in paths:
        name, *more = path.name.split('.')
        yield path, number_of(scenario, name), more[0] if more[:1] in (['in'], ['out']) else ''


def own_of(scenario, options):
    found = {}
    for option in options:
        name, _, address = option.partition('=')
        found.setdefault(number_of(scenario, name), set()).add(bytes.fromhex(address.replace(':', '')))
    return found


def spans_of(clock, options):
    """The spans in order; those that meet are one. The last moment of a span is of it."""
    found = []
    for begin, end in sorted([clock.time(word) for word in option.split('..')] for option in options):
        if found and begin <= found[-1][1]:
            found[-1][1] = max(found[-1][1], end + 1)
        else:
            found.append([begin, end + 1])
    return [tuple(span) for span in found]


def tell(scenario, reading, composer, inputs):
    """What was passed over, and where spans are cut."""
    for what, count in sorted(reading.passed.items()):
        print(f'{count} {what} are passed over', file=sys.stderr)
    if reading.cut:
        print(f'{reading.cut} datagrams were cut by a capture, and are reported apart by what it has', file=sys.stderr)
    lacking = {iface.name for iface in scenario.ifaces} - {scenario.ifaces[number].name for number in reading.ifaces}
    if lacking:
        print(f'no capture of {", ".join(sorted(lacking))}: what leaves there is not known', file=sys.stderr)
    by_time = {message.seen.time: message for message in reading.messages}
    for begin, end in composer.spans:
        for cut in (cut for cut in composer.cuts if begin < cut < end):
            why = f'frame {by_time[cut].seen.frame} of {by_time[cut].seen.file}' if cut in by_time else 'an entry may expire'
            print(f'a stable span is cut at {composer.clock.text(cut)}: {why}', file=sys.stderr)
    counts = len(reading.messages), len(reading.datagrams), len(reading.leaving), sum(one.windows for one in inputs)
    print('{} messages of customers, {} datagrams entered, {} left, {} windows'.format(*counts), file=sys.stderr)


def numbered(path, place, count):
    return path if count == 1 else path.with_name(f'{path.name}.{place}')


def map_text(one):
    """The file and the frame of each line that comes of one."""
    lines = enumerate((of for _, of in one.lines()), 1)
    return ''.join(f'{number} {of.seen.file} {of.seen.frame}\n' for number, of in lines if of)


def write(given, inputs):
    if given.output is None and not given.judge:
        if len(inputs) > 1:
            sys.exit('the input is split: name a file by --output')
        sys.stdout.write(inputs[0].text())
    for place, one in enumerate(inputs, 1):
        if given.output:
            numbered(given.output, place, len(inputs)).write_text(one.text())
        if given.map:
            numbered(given.map, place, len(inputs)).write_text(map_text(one))


def options():
    parser = argparse.ArgumentParser(description='Makes an input of `audit` of captures at customers\' interfaces.')
    parser.add_argument('--stable', action='append', default=[], metavar='BEGIN..END', help='a span in which the network is calm')
    parser.add_argument('--own', action='append', default=[], metavar='IFACE=ADDRESS', help='an Ethernet address of the edge there')
    parser.add_argument('--delay', type=float, default=1, metavar='SECONDS', help='for how long a datagram may be on its way')
    parser.add_argument('--output', type=pathlib.Path, help='where the input is written')
    parser.add_argument('--map', type=pathlib.Path, help='where the frames of its lines are written')
    parser.add_argument('--judge', action='store_true', help='has the input judged')
    parser.add_argument('--command', default=str(TOP / 'mvpn'), help='what judges it')
    parser.add_argument('scenario', type=pathlib.Path)
    parser.add_argument('captures', nargs='+', type=pathlib.Path)
    return parser.parse_args()


def reading_of(scenario, given):
    reading = Reading(scenario, own_of(scenario, given.own))
    try:
        reading.read(captures_of(scenario, given.captures))
    except (NoDirection, NoCapture, OSError) as fault:
        print(fault, file=sys.stderr)
        sys.exit(2)
    return reading


def main():
    given = options()
    try:
        scenario, lines = scenario_of(given.scenario)
    except TextFault as fault:
        sys.exit(f'{given.scenario}: {fault}')
    reading = reading_of(scenario, given)
    Pairing(scenario, reading.datagrams, int(given.delay * SECOND)).pair(reading.leaving)
    composer = Composer(scenario, lines, reading, spans_of(Clock(reading.first), given.stable))
    inputs = composer.inputs()
    tell(scenario, reading, composer, inputs)
    write(given, inputs)
    status = 0
    for one in inputs if given.judge else []:
        answer, own = judged(shlex.split(given.command), Judge(scenario, composer.clock, one), one.text())
        sys.stdout.write(answer)
        status = status or own
    return status


if __name__ == '__main__':
    sys.exit(main())
