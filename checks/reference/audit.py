"""The judgement of a finished report (audit_defs: Markers, Cut, Offences, Verdicts), by search: each offence is looked for as it is
defined, everywhere, and the least of those found is the answer."""

from dataclasses import dataclass

from . import report
from .history import Step, is_calm, receivers
from .joinprune import PimFault, decoded
from .lines import TextFault, lines_of
from .octets import packet
from .refusals import group_in, packet_fault, source_in
from .script import read_lines

REASONS = ('markers', 'halt', 'number', 'bytes', 'admit', 'again', 'asked', 'missing')
NEVER_REFUSED = ('tick', 'timers', 'restart', 'cost', 'heal', 'settle', 'drain', 'state')
REFUSALS = ('empty', 'state', 'place', 'full', 'ours')
FAULT_WORDS = (
    'short', 'version', 'pim-type', 'checksum', 'family', 'encoding', 'mask-length', 'flags', 'not-multicast', 'trailing', 'header-length',
    'total-length', 'link-local')
OF_WINDOW = ('send', 'packet', 'hop', 'drain', 'state')


# ---- the text: a scenario and its script, the line `report`, and the lines of a report (audit_text: Texts)

@dataclass(frozen=True)
class Numbered:
    line: int
    value: object


def number_below(limit, word):
    """The number of a word; how it is written is compared afterwards."""
    number = int(word)
    if not 0 <= number < limit:
        raise ValueError(word)
    return number


def number_of(things, name):
    return [thing.name for thing in things].index(name)


def octets_in(word):
    return () if word == '-' else tuple(bytes.fromhex(word))


def refusal_in(words):
    match words:
        case ['bytes', place, word] if word in FAULT_WORDS:
            return f'bytes {number_below(2 ** 32, place)} {word}'
        case [word] if word in REFUSALS:
            return word
    raise ValueError(' '.join(words))


def named_line(scenario, words):
    """The only report line that the words can be."""
    def node(name):
        return number_of(scenario.nodes, name)

    match words:
        case ['out', number, iface, octets]:
            return report.Out(number_below(2 ** 64, number), number_of(scenario.ifaces, iface), octets_in(octets))
        case ['refused', line, *reason]:
            return report.Refused(number_below(2 ** 32, line), refusal_in(reason))
        case ['state', *numbers] if len(numbers) == 5:
            return report.State(*(number_below(2 ** 64, number) for number in numbers))
        case ['halt', line, 'label', name]:
            return report.Halt(number_below(2 ** 32, line), node(name))
        case ['put' | 'take' as word, 'bgp' | 'ldp' as kind, start, end, octets]:
            return (report.Put if word == 'put' else report.Take)(kind, node(start), node(end), octets_in(octets))
        case ['hop', start, end, label, ttl, number]:
            return report.Hop(
                node(start), node(end), number_below(2 ** 32, label), number_below(2 ** 8, ttl), number_below(2 ** 64, number))
        case ['land', start, end, label, number]:
            return report.Land(node(start), node(end), number_below(2 ** 32, label), number_below(2 ** 64, number))
    raise ValueError(' '.join(words))


def line_in(scenario, number, text):
    """The report line that is written so."""
    try:
        line = named_line(scenario, text.split(' '))
        if report.line_text(scenario, line) == text + '\n':
            return Numbered(number, line)
    except ValueError:
        pass
    raise TextFault(number, 1, 'report')


def is_mark(line):
    return line.strip(' ') == 'report'


def parted(octets):
    """The script, the numbered lines of the report, and the number of the line after the last one. Raises the first TextFault."""
    lines = lines_of(octets)
    at = next((place for place, line in enumerate(lines) if is_mark(line)), None)
    if at is None:
        raise TextFault(len(lines) + 1, 1, 'report')
    script = read_lines(lines[:at])
    numbered = tuple(line_in(script.scenario, place + 1, lines[place]) for place in range(at + 1, len(lines)))
    return script, numbered, len(lines) + 1


# ---- markers

def is_marker(line):
    return isinstance(line, (report.State, report.Refused))


def named(markers):
    return {line.line for line in markers if isinstance(line, report.Refused)}


def is_marked(names, timed):
    return timed.event.word == 'state' or timed.line in names


def marks(timed, line):
    if isinstance(line, report.State):
        return timed.event.word == 'state'
    return line.line == timed.line and timed.event.word not in NEVER_REFUSED


def fit(events, markers):
    marked = [timed for timed in events if is_marked(named(markers), timed)]
    return len(marked) == len(markers) and all(marks(timed, line) for timed, line in zip(marked, markers))


def begin(events, markers):
    return any(fit(events[:count], markers) for count in range(len(events) + 1))


# ---- the cut

def is_malformed(event):
    if event.word == 'pim':
        return isinstance(decoded(event.octets), PimFault)
    return event.word == 'packet' and packet_fault(event.octets) is not None


@dataclass(frozen=True)
class Given:
    """A line of the report, and the place of the event that it is given to."""

    line: int
    event: int
    value: object


def given(events, numbered):
    """Each line is given to the event of the next marker, and after the last one to the end."""
    names = named([one.value for one in numbered])
    places = [place for place, timed in enumerate(events) if is_marked(names, timed)]
    found = []
    for place, one in enumerate(numbered):
        before = sum(is_marker(other.value) for other in numbered[:place])
        found.append(Given(one.line, places[before] if before < len(places) else len(events), one.value))
    return found


@dataclass(frozen=True)
class Sent:
    event: int
    site: int
    source: object
    group: object
    octets: tuple


def sent_by(place, event):
    if event.word == 'send':
        return Sent(place, event.site, event.source, event.group, packet(event.source, event.group, event.octets))
    return Sent(place, event.site, source_in(event.octets), group_in(event.octets), event.octets)


class Audited:
    """A report whose markers fit, with its script."""

    def __init__(self, script, numbered):
        self.scenario = script.scenario
        self.events = script.events
        names = named([one.value for one in numbered])
        self.accepted = [timed.line not in names and not is_malformed(timed.event) for timed in script.events]
        self.lines = given(script.events, numbered)
        self.sent = [
            sent_by(place, timed.event) for place, timed in enumerate(script.events)
            if self.accepted[place] and timed.event.word in ('send', 'packet')]
        self.reported = {
            one.event: one.value for one in self.lines
            if isinstance(one.value, report.State) and script.events[one.event].event.word == 'state'}

    def past(self, place):
        """The accepted events before that place, each with the clock at it, and the clock at the place."""
        steps, clock = [], 0
        for timed, accepted in zip(self.events[:place], self.accepted):
            if accepted:
                steps.append(Step(timed.event, clock))
                clock += timed.event.count if timed.event.word == 'tick' else 0
        return steps, clock

    def receivers(self, sent):
        steps, clock = self.past(sent.event)
        return receivers(self.scenario, steps, clock, sent.site, sent.source, sent.group)

    def is_window(self, first, last):
        """The events from the first to the last: after a calm `state`, up to a `drain` or a `state` that reports no copy."""
        ends = self.events[last].event.word == 'drain' or (last in self.reported and self.reported[last].copies == 0)
        return (
            first - 1 in self.reported and is_calm(self.reported[first - 1]) and ends
            and all(not self.accepted[place] or self.events[place].event.word in OF_WINDOW for place in range(first, last + 1)))

    def in_window(self, sent):
        return any(self.is_window(first, last) for first in range(sent.event + 1) for last in range(sent.event, len(self.events)))

    def named_before(self, event, number):
        """The datagram of that number among those that events before that place sent."""
        before = [sent for sent in self.sent if sent.event < event]
        return before[number - 1] if 1 <= number <= len(before) else None

    def is_admitted(self, iface, site):
        targets = set(self.scenario.vrfs[self.scenario.ifaces[iface].vrf].targets)
        own = [other for other in self.scenario.ifaces if other.site == site]
        return bool(own) and all(targets & set(self.scenario.vrfs[other.vrf].targets) for other in own)


# ---- offences

def offences_of_out(audited, place, windowed):
    """The reasons for which an `out` line offends."""
    one = audited.lines[place]
    number, iface = one.value.number, one.value.iface
    sent = audited.named_before(one.event, number)
    if sent is None:
        yield 'number'
        return
    if one.value.octets != sent.octets:
        yield 'bytes'
    if not audited.is_admitted(iface, sent.site):
        yield 'admit'
    if not windowed[sent.event]:
        return
    if any(isinstance(other.value, report.Out) and (other.value.number, other.value.iface) == (number, iface) for other in audited.lines[:place]):
        yield 'again'
    if iface not in audited.receivers(sent):
        yield 'asked'


def judged_offences(audited):
    """The offences of a report whose markers fit and that has no `halt` line, each a line and a reason."""
    windowed = {sent.event: audited.in_window(sent) for sent in audited.sent}
    for place, one in enumerate(audited.lines):
        if isinstance(one.value, report.Out):
            for reason in offences_of_out(audited, place, windowed):
                yield one.line, reason
    left = {(one.value.number, one.value.iface) for one in audited.lines if isinstance(one.value, report.Out)}
    for number, sent in enumerate(audited.sent, 1):
        if windowed[sent.event] and any((number, iface) not in left for iface in audited.receivers(sent)):
            yield audited.events[sent.event].line, 'missing'


def offences(script, numbered, end):
    """All offences of a report."""
    markers = [one for one in numbered if is_marker(one.value)]
    values = [one.value for one in markers]
    for count in range(1, len(markers) + 1):
        if begin(script.events, values[:count - 1]) and not begin(script.events, values[:count]):
            yield markers[count - 1].line, 'markers'
    fits = fit(script.events, values)
    if begin(script.events, values) and not fits:
        yield end, 'markers'
    halts = [one.line for one in numbered if isinstance(one.value, report.Halt)]
    for line in halts:
        yield line, 'halt'
    if fits and not halts:
        yield from judged_offences(Audited(script, numbered))


def audit(text):
    """What the command answers, and its status."""
    try:
        found = list(offences(*parted(text)))
    except TextFault as fault:
        return f'{fault}\n', 3
    if not found:
        return 'yes\n', 0
    line, reason = min(found, key=lambda one: (one[0], REASONS.index(one[1])))
    return f'no {line} {reason}\n', 8
