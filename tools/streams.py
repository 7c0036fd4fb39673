"""What each end of a TCP connection sends, put together of the segments of a capture, and cut into messages of BGP and PDUs of LDP."""

import bisect
import enum
from dataclasses import dataclass, field

from packets import SYN, number_at

MARKER = b'\xff' * 16
# the types of BGP messages (RFC 4271 section 4.1, RFC 2918), and the octets of a header and of the longest message
BGP_TYPES, BGP_HEADER, BGP_MOST = range(1, 6), 19, 4096
# of PDUs of LDP (RFC 5036 section 3.1) the version, the octets up to the length, and the least and the greatest length
LDP_VERSION, LDP_HEADER, LDP_LEAST, LDP_MOST = 1, 4, 6, 4096
# the least length of a message in a PDU: its id
MESSAGE_LEAST = 4


# ---- one direction of a connection

@dataclass
class Run:
    """Octets end to end, and how many are missing in front of them; None where it is not known whether there are any. `marks` has
    places, and for each the frame by which the octets after it, and all in front of them, had come."""

    missing: int
    octets: bytearray = field(default_factory=bytearray)
    marks: list = field(default_factory=list)

    def add(self, octets, frame):
        before = [last for _, last in self.marks[-1:]]
        self.marks.append((len(self.octets), max([*before, frame], key=lambda one: one.number)))
        self.octets += octets

    def frame_at(self, end):
        """The frame by which all octets up to a place had come."""
        return self.marks[bisect.bisect_left(self.marks, end, key=lambda mark: mark[0]) - 1][1]


class Direction:
    """The segments that one end of a connection sends, in the order of the capture. Numbers are counted on after 2^32."""

    def __init__(self, segment):
        self.is_whole = bool(segment.flags & SYN)
        self.first = self.last = segment.sequence + self.is_whole
        self.segments = []

    def place(self, sequence):
        """The number nearest to the last one that is this one modulo 2^32."""
        return self.last + (sequence - self.last + 2 ** 31) % 2 ** 32 - 2 ** 31

    def add(self, segment, frame):
        place = self.place(segment.sequence + bool(segment.flags & SYN))
        self.last = place
        if segment.octets:
            self.segments.append((place, segment.octets, frame))

    def runs(self):
        """Segments by their place; what is sent again is passed over."""
        segments = sorted(self.segments, key=lambda segment: segment[0])
        run, end = (Run(0), self.first) if self.is_whole else (Run(None), segments[0][0] if segments else 0)
        for place, octets, frame in segments:
            if place > end:
                if run.octets:
                    yield run
                run, end = Run(place - end), place
            fresh = octets[end - place:]
            if fresh:
                run.add(fresh, frame)
                end += len(fresh)
        if run.octets:
            yield run


class Directions:
    """The directions of all connections. A SYN with another number begins a connection anew on the same ports."""

    def __init__(self):
        self.open, self.all = {}, []

    def add(self, ends, segment, frame):
        known = self.open.get(ends)
        is_new = known is not None and segment.flags & SYN and known.place(segment.sequence + 1) != known.first
        if known is None or is_new:
            known = self.open[ends] = Direction(segment)
            self.all.append((ends, known))
        known.add(segment, frame)


# ---- messages and PDUs

class State(enum.Enum):
    """Of octets that are cut: a whole message or PDU; one with a fault in its header or without its end, and all octets up to the next
    one; or octets of which it is not known where a message begins."""

    WHOLE = enum.auto()
    BROKEN = enum.auto()
    UNKNOWN = enum.auto()


@dataclass(frozen=True)
class Cut:
    begin: int
    end: int
    state: State


def bgp_length(octets, at):
    """The octets of the message whose header is there, or 0 where that is none."""
    length = number_at(octets, at + 16, 2)
    fits = octets[at:at + 16] == MARKER and BGP_HEADER <= length <= BGP_MOST and number_at(octets, at + 18, 1) in BGP_TYPES
    return length if fits else 0


def ldp_length(octets, at):
    length = number_at(octets, at + 2, 2)
    fits = number_at(octets, at, 2) == LDP_VERSION and LDP_LEAST <= length <= LDP_MOST
    return LDP_HEADER + length if fits else 0


def next_bgp(octets, at):
    """Where the next message begins, by its marker; the end where there is none."""
    at = octets.find(MARKER, at)
    while at >= 0 and len(octets) - at >= BGP_HEADER and not bgp_length(octets, at):
        at = octets.find(MARKER, at + 1)
    return at if at >= 0 else len(octets)


def is_at_end(form, octets, at):
    """Whether the octets end there, or in a header, or another header is there."""
    left = len(octets) - at
    return left == 0 or left > 0 and (left < form.header or form.length(octets, at) > 0)


def is_pdu(octets, at):
    """Whether a PDU seems to be there: its length leads to the end or to another one, and its first message fits into it."""
    length, first = ldp_length(octets, at), number_at(octets, at + 12, 2)
    return MESSAGE_LEAST <= first <= length - 14 and is_at_end(FORMS['ldp'], octets, at + length)


def next_ldp(octets, at):
    """Where the next PDU begins, which has no marker; the end where there is none."""
    at = octets.find(b'\0\1', at)
    while at >= 0 and not is_pdu(octets, at):
        at = octets.find(b'\0\1', at + 1)
    return at if at >= 0 else len(octets)


@dataclass(frozen=True)
class Form:
    """How octets of a protocol are cut: how many a header has, the length that it says, and the place of the next one, which with a
    marker is known surely."""

    header: int
    length: object
    next: object
    has_marker: bool


FORMS = {'bgp': Form(BGP_HEADER, bgp_length, next_bgp, True), 'ldp': Form(LDP_HEADER, ldp_length, next_ldp, False)}
HEADERS = {kind: form.header for kind, form in FORMS.items()}


def next_cut(form, octets, at):
    """What begins at a place. A length that leads to no other header counts only where no marker comes before that."""
    length = form.length(octets, at)
    end = at + length
    if length and (is_at_end(form, octets, end) or end < len(octets) and not form.has_marker):
        return Cut(at, end, State.WHOLE)
    after = form.next(octets, at + 1)
    if length and end < after:
        return Cut(at, end, State.WHOLE)
    return Cut(at, after, State.BROKEN)


def cuts(kind, octets, is_begun):
    """What a run is made of; a message or PDU begins with it where it `is_begun`."""
    form, at = FORMS[kind], 0
    if not is_begun and not form.length(octets, 0):
        at = form.next(octets, 1)
        yield Cut(0, at, State.UNKNOWN)
    while at < len(octets):
        cut = next_cut(form, octets, at)
        yield cut
        at = cut.end
