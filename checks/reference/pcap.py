"""Files of hops (core_pcap: Words, Spelling, FirstFault, File), and the lines of a file (mvpn_tool: HopLines)."""

from dataclasses import dataclass

from .events import Halted, outcome
from .lines import TextFault
from .report import Hop, hex_text
from .script import read
from .world import clock_of, start

MAGIC = 0xA1B2C3D4
# time zone, accuracy and longest frame of the header that is written
PASSED = (0, 0, 65535)
FRONT = bytes([2, 0, 0, 0])
MPLS = 0x8847
TEXT_LIMIT = 16_777_216


@dataclass(frozen=True)
class CoreHop:
    tick: int
    start: int
    end: int
    label: int
    ttl: int
    octets: tuple


@dataclass(frozen=True)
class Fault(Exception):
    """The first fault: its place and its word."""

    place: int
    word: str


# ---- writing

def written_header():
    return number(MAGIC, 4) + number(2, 2) + number(4, 2) + b''.join(number(field, 4) for field in PASSED) + number(1, 4)


def number(value, size, order='big'):
    return value.to_bytes(size, order)


def node_octets(node):
    return FRONT + number(node, 2)


def hop_text(hop, order='big'):
    frame = node_octets(hop.end) + node_octets(hop.start) + number(MPLS, 2) + number(hop.label * 4096 + 256 + hop.ttl, 4) + bytes(hop.octets)
    fields = [hop.tick // 1000, hop.tick % 1000 * 1000, len(frame), len(frame)]
    return b''.join(number(field, 4, order) for field in fields) + frame


def written_file(hops):
    return written_header() + b''.join(map(hop_text, hops))


# ---- reading

class Fields:
    """The fields of octets from left to right."""

    def __init__(self, octets):
        self.octets, self.place, self.order = octets, 0, 'big'

    def take(self, size):
        if len(self.octets) - self.place < size:
            raise Fault(self.place, 'short')
        self.place += size
        return self.octets[self.place - size:self.place]

    def number(self, size):
        return int.from_bytes(self.take(size), self.order)

    def check(self, passes, place, word):
        if not passes:
            raise Fault(place, word)


def read_header(fields):
    magic = fields.number(4)
    fields.check(magic in (MAGIC, 0xD4C3B2A1), 0, 'magic')
    fields.order = 'big' if magic == MAGIC else 'little'
    fields.check(fields.number(2) == 2, 4, 'version')
    fields.check(fields.number(2) == 4, 4, 'version')
    for _ in PASSED:
        fields.take(4)
    fields.check(fields.number(4) == 1, 20, 'network')


def read_node(fields):
    place, octets = fields.place, fields.take(6)
    fields.check(octets[:4] == FRONT, place, 'address')
    return int.from_bytes(octets[4:], 'big')


def read_hop(fields):
    begin = fields.place
    seconds, micros = fields.number(4), fields.number(4)
    fields.check(micros % 1000 == 0 and micros < 1_000_000, begin + 4, 'time')
    size = fields.number(4)
    fields.check(18 <= size <= 65535, begin + 8, 'length')
    fields.check(fields.number(4) == size, begin + 12, 'length')
    end, node = read_node(fields), read_node(fields)
    fields.check(int.from_bytes(fields.take(2), 'big') == MPLS, begin + 28, 'ether-type')
    shim = int.from_bytes(fields.take(4), 'big')
    label, ttl = shim >> 12, shim & 0xFF
    fields.check(shim >> 8 & 0xF == 1 and label >= 16 and ttl != 0, begin + 30, 'shim')
    return CoreHop(seconds * 1000 + micros // 1000, node, end, label, ttl, tuple(fields.take(size - 18)))


def read_file(octets):
    """The hops of a file before its first fault, and that fault or None."""
    fields, hops = Fields(octets), []
    try:
        read_header(fields)
        while fields.place < len(octets):
            hops.append(read_hop(fields))
    except Fault as fault:
        return hops, fault
    return hops, None


# ---- the two commands

def hop_line(hop):
    return f'hop {hop.tick} {hop.start} {hop.end} {hop.label} {hop.ttl} {hex_text(hop.octets)}\n'


def hops(octets):
    """The lines of a file, and the status."""
    if len(octets) > TEXT_LIMIT:
        return 'fault 1:1 long\n', 3
    found, fault = read_file(octets)
    reported = ''.join(map(hop_line, found))
    return (reported, 0) if fault is None else (f'{reported}refused {fault.place} {fault.word}\n', 1)


def hops_of(script):
    """The hops of the report of a script, each with the clock at its event and the octets of its datagram; and whether it halts."""
    world, found = start(script.scenario), []
    for timed in script.events:
        new = outcome(world, timed)
        sent = world.datagrams if isinstance(new, Halted) else new.world.datagrams
        found += [CoreHop(clock_of(world), line.start, line.end, line.label, line.ttl, sent[line.number - 1].octets)
                  for lines in new.acts for line in lines if isinstance(line, Hop)]
        if isinstance(new, Halted):
            return found, True
        world = new.world
    return found, False


def pcap(text):
    """The file of the hops of a script, or the line of the text's fault; and the status."""
    try:
        script = read(text)
    except TextFault as fault:
        return f'{fault}\n'.encode(), 3
    found, is_halted = hops_of(script)
    return written_file(found), 7 if is_halted else 0
