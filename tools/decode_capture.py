#!/usr/bin/env python3
"""Writes what the messages of BGP, LDP and PIM in capture files say, by `mvpn decode`: `decode_capture.py [--command COMMAND] CAPTURE..`

A capture is a file of pcap or pcapng, of links of Ethernet, Linux cooked captures or bare IP; tags of VLANs and MPLS labels in front
of a packet are passed over. What each end of a connection of TCP from or to port 179 or 646 sends is put together, whatever the order
of the segments, and cut into messages of BGP and PDUs of LDP. These are handed to `decode bgp` and `decode ldp`, many in one call, and
so are LDP's hellos over UDP; Join/Prune messages of PIM over IPv4 and IPv6 go to `decode pim`, each in a call. The command is `./mvpn`
of this repository, unless another one is named. Each line that comes back is written after the number of its frame, by which all
octets of the message had come, the frame's time in seconds, and the two ends. This tool's own words are in brackets:

    [N octets are left out]     after a fault, or where it is not known yet where a message begins. BGP goes on at the next marker,
                                LDP at the next PDU. `refused PLACE` counts from the first octet of the message or the PDU
    [N octets are missing]      they are not in the capture
    [Hello], [AFI 1 SAFI 1]     the type of what the program passes over: a message, or the routes of an UPDATE
    [FEC Prefix 10.2.0.0/24]    the FEC of a label message that is passed over, as of a unicast prefix, and [label 16] its label
    [status 10]                 what a Notification of LDP says (RFC 5036 section 3.9)
    [checksum ..]               the checksum of a Join/Prune message is tried by the packet's own addresses. Where it is right, and
                                the program would expect another one, the message is handed over with that: with IPv6 the one from
                                fe80::1 to ff02::d. Where it is wrong the message is not handed over

What `decode` takes for granted is in docs/FORMATS.md. Fragments of IP are passed over, and counted on standard error.
"""

import argparse
import bisect
import itertools
import pathlib
import shlex
import subprocess
import sys
from dataclasses import dataclass
from ipaddress import ip_address

from captures import Captured, NoCapture, frames
from packets import PIM, TCP, UDP, checksum, number, number_at, pseudo_header, read_frame, read_tcp, read_udp
from streams import HEADERS, Directions, State, cuts

TOP = pathlib.Path(__file__).resolve().parent.parent
PORTS = {179: 'bgp', 646: 'ldp'}
# octets after which a call ends: what comes after a fault is handed over again
MOST = 200_000
# the first words of the lines of a message of BGP, and the families of the routes that are read
BGP_WORDS = ('open', 'update', 'notification', 'keepalive', 'refresh')
FAMILIES = ((1, 5), (2, 5), (1, 128), (2, 128))
# what the program passes over: messages of LDP (RFC 5036 section 3.7), FEC elements, and messages of PIM (RFC 8736)
NOTIFICATION, LABEL_MESSAGES = 0x0001, (0x0400, 0x0402, 0x0403)
LDP_TYPES = {
    NOTIFICATION: 'Notification', 0x0100: 'Hello', 0x0200: 'Initialization', 0x0201: 'KeepAlive', 0x0300: 'Address',
    0x0301: 'Address Withdraw', 0x0400: 'Label Mapping', 0x0401: 'Label Request', 0x0402: 'Label Withdraw', 0x0403: 'Label Release',
    0x0404: 'Label Abort Request'}
PREFIX = 2
FECS = {1: 'Wildcard', PREFIX: 'Prefix', 5: 'Typed Wildcard', 128: 'PWid', 129: 'Generalized PWid'}
# TLVs of LDP (RFC 5036 section 3.4), and by the numbers of address families the octets of an address
FEC_TLV, LABEL_TLV, STATUS_TLV = 0x0100, 0x0200, 0x0300
FAMILY_SIZES = {1: 4, 2: 16}
JOIN_PRUNE = 3
PIM_TYPES = {
    0: 'Hello', 1: 'Register', 2: 'Register-Stop', 4: 'Bootstrap', 5: 'Assert', 6: 'Graft', 7: 'Graft-Ack',
    8: 'Candidate-RP-Advertisement', 9: 'State Refresh', 10: 'DF Election'}
# the ends by which the program takes the checksum of a message of IPv6 (docs/FORMATS.md, PIM Join/Prune messages)
PROFILE = ip_address('fe80::1').packed, ip_address('ff02::d').packed


@dataclass(frozen=True)
class Piece:
    """A message or a PDU that is handed over; or a broken one of so many octets, which go up to the next one; or a note of this tool,
    where `kind` is empty."""

    frame: Captured
    ends: str
    kind: str
    octets: bytes = b''
    broken: int = 0
    note: str = ''

    def count(self):
        return self.broken or len(self.octets)


# ---- the pieces of a capture

def end_text(address, port):
    text = str(ip_address(address))
    return f'[{text}]:{port}' if ':' in text else f'{text}:{port}'


def ends_text(packet, ports=None):
    ends = packet.source, packet.destination
    return ' > '.join(map(end_text, ends, ports) if ports else (str(ip_address(end)) for end in ends))


def kind_of(ports):
    return next((PORTS[port] for port in ports if port in PORTS), '')


def cut_piece(frame, ends, kind, octets, cut):
    """Of a broken message or PDU no less than a header is handed over, where there are so many octets."""
    count = cut.end - cut.begin
    if cut.state == State.UNKNOWN:
        return Piece(frame, ends, '', note=left_out(count))
    if cut.state == State.WHOLE:
        return Piece(frame, ends, kind, octets[cut.begin:cut.end])
    return Piece(frame, ends, kind, octets[cut.begin:max(cut.end, cut.begin + HEADERS[kind])], count)


def run_pieces(ends, kind, run):
    if run.missing:
        yield Piece(run.marks[0][1], ends, '', note=f'[{run.missing} octets are missing]')
    octets = bytes(run.octets)
    for cut in cuts(kind, octets, run.missing == 0):
        yield cut_piece(run.frame_at(cut.end), ends, kind, octets, cut)


def datagram_pieces(frame, packet):
    """LDP over UDP (RFC 5036 section 2.4)."""
    ports, octets = read_udp(packet.payload)
    if kind_of(ports) == 'ldp':
        for cut in cuts('ldp', octets, True):
            yield cut_piece(frame, ends_text(packet, ports), 'ldp', octets, cut)


class Reading:
    """What the frames of a capture carry: pieces, and connections whose pieces are known at the end."""

    def __init__(self):
        self.pieces, self.fragments = [], 0
        self.directions = Directions()

    def read(self, frame):
        packet = read_frame(frame.link, frame.octets)
        if packet is None:
            return
        if packet.is_fragment:
            self.fragments += 1
        elif packet.protocol == TCP:
            self.read_segment(frame, packet)
        elif packet.protocol == UDP:
            self.pieces += datagram_pieces(frame, packet)
        elif packet.protocol == PIM:
            self.pieces.append(pim_piece(frame, packet))

    def read_segment(self, frame, packet):
        segment = read_tcp(packet.payload)
        if segment and kind_of(segment.ports):
            self.directions.add((ends_text(packet, segment.ports), kind_of(segment.ports)), segment, frame)

    def all(self):
        for (ends, kind), direction in self.directions.all:
            for run in direction.runs():
                self.pieces += run_pieces(ends, kind, run)
        return self.pieces


# ---- PIM

def pim_piece(frame, packet):
    ends, octets = ends_text(packet), packet.payload
    version, kind = divmod(octets[0], 16) if octets else (0, 0)
    if version != 2 or len(octets) < 4:
        return Piece(frame, ends, '', note=f'[PIM, version {version}, {len(octets)} octets]')
    if kind != JOIN_PRUNE:
        return Piece(frame, ends, '', note=f'[PIM {PIM_TYPES.get(kind, kind)}]')
    if checksum(own_front(packet) + octets):
        return Piece(frame, ends, '', note='[checksum of a Join/Prune message is wrong]')
    front = pseudo_header(*PROFILE, PIM, len(octets)) if octets[4:5] == b'\2' else b''
    wanted = number(checksum(front + octets[:2] + bytes(2) + octets[4:]), 2)
    if wanted == octets[2:4]:
        return Piece(frame, ends, 'pim', octets)
    note = f'[checksum is right, and the message handed over with {wanted.hex()}]'
    return Piece(frame, ends, 'pim', octets[:2] + wanted + octets[4:], note=note)


def own_front(packet):
    """What the checksum of a message covers in front of it: nothing with IPv4 (RFC 7761 section 4.9)."""
    ends = packet.source, packet.destination
    return pseudo_header(*ends, PIM, len(packet.payload)) if len(packet.source) == 16 else b''


# ---- what the program passes over

def left_out(count):
    return f'[{count} octets are left out]'


def in_brackets(words):
    return ''.join(f' [{word}]' for word in words)


def ldp_messages(pdu):
    """The places of the messages of a PDU, each with its end by its length."""
    at = 10
    while at + 4 <= len(pdu):
        end = at + 4 + number_at(pdu, at + 2, 2)
        yield at, end
        at = max(end, at + 4)


def tlvs(message):
    """The values of the TLVs of a message of LDP (RFC 5036 section 3.3), by their types."""
    found, at = {}, 8
    while at + 4 <= len(message):
        end = at + 4 + number_at(message, at + 2, 2)
        found.setdefault(number_at(message, at, 2) & 0x3fff, message[at + 4:end])
        at = end
    return found


def fec_texts(value):
    """The FEC elements of a TLV: prefixes (RFC 5036 section 3.4.1), and the type of the first element that is none."""
    at = 0
    while at < len(value):
        size, length = FAMILY_SIZES.get(number_at(value, at + 1, 2)), number_at(value, at + 3, 1)
        end = at + 4 + -(-length // 8)
        if value[at] != PREFIX or not size or length > 8 * size or end > len(value):
            yield f'FEC {FECS.get(value[at], value[at])}'
            return
        yield f'FEC Prefix {ip_address(value[at + 4:end].ljust(size, bytes(1)))}/{length}'
        at = end


def ldp_passed(message):
    """A message that is ignored: its name, the status that it notifies, and the FEC and the label of a label message."""
    kind, found = number_at(message, 0, 2) & 0x7fff, tlvs(message)
    yield LDP_TYPES.get(kind, f'type {kind}')
    if kind == NOTIFICATION and STATUS_TLV in found:
        yield f'status {number_at(found[STATUS_TLV], 0, 4) & 0x3fffffff}'
    if kind in LABEL_MESSAGES:
        yield from fec_texts(found.get(FEC_TLV, b''))
        if LABEL_TLV in found:
            yield f'label {number_at(found[LABEL_TLV], 0, 4)}'


def attributes(update):
    """The types and values of the path attributes of an UPDATE, and the place after them."""
    at = 21 + number_at(update, 19, 2)
    at, last = at + 2, at + 2 + number_at(update, at, 2)
    found = []
    while at < last:
        size = 2 if update[at] & 0x10 else 1
        begin = at + 2 + size
        end = begin + number_at(update, at + 2, size)
        found.append((update[at + 1], update[begin:end]))
        at = end
    return found, last


def update_passed(update):
    """Routes of IPv4 unicast, and of other families."""
    found, last = attributes(update)
    if number_at(update, 19, 2) or last < len(update):
        yield 'IPv4 unicast'
    for kind, value in found:
        family = number_at(value, 0, 2), number_at(value, 2, 1)
        if kind in (14, 15) and family not in FAMILIES:
            yield 'AFI {} SAFI {}'.format(*family)


def bgp_passed(message, line):
    if line == 'update':
        return update_passed(message)
    return [f'code {message[19]}, subcode {message[20]}'] if line == 'notification' and len(message) > 20 else []


# ---- what the program reports

@dataclass(frozen=True)
class Fault:
    place: int
    word: str


def decode(program, kind, octets):
    """The lines that the program writes of octets, and the fault that it reports after them, if any."""
    run = subprocess.run([*program, 'decode', kind], input=octets.hex() + '\n', capture_output=True, text=True)
    lines = run.stdout.splitlines()
    if run.returncode == 0:
        return lines, None
    if run.returncode != 1 or not lines or not lines[-1].startswith('refused '):
        sys.exit(f'{shlex.join(program)} decode {kind}: status {run.returncode}\n{run.stdout}{run.stderr}')
    _, place, word = lines.pop().split(' ')
    return lines, Fault(int(place), word)


def grouped(kind, pieces, lines):
    """The lines of each of the pieces: of a message of BGP the first one and those of its routes, of a PDU one for each message. After
    a fault they are fewer."""
    if kind == 'bgp':
        begins = [place for place, line in enumerate(lines) if line in BGP_WORDS] + [len(lines)]
        return [lines[begin:end] for begin, end in itertools.pairwise(begins)]
    rest = iter(lines)
    return [list(itertools.islice(rest, sum(1 for _ in ldp_messages(piece.octets)))) for piece in pieces]


def faulty(kind, pieces, groups, fault):
    """The number of the piece with the fault, and where it begins. It is the one at the place of the fault, but for a fault at the end
    of a PDU: there it is the first one with fewer lines than messages."""
    starts = list(itertools.accumulate((len(piece.octets) for piece in pieces[:-1]), initial=0))
    at_place = bisect.bisect_right(starts, fault.place) - 1
    if kind == 'bgp':
        return at_place, starts[at_place]
    counts = [sum(1 for _ in ldp_messages(piece.octets)) for piece in pieces]
    lacking = (at for at, count in enumerate(counts) if len(groups[at]) < count)
    number = min(at_place, next(lacking, at_place))
    return number, starts[number]


def batch(pieces, begin):
    """The pieces from one on that go into one call: one that is not whole is the last of them."""
    size = 0
    for end in range(begin, len(pieces)):
        size += len(pieces[end].octets)
        if pieces[end].broken or size > MOST:
            return pieces[begin:end + 1]
    return pieces[begin:]


def whole_text(kind, piece, lines):
    """The lines of a piece, with what the program passes over in it."""
    if kind == 'bgp':
        return [lines[0] + in_brackets(bgp_passed(piece.octets, lines[0])), *lines[1:]] if lines else []
    messages = [piece.octets[begin:end] for begin, end in ldp_messages(piece.octets)]
    return [line + in_brackets(ldp_passed(message) if line.startswith('ignored') else []) for line, message in zip(lines, messages)]


def faulty_text(kind, piece, lines, place, word):
    """The lines before the fault, and the fault with the octets from the first one of its message on."""
    begins = [begin for begin, _ in ldp_messages(piece.octets)] if kind == 'ldp' and not piece.broken else [0]
    begin = begins[len(lines)] if len(lines) < len(begins) else place
    return [*whole_text(kind, piece, lines), f'refused {place} {word} {left_out(piece.count() - begin)}']


def stream_texts(program, kind, pieces):
    """The lines of each of the pieces."""
    begin = 0
    while begin < len(pieces):
        some = batch(pieces, begin)
        lines, fault = decode(program, kind, b''.join(piece.octets for piece in some))
        groups = grouped(kind, some, lines)
        count, start = faulty(kind, some, groups, fault) if fault else (len(some), 0)
        yield from (whole_text(kind, piece, own) for piece, own in zip(some[:count], groups[:count], strict=True))
        if fault:
            own = groups[count] if count < len(groups) else []
            yield faulty_text(kind, some[count], own, fault.place - start, fault.word)
        begin += count + bool(fault)


def pim_text(program, piece):
    lines, fault = decode(program, 'pim', piece.octets)
    if fault:
        lines.append(f'refused {fault.place} {fault.word} {left_out(len(piece.octets))}')
    return [lines[0] + (f' {piece.note}' if piece.note else ''), *lines[1:]]


def texts(program, pieces):
    """The lines of each piece."""
    found = {number: [piece.note] for number, piece in enumerate(pieces) if not piece.kind}
    for kind in PORTS.values():
        numbers = [number for number, piece in enumerate(pieces) if piece.kind == kind]
        found.update(zip(numbers, stream_texts(program, kind, [pieces[number] for number in numbers])))
    found.update((number, pim_text(program, piece)) for number, piece in enumerate(pieces) if piece.kind == 'pim')
    return found


# ---- files

def pieces_of(path):
    reading = Reading()
    try:
        for frame in frames(path.read_bytes()):
            reading.read(frame)
    except OSError as error:
        print(f'{path}: {error.strerror}', file=sys.stderr)
    except NoCapture as place:
        print(f'{path}: from octet {place} on no file of pcap or pcapng', file=sys.stderr)
    if reading.fragments:
        print(f'{path}: {reading.fragments} fragments of IP are passed over', file=sys.stderr)
    return reading.all()


def reported(program, path):
    """The lines of a capture, in the order of its frames."""
    pieces = pieces_of(path)
    found = texts(program, pieces)
    for number, piece in sorted(enumerate(pieces), key=lambda one: one[1].frame.number):
        seconds, rest = divmod(piece.frame.time, 10 ** 9)
        for text in found[number]:
            yield f'{piece.frame.number} {seconds}.{rest:09} {piece.ends} {text}'


def main():
    options = argparse.ArgumentParser(description='Writes what messages of BGP, LDP and PIM in capture files say.')
    options.add_argument('--command', default=str(TOP / 'mvpn'), help='runs the program')
    options.add_argument('captures', nargs='+', type=pathlib.Path)
    given = options.parse_args()
    for path in given.captures:
        front = f'{path} ' if len(given.captures) > 1 else ''
        for line in reported(shlex.split(given.command), path):
            print(front + line)


if __name__ == '__main__':
    main()
