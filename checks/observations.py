#!/usr/bin/env python3
"""Compares what `tools/observe.py` makes of captures with what is expected: `observations.py [--command COMMAND]`.

Captures are written here: of a customer with the sites X and Y and another one with the sites P and Q, by the same addresses, frame by
frame. What the tool answers, by file and frame, has to be what was laid out: that all is well, or which datagram leaked, came twice,
was lost, or left where nobody asked. The same packets come after tags, on other links and in other formats; some cases compare the
events of the input. The captures that are kept in examples/lab/ are judged as well.

The reference program judges, and so does the program where its usage line has the command `audit`: `./mvpn` of this repository, unless
another one is named. Neither root nor a network is needed. Prints the cases that differ, and then 'N passed, M failed'.
"""

import argparse
import hashlib
import ipaddress
import pathlib
import shlex
import struct
import subprocess
import sys
import tempfile
from concurrent.futures import ThreadPoolExecutor
from dataclasses import dataclass

from captures import block, pcap_file
from wireshark import checksum, number

TOP = pathlib.Path(__file__).resolve().parent.parent
TOOL, LAB = TOP / 'tools' / 'observe.py', TOP / 'examples' / 'lab'
REFERENCE = f'{sys.executable} {TOP / "checks" / "reference.py"}'
SCENARIO = """edge E1 192.0.2.1
edge E2 192.0.2.2
link E1 E2 1
vrf V1 E1 1 65000:1 65000:1 highest
vrf V2 E2 1 65000:1 65000:1 highest
vrf V3 E1 2 65000:2 65000:2 highest
vrf V4 E2 2 65000:2 65000:2 highest
site X 10.1.0.0/24,2001:db8:1:0:0:0:0:0/64
site Y 10.2.0.0/24,2001:db8:2:0:0:0:0:0/64
site P 10.1.0.0/24
site Q 10.2.0.0/24
iface X1 V1 X 10.1.0.1
iface X2 V2 X 10.1.0.2
iface X6 V1 X fe80:0:0:0:0:0:0:11
iface Y1 V2 Y 10.2.0.1
iface Y2 V1 Y 10.2.0.2
iface Y6 V2 Y fe80:0:0:0:0:0:0:21
iface P1 V3 P 10.1.0.1
iface Q1 V4 Q 10.2.0.1
"""
FLOW = '10.1.0.9', '232.1.1.1'
FLOW_SIX = '2001:db8:1::9', 'ff3e::8000:1'
EDGE, ROUTER = b'\2\0\0\0\0\1', b'\2\0\0\0\0\2'
UDP, PIM, IGMP, ICMPV6 = 17, 103, 2, 58


# ---- packets

def address(text):
    return ipaddress.ip_address(text).packed


def ip(source, destination, protocol, payload, ttl=9):
    ends = address(source) + address(destination)
    if len(ends) == 32:
        return struct.pack('>IHBB', 6 << 28, len(payload), protocol, ttl) + ends + payload
    front = struct.pack('>BBHHHBB', 0x45, 0, 20 + len(payload), 0, 0, ttl, protocol)
    return front + checksum(front + bytes(2) + ends) + ends + payload


def summed(source, destination, protocol, front, back):
    """The payload with its checksum between these two; that of IPv4 covers the payload alone."""
    ends = address(source) + address(destination)
    pseudo = ends + number(len(front) + 2 + len(back), 4) + bytes(3) + bytes([protocol]) if len(ends) == 32 else b''
    return front + checksum(pseudo + front + bytes(2) + back) + back


def udp(payload, flow=FLOW, ttl=9):
    """A datagram of a flow."""
    return ip(*flow, UDP, struct.pack('>HHHH', 5000, 5001, 8 + len(payload), 0) + payload, ttl)


def encoded(text, front=b''):
    return bytes([1 if ':' not in text else 2, 0]) + front + address(text)


def join_prune(neighbour, flow, is_join=True, holdtime=210, source='10.2.0.2', destination='224.0.0.13'):
    """A packet with a Join/Prune message of one (S,G)."""
    bits = 128 if ':' in neighbour else 32
    group = encoded(flow[1], bytes([0, bits])) + (b'\0\1\0\0' if is_join else b'\0\0\0\1') + encoded(flow[0], bytes([4, bits]))
    body = encoded(neighbour) + bytes([0, 1]) + number(holdtime, 2) + group
    return ip(source, destination, PIM, summed(source, destination, PIM, b'\x23\0', body), 1)


def igmp(kind, group, source='10.2.0.9'):
    return ip(source, group, IGMP, summed(source, group, IGMP, bytes([kind, 0]), address(group)), 1)


def records(*own, source='10.2.0.9', destination='224.0.0.22'):
    """A report of IGMPv3 or MLDv2: the type, the group and the sources of each record."""
    is_six = ':' in source
    body = bytes(2) + number(len(own), 2)
    for kind, group, *sources in own:
        body += bytes([kind, 0]) + number(len(sources), 2) + address(group) + b''.join(map(address, sources))
    protocol = ICMPV6 if is_six else IGMP
    return ip(source, destination, protocol, summed(source, destination, protocol, bytes([143 if is_six else 0x22, 0]), body), 1)


# ---- files

@dataclass(frozen=True)
class Frame:
    """A packet at a time, in seconds, at an interface."""

    time: float
    iface: str
    is_out: bool
    packet: bytes


def into(iface, time, packet):
    return Frame(time, iface, False, packet)


def out(iface, time, packet):
    return Frame(time, iface, True, packet)


def ethernet(frame, tags=b''):
    kind = b'\x08\0' if frame.packet[0] >> 4 == 4 else b'\x86\xdd'
    return b'\1\0\x5e\0\0\1' + (EDGE if frame.is_out else ROUTER) + tags + kind + frame.packet


def cooked(frame):
    kind = b'\x08\0' if frame.packet[0] >> 4 == 4 else b'\x86\xdd'
    sender = EDGE if frame.is_out else ROUTER
    return number(4 if frame.is_out else 2, 2) + b'\0\1\0\6' + sender + bytes(2) + kind + frame.packet


def cooked_2(frame):
    kind = b'\x08\0' if frame.packet[0] >> 4 == 4 else b'\x86\xdd'
    sender = EDGE if frame.is_out else ROUTER
    return kind + bytes(2) + number(3, 4) + b'\0\1' + bytes([4 if frame.is_out else 2, 6]) + sender + bytes(2) + frame.packet


def timed(frames, link, made):
    """A file of pcap with the frames' times."""
    octets = [pcap_file([], link)]
    for frame in frames:
        body, time = made(frame), round(frame.time * 10 ** 6)
        octets += [struct.pack('<IIII', 1000 + time // 10 ** 6, time % 10 ** 6, len(body), len(body)), body]
    return b''.join(octets)


def timed_ng(frames):
    octets = block('>', 0x0a0d0d0a, struct.pack('>IHHq', 0x1a2b3c4d, 1, 0, -1)) + block('>', 1, struct.pack('>HHI', 1, 0, 0))
    for frame in frames:
        body, time = ethernet(frame), 1000 * 10 ** 6 + round(frame.time * 10 ** 6)
        octets += block('>', 6, struct.pack('>IIIII', 0, time >> 32, time & 0xffffffff, len(body), len(body)) + body)
    return octets


def in_time(frames):
    return sorted(frames, key=lambda frame: frame.time)


def two_ways(frames, made=lambda frames: timed(frames, 1, ethernet), last='pcap'):
    """Two files for each interface, one for each direction."""
    for iface in sorted({frame.iface for frame in frames}):
        own = in_time(frame for frame in frames if frame.iface == iface)
        yield f'{iface}.in.{last}', made([frame for frame in own if not frame.is_out])
        yield f'{iface}.out.{last}', made([frame for frame in own if frame.is_out])


def one_file(frames, made=lambda frames: timed(frames, 1, ethernet), last='pcap'):
    """One file for each interface, in which the edge says Hello by its own address."""
    own = {line.split()[1]: line.split()[4] for line in SCENARIO.splitlines() if line.startswith('iface')}
    for iface in sorted({frame.iface for frame in frames}):
        hello = ip(str(ipaddress.ip_address(own[iface])), 'ff02::d' if ':' in own[iface] else '224.0.0.13', PIM, b'\x20\0\xdf\xff')
        yield f'{iface}.{last}', made([out(iface, 1, hello), *in_time(frame for frame in frames if frame.iface == iface)])


def observed(files, *options, scenario=SCENARIO, code=None):
    """What the tool writes of files, by its status, its two outputs and the files that it made."""
    with tempfile.TemporaryDirectory() as folder:
        names = []
        for name, octets in files:
            (pathlib.Path(folder) / name).write_bytes(octets)
            names.append(name)
        (pathlib.Path(folder) / 'scenario.txt').write_text(scenario)
        front = [sys.executable, str(TOOL)] if code is None else [sys.executable, '-c', code]
        run = subprocess.run([*front, *options, 'scenario.txt', *names], cwd=folder, capture_output=True, text=True)
        made = {path.name: path.read_text() for path in pathlib.Path(folder).iterdir() if path.name.startswith('made')}
    return run.returncode, run.stdout, run.stderr, made


def judged(files, command, *spans, options=(), scenario=SCENARIO):
    words = [word for span in spans for word in ('--stable', span)]
    status, output, errors, _ = observed(files, *words, '--judge', '--command', command, *options, scenario=scenario)
    return output if status in (0, 8) and output else f'status {status}: {output}{errors}'


# ---- what was seen

PAYLOADS = [b'one', b'two', b'three']
JOINED = into('Y1', 1.0, join_prune('10.2.0.1', FLOW))


def sent(payload, time, *ifaces, flow=FLOW, at='X1', ttl=8):
    """A datagram that enters, and leaves a little later at these interfaces, with a lower TTL."""
    return [into(at, time, udp(payload, flow)), *(out(iface, time + 0.01, udp(payload, flow, ttl)) for iface in ifaces)]


def stream(*payloads, first=3, ifaces=('Y1',), **more):
    return [frame for at, payload in enumerate(payloads) for frame in sent(payload, first + at * 0.5, *ifaces, **more)]


WELL = [JOINED, *stream(*PAYLOADS)]
LONG = bytes(range(200))


def with_six(*frames):
    """A join of IPv6 before these."""
    joined = join_prune('fe80::21', FLOW_SIX, source='fe80::22', destination='ff02::d')
    return [into('Y6', 1, joined), *frames]


def pruned(time):
    return into('Y1', time, join_prune('10.2.0.1', FLOW, is_join=False))


def lost(payload, time):
    return sent(payload, time)


# by name: the frames, what is answered, and the spans; one of two files for each interface if no other is given
SPAN = '+1.5..+9'
ANSWERS = {
    'well': (WELL, 'yes'),
    'no span, and a datagram that did not leave': ([*WELL, *lost(b'four', 5)], 'yes', []),
    'a datagram is lost': (
        [*WELL, *lost(b'four', 5)],
        'no 28 missing\nlost at Y1: site X sent it in frame 4 of X1.in.pcap (+4.000000); it left nowhere'),
    'a datagram is lost at one of two': (
        [JOINED, into('Y2', 1.1, join_prune('10.2.0.2', FLOW)), *stream(b'one', ifaces=('Y1', 'Y2')), *stream(b'two', first=5)],
        'no 27 missing\nlost at Y2: site X sent it in frame 2 of X1.in.pcap (+4.000000); it left at Y1 in frame 2 of Y1.out.pcap '
        '(+4.010000)'),
    'a datagram leaks': (
        [*WELL, out('Q1', 3.02, udp(b'one'))],
        'no 32 admit\nleaked: frame 1 of Q1.out.pcap (+2.020000) left at Q1, which is of another VPN: site X sent it in frame 1 of '
        'X1.in.pcap (+2.000000)'),
    'a datagram leaks outside of all spans': (
        [*WELL, out('Q1', 3.02, udp(b'one'))],
        'no 30 admit\nleaked: frame 1 of Q1.out.pcap (+2.020000) left at Q1, which is of another VPN: site X sent it in frame 1 of '
        'X1.in.pcap (+2.000000)', []),
    'a datagram comes twice': (
        [*WELL, out('Y1', 3.4, udp(b'one'))],
        'no 32 again\ndoubled: frame 2 of Y1.out.pcap (+2.400000) left at Y1, as frame 1 of Y1.out.pcap (+2.010000) did: site X sent it '
        'in frame 1 of X1.in.pcap (+2.000000)'),
    'nobody asks': (
        stream(b'one'),
        'no 28 asked\nunasked: frame 1 of Y1.out.pcap (+0.010000) left at Y1, where nobody asks for it: site X sent it in frame 1 of '
        'X1.in.pcap (+0.000000)', ['+0..+9']),
    'nothing entered': (
        [*WELL, out('Y1', 4.5, udp(b'four'))],
        'no 34 number\nunknown: frame 4 of Y1.out.pcap (+3.500000) left at Y1, and no datagram with these octets entered'),
    'two customers with the same octets': (
        [JOINED, into('Q1', 1.2, join_prune('10.2.0.1', FLOW)), *stream(*PAYLOADS), *stream(*PAYLOADS, first=3.005, at='P1', ifaces=('Q1',))],
        'yes'),
    'the same octets again and again': ([JOINED, *stream(*[b'one'] * 6)], 'yes'),
    'the same octets, and one is lost': (
        [JOINED, *stream(b'one', b'one'), *lost(b'one', 7), *stream(b'one', first=8.5)],
        'no 27 missing\nlost at Y1: site X sent it in frame 3 of X1.in.pcap (+6.000000); it left nowhere'),
    'the same octets, and one comes twice': (
        [JOINED, *stream(b'one', b'one', first=3), out('Y1', 3.02, udp(b'one'))],
        'no 31 again\ndoubled: frame 2 of Y1.out.pcap (+2.020000) left at Y1, as frame 1 of Y1.out.pcap (+2.010000) did: site X sent it '
        'in frame 1 of X1.in.pcap (+2.000000)'),
    'a site at two edges': (
        [JOINED, *(frame for at, payload in enumerate(PAYLOADS) for frame in (
            into('X1', 3 + at, udp(payload)), into('X2', 3.001 + at, udp(payload)), out('Y1', 3.01 + at, udp(payload))))],
        'yes'),
    'long payloads': ([JOINED, *stream(LONG, LONG[1:])], 'yes'),
    'long payloads, one of them changed': (
        [JOINED, *stream(LONG, LONG[1:]), out('Y1', 4, udp(LONG[:-1] + b'x'))],
        'no 32 number\nunknown: frame 3 of Y1.out.pcap (+3.000000) left at Y1, and no datagram with these octets entered'),
    'IPv6': (with_six(*stream(*PAYLOADS, flow=FLOW_SIX, at='X6', ifaces=('Y6',))), 'yes'),
    'IPv6, and one is lost': (
        with_six(*stream(LONG, flow=FLOW_SIX, at='X6', ifaces=())),
        'no 25 missing\nlost at Y6: site X sent it in frame 1 of X6.in.pcap (+2.000000); it left nowhere'),
    'what is sent after a prune goes nowhere': ([*WELL, pruned(6), *lost(b'four', 7)], 'yes'),
    'and if it leaves nobody asked': (
        [*WELL, pruned(6), *stream(b'four', first=7)],
        'no 41 asked\nunasked: frame 4 of Y1.out.pcap (+6.010000) left at Y1, where nobody asks for it: site X sent it in frame 4 of '
        'X1.in.pcap (+6.000000)'),
    'a holdtime that ends': (
        [into('Y1', 1, join_prune('10.2.0.1', FLOW, holdtime=5)), *stream(b'one', b'two'), *lost(b'three', 8)], 'yes'),
    'what is sent after a span': ([*WELL, *lost(b'four', 11)], 'yes'),
    'what is sent between two spans': ([*WELL, *lost(b'four', 11), *stream(b'five', first=13)], 'yes', [SPAN, '+11..+14']),
    'what is lost in a second span': (
        [*WELL, *lost(b'four', 11), *lost(b'five', 13)],
        'no 34 missing\nlost at Y1: site X sent it in frame 5 of X1.in.pcap (+12.000000); it left nowhere', [SPAN, '+11..+14']),
    'a message for another router': ([into('Y1', 1, join_prune('10.2.0.7', FLOW)), *lost(b'one', 3)], 'yes'),
    'a message with a wrong checksum': (
        [into('Y1', 1, JOINED.packet[:-1] + b'\x08'), *lost(b'one', 3)], 'yes'),
    'a report of IGMPv2': ([into('Y1', 1, igmp(0x16, '232.1.1.1')), *stream(*PAYLOADS)], 'yes'),
    'a leave of IGMPv2': (
        [into('Y1', 1, igmp(0x16, '232.1.1.1')), *stream(*PAYLOADS), into('Y1', 5, igmp(0x17, '232.1.1.1')), *lost(b'four', 6)], 'yes'),
    'a report of IGMPv3': ([into('Y1', 1, records((6, '232.1.1.1'), (5, '232.1.1.1', '10.1.0.9'))), *stream(*PAYLOADS)], 'yes'),
    'a report of IGMPv3 without the source': (
        [into('Y1', 1, records((4, '232.1.1.1', '10.1.0.9'))), *lost(b'one', 3)], 'yes'),
    'a report of IGMPv3 that takes the source back': (
        [into('Y1', 1, records((4, '232.1.1.1', '10.1.0.9'))), into('Y1', 1.1, records((4, '232.1.1.1'))), *lost(b'one', 3)],
        'no 27 missing\nlost at Y1: site X sent it in frame 1 of X1.in.pcap (+2.000000); it left nowhere'),
    'a report of MLDv2': (
        [into('Y6', 1, records((4, 'ff3e::8000:1'), source='fe80::22', destination='ff02::16')),
         *stream(*PAYLOADS, flow=FLOW_SIX, at='X6', ifaces=('Y6',))], 'yes'),
    'one link of both families': (
        [Frame(frame.time, frame.iface[0] + last, frame.is_out, frame.packet) for last in '16'
         for frame in with_six(*WELL, *stream(*PAYLOADS, flow=FLOW_SIX, at='X6', ifaces=('Y6',)))],
        'yes'),
    'link-local and unicast packets': (
        [*WELL, into('X1', 4.1, udp(b'a', ('10.1.0.9', '224.0.0.251'))), into('X1', 4.2, udp(b'a', ('10.1.0.9', '10.2.0.9')))], 'yes'),
    'clocks that differ a little': ([JOINED, into('X1', 3.02, udp(b'one')), out('Y1', 3.01, udp(b'one'))], 'yes'),
}

# the events of a script and the report after it, of the frames
TEXTS = {
    'events in their order': (
        [JOINED, *lost(b'a', 2), into('X1', 2.5, udp(b'a', ('10.1.0.8', '232.1.1.2'))), *stream(LONG, first=5), pruned(7),
         into('Y1', 7.1, join_prune('10.2.0.7', FLOW)), *lost(b'b', 8)],
        f'''pim Y1 {JOINED.packet[20:].hex()}
active X1 10.1.0.9 232.1.1.1
tick 1
packet X {udp(b'a').hex()}
active X1 10.1.0.8 232.1.1.2
packet X {udp(b'a', ('10.1.0.8', '232.1.1.2')).hex()}
tick 4
state
packet X DIGEST
drain
tick 1
pim Y1 {pruned(0).packet[20:].hex()}
pim Y1 {join_prune('10.2.0.7', FLOW)[20:].hex()}
tick 1
settle
packet X {udp(b'b').hex()}
report
state 0 0 0 0 0
out 3 Y1 DIGEST
refused 33 ours
''', ['+3.5..+6.5']),
}


# ---- the cases

def difference(came, wanted):
    return '' if came == wanted else f'came {came!r}, and wanted is {wanted!r}'


def answer_of(case):
    command, (frames, _, *spans) = case
    return judged(two_ways(frames), command, *(spans or [[SPAN]])[0])


def answer_cases(commands):
    for command in commands:
        with ThreadPoolExecutor(4) as pool:
            came = list(pool.map(answer_of, [(command, case) for case in ANSWERS.values()]))
        yield from ((name, difference(own, f'{case[1]}\n')) for (name, case), own in zip(ANSWERS.items(), came))


def other_files():
    """By name, the same frames in other files."""
    frames = [*ANSWERS['a datagram leaks'][0], *with_six()]
    yield 'one file for each interface', one_file(frames)
    yield 'tags of VLANs', two_ways(frames, lambda own: timed(own, 1, lambda frame: ethernet(frame, b'\x88\xa8\0\7\x81\0\0\5')))
    yield 'cooked captures', one_file(frames, lambda own: timed(own, 113, cooked))
    yield 'cooked captures of version 2', one_file(frames, lambda own: timed(own, 276, cooked_2))
    yield 'bare IP', two_ways(frames, lambda own: timed(own, 101, lambda frame: frame.packet))
    yield 'pcapng', two_ways(frames, timed_ng, 'pcapng')
    yield 'pcapng, one file for each interface', one_file(frames, timed_ng, 'pcapng')
    yield 'frames that are padded', two_ways(frames, lambda own: timed(own, 1, lambda frame: ethernet(frame) + bytes(9)))


def other_cases(commands):
    for name, made in other_files():
        files = list(made)
        for command in commands:
            yield name, difference(judged(files, command, '+1.5..+9').splitlines()[:1], ['no 33 admit'])


def text_cases():
    payload = hashlib.sha256(udp(LONG)[20:]).digest()
    ports = struct.pack('>HHH', 5000, 5001, 40)
    pseudo = address(FLOW[0]) + address(FLOW[1]) + bytes([0, UDP]) + number(40, 2)
    digest = ip(*FLOW, UDP, ports + checksum(pseudo + ports + bytes(2) + payload) + payload).hex()
    for name, (frames, wanted, spans) in TEXTS.items():
        words = [word for span in spans for word in ('--stable', span)]
        status, output, _, _ = observed(two_ways(frames), *words)
        yield name, difference((status, output), (0, SCENARIO + 'events\n' + wanted.replace('DIGEST', digest)))


def option_cases():
    files = list(two_ways(WELL))
    _, _, _, made = observed(files, '--stable', SPAN, '--output', 'made', '--map', 'made.map')
    lines = made['made'].splitlines()
    mapped = [(lines[int(line) - 1].split()[0], file, frame) for line, file, frame in map(str.split, made['made.map'].splitlines())]
    wanted = [('pim', 'Y1.in.pcap', '1'), ('active', 'X1.in.pcap', '1'), *(('packet', 'X1.in.pcap', str(at)) for at in (1, 2, 3))]
    yield 'the map of lines', difference(mapped, wanted + [('out', 'Y1.out.pcap', str(at)) for at in (1, 2, 3)])
    no_hello = [(name.replace('.in.', '.'), octets) for name, octets in files if '.in.' in name]
    yield 'no direction', difference(observed(no_hello)[0], 2)
    own = ['--own', 'X1=02:00:00:00:00:01', '--own', 'Y1=02:00:00:00:00:01']
    yield 'an own address', difference(judged(no_hello, REFERENCE, '+0..+1', options=own), 'yes\n')
    yield 'no capture', difference(observed([('X1.pcap', b'no capture')])[0], 2)


def split_cases():
    """The limit of events is set lower than it is."""
    code = f"import sys; sys.path.insert(0, {str(TOOL.parent)!r}); import observe; observe.EVENTS = 12; sys.exit(observe.main())"
    frames = [JOINED, *stream(*[bytes([at]) for at in range(20)]), *lost(b'lost', 13.2)]
    status, output, errors, made = observed(
        two_ways(frames), '--stable', '+1.5..+5', '--stable', '+6..+30', '--output', 'made', '--judge', '--command', REFERENCE, code=code)
    answers = [line for line in output.splitlines() if line == 'yes' or line.startswith('no ')]
    yield 'an input that is split', difference((status, len(answers) > 3, answers[-1]), (8, True, 'no 31 missing'))
    sends = [sum(line.startswith('packet') for line in text.splitlines()) for text in made.values()]
    yield 'each datagram in one part', difference((sum(sends), max(sends) < 12), (21, True))


def lab_cases(commands):
    """The captures of the lab, with the spans and the answers that are beside them."""
    for path in sorted(LAB.glob('*/answer')):
        files = [(file.name, file.read_bytes()) for file in path.parent.glob('*.pcap')]
        span, *wanted = path.read_text().splitlines()
        for command in commands:
            came = judged(files, command, span, scenario=(LAB / 'scenario.txt').read_text())
            yield f'lab, {path.parent.name}', difference(came.splitlines(), wanted)


def cases(commands):
    yield from answer_cases(commands)
    yield from other_cases(commands)
    yield from text_cases()
    yield from option_cases()
    yield from split_cases()
    yield from lab_cases(commands)


def has_audit(command):
    run = subprocess.run(shlex.split(command), stdin=subprocess.DEVNULL, capture_output=True, text=True)
    return ' audit' in run.stdout


def main():
    options = argparse.ArgumentParser(description='Compares what tools/observe.py makes of captures with what is wanted.')
    options.add_argument('--command', default=str(TOP / 'mvpn'), help='judges as well')
    command = options.parse_args().command
    passed, failed = 0, 0
    for name, reported in cases([REFERENCE, *([command] if has_audit(command) else [])]):
        print(f'{name}: {reported}\n' if reported else '', end='')
        passed, failed = passed + (not reported), failed + bool(reported)
    print(f'{passed} passed, {failed} failed')
    return 1 if failed else 0


if __name__ == '__main__':
    sys.exit(main())
