#!/usr/bin/env python3
"""Compares what `tools/decode_capture.py` reads in capture files with what is expected: `captures.py [--command COMMAND]`.

Of each example and its report `tools/wireshark.py` makes a file. What is read in each direction of its sessions has to be what
`decode` reads in all that the node put there, and of PIM it has to be the Join/Prune messages of the customers' events. Where
`tshark` is installed, it has to report the same messages, by their types, in the same frames at the same times.

The octets of one example are then put into segments and files of other kinds: cut short, in another order, sent twice, after tags and
labels, on other links, in other formats. What is read has to be the same. Last come streams with faults and with octets that are
missing, and messages of PIM with other checksums, whose lines are laid out here; and captures of live daemons, with their lines beside
them (examples/lab/daemons), of which tshark has to report the same prefixes and labels, too.

The command is `./mvpn` of this repository, unless another one is named. Prints the cases that differ, and then 'N passed, M failed'.
"""

import argparse
import ipaddress
import pathlib
import re
import shlex
import shutil
import struct
import subprocess
import sys
import tempfile

from reference.pim import message_of
from reference.script import read
from rows import starts
from wireshark import BGPS, LDPS, addr, bgp, captured, checksum, examples, group, ipv4, join_prune, ldp, number, pcap, pdu, replayed
from wireshark import streams_of

TOP = pathlib.Path(__file__).resolve().parent.parent
TOOL = [sys.executable, str(TOP / 'tools' / 'decode_capture.py')]
LAB = TOP / 'examples' / 'lab'
# the example whose octets are put into other segments and files
OTHERWISE = 'dual-homed.txt'
# by its first word, the type of a message, as tshark reports it
TYPES = {
    'open': 1, 'update': 2, 'notification': 3, 'keepalive': 4, 'refresh': 5,
    'mapping': 0x400, 'withdraw': 0x402, 'release': 0x403, 'joinprune': 3}


# ---- what is read

def reported(command, capture):
    """The lines that the tool writes of a file, each as frame, time, the two ends and the rest."""
    with tempfile.NamedTemporaryFile() as file:
        file.write(capture)
        file.flush()
        run = subprocess.run([*TOOL, '--command', command, file.name], capture_output=True, text=True)
    if run.returncode or run.stderr:
        return [('', '', '', '', '', f'status {run.returncode} {run.stderr}')]
    return [tuple(line.split(' ', 5)) for line in run.stdout.splitlines()]


def texts(lines):
    return [line[5] for line in lines]


def differences(came, wanted):
    """The first line in which two lists differ."""
    for place, (own, other) in enumerate(zip([*came, 'nothing'], [*wanted, 'nothing']), 1):
        if own != other:
            return f'line {place} is {own!r}, and not {other!r}'
    return ''


def decoded(program, kind, octets):
    run = subprocess.run([*program, 'decode', kind], input=octets.hex() + '\n', capture_output=True, text=True)
    return run.stdout.splitlines()


# ---- the examples

def host(end):
    """The address of an end, without its port."""
    return end.rsplit(':', 1)[0]


def by_direction(lines):
    """The lines of sessions, by protocol and the two addresses."""
    found = {}
    for _, _, a, _, b, text in lines:
        ports = {end.rsplit(':', 1)[-1] for end in (a, b)}
        kind = 'bgp' if '179' in ports else 'ldp' if '646' in ports else ''
        if kind:
            found.setdefault((kind, host(a), host(b)), []).append(text)
    return found


def session_lines(program, scenario, report):
    addresses = {node.name: str(ipaddress.ip_address(bytes(node.addr.octets))) for node in scenario.nodes}
    return {
        (kind, addresses[a], addresses[b]): decoded(program, kind, bytes(octets))
        for (kind, a, b), octets in streams_of(report).items()}


def spelled(address):
    return ipaddress.ip_address(bytes(address.octets)).exploded


def message_lines(message):
    yield f'joinprune {spelled(message.neighbour)} {message.holdtime}'
    for one in message.groups:
        yield f'group {spelled(one.group)}'
        yield from (f'join {source.kind} {spelled(source.addr)}' for source in one.joins)
        yield from (f'prune {source.kind} {spelled(source.addr)}' for source in one.prunes)


def pim_lines(script, report):
    """Those of the customers' events up to a halt, but for octets that are refused."""
    lines = [line.split(' ') for line in report.splitlines()]
    refused = {int(words[1]) for words in lines if words[0] == 'refused' and words[2] == 'bytes'}
    last = min([int(words[1]) for words in lines if words[0] == 'halt'], default=script.events[-1].line)
    for timed in script.events:
        if timed.event.word in ('join', 'prune', 'pim') and timed.line <= last and timed.line not in refused:
            yield from message_lines(message_of(script.scenario, timed.event).message)


def type_of(text):
    """The type of a message, by its first line."""
    word, *more = text.split(' ')
    return int(more[0]) if word == 'ignored' else TYPES.get(word)


def fields_of(capture, *fields):
    """These fields of each frame, by tshark."""
    with tempfile.NamedTemporaryFile() as file:
        file.write(capture)
        file.flush()
        words = [word for field in fields for word in ('-e', field)]
        run = subprocess.run(['tshark', '-n', '-r', file.name, '-T', 'fields', *words], capture_output=True, text=True, check=True)
    return [line.split('\t') for line in run.stdout.splitlines()]


def shown(capture):
    """The frame, the time and the type of each message that tshark reports."""
    for frame, time, *types in fields_of(capture, 'frame.number', 'frame.time_epoch', 'bgp.type', 'ldp.msg.type', 'pim.type'):
        yield from ((frame, time, int(kind, 0)) for kinds in types for kind in kinds.split(',') if kind)


def prefixes_shown(capture):
    """The frame, the prefix and the label of each label message of LDP with a prefix that tshark reports."""
    fec = 'ldp.msg.tlv.fec.'
    for frame, *columns in fields_of(capture, 'frame.number', fec + 'pfval', fec + 'len', 'ldp.msg.tlv.generic.label'):
        rows = zip(*(column.split(',') for column in columns))
        yield from ((frame, f'{address}/{length}', label) for address, length, label in rows if address)


def prefixes_in(lines):
    for frame, *_, text in lines:
        found = re.search(r'\[FEC Prefix (\S+)\] \[label (\d+)\]', text)
        if found:
            yield frame, *found.groups()


def example_differences(program, command, name, text):
    """In what the lines of an example's file are not what they have to be."""
    report, script = replayed(program, name, text), read(text)
    capture = captured(name, text, report)
    lines = reported(command, capture)
    own, wanted = by_direction(lines), session_lines(program, script.scenario, report)
    for ends in own.keys() | wanted.keys():
        yield differences(own.get(ends, []), wanted.get(ends, []))
    yield differences([text for _, _, a, _, _, text in lines if a in ('169.254.0.1', 'fe80::1')], list(pim_lines(script, report)))
    if shutil.which('tshark'):
        types = [(frame, time, type_of(text)) for frame, time, *_, text in lines if type_of(text) is not None]
        yield differences(types, list(shown(capture)))


# ---- the same octets in other segments and files

SOURCE, PORTS = '192.0.2.1', {'bgp': 179, 'ldp': 646}


def tcp_packet(place, kind, at, octets, flags=0x18):
    """A packet of the connection of that number, with the octets that its stream has from `at` on."""
    ports = 40000 + place, PORTS[kind]
    return ipv4(place, 64, 6, '192.0.2.2', struct.pack('>HHIIBBHHH', *ports, (at - 20) % 2 ** 32, 1, 0x50, flags, 65535, 0, 0) + octets)


def opened(place, kind):
    """The first packet of a connection, whose stream begins after it."""
    return tcp_packet(place, kind, -1, b'', 0x02)


def in_segments(streams, size):
    """Packets of streams in segments of so many octets."""
    packets = []
    for place, (kind, octets) in enumerate(streams):
        packets.append(opened(place, kind))
        packets += [tcp_packet(place, kind, at, octets[at:at + size]) for at in range(0, len(octets), size)]
    return packets


def swapped(packets):
    """Each two of the packets in the other order."""
    return [packet for at in range(0, len(packets), 2) for packet in reversed(packets[at:at + 2])]


def ethernet(packets, *tags):
    """Frames with tags between the addresses and what they carry."""
    return [bytes(12) + (b''.join(tags) or b'\x08\0') + packet for packet in packets]


def pcap_file(frames, link=1, order='<', magic=0xa1b2c3d4):
    octets = struct.pack(order + 'IHHiIII', magic, 2, 4, 0, 0, 65535, link)
    return octets + b''.join(struct.pack(order + 'IIII', place, 0, len(frame), len(frame)) + frame for place, frame in enumerate(frames))


def block(order, kind, body):
    body += bytes(-len(body) % 4)
    return struct.pack(order + 'II', kind, 12 + len(body)) + body + struct.pack(order + 'I', 12 + len(body))


def pcapng_file(frames, order, simple):
    """A file of one section, whose second interface has the frames, or the first one where the blocks are simple ones."""
    octets = block(order, 0x0a0d0d0a, struct.pack(order + 'IHHq', 0x1a2b3c4d, 1, 0, -1))
    octets += block(order, 1, struct.pack(order + 'HHIHHBxxx', 1, 0, 0, 9, 1, 6)) * 2
    for frame in frames:
        if simple:
            octets += block(order, 3, struct.pack(order + 'I', len(frame)) + frame)
        else:
            octets += block(order, 6, struct.pack(order + 'IIIII', 1, 0, 7, len(frame), len(frame)) + frame)
    return octets


def other_files(streams):
    """By name, files with the same streams."""
    packets = in_segments(streams, 100)
    plain = ethernet(packets)
    yield 'as it is', pcap(packets)
    yield 'segments of 7 octets', pcap(in_segments(streams, 7))
    yield 'segments in another order', pcap(swapped(packets))
    yield 'segments sent twice', pcap([packet for packet in packets for _ in range(2)])
    yield 'longer segments sent again', pcap(in_segments(streams, 50) + in_segments(streams, 100))
    yield 'two tags of VLANs', pcap_file(ethernet(packets, b'\x88\xa8\0\7', b'\x81\0\0\5', b'\x08\0'))
    yield 'two labels', pcap_file(ethernet(packets, b'\x88\x47', b'\0\1\0\xff', b'\0\1\1\xff'))
    yield 'a cooked capture', pcap_file([bytes(14) + b'\x08\0' + packet for packet in packets], link=113)
    yield 'a cooked capture of version 2', pcap_file([b'\x08\0' + bytes(18) + packet for packet in packets], link=276)
    yield 'bare IP', pcap_file(packets, link=101)
    yield 'the most significant octet first', pcap_file(plain, order='>')
    yield 'nanoseconds', pcap_file(plain, magic=0xa1b23c4d)
    yield 'pcapng', pcapng_file(plain, '<', False)
    yield 'pcapng, the most significant octet first', pcapng_file(plain, '>', False)
    yield 'pcapng of simple blocks', pcapng_file(plain, '>', True)


def by_port(lines):
    """The lines of each connection."""
    found = {}
    for _, _, a, _, _, text in lines:
        found.setdefault(a, []).append(text)
    return found


def other_cases(program, command, text):
    """By name, in what other files of an example's octets are read otherwise."""
    report = replayed(program, OTHERWISE, text)
    streams = [(kind, bytes(octets)) for (kind, *_), octets in streams_of(report).items()]
    wanted = {f'{SOURCE}:{40000 + place}': decoded(program, kind, octets) for place, (kind, octets) in enumerate(streams)}
    for name, file in other_files(streams):
        own = by_port(reported(command, file))
        yield name, [differences(own.get(end, []), wanted.get(end, [])) for end in own.keys() | wanted.keys()]


# ---- faults, octets that are missing, and what is passed over

KEEPALIVE, MAPPING, MAPPED = BGPS['keepalive'], LDPS['mapping'], 'mapping 16 p2mp 192.0.2.1 01000400100000'
WITHDRAWN = 'withdraw 1048575 p2mp 192.0.2.1 01000400100000'


def left_out(count):
    return f'[{count} octets are left out]'


def update(attributes, unicast=b''):
    return bgp(2, bytes(2) + number(len(attributes), 2) + attributes + unicast)


def label_mapping(element, label):
    return ldp(0x400, 1, b'\1\0' + number(len(element), 2) + element + b'\2\0\0\4' + number(label, 4))


P2MP = bytes.fromhex('06000104c0000201000701000400100000')

# streams and the lines that they have
STREAMS = {
    'marker': ('bgp', KEEPALIVE + b'\0' + KEEPALIVE[1:] + BGPS['open'], ['keepalive', f'refused 0 marker {left_out(19)}', 'open']),
    'between messages': ('bgp', KEEPALIVE + b'abcde' + KEEPALIVE, ['keepalive', f'refused 0 marker {left_out(5)}', 'keepalive']),
    'attribute': ('bgp', update(b'\x40') + KEEPALIVE, [f'refused 23 attribute-length {left_out(24)}', 'keepalive']),
    'long message': ('bgp', b'\xff' * 16 + b'\x10\1\4' + KEEPALIVE, [f'refused 16 message-length {left_out(19)}', 'keepalive']),
    'length of two messages': ('bgp', b'\xff' * 16 + b'\0\x26\1' + KEEPALIVE * 2, ['open', 'keepalive']),
    'length beyond the next one': (
        'bgp', b'\xff' * 16 + b'\0\x25\1' + KEEPALIVE * 2, [f'refused 0 short {left_out(19)}', 'keepalive', 'keepalive']),
    'no end': ('bgp', KEEPALIVE + KEEPALIVE[:10], ['keepalive', f'refused 0 short {left_out(10)}']),
    'routes passed over': ('bgp', update(bytes.fromhex('800e0500010100 00'), b'\x10\x0a\1'), ['update [IPv4 unicast] [AFI 1 SAFI 1]']),
    'notification': ('bgp', BGPS['notification'], ['notification [code 6, subcode 2]']),
    'version': ('ldp', MAPPING + b'\0\2' + MAPPING[2:] + LDPS['withdraw'], [MAPPED, f'refused 0 version {left_out(47)}', WITHDRAWN]),
    'label': (
        'ldp', pdu(label_mapping(P2MP, 16), label_mapping(P2MP, 15), label_mapping(P2MP, 16)) + MAPPING,
        [MAPPED, f'refused 80 label {left_out(74)}', MAPPED]),
    'after messages': (
        'ldp', pdu(label_mapping(P2MP, 16), b'\0\1\0') + MAPPING, [MAPPED, f'refused 47 message-length {left_out(3)}', MAPPED]),
    'after messages, and an empty PDU': (
        'ldp', pdu(label_mapping(P2MP, 16), b'\0\1\0') + pdu() + MAPPING,
        [MAPPED, f'refused 47 message-length {left_out(3)}', MAPPED]),
    'FEC at the end': ('ldp', pdu(ldp(0x400, 1, bytes.fromhex('01000000'))) + MAPPING, [f'refused 22 fec.short {left_out(12)}', MAPPED]),
    'messages passed over': ('ldp', LDPS['keepalive'] + pdu(label_mapping(bytes.fromhex('020001080a'), 16)) + MAPPING, [
        'ignored 513 [KeepAlive]', 'ignored 1024 [Label Mapping] [FEC Prefix 10.0.0.0/8] [label 16]', MAPPED]),
    'FECs passed over': ('ldp', pdu(
        label_mapping(bytes.fromhex('0200022020010db8' '0200011e0a010204'), 3), label_mapping(b'\1', 0),
        label_mapping(bytes.fromhex('020001210a01020400'), 16)), [
            'ignored 1024 [Label Mapping] [FEC Prefix 2001:db8::/32] [FEC Prefix 10.1.2.4/30] [label 3]',
            'ignored 1024 [Label Mapping] [FEC Wildcard] [label 0]', 'ignored 1024 [Label Mapping] [FEC Prefix] [label 16]']),
    'a status': ('ldp', pdu(ldp(0x0001, 1, bytes.fromhex('0300000a8000000a000000000000'))), ['ignored 1 [Notification] [status 10]']),
}


def missing_files():
    """Files whose captures begin late or lack segments, with their lines."""
    octets = KEEPALIVE * 4
    packets = [opened(0, 'bgp'), tcp_packet(0, 'bgp', 0, octets[:19]), tcp_packet(0, 'bgp', 30, octets[30:])]
    yield 'octets missing', packets, ['keepalive', '[11 octets are missing]', left_out(8), 'keepalive', 'keepalive']
    late = [opened(0, 'bgp'), tcp_packet(0, 'bgp', 19, octets[19:])]
    yield 'octets missing at the begin', late, ['[19 octets are missing]', *['keepalive'] * 3]
    yield 'begun late', [tcp_packet(0, 'bgp', 5, octets[5:])], [left_out(14), *['keepalive'] * 3]
    yield 'begun late, in order', [tcp_packet(0, 'bgp', 19, octets[19:])], ['keepalive'] * 3
    again = [opened(0, 'bgp'), tcp_packet(0, 'bgp', 0, octets[:30]), tcp_packet(0, 'bgp', 999, b'', 2), tcp_packet(0, 'bgp', 1000, octets)]
    yield 'opened again', again, ['keepalive', f'refused 0 short {left_out(11)}', *['keepalive'] * 4]


def ipv6(source, destination, octets):
    ends = [ipaddress.ip_address(end).packed for end in (source, destination)]
    return struct.pack('>IHBB', 6 << 28, len(octets), 103, 1) + b''.join(ends) + octets


def join_six(source, destination):
    """A Join/Prune message of IPv6 for one (S,G), with its checksum between two addresses."""
    addresses = [ipaddress.ip_address(text).packed for text in ('2001:db8:2::1', 'ff3e::8000:1', '2001:db8:1::9')]
    neighbour, to, sender = addresses
    fields = b'\2\0' + neighbour + b'\0\1\0\xd2' + b'\2\0\0\x80' + to + b'\0\1\0\0' + b'\2\0\4\x80' + sender
    ends = b''.join(ipaddress.ip_address(end).packed for end in (source, destination))
    pseudo = ends + number(4 + len(fields), 4) + bytes(3) + b'\x67'
    return b'\x23\0' + checksum(pseudo + b'\x23\0\0\0' + fields) + fields


JOINED_SIX = [
    'group ff3e:0000:0000:0000:0000:0000:8000:0001', 'join sg 2001:0db8:0001:0000:0000:0000:0000:0009']


def pim_files():
    """Files with a message of PIM, with their lines."""
    first = 'joinprune 2001:0db8:0002:0000:0000:0000:0000:0001 210'
    own = join_six('fe80::1', 'ff02::d')
    noted = f'{first} [checksum is right, and the message handed over with {own[2:4].hex()}]'
    wrong = ['[checksum of a Join/Prune message is wrong]']
    joined = join_prune('10.2.0.1', 1, group('232.1.1.1', [('sg', '10.1.0.9')]))
    yield 'fe80::1', ethernet([ipv6('fe80::1', 'ff02::d', own)], b'\x86\xdd'), [first, *JOINED_SIX]
    yield 'fe80::2', ethernet([ipv6('fe80::2', 'ff02::d', join_six('fe80::2', 'ff02::d'))], b'\x86\xdd'), [noted, *JOINED_SIX]
    yield 'fe80::2 with the checksum of fe80::1', ethernet([ipv6('fe80::2', 'ff02::d', own)], b'\x86\xdd'), wrong
    yield 'IPv4', ethernet([ipv4(0, 1, 103, '224.0.0.13', joined)]), ['joinprune 10.2.0.1 1', 'group 232.1.1.1', 'join sg 10.1.0.9']
    yield 'IPv4, another checksum', ethernet([ipv4(0, 1, 103, '224.0.0.13', joined[:2] + b'\0\0' + joined[4:])]), wrong
    yield 'PIM Hello', ethernet([ipv4(0, 1, 103, '224.0.0.13', b'\x20\0\xdf\xff')]), ['[PIM Hello]']
    hello = pdu(ldp(0x100, 1, b'\4\0\0\4\0\x0f\0\0'))
    datagram = struct.pack('>HHHH', 646, 646, 8 + len(hello), 0) + hello
    yield 'LDP Hello', ethernet([ipv4(0, 1, 17, '224.0.0.2', datagram)]), ['ignored 256 [Hello]']


def made_cases(command):
    """By name, in what the lines of files that are laid out here differ."""
    for name, (kind, octets, wanted) in STREAMS.items():
        for size in (1000, 7):
            came = texts(reported(command, pcap(in_segments([(kind, octets)], size))))
            yield f'{name}, segments of {size} octets', [differences(came, wanted)]
    for name, packets, wanted in missing_files():
        yield name, [differences(texts(reported(command, pcap(packets))), wanted)]
    for name, frames, wanted in pim_files():
        yield name, [differences(texts(reported(command, pcap_file(frames))), wanted)]


def lab_differences(command, path):
    """In what the lines of a kept capture differ from those beside it, each after its frame."""
    capture = path.read_bytes()
    lines = reported(command, capture)
    yield differences([f'{line[0]} {line[5]}' for line in lines], path.with_suffix('.lines').read_text().splitlines())
    if shutil.which('tshark'):
        types = [(frame, time, type_of(text)) for frame, time, *_, text in lines if type_of(text) is not None]
        hello = 0
        yield differences(types, [one for one in shown(capture) if one[2] != hello])
        yield differences(list(prefixes_in(lines)), list(prefixes_shown(capture)))


def lab_cases(command):
    for path in sorted(LAB.glob('daemons/*.pcap')):
        yield f'lab, {path.name}', list(lab_differences(command, path))


def cases(program, command):
    for name, text in examples().items():
        yield name, list(example_differences(program, command, name, text))
    yield from other_cases(program, command, examples()[OTHERWISE])
    yield from made_cases(command)
    yield from lab_cases(command)


def main():
    options = argparse.ArgumentParser(description='Compares what tools/decode_capture.py tells with what is wanted.')
    options.add_argument('--command', default=str(TOP / 'mvpn'), help='runs the program')
    command = options.parse_args().command
    program = shlex.split(command)
    if not starts(program):
        print('the program does not start\n0 passed, 1 failed')
        return 1
    passed, failed = 0, 0
    for name, told_differences in cases(program, command):
        differing = [line for line in told_differences if line]
        print(''.join(f'{name}: {line}\n' for line in differing), end='')
        passed, failed = passed + (not differing), failed + bool(differing)
    print(f'{passed} passed, {failed} failed')
    return 1 if failed else 0


if __name__ == '__main__':
    sys.exit(main())
