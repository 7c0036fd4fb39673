#!/usr/bin/env python3
"""Sends octets that no honest peer sends through `decode bgp`, and compares with the reference program: `hostile.py [--command COMMAND]
[--probe] [--seconds N] [--count N] [--seed N]`.

Real UPDATE messages are those of routes of every kind that edges write, of two customers in both families. Each mutation takes some of
them end to end, and turns bits, cuts octets off, doubles or exchanges parts, joins the front of one with the back of another, or
writes other lengths and types. The lines of the messages, but for the tunnels in them, and the first fault must be what the
definitions say (checks/reference/updates.py).

With `--probe` they go through `probe`, in one to four pieces, with joins between them. What is written, and the status, must be what
the definitions say (checks/reference/probe.py). Besides, whatever came: each line `want` has the address of the peer, and no line names
a VRF of another edge.

Stops after so many seconds or mutations, whichever comes first. Prints the seed and the first input that differs, and then 'N passed,
M failed'. The command is `./mvpn` of this repository, unless another one is named; with `--command reference --probe` the definitions
alone are run, which shows that they answer everything.
"""

import argparse
import pathlib
import random
import shlex
import subprocess
import sys
import time

from reference.base import V4, V6, Prefix
from reference.octets import (
    Active, Advert, Intra, Mcast, Mldp, Pmsi, Reach, Selective, SourceJoin, Unicast, Unreach, Update, update_written)
from reference.place import lsp
from reference.probe import addr_text, hex_text, key_text, probe
from reference.updates import messages_in

TOP = pathlib.Path(__file__).resolve().parent.parent
SCENARIO = """edge E1 192.0.2.1
edge E2 192.0.2.2
edge E3 192.0.2.3
link E1 E2 1
link E2 E3 5
vrf V1 E1 1 65000:1 65000:1,65000:9 highest
vrf V2 E2 1 65000:1 65000:1,65000:9 highest
vrf V3 E2 2 65000:2 65000:2 nearest
vrf V4 E3 1 65000:3 65000:1,65000:9 highest
site X 10.1.0.0/16,2001:db8:1:0:0:0:0:0/48
site Y 10.2.0.0/16
site Z 10.3.0.0/16
iface Y1 V2 Y 10.2.0.1
iface Y2 V2 Y 2001:db8:2:0:0:0:0:1
iface Z1 V3 Z 10.3.0.1
iface X1 V1 X 10.1.0.1
probe E2 E1
"""
JOINS = ('join Y1 10.1.0.9 232.1.1.1', 'join Y2 2001:db8:1:0:0:0:0:9 ff3e:0:0:0:0:0:0:1', 'join Z1 10.1.0.9 232.1.1.1')
# the words of messages
NAMES = {1: 'open', 2: 'update', 3: 'notification', 4: 'keepalive', 5: 'refresh'}
KEEPALIVE = (255,) * 16 + (0, 19, 4)
# the most octets of a piece, so that its line is no longer than 4,096
PIECE = 2040


# ---- real messages

def v4(*octets):
    return V4(octets)


def comm(text):
    return tuple(bytes.fromhex(text))


PEER = v4(192, 0, 2, 1)
SOURCE, GROUP = v4(10, 1, 0, 9), v4(232, 1, 1, 1)
SOURCE6, GROUP6 = V6(tuple(bytes.fromhex('20010db8000100000000000000000009'))), V6(tuple(bytes.fromhex('ff3e0000000000000000000000000001')))
RD = comm('0000fde800000001')
TARGETS = tuple(comm(text) for text in ('0002fde800000001', '0002fde800000009', '0002fde800000002', '0002fde800000063'))
IMPORT, SOURCE_AS, ASKED = comm('010bc00002010001'), comm('0009fde800000000'), comm('0102c00002020001')


def tunnel(number):
    return Pmsi(False, Mldp(lsp(PEER, number)), None)


def values():
    """Routes as honest edges announce them."""
    for target in TARGETS:
        yield Mcast(1, Intra(RD, PEER)), (target,), tunnel(1 << 20)
        for afi, source, group in ((1, SOURCE, GROUP), (2, SOURCE6, GROUP6)):
            for number, pattern in enumerate(((source, group), (source, None), (None, group), (None, None)), 1):
                yield Mcast(afi, Selective(RD, *pattern, PEER)), (target,), tunnel((1 << 20) + 8 * afi + number)
            yield Mcast(afi, Active(RD, source, group)), (target,), None
            yield Mcast(afi, SourceJoin(RD, 65000, source, group)), (ASKED,), None
        yield Unicast(RD, Prefix(v4(10, 1, 0, 0), 16)), (target, IMPORT, SOURCE_AS), None
        yield Unicast(RD, Prefix(V6(tuple(bytes.fromhex('20010db80001' + '00' * 10))), 48)), (target, IMPORT, SOURCE_AS), None


def real_messages():
    written = [KEEPALIVE]
    for key, comms, pmsi in values():
        written.append(update_written(Reach(Advert(key, PEER, comms, pmsi))))
        written.append(update_written(Unreach(key)))
    return written


# ---- mutations

def turned(octets, chance):
    at = chance.randrange(len(octets))
    return octets[:at] + (octets[at] ^ 1 << chance.randrange(8),) + octets[at + 1:]


def other(octets, chance):
    """An octet that is often a length or a type."""
    at = chance.randrange(len(octets))
    return octets[:at] + (chance.choice((0, 1, 4, 5, 7, 8, 14, 15, 16, 22, 24, 32, 128, 255)),) + octets[at + 1:]


def without(octets, chance):
    start = chance.randrange(len(octets))
    return octets[:start] + octets[start + chance.randint(1, 8):]


def doubled(octets, chance):
    start = chance.randrange(len(octets))
    end = start + chance.randint(1, 40)
    return octets[:end] + octets[start:]


def resized(octets, chance):
    """A message whose header says how long it is now, so that what is wrong inside of it is met."""
    if not 19 <= len(octets) <= 4096:
        return octets
    return octets[:16] + tuple(len(octets).to_bytes(2, 'big')) + octets[18:]


def changed(octets, chance):
    for _ in range(chance.randint(1, 3)):
        if octets:
            octets = chance.choice((turned, other, without, doubled))(octets, chance)
    return resized(octets, chance) if chance.random() < 0.7 else octets


def spliced(one, two, chance):
    return one[:chance.randrange(len(one) + 1)] + two[chance.randrange(len(two) + 1):]


def mutation(messages, chance):
    reported = ()
    for _ in range(chance.randint(1, 8)):
        message = chance.choice(messages)
        if chance.random() < 0.15:
            message = changed(message, chance)
        elif chance.random() < 0.05:
            message = resized(spliced(message, chance.choice(messages), chance), chance)
        reported += message
    if chance.random() < 0.3:
        reported = reported[:chance.randrange(len(reported) + 1)]
    return reported


def text_of(octets, chance):
    lines, rest = [], octets
    for _ in range(chance.randint(1, 4)):
        count = min(PIECE, chance.randint(0, len(rest)))
        lines.append(f'piece {bytes(rest[:count]).hex() or "-"}')
        rest = rest[count:]
    while rest:
        lines.append(f'piece {bytes(rest[:PIECE]).hex()}')
        rest = rest[PIECE:]
    for join in JOINS:
        if chance.random() < 0.7:
            lines.insert(chance.randrange(len(lines) + 1), join)
    return SCENARIO + ''.join(f'{line}\n' for line in lines)


# ---- the check

def is_safe(reported):
    """No tunnel but the peer's, and no VRF but the edge's."""
    words = [line.split(' ') for line in reported.splitlines()]
    return all(line[2] == '192.0.2.1' for line in words if line[0] == 'want') and all(line[1] in ('V2', 'V3') for line in words if line[0] == 'import')


def decoded(octets):
    """The lines of the messages, each tunnel as a star, and the first fault."""
    messages, fault = messages_in(octets)
    lines = []
    for message in messages:
        lines.append(NAMES[2 if isinstance(message, Update) else message.kind])
        if isinstance(message, Update):
            lines += [f'reach {addr_text(advert.next_hop)} {",".join(map(hex_text, advert.comms)) or "-"} * {key_text(advert.key)}' for advert in message.reach]
            lines += [f'unreach {key_text(key)}' for key in message.unreach]
    return lines, fault


def is_decoded(command, octets):
    """Whether the program reports just that. Octets that end inside a message have no fault, but the program says so."""
    run = subprocess.run([*command, 'decode', 'bgp'], input=bytes(octets).hex().encode(), capture_output=True)
    words = [line.split(' ') for line in run.stdout.decode('latin-1').splitlines()]
    came = [' '.join(line[:3] + ['*'] + line[4:] if line[0] == 'reach' else line) for line in words]
    lines, fault = decoded(octets)
    if fault is not None:
        return (came, run.returncode) == (lines + [f'refused {fault.place} {fault.word}'], 1)
    is_cut = bool(came) and came[-1].endswith(' short') and (came[:-1], run.returncode) == (lines, 1)
    return is_cut or (came, run.returncode) == (lines, 0)


def answer(command, text):
    if command == ['reference']:
        return probe(text.encode())
    run = subprocess.run([*command, 'probe'], input=text.encode(), capture_output=True)
    return run.stdout.decode('latin-1'), run.returncode


def main():
    options = argparse.ArgumentParser(description='Sends hostile octets through the program and compares with the definitions.')
    options.add_argument('--command', default=str(TOP / 'mvpn'), help='runs the program')
    options.add_argument('--probe', action='store_true', help='through `probe`')
    options.add_argument('--seconds', type=float, default=30)
    options.add_argument('--count', type=int, default=10000)
    options.add_argument('--seed', type=int, default=1)
    given = options.parse_args()
    command, chance, messages = shlex.split(given.command), random.Random(given.seed), real_messages()
    passed, failed, ends = 0, 0, time.monotonic() + given.seconds
    for _ in range(given.count):
        if time.monotonic() > ends:
            break
        octets = mutation(messages, chance)
        if not given.probe:
            if is_decoded(command, octets):
                passed += 1
            else:
                failed += 1
                print(f'seed {given.seed}, decode bgp: {bytes(octets).hex()}')
            continue
        text = text_of(octets, chance)
        wanted, came = probe(text.encode()), answer(command, text)
        if came == wanted and came[1] in (0, 1) and is_safe(came[0]):
            passed += 1
            continue
        failed += 1
        if failed == 1:
            print(f'seed {given.seed}\n{text}wanted {wanted}\ncame {came}')
    print('%d passed, %d failed' % (passed, failed))
    return 1 if failed or not passed else 0


if __name__ == '__main__':
    sys.exit(main())
