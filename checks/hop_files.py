#!/usr/bin/env python3
"""Reads random files of hops by the program and by the reference program of the definitions, and compares their lines and statuses;
and writes those of random networks and of the examples by both, and reads them back:
`hop_files.py [--command COMMAND] [--count N] [--networks N] [--seed S] [--jobs N]`.

A file has some hops, in either order of octets. Most files are then cut, or get another octet or two, in the header or near the
front of a record. Where tcpdump is installed, it reads a file that is written with the most significant octet first, and writes
it again in the order of octets of this machine: the lines have to stay the same. The networks and their scripts are those of
`networks.py`. What `pcap` writes of one has to be what the reference program writes, with its status; and what `hops` writes of
that file has to be the `hop` lines of `replay --wire`, each with the numbers of its nodes, the clock at its event, and the octets
of the datagram that `hop` line names. Where editcap and mergecap are installed, what they write of such a file in that format
has to have the same lines, and a pcapng that editcap writes is refused. The command is `./mvpn` of this repository, unless
another one is named. Prints the files that differ, in hexadecimal digits, the networks that differ, and last 'N passed, M
failed'. By hand, `--count 10000 --networks 1000` takes some minutes.
"""

import argparse
import pathlib
import random
import shlex
import shutil
import subprocess
import sys
import tempfile
from concurrent.futures import ProcessPoolExecutor, ThreadPoolExecutor

from networks import make_text
from reference.octets import packet
from reference.pcap import CoreHop, MAGIC, PASSED, hop_text, hops, number, pcap, written_file
from reference.report import hex_text
from reference.script import read

TOP = pathlib.Path(__file__).resolve().parent.parent
# seconds that a run may take
LONGEST = 300
# the octets of a header, and of the front of a record
HEADER, FRONT = 24, 34
# files that tcpdump writes again, and networks whose files editcap and mergecap write again
TOOL_FILES, TOOL_NETWORKS = 5, 5
# events of a random network
EVENTS = 90


def header(order, numbers):
    fields = [numbers.getrandbits(32) for _ in PASSED]
    return (number(MAGIC, 4, order) + number(2, 2, order) + number(4, 2, order)
            + b''.join(number(field, 4, order) for field in fields) + number(1, 4, order))


def hop(numbers):
    size = numbers.choice([0, 1, 22, numbers.randrange(60)])
    return CoreHop(numbers.choice([0, 999, 1000, numbers.randrange(2 ** 32 * 1000)]), numbers.randrange(2 ** 16), numbers.randrange(2 ** 16),
                   numbers.choice([16, 2 ** 20 - 1, numbers.randrange(16, 2 ** 20)]), numbers.randrange(1, 256), tuple(numbers.randbytes(size)))


def file_of(seed):
    """The octets of the file of that number."""
    numbers = random.Random(seed)
    order = numbers.choice(['big', 'little'])
    records = [hop_text(hop(numbers), order) for _ in range(numbers.randrange(5))]
    octets = bytearray(header(order, numbers) + b''.join(records))
    fronts = [HEADER + sum(map(len, records[:count])) for count in range(len(records))]
    for _ in range(numbers.choice([0, 1, 1, 2])):
        begin = numbers.choice([0, *fronts])
        place = begin + numbers.randrange(HEADER if begin == 0 else FRONT)
        octets[place] = numbers.choice([0, 1, 0xFF, octets[place] ^ 1 << numbers.randrange(8), numbers.randrange(256)])
    return bytes(octets[:numbers.randrange(len(octets) + 1)] if numbers.random() < 0.3 else octets)


def by_tcpdump(seed):
    """The octets of a file with so many hops, and what tcpdump writes of them."""
    numbers = random.Random(seed)
    octets = written_file([hop(numbers) for _ in range(seed)])
    ran = subprocess.run(['tcpdump', '-r', '-', '-w', '-'], input=octets, capture_output=True, timeout=LONGEST)
    return octets, ran.stdout


def cases(given):
    """The files: each with a name, its octets, and its lines and status by the reference program."""
    for seed in range(given.seed, given.seed + given.count):
        octets = file_of(seed)
        yield f'file {seed}', octets, hops(octets)
    if shutil.which('tcpdump'):
        for seed in range(TOOL_FILES):
            octets, again = by_tcpdump(seed)
            yield f'file {seed} by tcpdump', again, hops(octets)


def differs(command, case):
    """What came in place of what is expected, or nothing."""
    name, octets, (wanted, status) = case
    ran = subprocess.run([*command, 'hops'], input=octets, capture_output=True, timeout=LONGEST)
    if (ran.stdout.decode('latin-1'), ran.returncode) == (wanted, status):
        return ''
    return f'{name}, {octets.hex()}: wanted {wanted!r}, status {status}; came {ran.stdout!r}, status {ran.returncode}'


# ---- files of networks

def run(command, octets):
    """What a command writes of these octets, and its status."""
    ran = subprocess.run(command, input=octets, capture_output=True, timeout=LONGEST)
    return ran.stdout, ran.returncode


def with_marks(text):
    """The script with a `state` after each event: what happens is the same, and the report shows which lines are of which event."""
    front, word, events = text.partition('events\n')
    return front + word + ''.join(f'{line}\nstate\n' for line in events.splitlines())


def octets_sent(event):
    """The octets of the datagram that an event sends, if it is accepted."""
    if event.word == 'send':
        return [packet(event.source, event.group, event.octets)]
    return [event.octets] if event.word == 'packet' else []


def hop_lines(text, report):
    """What `hops` is to write of the file of a script with marks, by what `replay --wire` writes of it: each `hop` line with the
    numbers of its nodes, the clock at its event, and the octets of its datagram."""
    script, lines = read(text), report.splitlines()
    nodes = {node.name: number for number, node in enumerate(script.scenario.nodes)}
    clock, sent = 0, []
    for timed in script.events:
        # the lines of an event end before the mark of the next one, which writes one line
        own = [lines.pop(0)] if timed.event.word == 'state' and lines else []
        while timed.event.word != 'state' and lines and not lines[0].startswith('state '):
            own.append(lines.pop(0))
        if not any(line.startswith('refused ') for line in own):
            sent += octets_sent(timed.event)
        for line in own:
            if line.startswith('hop '):
                _, start, end, label, ttl, datagram = line.split()
                yield f'hop {clock} {nodes[start]} {nodes[end]} {label} {ttl} {hex_text(sent[int(datagram) - 1])}\n'
        clock += timed.event.count if timed.event.word == 'tick' else 0


def again(octets):
    """A file as other tools write it, each with their name and status: in the same format, and as pcapng."""
    with tempfile.TemporaryDirectory() as folder:
        own, other = pathlib.Path(folder) / 'own', pathlib.Path(folder) / 'other'
        own.write_bytes(octets)
        for tool in (['editcap', '-F', 'pcap', own, other], ['mergecap', '-F', 'pcap', '-w', other, own], ['editcap', '-F', 'pcapng', own, other]):
            if shutil.which(tool[0]):
                subprocess.run(tool, check=True, capture_output=True, timeout=LONGEST)
                yield ' '.join(map(str, tool[:3])), other.read_bytes(), tool[2] == 'pcapng'


def network_differs(task):
    """The name of a script, and in what the program differs there, or nothing."""
    command, name, text, is_for_tools = task
    marked = with_marks(text)
    octets, status = run([*command, 'pcap'], text.encode())
    if (octets, status) != pcap(text.encode()):
        return name, f'the file {octets.hex()}, status {status}, is not that of the reference program'
    if run([*command, 'pcap'], marked.encode()) != (octets, status):
        return name, 'the file is another one with a `state` after each event'
    report, _ = run([*command, 'replay', '--wire'], marked.encode())
    wanted = ''.join(hop_lines(marked, report.decode())).encode()
    if run([*command, 'hops'], octets) != (wanted, 0):
        return name, 'what `hops` writes of the file are not the `hop` lines of the report'
    for tool, other, is_ng in again(octets) if is_for_tools else ():
        came = run([*command, 'hops'], other)
        if came != ((b'refused 0 magic\n', 1) if is_ng else (wanted, 0)):
            return name, f'{tool} writes a file of which `hops` writes {came!r}'
    return name, ''


def scripts(given):
    """The scripts: those of the examples, and of random networks."""
    for path in sorted((TOP / 'examples').glob('*.txt')):
        yield path.name, path.read_text()
    for seed in range(given.seed, given.seed + given.networks):
        yield f'network {seed}', make_text(seed, EVENTS)


def main():
    parser = argparse.ArgumentParser()
    parser.add_argument('--command', default=str(TOP / 'mvpn'))
    parser.add_argument('--count', type=int, default=1000)
    parser.add_argument('--networks', type=int, default=40)
    parser.add_argument('--seed', type=int, default=1)
    parser.add_argument('--jobs', type=int, default=2)
    given = parser.parse_args()
    command = shlex.split(given.command)
    with ThreadPoolExecutor(given.jobs) as pool:
        results = list(pool.map(lambda case: differs(command, case), cases(given)))
    tasks = [(command, name, text, place < TOOL_NETWORKS) for place, (name, text) in enumerate(scripts(given))]
    with ProcessPoolExecutor(given.jobs) as pool:
        results += [reported and f'{name}: {reported}' for name, reported in pool.map(network_differs, tasks)]
    differing = [reported for reported in results if reported]
    for reported in differing:
        print(reported)
    print(f'{len(results) - len(differing)} passed, {len(differing)} failed')
    return 1 if differing else 0


if __name__ == '__main__':
    sys.exit(main())
