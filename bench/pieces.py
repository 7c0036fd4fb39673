#!/usr/bin/env python3
"""Measures crates alone, and prints three tables.

    python3 bench/pieces.py [streams|parts|edge]

`streams`: a small program feeds the stream of BGP messages, and that of LDP PDUs, with one message or PDU of make.py over
and over, in pieces of 1, 7 and 1,000 octets and whole, and takes the messages that wait after each piece.

`parts`: the program of bench/parts/ works the parts of a node over and over: shared buffers, the upstream choice among
8,192 routes, changes of a table of 8,192 routes with a flush after each, look-ups among 8,192 labels, a label node that
maps, withdraws and releases the labels of its trees, bindings that are kept and taken among 8,192.

`edge`: the program of bench/edge/ plays the acts of bench/acts.py at one edge that holds routes of 31 peers: joins and prunes,
UPDATE messages, label messages, and datagrams that enter. Processor seconds are printed, without those of what comes
first, and the peak memory.

All are built, with their proofs, in a copy of the crates, so that the repository itself has no program that only
measures. Libraries that are built here already are taken along.
"""

import contextlib
import os
import pathlib
import re
import shutil
import subprocess
import sys
import tempfile

import acts
import make

TOP = pathlib.Path(__file__).resolve().parent.parent
PARTS = TOP / 'bench' / 'parts'
EDGE = TOP / 'bench' / 'edge'
SIZES = (8_000_000, 16_000_000)
PIECES = (1, 7, 1000, 0)
# of each stream: the crate that it is in, and a unit of it
STREAMS = {'bgp_update': ('bgp_messages', make.message(1)), 'mldp_msgs': ('mldp', make.pdu(1))}

# Of each edge: what it has; its interfaces to receivers, the flows of which each peer sends routes, and the entries that come
# first; and the kinds of acts after these, each with a turn, and how many turns.
CALLS = [
    ('joins', acts.joins, 100),
    ('told joins', acts.told_joins, 100),
    ('messages', acts.messages, 100),
    ('labels', acts.labels, 100),
]
ENTERS = [('enters', acts.enters, 1000)]
EDGES = [
    ('8,247 routes, 1,023 entries', (5, 88), acts.thousand_entries, CALLS),
    ('1,086 routes, 1,023 entries', (5, 11), acts.thousand_entries, CALLS),
    ('1,086 routes, 100 entries', (5, 11), acts.hundred_entries, [('joins', acts.few_joins, 100)]),
    ('8,247 routes, 3 interfaces', (2, 88), acts.two_entries, ENTERS),
    ('8,247 routes, 256 interfaces', (255, 88), acts.two_entries, ENTERS),
]

# In the program TOKENS in capitals stand for numbers and names.
PROGRAM = '''//! Feeds streams in pieces, and prints how long each takes.
#![tactic(auto)]

use std::time::Instant;

FUNCTIONS
fn main(rt: HostRuntime) -> std::io::Result<()> {
CALLS
    Ok(())
}
'''

FUNCTION = '''
fn run_STREAM(rt: &HostRuntime, size: usize, piece: usize) -> std::io::Result<()> {
    let unit: [u8; LEN] = [OCTETS];
    let mut octets = Vec::new(rt.alloc());
    for _ in 0..size / LEN {
        octets.extend_from_slice(&unit)?;
    }
    let piece = if piece == 0 { octets.len().max(1) } else { piece };
    let begin = Instant::now(rt)?;
    let mut stream = CRATE::STREAM::Stream::of(rt.alloc());
    let mut messages = 0u64;
    let mut refused = 0u64;
    for part in octets.chunks(piece) {
        if stream.feed(part).is_err() {
            refused = refused.saturating_add(1);
        }
        for _ in 0..u64::MAX {
            if stream.next().is_none() {
                break;
            }
            messages = messages.saturating_add(1);
        }
    }
    let millis = begin.elapsed(rt)?.as_millis();
    println!(rt; "row STREAM {size} {piece} {messages} {refused} {millis}")?;
    Ok(())
}
'''


def program():
    functions, calls = '', ''
    for stream, (crate, unit) in STREAMS.items():
        body = FUNCTION.replace('LEN', str(len(unit))).replace('OCTETS', ', '.join(map(str, unit)))
        functions += body.replace('CRATE', crate).replace('STREAM', stream)
        calls += ''.join(f'    run_{stream}(&rt, {size}, {piece})?;\n' for size in SIZES for piece in PIECES)
    return PROGRAM.replace('FUNCTIONS', functions).replace('CALLS', calls.rstrip())


def without_work(folder, names):
    """What a copy of the crates leaves out: all that was built but the libraries."""
    return [name for name in names if name != 'rlib'] if pathlib.Path(folder).name == 'out' else []


@contextlib.contextmanager
def built(depends, files):
    """The folder of the program of these files, built in a copy of the crates, and what it prints without words."""
    with tempfile.TemporaryDirectory() as folder:
        copy = pathlib.Path(folder) / 'copy'
        shutil.copytree(TOP / 'crates', copy / 'crates', ignore=without_work)
        (copy / 'crates.txt').write_text((TOP / 'crates.txt').read_text() + f'pieces: {depends}\n')
        for name, text in files.items():
            place = copy / 'crates' / 'pieces' / name
            place.parent.mkdir(parents=True, exist_ok=True)
            place.write_text(text)
        run = subprocess.run(
            ['rt', 'run'], cwd=copy / 'crates' / 'pieces', stdout=subprocess.PIPE, stderr=subprocess.STDOUT, text=True)
        yield copy / 'crates' / 'pieces', run.stdout


def output(depends, files):
    with built(depends, files) as (_, printed):
        return printed


def crate_in(folder):
    """What a folder of bench/ says of a program: the libraries that it uses, and its files."""
    files = {f'src/{code.name.removesuffix(".txt")}': code.read_text() for code in sorted(folder.glob('*.rt.txt'))}
    for proof in sorted(folder.glob('*.antt.txt')):
        place = proof.name.removesuffix('.antt.txt').replace('.', '/')
        files[f'{place}.antt' if place.startswith('specs/') else f'proofs/{place}.antt'] = proof.read_text()
    return (folder / 'depends.txt').read_text().strip(), files


def streams():
    depends = 'mv_base mldp bgp_values bgp_messages'
    printed = output(depends, {'src/main.rt': program()})
    rows = re.findall(r'^row (\w+) (\d+) (\d+) (\d+) 0 (\d+)$', printed, re.MULTILINE)
    if len(rows) != len(STREAMS) * len(SIZES) * len(PIECES):
        print(printed)
        return 1
    print('| stream | octets | piece | messages | seconds |')
    print('|---|---|---|---|---|')
    for stream, size, piece, messages, millis in rows:
        print(f'| {stream} | {int(size):,} | {int(piece):,} | {int(messages):,} | {int(millis) / 1000:.2f} |')
    return 0


def parts():
    printed = output(*crate_in(PARTS))
    rows = re.findall(r'^row (\w+) (\d+) (\d+) (\d+)$', printed, re.MULTILINE)
    if not rows:
        print(printed)
        return 1
    print('| part | times | seconds |')
    print('|---|---|---|')
    for name, count, _, millis in sorted(rows):
        print(f'| {name} | {int(count):,} | {int(millis) / 1000:.2f} |')
    return 0


def played(program, scenario, first, again, times):
    """What is reported of so many turns after the first acts: the numbers that are printed, processor seconds, and peak MiB."""
    with tempfile.TemporaryDirectory() as folder:
        files = {'scenario': scenario.encode(), 'first': first, 'again': again}
        for name, octets in files.items():
            (pathlib.Path(folder) / name).write_bytes(octets)
        child = subprocess.Popen([program, *files, str(times)], cwd=folder, stdout=subprocess.PIPE, text=True)
        printed = child.stdout.read()
        _, status, usage = os.wait4(child.pid, 0)
        child.returncode = os.waitstatus_to_exitcode(status)
    return printed, usage.ru_utime + usage.ru_stime, usage.ru_maxrss / 1024


def edge_rows(program):
    """A row for what comes first at each edge, and one for each kind of acts after it and number of turns."""
    for name, size, entries, kinds in EDGES:
        one = acts.Edge(*size)
        first = b''.join(acts.first(one, entries))
        printed, before, memory = played(program, one.text, first, b'', 0)
        yield name, 'first', 1, printed, before, memory
        for kind, turn, turns in kinds:
            again = b''.join(turn(one))
            for times in (turns, 2 * turns):
                printed, seconds, memory = played(program, one.text, first, again, times)
                yield name, kind, times * acts.IN_A_TURN, printed, seconds - before, memory


def edge():
    with built(*crate_in(EDGE)) as (folder, printed):
        program = folder / 'out' / 'pieces'
        if not program.exists():
            print(printed)
            return 1
        print('| edge | acts | times | processor seconds | peak memory in MiB |')
        print('|---|---|---|---|---|')
        wrong = 0
        for name, kind, count, printed, seconds, memory in edge_rows(program):
            print(f'| {name} | {kind} | {count:,} | {seconds:.2f} | {memory:.0f} |', flush=True)
            if not re.fullmatch(r'row \d+ 0 \d+ \d+ 0 \d+\n', printed):
                wrong = 1
                print(f'{name}, {kind}: {printed}', file=sys.stderr)
    return wrong


def main():
    tables = {'streams': streams, 'parts': parts, 'edge': edge}
    return max(tables[name]() for name in sys.argv[1:] or tables)


if __name__ == '__main__':
    raise SystemExit(main())
