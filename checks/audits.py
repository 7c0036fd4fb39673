#!/usr/bin/env python3
"""Judges reports of random networks by the program and by the reference program of the definitions, and compares what they answer:
`audits.py [--command COMMAND] [--count N] [--seed S] [--events N] [--changes N] [--jobs N]`.

The networks and their scripts are those of `networks.py` with these numbers, and the reports those of the reference program, every
other one with the lines of the wire. Behind its script and the line `report` each report that does not end with a halt is to be
answered `yes`. Then, as often as `--changes` says, one line of it is dropped, doubled, moved or changed, and the program has to
answer what the reference program does. The reports of the examples, and those that the program itself makes of the rows of `replay`
and of the made network 7, are to be answered `yes`, too. The command is `./mvpn` of this repository, unless another one is named. Prints what
differs, then how often each answer came for random networks, and last 'N passed, M failed'.
"""

import argparse
import pathlib
import random
import shlex
import subprocess
import sys
from collections import Counter
from concurrent.futures import ProcessPoolExecutor

from networks import make_text
from reference.audit import audit
from reference.replaying import replay
from rows import Book, ROWS

TOP = pathlib.Path(__file__).resolve().parent.parent
# seconds that a run may take
LONGEST = 300
REASONS = ('empty', 'state', 'place', 'full', 'ours', 'bytes 0 short')


# ---- one line of a report that becomes another one

def changed_number(rng, word):
    return str(max(0, int(word) + rng.choice((-2, -1, 1, 2)))) if word.isdigit() else word


def changed_octets(rng, word):
    place = rng.randrange(len(word))
    return word[:place] + rng.choice('0123456789abcdef') + word[place + 1:]


def changed_line(rng, line, ifaces):
    """The line with one of its words changed, or another line."""
    words = line.split(' ')
    if words[0] == 'out':
        place = rng.choice((1, 2, 2, 3))
        words[place] = (changed_number(rng, words[1]), rng.choice(ifaces), changed_octets(rng, words[3]))[place - 1]
    elif words[0] == 'refused':
        words[1:] = rng.choice(([changed_number(rng, words[1]), *words[2:]], [words[1], rng.choice(REASONS)]))
    elif words[0] == 'state':
        place = rng.randrange(1, 6)
        words[place] = changed_number(rng, words[place])
    else:
        return line + rng.choice((' ', '0', ''))
    return ' '.join(words)


def changed(rng, lines, events, ifaces):
    """The lines with one dropped, doubled, moved, changed, or put in."""
    lines = list(lines)
    kind = rng.choice(('drop', 'double', 'move', 'change', 'change', 'put'))
    outs = [place for place, line in enumerate(lines) if line.startswith('out ')]
    place = rng.choice(outs) if outs and rng.random() < 0.6 else rng.randrange(len(lines))
    if kind == 'drop':
        del lines[place]
    elif kind == 'double':
        lines.insert(rng.randrange(len(lines) + 1), lines[place])
    elif kind == 'move':
        line = lines.pop(place)
        lines.insert(rng.randrange(len(lines) + 1), line)
    elif kind == 'change':
        lines[place] = changed_line(rng, lines[place], ifaces)
    else:
        lines.insert(place, f'refused {rng.choice(events)} {rng.choice(REASONS)}' if rng.random() < 0.8 else 'halt 1 label C1')
    return lines


# ---- one network

def texts_of(seed, events, count):
    """The inputs of a network: that with its report, and some with a changed one; none where it halts."""
    rng = random.Random(seed)
    script = make_text(seed, events)
    reported, status = replay(script, seed % 2 == 0)
    if status != 0:
        return []
    lines = reported.splitlines()
    rows = script.splitlines()
    numbers = range(rows.index('events') + 2, len(rows) + 1)
    ifaces = [row.split(' ')[1] for row in rows if row.startswith('iface ')]
    reports = [lines] + [changed(rng, lines, numbers, ifaces) for _ in range(count) if lines]
    return [script + 'report\n' + ''.join(line + '\n' for line in report) for report in reports]


def compared(task):
    """The number of a network, what differs there, and how often each answer came."""
    command, seed, events, count = task
    found, answers = [], Counter()
    for number, text in enumerate(texts_of(seed, events, count)):
        wanted, status = audit(text.encode())
        answers[wanted.split(' ')[-1].strip()] += 1
        if number == 0 and status != 0:
            found.append(f'its own report: {wanted.strip()}')
        answer, came = ran(command, ['audit'], text)
        if (answer, came) != (wanted, status):
            found.append(f'change {number}: {answer.strip()!r}, status {came}, and not {wanted.strip()!r}, status {status}')
    return seed, found, answers


# ---- worked and made networks

def ran(command, words, text):
    """What the program writes, and its status."""
    done = subprocess.run([*command, *words], input=text, capture_output=True, text=True, timeout=LONGEST)
    return done.stdout, done.returncode


def own_report(command, name, script, reported):
    """What differs where a script and its own report are judged."""
    answer, status = ran(command, ['audit'], script + 'report\n' + reported)
    return None if (answer, status) == ('yes\n', 0) else f'{name}: {answer.strip()!r}, status {status}, and not yes'


def row_reports(command):
    """The same of each row of `replay` that comes to its end, by what the program writes."""
    for row in Book(sorted(ROWS.glob('*.txt'))).rows:
        if row.words[:1] == ['replay'] and row.status == 0:
            text = row.input.decode('latin-1').replace('\r\n', '\n')
            if text.isascii():
                script = text if text.endswith('\n') else text + '\n'
                yield own_report(command, row.place, script, ran(command, row.words, script)[0])


def own_reports(command):
    """The same of each example that does not end with a halt, and of a made network, plain and whole."""
    for path in sorted((TOP / 'examples').glob('*.txt')):
        reported = path.with_suffix('.report').read_text()
        if not reported.splitlines()[-1].startswith('halt '):
            yield own_report(command, path.name, path.read_text(), reported)
    script, _ = ran(command, ['make', '7'], '')
    for words in (['replay'], ['replay', '--wire']):
        reported, _ = ran(command, words, script)
        yield own_report(command, f'make 7, {" ".join(words)}', script, reported)


def main():
    parser = argparse.ArgumentParser()
    parser.add_argument('--command', default=str(TOP / 'mvpn'))
    parser.add_argument('--count', type=int, default=30)
    parser.add_argument('--seed', type=int, default=1)
    parser.add_argument('--events', type=int, default=60)
    parser.add_argument('--changes', type=int, default=8)
    parser.add_argument('--jobs', type=int, default=2)
    given = parser.parse_args()
    command = shlex.split(given.command)
    tasks = [(command, seed, given.events, given.changes) for seed in range(given.seed, given.seed + given.count)]
    passed, failed, answers = 0, 0, Counter()
    for fault in [*own_reports(command), *row_reports(command)]:
        passed, failed = passed + (not fault), failed + bool(fault)
        if fault:
            print(fault)
    with ProcessPoolExecutor(given.jobs) as pool:
        for seed, found, reported in pool.map(compared, tasks):
            answers += reported
            passed, failed = passed + (not found), failed + bool(found)
            for fault in found[:3]:
                print(f'network {seed}: {fault}')
    print(', '.join(f'{word} {answers[word]}' for word in sorted(answers)))
    print(f'{passed} passed, {failed} failed')
    return 1 if failed else 0


if __name__ == '__main__':
    sys.exit(main())
