#!/usr/bin/env python3
"""Replays random networks by the program and by the reference program of the definitions, and compares what they write, and their
statuses: `replays.py [--command COMMAND] [--count N] [--seed S] [--events N] [--jobs N]`.

The networks and their scripts, with events of every kind, are those of `networks.py` with these numbers. Each is replayed with
`--wire`, and every tenth one without too. The command is `./mvpn` of this repository, unless another one is named. Prints the
networks that differ, with the first line that does, and last 'N passed, M failed'. By hand, `--count 2000` takes some minutes.
"""

import argparse
import pathlib
import shlex
import subprocess
import sys
from concurrent.futures import ProcessPoolExecutor

from networks import make_text
from reference.replaying import replay

TOP = pathlib.Path(__file__).resolve().parent.parent
# seconds that a run may take
LONGEST = 300


def first_difference(reported, wanted):
    """The first line in which two texts differ, as each has it."""
    for number, (own, other) in enumerate(zip(reported.split('\n') + [''], wanted.split('\n') + ['']), 1):
        if own != other:
            return f'line {number} is {own[:200]!r}, and not {other[:200]!r}'
    return 'one text goes on'


def compared(task):
    """The number of a network, and in what the program differs from the reference program there."""
    command, seed, events, details = task
    text = make_text(seed, events)
    for words in details:
        wanted, status = replay(text, '--wire' in words)
        ran = subprocess.run([*command, *words], input=text, capture_output=True, text=True, timeout=LONGEST)
        if ran.returncode != status:
            return seed, f'{" ".join(words)}: status {ran.returncode}, and not {status}'
        if ran.stdout != wanted:
            return seed, f'{" ".join(words)}: {first_difference(ran.stdout, wanted)}'
    return seed, None


def main():
    parser = argparse.ArgumentParser()
    parser.add_argument('--command', default=str(TOP / 'mvpn'))
    parser.add_argument('--count', type=int, default=60)
    parser.add_argument('--seed', type=int, default=1)
    parser.add_argument('--events', type=int, default=90)
    parser.add_argument('--jobs', type=int, default=2)
    given = parser.parse_args()
    command = shlex.split(given.command)
    tasks = []
    for seed in range(given.seed, given.seed + given.count):
        details = [('replay', '--wire')] + [('replay',)] * (seed % 10 == 0)
        tasks.append((command, seed, given.events, details))
    failed = 0
    with ProcessPoolExecutor(given.jobs) as pool:
        for seed, difference in pool.map(compared, tasks):
            if difference:
                failed += 1
                print(f'network {seed}: {difference}')
    print(f'{given.count - failed} passed, {failed} failed')
    return 1 if failed else 0


if __name__ == '__main__':
    sys.exit(main())
