#!/usr/bin/env python3
"""Compares what `./mvpn make N` writes with the text of that number as docs/FORMATS.md describes it, made here plainly; and what
`./mvpn sweep N` writes with the numbers that are expected, for 32 numbers in a row, which have all texts that there are. Of some
of them the numbers are counted in what `./mvpn replay` writes, too.

    python3 checks/made.py [COMMAND]

Prints the numbers that differ, and then 'N passed, M failed'.
"""

import pathlib
import subprocess
import sys

TOP = pathlib.Path(__file__).resolve().parent.parent
NUMBERS = (1, 2, 7, 31, 32, 33, 999, 65536, 999_999, 1_000_000)
SWEPT, COUNTED = range(1, 33), (1, 2, 7, 32)
EDGES, CORES, VPNS = range(1, 33), range(1, 17), range(1, 9)


def scenario():
    yield from (f'edge E{i} 192.0.2.{i}' for i in EDGES)
    yield from (f'core C{c} 192.0.3.{c}' for c in CORES)
    yield from (f'link C{c} C{c + 1 if c < 16 else 1} 1' for c in CORES)
    yield from (f'link E{i} C{(i - 1) % 16 + 1} 1' for i in EDGES)
    for i in EDGES:
        for k in VPNS:
            yield f'vrf V{k}_{i} E{i} {k} 65000:{k} 65000:{k} highest'
            yield f'site S{k}_{i} 10.{i}.{k}.0/24'
            yield f'iface I{k}_{i} V{k}_{i} S{k}_{i} 10.{i}.{k}.1'


def script(number):
    at = {k: (number + 5 * k) % 32 + 1 for k in VPNS}
    flow = {k: f'10.{at[k]}.{k}.9 232.1.1.{k}' for k in VPNS}
    sends = {payload: [f'send S{k}_{at[k]} {flow[k]} {payload}' for k in VPNS] + ['drain'] for payload in ('01', '02', '03')}
    yield from ('events', 'heal', 'settle', 'tick 3', 'settle')
    yield from (f'join I{k}_{i} {flow[k]}' for k in VPNS for i in EDGES if i != at[k] and (i + k + number) % 4 == 0)
    yield from ('settle', 'state', *sends['01'])
    yield from (f'select V{k}_{at[k]} {flow[k]}' for k in VPNS if k % 2 == 1)
    yield from ('settle', 'state', *sends['02'], 'tick 3', 'settle', 'state', *sends['03'], 'state')


def text_of(number):
    return ''.join(line + '\n' for line in [*scenario(), *script(number)])


def run(command, *words, text=''):
    """What the command writes for this input, and its status."""
    done = subprocess.run([*command, *words], input=text, capture_output=True, text=True)
    return done.stdout, done.returncode


def counted(number, text, report):
    """The line of a sweep, counted in the report of the text."""
    lines = report.splitlines()
    refused = {int(line.split()[1]) for line in lines if line.startswith('refused ')}
    sends = [place for place, line in enumerate(text.splitlines(), 1) if line.startswith('send ') and place not in refused]
    outs = sum(line.startswith('out ') for line in lines)
    return f'sweep {number} sends {len(sends)} outs {outs} refused {len(refused)} calm {lines.count("state 0 0 0 0 0")}\n'


def differences(command):
    """For each comparison nothing, or what differs."""
    for number in NUMBERS:
        wanted = text_of(number)
        came, status = run(command, 'make', str(number))
        yield '' if (came, status) == (wanted, 0) else f'make {number}: status {status}, {len(came):,} octets, and not {len(wanted):,}'
    for number in SWEPT:
        wanted = f'sweep {number} sends 24 outs 192 refused 0 calm 4\n'
        came = run(command, 'sweep', str(number))
        yield '' if came == (wanted, 0) else f'sweep {number}: {came!r}'
        if number in COUNTED:
            text = text_of(number)
            report, status = run(command, 'replay', text=text)
            reported = counted(number, text, report), status
            yield '' if reported == came else f'replay of {number}: {reported!r}, where sweep tells {came!r}'


def main():
    command = sys.argv[1:] or [str(TOP / 'mvpn')]
    reported = list(differences(command))
    differing = [line for line in reported if line]
    for line in differing:
        print(line)
    print(f'{len(reported) - len(differing)} passed, {len(differing)} failed')
    return 1 if differing else 0


if __name__ == '__main__':
    raise SystemExit(main())
