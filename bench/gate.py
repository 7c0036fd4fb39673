#!/usr/bin/env python3
"""Measures what the gate costs: processor seconds of proof, tests and must-fail edits, crate by crate.

    python3 bench/gate.py                  runs `rt ci` from nothing here, writes bench/gate.json and the table in docs/PROVING.md
    python3 bench/gate.py COMMAND WORD..   the same with another command, as `rt verdict` of one crate; what it proves and tries
                                           replaces the numbers of these crates, and all others stay
    python3 bench/gate.py --table          writes the table alone, from bench/gate.json

The kit proves each crate in processes of its own. Every fifth of a second this reads from /proc what each process below the
command has used; a process that ends in between counts as it was last seen. Some kits keep what an earlier run of `rt ci`
proved, and prove everything from nothing only with `--anew`: there this word is added. After the table come the sum, what the
last whole run took, and what is above the budget.
"""

import json
import os
import re
import signal
import subprocess
import sys
import time

HERE = os.path.dirname(os.path.dirname(os.path.abspath(__file__)))
COSTS = os.path.join(HERE, 'bench', 'gate.json')
PAGE = os.path.join(HERE, 'docs', 'PROVING.md')
BEGIN, END = '<!-- costs -->', '<!-- end of costs -->'
PARTS = ('proof', 'tests', 'edits')
# The budget, in processor minutes: of the whole gate; of each 1,000 lines of a crate; and of a crate with few lines.
OF_ALL, OF_LINES, OF_FEW = 300, 2.5, 2
TICKS = os.sysconf('SC_CLK_TCK')


def processes():
    """Each process by its number and when it began: its parent, and the processor seconds that it has used."""
    found = {}
    for name in filter(str.isdigit, os.listdir('/proc')):
        try:
            with open(f'/proc/{name}/stat') as file:
                fields = file.read().rpartition(')')[2].split()
        except OSError:
            continue
        found[int(name), fields[19]] = int(fields[1]), (int(fields[11]) + int(fields[12])) / TICKS
    return found


def below(root, found):
    """The processes below this one."""
    children = {}
    for key, (parent, _) in found.items():
        children.setdefault(parent, []).append(key)
    reached, todo = [], [root]
    while todo:
        more = children.get(todo.pop(), [])
        reached += more
        todo += [number for number, _ in more]
    return reached


def words_of(number):
    try:
        with open(f'/proc/{number}/cmdline') as file:
            return file.read().split('\0')
    except OSError:
        return []


def folder_of(number):
    try:
        return os.readlink(f'/proc/{number}/cwd')
    except OSError:
        return ''


def row_of(number):
    """The crate that a process of the prover works at, and at which part; or none. An edit is tried on a copy of the crate."""
    words = words_of(number)
    if not words or os.path.basename(words[0]) != 'rattle' or '--crate-name' not in words:
        return None
    crate = words[words.index('--crate-name') + 1]
    is_edit = os.path.basename(folder_of(number)).startswith('rt-edit')
    return crate, 'edits' if is_edit else 'tests' if '--test' in words else 'proof'


def measure(command):
    """Runs the command; its status, the processor seconds of each crate and part, and what the run took as a whole."""
    began = time.time()
    run = subprocess.Popen(command, cwd=HERE)
    signal.signal(signal.SIGTERM, lambda *_: run.terminate())
    rows, used = {}, {}
    while run.poll() is None:
        found = processes()
        for key in below(run.pid, found):
            if rows.get(key) is None:
                rows[key] = row_of(key[0])
            used[key] = found[key][1]
        time.sleep(0.2)
    costs = {}
    for key, row in rows.items():
        if row:
            parts = costs.setdefault(row[0], dict.fromkeys(PARTS, 0))
            parts[row[1]] += used[key]
    taken = {'minutes': (time.time() - began) / 60, 'processors': os.cpu_count(), 'processor minutes': sum(used.values()) / 60}
    return run.returncode, costs, taken


def whole_gate():
    """The command of the kit here that proves everything from nothing."""
    reported = subprocess.run(['rt', 'help'], capture_output=True, text=True)
    return ['rt', 'ci', '--anew'] if '--anew' in reported.stdout + reported.stderr else ['rt', 'ci']


def crate_names():
    with open(os.path.join(HERE, 'crates.txt')) as file:
        lines = [line for line in file if line.strip() and not line.startswith('#')]
    return [line.split(':')[0].split()[0] for line in lines]


def lines_of(crate, part):
    """How many lines of the crate's part are not blank."""
    count = 0
    for at, _, names in os.walk(os.path.join(HERE, 'crates', crate, part)):
        for name in names:
            with open(os.path.join(at, name)) as file:
                count += sum(1 for line in file if line.strip())
    return count


def number_of_edits(crate):
    folder = os.path.join(HERE, 'crates', crate, 'must-fail')
    return len(os.listdir(folder)) if os.path.isdir(folder) else 0


def has_tests(crate):
    for at, _, names in os.walk(os.path.join(HERE, 'crates', crate, 'src')):
        for name in names:
            with open(os.path.join(at, name)) as file:
                if '#[test]' in file.read():
                    return True
    return False


def merged(crate, old, new):
    """The costs of a crate: of each part as it was measured last, and nothing of a part that it has no more."""
    costs = {part: new.get(part) or old.get(part, 0) for part in PARTS}
    if not has_tests(crate):
        costs['tests'] = 0
    if not number_of_edits(crate):
        costs['edits'] = 0
    return costs


def budget_of(crate):
    """How many processor minutes the crate may take."""
    return max(OF_FEW, OF_LINES * sum(lines_of(crate, part) for part in ('src', 'specs', 'proofs')) / 1000)


def above(crates):
    """What takes more than its budget, in words."""
    minutes = {crate: sum(crates.get(crate, {}).values()) / 60 for crate in crate_names()}
    every = [('the whole gate', sum(minutes.values()), OF_ALL)] + [(crate, minutes[crate], budget_of(crate)) for crate in minutes]
    return [f'{name} ({taken:.1f} of {budget:.1f})' for name, taken, budget in every if taken > budget]


def table(costs):
    """The lines of the table, a crate each and then the sum; and what they say of the budget."""
    crates = costs['crates']
    yield '| crate | src | specs | proofs | edits | proof, s | tests, s | edits, s | all, s |'
    yield '|---|---|---|---|---|---|---|---|---|'
    sums = [0] * 8
    for crate in crate_names():
        parts = [round(crates.get(crate, {}).get(part, 0)) for part in PARTS]
        row = [lines_of(crate, part) for part in ('src', 'specs', 'proofs')] + [number_of_edits(crate)] + parts + [sum(parts)]
        sums = [one + other for one, other in zip(sums, row)]
        yield f'| {crate} | ' + ' | '.join(f'{number:,}' for number in row) + ' |'
    yield '| all | ' + ' | '.join(f'{number:,}' for number in sums) + ' |'
    yield ''
    yield f'All in all {sums[7] / 60:.0f} processor minutes.'
    if run := costs['run']:
        yield (f'The last whole run took {run["minutes"]:.0f} minutes by the clock on {run["processors"]} processors, and '
               f'{run["processor minutes"]:.0f} processor minutes with what is no process of the prover.')
    yield f'Above the budget, in processor minutes: {", ".join(above(crates)) or "nothing"}.'


def write_table(costs):
    with open(PAGE) as file:
        page = file.read()
    text = '\n'.join(table(costs))
    page = re.sub(f'{BEGIN}.*?{END}', lambda _: f'{BEGIN}\n{text}\n{END}', page, flags=re.S)
    with open(PAGE, 'w') as file:
        file.write(page)


def main():
    costs = {'run': None, 'crates': {}}
    if os.path.exists(COSTS):
        with open(COSTS) as file:
            costs = json.load(file)
    status = 0
    if sys.argv[1:] != ['--table']:
        status, measured, taken = measure(sys.argv[1:] or whole_gate())
        old = costs['crates']
        costs = {
            'run': costs['run'] if sys.argv[1:] else taken,
            'crates': {crate: merged(crate, old.get(crate, {}), measured.get(crate, {})) for crate in crate_names()},
        }
        with open(COSTS, 'w') as file:
            json.dump(costs, file, indent=1)
            file.write('\n')
    write_table(costs)
    return status


if __name__ == '__main__':
    sys.exit(main())
