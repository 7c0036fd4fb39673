#!/usr/bin/env python3
"""Runs worked rows, and compares what is written, and the status, with what is expected: `rows.py [--command COMMAND] [FILE ..]`.

A row is the words of a command, its input, the whole output and the status. Rows are in checks/rows/*.txt, and each
examples/NAME.txt with its NAME.report is one more; its status is 7 where the last line of the report begins with `halt `, and else
0. So is each examples/NAME.ingress and examples/NAME.probe, a row of `ingress` or `probe`, of status 1 where a line of the report begins
with `refused `, and each examples/NAME.audit with its NAME.answer, a row of `audit`, of status 0 where the answer is `yes`, and else 8. The
command is `./mvpn` of this repository, unless another one is named. Rows of commands that the reference program of the
definitions has are run by that one too. With files, only rows of these are run.

A file of rows is made of blocks, and the first word of a block says what it is. Blank lines, and those that begin with
`#`, are passed over.

    short               lines `NAME TEXT`: NAME stands for TEXT where it is a word of `do` or `>`
    scenario NAME       lines of input, for `use` and `after`
    table WORDS         rows of one line of input: `STATUS TEXT`, the text escaped as after `<`, and below it the output, indented
                        by four spaces. `table WORDS after NAME` puts the lines of the scenario in front of each TEXT
    row TITLE           one row, of these lines in their order:
        words WORDS         the words of the command; `replay` where there is no such line
        by program          the reference program is too slow for it; `by reference`: it is run by that program alone
        use NAME            the lines of the scenario; `use NAME WORD TEXT` puts TEXT for WORD in them
        < TEXT              a line of input. `\\t`, `\\r`, `\\n`, `\\\\` and `\\xHH` are octets; a `\\` at the end takes the line's LF away
        each M..N TEXT      that line for each of the numbers, which stands for `%`
        fill N TEXT         that line, filled with spaces up to N octets
        octets HEX          octets of input in hexadecimal digits, with short words and spaces
        do EVENTS           events parted by `;`. The first of them puts the line `events` in front, unless it is there
        > LINE              a line of the output
        wrote HEX           octets of the output, as after `octets`
        kinds K, K          only the lines of the output that begin with one of these are compared
        status N            the status; 0 where there is no such line

Scenarios and short words count in all files. Each example of docs/FAULTS.md is a row as well, of the one line that is given
there. Prints the rows that differ, and then 'N passed, M failed'.
"""

import argparse
import pathlib
import re
import shlex
import subprocess
import sys
from concurrent.futures import ThreadPoolExecutor
from dataclasses import dataclass

TOP = pathlib.Path(__file__).resolve().parent.parent
ROWS = TOP / 'checks' / 'rows'
FAULTS, FIRST = TOP / 'docs' / 'FAULTS.md', TOP / 'examples' / 'first-run.txt'
REFERENCE = [sys.executable, str(TOP / 'checks' / 'reference.py')]
ESCAPES = {'n': '\n', 'r': '\r', 't': '\t', '\\': '\\', '\n': ''}
# the first words of blocks
KINDS = ['short', 'scenario', 'table', 'row']
# the commands that the reference program has as well, and of these the ones that replay
REFERRED = ('replay', 'audit', 'probe', 'ingress', 'pcap', 'hops')
REPLAYING = ('replay', 'pcap')
# the statuses of a replay that came to its end, to a fault of the text, or to a halt
REPLAYED = (0, 3, 7)
# seconds that a run may take: a program that is built without its proofs is not optimized, and slow at the limits
LONGEST = 300


@dataclass
class Row:
    """One row. `place` is its file and line, and `by` is the only one to run it."""

    place: str
    words: list
    input: bytes = b''
    output: str = ''
    status: int = 0
    kinds: tuple = ()
    by: str = ''

    def runners(self):
        """Who runs the row: the reference program too, where it has the command."""
        command = self.words[0] if self.words else ''
        if self.by:
            return [self.by]
        is_referred = command in REFERRED and (command not in REPLAYING or self.status in REPLAYED)
        return ['program', 'reference'] if is_referred else ['program']


# ---- texts of input

def escaped(found):
    word = found[1]
    return chr(int(word[1:], 16)) if word[0] == 'x' else ESCAPES[word]


def line_of(text):
    """The octets of an escaped line."""
    return re.sub(r'\\(x[0-9a-f]{2}|.)', escaped, text + '\n', flags=re.DOTALL).encode('latin-1')


def each(text):
    """A line for each number: `M..N TEXT`."""
    bounds, line = text.split(' ', 1)
    first, last = map(int, bounds.split('..'))
    return b''.join(line_of(line.replace('%', str(number))) for number in range(first, last + 1))


def fill(text):
    """A line with spaces up to a length: `N TEXT`."""
    length, line = text.split(' ', 1)
    octets = line_of(line)
    bare = octets.removesuffix(b'\n')
    return bare.ljust(int(length)) + octets[len(bare):]


# ---- files of rows

def blocks_of(path):
    """The blocks of a file: lists of lines with their numbers."""
    blocks = []
    for number, line in enumerate(path.read_text().split('\n'), 1):
        if line and not line.startswith('#'):
            if line.split(' ')[0] in KINDS:
                blocks.append([])
            blocks[-1].append((number, line))
    return blocks


class Book:
    """The scenarios, short words and rows of all files."""

    def __init__(self, paths):
        self.scenarios = {}
        self.short = {}
        self.rows = []
        blocks = [(path.name, block) for path in paths for block in blocks_of(path)]
        # Names count in all files, so these blocks come first.
        for kinds in (KINDS[:2], KINDS[2:]):
            for name, block in blocks:
                kind, _, rest = block[0][1].partition(' ')
                if kind in kinds:
                    getattr(self, f'read_{kind}')(name, rest, block)

    def read_short(self, name, rest, block):
        self.short.update(line.split(None, 1) for _, line in block[1:])

    def read_scenario(self, name, rest, block):
        self.scenarios[rest] = ''.join(line + '\n' for _, line in block[1:])

    def read_table(self, name, rest, block):
        words, _, scenario = rest.partition(' after ')
        front = self.scenarios[scenario].encode() if scenario else b''
        for number, line in block[1:]:
            if line.startswith('    '):
                self.rows[-1].output += line[4:] + '\n'
            else:
                status, _, text = line.partition(' ')
                self.rows.append(Row(f'{name}:{number}', words.split(), front + line_of(text), status=int(status)))

    def read_row(self, name, title, block):
        row = Row(f'{name}:{block[0][0]} {title}', ['replay'])
        for number, line in block[1:]:
            key, _, rest = line.partition(' ')
            if not self.read_setting(row, key, rest):
                row.input += self.input_of(row, f'{name}:{number}', key, rest)
        self.rows.append(row)

    def read_setting(self, row, key, rest):
        """Takes a line of a row that is not of its input; false where it is."""
        if key == 'words':
            row.words = rest.split()
        elif key == 'by':
            row.by = rest
        elif key == '>':
            row.output += self.spelled(rest) + '\n'
        elif key == 'wrote':
            row.output += self.octets_of(rest).decode('latin-1')
        elif key == 'kinds':
            row.kinds = tuple(rest.split(', '))
        elif key == 'status':
            row.status = int(rest)
        else:
            return False
        return True

    def input_of(self, row, place, key, rest):
        """The octets of a line of a row that is of its input."""
        if key == 'use':
            name, word, text = (rest.split(' ', 2) + ['', ''])[:3]
            lines = self.scenarios[name]
            return (lines.replace(word, text) if word else lines).encode()
        if key == '<':
            return line_of(rest)
        if key == 'octets':
            return self.octets_of(rest)
        if key == 'each':
            return each(rest)
        if key == 'fill':
            return fill(rest)
        if key == 'do':
            begins = b'' if b'events' in row.input.split(b'\n') else b'events\n'
            return begins + ''.join(event.strip() + '\n' for event in self.spelled(rest).split(';')).encode()
        raise ValueError(f'{place}: no line of a row begins with {key}')

    def octets_of(self, text):
        return bytes.fromhex(self.spelled(text))

    def spelled(self, text):
        """The text with its short words written out, and one space between words."""
        return ' '.join(self.short.get(word, word) for word in text.replace(';', ' ; ').split())


def examples():
    """The examples that examples/README.md describes."""
    for path in sorted((TOP / 'examples').glob('*.txt')):
        report = path.with_suffix('.report').read_text()
        status = 7 if re.search(r'^halt .*\n\Z', report, re.MULTILINE) else 0
        yield Row(f'examples/{path.name}', ['replay'], path.read_bytes(), report, status)
    for command in ('ingress', 'probe'):
        for path in sorted((TOP / 'examples').glob(f'*.{command}')):
            report = path.with_suffix('.report').read_text()
            status = 1 if re.search('^refused ', report, re.MULTILINE) else 0
            yield Row(f'examples/{path.name}', [command], path.read_bytes(), report, status)
    for path in sorted((TOP / 'examples').glob('*.audit')):
        answer = path.with_suffix('.answer').read_text()
        yield Row(f'examples/{path.name}', ['audit'], path.read_bytes(), answer, 0 if answer == 'yes\n' else 8)


def faults():
    """The examples of FAULTS that are given as texts: lines between backquotes, or octets for the `decode` that the table is of."""
    words = ['replay']
    for number, line in enumerate(FAULTS.read_text().splitlines(), 1):
        example, arrow, answer = line.split(' | ')[1].partition(' → ') if line.count(' | ') == 2 else ('', '', '')
        texts = re.findall('`([^`]*)`', example)
        if line.startswith('| word'):
            decode = re.search('`(decode .*?)`', line)
            words = decode[1].split() if decode else ['replay']
        elif arrow and texts:
            yield fault_row(f'docs/FAULTS.md:{number}', words, texts, answer.strip('`'))


def fault_row(place, words, texts, answer):
    kind = answer.split()[0]
    row = Row(place, words, output=answer + '\n', kinds=(kind,), status={'fault': 3, 'no': 8, 'refused': int(words[0] == 'decode')}[kind])
    if words[0] == 'decode':
        row.input = re.sub('^F ', 'f' * 32, texts[0]).encode()
        return row
    first = re.sub('(?m)^#.*\n', '', FIRST.read_text()).partition('events\n')[0]
    row.input = ''.join(first if text == 'FIRST' else text + '\n' for text in texts).encode()
    if 'report' in texts:
        row.words = ['audit']
    return row


# ---- the check

def differs(row, command, runner):
    """What came in place of what is expected, or nothing."""
    try:
        run = subprocess.run([*command, *row.words], input=row.input, capture_output=True, timeout=LONGEST)
    except subprocess.TimeoutExpired:
        return f'{row.place}, by the {runner}: no end within {LONGEST} seconds'
    came = run.stdout.decode('latin-1')
    if row.kinds:
        came = ''.join(line for line in came.splitlines(keepends=True) if line.startswith(row.kinds))
    if (came, run.returncode) == (row.output, row.status):
        return ''
    said = ', ' + run.stderr.decode('latin-1') if run.stderr else ''
    return (f'{row.place}, by the {runner}: wanted {shortened(row.output)}, status {row.status}; '
            f'came {shortened(came)}, status {run.returncode}{said}')


def starts(command):
    """Whether the program is there, which may have to be built first: without words it ends with its usage line, and status 2."""
    return subprocess.run(command, stdin=subprocess.DEVNULL, stdout=subprocess.DEVNULL).returncode == 2


def shortened(text):
    return repr(text if len(text) < 2000 else text[:2000] + '...')


def main():
    options = argparse.ArgumentParser(description='Runs the rows of checks/rows and compares.')
    options.add_argument('--command', default=str(TOP / 'mvpn'), help='runs the program')
    options.add_argument('files', nargs='*', help='names of files of rows, without .txt')
    given = options.parse_args()
    rows = Book(sorted(ROWS.glob('*.txt'))).rows + [*examples(), *faults()]
    if given.files:
        rows = [row for row in rows if re.split(r'\.txt|\.md', row.place)[0] in given.files]
    commands = {'program': shlex.split(given.command), 'reference': REFERENCE}
    if not starts(commands['program']):
        print('the program does not start\n0 passed, 1 failed')
        return 1
    runs = [(row, commands[runner], runner) for row in rows for runner in row.runners()]
    with ThreadPoolExecutor(4) as pool:
        differing = [reported for reported in pool.map(lambda run: differs(*run), runs) if reported]
    for reported in differing:
        print(reported)
    print('%d passed, %d failed' % (len(runs) - len(differing), len(differing)))
    return 1 if differing or not runs else 0


if __name__ == '__main__':
    sys.exit(main())
