#!/usr/bin/env python3
"""Looks whether the documents name what is there, and whether the crates are as they say: `documents.py`.

Of each Markdown file of the repository: that no line is left of a merge; that the file and the heading of each link exist; that
what looks like a path of this repository does, as `network_defs/specs/Acts.antt`, `checks/rows.py`, or `mv_base/framing`, a folder
of a crate. A word in capitals, as in `crates/NAME`, stands for any name. In ARCHITECTURE: that each crate is in one room of the
house; that in the table of rules a path without a crate is beside the one before it; and that the recipe for a new event names
exactly the crates in which two events both have a case, with each file of `src` and `specs` that has both. In CALLS: that each
crate with public functions has a row. In FAULTS: that each section has a row for exactly the words of its enum in the code, with
an example, which is a row of rows.py.

Of the crates: that each begins with a paragraph about itself, at the head of `src/lib.rt` or `src/main.rt`; that each names words
of no other crates than those of its line in crates.txt, which the prover would say only once all of these are proved; and that the
ways down crates.txt, which `rt` walks at each start, are not too many, nor the files that have a case of one event of a customer.

Prints what is wrong, how many crates, edges and ways there are and how many such files, and then 'N passed, M failed', one for each
document, one for the heads of the crates, one for the words that they name, one for crates.txt and one for the cases.
"""

import functools
import itertools
import pathlib
import re
import subprocess
import sys

from rows import faults

TOP = pathlib.Path(__file__).resolve().parent.parent
CRATES = TOP / 'crates'
ARCHITECTURE, CALLS, FAULTS = 'docs/ARCHITECTURE.md', 'docs/CALLS.md', 'docs/FAULTS.md'
# the folders of a crate, and those at the top whose files documents name
PARTS = ('src', 'specs', 'proofs', 'must-fail')
FOLDERS = ('checks', 'docs', 'bench', 'tools', 'examples', 'crates')
MERGE = re.compile(r'^(<{7}|>{7}|\|{7}) |^={7}$')
LINK = re.compile(r'\]\(([^)#\s]*)(?:#([^)\s]*))?\)')
QUOTED = re.compile(r'`([A-Za-z0-9_./-]+)`')
ANY_NAME = re.compile(r'(^|/)[A-Z]+(/|$)')
# two events that are alike in nothing but that they are events: what has a case for both goes by cases over all of them
EVENTS = (re.compile(r'\bIdle\b'), re.compile(r'\bUnselect\b'))
# a file with both words has a case of an event of a customer; labels have a phase of the first name
CASE = (re.compile(r'\bIdle\b'), re.compile(r'\b(Customer|Active|CustomerEvent|CustomerCall)\b'))
# the sections of FAULTS, each with the file of its enum and the enum
WORDS = {
    'Faults of a text': ('line_words/src/fault.rt', 'Reason'),
    'Refused events': ('scenario_defs/src/report.rt', 'Refusal'),
    'Faults of Join/Prune messages': ('pim_joinprune/src/fault.rt', 'PimFault'),
    'Faults of packets': ('label_forwarding/src/fault.rt', 'PacketFault'),
    'Faults of FEC elements': ('mldp/src/mldp_fec/fault.rt', 'FecReason'),
    'Faults of PMSI Tunnel attributes': ('bgp_values/src/pmsi_attr/fault.rt', 'PmsiReason'),
    'Faults of MCAST-VPN routes': ('bgp_values/src/mvpn_nlri/fault.rt', 'RouteReason'),
    'Faults of BGP messages': ('bgp_messages/src/bgp_attributes/fault.rt', 'StreamFault'),
    'Faults of LDP PDUs': ('mldp/src/mldp_msgs/fault.rt', 'LdpFault'),
    'Faults of files of hops': ('core_pcap/src/fault.rt', 'PcapFault'),
    'Offences of a report': ('audit_defs/src/verdict.rt', 'Offence'),
}
LEAST_HEAD = 4
MOST_WAYS = 100_000
MOST_CASES = 35


def documents():
    """The Markdown files of the repository, by their paths."""
    reported = subprocess.run(['git', 'ls-files', '*.md'], cwd=TOP, capture_output=True, text=True, check=True)
    return reported.stdout.split()


@functools.cache
def lower_crates():
    """The crates, each with those of the repository that its line of crates.txt names."""
    lines = (TOP / 'crates.txt').read_text().splitlines()
    parted = [line.partition(':') for line in lines if line and not line.startswith('#')]
    named = {name: libraries.split() for name, _, libraries in parted}
    return {name: [library for library in libraries if library in named] for name, libraries in named.items()}


def is_there(path):
    """Whether a path of a crate, a folder of one, or a path of a folder at the top exists; None where it is none of these."""
    first, _, rest = path.partition('/')
    if first in FOLDERS and rest:
        return (TOP / path).exists()
    if rest and first in lower_crates():
        if rest.split('/')[0] in PARTS:
            return (CRATES / path).exists()
        return (CRATES / first / 'src' / f'{rest}.rt').exists()
    return None


@functools.cache
def anchors(path):
    """The names by which links reach the headings of a document."""
    titles = re.findall(r'^#+ (.*)', path.read_text(), re.M)
    return {re.sub(r'[^\w -]', '', title).lower().replace(' ', '-') for title in titles}


def faults_of_line(document, line):
    """What is wrong in a line of any document."""
    if MERGE.match(line):
        yield 'a line of a merge'
    for link, anchor in LINK.findall(line):
        path = (TOP / document).parent / link if link else TOP / document
        if '://' in link:
            continue
        if not path.exists():
            yield f'no file {link}'
        elif anchor and anchor not in anchors(path):
            yield f'no heading {anchor} in {path.name}'
    for path in QUOTED.findall(line):
        if is_there(path) is False and not ANY_NAME.search(path):
            yield f'no path {path}'


def section(text, title):
    """The number of the first line of the section with that title, and its lines."""
    lines = text.splitlines()
    start = lines.index(f'## {title}')
    rest = itertools.takewhile(lambda line: not line.startswith('## '), lines[start + 1:])
    return start + 1, [lines[start], *rest]


def faults_of_rooms(text):
    """The crates that are in no room of the house, or in two, and what is there and no crate."""
    first, lines = section(text, 'The house on one page')
    cells = [line.rstrip('|').rpartition('|')[2] for line in lines if line.startswith('| **')]
    named = [name for cell in cells for name in QUOTED.findall(cell)]
    for name in sorted({*named, *lower_crates()}):
        if name not in lower_crates():
            yield first, f'no crate {name}'
        elif named.count(name) != 1:
            yield first, f'{name} is in {named.count(name)} rooms'


def faults_of_rules(text):
    """The files of the table of rules that are not beside the path before them."""
    first, lines = section(text, 'Where a rule is')
    for number, line in enumerate(lines, first):
        for cell in line.split('|'):
            folder = None
            for path in QUOTED.findall(cell):
                if is_there(path):
                    folder = (CRATES / path).parent
                elif path.endswith(('.rt', '.antt', '/')) and folder and not (folder / path).exists():
                    yield number, f'no {path} in {folder.relative_to(CRATES)}'


def has_cases(text):
    return all(event.search(text) for event in EVENTS)


def texts_of(crate, part):
    """The texts of the files of a part of a crate, by their paths."""
    folder = CRATES / crate / part
    files = sorted([*folder.rglob('*.rt'), *folder.rglob('*.antt')])
    return {str(path.relative_to(CRATES)): path.read_text() for path in files}


def files_with_cases(crate):
    """The files of a crate's `src` and `specs` that have a case for both events; None where the crate has not."""
    stated, proofs = texts_of(crate, 'src') | texts_of(crate, 'specs'), texts_of(crate, 'proofs')
    if not has_cases(' '.join([*stated.values(), *proofs.values()])):
        return None
    return [path for path, text in stated.items() if has_cases(text)]


def faults_of_recipe(text):
    """What the recipe for a new event leaves out, or names for nothing."""
    recipe = re.search(r'^\*\*A new event\*\*.*?(?=^\*\*)', text, re.M | re.S)
    line = text.count('\n', 0, recipe.start()) + 1
    named = set(QUOTED.findall(recipe[0]))
    crates = {path.split('/')[0] for path in named}
    for crate in lower_crates():
        files = files_with_cases(crate)
        if files is None:
            if crate in crates:
                yield line, f'{crate} does not go by cases over events'
            continue
        for missing in sorted({crate} - crates | set(files) - named):
            yield line, f'the recipe for a new event does not name {missing}'


def has_calls(crate):
    """Whether the crate is a library with public functions."""
    sources = (CRATES / crate / 'src').rglob('*.rt')
    return any(re.search(r'^\s*pub fn ', source.read_text(), re.M) for source in sources)


def crates_without_row(text):
    """The crates with public functions that no row of the table names."""
    named = set(re.findall(r'^\| (\w+) \|', text, re.M))
    return [name for name in lower_crates() if name not in named and has_calls(name)]


def words_of(path, name):
    """The words of the variants of an enum: of `Same` it is `self`, and of the others the name in lower case."""
    body = re.search(rf'^pub enum {name} {{\n(.*?)^}}', (CRATES / path).read_text(), re.M | re.S)[1]
    variants = re.findall(r'^    (\w+)\b', body, re.M)
    return ['self' if name == 'Same' else re.sub(r'(?<!^)(?=[A-Z])', '-', name).lower() for name in variants]


def reported_words(lines):
    """The words of the rows of a section of FAULTS."""
    return [found[1] for found in (re.match(r'\| `([a-z-]+)', line) for line in lines) if found]


def faults_of_words(text):
    """The words that are missing in a section of FAULTS or are there for nothing, and rows of it that are none of three cells."""
    for title, (path, name) in WORDS.items():
        number, lines = section(text, title)
        reported, wanted = reported_words(lines), words_of(path, name)
        for word in sorted({*reported, *wanted}):
            if reported.count(word) != 1 or word not in wanted:
                yield number, f'{word} of {name} has {reported.count(word)} rows'
        for at, line in enumerate(lines, number):
            if line.startswith('| `') and (line.count(' | ') != 2 or ' → ' not in line.split(' | ')[1]):
                yield at, 'no row of a word, an example and what to do'
    if not any(faults()):
        yield 0, 'no example that rows.py runs'


def faults_of_document(document):
    text = (TOP / document).read_text()
    for number, line in enumerate(text.splitlines(), 1):
        for fault in faults_of_line(document, line):
            yield number, fault
    if document == ARCHITECTURE:
        yield from faults_of_rooms(text)
        yield from faults_of_rules(text)
        yield from faults_of_recipe(text)
    if document == CALLS:
        yield from ((0, f'no row of {crate}') for crate in crates_without_row(text))
    if document == FAULTS:
        yield from faults_of_words(text)


def faults_of_heads():
    """The crates that do not begin with a paragraph about themselves."""
    for crate in lower_crates():
        root = next(path for path in (CRATES / crate / 'src').iterdir() if path.name in ('lib.rt', 'main.rt'))
        head = itertools.takewhile(lambda line: line.startswith('//!'), root.read_text().splitlines())
        if len(list(head)) < LEAST_HEAD:
            yield 1, f'{crate} does not begin with {LEAST_HEAD} lines about itself'


def faults_of_names():
    """The crates that name words of another one by a path that begins with it, where their lines of crates.txt do not have it."""
    below = lower_crates()
    for crate in below:
        foreign = set(below) - {crate, *below[crate]}
        for path, text in itertools.chain(*(texts_of(crate, part).items() for part in ('src', 'specs', 'proofs'))):
            for other in sorted(foreign & set(re.findall(r'\bRattle\.(\w+)\.', text))):
                yield 1, f'{path} names words of {other}, which the line of {crate} in crates.txt does not have'


def faults_of_ways():
    """Whether the ways down from all crates, each to one below it, are too many. Prints how many they are."""
    below = lower_crates()

    @functools.cache
    def ways(crate):
        return sum(1 + ways(lower) for lower in below[crate])

    count = sum(map(ways, below))
    print(f'{len(below)} crates, {sum(map(len, below.values()))} edges, {count} ways')
    if count > MOST_WAYS:
        yield 0, f'more than {MOST_WAYS} ways'


def faults_of_cases():
    """Whether the files that have a case of one event of a customer are too many. Prints how many they are."""
    texts = itertools.chain(*(texts_of(crate, part).values() for crate in lower_crates() for part in ('src', 'specs', 'proofs')))
    count = sum(all(word.search(text) for word in CASE) for text in texts)
    print(f'{count} files have a case of the event Idle')
    if count > MOST_CASES:
        yield 0, f'more than {MOST_CASES} files have a case of one event of a customer'


def main():
    looked_at = [(document, faults_of_document(document)) for document in documents()]
    looked_at += [('crates', faults_of_heads()), ('names', faults_of_names()), ('crates.txt', faults_of_ways()), ('events', faults_of_cases())]
    passed, failed = 0, 0
    for name, found in looked_at:
        faults = list(found)
        for number, fault in faults:
            print(f'{name}:{number} {fault}')
        passed, failed = passed + (not faults), failed + bool(faults)
    print(f'{passed} passed, {failed} failed')
    return 1 if failed else 0


if __name__ == '__main__':
    sys.exit(main())
