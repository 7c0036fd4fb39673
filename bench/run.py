#!/usr/bin/env python3
"""Measures the program on each kind of input of make.py, at a size and at twice that size, and prints a table.

    python3 bench/run.py [RUNS]

The two sizes are run in turn, RUNS times each (by default once). The processor seconds of a row are the least of its runs, and the
memory is the most; the last column has by how much the seconds of the greater size are more.
"""

import os
import pathlib
import subprocess
import sys
import tempfile

HERE = pathlib.Path(__file__).resolve().parent
MVPN = HERE.parent / 'mvpn'
# what MVPN builds, and runs once it has seen that nothing has changed since: that look is not measured
PROGRAM = HERE.parent / 'crates/mvpn/out/mvpn'

# the kind, the words of the command, the smaller size, and the status that is expected
INPUTS = [
    ('comments', ['replay'], 8_000_000, 0),
    ('joins', ['replay'], 8_000_000, 0),
    ('events', ['replay'], 100_000, 0),
    ('drains', ['replay'], 100_000, 0),
    ('network', ['replay'], 10_000, 0),
    ('mix', ['replay'], 10_000, 0),
    ('settles', ['replay'], 10_000, 0),
    ('restarts', ['replay'], 150, 0),
    ('costs', ['replay'], 250, 0),
    ('messages', ['replay'], 100_000, 0),
    ('shared', ['replay'], 100_000, 0),
    ('groups', ['replay'], 1_900, 0),
    ('limits', ['replay'], 100_000, 0),
    ('late-fault', ['replay'], 8_000_000, 3),
    ('decode', ['decode', 'fec'], 8_000_000, 0),
    ('decode-nlri', ['decode', 'nlri'], 8_000_000, 0),
    ('decode-bgp', ['decode', 'bgp'], 8_000_000, 0),
    ('decode-ldp', ['decode', 'ldp'], 8_000_000, 0),
    ('ingress', ['ingress'], 8_000_000, 0),
    ('probe', ['probe'], 8_000_000, 0),
    ('pcap', ['pcap'], 145_000, 0),
    ('hops', ['hops'], 145_000, 0),
    ('audit', ['audit'], 10_000, 0),
    ('receivers', ['audit'], 10_000, 8),
]


def measure(words, file):
    """The status, the processor seconds and the peak memory in MiB of one call, whose output is thrown away."""
    with open(file, 'rb') as text, open(os.devnull, 'wb') as nowhere:
        child = subprocess.Popen([PROGRAM, *words], stdin=text, stdout=nowhere)
        _, status, usage = os.wait4(child.pid, 0)
    child.returncode = os.waitstatus_to_exitcode(status)
    return child.returncode, usage.ru_utime + usage.ru_stime, usage.ru_maxrss / 1024


def main():
    # Builds the program where it is not built, outside what is measured: without words the status is 2.
    if subprocess.run([MVPN], stdout=subprocess.DEVNULL).returncode != 2:
        sys.exit('the program could not be built')
    runs = int(sys.argv[1]) if len(sys.argv) > 1 else 1
    print('| input | size | octets | processor seconds | peak memory in MiB | times |')
    print('|---|---|---|---|---|---|')
    wrong = 0
    with tempfile.TemporaryDirectory() as folder:
        for kind, words, smaller, expected in INPUTS:
            sizes = (smaller, 2 * smaller)
            files = [os.path.join(folder, str(size)) for size in sizes]
            for size, file in zip(sizes, files):
                with open(file, 'wb') as out:
                    subprocess.run([sys.executable, HERE / 'make.py', kind, str(size)], stdout=out, check=True)
            measured = [[measure(words, file) for file in files] for _ in range(runs)]
            least = None
            for size, file, row in zip(sizes, files, zip(*measured)):
                seconds, memory = min(run[1] for run in row), max(run[2] for run in row)
                times = '%.1f' % (seconds / least) if least else ''
                least = seconds
                print('| %s | %s | %s | %.2f | %.0f | %s |' % (
                    kind, f'{size:,}', f'{os.path.getsize(file):,}', seconds, memory, times), flush=True)
                if any(run[0] != expected for run in row):
                    wrong = 1
                    print('%s %d: a status is not %d' % (kind, size, expected), file=sys.stderr)
    return wrong


if __name__ == '__main__':
    sys.exit(main())
