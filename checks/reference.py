#!/usr/bin/env python3
"""Runs a command by the definitions, plainly and slowly: `reference.py replay [--wire]` replays a scenario and its script; `audit`
judges a finished report; `probe` reports what an edge makes of the octets of a peer; `ingress` replicates at the ingress; `pcap` writes
the file of the hops of a replay, and `hops` writes the lines of such a file.

The input is read from standard input. What is written, and the status, are as by the program.
"""

import sys

from reference.audit import audit
from reference.ingress import ingress
from reference.pcap import hops, pcap
from reference.probe import probe
from reference.replaying import replay

# what each command makes of an input: what is written, and the status
COMMANDS = {
    ('replay',): lambda octets: replay(octets, False),
    ('replay', '--wire'): lambda octets: replay(octets, True),
    ('audit',): audit,
    ('probe',): probe,
    ('ingress',): ingress,
    ('pcap',): pcap,
    ('hops',): hops,
}


def main(words):
    command = COMMANDS.get(tuple(words))
    if command is None:
        print('usage: reference.py', ' | '.join(' '.join(known) for known in COMMANDS))
        return 2
    written, status = command(sys.stdin.buffer.read())
    sys.stdout.buffer.write(written if isinstance(written, bytes) else written.encode())
    return status


if __name__ == '__main__':
    sys.exit(main(sys.argv[1:]))
