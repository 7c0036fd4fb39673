#!/usr/bin/env python3
"""Random texts of `ingress`, by the program and by the reference program of the definitions; compares what they write, and their
statuses: `ingress.py [--command COMMAND] [--count N] [--seed S]`.

A text has a root of one of both families, leaves that answer, and peers of which octets come in pieces: answers, answers that lack
something, withdrawals, other messages, and all of these with octets that were changed, cut out or put in. Some texts have a word or
an octet that does not fit. Each text is made of its number alone. The command is `./mvpn` of this repository, unless another one is
named. Prints the numbers of texts that differ, and last 'N passed, M failed'.
"""

import argparse
import pathlib
import random
import shlex
import subprocess
import sys

from reference import octets as forms
from reference.base import V4
from reference.ingress import PATH, answer, attribute, ingress
from reference.updates import Ingress, read_route

TOP = pathlib.Path(__file__).resolve().parent.parent
ROOT = V4((192, 0, 2, 1))
FLOWS = {1: '200a01000920e8010101 0020e8010101 0000', 2: '8020010db800000000000000000000000980ff3e0000000000000000000080000001 0000'}


def message(attributes, withdrawn=b''):
    body = len(withdrawn).to_bytes(2, 'big') + withdrawn + len(attributes).to_bytes(2, 'big') + attributes
    return b'\xff' * 16 + (19 + len(body)).to_bytes(2, 'big') + b'\x02' + body


def root_advert(chance):
    afi = chance.choice((1, 1, 2))
    fields = bytes.fromhex('0000fde800000001' + chance.choice(FLOWS[afi].split(' '))) + bytes(ROOT.octets)
    route, _ = read_route(afi, (3, len(fields)) + tuple(fields))
    return forms.Advert(forms.Mcast(afi, route), ROOT, (), forms.Pmsi(True, Ingress(ROOT), None))


def root_message(advert, chance):
    reach = advert.key.afi.to_bytes(2, 'big') + bytes((5, 4)) + bytes(ROOT.octets) + b'\x00' + bytes(forms.route_written(advert.key.route))
    flags, kind = chance.choice((1, 1, 1, 1, 1, 255, 0)), chance.choice((6, 6, 6, 6, 6, 6, 7))
    return message(PATH + attribute(0x80, 14, reach) + attribute(0xC0, 22, bytes((flags, kind, 0, 0, 0)) + bytes(ROOT.octets)))


def withdrawal(advert, leaf):
    fields = bytes(forms.route_written(advert.key.route) + leaf.octets)
    return message(attribute(0x80, 15, advert.key.afi.to_bytes(2, 'big') + b'\x05' + bytes((4, len(fields))) + fields))


def spoilt(octets, chance):
    """Octets of which some were changed, cut out or put in."""
    octets = bytearray(octets)
    for _ in range(chance.choice((0, 0, 1, 1, 2))):
        place = chance.randrange(len(octets))
        step = chance.randrange(3)
        octets[place:place + (step != 2)] = bytes([chance.choice((0, 1, 4, 5, 255, chance.randrange(256)))] * (step != 1))
    return bytes(octets)


def octets_of(advert, peer, chance):
    """The octets of some messages of a peer."""
    whole = b''
    for _ in range(chance.randrange(1, 5)):
        leaf = chance.choice((peer, peer, peer, V4((192, 0, 2, chance.randrange(8)))))
        made = chance.choice((
            answer(advert, leaf, chance.choice((0, 15, 16, 17, 1048575))), withdrawal(advert, leaf),
            root_message(advert, chance), b'\xff' * 16 + b'\x00\x13\x04'))
        whole += spoilt(made, chance)
    return whole


def pieces_of(octets, chance):
    while octets:
        count = chance.choice((1, 19, 60, 500, 2000))
        yield octets[:count]
        octets = octets[count:]


def text_of(seed):
    chance = random.Random(seed)
    advert = root_advert(chance)
    lines, waiting = [], []
    for number in range(2, 8):
        peer = V4((192, 0, 2, number))
        name = '192.0.2.%d' % number
        if chance.randrange(2):
            lines += [f'leaf {name} {chance.randrange(16, 40)}' for _ in range(chance.randrange(1, 4))]
        else:
            waiting.append([f'from {name} {piece.hex()}' for piece in pieces_of(octets_of(advert, peer, chance), chance)])
    chance.shuffle(lines)
    while any(waiting):
        own = chance.choice([pieces for pieces in waiting if pieces])
        lines.append(own.pop(0))
    lines.insert(0, f'root 192.0.2.1 {root_message(advert, chance).hex()}')
    text = ''.join(line + '\n' for line in lines)
    if chance.randrange(5) == 0:
        place = chance.randrange(len(text))
        text = text[:place] + chance.choice(' \n0#x\t') + text[place + chance.randrange(2):]
    return text.encode()


def differs(command, seed):
    text = text_of(seed)
    wanted, status = ingress(text)
    ran = subprocess.run([*command, 'ingress'], input=text, capture_output=True, timeout=300)
    return (ran.stdout.decode(), ran.returncode) != (wanted, status)


def main():
    options = argparse.ArgumentParser()
    options.add_argument('--command', default=str(TOP / 'mvpn'))
    options.add_argument('--count', type=int, default=400)
    options.add_argument('--seed', type=int, default=1)
    given = options.parse_args()
    differing = [seed for seed in range(given.seed, given.seed + given.count) if differs(shlex.split(given.command), seed)]
    for seed in differing:
        print(f'text {seed} differs')
    print(f'{given.count - len(differing)} passed, {len(differing)} failed')
    return 1 if differing else 0


if __name__ == '__main__':
    sys.exit(main())
