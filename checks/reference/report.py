"""The lines of a report, and their text (scenario_defs: Text)."""

from dataclasses import dataclass


@dataclass(frozen=True)
class Out:
    number: int
    iface: int
    octets: tuple


@dataclass(frozen=True)
class Refused:
    line: int
    reason: str


@dataclass(frozen=True)
class State:
    octets: int
    copies: int
    buffers: int
    due: int
    unready: int


@dataclass(frozen=True)
class Halt:
    line: int
    node: int


@dataclass(frozen=True)
class Put:
    kind: str
    start: int
    end: int
    octets: tuple


@dataclass(frozen=True)
class Take:
    kind: str
    start: int
    end: int
    octets: tuple


@dataclass(frozen=True)
class Hop:
    start: int
    end: int
    label: int
    ttl: int
    number: int


@dataclass(frozen=True)
class Land:
    start: int
    end: int
    label: int
    number: int


WIRE = (Put, Take, Hop, Land)


def hex_text(octets):
    return bytes(octets).hex() if octets else '-'


def ends_text(scenario, start, end):
    return f'{scenario.nodes[start].name} {scenario.nodes[end].name}'


def line_text(scenario, line):
    match line:
        case Out(number, iface, octets):
            return f'out {number} {scenario.ifaces[iface].name} {hex_text(octets)}\n'
        case Refused(number, reason):
            return f'refused {number} {reason}\n'
        case State(octets, copies, buffers, due, unready):
            return f'state {octets} {copies} {buffers} {due} {unready}\n'
        case Halt(number, node):
            return f'halt {number} label {scenario.nodes[node].name}\n'
        case Put(kind, start, end, octets):
            return f'put {kind} {ends_text(scenario, start, end)} {hex_text(octets)}\n'
        case Take(kind, start, end, octets):
            return f'take {kind} {ends_text(scenario, start, end)} {hex_text(octets)}\n'
        case Hop(start, end, label, ttl, number):
            return f'hop {ends_text(scenario, start, end)} {label} {ttl} {number}\n'
        case Land(start, end, label, number):
            return f'land {ends_text(scenario, start, end)} {label} {number}\n'
