"""The acts of each event, one after another, and runs of a script (network_defs: Events, Run)."""

from dataclasses import dataclass, replace

from . import report
from .base import flat_map
from .octets import packet
from .refusals import call_for, edge_for, group_in, refusal, source_in
from .scenario import entered, sessions
from .world import Acted, Datagram, World, act, all_nodes, directions, is_joined, is_up, link_ways, scenario_of, start


@dataclass(frozen=True)
class Done:
    """The lines of each act of a row, and the network after them all."""

    acts: tuple
    world: World


@dataclass(frozen=True)
class Halted:
    """The lines of the acts that ended before one at which a node runs out of labels, and that node."""

    acts: tuple
    node: int


def and_then(before, step):
    if isinstance(before, Halted):
        return before
    after = step(before.world)
    return replace(after, acts=before.acts + after.acts)


def one_act(world, one):
    new = act(world, one)
    return Done((new.lines,), new.world) if isinstance(new, Acted) else Halted((), new.node)


def each(turn, items, world):
    """A row of what depends on the network at its turn."""
    outcome = Done((), world)
    for item in items:
        outcome = and_then(outcome, lambda new: turn(item, new))
    return outcome


def row(acts, world):
    return each(lambda one, new: one_act(new, one), acts, world)


def times(rounds, count, world):
    return each(lambda _, new: rounds(new), range(count), world)


# ---- raise and heal

def raise_acts(session):
    return [('raise first', session.kind, session.a, session.b), ('raise second', session.kind, session.a, session.b)]


def is_session_of(kind, a, b, session):
    return session.kind == kind and (session.a, session.b) in ((a, b), (b, a))


def raises(world, kind, a, b):
    session = next((session for session in sessions(scenario_of(world)) if is_session_of(kind, a, b, session)), None)
    return [] if session is None else raise_acts(session)


def notices(world, session, number, peer):
    return [('notice', session.kind, number, peer)] if is_up(world, session.kind, number, peer) else []


def healed(session, world):
    if is_joined(world, session):
        return Done((), world)
    return row(notices(world, session, session.a, session.b) + notices(world, session, session.b, session.a) + raise_acts(session), world)


# ---- settle

def turn(over, world):
    count = len(world.network.transit[over])
    return row([('move', over.kind, over.start, over.end, count)] if count else [], world)


def settled(world):
    scenario = scenario_of(world)
    timers = row([('timers', number) for number in all_nodes(scenario)], world)
    return and_then(timers, lambda new: times(lambda one: each(turn, directions(scenario), one), len(scenario.nodes) + 3, new))


# ---- drain

def landings(world, way):
    return [('land', way[0], way[1], 1)] * len(world.copies[way])


def drain_round(world):
    return row(flat_map(lambda way: landings(world, way), link_ways(scenario_of(world))), world)


def drained(world):
    return times(drain_round, 255, world)


# ---- events

def sent(site, source, group, octets, world):
    accepted = replace(world, datagrams=world.datagrams + (Datagram(site, source, group, octets),))
    return row([('enter', vrf) for vrf in entered(scenario_of(world), site)], accepted)


def at_edge(number, call, world):
    return Done((), world) if number is None else row([('at', number, call)], world)


def called(call, world):
    """What a customer calls for, where it does."""
    return Done((), world) if call is None else at_edge(edge_for(scenario_of(world), call), call, world)


def done(world, event):
    """What comes of an event that is not refused."""
    scenario = scenario_of(world)
    kind, a, b, count = event.kind, event.a, event.b, event.count
    match event.word:
        case 'tick':
            return row([('tick', count)], world)
        case 'timers' | 'restart':
            return row([(event.word, a)], world)
        case 'move':
            return row([('move', kind, a, b, count)], world)
        case 'cost':
            return row([('set cost', a, b, count)] + [('reroute', number) for number in all_nodes(scenario)], world)
        case 'lose' | 'notice':
            return row([(event.word, kind, a, b)], world)
        case 'raise':
            return row(raises(world, kind, a, b), world)
        case 'join' | 'prune' | 'pim' | 'active' | 'idle' | 'select' | 'unselect':
            return called(call_for(scenario, event), world)
        case 'send':
            return sent(event.site, event.source, event.group, packet(event.source, event.group, event.octets), world)
        case 'packet':
            return sent(event.site, source_in(event.octets), group_in(event.octets), event.octets, world)
        case 'hop':
            return row([('land', a, b, count)], world)
        case 'drop':
            return row([('drop', a, b, count)], world)
        case 'heal':
            return each(healed, sessions(scenario), world)
        case 'settle':
            return settled(world)
        case 'drain':
            return drained(world)
        case 'state':
            return row([('tell',)], world)


# ---- runs

def outcome(world, timed):
    reason = refusal(world, timed.event)
    return done(world, timed.event) if reason is None else Done(((report.Refused(timed.line, reason),),), world)


def run(script):
    """The lines of the report, and whether the run halts: then its last line says where."""
    world, lines = start(script.scenario), ()
    for timed in script.events:
        new = outcome(world, timed)
        lines += flat_map(lambda act_lines: act_lines, new.acts)
        if isinstance(new, Halted):
            return lines + (report.Halt(timed.line, new.node),), True
        world = new.world
    return lines, False
