"""A network whose nodes send each other messages over sessions, with octets in transit (network_defs/session_defs:
Message, System, Octets). The fields over directions are tables over all directions of the network. A system is two functions: what is there
after a message that is taken, and after a call; None where there is no step."""

from dataclasses import dataclass, replace

from .base import flat_map
from .reading import Fed, fed, message_front, pdu_front


@dataclass(frozen=True)
class Direction:
    kind: str
    start: int
    end: int


@dataclass(frozen=True)
class Put:
    """The octets of a unit that a node puts, and the direction over which it goes."""

    over: Direction
    octets: tuple


@dataclass(frozen=True)
class Stepped:
    state: object
    puts: tuple


@dataclass(frozen=True)
class System:
    taken: object
    called: object


@dataclass(frozen=True)
class OctetNetwork:
    state: object
    joined: dict
    transit: dict
    stream: dict


@dataclass(frozen=True)
class Behind:
    network: OctetNetwork
    puts: tuple


def started(state, directions):
    return OctetNetwork(state, {over: False for over in directions}, {over: () for over in directions}, {over: Fed() for over in directions})


def front_of(kind):
    return message_front if kind == 'bgp' else pdu_front


def octets_over(direction, puts):
    return flat_map(lambda put: put.octets if put.over == direction else (), puts)


def with_octets(old, new):
    """What is put goes after what is in transit; it is lost where the session is not joined."""
    transit = {over: left + octets_over(over, new.puts) if old.joined[over] else left for over, left in old.transit.items()}
    return replace(old, state=new.state, transit=transit)


def with_step(old, new):
    return None if new is None else Behind(with_octets(old, new), new.puts)


def with_earlier(puts, new):
    return None if new is None else Behind(new.network, puts + new.puts)


def all_taken(system, old, direction, messages):
    """The messages are taken one after another."""
    puts = ()
    for message in messages:
        step = with_step(old, system.taken(direction, message, old.state))
        if step is None:
            return None
        old, puts = step.network, puts + step.puts
    return Behind(old, puts)


def moved(system, old, direction, count):
    new = fed(front_of(direction.kind), old.stream[direction], old.transit[direction][:count])
    left = replace(
        old,
        transit={**old.transit, direction: old.transit[direction][count:]},
        stream={**old.stream, direction: replace(new, waiting=())})
    return all_taken(system, left, direction, new.waiting)


def octet_act(system, old, act):
    """Acts are tuples: 'move' direction count, 'call' call, and 'lose', 'forget' and 'join' with a test of directions."""
    match act:
        case ('move', direction, count):
            return moved(system, old, direction, count) if old.joined[direction] else Behind(old, ())
        case ('call', call):
            return with_step(old, system.called(call, old.state))
        case ('lose', hit):
            joined = {over: is_joined and not hit(over) for over, is_joined in old.joined.items()}
            transit = {over: () if hit(over) else left for over, left in old.transit.items()}
            return Behind(replace(old, joined=joined, transit=transit), ())
        case ('forget', hit):
            stream = {over: Fed() if hit(over) and not old.joined[over] else kept for over, kept in old.stream.items()}
            return Behind(replace(old, stream=stream), ())
        case ('join', hit):
            joined = {over: is_joined or hit(over) for over, is_joined in old.joined.items()}
            transit = {over: () if hit(over) else left for over, left in old.transit.items()}
            stream = {over: Fed() if hit(over) else kept for over, kept in old.stream.items()}
            return Behind(replace(old, joined=joined, transit=transit, stream=stream), ())


def octet_run(system, old, acts):
    if not acts:
        return Behind(old, ())
    step = octet_act(system, old, acts[0])
    return None if step is None else with_earlier(step.puts, octet_run(system, step.network, acts[1:]))
