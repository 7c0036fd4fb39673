"""The steps of an edge (edge_defs: Steps). A call is a tuple of its word and its fields: 'update' peer message, 'label' neighbour
message, 'pim' iface message, 'active' and 'idle' iface source group, 'select' and 'unselect' vrf pattern, 'raised' and
'noticed' kind peer, 'timers', 'rerouted'."""

from dataclasses import dataclass, replace

from .base import FinMap, from_entries
from .flows import flows_at
from .label_steps import Stepped, label_step
from .labels import LabelData, node_key
from .octets import Reach, Unreach, Update
from .pim import applied, kept_at
from .place import EdgeData, Note, Selected, TakenRoute, Value, VrfPattern, addr_of, key_parts, label_place, own_vrfs, pattern_key, same_value
from .routes import imported_selective
from .tunnels import leaves

# ---- routes that are taken


def learned(now, value, old):
    return old if old is not None and same_value(old.value, value) else TakenRoute(value, now, False)


def taken_change(now, taken, change):
    if isinstance(change, Reach):
        advert = change.advert
        return taken.insert(advert.key, learned(now, Value(advert.next_hop, advert.comms, advert.pmsi), taken.get(advert.key)))
    return taken.remove(change.key)


def with_update(now, peer, message, old):
    """The withdrawals of a message first, and then its advertisements."""
    taken = old.peers.get(peer)
    if taken is None:
        return old
    if isinstance(message, Update):
        for key in message.unreach:
            taken = taken_change(now, taken, Unreach(key))
        for advert in message.reach:
            taken = taken_change(now, taken, Reach(advert))
    return replace(old, peers=old.peers.insert(peer, taken))


# ---- selections

def free_number(vrf, entries, count, number):
    """The first number, from that one on and so many at most, that no selection of the VRF has."""
    while count > 0 and any(at.vrf == vrf and selected.number == number for at, selected in entries):
        count, number = count - 1, number + 1
    return number


def with_selection(now, vrf, pattern, old):
    return old.insert(VrfPattern(vrf, pattern), Selected(free_number(vrf, old.entries, len(old), 1), now, False))


# ---- timers

def selection_run(delay, now, selected):
    return replace(selected, run=selected.run or selected.since + delay <= now)


def selections_run(delay, now, old):
    return from_entries(pattern_key, [(at, selection_run(delay, now, selected)) for at, selected in old.entries])


def is_imported(place, peer, entry):
    return any(imported_selective(own.vrf, addr_of(place.scenario, peer), entry) is not None for own in own_vrfs(place))


def route_run(place, now, peer, entry):
    key, taken = entry
    return (key, replace(taken, run=taken.run or (is_imported(place, peer, entry) and taken.since + place.scenario.delay <= now)))


def taken_run(place, now, peer, taken):
    return (peer, from_entries(key_parts, [route_run(place, now, peer, entry) for entry in taken.entries]))


def peers_run(place, now, old):
    return from_entries(node_key, [taken_run(place, now, peer, taken) for peer, taken in old.entries])


def timed(place, now, old):
    return replace(
        old,
        entries=kept_at(old.entries, now),
        selections=selections_run(place.scenario.delay, now, old.selections),
        peers=peers_run(place, now, old.peers))


# ---- steps

def effect(place, now, old, call):
    """What a call itself changes."""
    match call:
        case ('update', peer, message):
            return with_update(now, peer, message, old)
        case ('label', _, _):
            return old
        case ('pim', iface, message):
            return replace(old, entries=applied(old.entries, iface, message, now))
        case ('active', iface, source, group):
            return replace(old, notes=old.notes.insert(Note(iface, source, group)))
        case ('idle', iface, source, group):
            return replace(old, notes=old.notes.remove(Note(iface, source, group)))
        case ('select', vrf, pattern):
            return replace(old, selections=with_selection(now, vrf, pattern, old.selections))
        case ('unselect', vrf, pattern):
            return replace(old, selections=old.selections.remove(VrfPattern(vrf, pattern)))
        case ('raised', 'bgp', peer):
            return replace(old, peers=old.peers.insert(peer, FinMap(key_parts)))
        case ('noticed', 'bgp', peer):
            return replace(old, peers=old.peers.remove(peer))
        case ('raised', 'ldp', _) | ('noticed', 'ldp', _) | ('rerouted',):
            return old
        case ('timers',):
            return timed(place, now, old)


def is_vrf_step(call):
    return call[0] not in ('select', 'unselect')


def refreshed(place, now, control):
    return replace(control, flows=flows_at(place, now, control))


def control_step(place, now, old, call):
    own = effect(place, now, old, call)
    return refreshed(place, now, own) if is_vrf_step(call) else own


# ---- the label part

def own_label_call(call):
    match call:
        case ('label', neighbour, message):
            return ('taken', neighbour, message)
        case ('raised' | 'noticed' as word, 'ldp', peer):
            return (word, peer)
        case ('timers',) | ('rerouted',):
            return call
        case _:
            return None


def changed_leaves(old, new):
    """The trees of which the node becomes or stops being a leaf, in their order."""
    return tuple(
        ('want', fec) if new.contains(fec) else ('unwant', fec)
        for fec in old.union(new).items if not (old.contains(fec) and new.contains(fec)))


def one_call(call):
    return () if call is None else (call,)


@dataclass(frozen=True)
class LabelStep:
    old: LabelData
    call: tuple
    new: Stepped


def label_row(place, now, part, calls):
    """The label steps of a row of calls; None where one of them needs a label and none is free."""
    row = ()
    for call in calls:
        new = label_step(label_place(place.scenario, place.core, place.me), now, part, call)
        if new is None:
            return None
        row, part = row + (LabelStep(part, call, new),), new.part
    return row


def part_after(part, row):
    return row[-1].new.part if row else part


@dataclass(frozen=True)
class EdgeStepped:
    edge: EdgeData
    row: tuple


def edge_step(place, now, old, call):
    control = control_step(place, now, old.control, call)
    calls = one_call(own_label_call(call)) + changed_leaves(leaves(place, old.control), leaves(place, control))
    row = label_row(place, now, old.part, calls)
    return None if row is None else EdgeStepped(EdgeData(control, part_after(old.part, row)), row)
