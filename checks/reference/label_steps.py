"""The label steps of a node (label_defs: Settling, Steps)."""

from dataclasses import dataclass, replace

from .base import flat_map, from_entries
from .labels import (FIRST_LABEL, Branch, End, Free, LabelData, Leaving, Mapped, Resting, free_label, has_tree, is_hold_due, is_ready, is_rested,
                     mapped_label, node_key, same_fec, trees, use_of)
from .octets import Mapping, Release, Withdraw

# ---- what a tree needs

@dataclass(frozen=True)
class Put:
    to: int
    message: object


@dataclass(frozen=True)
class Stepped:
    part: LabelData
    puts: tuple


def with_use(part, label, usage):
    place = label - FIRST_LABEL
    return replace(part, labels=part.labels[:place] + (usage,) + part.labels[place + 1:])


def upstream_of(usage):
    return usage.upstream if isinstance(usage, (Mapped, Leaving)) else None


def change_by(on_tree, mapped, holder, upstream, ready, free):
    """What a tree needs: ('keep',), ('map', upstream, label), ('withdraw', upstream, label), ('wait',), ('cancel',) or ('no label',)."""
    match (on_tree, mapped, upstream, ready, free):
        case (True, None, None, _, _):
            return ('cancel',)
        case (True, None, _, True, None):
            return ('no label',)
        case (True, None, _, True, _):
            return ('map', upstream, free)
        case (True, None, _, False, _):
            return ('wait',)
        case (True, _, _, _, _) if holder == upstream:
            return ('keep',)
        case (False, None, _, _, _):
            return ('cancel',)
        case _:
            return ('keep',) if holder is None else ('withdraw', holder, mapped)


def is_ready_to(part, upstream):
    return upstream is not None and is_ready(part, upstream)


def change_of(place, part, fec):
    mapped = mapped_label(part, fec)
    holder = None if mapped is None else upstream_of(use_of(part, mapped))
    upstream = place.upstream(fec)
    return change_by(has_tree(part, fec), mapped, holder, upstream, is_ready_to(part, upstream), free_label(part))


def changed(part, fec, change):
    match change:
        case ('keep',):
            return part
        case ('map', upstream, label):
            return replace(with_use(part, label, Mapped(fec, upstream)), waiting=part.waiting.remove(fec))
        case ('withdraw', upstream, label):
            return with_use(part, label, Leaving(fec, upstream))
        case ('wait',):
            return replace(part, waiting=part.waiting.insert(fec))
        case ('cancel',):
            return replace(part, waiting=part.waiting.remove(fec))
        case ('no label',):
            return None


def put_by(fec, change):
    match change:
        case ('map', upstream, label):
            return (Put(upstream, Mapping(fec, label)),)
        case ('withdraw', upstream, label):
            return (Put(upstream, Withdraw(fec, label)),)
        case _:
            return ()


def settle_all(place, fecs, old):
    """The trees settle one after another; None where one of them needs a label and none is free."""
    for fec in fecs:
        change = change_of(place, old.part, fec)
        part = changed(old.part, fec, change)
        if part is None:
            return None
        old = Stepped(part, old.puts + put_by(fec, change))
    return old


# ---- steps: the calls Taken, Want, Unwant, Raised, Noticed, Timers and Rerouted are tuples of their word and fields

def released(sender, fec, until, usage):
    match usage:
        case Leaving(own, upstream) if same_fec(own, fec) and upstream == sender:
            return Resting(until)
        case _:
            return usage


def with_release(part, sender, fec, label, until):
    usage = use_of(part, label)
    return part if usage is None else with_use(part, label, released(sender, fec, until, usage))


def taken(place, now, part, sender, message):
    match message:
        case Mapping(fec, label):
            return replace(part, branches=part.branches.insert(Branch(fec, sender, label))) if place.is_tree(fec) else part
        case Withdraw(fec, label):
            return replace(part, branches=part.branches.remove(Branch(fec, sender, label)))
        case Release(fec, label):
            return with_release(part, sender, fec, label, now + place.life + 1)
        case _:
            return part


def answers(sender, message):
    return (Put(sender, Release(message.fec, message.label)),) if isinstance(message, Withdraw) else ()


def trees_of(message):
    return (message.fec,) if isinstance(message, (Mapping, Withdraw)) else ()


def freed(node, usage):
    return Free() if isinstance(usage, (Mapped, Leaving)) and usage.upstream == node else usage


def without_session(part, node):
    return replace(
        part,
        labels=tuple(freed(node, usage) for usage in part.labels),
        branches=part.branches.retain(lambda branch: branch.node != node),
        ends=part.ends.remove(node))


def woken(now, usage):
    return Free() if is_rested(now, usage) else usage


def hold_run(life, now, end):
    return replace(end, held=end.held or is_hold_due(life, now, end))


def holds_run(life, now, ends):
    return from_entries(node_key, [(node, hold_run(life, now, end)) for node, end in ends.entries])


def timed(place, now, part):
    return replace(part, labels=tuple(woken(now, usage) for usage in part.labels), ends=holds_run(place.life, now, part.ends))


def effect(place, now, part, call):
    """What is there after the call's own effect, with what answers it, and the trees that settle then."""
    match call:
        case ('taken', sender, message):
            return Stepped(taken(place, now, part, sender, message), answers(sender, message)), trees_of(message)
        case ('want', fec):
            return Stepped(replace(part, leaves=part.leaves.insert(fec)), ()), (fec,)
        case ('unwant', fec):
            return Stepped(replace(part, leaves=part.leaves.remove(fec)), ()), (fec,)
        case ('raised', peer):
            return Stepped(replace(part, ends=part.ends.insert(peer, End(now, False, 1))), ()), ()
        case ('noticed', peer):
            return Stepped(without_session(part, peer), ()), trees(part)
        case ('timers',):
            return Stepped(timed(place, now, part), ()), part.waiting.items
        case ('rerouted',):
            return Stepped(part, ()), flat_map(lambda fec: (fec, fec), trees(part))


def next_id(number):
    return 1 if number == 4294967295 else number + 1


def ends_after(ends, puts):
    for put in puts:
        end = ends.get(put.to)
        if end is not None:
            ends = ends.insert(put.to, replace(end, next=next_id(end.next)))
    return ends


def label_step(place, now, part, call):
    """A label step; None where the trees that settle need more labels than are free."""
    own, fecs = effect(place, now, part, call)
    new = settle_all(place, fecs, own)
    return None if new is None else Stepped(replace(new.part, ends=ends_after(new.part.ends, new.puts)), new.puts)
