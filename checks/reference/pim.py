"""Entries of an edge, and what Join/Prune messages and timers make of them (pim_defs: Expiry, Mention, Entries, Asking, Single;
mvpn_model: Messages). An expiry is a clock, or NEVER, which is after every clock."""

import math
from dataclasses import dataclass

from .base import V4, flat_map, from_entries, sized_addr_key, slice_get
from .joinprune import Group, JoinPrune, JpSource, PimFault, decoded
from .script import Rpt, Source, Star

NEVER = math.inf


@dataclass(frozen=True)
class IfaceEntry:
    iface: int
    entry: object


def entry_key(at):
    match at.entry:
        case Star(group):
            return (at.iface, 0) + sized_addr_key(group)
        case Source(source, group):
            return (at.iface, 1) + sized_addr_key(source) + sized_addr_key(group)
        case Rpt(source, group):
            return (at.iface, 2) + sized_addr_key(source) + sized_addr_key(group)


# ---- expiries

def is_after(expiry, clock):
    return clock < expiry


def counts(clock, expiry):
    return expiry is not None and is_after(expiry, clock)


def held_until(clock, holdtime):
    return NEVER if holdtime == 65535 else clock + holdtime


def latest(clock, holdtime, old):
    return held_until(clock, holdtime) if old is None else max(old, held_until(clock, holdtime))


def extended(clock, holdtime, old):
    return latest(clock, holdtime, old) if is_after(latest(clock, holdtime, old), clock) else old


# ---- what a message says of an entry

def entry_of(group, source):
    match source.kind:
        case 'sg':
            return Source(source.addr, group)
        case 'star':
            return Star(group)
        case 'rpt':
            return Rpt(source.addr, group)


def joins(message, entry):
    return any(entry_of(group.group, source) == entry for group in message.groups for source in group.joins)


def prunes(message, entry):
    return any(entry_of(group.group, source) == entry for group in message.groups for source in group.prunes)


@dataclass(frozen=True)
class Mention:
    joined: bool
    pruned: bool
    shared: bool


def mention_of(message, entry):
    return Mention(joins(message, entry), prunes(message, entry), joins(message, Star(entry.group)))


def rpt_after(mention, clock, holdtime, old):
    kept = None if mention.shared and not mention.pruned else old
    unjoined = None if mention.joined else kept
    return extended(clock, holdtime, unjoined) if mention.pruned else unjoined


def joined_after(mention, clock, holdtime, old):
    if mention.pruned:
        return None
    return extended(clock, holdtime, old) if mention.joined else old


def expiry_after(entry, mention, clock, holdtime, old):
    return rpt_after(mention, clock, holdtime, old) if isinstance(entry, Rpt) else joined_after(mention, clock, holdtime, old)


# ---- entries

def expiry_at(entries, iface, entry):
    return entries.get(IfaceEntry(iface, entry))


def expiry_then(entries, iface, message, clock, at):
    old = entries.get(at)
    return expiry_after(at.entry, mention_of(message, at.entry), clock, message.holdtime, old) if at.iface == iface else old


def named_in(iface, message):
    return flat_map(lambda group: [IfaceEntry(iface, entry_of(group.group, source)) for source in group.joins + group.prunes], message.groups)


def with_expiries(expiry, ats):
    return [(at, expiry(at)) for at in ats if expiry(at) is not None]


def applied(entries, iface, message, clock):
    return from_entries(entry_key, with_expiries(lambda at: expiry_then(entries, iface, message, clock, at), entries.keys() + named_in(iface, message)))


ENTRY_LIMIT = 1024


def are_too_many(entries):
    return ENTRY_LIMIT < len(entries)


def kept_at(entries, clock):
    return entries.retain_keys(lambda at: counts(clock, entries.get(at)))


def due(entries, clock):
    return sum(not is_after(expiry, clock) for expiry in entries.values())


def asks_by(clock, active, joined, shared, pruned):
    return counts(clock, joined) or (counts(clock, shared) and not counts(clock, pruned) and active)


def asks(entries, iface, source, group, active, clock):
    return asks_by(clock, active, expiry_at(entries, iface, Source(source, group)), expiry_at(entries, iface, Star(group)), expiry_at(entries, iface, Rpt(source, group)))


# ---- the messages that events hand to an edge

@dataclass(frozen=True)
class Given:
    iface: int
    message: JoinPrune


def source_of(neighbour, entry):
    match entry:
        case Star(_):
            return JpSource('star', neighbour)
        case Source(source, _):
            return JpSource('sg', source)
        case Rpt(source, _):
            return JpSource('rpt', source)


def join_of(neighbour, entry):
    return JoinPrune(neighbour, 210, (Group(entry.group, (source_of(neighbour, entry),), ()),))


def prune_of(neighbour, entry):
    return JoinPrune(neighbour, 210, (Group(entry.group, (), (source_of(neighbour, entry),)),))


def iface_addr(scenario, iface):
    """The interface's own address (own_addr of mvpn_model)."""
    found = slice_get(scenario.ifaces, iface)
    return V4((0, 0, 0, 0)) if found is None else found.addr


def message_of(scenario, event):
    match event.word:
        case 'join':
            return Given(event.iface, join_of(iface_addr(scenario, event.iface), event.entry))
        case 'prune':
            return Given(event.iface, prune_of(iface_addr(scenario, event.iface), event.entry))
        case 'pim':
            read = decoded(event.octets)
            return None if isinstance(read, PimFault) else Given(event.iface, read)
        case _:
            return None
