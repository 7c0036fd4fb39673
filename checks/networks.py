#!/usr/bin/env python3
"""Replays random networks and scripts by the reference program of the definitions, and checks after every act and of every report
what is promised: `networks.py [--count N] [--seed S] [--events N] [--jobs N] [--show]`.

Each number from S on makes one network: edges and core nodes, VPNs with one or several VRFs and sites, of IPv4 and of IPv6, some
attached at two edges; and a script of events of every kind, with losses, restarts, cut messages, costs that change, selections and
their delays, and windows after lines that are to be calm. Checked of it:

    rules       the label rule, settled trees, sessions and streams, limits, after every act; present costs outside `cost`
    settled     no octet in transit in a joined session and no timer due after `settle`; no copy on a link after `drain`
    calm        a line of zeros after `heal`, `settle`, `tick`, `settle`
    unready     the sessions that are not ready, by the events alone
    safe        each `out` line is of a datagram that was sent before, with its octets, to an interface of its site's VPN
    once        each datagram of a window leaves at exactly its receivers, once
    licensed    each hop and each delivery by the octets that were put and taken
    apart       without some events that do not concern a VPN, those that do are refused alike, and its datagrams have the same
                receivers, and leave at the same interfaces where they lie in windows of both

A script that halts because a node ran out of labels is judged up to its halt. Prints what is wrong, with the number of the network,
and last 'N passed, M failed'. With --show the text of the first network is printed instead.
"""

import argparse
import random
import sys
from collections import Counter
from concurrent.futures import ProcessPoolExecutor
from dataclasses import dataclass, field

from reference import events, report
from reference.base import V4, V6, addr_octets, checksum, to_be_bytes
from reference.customers import concerns, outs_of, own_events
from reference.events import Done, Halted
from reference.history import Sessions, Step, not_once, receivers, unsafe_lines, vpn_of_iface, windows
from reference.licence import Judge
from reference.rules import cost_faults, rule_faults
from reference.script import read
from reference.world import act as real_act
from reference.world import all_copies, due_timers, octets_in_transit, start

# ---- random texts

V4_GROUPS = ['232.1.1.1', '225.1.1.1']
V6_GROUPS = ['ff3e:0:0:0:0:0:8000:1', 'ff05:0:0:0:0:0:0:9']


@dataclass
class Vpn:
    """A VPN: its family, the words of its VRFs and interfaces, and its sites, each with sources of its prefixes."""

    is_six: bool
    vrfs: list = field(default_factory=list)
    ifaces: list = field(default_factory=list)
    sites: dict = field(default_factory=dict)


@dataclass
class Made:
    """A network as it is being made, by the words of its lines."""

    rng: random.Random
    lines: list = field(default_factory=list)
    edges: list = field(default_factory=list)
    nodes: list = field(default_factory=list)
    links: list = field(default_factory=list)
    vpns: list = field(default_factory=list)

    def say(self, line):
        self.lines.append(line)

    def one(self, items):
        return self.rng.choice(items)

    def chance(self, share):
        return self.rng.random() < share


def make_core(made):
    edges, cores = made.rng.randint(1, 4), made.rng.randint(0, 3)
    names = [(f'E{number}', 'edge') for number in range(1, edges + 1)] + [(f'C{number}', 'core') for number in range(1, cores + 1)]
    made.rng.shuffle(names)
    for number, (name, word) in enumerate(names):
        made.say(f'{word} {name} 192.0.2.{number + 1}')
        made.nodes.append(name)
        if word == 'edge':
            made.edges.append(name)
    for number in range(1, len(names)):
        made.links.append((made.nodes[number], made.one(made.nodes[:number])))
    for _ in range(made.rng.randint(0, 3)):
        a, b = made.one(made.nodes), made.one(made.nodes)
        if a != b and (a, b) not in made.links and (b, a) not in made.links:
            made.links.append((a, b))
    for a, b in made.links:
        made.say(f'link {a} {b} {made.rng.randint(1, 3)}')


def make_vpn(made, vpn):
    """Some VRFs, at most one at an edge, and sites with one or two prefixes; prefixes of the VPNs overlap."""
    rule = made.one(['highest', 'nearest', 'hash'])
    own = Vpn(made.chance(0.4))
    made.vpns.append(own)
    for number, edge in enumerate(made.rng.sample(made.edges, made.rng.randint(1, len(made.edges)))):
        name = f'V{vpn}_{number}'
        made.say(f'vrf {name} {edge} {vpn} 65000:{vpn * 10 + number} 65000:{vpn},65000:{vpn + 50} {rule}')
        own.vrfs.append(name)
    for number in range(made.rng.randint(2, 4)):
        make_site(made, own, vpn, number)


def make_site(made, own, vpn, number):
    name = f'S{vpn}_{number}'
    prefixes = [f'2001:db8:{number:x}:0:0:0:0:0/48' if own.is_six else f'10.{number}.0.0/16']
    own.sites[name] = [f'2001:db8:{number:x}:0:0:0:0:9' if own.is_six else f'10.{number}.0.9']
    if made.chance(0.3):
        # a longer prefix within that of the first site
        prefixes.append(f'2001:db8:0:{number + 1:x}:0:0:0:0/64' if own.is_six else f'10.0.{number + 1}.0/24')
        own.sites[name].append(f'2001:db8:0:{number + 1:x}:0:0:0:9' if own.is_six else f'10.0.{number + 1}.9')
    made.say(f'site {name} {",".join(prefixes)}')
    for place, vrf in enumerate(made.rng.sample(own.vrfs, min(len(own.vrfs), 2 if made.chance(0.35) else 1))):
        addr = f'2001:db8:{number:x}:0:0:0:0:{place + 1}' if own.is_six else f'10.{number}.0.{place + 1}'
        iface = f'I{vpn}_{number}_{place}'
        made.say(f'iface {iface} {vrf} {name} {addr}')
        own.ifaces.append((iface, addr))


def make_scenario(made):
    made.say(f'life {made.rng.randint(1, 3)}')
    made.say(f'delay {made.rng.randint(1, 4)}')
    if made.chance(0.1):
        made.say(f'labels {made.rng.randint(1, 6)}')
    make_core(made)
    for vpn in range(1, made.rng.randint(1, 3) + 1):
        make_vpn(made, vpn)
    made.say('events')


# ---- random events

def source_of(made, vpn):
    """A source of some site's prefix, seldom of none."""
    if made.chance(0.05):
        return '2001:db8:77:0:0:0:0:9' if vpn.is_six else '10.77.0.9'
    return made.one([source for sources in vpn.sites.values() for source in sources])


def group_of(made, vpn):
    return made.one(V6_GROUPS if vpn.is_six else V4_GROUPS)


def entry_of(made, vpn):
    source, group = source_of(made, vpn), group_of(made, vpn)
    return made.one([f'{source} {group}', f'{source} {group}', f'* {group}', f'{source} {group} rpt'])


def addr_in(word):
    from reference.script import addr_in as read_addr
    return read_addr(word)


def encoded(addr, head):
    family, octets = (1 if isinstance(addr, V4) else 2), addr_octets(addr)
    return (family, 0) + head + octets


def joinprune_octets(made, own, vpn):
    """The octets of a random Join/Prune message to that address."""
    bits = 128 if vpn.is_six else 32
    groups = ()
    count = made.rng.randint(1, 2)
    for _ in range(count):
        rows = []
        for _ in range(2):
            rows.append([made.one([4, 6, 7, 5]) for _ in range(made.rng.randint(0, 2))])
        text = encoded(addr_in(group_of(made, vpn)), (0, bits)) + to_be_bytes(2, len(rows[0])) + to_be_bytes(2, len(rows[1]))
        for flags in rows[0] + rows[1]:
            flags = flags if flags != 6 else 4
            addr = addr_in(own) if flags == 7 else addr_in(source_of(made, vpn))
            text += encoded(addr, (flags, bits))
        groups += text
    body = (0,) + encoded(addr_in(own), ()) + (0, count) + to_be_bytes(2, made.one([0, 1, 2, 210, 65535])) + groups
    whole = (0x23,) + (0, 0, 0) + body[1:]
    pseudo = ()
    if vpn.is_six:
        pseudo = (0xfe, 0x80) + (0,) * 13 + (1,) + (0xff, 2) + (0,) * 13 + (13,) + to_be_bytes(4, len(whole)) + (0, 0, 0, 103)
    total = checksum(pseudo + whole)
    return bytes((0x23, 0) + to_be_bytes(2, total) + whole[4:]).hex()


def pattern_of(made, vpn):
    return f'{made.one([source_of(made, vpn), "*"])} {made.one([group_of(made, vpn), "*"])}'


def customer_event(made):
    vpn = made.one(made.vpns)
    iface, addr = made.one(vpn.ifaces)
    word = made.one(['join'] * 8 + ['prune', 'active', 'active', 'active', 'idle', 'select', 'select', 'unselect', 'pim'])
    if word in ('join', 'prune'):
        made.say(f'{word} {iface} {entry_of(made, vpn)}')
    elif word in ('active', 'idle'):
        made.say(f'{word} {iface} {source_of(made, vpn)} {group_of(made, vpn)}')
    elif word == 'pim':
        made.say(f'pim {iface} {joinprune_octets(made, addr, vpn)}')
    else:
        made.say(f'{word} {made.one(vpn.vrfs)} {pattern_of(made, vpn)}')


def datagram_event(made):
    """A datagram from a site, mostly of a source at home there."""
    vpn = made.one(made.vpns)
    site = made.one(list(vpn.sites))
    source = made.one(vpn.sites[site]) if made.chance(0.9) else source_of(made, vpn)
    made.say(f'send {site} {source} {group_of(made, vpn)} {made.rng.randbytes(2).hex()}')


def session_words(made):
    if len(made.edges) > 1 and made.chance(0.5):
        return 'bgp ' + ' '.join(made.rng.sample(made.edges, 2))
    if made.links:
        return 'ldp ' + ' '.join(made.rng.sample(made.one(made.links), 2))
    return None


def disturbance(made):
    """Losses, restarts, cut messages, costs that change, time."""
    word = made.one(['move', 'move', 'lose', 'notice', 'raise', 'restart', 'cost', 'cost', 'tick', 'timers', 'hop', 'drop', 'heal', 'settle'])
    session = session_words(made)
    if word in ('move', 'lose', 'notice', 'raise') and session:
        made.say(f'{word} {session}' + (f' {made.one([7, 60, 200, 5000])}' if word == 'move' else ''))
    elif word in ('restart', 'timers'):
        made.say(f'{word} {made.one(made.nodes)}')
    elif word in ('cost', 'hop', 'drop') and made.links:
        a, b = made.rng.sample(made.one(made.links), 2)
        made.say(f'{word} {a} {b} {made.rng.randint(1, 6) if word == "cost" else made.rng.randint(1, 2)}')
    elif word == 'tick':
        made.say(f'tick {made.rng.randint(1, 4)}')
    elif word in ('heal', 'settle'):
        made.say(word)


def joined_flow(made):
    """A flow of some site, which a few interfaces of its VPN join, by (S,G) or by (*,G) and a noted source."""
    vpn = made.one(made.vpns)
    site, group = made.one(list(vpn.sites)), group_of(made, vpn)
    source = made.one(vpn.sites[site])
    for _ in range(made.rng.randint(1, 3)):
        made.say(f'join {made.one(vpn.ifaces)[0]} {"*" if made.chance(0.3) else source} {group}')
    if made.chance(0.4):
        made.say(f'active {made.one(vpn.ifaces)[0]} {source} {group}')
    return f'send {site} {source} {group}'


def window(made):
    """Calm is sought, and then datagrams are sent, landed and drained."""
    flows = [joined_flow(made) for _ in range(made.rng.randint(0, 2))]
    for line in ('heal', 'settle', 'tick 5', 'settle', 'state'):
        made.say(line)
    for _ in range(made.rng.randint(2, 6)):
        if flows and made.chance(0.7):
            made.say(f'{made.one(flows)} {made.rng.randbytes(2).hex()}')
        else:
            datagram_event(made)
        if made.chance(0.3) and made.links:
            a, b = made.rng.sample(made.one(made.links), 2)
            made.say(f'hop {a} {b} 1')
    made.say('drain')
    made.say('state')


def make_text(seed, count):
    made = Made(random.Random(seed))
    make_scenario(made)
    for line in ('heal', 'settle', 'tick 4', 'settle'):
        made.say(line)
    while len(made.lines) < count:
        turn = made.rng.random()
        if turn < 0.45:
            customer_event(made)
        elif turn < 0.6:
            datagram_event(made)
        elif turn < 0.9:
            disturbance(made)
        else:
            window(made)
    window(made)
    return '\n'.join(made.lines) + '\n'


# ---- replay with checks

class Replay:
    """One run, with what is checked on the way."""

    def __init__(self, text):
        self.script = read(text)
        self.scenario = self.script.scenario
        self.world = start(self.scenario)
        self.past, self.sessions = [], Sessions(self.scenario)
        self.lines, self.refused, self.datagrams, self.wanted = [], set(), {}, {}
        self.judge = Judge(self.scenario)
        self.faults = []
        self.counts = Counter()
        self.place = 0
        self.ended = len(self.script.events)

    def wrong(self, what, *more):
        self.faults.append((what, self.script.events[self.place].line) + more)

    def act(self, world, one):
        """An act, and what is checked after it; between the two acts of a raise the rules do not hold."""
        new = real_act(world, one)
        if not hasattr(new, 'world'):
            return new
        self.counts['acts'] += 1
        self.judge.happen(one, new.lines, new.world.datagrams)
        if one[0] != 'raise first':
            for fault in rule_faults(new.world):
                self.wrong('rules', one, fault)
        return new

    def accepted(self, event):
        """A datagram with its receivers by the past."""
        number = len(self.datagrams) + 1
        sent = self.world.datagrams[number - 1]
        self.datagrams[number] = Sent(self.place, sent.site, sent.source, sent.group, sent.octets)
        self.wanted[number] = receivers(self.scenario, self.past, self.sessions.clock, sent.site, sent.source, sent.group)

    def after(self, event):
        state = self.world
        if event.word == 'settle' and (octets_in_transit(state) or due_timers(state)):
            self.wrong('settled', octets_in_transit(state), due_timers(state))
        if event.word == 'drain' and all_copies(state):
            self.wrong('drained')
        for fault in cost_faults(state):
            self.wrong(*fault)

    def is_behind_calm(self):
        words = [timed.event.word for timed in self.script.events[max(0, self.place - 4):self.place]]
        return words == ['heal', 'settle', 'tick', 'settle'] and self.script.events[self.place - 2].event.count >= 5

    def reported(self, line):
        if line.unready != self.sessions.unready():
            self.wrong('unready', line, self.sessions.unready())
        if self.is_behind_calm():
            self.counts['calm'] += 1
            if line != report.State(0, 0, 0, 0, 0):
                self.wrong('calm', line)

    def event(self, timed):
        self.counts[timed.event.word] += 1
        before = len(self.world.datagrams)
        new = events.outcome(self.world, timed)
        flat = [line for lines in new.acts for line in lines]
        self.lines += [(self.place, line) for line in flat]
        if isinstance(new, Halted):
            self.counts['halts'] += 1
            self.ended = self.place
            return False
        self.world = new.world
        if flat and isinstance(flat[0], report.Refused):
            self.refused.add(self.place)
            self.counts['refused'] += 1
            return True
        self.sessions.happen(timed.event)
        self.past.append(Step(timed.event, self.sessions.clock))
        if len(self.world.datagrams) > before:
            self.accepted(timed.event)
        self.after(timed.event)
        for line in flat:
            if isinstance(line, report.State):
                self.reported(line)
        return True

    def run(self):
        events.act = self.act
        for self.place, timed in enumerate(self.script.events):
            if not self.event(timed):
                break
        self.faults += [('safe', fault) for fault in unsafe_lines(self.script, self.lines, self.datagrams)]
        wrong, judged = not_once(self.script, self.lines, self.refused, self.datagrams, self.wanted)
        self.faults += [('once', fault) for fault in wrong]
        self.faults += [('licensed', fault) for fault in self.judge.faults]
        self.counts['judged'] += judged
        self.counts['outs'] += sum(isinstance(line, report.Out) for _, line in self.lines)
        self.counts['networks'] += 1
        return self


@dataclass(frozen=True)
class Sent:
    event: int
    site: int
    source: object
    group: object
    octets: tuple


# ---- two runs that are alike for a VPN

class Plain(Replay):
    """A run of which no act is checked."""

    def act(self, world, one):
        return real_act(world, one)


# events that bring calm and report it, which stay, and those of customers
CALMING = ('heal', 'settle', 'drain', 'state')
CUSTOMER_WORDS = ('join', 'prune', 'pim', 'active', 'idle', 'select', 'unselect', 'send', 'packet')


def without_others(rng, text, script, vpn):
    """The text without some events that do not concern the VPN, most of them of other customers."""
    lines = text.splitlines(keepends=True)
    for timed in reversed(script.events):
        word = timed.event.word
        share = 0 if word in CALMING or concerns(script.scenario, vpn, timed.event) else 0.7 if word in CUSTOMER_WORDS else 0.3
        if rng.random() < share:
            del lines[timed.line - 1]
    return ''.join(lines)


def of_vpn(replay, vpn):
    """The events of the VPN up to the end of the run; and its datagrams, each with how many of these events came before it."""
    own = own_events(replay.scenario, vpn, replay.script.events[:replay.ended], replay.refused)
    before = {place: count for count, (_, _, place) in enumerate(own)}
    numbers = [number for number, sent in replay.datagrams.items() if sent.event in before]
    return [(event, accepted) for event, accepted, _ in own], [(number, before[replay.datagrams[number].event]) for number in numbers]


def lies_calm(replay, number):
    place = replay.datagrams[number].event
    return any(first < place <= last for first, last in windows(replay.script, replay.lines, replay.refused))


def apart_faults(seed, text, replay):
    """Where a run without some events that do not concern a VPN parts from the run for it."""
    rng = random.Random(seed)
    vpn = rng.choice(sorted({vpn_of_iface(replay.scenario, iface) for iface in range(len(replay.scenario.ifaces))}, key=sorted))
    other = Plain(without_others(rng, text, replay.script, vpn)).run()
    (own, datagrams), (other_own, counterparts) = of_vpn(replay, vpn), of_vpn(other, vpn)
    alike = min(len(own), len(other_own))
    if own[:alike] != other_own[:alike]:
        return [('apart', 'refused')]
    faults = []
    for (number, before), (counterpart, other_before) in zip(datagrams, counterparts):
        if before != other_before or replay.wanted[number] != other.wanted[counterpart]:
            faults.append(('apart', 'receivers', number, counterpart))
        replay.counts['counterparts'] += 1
        if lies_calm(replay, number) and lies_calm(other, counterpart):
            replay.counts['calm counterparts'] += 1
            if outs_of(replay.lines, number) != outs_of(other.lines, counterpart):
                faults.append(('apart', 'interfaces', number, counterpart))
    replay.counts['dropped'] += len(replay.script.events) - len(other.script.events)
    return faults


def judged(task):
    seed, count = task
    try:
        text = make_text(seed, count)
        replay = Replay(text).run()
        replay.faults += apart_faults(seed, text, replay)
    except Exception as fault:
        return seed, [('error', repr(fault))], Counter()
    return seed, replay.faults[:3], replay.counts


def main():
    parser = argparse.ArgumentParser()
    parser.add_argument('--count', type=int, default=24)
    parser.add_argument('--seed', type=int, default=1)
    parser.add_argument('--events', type=int, default=90)
    parser.add_argument('--jobs', type=int, default=2)
    parser.add_argument('--show', action='store_true')
    given = parser.parse_args()
    if given.show:
        sys.stdout.write(make_text(given.seed, given.events))
        return 0
    tasks = [(seed, given.events) for seed in range(given.seed, given.seed + given.count)]
    failed, counts = 0, Counter()
    with ProcessPoolExecutor(given.jobs) as pool:
        for seed, faults, found in pool.map(judged, tasks):
            counts += found
            failed += bool(faults)
            for fault in faults:
                print(f'network {seed}: {fault}')
    print(', '.join(f'{word} {counts[word]}' for word in sorted(counts)))
    print(f'{given.count - failed} passed, {failed} failed')
    return 1 if failed else 0


if __name__ == '__main__':
    sys.exit(main())
