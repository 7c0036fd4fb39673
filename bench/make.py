#!/usr/bin/env python3
"""Writes an input for the program to standard output:

    python3 bench/make.py KIND SIZE > FILE

    comments    SIZE octets of comments, then a small scenario with one event
    joins       a scenario with 1,000 interfaces, then about SIZE octets of joins, their words padded with spaces
    events      a scenario with 1,000 interfaces, then SIZE events: joins and sends in turn, each datagram leaving at
                ten interfaces
    messages    SIZE events: Join/Prune messages of one source at an interface with 1,000 entries, joins and prunes in turn
    shared      SIZE events: joins of the shared tree at an interface that has pruned 500 sources off it
    groups      SIZE events: Join/Prune messages of 45 groups with four sources each
    limits      a scenario at each limit of nodes, edges, links, VRFs, sites, interfaces, targets and prefixes, then SIZE
                events: joins and sends in turn, each datagram entering at two edges
    drains      a scenario with 1,000 interfaces, then SIZE events: joins, sends and drains in turn
    network     the scenario of 32 edges, 16 core nodes and 8 VPNs that `make` writes, then SIZE events of every kind, at random
    mix         32 edges, 16 core nodes, 256 VRFs, 512 sites and 768 interfaces, then SIZE events, most of them joins and sends
    settles     the scenario that `make` writes, all its sessions up, then SIZE times `settle`, with nothing to do
    restarts    the same scenario, then SIZE times `heal`, `settle` and a core node that restarts
    costs       the same scenario, then SIZE times another cost of a link, `settle` and a tick
    late-fault  SIZE octets of comments, of which the last line is faulty
    decode      SIZE octets of hexadecimal text, which writes multipoint FEC elements end to end, one on each line
    decode-nlri SIZE octets of hexadecimal text, which writes MCAST-VPN routes of AFI 1 end to end, one on each line
    decode-bgp  SIZE octets of hexadecimal text, which writes BGP messages end to end, one on each line
    decode-ldp  SIZE octets of hexadecimal text, which writes LDP PDUs end to end, one on each line
    ingress     a root, and about SIZE octets of lines: leaves that answer, and octets of a hundred peers
    probe       two edges, ten joins at the one, and about SIZE octets of lines with octets of the other: BGP messages end to end, cut into
                lines of 4,096 octets
    pcap        28 edges that receive a flow over one core node, then sends and drains that come to about SIZE hops
    hops        a file of SIZE hops, each of a datagram of 22 octets
    audit       SIZE sends in one calm window, each datagram leaving at ten interfaces, and the report of them
    receivers   SIZE sends in one calm window, each to 990 interfaces, and a report of the first datagram alone

Those before `decode` are inputs of `replay`, `decode` is one of `decode fec`, `decode-NAME` one of `decode NAME`, and `ingress`, `probe`,
`pcap`, `hops` and `audit` are each one of the command of that name, `receivers` one of `audit`. The input is within the limits: 16,777,216
octets, 200,000 events, 1,024 interfaces and entries, 4,096 octets a line.
"""

import random
import sys

EVENT_LIMIT = 200_000
SITES = 100
IFACES_PER_SITE = 10
JOIN_LEN = 80
# edges to which a datagram goes from the core node
RECEIVING = 28


def comments(size):
    """Comment lines of exactly that many octets, which is 2 or more."""
    line = '# ' + 'comment ' * 9 + 'comment\n'
    yield from (line for _ in range(size // len(line)))
    rest = size % len(line)
    if rest:
        yield '#' * (rest - 1) + '\n'


def small():
    yield 'edge E1 192.0.2.1\nvrf V1 E1 1 65000:1 65000:1 highest\n'
    yield 'site X 10.1.0.0/16\niface X1 V1 X 10.1.0.1\nevents\nstate\n'


def thousand_ifaces():
    """One edge, one VRF, and 100 sites of 10 interfaces each."""
    yield 'edge E1 192.0.2.1\nvrf V1 E1 1 65000:1 65000:1 highest\n'
    for site in range(SITES):
        yield 'site S%d 10.%d.0.0/16\n' % (site, site)
    for number in range(SITES * IFACES_PER_SITE):
        site, place = divmod(number, IFACES_PER_SITE)
        yield 'iface %s V1 S%d 10.%d.0.%d\n' % (iface(number), site, site, place + 1)
    yield 'events\n'


def iface(number):
    return 'I%d' % (number % (SITES * IFACES_PER_SITE))


def flow(site):
    """The flow of a host at the site."""
    return '10.%d.0.99 232.1.1.1' % (site % SITES)


def join(number):
    """Each interface joins the flow of the site before its own, so a flow has ten receivers. Every 1,000th join is of
    the same entry again."""
    site = number % (SITES * IFACES_PER_SITE) // IFACES_PER_SITE
    return 'join %s %s' % (iface(number), flow(site - 1))


def joins(size):
    yield from thousand_ifaces()
    for number in range(min(EVENT_LIMIT, size // JOIN_LEN)):
        front, source, group = join(number).rsplit(' ', 2)
        pad = JOIN_LEN - 1 - len(front) - len(source) - len(group)
        yield front + ' ' * (pad // 2) + source + ' ' * (pad - pad // 2) + group + '\n'


def events(size):
    yield from thousand_ifaces()
    for number in range(min(EVENT_LIMIT, size)):
        if number % 2 == 0:
            yield join(number // 2) + '\n'
        else:
            site = number // 2 % SITES
            yield 'send S%d %s aabb\n' % (site, flow(site))


def drains(size):
    yield from thousand_ifaces()
    for number in range(min(EVENT_LIMIT, size)):
        if number % 3 == 0:
            yield join(number // 3) + '\n'
        elif number % 3 == 1:
            site = number // 3 % SITES
            yield 'send S%d %s aabb\n' % (site, flow(site))
        else:
            yield 'drain\n'


MADE_EDGES, MADE_CORES, MADE_VPNS = 32, 16, 8


def made_scenario():
    """The scenario of each number that `make` takes."""
    edges, cores = range(1, MADE_EDGES + 1), range(1, MADE_CORES + 1)
    yield from ('edge E%d 192.0.2.%d\n' % (edge, edge) for edge in edges)
    yield from ('core C%d 192.0.3.%d\n' % (core, core) for core in cores)
    yield from ('link C%d C%d 1\n' % (core, core % MADE_CORES + 1) for core in cores)
    yield from ('link E%d C%d 1\n' % (edge, (edge - 1) % MADE_CORES + 1) for edge in edges)
    for edge in edges:
        for vpn in range(1, MADE_VPNS + 1):
            yield 'vrf V%d_%d E%d %d 65000:%d 65000:%d highest\n' % (vpn, edge, edge, vpn, vpn, vpn)
            yield 'site S%d_%d 10.%d.%d.0/24\n' % (vpn, edge, edge, vpn)
            yield 'iface I%d_%d V%d_%d S%d_%d 10.%d.%d.1\n' % (vpn, edge, vpn, edge, vpn, edge, edge, vpn)
    yield 'events\nheal\nsettle\ntick 3\nsettle\n'


class Events:
    """Events at random over that scenario, each a line. Sessions are lost and come up again, so some lines are refused."""

    def __init__(self):
        self.made = random.Random(1)

    def flow(self, vpn):
        edge = self.made.randint(1, MADE_EDGES)
        return edge, '10.%d.%d.9 232.1.%d.%d' % (edge, vpn, self.made.randint(1, 2), vpn)

    def session(self):
        edge = self.made.randint(1, MADE_EDGES)
        if self.made.random() < 0.5:
            return 'ldp', 'E%d' % edge, 'C%d' % ((edge - 1) % MADE_CORES + 1)
        return 'bgp', 'E%d' % edge, 'E%d' % (edge % MADE_EDGES + 1)

    def customers(self):
        vpn, edge = self.made.randint(1, MADE_VPNS), self.made.randint(1, MADE_EDGES)
        source, flow = self.flow(vpn)
        kind = self.made.choice(['join', 'join', 'join', 'prune', 'active', 'idle', 'select', 'unselect'])
        if kind in ('select', 'unselect'):
            return '%s V%d_%d %s' % (kind, vpn, source, flow)
        if kind == 'join' and self.made.random() < 0.2:
            return 'join I%d_%d * %s' % (vpn, edge, flow.split()[1])
        return '%s I%d_%d %s' % (kind, vpn, edge, flow)

    def datagrams(self):
        vpn = self.made.randint(1, MADE_VPNS)
        source, flow = self.flow(vpn)
        core = self.made.randint(1, MADE_CORES)
        ways = ['hop E%d C%d 1' % (source, (source - 1) % MADE_CORES + 1), 'drop C%d C%d 1' % (core, core % MADE_CORES + 1), 'drain']
        return self.made.choice(['send S%d_%d %s aabb' % (vpn, source, flow)] * 5 + ways)

    def sessions(self):
        kind, a, b = self.session()
        lines = ['lose %s %s %s' % (kind, a, b), 'notice %s %s %s' % (kind, a, b), 'notice %s %s %s' % (kind, b, a)]
        lines += ['raise %s %s %s' % (kind, a, b), 'move %s %s %s 40' % (kind, a, b), 'heal', 'settle', 'state']
        lines += ['restart E%d' % self.made.randint(1, MADE_EDGES), 'timers C%d' % self.made.randint(1, MADE_CORES), 'tick 1']
        core = self.made.randint(1, MADE_CORES)
        return self.made.choice(lines + ['cost C%d C%d %d' % (core, core % MADE_CORES + 1, self.made.randint(1, 9))])

    def line(self):
        return self.made.choice([self.customers] * 5 + [self.datagrams] * 4 + [self.sessions])()


def network(size):
    yield from made_scenario()
    events = Events()
    yield from (events.line() + '\n' for _ in range(min(EVENT_LIMIT, size)))


MIX_SITES, MIX_SENDING, MIX_GROUPS = 64, 16, 2
# the share of each kind of event in a hundred
MIX = {'join': 33, 'send': 32, 'prune': 12, 'select': 6, 'lose': 5, 'settle': 3, 'drain': 3, 'idle': 1, 'active': 1, 'tick': 1, 'heal': 1, 'state': 1,
       'unselect': 1}


def mix_scenario():
    """Each VPN has a VRF at each edge and two sites there; the second of these is attached at the next edge too."""
    edges, cores = range(MADE_EDGES), range(MADE_CORES)
    yield from ('edge E%d 192.0.2.%d\n' % (edge, edge + 1) for edge in edges)
    yield from ('core C%d 192.0.3.%d\n' % (core, core + 1) for core in cores)
    yield from ('link C%d C%d 1\n' % (core, (core + 1) % MADE_CORES) for core in cores)
    yield from ('link E%d C%d 1\n' % (edge, edge % MADE_CORES) for edge in edges)
    for vpn in range(MADE_VPNS):
        yield from ('vrf V%d_%d E%d %d 65000:%d 65000:%d highest\n' % (vpn, edge, edge, vpn + 1, vpn, vpn) for edge in edges)
        for site in range(MIX_SITES):
            yield 'site S%d_%d 10.%d.%d.0/24\n' % (vpn, site, vpn, site)
            yield 'iface I%d_%d V%d_%d S%d_%d 10.%d.%d.1\n' % (vpn, site, vpn, site // 2, vpn, site, vpn, site)
            if site % 2 == 1:
                yield 'iface J%d_%d V%d_%d S%d_%d 10.%d.%d.2\n' % (vpn, site, vpn, (site // 2 + 1) % MADE_EDGES, vpn, site, vpn, site)
    yield 'events\nheal\nsettle\ntick 3\nsettle\n'


def mix_line(made, kind):
    """An event of that kind, of a flow of one of the sites of a random VPN at which hosts send."""
    vpn, site, other = made.randrange(MADE_VPNS), MIX_SITES // MIX_SENDING * made.randrange(MIX_SENDING), made.randrange(MIX_SITES)
    flow = '10.%d.%d.9 232.1.%d.%d' % (vpn, site, vpn, made.randrange(MIX_GROUPS) + 1)
    edge = made.randrange(MADE_EDGES)
    if kind in ('settle', 'drain', 'heal', 'state'):
        return kind
    if kind == 'tick':
        return 'tick 1'
    if kind == 'lose':
        return 'lose bgp E%d E%d' % (edge, (edge + made.randrange(1, MADE_EDGES)) % MADE_EDGES)
    if kind == 'send':
        return 'send S%d_%d %s aabb' % (vpn, site, flow)
    if kind in ('select', 'unselect'):
        return '%s V%d_%d %s' % (kind, vpn, site // 2, flow)
    return '%s I%d_%d %s' % (kind, vpn, other, flow)


def mix(size):
    yield from mix_scenario()
    made = random.Random(2)
    for kind in made.choices(list(MIX), list(MIX.values()), k=min(EVENT_LIMIT, size)):
        yield mix_line(made, kind) + '\n'


def settles(size):
    yield from made_scenario()
    yield from ['settle\n'] * size


def restarts(size):
    yield from made_scenario()
    yield from ['heal\nsettle\nrestart C1\n'] * size


def costs(size):
    yield from made_scenario()
    # Without the ticks labels that were withdrawn rest for ever, and run out.
    yield from ('cost C1 C2 %d\nsettle\ntick 1\n' % (2 - number % 2) for number in range(size))


def two_sites():
    yield 'edge E1 192.0.2.1\nvrf V1 E1 1 65000:1 65000:1 highest\nsite X 10.1.0.0/16\nsite Y 10.2.0.0/16\n'
    yield 'iface X1 V1 X 10.1.0.1\niface Y1 V1 Y 10.2.0.1\nevents\n'


def source(number):
    return '10.1.%d.%d' % divmod(number % 1000, 250)


def messages(size):
    yield from two_sites()
    for number in range(1000):
        yield 'join Y1 %s 232.1.1.1\n' % source(number)
    for number in range(min(EVENT_LIMIT, size) - 1000):
        yield '%s Y1 %s 232.1.1.1\n' % (('prune', 'join')[number % 2], source(number // 2))


def shared(size):
    yield from two_sites()
    for number in range(500):
        yield 'prune Y1 %s 232.1.1.1 rpt\n' % source(number)
    for number in range(min(EVENT_LIMIT, size) - 500):
        yield 'join Y1 * 232.1.2.%d\n' % (number % 20 + 1)


NODES, EDGES, LINKS, VRFS, MOST_SITES, MOST_IFACES, IN_A_LIST = 64, 32, 256, 256, 512, 1024, 8
VPNS = VRFS // EDGES


def core():
    """Nodes in a row, each linked to the next ones; of these links the first 256."""
    for node in range(NODES):
        yield '%s N%d 192.0.2.%d\n' % ('edge' if node < EDGES else 'core', node, node + 1)
    pairs = [(node, node + far) for far in range(1, NODES) for node in range(NODES - far)]
    for a, b in pairs[:LINKS]:
        yield 'link N%d N%d %d\n' % (a, b, b - a)


def full_scenario():
    """Each VPN has a VRF at each edge, and each site is attached at two edges."""
    yield from core()
    for vrf in range(VRFS):
        vpn, edge = divmod(vrf, EDGES)
        targets = ['65000:%d' % (IN_A_LIST * vpn + (edge + k) % IN_A_LIST) for k in range(IN_A_LIST)]
        yield 'vrf V%d N%d %d 65000:%d %s nearest\n' % (vrf, edge, vpn + 1, vrf, ','.join(targets))
    for site in range(MOST_SITES):
        prefixes = ['10.%d.%d.0/24' % (site // VPNS, k) for k in range(IN_A_LIST)]
        yield 'site S%d %s\n' % (site, ','.join(prefixes))
    for number in range(MOST_IFACES):
        half, site = divmod(number, MOST_SITES)
        edge = (site // VPNS + half * EDGES // 2) % EDGES
        yield 'iface I%d V%d S%d 10.%d.0.%d\n' % (number, site % VPNS * EDGES + edge, site, site // VPNS, half + 1)
    yield 'events\n'


def limits(size):
    """Each interface joins the flow of the other site that is attached at its edge."""
    yield from full_scenario()
    for number in range(min(EVENT_LIMIT, size)):
        site = number // 2 % MOST_SITES
        if number % 2 == 0:
            other = (site + MOST_SITES // 2) % MOST_SITES
            yield 'join I%d 10.%d.0.9 232.1.1.1\n' % (number // 2 % MOST_IFACES, other // VPNS)
        else:
            yield 'send S%d 10.%d.0.9 232.1.1.1 aabb\n' % (site, site // VPNS)


def ones_sum(octets):
    """The checksum of RFC 1071."""
    total = sum(int.from_bytes(octets[i:i + 2], 'big') for i in range(0, len(octets), 2))
    while total >> 16:
        total = (total & 0xffff) + (total >> 16)
    return ~total & 0xffff


def sourced(flags, place):
    return bytes([1, 0, flags, 32, 10, 1, 0, place])


def groups(size):
    yield from two_sites()
    fields = bytes([1, 0, 10, 2, 0, 1, 0, 45]) + (210).to_bytes(2, 'big')
    for number in range(45):
        fields += bytes([1, 0, 0, 32, 232, 2, 1, number + 1, 0, 2, 0, 2])
        fields += sourced(4, 1) + sourced(4, 2) + sourced(5, 3) + sourced(4, 4)
    sum_ = ones_sum(bytes([0x23, 0, 0, 0]) + fields).to_bytes(2, 'big')
    line = 'pim Y1 %s\n' % (bytes([0x23, 0]) + sum_ + fields).hex()
    yield from (line for _ in range(size))


def numbered(number):
    """Four octets that differ from value to value."""
    return number.to_bytes(4, 'big')


def fec(number):
    """A FEC element of each kind in turn, whose opaque value is a Generic LSP Identifier."""
    root = bytes([192, 0, 2, number % 254 + 1])
    opaque = bytes([1, 0, 4]) + numbered(number)
    return bytes([6 + number % 3, 0, 1, 4]) + root + len(opaque).to_bytes(2, 'big') + opaque


def route(number):
    """A route of each type from 1 to 7 in turn."""
    distinguisher = bytes([0, 0]) + (65000).to_bytes(2, 'big') + numbered(number)
    originator = bytes([192, 0, 2, number % 254 + 1])
    source_as = numbered(65000)
    source = bytes([32, 10, number % 100, 0, 99])
    group = bytes([32, 232, 1, 1, number % 254 + 1])
    wildcard = bytes([0])
    key = sized(3, distinguisher + source + group + originator)
    fields = [
        distinguisher + originator,
        distinguisher + source_as,
        distinguisher + wildcard + group + originator,
        key + originator,
        distinguisher + source + group,
        distinguisher + source_as + source + group,
        distinguisher + source_as + source + group,
    ]
    kind = number % len(fields)
    return sized(kind + 1, fields[kind])


def sized(kind, fields):
    """A type, the length of the rest, and the rest."""
    return bytes([kind, len(fields)]) + fields


def message(number, target=None):
    """An UPDATE with one route, its communities, by default those of its own, and a tunnel."""
    nlri = bytes([0, 1, 5, 4, 192, 0, 2, number % 254 + 1, 0]) + route(number)
    communities = bytes([0, 2]) + (65000).to_bytes(2, 'big') + numbered(number if target is None else target)
    tunnel = bytes([0, 2, 0, 0, 0]) + fec(3 * number)
    attributes = bytes.fromhex('4001010040020040050400000064')
    for flags, kind, value in ((0x80, 14, nlri), (0xc0, 16, communities), (0xc0, 22, tunnel)):
        attributes += bytes([flags, kind, len(value)]) + value
    body = bytes(2) + len(attributes).to_bytes(2, 'big') + attributes
    return b'\xff' * 16 + (19 + len(body)).to_bytes(2, 'big') + b'\2' + body


def pdu(number):
    """A PDU with a mapping, a withdraw and a release."""
    messages = b''
    for kind in (0x400, 0x402, 0x403):
        tlvs = wide(0x100, fec(number)) + wide(0x200, numbered(16 + number % 1_000_000))
        messages += wide(kind, numbered(number) + tlvs)
    return bytes([0, 1]) + (6 + len(messages)).to_bytes(2, 'big') + bytes([192, 0, 2, 1, 0, 0]) + messages


def wide(kind, value):
    """A type and a length of two octets each, and the value."""
    return kind.to_bytes(2, 'big') + len(value).to_bytes(2, 'big') + value


def pcap(size):
    """A copy to the core node, and from there one to each of the receiving edges; a drain after each hundred datagrams."""
    edges = RECEIVING + 1
    yield from ('edge E%d 192.0.2.%d\n' % (n, n) for n in range(1, edges + 1))
    yield 'core C 192.0.2.99\n'
    yield from ('link E%d C 1\n' % n for n in range(1, edges + 1))
    for n in range(1, edges + 1):
        yield 'vrf V%d E%d 1 65000:%d 65000:1 highest\nsite S%d 10.%d.0.0/16\niface I%d V%d S%d 10.%d.0.1\n' % (n, n, n, n, n, n, n, n, n)
    yield 'events\nheal\nsettle\ntick 3\nsettle\n'
    yield from ('join I%d 10.1.0.9 232.1.1.1\n' % n for n in range(2, edges + 1))
    yield 'settle\n'
    for number in range(size // edges):
        yield 'send S1 10.1.0.9 232.1.1.1 aabb\n'
        if number % 100 == 99:
            yield 'drain\n'
    yield 'drain\n'


def hops(size):
    """The octets of a pcap file: a header, and a record for each hop."""
    yield bytes.fromhex('a1b2c3d4' '00020004' '00000000' '00000000' '0000ffff' '00000001')
    packet = bytes.fromhex('4500001600000000401187cb0a010009e8010101aabb')
    for number in range(size):
        front = b''.join(field.to_bytes(4, 'big') for field in [number // 1000, number % 1000 * 1000, 40, 40])
        ends = bytes([2, 0, 0, 0]) + (number % 64).to_bytes(2, 'big') + bytes([2, 0, 0, 0]) + (number % 63).to_bytes(2, 'big')
        yield front + ends + b'\x88\x47' + ((16 + number % 4096 << 12) + 256 + 255).to_bytes(4, 'big') + packet


def audit(size):
    """A flow with ten receivers, and its datagrams, each of which leaves at all of them."""
    yield 'edge E1 192.0.2.1\nvrf V1 E1 1 65000:1 65000:1 highest\nsite X 10.1.0.0/16\nsite Y 10.2.0.0/16\niface X1 V1 X 10.1.0.1\n'
    for number in range(IFACES_PER_SITE):
        yield 'iface Y%d V1 Y 10.2.0.%d\n' % (number, number + 1)
    yield 'events\n'
    for number in range(IFACES_PER_SITE):
        yield 'join Y%d 10.1.0.9 232.1.1.1\n' % number
    yield 'state\n'
    yield from ['send X 10.1.0.9 232.1.1.1 aabb\n'] * size
    yield 'drain\nstate\nreport\nstate 0 0 0 0 0\n'
    for number in range(1, size + 1):
        for iface in range(IFACES_PER_SITE):
            yield 'out %d Y%d 4500001600000000401187cb0a010009e8010101aabb\n' % (number, iface)
    yield 'state 0 0 0 0 0\n'


def receivers(size):
    """A flow that all interfaces of the other sites join, and its datagrams, of which the report has only the first."""
    yield from thousand_ifaces()
    asking = range(IFACES_PER_SITE, SITES * IFACES_PER_SITE)
    for number in asking:
        yield 'join %s %s\n' % (iface(number), flow(0))
    yield 'state\n'
    yield from ['send S0 %s aabb\n' % flow(0)] * size
    yield 'drain\nstate\nreport\nstate 0 0 0 0 0\n'
    for number in asking:
        yield 'out 1 %s 4500001600000000401187720a000063e8010101aabb\n' % iface(number)
    yield 'state 0 0 0 0 0\n'


def hexadecimal(value_of, size):
    """The values in hexadecimal text, one on each line, and then spaces, so that the text has exactly that many
    octets."""
    number = 0
    line = value_of(number).hex() + '\n'
    while len(line) <= size:
        yield line
        size -= len(line)
        number += 1
        line = value_of(number).hex() + '\n'
    yield ' ' * size


def ingress(size):
    """A root, and then in turn a leaf of its own address, and a line with octets of messages of one of a hundred peers, up to about
    so many octets of lines."""
    nlri = bytes([0, 1, 5, 4, 192, 0, 2, 1, 0]) + route(2)[:-4] + bytes([192, 0, 2, 1])
    attributes = bytes([0x80, 14, len(nlri)]) + nlri + bytes([0xc0, 22, 9, 1, 6, 0, 0, 0, 192, 0, 2, 1])
    body = bytes(2) + len(attributes).to_bytes(2, 'big') + attributes
    yield 'root 192.0.2.1 %s\n' % (b'\xff' * 16 + (19 + len(body)).to_bytes(2, 'big') + b'\2' + body).hex()
    number = 0
    while size > 0:
        leaf = 'leaf 11.%d.%d.%d %d\n' % (number >> 16, number >> 8 & 255, number & 255, 16 + number)
        octets = b''.join(message(number * 12 + own) for own in range(12)).hex()
        piece = 'from 12.0.0.%d %s\n' % (number % 100, octets)
        yield leaf + piece
        size -= len(leaf + piece)
        number += 1


PIECE = (4_096 - len('piece ')) // 2


def probe(size):
    """Two edges with a VRF each, ten joins at the second, and what the first one sends: messages of routes that are for the VRF, each of
    its own key, cut into pieces that fill a line."""
    yield 'edge E1 192.0.2.1\nedge E2 192.0.2.2\ncore C 192.0.2.9\nlink E1 C 1\nlink E2 C 1\n'
    yield 'vrf V1 E1 1 65000:1 65000:1 highest\nvrf V2 E2 1 65000:1 65000:1 highest\n'
    yield 'site X 10.0.0.0/16\nsite Y 11.0.0.0/16\niface X1 V1 X 10.0.0.1\niface Y1 V2 Y 11.0.0.1\nprobe E2 E1\n'
    yield from ('join Y1 10.%d.0.99 232.1.1.%d\n' % (number, number + 1) for number in range(10))
    octets, number = b'', 0
    while size > 0:
        while len(octets) < PIECE:
            octets += message(number, 1)
            number += 1
        piece = 'piece %s\n' % octets[:PIECE].hex()
        yield piece
        size -= len(piece)
        octets = octets[PIECE:]


KINDS = {
    'comments': lambda size: [*comments(size), *small()],
    'joins': joins,
    'events': events,
    'drains': drains,
    'network': network,
    'mix': mix,
    'settles': settles,
    'restarts': restarts,
    'costs': costs,
    'messages': messages,
    'shared': shared,
    'groups': groups,
    'limits': limits,
    'late-fault': lambda size: [*comments(size - len('edgy\n')), 'edgy\n'],
    'decode': lambda size: hexadecimal(fec, size),
    'decode-nlri': lambda size: hexadecimal(route, size),
    'decode-bgp': lambda size: hexadecimal(message, size),
    'decode-ldp': lambda size: hexadecimal(pdu, size),
    'ingress': ingress,
    'probe': probe,
    'pcap': pcap,
    'hops': hops,
    'audit': audit,
    'receivers': receivers,
}


def main():
    if len(sys.argv) != 3 or sys.argv[1] not in KINDS:
        sys.exit(__doc__)
    for piece in KINDS[sys.argv[1]](int(sys.argv[2])):
        sys.stdout.buffer.write(piece if isinstance(piece, bytes) else piece.encode())


if __name__ == '__main__':
    main()
