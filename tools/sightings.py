"""What captures at customers' interfaces show: the messages of customers, and the datagrams that enter and leave.

A capture is named by its interface: `Y1.pcap`, or `Y1.in.pcap` and `Y1.out.pcap` where each file has one direction, as the edge sees
it. Without that, what leaves is what the interface itself sends: the sender's address on the link is one from which packets or ARP of
the interface's own address come, or one that is given.
"""

import hashlib
from collections import Counter
from dataclasses import dataclass, field

from captures import COOKED, COOKED_2, ETHERNET, NoCapture, frames
from memberships import ICMPV6, IGMP, Memberships, is_group, is_sound, is_source, spelled
from packets import IPV4, IPV6, PIM, UDP, carried, checksum, number, number_at, pseudo_header, read_ipv4, read_ipv6
from reference.joinprune import PimFault, decoded

ARP = 0x0806
# octets of a payload that are written as they are
MOST = 64
# octets of a line of a script
LINE = 4096
# the holdtime of the message of a `join` (docs/PROTOCOL.md, Joined state), and the one that never ends
HOLDTIME, FOREVER = 210, 0xffff
# the ends by which the program takes the checksum of a message of IPv6 (docs/FORMATS.md, PIM Join/Prune messages)
PROFILE = bytes.fromhex('fe80') + bytes(13) + b'\1', bytes.fromhex('ff02') + bytes(13) + b'\x0d'


class NoDirection(Exception):
    """Of a capture it is not known what enters and what leaves."""


@dataclass(frozen=True)
class Seen:
    """A frame of a file, its time in nanoseconds, and the interface at which it was seen."""

    time: int
    file: str
    frame: int
    iface: int


@dataclass
class Message:
    """A message of a customer: its event lines, the refusal of one that is refused, and for how many ticks it counts."""

    seen: Seen
    lines: list
    refusal: str = ''
    holdtime: int = 0


@dataclass(eq=False)
class Datagram:
    """A datagram that entered, as the script has it."""

    seen: Seen
    key: bytes
    octets: bytes
    source: bytes
    group: bytes
    number: int = 0
    left: dict = field(default_factory=dict)


@dataclass(eq=False)
class Leaving:
    """A datagram that left, and which one it was of those that entered, if any."""

    seen: Seen
    key: bytes
    octets: bytes
    datagram: Datagram = None


# ---- packets

def ip_packet(link, frame):
    """The packet of IP that a frame carries, by its own length. A frame may be cut before its end."""
    kind, octets = carried(link, frame)
    if kind == IPV4 and len(octets) >= 20 and 0x45 <= octets[0] <= 0x4f and header_length(octets) <= len(octets):
        return octets[:number_at(octets, 2, 2) or len(octets)]
    if kind == IPV6 and len(octets) >= 40 and octets[0] >> 4 == 6:
        return octets[:40 + number_at(octets, 4, 2)]
    return None


def is_cut(octets):
    """Whether a packet has fewer octets than it says."""
    return len(octets) < (number_at(octets, 2, 2) if octets[0] >> 4 == 4 else 40 + number_at(octets, 4, 2))


def read(octets):
    return read_ipv4(octets) if octets[0] >> 4 == 4 else read_ipv6(octets)


def header_length(octets):
    return 4 * (octets[0] & 15) if octets[0] >> 4 == 4 else 40


def with_payload(octets, payload):
    """The packet with another payload, its lengths and the checksum of its header."""
    head = octets[:header_length(octets)]
    if octets[0] >> 4 == 6:
        return head[:4] + number(len(payload), 2) + head[6:] + payload
    front, back = head[:2] + number(len(head) + len(payload), 2) + head[4:10], head[12:]
    return front + number(checksum(front + bytes(2) + back), 2) + back + payload


def digest(octets, payload):
    """A short payload in the place of a long one: the ports, and a digest of the whole."""
    reported = hashlib.sha256(payload).digest()
    packet = read(octets)
    if packet.protocol != UDP or len(packet.payload) != len(payload) or packet.is_fragment:
        return reported
    front = payload[:4] + number(8 + len(reported), 2)
    total = checksum(pseudo_header(packet.source, packet.destination, UDP, 8 + len(reported)) + front + bytes(2) + reported)
    return front + number(total or 0xffff, 2) + reported


def reported(octets):
    """The packet as a script has it."""
    payload = octets[header_length(octets):]
    return with_payload(octets, digest(octets, payload) if len(payload) > 8 + MOST else payload)


def key_of(octets):
    """What is the same of a datagram wherever it is seen: all but its TTL or hop limit, and its header's checksum."""
    if octets[0] >> 4 == 4:
        octets = octets[:8] + bytes(1) + octets[9:10] + bytes(2) + octets[12:]
    else:
        octets = octets[:7] + bytes(1) + octets[8:]
    return hashlib.sha256(octets).digest()


# ---- directions

def sender(link, frame):
    """The address on the link of who sent a frame; nothing where the link has none."""
    if link == ETHERNET:
        return frame[6:12]
    if link == COOKED:
        return frame[6:6 + number_at(frame, 4, 2)]
    return frame[12:12 + number_at(frame, 11, 1)] if link == COOKED_2 else b''


def speaks_for(link, frame, address):
    """Whether a frame comes from an address of IP itself."""
    kind, octets = carried(link, frame)
    if kind == ARP:
        return octets[14:18] == address
    packet = ip_packet(link, frame)
    return packet is not None and address == (packet[12:16] if len(address) == 4 else packet[8:24])


# ---- files

def frames_of(path):
    try:
        return list(frames(path.read_bytes()))
    except NoCapture as place:
        raise NoCapture(f'{path}: from octet {place} on no file of pcap or pcapng') from None


class Reading:
    """What the captures of a scenario's interfaces show, file by file."""

    def __init__(self, scenario, own):
        self.scenario, self.own = scenario, own
        self.messages, self.datagrams, self.leaving = [], [], []
        self.passed, self.cut, self.first = Counter(), 0, 0
        # the interfaces with captures, and their links: the site, the VRF and the octets of an address
        self.ifaces, self.links = set(), set()
        self.memberships = Memberships()
        # how often a datagram entered at an interface, and those that entered at a site, by the site and what is the same of them
        self.entered, self.at_site = Counter(), {}

    def read(self, captures):
        """Captures as path, interface and direction; all their frames in the order of time."""
        found = []
        for path, iface, way in captures:
            self.ifaces.add(iface)
            self.links.add(self.link(iface, len(self.scenario.ifaces[iface].addr.octets)))
            all_frames = frames_of(path)
            own = self.own_addresses(iface, all_frames)
            if not way and all_frames and not own:
                raise NoDirection(f'{path}: no frame is from the interface itself: name the file .in or .out, or give --own')
            for frame in all_frames:
                is_out = way == 'out' or not way and sender(frame.link, frame.octets) in own
                found.append((Seen(frame.time, str(path), frame.number, iface), is_out, ip_packet(frame.link, frame.octets)))
        found.sort(key=lambda one: one[0].time)
        self.first = found[0][0].time if found else 0
        for seen, is_out, octets in found:
            self.see(seen, is_out, octets)

    def own_addresses(self, iface, all_frames):
        address = bytes(self.scenario.ifaces[iface].addr.octets)
        found = {sender(frame.link, frame.octets) for frame in all_frames if speaks_for(frame.link, frame.octets, address)}
        return (found | self.own.get(iface, set())) - {b''}

    def see(self, seen, is_out, octets):
        packet = read(octets) if octets else None
        if packet is None:
            self.passed['frames that carry no IP'] += 1
        elif packet.protocol in (PIM, IGMP, ICMPV6):
            self.see_message(seen, is_out, packet)
        elif packet.destination[0] not in (range(224, 240) if len(packet.destination) == 4 else (0xff,)):
            self.passed['unicast packets'] += 1
        elif not is_group(packet.destination):
            self.passed['link-local packets'] += 1
        elif packet.protocol != UDP:
            self.passed[f'packets of protocol {packet.protocol}'] += 1
        else:
            self.see_datagram(seen, is_out, octets, packet)

    def link(self, iface, size):
        return self.scenario.ifaces[iface].site, self.scenario.ifaces[iface].vrf, size

    def is_of_other(self, iface, packet):
        """Whether a packet is seen at an interface of the other family, where the link has a captured one of its own family as well."""
        size = len(packet.source)
        return len(self.scenario.ifaces[iface].addr.octets) != size and self.link(iface, size) in self.links

    def see_datagram(self, seen, is_out, octets, packet):
        if self.is_of_other(seen.iface, packet):
            self.passed['datagrams of the other family than their interface'] += 1
            return
        if is_cut(octets):
            self.cut += 1
        if is_out:
            self.leaving.append(Leaving(seen, key_of(octets), reported(octets)))
        else:
            self.enter(seen, octets, packet)

    def enter(self, seen, octets, packet):
        """A datagram that enters at several interfaces of its site is one: the n-th at each of them."""
        site, key = self.scenario.ifaces[seen.iface].site, key_of(octets)
        self.entered[seen.iface, key] += 1
        known = self.at_site.setdefault((site, key), [])
        if self.entered[seen.iface, key] > len(known):
            known.append(Datagram(seen, key, reported(octets), packet.source, packet.destination))
            self.datagrams.append(known[-1])

    # ---- messages

    def see_message(self, seen, is_out, packet):
        if is_out:
            self.passed['messages of the edges themselves'] += 1
        elif packet.protocol == PIM:
            self.see_pim(seen, packet)
        elif not is_sound(packet):
            self.passed['messages of IGMP or ICMPv6 with a wrong checksum'] += 1
        else:
            self.see_membership(seen, packet)

    def see_pim(self, seen, packet):
        iface, octets = self.scenario.ifaces[seen.iface], packet.payload
        if len(octets) < 4 or octets[0] != 0x23:
            self.passed['messages of PIM that are no Join/Prune'] += 1
            return
        octets = in_profile(packet)
        line = f'pim {iface.name} {octets.hex()}'
        if len(line) > LINE:
            self.passed['Join/Prune messages that pass a line of the input'] += 1
            return
        value = decoded(tuple(octets))
        if isinstance(value, PimFault):
            refusal = f'bytes {value.place} {value.word}'
        else:
            refusal = '' if value.neighbour == iface.addr else 'ours'
        self.messages.append(Message(seen, [line], refusal, 0 if refusal or value.holdtime == FOREVER else value.holdtime))

    def see_membership(self, seen, packet):
        iface = self.scenario.ifaces[seen.iface]
        lines = []
        for group, changes in self.memberships.asked(packet, seen.iface):
            if not is_group(group):
                self.passed['reports of link-local groups'] += 1
            elif len(group) != len(iface.addr.octets):
                self.passed['reports of the other family than their interface'] += 1
            else:
                lines += [event_line(iface.name, group, *change) for change in changes if change[1] is None or is_source(change[1])]
        if lines:
            self.messages.append(Message(seen, lines, holdtime=HOLDTIME))


def event_line(iface, group, word, source, is_rpt):
    return f'{word} {iface} {spelled(source) if source else "*"} {spelled(group)}' + (' rpt' if is_rpt else '')


def in_profile(packet):
    """A Join/Prune message with the checksum that the program asks for, where its own is right; and else with a wrong one."""
    octets, is_six = packet.payload, len(packet.source) == 16
    own = pseudo_header(packet.source, packet.destination, PIM, len(octets)) if is_six else b''
    front = pseudo_header(*PROFILE, PIM, len(octets)) if octets[4:5] == b'\2' else b''
    wanted = checksum(front + octets[:2] + bytes(2) + octets[4:])
    if checksum(own + octets):
        wanted ^= 0xffff
    return octets[:2] + number(wanted, 2) + octets[4:]
