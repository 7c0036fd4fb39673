"""What hosts behind an interface ask for by IGMP (RFC 1112, RFC 2236, RFC 3376) and MLD (RFC 2710, RFC 3810), as joins and prunes.

A report of a group alone is a join of any source, and a leave or a done a prune of it. Of a record with sources, those that are asked
for are joined, and those that are left out are pruned off the group. A leave counts at once: what other hosts behind the interface
ask for is known from their next report on.
"""

from ipaddress import ip_address

from packets import checksum, number_at, pseudo_header

IGMP, ICMPV6 = 2, 58
# types of messages that report a group, end it, or have records
REPORTS = {IGMP: (0x12, 0x16), ICMPV6: (131,)}
LEAVES = {IGMP: (0x17,), ICMPV6: (132,)}
RECORDS = {IGMP: 0x22, ICMPV6: 143}
# types of records (RFC 3376 section 4.2.12)
IS_INCLUDE, IS_EXCLUDE, TO_INCLUDE, TO_EXCLUDE, ALLOW, BLOCK = 1, 2, 3, 4, 5, 6


def is_sound(packet):
    """Whether the checksum of the message is right."""
    ends = packet.source, packet.destination
    front = pseudo_header(*ends, ICMPV6, len(packet.payload)) if len(packet.source) == 16 else b''
    return len(packet.payload) >= 8 and checksum(front + packet.payload) == 0


def records(octets, size):
    """The type, the group and the sources of each record, of addresses of so many octets."""
    at = 8
    for _ in range(number_at(octets, 6, 2)):
        count, begin = number_at(octets, at + 2, 2), at + 4 + size
        end = begin + count * size
        if len(octets) < end:
            return
        yield octets[at], octets[at + 4:begin], [octets[place:place + size] for place in range(begin, end, size)]
        at = end + 4 * octets[at + 1]


class Memberships:
    """What was asked for at each interface, by interface and group: whether of any source, and which sources are let in and left out."""

    def __init__(self):
        self.any, self.let, self.left = set(), {}, {}

    def asked(self, packet, iface):
        """For each group that a message names, the joins and prunes: the word, the source or none, and whether it is an `rpt`."""
        kind, octets, size = packet.protocol, packet.payload, len(packet.source)
        after = 4 if kind == IGMP else 8
        group = octets[after:after + size]
        if octets[0] in REPORTS[kind]:
            yield group, self.changed((iface, group), IS_EXCLUDE, [])
        elif octets[0] in LEAVES[kind]:
            yield group, self.changed((iface, group), TO_INCLUDE, [])
        elif octets[0] == RECORDS[kind]:
            for change, group, sources in records(octets, size):
                yield group, self.changed((iface, group), change, sources)

    def changed(self, at, change, sources):
        if change in (IS_EXCLUDE, TO_EXCLUDE):
            return self.excluded(at, sources)
        if change == TO_INCLUDE:
            return self.included(at, sources)
        return self.allowed(at, sources) if change in (IS_INCLUDE, ALLOW) else self.blocked(at, sources)

    def excluded(self, at, sources):
        """Any source is asked for but these. The join of the group ends what was left out before."""
        ended = self.let.pop(at, set())
        self.any.add(at)
        self.left[at] = set(sources)
        return [('prune', source, False) for source in sorted(ended)] + [('join', None, False)] + [
            ('prune', source, True) for source in sources]

    def included(self, at, sources):
        """These sources alone are asked for."""
        ended, left = self.let.get(at, set()) - set(sources), self.left.pop(at, set())
        front = [('prune', None, False)] if at in self.any else []
        self.any.discard(at)
        self.let[at] = set(sources)
        return front + [('join', source, True) for source in sorted(left)] + [('prune', source, False) for source in sorted(ended)] + [
            ('join', source, False) for source in sources]

    def allowed(self, at, sources):
        left = self.left.get(at, set()) & set(sources)
        self.left[at] = self.left.get(at, set()) - left
        self.let[at] = self.let.get(at, set()) | set(sources)
        return [('join', source, True) for source in sorted(left)] + [('join', source, False) for source in sources]

    def blocked(self, at, sources):
        self.let[at] = self.let.get(at, set()) - set(sources)
        if at not in self.any:
            return [('prune', source, False) for source in sources]
        self.left[at] = self.left.get(at, set()) | set(sources)
        return [word for source in sources for word in (('prune', source, False), ('prune', source, True))]


def is_group(octets):
    """Whether a script may name the group (docs/FORMATS.md, Lines and words of the input)."""
    if len(octets) == 4:
        return 224 <= octets[0] <= 239 and octets[:3] != bytes([224, 0, 0])
    return octets[0] == 0xff and octets[1] & 15 >= 3


def is_source(octets):
    if len(octets) == 4:
        return 1 <= octets[0] <= 223
    return 0x20 <= octets[0] <= 0x3f or octets[0] in (0xfc, 0xfd)


def spelled(octets):
    """An address as a script has it."""
    address = ip_address(octets)
    return str(address) if address.version == 4 else ':'.join(f'{number_at(octets, at, 2):x}' for at in range(0, 16, 2))
