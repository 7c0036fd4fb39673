"""Capture files: pcapng (draft-ietf-opsawg-pcapng) is written, and read as pcap (draft-ietf-opsawg-pcap) is."""

import struct
from dataclasses import dataclass

# blocks, and the codes of their options
SECTION, INTERFACE, OLD_PACKET, SIMPLE, NAMES, PACKET = 0x0A0D0D0A, 1, 2, 3, 4, 6
END, COMMENT, INTERFACE_NAME, APPLICATION, RESOLUTION, TIME_OFFSET = 0, 1, 2, 4, 9, 14
BYTE_ORDER = 0x1A2B3C4D
# the first fields of pcap files, and how many units of their times make a second
PCAP = {0xA1B2C3D4: 10 ** 6, 0xA1B23C4D: 10 ** 9}
# types of links
ETHERNET, RAW, COOKED, COOKED_2 = 1, 101, 113, 276
# units of time, as powers of ten below a second
MICROSECONDS, NANOSECONDS = b'\6', b'\x09'
# the first octets of a file of pcapng, in either order
FIRST_BLOCK = struct.pack('<I', SECTION)


# ---- writing

def padded(octets):
    return octets + bytes(-len(octets) % 4)


def block(kind, body):
    length = 12 + len(body)
    return struct.pack('<II', kind, length) + body + struct.pack('<I', length)


def options(*pairs):
    """Options by their codes and octets, and their end; nothing where there are none."""
    if not pairs:
        return b''
    return b''.join(struct.pack('<HH', code, len(value)) + padded(value) for code, value in pairs) + struct.pack('<HH', END, 0)


def section_block(application):
    unknown_length = -1
    return block(SECTION, struct.pack('<IHHq', BYTE_ORDER, 1, 0, unknown_length) + options((APPLICATION, application.encode())))


def interface_block(name):
    """An interface of Ethernet, whose times are nanoseconds."""
    named = options((INTERFACE_NAME, name.encode()), (RESOLUTION, NANOSECONDS))
    return block(INTERFACE, struct.pack('<HHI', ETHERNET, 0, 0) + named)


def name_block(names):
    """The names of IPv4 addresses, by their octets."""
    ipv4 = 1
    records = b''
    for address, name in names.items():
        value = address + name.encode() + b'\0'
        records += struct.pack('<HH', ipv4, len(value)) + padded(value)
    return block(NAMES, records + struct.pack('<HH', END, 0))


def packet_block(interface, time, frame, comment=''):
    """A frame at that interface, at that number of nanoseconds."""
    head = struct.pack('<IIIII', interface, time >> 32, time & 0xffffffff, len(frame), len(frame))
    return block(PACKET, head + padded(frame) + options(*[(COMMENT, comment.encode())] if comment else []))


# ---- reading

class NoCapture(Exception):
    """From a place on, which is its argument, the octets are none of a capture file."""


@dataclass(frozen=True)
class Captured:
    """A frame with its number in the file, from 1, its time in nanoseconds and the type of its link."""

    number: int
    time: int
    link: int
    octets: bytes


@dataclass(frozen=True)
class Interface:
    """The type of its link; how many units of its times make a second, and the seconds that they begin with."""

    link: int
    units: int
    offset: int

    def nanoseconds(self, time):
        return self.offset * 10 ** 9 + time * 10 ** 9 // self.units


def part(octets, begin, end):
    if len(octets) < end:
        raise NoCapture(begin)
    return octets[begin:end]


def numbers(order, form, octets, at):
    """The fields at a place."""
    form = order + form
    return struct.unpack(form, part(octets, at, at + struct.calcsize(form)))


def options_in(order, octets):
    """The options of a block, by their codes."""
    found, at = {}, 0
    while at + 4 <= len(octets):
        code, length = numbers(order, 'HH', octets, at)
        if code == END:
            break
        found[code] = octets[at + 4:at + 4 + length]
        at += 4 + length + -length % 4
    return found


def interface_in(order, body):
    link, _, _ = numbers(order, 'HHI', body, 0)
    reported = options_in(order, body[8:])
    power = int.from_bytes(reported.get(RESOLUTION, MICROSECONDS)[:1], 'big')
    offset = int.from_bytes(reported.get(TIME_OFFSET, b''), 'little' if order == '<' else 'big', signed=True)
    return Interface(link, 2 ** (power & 0x7f) if power & 0x80 else 10 ** power, offset)


def fields_in(order, kind, body):
    """The interface, the time and the length of the frame of a block, and where that begins. A simple block has no time."""
    if kind == SIMPLE:
        return 0, 0, numbers(order, 'I', body, 0)[0], 4
    interface, high, low, length, _ = numbers(order, 'IIIII' if kind == PACKET else 'HxxIIII', body, 0)
    return interface, high << 32 | low, length, 20


def pcapng_frames(octets):
    """The frames of a pcapng file. Each section has its own order of octets and its own interfaces."""
    at, order, interfaces = 0, '<', []
    while at < len(octets):
        if octets[at:at + 4] == FIRST_BLOCK:
            order = '<' if numbers('<', 'I', octets, at + 8)[0] == BYTE_ORDER else '>'
            interfaces = []
        kind, length = numbers(order, 'II', octets, at)
        body = part(octets, at, at + max(12, length))[8:-4]
        if kind == INTERFACE:
            interfaces.append(interface_in(order, body))
        if kind in (PACKET, SIMPLE, OLD_PACKET):
            interface, time, length_of_frame, begin = fields_in(order, kind, body)
            if interface >= len(interfaces):
                raise NoCapture(at)
            yield interfaces[interface].nanoseconds(time), interfaces[interface].link, body[begin:begin + length_of_frame]
        at += max(12, length)


def pcap_frames(octets, order, units):
    """The frames of a pcap file whose fields have that order of octets, and whose times have so many units of a second."""
    link = numbers(order, 'I', octets, 20)[0] & 0xfffffff
    at = 24
    while at < len(octets):
        seconds, time, length, _ = numbers(order, 'IIII', octets, at)
        yield seconds * 10 ** 9 + time * 10 ** 9 // units, link, part(octets, at + 16, at + 16 + length)
        at += 16 + length


def frames_in(octets):
    if octets[:4] == FIRST_BLOCK:
        return pcapng_frames(octets)
    for order in '<>':
        for magic, units in PCAP.items():
            if octets[:4] == struct.pack(order + 'I', magic):
                return pcap_frames(octets, order, units)
    raise NoCapture(0)


def frames(octets):
    """The frames of a capture file."""
    for number, (time, link, frame) in enumerate(frames_in(octets), 1):
        yield Captured(number, time, link, frame)
