"""What words of a scenario or a script write (mv_base: Number, AddrText; line_words: Forms). Each reader answers None where the word
does not have its form. Words are texts of one character for each octet."""

import re

from .base import V4, V6, Prefix, addr_octets, from_be_bytes, to_be_bytes


def number_in(word):
    """A decimal number of at most ten digits, without leading zeros."""
    return int(word) if re.fullmatch('[0-9]|[1-9][0-9]{1,9}', word) else None


def number_to(word, limit):
    """A number from 1 to that limit."""
    number = number_in(word)
    return number if number is not None and 1 <= number <= limit else None


def is_name(word):
    return re.fullmatch('[A-Za-z][A-Za-z0-9_-]{0,15}', word) is not None


# ---- addresses

def octets_in(numbers):
    return tuple(numbers) if all(number is not None and number <= 255 for number in numbers) else None


def ipv4_in(word):
    octets = octets_in([number_in(part) for part in word.split('.')])
    return V4(octets) if octets is not None and len(octets) == 4 else None


def ipv6_in(word):
    groups = word.split(':')
    if len(groups) != 8 or not all(re.fullmatch('[0-9A-Fa-f]{1,4}', group) for group in groups):
        return None
    return V6(tuple(octet for group in groups for octet in to_be_bytes(2, int(group, 16))))


def addr_in(word):
    return ipv4_in(word) or ipv6_in(word)


def is_unicast(addr):
    first = addr.octets[0]
    return 1 <= first <= 223 if isinstance(addr, V4) else 32 <= first <= 63 or first in (252, 253)


def is_group(addr):
    first, second, third = addr.octets[:3]
    if isinstance(addr, V4):
        return 224 <= first <= 239 and (first, second, third) != (224, 0, 0)
    return first == 255 and second % 16 >= 3


def prefix_in(word):
    """`ADDR/N`, with no bit set after the first N."""
    text, _, length = word.partition('/')
    addr, bits = addr_in(text), number_in(length)
    if addr is None or bits is None:
        return None
    after = 8 * len(addr.octets) - bits
    return Prefix(addr, bits) if after >= 0 and from_be_bytes(addr_octets(addr)) % 2 ** after == 0 else None


# ---- route distinguishers and Route Targets

def eight_in(word, by_number, by_address):
    """`N:M` or `ADDR:M`, after the two octets of either form."""
    front, _, back = word.partition(':')
    n, addr, m = number_in(front), ipv4_in(front), number_in(back)
    if m is None:
        return None
    if n is not None and n <= 65535 and m <= 4294967295:
        return by_number + to_be_bytes(2, n) + to_be_bytes(4, m)
    if addr is not None and m <= 65535:
        return by_address + addr.octets + to_be_bytes(2, m)
    return None


def rd_in(word):
    return eight_in(word, (0, 0), (0, 1))


def target_in(word):
    return eight_in(word, (0, 2), (1, 2))


# ---- lists, and octets in hexadecimal digits

def list_in(read, word):
    """One to eight values with commas between them, no two of them the same."""
    found = tuple(read(part) for part in word.split(','))
    return None if None in found or len(found) > 8 or len(set(found)) < len(found) else found


def targets_in(word):
    return list_in(target_in, word)


def prefixes_in(word):
    return list_in(prefix_in, word)


def payload_in(word):
    if word == '-':
        return ()
    return tuple(bytes.fromhex(word)) if re.fullmatch('([0-9A-Fa-f]{2})+', word) else None
