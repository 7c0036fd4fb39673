"""The lines of a text, their words, and the first fault (line_words; scenario_text: Grammar)."""

import re

from . import words

# the most octets of a text, and of a line
TEXT_LIMIT = 16_777_216
LINE_LIMIT = 4096


class TextFault(Exception):
    """The first fault of a text: where it is, and its word."""

    def __init__(self, line, column, reason):
        super().__init__(f'fault {line}:{column} {reason}')


class Line:
    """A line by its words, each with its column. Words are counted from 0, the first word of the line."""

    def __init__(self, number, text):
        self.number, self.after = number, len(text) + 1
        self.words = [(found.start() + 1, found[0]) for found in re.finditer('[^ ]+', text)]

    def word(self, place):
        return self.words[place][1]

    def fault(self, place, reason):
        return TextFault(self.number, self.words[place][0], reason)

    def must(self, kept, place, reason):
        if not kept:
            raise self.fault(place, reason)

    def counted(self, least, most=None):
        """The line has at least so many words after the first, and no more than so many."""
        most = least if most is None else most
        if len(self.words) - 1 < least:
            raise TextFault(self.number, self.after, 'count')
        if len(self.words) - 1 > most:
            raise self.fault(most + 1, 'count')

    def read(self, place, reader, reason, *more):
        """What the word writes."""
        value = reader(self.word(place), *more)
        if value is None:
            raise self.fault(place, reason)
        return value

    def number_to(self, place, limit):
        return self.read(place, words.number_to, 'number', limit)

    def source(self, place):
        addr = self.read(place, words.addr_in, 'address')
        self.must(words.is_unicast(addr), place, 'source')
        return addr

    def group(self, place):
        addr = self.read(place, words.addr_in, 'address')
        self.must(words.is_group(addr), place, 'group')
        return addr

    def payload(self, place):
        return self.read(place, words.payload_in, 'hex')


def lines_of(octets):
    """The lines of a text, without LF and a CR before it; the last one may have no LF."""
    text = octets.decode('latin-1')
    if len(octets) > TEXT_LIMIT:
        raise TextFault(1, 1, 'long')
    *ended, last = text.split('\n')
    return [line.removesuffix('\r') for line in ended] + ([last] if last else [])


def tried(number, text):
    """The line by its words, or None where it is blank or a comment."""
    if text.startswith('#') or not text.strip(' '):
        return None
    if len(text) > LINE_LIMIT:
        raise TextFault(number, LINE_LIMIT + 1, 'line')
    outside = re.search('[^ -~]', text)
    if outside:
        raise TextFault(number, outside.start() + 1, 'byte')
    return Line(number, text)
