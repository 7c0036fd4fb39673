#!/usr/bin/env python3
"""Draws each example, and the way of each of its datagrams, by `tools/draw.py` and the reference program: `pictures.py`.

A picture has to be well-formed XML, and has to have the name of each node, and one arrow for each `hop` and each `out` line of its
datagram; that of the script in time one arrow for each `out` line, a dot for each datagram that was accepted, and each `state` line.
The pictures in docs/ have to be those that are drawn. Prints the pictures that differ, and then 'N passed, M failed'.
"""

import pathlib
import sys
import xml.etree.ElementTree as xml

from reference.replaying import replay
from reference.script import read

TOP = pathlib.Path(__file__).resolve().parent.parent
sys.path.insert(0, str(TOP / 'tools'))

from draw import datagram_of, datagrams_of, picture
from time_picture import time_picture

# the pictures in docs/: the example, and its datagrams, or none where it is the script in time
SHOWN = {'two-customers': [3], 'changed-costs': [1, 2], 'restart': []}


def words_of(drawn, kind):
    return [element.text for element in xml.fromstring(drawn).iter(f'{{http://www.w3.org/2000/svg}}{kind}')]


def arrows(report, number):
    """The titles of the arrows that the way of a datagram has to have."""
    lines = [line.split() for line in report.splitlines()]
    hops = [' '.join(words[:4]) for words in lines if words[0] == 'hop' and words[5] == str(number)]
    return sorted(hops + [f'out {words[2]}' for words in lines if words[0] == 'out' and words[1] == str(number)])


def is_drawn(script, report, number):
    found = datagram_of(script, report, number)
    drawn = picture(script.scenario, *([found] if found else []))
    reported = sorted(title for title in words_of(drawn, 'title') if title.startswith(('hop ', 'out ')))
    return reported == arrows(report, number) and {node.name for node in script.scenario.nodes} <= set(words_of(drawn, 'text'))


def is_drawn_in_time(text, script, report):
    drawn = time_picture(text, script, report).text()
    lines = [line.split() for line in report.splitlines()]
    outs = sorted(f'out {words[1]} {words[2]}' for words in lines if words[0] == 'out')
    states = [' '.join(words[1:]) for words in lines if words[0] == 'state']
    texts = words_of(drawn, 'text')
    refused = {int(words[1]) for words in lines if words[0] == 'refused'}
    ended = min([int(words[1]) for words in lines if words[0] == 'halt'], default=len(text))
    sent = sum(timed.event.word in ('send', 'packet') and timed.line not in refused and timed.line < ended for timed in script.events)
    return (sorted(words_of(drawn, 'title')) == outs and all(texts.count('calm' if one == '0 0 0 0 0' else one) for one in states)
            and all(str(number) in texts for number in range(1, sent + 1)))


def shown(name, text, script, report):
    numbers = SHOWN[name]
    return picture(script.scenario, *datagrams_of(script, report, numbers)) if numbers else time_picture(text, script, report).text()


def checked():
    """Each picture, and whether it is as it has to be."""
    for path in sorted((TOP / 'examples').glob('*.txt')):
        text = path.read_text()
        script, (report, _) = read(text), replay(text, True)
        sent = sum(timed.event.word in ('send', 'packet') for timed in script.events)
        yield from ((f'{path.name}, datagram {number}', is_drawn(script, report, number)) for number in range(sent + 1))
        yield f'{path.name} in time', is_drawn_in_time(text, script, report)
        if path.stem in SHOWN:
            yield f'docs/{path.stem}.svg', shown(path.stem, text, script, report) == (TOP / 'docs' / f'{path.stem}.svg').read_text()


def main():
    pictures = list(checked())
    differing = [name for name, is_right in pictures if not is_right]
    print('\n'.join([*differing, f'{len(pictures) - len(differing)} passed, {len(differing)} failed']))
    return 1 if differing else 0


if __name__ == '__main__':
    sys.exit(main())
