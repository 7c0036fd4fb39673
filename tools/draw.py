#!/usr/bin/env python3
"""Draws a network, the way of a datagram through it, or a script in time, as SVG: `draw.py SCENARIO [REPORT] [OPTION..] > OUT.svg`.

SCENARIO is a file with a scenario and its script, taken as well formed. Its edges are in two columns, the core nodes between
them and the sites outside, and each customer has its colour. With `--datagram N` the way of datagram N is drawn too, by the
report that `replay --wire` writes for that scenario, which is in REPORT or comes on standard input: an arrow between a site
and a VRF where the datagram enters and where it leaves, and one along a link for each copy, beside its label; it is dashed where
the copy did not land. With `--datagram` twice, two such pictures are drawn side by side. With `--time-line` the script is drawn in place
of the network, event by event, by the same report: time_picture.py says how.
"""

import argparse
import ipaddress
import math
import pathlib
import sys
from dataclasses import dataclass

# after this folder, as tools/wireshark.py does
sys.path.append(str(pathlib.Path(__file__).resolve().parent.parent / 'checks'))

from reference.scenario import edge_of, edges, entered, ifaces_where, is_of_site, is_of_vrf
from reference.script import read
from svg import COLOURS, INK, PALE, Box, Picture, arrow, aside, between, line_through, moved, rect, side_by_side, stacked, text_at
from time_picture import time_picture

# the least widths of boxes and of the space for interfaces, and the space beside core nodes where they are few, and where not
EDGE, SITE, CORE, IFACES, FEW, MORE = 130, 150, 100, 170, 240, 460
# how far a link may bend around boxes, to either side
BENDS = (0, 70, -70, 140, -140, 210, -210, 280, -280)
MARGIN = 20


# ---- texts

def addr_text(addr):
    return str(ipaddress.ip_address(bytes(addr.octets)))


def vrf_text(vrf):
    return f'{vrf.name} {vrf.rule}'


def site_texts(site):
    return [site.name, *(f'{addr_text(prefix.addr)}/{prefix.bits}' for prefix in site.prefixes)]


def iface_text(iface):
    return f'{iface.name} {addr_text(iface.addr)}'


def widest(texts, least):
    """A width for each of the texts."""
    return max([least, *(7.5 * len(text) + 24 for text in texts)])


# ---- the layout

def colours(scenario):
    """The colour of each VRF: one for each set of targets."""
    sets = list(dict.fromkeys(frozenset(vrf.targets) for vrf in scenario.vrfs))
    return [COLOURS[sets.index(frozenset(vrf.targets)) % len(COLOURS)] for vrf in scenario.vrfs]


class Layout:
    """The boxes of the nodes, VRFs and sites of a scenario, by their numbers, and their colours."""

    def __init__(self, scenario):
        self.scenario = scenario
        self.colours = colours(scenario)
        self.nodes, self.vrfs, self.sites = {}, {}, {}
        found = edges(scenario)
        half = (len(found) + 1) // 2
        cores = [number for number, node in enumerate(scenario.nodes) if not node.edge]
        names = [node.name for node in scenario.nodes]
        self.edge = widest([*names, *map(vrf_text, scenario.vrfs)], EDGE)
        self.site = widest([text for site in scenario.sites for text in site_texts(site)], SITE)
        self.core = widest(names, CORE)
        self.iface = widest(map(iface_text, scenario.ifaces), IFACES)
        self.middle = self.core + (FEW if len(cores) < 3 else MORE)
        self.place_column(found[:half], -1)
        self.place_column(found[half:], 1)
        self.place_cores(cores)
        self.place_above()

    def ifaces(self, test, of):
        return ifaces_where(lambda _, iface: test(of, iface), self.scenario)

    def site_colour(self, site):
        return next((self.colours[self.scenario.ifaces[iface].vrf] for iface in self.ifaces(is_of_site, site)), INK)

    def vrf_height(self, vrf):
        return 12 + 14 * max(1, len(self.ifaces(is_of_vrf, vrf)))

    def site_height(self, site):
        return max(14 + 16 * (1 + len(self.scenario.sites[site].prefixes)), 8 + 20 * len(self.ifaces(is_of_site, site)))

    def edge_height(self, edge):
        return 46 + sum(self.vrf_height(vrf) + 4 for vrf in self.vrfs_of(edge))

    def vrfs_of(self, edge):
        return [number for number, vrf in enumerate(self.scenario.vrfs) if vrf.edge == edge]

    def edges_of(self, site):
        return [edge_of(self.scenario, iface) for iface in self.ifaces(is_of_site, site)]

    def place_column(self, column, side):
        """The edges of a column, and beside the first edge of each site that has no edge elsewhere, the site."""
        homes = {edge: [] for edge in column}
        for site in range(len(self.scenario.sites)):
            at = self.edges_of(site)
            if at and set(at) <= set(column):
                homes[at[0]].append(site)
        heights = [max(self.edge_height(edge), sum(self.site_height(site) + 12 for site in homes[edge])) for edge in column]
        x = side * (self.middle + self.edge) / 2
        for edge, y in zip(column, stacked(heights, 30, 0)):
            self.place_edge(edge, x, y)
            self.place_sites(homes[edge], x + side * (self.edge / 2 + self.iface + self.site / 2), y)

    def place_edge(self, edge, x, y):
        self.nodes[edge] = Box(x, y, self.edge, self.edge_height(edge))
        vrfs = self.vrfs_of(edge)
        heights = [self.vrf_height(vrf) for vrf in vrfs]
        for vrf, height, middle in zip(vrfs, heights, stacked(heights, 4, y + 18)):
            self.vrfs[vrf] = Box(x, middle, self.edge - 12, height)

    def place_sites(self, sites, x, y):
        heights = [self.site_height(site) for site in sites]
        for site, height, middle in zip(sites, heights, stacked(heights, 12, y)):
            self.sites[site] = Box(x, middle, self.site, height)

    def place_cores(self, cores):
        """One core node in the middle, two of them one above the other, and more on a ring."""
        high = 0 if len(cores) == 1 else 40 + 25 * len(cores)
        for place, node in enumerate(cores):
            turn = 2 * math.pi * place / len(cores)
            across = math.sin(turn) * 1.5 * self.core if len(cores) > 2 else 0
            self.nodes[node] = Box(across, -math.cos(turn) * high, self.core, 42)

    def place_above(self):
        """Sites with edges in both columns, or with none, are in a row above all."""
        self.above = [site for site in range(len(self.scenario.sites)) if site not in self.sites]
        boxes = [*self.nodes.values(), *self.sites.values()]
        bottom = min((box.y - box.height / 2 for box in boxes), default=0) - self.iface
        for site, x in zip(self.above, stacked([self.site] * len(self.above), self.site, 0)):
            height = self.site_height(site)
            self.sites[site] = Box(x, bottom - height / 2, self.site, height)

    def way(self, a, b):
        """The three points of a link: straight, or bent around other boxes."""
        if a > b:
            return self.way(b, a)[::-1]
        start, end = self.nodes[a], self.nodes[b]
        others = [*(box for node, box in self.nodes.items() if node not in (a, b)), *self.sites.values()]
        ways = [bent(start, end, bend) for bend in BENDS]
        return next((way for way in ways if not crosses(way, others)), ways[0])

    def line(self, iface):
        """The two ends of an interface, at its site and at its VRF, each at its place among those there."""
        found = self.scenario.ifaces[iface]
        site, vrf = self.sites[found.site], self.vrfs[found.vrf]
        side = 1 if vrf.x > site.x else -1
        own = self.ifaces(is_of_site, found.site)
        end = vrf.x - side * vrf.width / 2, vrf.y + vrf.height * place_in(iface, self.ifaces(is_of_vrf, found.vrf))
        if found.site in self.above:
            by_side = sorted(own, key=lambda other: self.vrfs[self.scenario.ifaces[other].vrf].x)
            return [(site.x + site.width * place_in(iface, by_side), site.y + site.height / 2), end]
        return [(site.x + side * site.width / 2, site.y + site.height * place_in(iface, own)), end]

    def around(self):
        """The box around all boxes and bent links, as x, y, width and height."""
        boxes = [*self.nodes.values(), *self.sites.values()]
        corners = [(box.x + side * box.width / 2, box.y + side * box.height / 2) for box in boxes for side in (-1, 1)]
        corners += [self.way(link.a, link.b)[1] for link in self.scenario.links]
        left, top = (min((corner[axis] for corner in corners), default=0) - MARGIN for axis in (0, 1))
        right, bottom = (max((corner[axis] for corner in corners), default=0) + MARGIN for axis in (0, 1))
        return left, top - 2 * MARGIN, right - left, bottom - top + 2 * MARGIN


def bent(start, end, bend):
    middle = between((start.x, start.y), (end.x, end.y), 0.5)
    turn = moved([middle], aside((start.x, start.y), (end.x, end.y), bend))[0]
    first, last = start.border(turn), end.border(turn)
    return [first, between(first, last, 0.5) if bend == 0 else turn, last]


def crosses(way, boxes):
    steps = [between(start, end, step / 25) for start, end in zip(way, way[1:]) for step in range(26)]
    return any(box.has(point, 12) for box in boxes for point in steps)


def place_in(number, numbers):
    """Where a number is among others, from one end at -0.5 to the other at 0.5."""
    return (numbers.index(number) + 0.5) / len(numbers) - 0.5


# ---- the way of a datagram

@dataclass(frozen=True)
class Copy:
    start: str
    end: str
    label: str
    landed: bool


@dataclass(frozen=True)
class Datagram:
    number: int
    event: object
    copies: list
    outs: list


def datagram_of(script, report, number):
    """What the report says of that datagram; None where no such one was accepted."""
    lines = [line.split() for line in report.splitlines()]
    refused = {int(words[1]) for words in lines if words[0] == 'refused'}
    ended = min([int(words[1]) for words in lines if words[0] == 'halt'], default=math.inf)
    sent = [timed.event for timed in script.events
            if timed.event.word in ('send', 'packet') and timed.line not in refused and timed.line < ended]
    if not 1 <= number <= len(sent):
        return None
    own = str(number)
    lands = [tuple(words[1:4]) for words in lines if words[0] == 'land' and words[4] == own]
    copies = [Copy(*words[1:4], tuple(words[1:4]) in lands) for words in lines if words[0] == 'hop' and words[5] == own]
    outs = [words[2] for words in lines if words[0] == 'out' and words[1] == own]
    return Datagram(number, sent[number - 1], copies, outs)


# ---- what is drawn

def links(layout):
    for link in layout.scenario.links:
        yield line_through(layout.way(link.a, link.b), '#999999', 2)


def costs(layout):
    for link in layout.scenario.links:
        yield text_at(layout.way(link.a, link.b)[1], str(link.cost), 11)


def nodes(layout):
    for number, box in layout.nodes.items():
        node = layout.scenario.nodes[number]
        top = box.y - box.height / 2
        yield rect(box, PALE, INK, 4 if node.edge else 20)
        yield text_at((box.x, top + 14), node.name, 13, bold=True)
        yield text_at((box.x, top + 30), addr_text(node.addr), 11)


def vrfs(layout):
    for number, box in layout.vrfs.items():
        vrf = layout.scenario.vrfs[number]
        yield rect(box, 'white', layout.colours[number], 2, 2)
        yield text_at((box.x, box.y), vrf_text(vrf), colour=layout.colours[number])


def sites(layout):
    for number, box in layout.sites.items():
        site, colour = layout.scenario.sites[number], layout.site_colour(number)
        yield rect(box, 'white', colour, 14, 2)
        words = site_texts(site)
        for place, y in enumerate(stacked([16] * len(words), 0, box.y)):
            yield text_at((box.x, y), words[place], 11 if place else 13, colour, place == 0)


def ifaces(layout):
    for number, iface in enumerate(layout.scenario.ifaces):
        yield line_through(layout.line(number), layout.colours[iface.vrf], 1)


def iface_names(layout):
    for number, iface in enumerate(layout.scenario.ifaces):
        words, (start, end) = iface_text(iface), layout.line(number)
        x, y = between(start, end, layout.iface * 0.45 / math.dist(start, end))
        yield rect(Box(x, y, 6.5 * len(words), 13), 'white', 'white', 0)
        yield text_at((x, y), words, 11, layout.colours[iface.vrf])


def enters(layout, site):
    """An arrow from the sending site to each VRF at which it is attached, by its first interface there."""
    for vrf in entered(layout.scenario, site):
        iface = next(number for number, iface in enumerate(layout.scenario.ifaces) if (iface.site, iface.vrf) == (site, vrf))
        yield arrow(layout.line(iface), layout.colours[vrf], f'enters at {layout.scenario.vrfs[vrf].name}')


def copies(layout, datagram, colour):
    """Arrows along links, on the left of their direction; a further copy on a link is farther aside."""
    numbers = {node.name: number for number, node in enumerate(layout.scenario.nodes)}
    for place, copy in enumerate(datagram.copies):
        before = sum((copy.start, copy.end) == (other.start, other.end) for other in datagram.copies[:place])
        way = layout.way(numbers[copy.start], numbers[copy.end])
        shifted = moved(way, aside(way[0], way[-1], 8 + 22 * before))
        label = moved([between(*shifted[:2], 0.5)], aside(way[0], way[-1], 11))[0]
        yield arrow(shifted, colour, f'hop {copy.start} {copy.end} {copy.label}', not copy.landed)
        yield text_at(label, copy.label, 12, colour, True)


def outs(layout, datagram):
    for number, iface in enumerate(layout.scenario.ifaces):
        if iface.name in datagram.outs:
            yield arrow(layout.line(number)[::-1], layout.colours[iface.vrf], f'out {iface.name}')


def caption(layout, datagram):
    left, top, width, _ = layout.around()
    event, site = datagram.event, layout.scenario.sites[datagram.event.site].name
    flow = f' from {addr_text(event.source)} to {addr_text(event.group)}' if event.word == 'send' else ''
    return text_at((left + width / 2, top + MARGIN), f'datagram {datagram.number} of site {site}{flow}', 13, bold=True)


def way_of(layout, datagram):
    colour = layout.site_colour(datagram.event.site)
    return [*enters(layout, datagram.event.site), *outs(layout, datagram), *copies(layout, datagram, colour), caption(layout, datagram)]


def network_picture(scenario, datagram=None):
    layout = Layout(scenario)
    drawn = [*links(layout), *ifaces(layout), *nodes(layout), *vrfs(layout), *sites(layout)]
    drawn += way_of(layout, datagram) if datagram else []
    return Picture(*layout.around(), [*drawn, *costs(layout), *iface_names(layout)])


def picture(scenario, *datagrams):
    """The text of the SVG picture: of the network, or of the ways of datagrams, side by side."""
    if len(datagrams) > 1:
        return side_by_side([network_picture(scenario, datagram) for datagram in datagrams]).text()
    return network_picture(scenario, *datagrams).text()


def datagrams_of(script, report, numbers):
    found = [datagram_of(script, report, number) for number in numbers]
    if None in found:
        sys.exit(f'no datagram {numbers[found.index(None)]} was accepted')
    return found


def main():
    options = argparse.ArgumentParser(description='Draws a network, the way of a datagram through it, or a script, as SVG.')
    options.add_argument('scenario', type=pathlib.Path)
    options.add_argument('report', nargs='?', type=pathlib.Path, help='of replay --wire; else it comes on standard input')
    options.add_argument('--datagram', type=int, action='append', default=[], metavar='N', help='the way of this one')
    options.add_argument('--time-line', action='store_true', help='all events of the script')
    given = options.parse_args()
    text = given.scenario.read_text()
    script, report = read(text), ''
    if given.datagram or given.time_line:
        report = given.report.read_text() if given.report else sys.stdin.read()
    if given.time_line:
        sys.stdout.write(time_picture(text, script, report).text())
    else:
        sys.stdout.write(picture(script.scenario, *datagrams_of(script, report, given.datagram)))


if __name__ == '__main__':
    main()
