"""Pictures in SVG: texts, lines, arrows and boxes, and the whole of a picture."""

import math
from dataclasses import dataclass
from xml.sax.saxutils import escape

COLOURS = ('#1f6fb2', '#c4541a', '#2e8540', '#8b3fa8', '#9c7416', '#117a7a', '#b3264a', '#5a6470')
INK, PALE = '#333333', '#f3f3f3'


# ---- points and boxes

@dataclass(frozen=True)
class Box:
    """A box around its middle."""

    x: float
    y: float
    width: float
    height: float

    def has(self, point, margin):
        return abs(point[0] - self.x) <= self.width / 2 + margin and abs(point[1] - self.y) <= self.height / 2 + margin

    def border(self, point):
        """Where the line from the middle to a point outside leaves the box."""
        across, down = abs(point[0] - self.x), abs(point[1] - self.y)
        part = min(self.width / 2 / across if across else 1, self.height / 2 / down if down else 1)
        return between((self.x, self.y), point, part)


def between(start, end, part):
    return start[0] + (end[0] - start[0]) * part, start[1] + (end[1] - start[1]) * part


def aside(start, end, distance):
    """So far to the left of the way from the start to the end."""
    across, down = end[0] - start[0], end[1] - start[1]
    length = math.hypot(across, down) or 1
    return down / length * distance, -across / length * distance


def moved(points, by):
    return [(x + by[0], y + by[1]) for x, y in points]


def stacked(heights, gap, middle):
    """The middles of boxes of these heights, one below the other around a middle."""
    top = middle - (sum(heights) + gap * (len(heights) - 1)) / 2
    for height in heights:
        yield top + height / 2
        top += height + gap


# ---- what is drawn

def text_at(point, words, size=12, colour=INK, bold=False, more=''):
    weight = ' font-weight="bold"' if bold else ''
    return (f'<text x="{point[0]:.0f}" y="{point[1] + size / 3:.0f}" font-size="{size}" fill="{colour}"{weight}{more} stroke="white" '
            f'stroke-width="3" paint-order="stroke">{escape(words)}</text>')


def line_through(points, colour, width):
    return f'<polyline points="{spelled(points)}" fill="none" stroke="{colour}" stroke-width="{width}"/>'


def arrow(points, colour, title, dashed=False):
    dashes = ' stroke-dasharray="6 4"' if dashed else ''
    return (f'<polyline points="{spelled(points)}" fill="none" stroke="{colour}" stroke-width="3"{dashes} '
            f'marker-end="url(#{colour[1:]})"><title>{escape(title)}</title></polyline>')


def spelled(points):
    return ' '.join(f'{x:.0f},{y:.0f}' for x, y in points)


def rect(box, fill, stroke, round_by, width=1):
    return (f'<rect x="{box.x - box.width / 2:.0f}" y="{box.y - box.height / 2:.0f}" width="{box.width:.0f}" '
            f'height="{box.height:.0f}" rx="{round_by}" fill="{fill}" stroke="{stroke}" stroke-width="{width}"/>')


@dataclass(frozen=True)
class Picture:
    """What is drawn, and the part of the plane that is shown of it."""

    left: float
    top: float
    width: float
    height: float
    drawn: list

    def text(self, place=''):
        """The picture in SVG; with a place, inside of another one."""
        heads = [f'<marker id="{colour[1:]}" viewBox="0 0 10 10" refX="9" refY="5" markerWidth="11" markerHeight="11" '
                 f'markerUnits="userSpaceOnUse" orient="auto"><path d="M0 0L10 5L0 10z" fill="{colour}"/></marker>' for colour in (*COLOURS, INK)]
        return '\n'.join([
            f'<svg xmlns="http://www.w3.org/2000/svg"{place} viewBox="{self.left:.0f} {self.top:.0f} {self.width:.0f} {self.height:.0f}" '
            f'width="{self.width:.0f}" height="{self.height:.0f}" font-family="sans-serif" text-anchor="middle">',
            f'<rect x="{self.left:.0f}" y="{self.top:.0f}" width="{self.width:.0f}" height="{self.height:.0f}" fill="white"/>',
            '<defs>', *heads, '</defs>', *self.drawn, '</svg>', ''])


def side_by_side(pictures):
    """Pictures in one row."""
    lefts = [sum(picture.width for picture in pictures[:place]) for place in range(len(pictures))]
    drawn = [picture.text(f' x="{left:.0f}" y="0"').rstrip('\n') for left, picture in zip(lefts, pictures)]
    return Picture(0, 0, sum(picture.width for picture in pictures), max(picture.height for picture in pictures), drawn)
