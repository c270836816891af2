"""The parts that a drawing is made of: elements of SVG, and a long canvas that is cut into cells.

A script is drawn on one canvas that is as long as it needs. The canvas is cut into cells of one width, so
that a browser can lay them side by side where there is room and below each other where there is none.
"""

import html
import re

LETTER = 5.6  # about the width of a letter of the smaller size
UNWRITABLE = re.compile("[^\t\n\r\x20-\ud7ff\ue000-\ufffd\U00010000-\U0010ffff]")  # in SVG, as in any XML


def escape(words):
    """Words as they stand in a page or drawing; what can't stand there is shown as an unknown character."""
    return html.escape(UNWRITABLE.sub("\ufffd", words))


def element(name, *content, **attributes):
    """An element. An underscore at the end of a name is dropped, so class_ is class."""
    written = "".join(f' {key.rstrip("_").replace("_", "-")}="{escape(_number(value))}"'
                      for key, value in attributes.items() if value is not None)
    inner = "".join(content)
    return f"<{name}{written}>{inner}</{name}>" if inner else f"<{name}{written}/>"


def _number(value):
    return f"{value:.1f}".removesuffix(".0") if isinstance(value, float) else str(value)


def text(x, y, words, **attributes):
    return element("text", escape(words), x=x, y=y, **attributes)


def line(x1, y1, x2, y2, **attributes):
    return element("line", x1=x1, y1=y1, x2=x2, y2=y2, **attributes)


def rectangle(x, y, width, height, **attributes):
    return element("rect", x=x, y=y, width=width, height=height, **attributes)


def _written(points):
    return " ".join(f"{_number(x)},{_number(y)}" for x, y in points)


def polygon(points, **attributes):
    return element("polygon", points=_written(points), **attributes)


def polyline(points, **attributes):
    return element("polyline", points=_written(points), **attributes)


def shape(name, x, y, size, **attributes):
    """A mark around a point. Shapes say what colours say."""
    if name == "circle":
        return element("circle", cx=x, cy=y, r=size, **attributes)
    if name == "square":
        return rectangle(x - size + 1, y - size + 1, 2 * size - 2, 2 * size - 2, **attributes)
    if name == "triangle":
        return polygon([(x, y - size - 3), (x + size + 2, y + size - 1), (x - size - 2, y + size - 1)], **attributes)
    if name == "octagon":
        part = 0.45 * size
        corners = ((part, -size), (size, -part), (size, part), (part, size),
                   (-part, size), (-size, part), (-size, -part), (-part, -size))
        return polygon([(x + dx, y + dy) for dx, dy in corners], **attributes)
    raise ValueError(name)


class Canvas:
    """A long strip in cells: what is drawn at a place goes to the cell that the place is in."""

    def __init__(self, width, cells):
        self.width = width
        self.cells = [[] for _ in range(cells)]

    def cell(self, x):
        return min(int(x // self.width), len(self.cells) - 1)

    def inside(self, x):
        """The place within its cell."""
        return x - self.cell(x) * self.width

    def put(self, x, drawing):
        """Adds a drawing, made for the place within the cell, to the cell of `x`."""
        self.cells[self.cell(x)].append(drawing)

    def pieces(self, left, right):
        """A span cut at the edges of cells: each piece with its cell and its ends there."""
        for at in range(self.cell(left), self.cell(right) + 1):
            start, stop = max(left, at * self.width), min(right, (at + 1) * self.width)
            if stop > start:
                yield at, start - at * self.width, stop - at * self.width

    def strokes(self, points):
        """A line through points, cut at the edges of cells: each part with its cell and its points there."""
        part, before = [points[0]], points[0]
        at = self.cell(before[0])
        for x, y in points[1:]:
            while self.cell(x) > at:
                edge = (at + 1) * self.width
                height = before[1] + (y - before[1]) * (edge - before[0]) / (x - before[0])
                yield at, [(left - at * self.width, top) for left, top in [*part, (edge, height)]]
                at, part = at + 1, [(edge, height)]
            part.append((x, y))
            before = x, y
        yield at, [(left - at * self.width, top) for left, top in part]
