"""The picture of a script as one drawing, with a heading and an explanation, for a document."""

import textwrap

from .drawing import LETTER, element, rectangle, text
from .lanes import HEIGHT, drawn, sign_of
from .look import PATTERNS, STYLE
from .marks import WIDTH, placed
from .summary import NOTES, SIGNS, summary

ACROSS = 3  # cells beside each other
GAP = 10  # between their rows
MARGIN = 16
ROW = 15  # the height of a row of words
SIGN_ROW = 25


def sheet(title, marks):
    """The whole drawing."""
    marks = placed(marks)
    cells = drawn(marks).cells
    across = min(ACROSS, len(cells))
    width = max(across, 2) * WIDTH + 2 * MARGIN
    heading, y = _heading(title, marks, width)
    for at, cell in enumerate(cells):
        row, column = divmod(at, across)
        place = f"translate({MARGIN + column * WIDTH} {y + row * (HEIGHT + GAP)})"
        heading.append(element("g", "\n".join(cell), transform=place))
    y += -(-len(cells) // across) * (HEIGHT + GAP)
    legend, y = _legend(y + ROW, width)
    parts = [f"<style>{STYLE}</style>", PATTERNS, rectangle(0, 0, width, y, fill="#fff"), *heading, *legend]
    return element("svg", "\n".join(parts), xmlns="http://www.w3.org/2000/svg", class_="whole",
                   viewBox=f"0 0 {width} {y}", width=width, height=y) + "\n"


def _words(words, y, width):
    """Rows of words, and where the next row stands."""
    rows = textwrap.wrap(words, int((width - 2 * MARGIN) / LETTER))
    return [text(MARGIN, y + at * ROW, row) for at, row in enumerate(rows)], y + len(rows) * ROW


def _heading(title, marks, width):
    rows, y = _words(" ".join(summary(marks)), 38, width)
    return [text(MARGIN, 21, title, class_="heading"), *rows], y


def _legend(y, width):
    """The signs in rows, and the notes below them."""
    parts, x = [], MARGIN
    for number, words in SIGNS:
        room = 36 + len(words) * LETTER
        if x + room > width:
            x, y = MARGIN, y + SIGN_ROW
        parts.append(sign_of(number, x + 12, y) + text(x + 27, y + 4, words))
        x += room
    notes, y = _words(NOTES, y + 2 * ROW, width)
    return parts + notes, y
