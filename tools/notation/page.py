"""The picture of a script as a page for a browser.

It is a single file with nothing to fetch. Its script does no more than show what was tapped; without it hovering
shows the same.
"""

from .drawing import element, escape
from .lanes import HEIGHT, drawn, sign_of
from .look import PAGE_STYLE, PATTERNS, SCRIPT, STYLE
from .marks import WIDTH, placed
from .summary import NOTES, SIGNS, summary, worth_telling

ASIDE = "Tap a mark, or rest on it, to see its record, its line and the reason."
COLUMNS = ("no.", "time", "record", "answer", "why")


def page(title, marks):
    """The whole page."""
    marks = placed(marks)
    parts = [
        "<!DOCTYPE html>",
        '<html lang="en"><head><meta charset="utf-8"/>',
        '<meta name="viewport" content="width=device-width, initial-scale=1"/>',
        element("title", escape(title)),
        f"<style>{STYLE}{PAGE_STYLE}</style></head><body>",
        element("h1", escape(title)),
        *(element("p", escape(row)) for row in summary(marks)),
        _legend(),
        element("p", escape(NOTES)),
        element("svg", PATTERNS, width=0, height=0, style="position:absolute", aria_hidden="true"),
        element("div", *_cells(marks), class_="cells"),
        element("h2", "Ups, downs, and what was not simply handled"),
        _table(marks),
        element("pre", escape(ASIDE), id="told", aria_live="polite"),
        f"<script>{SCRIPT}</script></body></html>",
    ]
    return "\n".join(parts) + "\n"


def _cells(marks):
    for cell in drawn(marks).cells:
        yield element("svg", "\n".join(cell), class_="cell", width=WIDTH, height=HEIGHT,
                      viewBox=f"0 0 {WIDTH} {HEIGHT}") + "\n"


def _legend():
    items = (element("li", element("svg", sign_of(number, 13, 13), class_="cell", viewBox="0 0 26 26"), escape(words))
             for number, words in SIGNS)
    return element("ul", *items, class_="legend")


def _table(marks):
    rows = [_row(mark) for mark in marks if worth_telling(mark)]
    if not rows:
        return element("p", "Nothing.")
    head = element("thead", element("tr", *(element("th", word) for word in COLUMNS)))
    return element("table", head, element("tbody", *rows))


def _row(mark):
    link = element("a", str(mark.number), href=f"#r{mark.number}")
    said = (mark.time.label, mark.record, mark.line, mark.reason)
    return element("tr", element("td", link), *(element("td", escape(words)) for words in said)) + "\n"
