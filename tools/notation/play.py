"""A script told to a reader: each record beside the line that it got, and what decided that."""

from .answers import NOTHING, meaning, shown
from .follow import moments
from .script import Step, laid_out
from .why import why

INDENT = "  "
COLUMN = 56  # where the reasons stand, so that they can be read downwards
WIDTH = 54  # and how wide they are


def played(script, printed, reasons=False):
    """The records with their lines and the comments between them, and how many lines differ."""
    lines = script.lines_got(printed)
    notes = _reasons(script, lines) if reasons else [_meaning(line) for line in lines]
    rows, differ = [], 0
    told = zip(lines, notes)
    for item in script.items:
        if not isinstance(item, Step):
            rows += ["", item] if rows and rows[-1].startswith(" ") else [item]
            continue
        line, note = next(told)
        row = laid_out(INDENT, item.entry.words, shown(line or NOTHING))
        rows.append(_noted(row, note) if reasons else row + note)
        if item.entry.line not in (None, line or NOTHING):
            differ += 1
            rows.append(f"{INDENT}DIFFERS: the text says {shown(item.entry.line)}")
    for line in printed[len(script.steps):]:
        differ += 1
        rows.append(f"{INDENT}DIFFERS: one line more than there are records: {shown(line)}")
    return "\n".join(rows) + "\n", differ


def _reasons(script, lines):
    return [why(moment).text() for moment in moments(script.records(), lines)]


def _meaning(line):
    explained = meaning(line or NOTHING)
    return f"  ({explained})" if explained else ""


def _noted(row, note):
    """A row with its reason: behind it where there is room, else below."""
    below = "\n" + " " * COLUMN
    length = len(row.rpartition("\n")[2])
    gap = " " * (COLUMN - length) if length + 2 <= COLUMN else below
    return row + gap + below.join(_folded(note)) if note else row


def _folded(note):
    """A reason in lines that are not too wide, broken between its parts."""
    first, *rest = note.split("; ")
    lines = [first]
    for part in rest:
        if len(lines[-1]) + len(part) + 2 <= WIDTH:
            lines[-1] += "; " + part
        else:
            lines[-1] += ";"
            lines.append(part)
    return lines
