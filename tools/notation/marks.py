"""The marks of a picture: each record with its time, its words, its look and its place on the canvas."""

from typing import NamedTuple, Optional

from . import answers
from .answers import BAD, NOTHING, shown
from .figures import Figures
from .follow import IDLE, UP, Moment, moments
from .times import Time, times
from .why import why

WIDTH = 344  # of a cell: what a small telephone shows
LEFT, RIGHT = 40, 30  # room in a cell for the names of lanes, and for words that lean over
STEP = 24  # the least distance of two marks
LIMIT = 160  # the silence R is this long, and so is the longest pause

NO_END, STARTING = "no end", "starting"
SHAPES = {answers.HANDLED: "circle", answers.GAP: "circle", answers.OLD: "triangle", answers.LATE: "triangle",
          answers.START_WRONG: "octagon", answers.LOST: "octagon", answers.OVERDUE: "octagon"}


class Mark(NamedTuple):
    """One record of the picture."""

    number: int  # from 1
    moment: Moment
    time: Time
    record: str  # in words, as are the line and the reason
    line: str
    reason: str
    differs: Optional[str]  # what the text says where it says another answer
    x: float = 0.0  # whole, so that nothing is rounded when it is written
    cut: bool = False  # whether the pause before it is longer than it is drawn

    def kind(self):
        """The class of its look: a and the number of the answer, or a word."""
        if self.moment.answer is not None:
            return f"a{self.moment.answer.number}"
        return {BAD: "bad", NOTHING: "nothing"}.get(self.line, "other")

    def sign(self):
        """What stands in the mark: the number of the answer."""
        if self.moment.answer is not None:
            return str(self.moment.answer.number)
        return "!" if self.line == BAD else "?"

    def shape(self):
        return "octagon" if self.moment.answer is None else shape_of(self.moment.answer.number)

    def told(self):
        """All that is known of it, in lines: for hovering and tapping."""
        rows = [f"record {self.number}, {self.time.label}", self.record, f"-> {self.line}", self.reason]
        if self.differs:
            rows.append(f"DIFFERS: the text says {self.differs}")
        return "\n".join(filter(None, rows))

    def end(self):
        """The end that is left after the record; none where the program has ended."""
        return None if self.moment.line in (None, BAD) else self.moment.after

    def age(self):
        """The age of a message that was judged by its age, or None."""
        moment = self.moment
        if moment.event is None or moment.before is None or moment.answer is None:
            return None
        judged = moment.answer.number in (answers.HANDLED, answers.GAP, answers.LATE)
        return Figures(moment).age() if judged and moment.event.name == "message" else None


def shape_of(number):
    return SHAPES.get(number, "square")


def limit_of(end, name):
    """A limit that lengths are divided by. A wrong program may have taken a 0."""
    return max(1, end.settings[name])


def state_of(end):
    """The state as the band shows it."""
    if end is None:
        return NO_END
    return end.state if end.state in (IDLE, UP) else STARTING


def marks_of(script, printed, anchor=None):
    """The marks of a whole script, not yet placed."""
    told = list(moments(script.records(), script.lines_got(printed)))
    found = []
    for number, (step, moment, time) in enumerate(zip(script.steps, told, times(told, anchor)), 1):
        line = moment.line or NOTHING
        says = step.entry.line
        found.append(Mark(number, moment, time, step.entry.words, shown(line), why(moment).text(),
                          shown(says) if says not in (None, line) else None))
    return found


def placed(marks):
    """The marks at their places from left to right, cell by cell."""
    found, x = [], float(LEFT)
    for mark in marks:
        step, cut = _step(mark) if found else (0.0, False)
        x += step
        cell, inside = divmod(x, WIDTH)
        if inside > WIDTH - RIGHT:
            x = (cell + 1) * WIDTH + LEFT
        elif inside < LEFT:
            x = cell * WIDTH + LEFT
        found.append(mark._replace(x=x, cut=cut))
    return found


def _step(mark):
    """How far a mark stands from the one before it, and whether the pause is drawn shorter than it is."""
    end = mark.moment.before or mark.end()
    if end is None:
        return float(STEP), False
    scaled = mark.time.after * LIMIT // limit_of(end, "silence")
    return float(min(max(STEP, scaled), LIMIT)), scaled > LIMIT
