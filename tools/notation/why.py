"""What decided each answer, in words with figures.

Nothing is decided here: the answer is given, and the words name the figures that the rules hold against
each other for it. So a wrong answer shows by its own figures, such as a late message that is younger
than the limit.
"""

from typing import NamedTuple

from . import answers
from .fields import number_in_words, offset_in_words
from .figures import HALF, NUMBERS, Figures
from .follow import ANSWERING, CLOSING, GREETED, IDLE, OPENING, SETTLING, UP, WRAP
from .messages import LONGEST_TRAIN, message_fault
from .records import CALLED, fault
from .settings import outside

AWAITED = {OPENING: "answ1", SETTLING: "est", GREETED: "start", ANSWERING: "answ2", CLOSING: "end"}
QUEUE = 8
OFFSETS = ("minimum", "maximum", "needed")  # figures with a sign
TICKS = ("back", "silent", "waited", "age", "ago", "quiet")  # figures that are counts of ticks


class Why(NamedTuple):
    """Words, and the figures that they are made of."""

    words: str = ""
    figures: dict = {}

    def text(self):
        return self.words.format(**{name: _shown(name, value) for name, value in self.figures.items()})

    def __add__(self, other):
        words = "; ".join(filter(None, (self.words, other.words)))
        return Why(words, {**self.figures, **other.figures})


def _shown(name, value):
    if isinstance(value, str):
        return value
    if name in OFFSETS:
        return offset_in_words(value)
    unit = "" if name not in TICKS else " tick" if value == 1 else " ticks"
    return number_in_words(value) + unit


def _why(words, **figures):
    """Words with their figures; none at all where a figure is not known."""
    return Why() if None in figures.values() else Why(words, figures)


def _named(name, found):
    return Why(f"{name}: {found.words}", found.figures)


def why(moment):
    """What decided the answer of this moment; no words where it can't be known."""
    if moment.line is None:
        return _why("the program has ended")
    if moment.event is None and moment.line == answers.BAD:
        return _why("{fault}", fault=fault(moment.record))
    if moment.event is None or moment.answer is None:
        return Why()
    if moment.event.name == "make":
        return _of_make(moment.event, moment.answer)
    if moment.before is None:
        return _why("no end has been made")
    return _OF_ANSWER.get(moment.answer.number, _unsaid)(Figures(moment))


def _unsaid(_case):
    return Why()


def _of_make(event, answer):
    if answer.number == answers.HANDLED:
        return _why("every setting is in its range")
    return sum((_outside(at, *found) for at, found in enumerate(outside(event.settings))), Why())


def _outside(at, name, value, least, most):
    """A setting out of its range; `at` keeps the figures of several apart."""
    words = f"{name} {{value{at}}} is outside {{least{at}}} to {{most{at}}}"
    if least > most:
        words = f"{name} {{value{at}}} has no range: from {{least{at}}} to {{most{at}}}"
    return Why(words, {f"value{at}": value, f"least{at}": least, f"most{at}": most})


# ---- Refused, whatever the event is --------------------------------------------------------------

def _clock_back(case):
    return _why("reading {reading} is {back} before the last, {last}",
                reading=case.event.reading, last=case.end.reading, back=case.ticks_back())


def _no_rule(case):
    state = case.end.state
    if case.event.name == "connect":
        return _why("{role}: only a called end takes a call", role=case.end.role)
    if case.event.name == "disconnect":
        return _why("{state}: there is no connection", state=state)
    if case.event.name == "confirm":
        return _why("{state}: only Calling awaits a confirm", state=state)
    if case.event.name == "data":
        return _why("{state}: only an end that is Up takes user data", state=state)
    return _why("{state}: no message is read", state=state)


def _overdue(case):
    return _silence(case) if case.end.state == UP else _wait(case)


def _silence(case):
    return _why("last heard at {heard}, {silent} ago, limit {silence}",
                heard=case.end.heard, silent=case.silent(), silence=case.settings["silence"])


def _wait(case):
    return _why("{state}: waiting since {since}, {waited} ago, limit {wait}",
                state=case.end.state, since=case.end.waits_since, waited=case.waited(),
                wait=case.settings["wait"])


# ---- User data -----------------------------------------------------------------------------------

def _data_length(case):
    return _why("user data are {least} to {most} bytes, and these are {length}",
                least=1, most=LONGEST_TRAIN, length=len(case.event.data or b""))


def _queue_full(case):
    return _why("{waiting} of {places} wait already", waiting=case.end.waiting, places=QUEUE)


def _data_handled(case):
    if case.answer.has("send"):
        return _why("nothing has gone since the last tick, or since Up")
    return _why("one has gone since the last tick; now {waiting} of {places} wait",
                waiting=case.end.waiting + 1, places=QUEUE)


# ---- Messages ------------------------------------------------------------------------------------

def _malformed(case):
    return _why("{fault}", fault=message_fault(case.event.data or b""))


def _not_awaited(case):
    if case.message is None:
        return Why()
    state, name = case.end.state, case.message.name
    if state not in AWAITED:
        return _why("{state} awaits train or life-sign; this is {name}", state=state, name=name)
    return _why("{state} awaits {awaited} number {next}; this is {name} number {number}",
                state=state, awaited=AWAITED[state], next=(case.end.last + 1) % NUMBERS,
                name=name, number=case.message.number)


def _start_wrong(case):
    if case.message is None:
        return Why()
    return _minimum(case) if case.end.state == SETTLING else _echo(case) + _spread(case)


def _echo(case):
    echo, opened = case.message.echo, case.end.opened
    should = "as sent" if echo == opened else "should be {opened}"
    return _why(f"echo {{echo}}, {should}", echo=echo, opened=opened)


def _spread(case):
    return _why("minimum {minimum}, maximum {maximum}: spread {spread}, limit {limit}",
                minimum=case.minimum(), maximum=case.maximum(), spread=case.spread(),
                limit=case.settings["spread"])


def _minimum(case):
    minimum, needed = case.message.minimum, case.needed_minimum()
    found = "is" if minimum == needed else "should be {needed},"
    return _why(f"minimum {{minimum}} {found} 0 less the own maximum {{maximum}}",
                minimum=minimum, needed=needed, maximum=case.end.maximum)


def _failure(case):
    return _why("failure {failures} of {errors}", failures=case.end.failures + 1,
                errors=case.settings["errors"])


def _age(case):
    age = case.age()
    ahead = ""
    if age is not None and age >= HALF:
        ahead = f" (its stamp is {WRAP - age} ahead)"
    return _why(f"age {{age}}{ahead}, limit {{oldest}}", age=age, oldest=case.settings["age"])


def _numbers(case, more="", **figures):
    """The number of a message beside the one before it."""
    if case.message is None:
        return Why()
    return _why("number {number} after {last}" + more, number=case.message.number,
                last=case.end.last, jump=case.jump(), **figures)


def _jump(case):
    return _numbers(case, ", a jump of {jump}, limit {jumps}", jumps=case.settings["jump"])


def _old(case):
    more = ", {behind} behind" if case.behind() else ", the same again"
    return _named("old", _numbers(case, more, behind=case.behind()) + _failure(case))


def _lost(case):
    return _named("lost", _jump(case))


def _late(case):
    return _named("late", _age(case) + _failure(case))


def _gap(case):
    return _named("gap", _jump(case) + _age(case))


def _message_handled(case):
    if case.message is None:
        return Why()
    if case.end.state == UP:
        return _numbers(case) + _age(case)
    if case.end.state == SETTLING:
        return _minimum(case)
    if case.end.state in (OPENING, ANSWERING):
        return _echo(case) + _spread(case)
    return _why("{name} number {number}, as awaited", name=case.message.name,
                number=case.message.number)


# ---- Ticks and indications -----------------------------------------------------------------------

def _tick_handled(case):
    if case.end.starting():
        return _wait(case)
    if case.end.state == IDLE:
        return _idle_tick(case)
    if not case.answer.has("send"):
        return _last_spoke(case) + _silence(case)
    if case.end.waiting:
        return _why("{waiting} waited, and the oldest goes", waiting=case.end.waiting)
    return _last_spoke(case)


def _idle_tick(case):
    if case.end.role == CALLED:
        return _why("a called end waits to be called")
    if case.end.asked is None:
        return _why("a fresh initiator asks at once")
    if case.end.been_up:
        return _why("it was up, so it asks again at once")
    return _why("last asked at {asked}, {ago} ago, interval {retry}", asked=case.end.asked,
                ago=case.since_asked(), retry=case.settings["retry"])


def _last_spoke(case):
    words = "last sent at" if case.end.has_spoken else "nothing sent since Up at"
    return _why(f"{words} {{spoke}}, {{quiet}} ago, interval {{interval}}",
                spoke=case.end.spoke, quiet=case.quiet(), interval=case.settings["life-sign"])


def _indication_handled(case):
    word = "called" if case.event.name == "connect" else "disconnected"
    return _why("{word} while {state}", word=word, state=case.end.state)


_HANDLED = {
    "tick": _tick_handled,
    "connect": _indication_handled,
    "confirm": _wait,
    "disconnect": _indication_handled,
    "data": _data_handled,
    "message": _message_handled,
}


def _handled(case):
    return _HANDLED[case.event.name](case)


_OF_ANSWER = {
    answers.HANDLED: _handled,
    answers.CLOCK_BACK: _clock_back,
    answers.NO_RULE: _no_rule,
    answers.DATA_LENGTH: _data_length,
    answers.QUEUE_FULL: _queue_full,
    answers.MALFORMED: _malformed,
    answers.NOT_AWAITED: _not_awaited,
    answers.START_WRONG: _start_wrong,
    answers.OLD: _old,
    answers.LOST: _lost,
    answers.LATE: _late,
    answers.OVERDUE: _overdue,
    answers.GAP: _gap,
}
