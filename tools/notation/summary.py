"""What a picture says in words: how the script went, and what its signs mean."""

import collections

from . import answers
from .answers import MEANINGS
from .times import seconds

SIGNS = (  # a mark of each look: its answer, and what it means
    (answers.HANDLED, "handled"), (answers.GAP, "gap: delivered, and reported"), (answers.LATE, "late: refused"),
    (answers.OLD, "old: refused"), (answers.NOT_AWAITED, "message not taken (6, 7)"),
    (answers.NO_RULE, "no effect (1 to 5)"), (answers.START_WRONG, "clocks do not fit: down"),
    (answers.LOST, "messages lost: down"), (answers.OVERDUE, "waited too long: down"),
)
NOTES = ("Bars are ages, against the dashed limit A; a hatched one was refused. The lane below is silence, which "
         "grows to its limit R, or the wait of a start (dotted). Time runs from left to right: close marks are "
         "drawn apart, and a pause that is cut has two strokes.")


def summary(marks):
    """What a reader wants to know first, in sentences."""
    given = [mark.moment.answer for mark in marks if mark.moment.answer is not None]
    ups, downs = (sum(answer.has(word) for answer in given) for word in ("up", "down"))
    rows = [f"{_many(len(marks), 'record')}. The link {_did('came up', ups)} and {_did('went down', downs)}.",
            _ages(marks), _refusals(given, marks)]
    differ = sum(mark.differs is not None for mark in marks)
    if differ:
        rows.append(f"{_many(differ, 'answer')} of the text {_is(differ)} another: those marks have a red rim.")
    return rows


def _many(count, word):
    return f"{count:,} {word}" + ("" if count == 1 else "s")


def _is(count):
    return "is" if count == 1 else "are"


def _did(words, count):
    times = {1: "once", 2: "twice"}.get(count, f"{count:,} times")
    return f"{words} {times}" if count else f"never {words}"


def _ages(marks):
    """How many messages were delivered, and how near they came to what must never be."""
    ages = [(mark.age(), mark.moment.before.settings["age"]) for mark in marks
            if mark.age() is not None and mark.moment.answer.number != answers.LATE]
    if not ages:
        return "No message was delivered."
    oldest, limit = max(ages)
    delivered = f"{_many(len(ages), 'message')} {'was' if len(ages) == 1 else 'were'} delivered"
    return f"{delivered}, the oldest after {seconds(oldest)}, with a limit of {seconds(limit)}."


def _refusals(given, marks):
    numbers = collections.Counter(answer.number for answer in given)
    refused = [f"{count:,} {MEANINGS[number]} ({number})" for number, count in sorted(numbers.items())
               if number not in (answers.HANDLED, answers.GAP)]
    lines = collections.Counter(mark.line for mark in marks if mark.moment.answer is None)
    bad, none = lines.pop(answers.BAD, 0), lines.pop(answers.NOTHING, 0)
    for count, word, more in ((bad, "bad record", ""), (none, "record", " without an answer"),
                              (sum(lines.values()), "line", " that no end prints")):
        refused += [_many(count, word) + more] if count else []
    return f"Not handled: {', '.join(refused)}." if refused else "Everything was handled."


def worth_telling(mark):
    """Whether a mark stands in the list: all that was not simply handled, and every up and down."""
    answer = mark.moment.answer
    return answer is None or answer.number != answers.HANDLED or answer.has("up") or answer.has("down")
