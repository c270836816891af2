"""What an end holds, read off the records that it got and the lines that it printed.

Nothing is judged here. A line says what the end has done; this keeps what can be known after it: the
state, the numbers, the offsets and the times. Whether the line is right is not asked, so a wrong
program can be followed too, and what it never showed is None.
"""

from typing import NamedTuple, Optional

from .answers import CLOCK_BACK, GAP, HANDLED, LATE, OLD, SHORT_OUTPUT, Answer, parsed_line
from .fields import Trouble
from .messages import parsed_message
from .records import Event, parsed

IDLE, CALLING, OPENING, SETTLING = "Idle", "Calling", "Opening", "Settling"
GREETED, ANSWERING, CLOSING, UP = "Greeted", "Answering", "Closing", "Up"
SENDING_LEADS_TO = {"start": OPENING, "answ2": SETTLING, "answ1": ANSWERING, "est": CLOSING}
BEFORE_THE_FIRST = 65_535  # the number last taken, at the start of a connection
WRAP = 1 << 32


class End(NamedTuple):
    """One end, as far as it has shown itself. What a state does not have is None or 0."""

    role: str
    settings: dict
    reading: int
    state: str = IDLE
    asked: Optional[int] = None  # when it last asked
    been_up: bool = False  # since it last asked
    waits_since: Optional[int] = None  # when the wait of a starting state began
    opened: Optional[int] = None  # the own reading that the neighbour has to echo
    last: int = BEFORE_THE_FIRST  # the number last taken from the neighbour
    minimum: Optional[int] = None
    maximum: Optional[int] = None
    heard: Optional[int] = None  # when something was last taken while Up
    spoke: Optional[int] = None  # when data or a life sign last went, or when it came Up
    has_spoken: bool = False  # whether any went since Up
    sent_since_tick: bool = False
    waiting: int = 0  # user data in the queue
    failures: int = 0  # old and late messages since the last that was taken

    def starting(self):
        return self.state not in (IDLE, UP)


class Moment(NamedTuple):
    """One record with its line, and the end before and after it. None stands for what is not there."""

    record: bytes
    line: Optional[str]
    event: Optional[Event]
    answer: Optional[Answer]
    before: Optional[End]
    after: Optional[End]


def since(now, then):
    """Ticks from one reading to another, as the clock counts them."""
    return (now - then) % WRAP


def moments(records, lines):
    """Follows an end through its records; `lines` has a line for each, or None where none came."""
    end = None
    for record, line in zip(records, lines):
        event, answer = parsed(record), _answer_of(line)
        before = end
        if event is not None and answer is not None:
            end = _next(end, event, answer)
        yield Moment(record, line, event, answer, before, end)


def _answer_of(line):
    try:
        return None if line is None else parsed_line(line)
    except Trouble:
        return None  # `bad record`, or a line that says nothing about an end


def _next(end, event, answer):
    if event.name == "make":
        made = End(event.role, event.settings, event.reading)
        return made if answer.number == HANDLED else end
    if end is None or answer.number in (CLOCK_BACK, SHORT_OUTPUT):
        return end
    end = end._replace(reading=event.reading)
    if answer.has("ask"):
        return _connecting(end, CALLING)._replace(asked=end.reading, been_up=False)
    if answer.has("accept"):
        return _connecting(end, GREETED)
    if answer.has("release") or event.name == "disconnect" and answer.number == HANDLED:
        return _idle(end)
    return _heard_and_said(end, event, answer)


def _idle(end):
    """An end out of every connection: only the settings and the times of asking stay."""
    return End(end.role, end.settings, end.reading, asked=end.asked, been_up=end.been_up)


def _connecting(end, state):
    return _idle(end)._replace(state=state, waits_since=end.reading)


def _heard_and_said(end, event, answer):
    """What came in first, then what went out, then whether the link is up."""
    if event.name == "message":
        end = _with_message(end, parsed_message(event.data), answer)
    if event.name == "tick":
        end = end._replace(sent_since_tick=False)
    sent = answer.bytes_of("send")
    if sent is not None:
        end = _with_sent(end, event, parsed_message(sent))
    elif event.name == "data" and answer.number == HANDLED:
        end = end._replace(waiting=end.waiting + 1)
    if answer.has("up"):
        end = end._replace(state=UP, been_up=True, heard=end.reading, spoke=end.reading)
    return end


def _with_message(end, message, answer):
    if answer.number in (OLD, LATE):
        return end._replace(failures=end.failures + 1)
    if message is None or answer.number not in (HANDLED, GAP):
        return end
    if message.name in ("answ1", "answ2") and end.opened is not None:
        end = end._replace(minimum=since(end.opened, message.receipt),
                           maximum=since(end.reading, message.sent))
    heard = end.reading if end.state == UP else None
    return end._replace(last=message.number, heard=heard, failures=0)


def _with_sent(end, event, message):
    """A message went out. Its kind tells what the end now waits for."""
    if message is None:
        return end
    if message.name in SENDING_LEADS_TO:
        end = end._replace(state=SENDING_LEADS_TO[message.name])
    if message.name in ("start", "answ1"):
        end = end._replace(opened=message.sent)
    if message.name == "start":
        end = end._replace(waits_since=message.sent)
    if message.name in ("life-sign", "train"):
        from_queue = event.name == "tick" and message.name == "train"
        end = end._replace(spoke=message.sent, has_spoken=True, sent_since_tick=True,
                           waiting=max(0, end.waiting - from_queue))
    return end
