"""Times of day and seconds: what a reader makes of readings.

Readings wrap and may be set anew by a make, so each is taken as so many ticks after the one before it.
"""

import re
from typing import NamedTuple, Optional

from .answers import CLOCK_BACK
from .fields import Trouble, read_number
from .follow import WRAP

TICKS_PER_SECOND = 100
DAY = 24 * 60 * 60 * TICKS_PER_SECOND
ANCHOR = re.compile(r"(?P<reading>[^=]+)=(?P<hour>[0-9]{1,2}):(?P<minute>[0-9]{2})"
                    r"(?::(?P<second>[0-9]{2})(?:\.(?P<hundredth>[0-9]{1,2}))?)?")


class Anchor(NamedTuple):
    """A reading and the time of day that it stands for."""

    reading: int
    ticks: int  # since midnight


class Time(NamedTuple):
    """When a record came."""

    ticks: int  # on a scale that goes on over the wrap
    after: int  # ticks since the record before; 0 where the clock went back or was set anew
    label: str


def read_anchor(word):
    """The anchor that READING=HH:MM:SS names."""
    match = ANCHOR.fullmatch(word)
    example = "write it as in 100=08:30:00: a reading, and the time of day that it stands for"
    if match is None:
        raise Trouble(f"--anchor: '{word}' is none: {example}")
    try:
        reading = read_number(match["reading"], 4)
    except Trouble as trouble:
        raise Trouble(f"--anchor: {trouble}") from None
    hour, minute, second = (int(match[name] or 0) for name in ("hour", "minute", "second"))
    if hour > 23 or minute > 59 or second > 59:
        raise Trouble(f"--anchor: there is no time {word.partition('=')[2]}: {example}")
    hundredths = int((match["hundredth"] or "0").ljust(2, "0"))
    return Anchor(reading, ((hour * 60 + minute) * 60 + second) * TICKS_PER_SECOND + hundredths)


def seconds(ticks):
    return f"{ticks / TICKS_PER_SECOND:,.2f} s"


def time_of_day(ticks):
    rest, hundredths = divmod(ticks % DAY, TICKS_PER_SECOND)
    minutes, second = divmod(rest, 60)
    return f"{minutes // 60:02}:{minutes % 60:02}:{second:02}.{hundredths:02}"


def short_seconds(ticks):
    """Seconds in at most four signs, for a bar in a picture."""
    value = ticks / TICKS_PER_SECOND
    if value < 10:
        return f"{value:.2f}"
    return f"{value:.1f}" if value < 100 else f"{value:.0f}" if value < 10_000 else "long"


def signed(difference):
    """The nearer way round from one reading to another."""
    return (difference + WRAP // 2) % WRAP - WRAP // 2


def times(moments, anchor: Optional[Anchor] = None):
    """The time of each moment: of day with an anchor, else in seconds since the end was made."""
    found, last, start, before = [], None, 0, 0
    for moment in moments:
        ticks = _ticks(moment, last)
        if last is None:
            start = before = ticks
            midnight = None if anchor is None else ticks + signed(anchor.reading - ticks) - anchor.ticks
        is_made = moment.event is not None and moment.event.name == "make" and moment.after is not moment.before
        if is_made:
            start = ticks
        went_back = moment.answer is not None and moment.answer.number == CLOCK_BACK
        after = 0 if is_made or went_back else max(0, ticks - before)
        label = seconds(ticks - start) if midnight is None else time_of_day(ticks - midnight)
        found.append(Time(ticks, after, label))
        last = ticks
        before = before if went_back else ticks
    return found


def _ticks(moment, last):
    """The reading of a moment, counted on from the one before it over the wrap."""
    if moment.event is None:
        return last or 0
    return moment.event.reading if last is None else last + signed(moment.event.reading - last)
