"""The figures of one event: the jumps, ages, silences and spreads that the rules hold against limits.

They are worked out from the record and from what the end held before it. None stands for a figure that
this event does not have.
"""

from .follow import UP, WRAP, since
from .messages import parsed_message

HALF = 1 << 31  # a reading this far ahead, or farther, lies back
NUMBERS = 1 << 16


class Figures:
    """An event beside the end that it comes to."""

    def __init__(self, moment):
        self.event = moment.event
        self.answer = moment.answer
        self.end = moment.before
        self.settings = self.end.settings
        is_message = self.event.name == "message"
        self.message = parsed_message(self.event.data) if is_message else None

    def _ago(self, then):
        return None if then is None else since(self.event.reading, then)

    def ticks_back(self):
        """How far the reading lies before the last one."""
        return since(self.end.reading, self.event.reading)

    def jump(self):
        return None if self.message is None else (self.message.number - self.end.last) % NUMBERS

    def behind(self):
        """How far the number lies behind the last one."""
        return None if self.message is None else (self.end.last - self.message.number) % NUMBERS

    def age(self):
        """How old a message is at most: by the offset minimum."""
        if self.message is None or self.end.state != UP or self.end.minimum is None:
            return None
        return (self.event.reading - self.message.sent - self.end.minimum) % WRAP

    def minimum(self):
        """The offset minimum by the stamps of a start message."""
        if self.message is None or self.end.opened is None:
            return None
        return since(self.end.opened, self.message.receipt)

    def maximum(self):
        return None if self.message is None else since(self.event.reading, self.message.sent)

    def spread(self):
        return None if self.minimum() is None else since(self.maximum(), self.minimum())

    def needed_minimum(self):
        """What the neighbour's minimum has to be: 0 less the own maximum."""
        return None if self.end.maximum is None else since(0, self.end.maximum)

    def silent(self):
        """Ticks since something was last heard."""
        return self._ago(self.end.heard)

    def waited(self):
        """Ticks since the wait of a starting state began."""
        return self._ago(self.end.waits_since) if self.end.starting() else None

    def quiet(self):
        """Ticks since data or a life sign went, or since the end came Up."""
        return self._ago(self.end.spoke)

    def since_asked(self):
        return self._ago(self.end.asked)
