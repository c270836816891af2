"""Answers: the lines that a program prints, in the words of the notation, and back."""

import re
from typing import NamedTuple

from .fields import Trouble, Words, bytes_in_words
from .messages import message_in_words, read_message
from .slips import meant, printable, quoted, unknown

BAD = "bad record"
NOTHING = "nothing"  # no line at all, which is what every record after a bad one gets
SIGNS = ("ask", "accept", "up", "error", "release", "down")
HEX = re.compile(r"(?:[0-9a-f]{2})+")
NUMBER = re.compile("[0-9]|1[0-4]")
MEANINGS = (
    "handled", "a setting is out of range", "the clock went back", "no rule for this here",
    "user data too short or too long", "the queue is full", "not well formed",
    "not the message awaited", "echo, spread or minimum wrong", "old", "lost", "late",
    "waited too long", "gap", "output too short",
)
(HANDLED, OUT_OF_RANGE, CLOCK_BACK, NO_RULE, DATA_LENGTH, QUEUE_FULL, MALFORMED, NOT_AWAITED,
 START_WRONG, OLD, LOST, LATE, OVERDUE, GAP, SHORT_OUTPUT) = range(len(MEANINGS))


class Answer(NamedTuple):
    """A printed line, taken apart."""

    number: int
    outputs: tuple  # pairs: the word, and the bytes behind `send` and `data`

    def has(self, name):
        return any(name == output for output, _ in self.outputs)

    def bytes_of(self, name):
        """The bytes behind `send` or `data`, or None where that word is not there."""
        return next((data for output, data in self.outputs if output == name), None)


def read_answer(text):
    """The line that the program must print for an answer in words."""
    text = " ".join(text.split())
    if text in (BAD, NOTHING):
        return text
    words = Words(text, "an answer", "-> 0 ask")
    number = words.next("its number")
    if not NUMBER.fullmatch(number):
        raise Trouble(_no_answer(number, text))
    parts = [number]
    while words.more():
        parts.append(_read_output(words))
    return " ".join(parts)


def _no_answer(number, text):
    said = f"{quoted(number)} is no answer"
    for at, words in enumerate(MEANINGS):
        if text.lower().startswith(words):
            return f"{said}: write its number, {at}"
    if meant(text, [BAD, NOTHING]):
        return f"{said}: {meant(text, [BAD, NOTHING])}"
    digits = re.match("[0-9]+", number)
    if digits and NUMBER.fullmatch(digits.group()):
        return f"{said}: only a blank stands behind the number"
    if number in (*SIGNS, "send", "data"):
        return f"{said}: the number stands first, as in: -> 0 {number}"
    return f"{said}: there are 0 to 14, '{BAD}' and '{NOTHING}'"


def _read_output(words):
    name = words.next("an output")
    if name in SIGNS:
        return name
    if name not in ("send", "data"):
        raise Trouble(_no_output(name))
    words.about(name, "0 send bytes 0102" if name == "send" else "0 data c0ffee")
    data = read_message(words) if name == "send" else words.bytes("bytes")
    if not data:
        raise Trouble(f"{quoted(name)} needs at least one byte")
    return f"{name} {data.hex()}"


def _no_output(name):
    if name == "->":
        return "a record has one answer, and here are two arrows"
    if name.rstrip(",;") in (*SIGNS, "send", "data"):
        return f"{quoted(name)} is no output: only blanks stand between the outputs"
    return unknown(name, "output", [*SIGNS, "send", "data"])


def parsed_line(line):
    """The answer that a printed line holds; Trouble if no program that keeps the format prints it."""
    number, *words = line.split(" ")
    if not NUMBER.fullmatch(number):
        raise Trouble(f"{quoted(line)} is no answer")
    outputs = []
    rest = iter(words)
    for name in rest:
        data = None
        if name in ("send", "data"):
            data = next(rest, "")
            if not HEX.fullmatch(data):
                raise Trouble(f"{quoted(line)} is no answer: '{name}' has no hex behind it")
            data = bytes.fromhex(data)
        elif name not in SIGNS:
            raise Trouble(f"{quoted(line)} is no answer: {quoted(name)} is not understood in it")
        outputs.append((name, data))
    return Answer(int(number), tuple(outputs))


def answer_in_words(line):
    """A printed line in words; Trouble if no program that keeps the format prints it."""
    if line == BAD:
        return BAD
    answer = parsed_line(line)
    return " ".join([str(answer.number), *(_output_in_words(*output) for output in answer.outputs)])


def _output_in_words(name, data):
    if data is None:
        return name
    return f"{name} {message_in_words(data) if name == 'send' else bytes_in_words(data)}"


def shown(line):
    """A line for a reader: in words where it has some, else as it is."""
    try:
        return answer_in_words(line)
    except Trouble:
        return printable(line)


def meaning(line):
    """What the number of an answer says; nothing for 0 and for what has no number."""
    number = line.partition(" ")[0]
    if not number.isdigit() or not 0 < int(number) < len(MEANINGS):
        return ""
    return MEANINGS[int(number)]
