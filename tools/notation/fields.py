"""Numbers, bytes and words: the small parts that every line of a script is made of."""

import collections
import itertools
import re

from .slips import UNIT, counted, hex_slip, meant, number_slip, quoted

GROUPED = "[0-9]{1,3}(?:,[0-9]{3})+|[0-9]{1,3}(?:_[0-9]{3})+"
NUMBER = re.compile(rf"(?P<plain>[0-9]+|{GROUPED})|2\^(?P<power>[0-9]{{1,2}})(?P<more>[+-][0-9]+)?")
LONGEST_NUMBER = 30  # digits: more never fit, and no larger number is worked out
PIECE = re.compile(r"(?:[0-9a-fA-F]{2})+|[0-9a-fA-F]{2}\*[0-9]+")
NEARLY_HEX = re.compile(r"[0-9a-fA-F]+|[0-9a-fA-F]+\*[0-9]*|0[xX].*|[0-9a-fA-F]{2}([:,-][0-9a-fA-F]{2})+")
SHORTEST_RUN = 5  # from this many equal bytes on, a run is written as XX*COUNT
LONGEST_RUN = 1000  # far above every field, and small enough to lay out in memory
NEAR_WRAP = 10_000  # numbers of 4 bytes that are nearer to 2^32 than this are written from there
READINGS = ("reading", "at", "sent", "echo", "receipt")
FIELDS = ("at", "age", "spread", "jump", "errors", "silence", "life-sign", "wait", "retry", "number", "sent",
          "echo", "receipt", "minimum", "maximum", "data", "filler")  # the words that stand before a value
THREE_DIGITS = re.compile("[0-9]{3}")
AN_ANSWER = re.compile("[0-9]|1[0-4]")


class Trouble(Exception):
    """What is wrong with a text. Whoever knows the file and the line puts them in front."""


def read_number(word, size, signed=False, whole="numbers are whole", hint=""):
    """The number that `word` names, for a field of `size` bytes.

    `signed` fields take a minus sign: an offset is a difference, so -1003 stands for 2^32-1003. `whole` says
    what the number counts, and `hint` helps where nothing else explains what is wrong.
    """
    negative = signed and word.startswith("-")
    value = _magnitude(word[1:] if negative else word)
    if value is None:
        slip = number_slip(word, whole) or hint
        raise Trouble(f"{quoted(word)} is no number" + (f": {slip}" if slip else ""))
    limit = 1 << (8 * size)
    if negative:
        if value > limit // 2:
            raise Trouble(f"{quoted(word)} does not fit: the least is -{limit // 2}")
        return -value % limit
    if not 0 <= value < limit:
        room = "1 byte" if size == 1 else f"{size} bytes"
        raise Trouble(f"{quoted(word)} does not fit: the field has {room}, so 0 to {limit - 1}")
    return value


def _whole(name, size):
    """What a number of this field counts: all fields of 4 bytes are times."""
    if size < 4:
        return "numbers are whole"
    return f"{'readings' if name in READINGS else 'times'} are whole ticks of 10 ms"


def _magnitude(word):
    """The number without its sign; one that is far too long counts as one that fits nowhere."""
    match = NUMBER.fullmatch(word)
    if match is None:
        return None
    if len(word) > LONGEST_NUMBER:
        digits = re.sub("[,_]", "", word).lstrip("0")
        if len(digits) > LONGEST_NUMBER or not match["plain"]:
            return 1 << 64
        return int(digits or "0")
    if match["plain"]:
        return int(re.sub("[,_]", "", match["plain"]))
    return 2 ** int(match["power"]) + int(match["more"] or 0)


def number_in_words(value):
    """A number; one shortly before the wrap of 4 bytes as 2^32-K."""
    below = (1 << 32) - value
    return f"2^32-{below}" if below < NEAR_WRAP else str(value)


def offset_in_words(value):
    """An offset with its sign: the nearer of the two ways round."""
    return str(value - (1 << 32) if value >= 1 << 31 else value)


def bytes_in_words(data):
    """Hex, with long runs of one byte as XX*COUNT; `empty` for no bytes."""
    pieces, plain = [], []
    for byte, run in itertools.groupby(data):
        count = sum(1 for _ in run)
        if count < SHORTEST_RUN:
            plain.append(f"{byte:02x}" * count)
            continue
        if plain:
            pieces.append("".join(plain))
        pieces.append(f"{byte:02x}*{count}")
        plain = []
    if plain:
        pieces.append("".join(plain))
    return " ".join(pieces) or "empty"


def _piece(word):
    pair, star, count = word.partition("*")
    if not star:
        return bytes.fromhex(word)
    if len(count) > 4 or int(count) > LONGEST_RUN:
        raise Trouble(f"{quoted(word)}: a run has at most {counted(LONGEST_RUN)} bytes")
    return bytes.fromhex(pair) * int(count)


class Words:
    """The words of one line, taken from the front."""

    def __init__(self, text, name=None, example=None):
        self.words = collections.deque(text.split())
        self.about(name, example)

    def about(self, name, example):
        """What the line is about and what such a line looks like, for whoever left something out."""
        self.name = name
        self.example = example

    def more(self):
        return bool(self.words)

    def peek(self):
        return self.words[0] if self.words else None

    def missing(self, what):
        if self.name is None:
            return Trouble(f"{what} is missing at the end")
        return Trouble(f"{self.name} needs {what}, as in: {self.example}")

    def next(self, what):
        """The next word; `what` says what should have stood there."""
        if not self.words:
            raise self.missing(what)
        return self.words.popleft()

    def expect(self, word):
        found = self.next(f"the word '{word}'")
        if found == word:
            return
        slip = "" if found in FIELDS else meant(found, [word])
        if found.startswith((f"{word}=", f"{word}:", f"{word},")):
            slip = f"only a blank stands behind {word}"
        if slip:
            raise Trouble(f"{quoted(found)} is not understood here: {slip}")
        raise Trouble(f"the word '{word}' is missing before {quoted(found)}")

    def number(self, name, size, signed=False):
        """A number with its name in front."""
        self.expect(name)
        return self.bare_number(name, size, signed, f"a number behind '{name}'")

    def bare_number(self, name, size, signed=False, what="a reading"):
        word = self.next(what)
        hint = f"write it as in: {self.example}" if self.example else ""
        try:
            return read_number(word, size, signed, _whole(name, size), hint)
        except Trouble as trouble:
            raise Trouble(f"{name}: {trouble}") from None

    def bytes(self, what):
        """All the hex that stands here, or the word `empty`."""
        if self.option("empty"):
            return b""
        pieces = []
        while self.words and PIECE.fullmatch(self.words[0]):
            pieces.append(_piece(self.words.popleft()))
        word = self.peek()
        if word is not None and (not pieces or NEARLY_HEX.fullmatch(word)):
            slip = hex_slip(word) or meant(word, ["empty"])
            raise Trouble(f"{what}: {slip}" if slip else
                          f"{what} must be hex, two digits a byte, or 'empty', not {quoted(word)}")
        if not pieces:
            raise self.missing(f"{what} in hex")
        return b"".join(pieces)

    def option(self, word):
        """Whether `word` stands here; takes it if so."""
        found = self.peek() == word
        if found:
            self.words.popleft()
        return found

    def finish(self, known=()):
        """Nothing more may stand here; `known` has the words that could have."""
        if not self.words:
            return
        word = self.words[0]
        slip = meant(word, known)
        if AN_ANSWER.fullmatch(word):
            slip = "an answer stands behind ->"
        elif THREE_DIGITS.fullmatch(word):
            slip = "a number has no blanks in it, so write 1000 or 1,000"
        elif UNIT.fullmatch(word):
            slip = "readings are whole ticks of 10 ms, and have no unit"
        raise Trouble(f"{quoted(word)} is not understood here" + (f": {slip}" if slip else ""))
