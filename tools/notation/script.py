"""A script as a text: its lines, its blocks, and the records that they come to.

One line holds a record, and `->` with the answer stands behind it or alone on the next line. A block
of lines between `define NAME` and `done` is put in wherever `use NAME` stands.
"""

import re

from .answers import BAD, NOTHING, read_answer
from .fields import Trouble
from .records import LENGTHS, OTHER_STARTS, read_record
from .slips import arrow_slip, counted, quoted

ARROW = "->"
COLUMN = 32  # where the arrows stand, so that the answers can be read downwards
NAME = re.compile(r"[a-z0-9][a-z0-9-]*")
MOST_RECORDS = 1_000_000  # blocks inside blocks soon come to more than anybody can play


class Entry:
    """One record line: what the text says, and the bytes and the printed line that it means."""

    def __init__(self, number, indent, words, comment):
        self.number = number
        self.indent = indent
        self.words = " ".join(words.split())
        self.comment = comment
        self.record = read_record(words)
        self.answer = None  # in words, as the author wrote it
        self.line = None  # as a program prints it

    def take_answer(self, words):
        if self.answer is not None:
            raise Trouble("this record has two answers")
        self.answer = " ".join(words.split())
        self.line = read_answer(words)


class Step:
    """A record in the order in which it is played."""

    def __init__(self, entry, used_at=None):
        self.entry = entry
        self.used_at = used_at  # the line of the `use` that put it here

    def place(self, name):
        used = f" (used at line {self.used_at})" if self.used_at else ""
        return f"{name}:{self.entry.number}{used}"


class Script:
    """A whole text.

    `lines` keeps the text as it stands, an Entry for each record line; `items` has what is played, in
    order: comments as strings and records as Steps.
    """

    def __init__(self, text, name, draft=False):
        self.name = name
        self.lines = []
        self.items = []
        self.blocks = {}
        self.block = None  # the name of the block that is being defined
        self.block_number = 0
        for number, line in enumerate(text.split("\n"), 1):
            try:
                self._read_line(number, line.rstrip())
            except Trouble as trouble:
                raise Trouble(f"{name}:{number}: {trouble}") from None
        if self.block is not None:
            raise Trouble(f"{name}:{self.block_number}: '{self.block}' has no 'done'")
        self.steps = [item for item in self.items if isinstance(item, Step)]
        if not draft:
            self._demand_answers()
        self._demand_boundaries()

    def _read_line(self, number, line):
        text, mark, comment = line.partition("#")
        slip = arrow_slip(text)
        if slip:
            raise Trouble(slip)
        words, arrow, answer = text.partition(ARROW)
        first = words.split()[:1]
        if arrow and not first:
            self._read_lone_answer(answer, comment.strip())
        elif first:
            if first[0] in OTHER_STARTS:
                self._read_block_word(number, text.split())
                self.lines.append(line)
            else:
                self._read_entry(number, words, answer if arrow else None, comment.strip())
        else:
            self.lines.append(line)
            if mark:
                self._items().append(comment.strip())

    def _items(self):
        return self.items if self.block is None else self.blocks[self.block]

    def _read_entry(self, number, words, answer, comment):
        indent = words[:len(words) - len(words.lstrip())]
        entry = Entry(number, indent, words, comment)
        if answer is not None:
            entry.take_answer(answer)
        self.lines.append(entry)
        self._items().append(Step(entry))

    def _read_lone_answer(self, answer, comment):
        if not self.lines or not isinstance(self.lines[-1], Entry):
            raise Trouble("this answer has no record on the line above")
        entry = self.lines[-1]
        entry.take_answer(answer)
        entry.comment = " ".join(filter(None, (entry.comment, comment)))

    def _read_block_word(self, number, words):
        if words == ["done"]:
            if self.block is None:
                raise Trouble("'done' without a 'define'")
            self.block = None
            return
        if len(words) != 2 or words[0] == "done" or not NAME.fullmatch(words[1]):
            raise Trouble("write 'define NAME', 'use NAME' or 'done'; "
                          "a name is one word of small letters, digits and hyphens")
        word, name = words
        if word == "define":
            self._open_block(number, name)
        elif name not in self.blocks or name == self.block:
            raise Trouble(f"no block {quoted(name)} is defined above")
        else:
            self._items().extend(_used(item, number) for item in self.blocks[name])
            if len(self._items()) > MOST_RECORDS:
                raise Trouble(f"with this the script has more than {counted(MOST_RECORDS)} records")

    def _open_block(self, number, name):
        if self.block is not None:
            raise Trouble(f"a 'define' inside the block '{self.block}'")
        if name in self.blocks:
            raise Trouble(f"the block {quoted(name)} is defined already")
        self.blocks[name] = []
        self.block, self.block_number = name, number

    def entries(self):
        return [line for line in self.lines if isinstance(line, Entry)]

    def _demand_answers(self):
        """Every record has an answer, and those after a bad record get nothing."""
        for entry in self.entries():
            if entry.line is None:
                raise Trouble(f"{self.name}:{entry.number}: this record has no answer: "
                              f"'{ARROW}' and the line it must get are missing")
        ended = False
        for step in self.steps:
            if ended != (step.entry.line == NOTHING):
                must = f"must get '{NOTHING}'" if ended else f"can't get '{NOTHING}'"
                where = "after" if ended else "without"
                raise Trouble(f"{step.place(self.name)}: {where} a '{BAD}' above, a record {must}")
            ended = ended or step.entry.line == BAD

    def _demand_boundaries(self):
        """Each record ends where the next begins, or a program would read others than the text."""
        for at, step in enumerate(self.steps):
            record = step.entry.record
            where = step.place(self.name)
            if not record:
                raise Trouble(f"{where}: a record has at least one byte")
            length = LENGTHS.get(record[0], len(record))
            if len(record) > length:
                raise Trouble(f"{where}: a record of kind {record[0]} has {length} bytes, "
                              f"not {len(record)}")
            if len(record) < length and at + 1 < len(self.steps):
                raise Trouble(f"{where}: this record is cut ({len(record)} bytes of {length}), "
                              "so it must be the last")

    def records(self):
        return [step.entry.record for step in self.steps]

    def stdin(self):
        """What the program reads."""
        return b"".join(self.records())

    def lines_got(self, printed):
        """The line that each record got, or None where the program printed none."""
        return printed[:len(self.steps)] + [None] * (len(self.steps) - len(printed))

    def printed(self):
        """The lines that the program must print."""
        lines = (step.entry.line for step in self.steps)
        return [line for line in lines if line != NOTHING]


def _used(item, number):
    return Step(item.entry, number) if isinstance(item, Step) else item


def laid_out(indent, words, answer, comment=""):
    """A record and its answer as they stand in a text: the answers all begin in one column."""
    text = indent + words
    if answer is not None:
        gap = " " * (COLUMN - len(text)) if len(text) < COLUMN else "\n" + " " * COLUMN
        text += f"{gap}{ARROW} {answer}"
    return text + (f"  # {comment}" if comment else "")
