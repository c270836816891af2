"""Slips of the pen: what a person probably meant, in a few words.

A text is refused all the same. The hint stands behind the colon, so that it can be mended at once.
"""

import difflib
import re

LONGEST_SHOWN = 40

# What a wrong number looks like, and what to say about it. {whole} says what the number counts.
NUMBER_SLIPS = (
    (re.compile(r"[+-]?[0-9_,]*[.][0-9]*"), "{whole}"),
    (re.compile(r"[0-9.,_]+(ms|s|secs?|seconds?|m|mins?|minutes?|h|ticks?)", re.I), "{whole}"),
    (re.compile(r"[0-9]+(:[0-9.]+)+"), "{whole}"),
    (re.compile(r"[0-9][0-9,_]*[,_;:]"), "nothing stands right behind a number"),
    (re.compile(r"[0-9][0-9,_]*"), "commas stand before each three digits, as in 65,535"),
    (re.compile(r"0[xX].*"), "numbers are decimal"),
    (re.compile(r"[0-9]*(\^|\*\*).*"), "a power of two is written as in 2^32-1"),
    (re.compile(r"[0-9]+e[0-9]+", re.I), "write it out, as in 1,000"),
    (re.compile(r"[+].*"), "no plus sign stands before a number"),
    (re.compile(r"--.*"), "one minus sign is enough"),
    (re.compile(r"-.*"), "only a minimum and a maximum take a minus sign"),
    (re.compile(r"[\u2010-\u2015\u2212].*"), "the minus sign is -"),
    (re.compile(r"[0-9oOlI]*[0-9][0-9oOlI]*"), "digits are 0 to 9, and a letter stands among them"),
    (re.compile(r"\d+"), "digits are 0 to 9"),
)
HEX_SLIPS = (
    (re.compile(r"0[xX][0-9a-fA-F]*"), "write it without 0x"),
    (re.compile(r"[0-9a-fA-F]{2}([:,-][0-9a-fA-F]{2})+"), "nothing stands between the bytes but blanks"),
    (re.compile(r"[0-9a-fA-F]{2}(\*|x|\*?[0-9]*[a-z].*)"), "a run is a byte and a count, as in ab*100"),
    (re.compile(r"[0-9a-fA-F]+\*[0-9]+"), "a run is one byte and a count, as in ab*100"),
)
ODD_HEX = re.compile(r"[0-9a-fA-F]+")
UNIT = re.compile("ms|s|secs?|seconds?|m|mins?|minutes?|h|ticks?", re.I)
ARROWS = re.compile(r"--+>|<[-=]+|-\s+>|[=~]+>|[\u2010-\u2015\u2212]+>|[\u2192\u21d2\u27f6\u21a6]|(?<![-=~])>")


def counted(number):
    return f"{number:,}"


def printable(words):
    """Words that a terminal can show: what it would act on is written out."""
    return "".join(c if c.isprintable() else c.encode("unicode_escape").decode() for c in words)


def quoted(word):
    """A word for a message: cut where it is long, and all of it printable."""
    cut = printable(word[:LONGEST_SHOWN - 10] + ".." if len(word) > LONGEST_SHOWN else word)
    return f"'{cut}'" + (f" of {counted(len(word))} characters" if len(word) > LONGEST_SHOWN else "")


def meant(word, known):
    """What `word` probably is among the words that are known here; nothing if it is like none."""
    if len(word) > LONGEST_SHOWN or word in known:
        return ""
    if word.lower() in known:
        return f"words are in small letters, so write {word.lower()}"
    bare = {name.replace("-", ""): name for name in known}
    joined = re.sub("[-_]", "", word.lower())
    part = [name for name in known if name.startswith(word.lower() + "-")]  # as of life-sign, in two words
    if joined in bare or part:
        return f"write {bare.get(joined) or part[0]}"
    near = difflib.get_close_matches(word.lower(), known, 1)
    return f"did you mean {near[0]}?" if near else ""


def unknown(word, what, known):
    """That `word` is no such thing, and what it might be, or else all that there are."""
    there = ", ".join(known[:-1]) + " and " + known[-1]
    return f"{quoted(word)} is no {what}: {meant(word, known) or 'there are ' + there}"


def number_slip(word, whole):
    """What is wrong with a number; `whole` says what it counts."""
    if len(word) > LONGEST_SHOWN:
        return ""
    return next((words.format(whole=whole) for slip, words in NUMBER_SLIPS if slip.fullmatch(word)), "")


def hex_slip(word):
    """What is wrong with bytes that should be hex."""
    if ODD_HEX.fullmatch(word):
        return f"{quoted(word)} has an odd number of digits, and a byte has two"
    if len(word) > LONGEST_SHOWN:
        return ""
    return next((f"{quoted(word)}: {words}" for slip, words in HEX_SLIPS if slip.fullmatch(word)), "")


def arrow_slip(text):
    """The arrow that is none in a line, or nothing."""
    found = ARROWS.search(text)
    return f"the arrow is ->, not {found.group()}" if found else ""
