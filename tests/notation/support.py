"""What the tests of the notation share: the modules under test, and random records."""

import pathlib
import random
import sys

TOP = pathlib.Path(__file__).resolve().parents[2]
SCENES = TOP / "tools" / "scenes"
sys.path.insert(0, str(TOP / "tools"))

MAKE = ("make initiator at 100 age 50 spread 20 jump 4 errors 2 "
        "silence 300 life-sign 100 wait 500 retry 1000")

# Numbers at the edges of their fields, where the notation writes them in different ways.
EDGES = (0, 1, 9_999, 2**31 - 1, 2**31, 2**32 - 10_000, 2**32 - 9_999, 2**32 - 1)


def number(dice):
    """A number of 4 bytes, often one at an edge."""
    value = dice.choice(EDGES) if dice.random() < 0.5 else dice.randrange(2**32)
    return value.to_bytes(4, "big")


def message(dice):
    """A message, well formed or nearly so or not at all."""
    header = bytes([dice.randrange(8)]) + dice.randbytes(2) + number(dice) + number(dice) + number(dice)
    rest = dice.choice((b"", number(dice) + number(dice), b"\x02", b"\x03",
                        b"\x03" + dice.randbytes(dice.randrange(1, 113)),
                        b"\x03" + bytes([dice.randrange(256)]) * dice.randrange(1, 113)))
    whole = header + rest
    return dice.choice((whole, whole, whole, whole[:dice.randrange(len(whole))], b""))


def filler(dice, length):
    """Bytes that nobody reads: zeros, one byte repeated, or anything."""
    return dice.choice((bytes(length), bytes([dice.randrange(256)]) * length, dice.randbytes(length)))


def record(dice):
    """One good record."""
    kind = dice.randrange(1, 8)
    front = bytes([kind])
    if kind == 1:
        return front + bytes([dice.randrange(2)]) + number(dice) + dice.randbytes(27)
    front += number(dice)
    if kind < 6:
        return front
    data = dice.randbytes(dice.randrange(101)) if kind == 6 else message(dice)
    return front + bytes([len(data)]) + data + filler(dice, (100 if kind == 6 else 128) - len(data))


def records(seed):
    """A script of good records."""
    dice = random.Random(seed)
    return [record(dice) for _ in range(dice.randrange(30))]


def line(dice):
    """A line such as a program prints, though no end may ever give it."""
    words = [str(dice.randrange(15))]
    for _ in range(dice.randrange(4)):
        words.append(dice.choice(("ask", "accept", "up", "error", "release", "down",
                                  "data " + dice.randbytes(dice.randrange(1, 101)).hex(),
                                  "send " + (message(dice) or b"\x01").hex())))
    return " ".join(words)
