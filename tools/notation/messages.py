"""Messages as they go on the line: words to bytes, and back."""

import re
import struct
from typing import NamedTuple, Optional

from .fields import Trouble, bytes_in_words, number_in_words, offset_in_words
from .slips import quoted, unknown

HEADER = struct.Struct(">BHIII")
OFFSETS = struct.Struct(">II")
KINDS = {"start": 1, "answ1": 2, "answ2": 3, "est": 4, "end": 5, "life-sign": 6, "train": 6}
PLAIN = {1: "start", 2: "answ1", 3: "answ2", 5: "end"}  # the kinds that are a header and no more
EST, DATA = 4, 6
HEX = re.compile(r"(?:[0-9a-fA-F]{2}){2,}")
LIFE_SIGN = b"\x02"
TRAIN = b"\x03"
LONGEST_TRAIN = 100
STAMPS = "number 1 sent 4013 echo 5009 receipt 4013"
EXAMPLES = {"est": f"{STAMPS} minimum -1003 maximum -996", "train": f"{STAMPS} data c0ffee"}


class Message(NamedTuple):
    """The fields of a well-formed message."""

    name: str
    number: int
    sent: int
    echo: int
    receipt: int
    minimum: Optional[int] = None  # of `est` alone, as is the maximum
    maximum: Optional[int] = None
    data: Optional[bytes] = None  # of `train` alone


def read_message(words):
    """The bytes of a message.

    Train data may have any length here: a message that the end must refuse has to be written too.
    """
    name = words.next("the kind of the message")
    if name == "bytes":
        words.about(name, "bytes 01 00*14")
        return words.bytes("the message")
    if name not in KINDS:
        raise Trouble(_unknown_kind(name))
    words.about(name, f"{name} {EXAMPLES.get(name, STAMPS)}")
    number = words.number("number", 2)
    stamps = [words.number(stamp, 4) for stamp in ("sent", "echo", "receipt")]
    return HEADER.pack(KINDS[name], number, *stamps) + _read_rest(name, words)


def _unknown_kind(name):
    if HEX.fullmatch(name):
        return f"{quoted(name)} is no kind of message: for hex write bytes before it"
    return unknown(name, "kind of message", [*KINDS, "bytes"])


def _read_rest(name, words):
    if name == "est":
        minimum = words.number("minimum", 4, signed=True)
        return OFFSETS.pack(minimum, words.number("maximum", 4, signed=True))
    if name == "life-sign":
        return LIFE_SIGN
    if name == "train":
        words.expect("data")
        return TRAIN + words.bytes("train data")
    return b""


def message_fault(data):
    """What makes these bytes no message, with its figures; None for a well-formed one."""
    if not data:
        return "it has no bytes"
    kind, rest = data[0], data[HEADER.size:]
    if kind not in PLAIN and kind not in (EST, DATA):
        return f"kind {kind} is unknown"
    if kind == DATA:
        return _payload_fault(len(data), rest)
    length = HEADER.size + (OFFSETS.size if kind == EST else 0)
    if len(data) != length:
        name = PLAIN.get(kind, "est")
        return f"{name} has {length} bytes, and this has {len(data)}"
    return None


def _payload_fault(length, payload):
    if not payload:
        return f"kind 6 has at least {HEADER.size + 1} bytes, and this has {length}"
    if payload[:1] == LIFE_SIGN and len(payload) > 1:
        return f"life-sign has {HEADER.size + 1} bytes, and this has {length}"
    if payload[:1] == TRAIN and not 1 <= len(payload) - 1 <= LONGEST_TRAIN:
        return f"train data are 1 to {LONGEST_TRAIN} bytes, and these are {len(payload) - 1}"
    if payload[:1] not in (LIFE_SIGN, TRAIN):
        return f"the payload begins with {payload[0]}, which is neither 2 nor 3"
    return None


def parsed_message(data):
    """The fields of a message, or None if it is not well formed."""
    if message_fault(data) is not None:
        return None
    kind, *fields = HEADER.unpack(data[:HEADER.size])
    rest = data[HEADER.size:]
    if kind == EST:
        return Message("est", *fields, *OFFSETS.unpack(rest))
    if kind == DATA:
        train = rest[:1] == TRAIN
        return Message("train" if train else "life-sign", *fields, data=rest[1:] if train else None)
    return Message(PLAIN[kind], *fields)


def message_in_words(data):
    """A well-formed message field by field, any other as its bytes."""
    message = parsed_message(data)
    if message is None:
        return "bytes " + bytes_in_words(data)
    sent, echo, receipt = map(number_in_words, (message.sent, message.echo, message.receipt))
    text = f"{message.name} number {message.number} sent {sent} echo {echo} receipt {receipt}"
    if message.minimum is not None:
        minimum, maximum = map(offset_in_words, (message.minimum, message.maximum))
        text += f" minimum {minimum} maximum {maximum}"
    if message.data is not None:
        text += " data " + bytes_in_words(message.data)
    return text
