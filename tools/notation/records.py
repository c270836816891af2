"""Records of a Sunday script: words to bytes, and back."""

import struct
from typing import NamedTuple, Optional

from .fields import Trouble, Words, bytes_in_words, number_in_words
from .messages import message_in_words, read_message
from .settings import SETTINGS
from .slips import counted, quoted, unknown

LENGTHS = {1: 33, 2: 5, 3: 5, 4: 5, 5: 5, 6: 106, 7: 134}  # whole records, by their kind
MAKE = struct.Struct(">BBIIIHBIIII")
EVENT = struct.Struct(">BI")
INITIATOR, CALLED = ROLES = ("initiator", "called")
BARE = {"tick": 2, "connect": 3, "confirm": 4, "disconnect": 5}  # events that are a reading only
DATA, MESSAGE = 6, 7
FIELDS = {DATA: 100, MESSAGE: 128}  # the room for user data and for a message
STARTS = ("make", *BARE, "data", "message", "record")  # the words that a record begins with
OTHER_STARTS = ("define", "use", "done")  # and those that other lines begin with
OUTPUTS = ("ask", "accept", "send", "up", "error", "release", "down", "nothing", "bad")  # those of answers
EXAMPLES = {
    "make": "make initiator at 100 age 50 spread 20 jump 4 errors 2 silence 300 life-sign 100 wait 500 retry 1000",
    **{name: f"{name} 100" for name in BARE},
    "data": "data 120 c0ffee",
    "message": "message 130 life-sign number 2 sent 4013 echo 5009 receipt 4013",
    "record": "record 09 00",
}
NAMES = {1: "make", **{number: name for name, number in BARE.items()}, DATA: "data", MESSAGE: "message"}


class Event(NamedTuple):
    """A good record, field by field."""

    name: str
    reading: int
    role: Optional[str] = None  # of `make` alone, as are the settings
    settings: Optional[dict] = None
    data: Optional[bytes] = None  # user data, or the bytes of a message


def read_record(text):
    """The bytes of the record that `text` words."""
    words = Words(text)
    name = words.next("the record")
    if name not in STARTS:
        raise Trouble(_no_record(name))
    words.about(name, EXAMPLES[name])
    record = _READERS.get(name, _read_bare)(name, words)
    words.finish(["filler"] if name in ("data", "message") else ())
    return record


def _no_record(name):
    if name.isdigit():
        return f"{quoted(name)} is no record: a record begins with a word, as in: tick 100"
    if name == "end":
        return "'end' is no record: a block ends with done"
    if name in OUTPUTS:
        return f"{quoted(name)} is no record: an answer stands behind ->"
    return unknown(name, "record", [*STARTS, *OTHER_STARTS])


def _read_bare(name, words):
    return EVENT.pack(BARE[name], words.bare_number("reading", 4))


def _read_data(_name, words):
    reading = words.bare_number("reading", 4)
    return _with_field(DATA, reading, words.bytes("user data"), words)


def _read_message(_name, words):
    reading = words.bare_number("reading", 4)
    return _with_field(MESSAGE, reading, read_message(words), words)


def _read_any(_name, words):
    return words.bytes("a record")


def _read_make(_name, words):
    role = words.next("a role")
    if role not in ROLES:
        raise Trouble(unknown(role, "role", ROLES))
    reading = words.number("at", 4)
    settings = [_read_setting(setting, words) for setting in SETTINGS]
    return MAKE.pack(1, ROLES.index(role), reading, *settings)


def _read_setting(setting, words):
    names = [name for name, *_ in SETTINGS]
    if words.peek() in names and words.peek() != setting.name:
        raise Trouble(f"the word '{setting.name}' is missing before {quoted(words.peek())}: "
                      f"the order is {', '.join(names)}")
    return words.number(setting.name, setting.size)


_READERS = {"make": _read_make, "data": _read_data, "message": _read_message, "record": _read_any}


def _with_field(kind, reading, data, words):
    room = FIELDS[kind] - len(data)
    if room < 0:
        raise Trouble(f"{counted(len(data))} bytes do not fit: the record has room for {FIELDS[kind]}")
    filler = bytes(room)
    if words.option("filler"):
        words.about("filler", "filler ff")
        filler = words.bytes("a byte")
        if len(filler) not in (1, room):
            raise Trouble(f"filler is one byte, or all {room} that are left, and not {counted(len(filler))}")
        filler = filler * room if len(filler) == 1 else filler
    return EVENT.pack(kind, reading) + bytes([len(data)]) + data + filler


def parsed(record):
    """The fields of a record, or None for a bad one."""
    if fault(record) is not None:
        return None
    kind, reading = EVENT.unpack(record[:EVENT.size])
    if kind == 1:
        _, role, reading, *settings = MAKE.unpack(record)
        names = (setting.name for setting in SETTINGS)
        return Event(NAMES[kind], reading, ROLES[role], dict(zip(names, settings)))
    if kind in FIELDS:
        return Event(NAMES[kind], reading, data=record[EVENT.size + 1:][:record[EVENT.size]])
    return Event(NAMES[kind], reading)


def record_in_words(record, filler=True):
    """A record in words; a bad one as `record` and its bytes. Without `filler` what nobody reads is left out."""
    event = parsed(record)
    if event is None:
        return "record " + bytes_in_words(record)
    return _event_in_words(event) + (_filler_in_words(record, event) if filler else "")


def _filler_in_words(record, event):
    """The words for what stands behind data or a message, if it is not zeros."""
    rest = b"" if event.data is None else record[EVENT.size + 1 + len(event.data):]
    if not any(rest):
        return ""
    return " filler " + (f"{rest[0]:02x}" if len(set(rest)) == 1 else bytes_in_words(rest))


def _event_in_words(event):
    reading = number_in_words(event.reading)
    if event.name == "make":
        named = (f"{name} {number_in_words(value)}" for name, value in event.settings.items())
        return f"make {event.role} at {reading} {' '.join(named)}"
    if event.name == "data":
        return f"data {reading} {bytes_in_words(event.data)}"
    if event.name == "message":
        return f"message {reading} {message_in_words(event.data)}"
    return f"{event.name} {reading}"


def fault(record):
    """What makes these bytes a bad record, or None for a good one."""
    if not record:
        return "no bytes"
    kind = record[0]
    if kind not in LENGTHS:
        return f"kind {kind} is unknown"
    if len(record) < LENGTHS[kind]:
        return f"it is cut: {len(record)} bytes of {LENGTHS[kind]}"
    if len(record) > LENGTHS[kind]:
        return f"it is too long: {len(record)} bytes for {LENGTHS[kind]}"
    if kind == 1 and record[1] >= len(ROLES):
        return f"role {record[1]} is unknown"
    if kind in FIELDS and record[EVENT.size] > FIELDS[kind]:
        return f"length {record[EVENT.size]} is over the field's {FIELDS[kind]}"
    return None


def split_records(data):
    """Cuts bytes into records. An unknown kind counts as a record of one byte, so none is lost."""
    records, at = [], 0
    while at < len(data):
        record = data[at:at + LENGTHS.get(data[at], 1)]
        records.append(record)
        at += len(record)
    return records
