"""Files: read whole, held to what they should be, and written whole.

A text, the records of a program and the lines that it printed are told apart by their bytes, so that one
that is given for another is refused with a sentence.
"""

import errno
import os
import re
import stat
import sys

from .answers import BAD, parsed_line
from .compare import text_of
from .fields import Trouble
from .records import OTHER_STARTS, STARTS
from .script import ARROW, Script
from .slips import counted

LARGEST = 512 << 20  # bytes: whatever is read is held in memory
CONTROL = bytes([*range(0x09), *range(0x0e, 0x20)])  # bytes that records are full of, and a text has not
CONTROL_BYTES = tuple(bytes([byte]) for byte in CONTROL)
MARKS = ((b"\xef\xbb\xbf", "UTF-8"), (b"\xff\xfe", "UTF-16"), (b"\xfe\xff", "UTF-16"))
UTF_16 = re.compile(rb"(?:[\t\n\r -~]\x00){4}|(?:\x00[\t\n\r -~]){4}")
OTHER_LINE_ENDS = re.compile("\r\n|[\r\x0b\x0c\x85\u2028\u2029]")
TEXT, RECORDS, LINES, OTHER = "text", "records", "lines", "something else"
FOUND = {TEXT: "this is a text", RECORDS: "these are records", LINES: "these are lines that a program prints"}
WANTED = {TEXT: "a text is meant", RECORDS: "records are meant", LINES: "lines that a program printed are meant"}
HINTS = {  # by what was found and what is wanted
    (RECORDS, TEXT): ": 'tools/scenes text' puts them in words",
    (TEXT, RECORDS): ": 'tools/scenes bytes' writes those of a text",
    (TEXT, LINES): ": 'tools/scenes lines' writes those that a text must get",
}


def read_bytes(path):
    """All bytes of a file, or of standard input for `-`."""
    try:
        if path == "-":
            if sys.stdin is None:
                raise Trouble("standard input is closed")
            return _held(sys.stdin.buffer, path)
        with open(path, "rb") as file:
            return _held(file, path)
    except OSError as error:
        raise Trouble(f"{path}: {error.strerror}") from None
    except ValueError:
        raise Trouble(f"{path!r}: this is no name of a file") from None


def _held(file, path):
    data = file.read(LARGEST + 1)
    if len(data) > LARGEST:
        raise Trouble(f"{path}: more than {counted(LARGEST >> 20)} MB are not read")
    return data


def kind_of(data):
    """Whether bytes are a text, records, or printed lines. A stray control byte makes no records."""
    if UTF_16.match(data) or data.startswith(tuple(mark for mark, _ in MARKS)):
        return OTHER
    if data[:1] in CONTROL_BYTES or 20 * (len(data) - len(data.translate(None, CONTROL))) > len(data):
        return RECORDS
    try:
        first = data.decode().lstrip().partition("\n")[0].rstrip("\r")
    except UnicodeDecodeError:
        return OTHER
    return LINES if _is_answer(first) else TEXT


def _is_answer(line):
    try:
        return line == BAD or bool(parsed_line(line))
    except Trouble:
        return False


def _begins_as_a_text(data):
    first = data.lstrip().partition(b"\n")[0].decode()
    return first.startswith(("#", ARROW)) or first.split(" ")[0].lower() in (*STARTS, *OTHER_STARTS)


def _demand(wanted, data, path):
    """That bytes are what is wanted, as far as they look like anything."""
    found = kind_of(data)
    if found not in (wanted, OTHER):
        raise Trouble(f"{path}: {FOUND[found]}, and {WANTED[wanted]}{HINTS.get((found, wanted), '')}")


def kind_of_file(path):
    """What a file is; Trouble if it is nothing that can be read."""
    data = read_bytes(path)
    if not data or kind_of(data) == OTHER:
        _as_text(data, path)  # says what is wrong
    return kind_of(data)


def read_text(path):
    """A text, as it stands in the file."""
    return _as_text(read_bytes(path), path)


def _as_text(data, path):
    if not data:
        raise Trouble(f"{path}: the file is empty")
    _demand(TEXT, data, path)
    return _decoded(data, path)


def _demand_utf_8(data, path):
    for mark, name in MARKS:
        if data.startswith(mark):
            wish = "without it" if name == "UTF-8" else "as UTF-8"
            raise Trouble(f"{path}: the file begins with a byte-order mark of {name}: save it {wish}")
    if UTF_16.match(data):
        raise Trouble(f"{path}: every other byte is 0, as in UTF-16: save it as UTF-8")


def _decoded(data, path):
    _demand_utf_8(data, path)
    try:
        text = data.decode()
    except UnicodeDecodeError as error:
        line = data.count(b"\n", 0, error.start) + 1
        column = error.start - data.rfind(b"\n", 0, error.start)
        raise Trouble(f"{path}:{line}: byte {column} of this line, 0x{data[error.start]:02x}, is no UTF-8: "
                      "save the file as UTF-8") from None
    end = OTHER_LINE_ENDS.search(text)
    if end:
        line = text.count("\n", 0, end.start()) + 1
        name = {"\r\n": "CR and LF", "\r": "CR"}.get(end.group(), f"U+{ord(end.group()[0]):04X}")
        raise Trouble(f"{path}:{line}: this line ends with {name}, as on another system: "
                      "save the file with line feeds alone")
    return text


def read_records(path):
    """The bytes that a program reads. There may be none: a script without records is one."""
    data = read_bytes(path)
    if data:
        _demand(RECORDS, data, path)
    return data


def read_lines(path):
    """The lines that a program printed, each ended by a line feed. There may be none."""
    data = read_bytes(path)
    if not data:
        return []
    if kind_of(data) != TEXT or _begins_as_a_text(data):
        _demand(LINES, data, path)  # what else is printed is a wrong program's, and told as it is
    text = _decoded(data, path)
    if not text.endswith("\n"):
        raise Trouble(f"{path}: the last line has no end, so a part of it may be missing")
    return text.split("\n")[:-1]


def read_script(path, draft=False):
    """The script that a text says."""
    return Script(read_text(path), path, draft)


def read_played(path, draft=False):
    """A script to be played, which may be a text or the records themselves."""
    data = read_bytes(path)
    if data and kind_of(data) == RECORDS:
        return Script(text_of(data, filler=False), path, draft=True)
    return Script(_as_text(data, path), path, draft)


def write_whole(data, file=1):
    """Writes all to standard output. Where that fails, a file is left as it was."""
    data = data if isinstance(data, bytes) else data.encode(errors="surrogateescape")
    size = None
    try:
        found = os.fstat(file)
        size = found.st_size if stat.S_ISREG(found.st_mode) else None
        rest = memoryview(data)
        while rest:
            rest = rest[os.write(file, rest):]
    except OSError as error:
        if size is not None:
            os.ftruncate(file, size)
        said = "is closed" if error.errno == errno.EBADF else f"can't be written: {error.strerror}"
        raise Trouble(f"standard output {said}") from None
