"""The command tools/scenes: what it does with its files."""

from . import files
from .arguments import Command, read_arguments
from .compare import filled, first_difference, text_of
from .fields import Trouble
from .play import played
from .slips import counted

MOST_DRAWN = 20_000  # records in one picture: browsers are slow with more

HELP = """Sunday scripts in words: writes the bytes of a text, reads bytes back, compares, and tells.

    scenes bytes TEXT                  the records of a text, as a program reads them
    scenes lines TEXT                  the lines that the program must print
    scenes check TEXT RECORDS LINES    whether stored records and lines are what the text says
    scenes text RECORDS [LINES]        the text for records, with the answers that LINES have;
                                       with --plain without the filler, which nobody reads
    scenes fill TEXT LINES             the text again, its answers replaced by those in LINES
    scenes play SCRIPT LINES           each record in words beside the line it got, for a reader;
                                       with --why also what decided it
    scenes picture SCRIPT LINES        the same as a page for a browser; --svg draws it for a document
    scenes kind FILE                   whether a file is a text, records, or lines

RECORDS are what the program reads, LINES what it printed, and a SCRIPT is a text or records. A file named
- is standard input. The result goes to standard output. A record without an answer is an error, but
'bytes --draft' and 'play --draft' take it, and so do 'fill' and 'picture'. A picture counts seconds from
each make, or with --anchor READING=HH:MM:SS shows the time of day; --first N and --last N draw some of the
records, and --title WORDS is its heading. Exit status: 0 good, 1 a difference was found, 2 something can't
be read or written. docs/SCRIPTS.md has all of it.
"""


def _bytes(given):
    return 0, files.read_script(given.files[0], given.flag("--draft")).stdin()


def _lines(given):
    return 0, "".join(line + "\n" for line in files.read_script(given.files[0]).printed())


def _check(given):
    text, records, lines = given.files
    script = files.read_script(text)
    printed = "".join(line + "\n" for line in files.read_lines(lines))
    found = first_difference(script, files.read_records(records), printed)
    if found:
        return 1, found + "\n"
    return 0, f"{text}: {len(script.steps)} records and their answers are as stored\n"


def _text(given):
    records = files.read_records(given.files[0])
    if not records:
        raise Trouble(f"{given.files[0]}: the file is empty: there is no record in it")
    printed = files.read_lines(given.files[1]) if len(given.files) > 1 else None
    return 0, text_of(records, printed, filler=not given.flag("--plain"))


def _fill(given):
    return 0, filled(files.read_script(given.files[0], draft=True), files.read_lines(given.files[1]))


def _played_files(given, draft):
    """A script and the lines that it got, for those who tell it."""
    path, lines = given.files
    script = files.read_played(path, draft)
    printed = files.read_lines(lines)
    if script.steps and not printed:
        raise Trouble(f"{lines}: the file is empty, and {path} has {len(script.steps)} records: "
                      "the program printed nothing")
    return script, printed


def _play(given):
    script, printed = _played_files(given, given.flag("--draft"))
    text, differ = played(script, printed, given.flag("--why"))
    return (1 if differ else 0), text


def _picture(given):
    # Half of the code, which the other commands need not wait for.
    from .marks import marks_of
    from .page import page
    from .sheet import sheet
    from .times import read_anchor

    anchor = read_anchor(given.options["--anchor"]) if given.flag("--anchor") else None
    script, printed = _played_files(given, draft=True)  # what was printed is drawn, and no answer is needed
    first, last = _window(given, len(script.steps))
    marks = marks_of(script, printed, anchor)[first - 1:last]
    draw = sheet if given.flag("--svg") else page
    differ = any(mark.differs for mark in marks)
    return (1 if differ else 0), draw(given.options.get("--title", given.files[0]), marks)


def _window(given, records):
    """The records from --first to --last: a picture of a whole night may be too large to look at."""
    if not records:
        raise Trouble(f"{given.files[0]}: there is no record to draw")
    first, last = given.number("--first", 1, records), given.number("--last", records, records)
    if first > last:
        raise Trouble(f"--first {first} is behind --last {last}")
    if last - first >= MOST_DRAWN:
        raise Trouble(f"these are {counted(last - first + 1)} records, and a picture has room for "
                      f"{counted(MOST_DRAWN)}: choose some by --first and --last")
    return first, last


def _kind(given):
    return 0, files.kind_of_file(given.files[0]) + "\n"


COMMANDS = {
    "bytes": Command(_bytes, ("TEXT",), ("--draft",)),
    "lines": Command(_lines, ("TEXT",)),
    "check": Command(_check, ("TEXT", "RECORDS", "LINES")),
    "text": Command(_text, ("RECORDS", "[LINES]"), ("--plain",)),
    "fill": Command(_fill, ("TEXT", "LINES")),
    "play": Command(_play, ("SCRIPT", "LINES"), ("--draft", "--why")),
    "picture": Command(_picture, ("SCRIPT", "LINES"), ("--svg",), ("--anchor", "--first", "--last", "--title")),
    "kind": Command(_kind, ("FILE",)),
}


def run(words):
    """The exit status, what goes to standard output, and what goes to standard error."""
    if "--help" in words or "-h" in words:
        return 0, HELP, ""
    try:
        given = read_arguments(words, COMMANDS)
        status, result = given.run(given)
        return status, result, ""
    except Trouble as trouble:
        return 2, "", f"{trouble}\n"
    except MemoryError:
        return 2, "", "this is more than the memory holds\n"
