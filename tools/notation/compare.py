"""A text held against what a program read and printed."""

from .answers import BAD, NOTHING, answer_in_words, shown
from .fields import Trouble
from .records import record_in_words, split_records
from .script import Entry, laid_out


def text_of(stdin, printed=None, filler=True):
    """The text for a program's input and, unless it is a draft, for the lines it printed."""
    records = split_records(stdin)
    answers = [None] * len(records)
    if printed is not None:
        lines = _one_each(printed, len(records))
        answers = [_in_words(line, at) for at, line in enumerate(lines, 1)]
    rows = (laid_out("", record_in_words(record, filler), answer)
            for record, answer in zip(records, answers))
    return "".join(row + "\n" for row in rows)


def _one_each(printed, records):
    """The line for each record; after a bad record there is none."""
    missing = records - len(printed)
    if missing < 0 or (missing > 0 and printed[-1:] != [BAD]):
        raise Trouble(f"{len(printed)} lines were printed for {records} records")
    return printed + [NOTHING] * missing


def _in_words(line, at):
    if line == NOTHING:
        return NOTHING
    try:
        return answer_in_words(line)
    except Trouble as trouble:
        raise Trouble(f"printed line {at}: {trouble}") from None


def filled(script, printed):
    """The text with the answers that were printed. What the author worded alike stays worded so."""
    answers = {}
    lines = _one_each(printed, len(script.steps))
    for at, (step, line) in enumerate(zip(script.steps, lines), 1):
        entry = step.entry
        same = entry.line == line
        answer = entry.answer if same else _in_words(line, at)
        if answers.setdefault(entry, answer) != answer:
            raise Trouble(f"{step.place(script.name)}: this record gets '{answers[entry]}' in one "
                          f"place and '{answer}' in another, so it can't stand in a block")
    rows = []
    for line in script.lines:
        if isinstance(line, Entry):
            answer = answers.get(line, line.answer)
            line = laid_out(line.indent, line.words, answer, line.comment)
        rows.append(line)
    return "\n".join(rows)


def first_difference(script, stdin, stdout):
    """How stored input and output first depart from the text, or None if they don't."""
    at = 0
    printed = stdout.split("\n")
    for index, step in enumerate(script.steps):
        record = step.entry.record
        where = f"{step.place(script.name)}: record {index + 1}"
        if stdin[at:at + len(record)] != record:
            found = split_records(stdin[at:])
            has = f"has '{record_in_words(found[0])}'" if found else "ends before it"
            return f"{where}: the text has '{record_in_words(record)}', the stored input {has}"
        at += len(record)
        expected = step.entry.line
        if expected == NOTHING:
            continue
        got = printed[index] if index < len(printed) - 1 else None
        if got != expected:
            has = "ends before it" if got is None else f"has '{shown(got)}'"
            return f"{where}: the text answers '{shown(expected)}', the stored output {has}"
    return _surplus(script, stdin[at:], printed[len(script.printed()):])


def _surplus(script, stdin, printed):
    """What stored input or output hold beyond the text."""
    if stdin:
        more = record_in_words(split_records(stdin)[0])
        return f"{script.name}: the stored input goes on after the last record: '{more}'"
    if printed != [""]:
        return f"{script.name}: the stored output goes on after the last answer: '{printed[0]}'"
    return None
