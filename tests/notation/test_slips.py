"""Wrong inputs: each is refused with a sentence and exit status 2, and nothing is written."""

import os
import pathlib
import random
import resource
import subprocess
import sys
import tempfile
import unittest
import unittest.mock

import support
from notation.command import run

HERE = pathlib.Path(__file__).resolve().parent
TEXT = f"{support.MAKE} -> 0\ntick 100 -> 0 ask\n".encode()
LINES = b"0\n0 ask\n"
RECORDS = bytes.fromhex("0100000000640000003200000014000402" "0000012c00000064000001f4000003e8" "0200000064")
DIGITS = 2_000_000  # in one line
SECONDS = 5  # more than enough for them, and far less than a quadratic reader takes


def wrong_lines():
    """The lines of slips.txt with what must be said about them."""
    line = None
    for row in (HERE / "slips.txt").read_text(encoding="utf-8").split("\n\n", 1)[1].split("\n"):
        if row.startswith("    "):
            yield line, row.strip()
        elif row and not row.startswith("=="):
            line = row


class Folder(unittest.TestCase):
    """Files to be read, in a folder of their own."""

    def setUp(self):
        folder = tempfile.TemporaryDirectory()
        self.addCleanup(folder.cleanup)
        self.addCleanup(os.chdir, os.getcwd())
        os.chdir(folder.name)
        for name, data in (("text", TEXT), ("records", RECORDS), ("lines", LINES), ("empty", b"")):
            pathlib.Path(name).write_bytes(data)

    def refused(self, words, sentence):
        with self.subTest(words=words):
            self.assertEqual(run(words), (2, "", sentence + "\n"))

    def refused_file(self, words, data, sentence):
        """The file `odd` is among the words of the command."""
        pathlib.Path("odd").write_bytes(data)
        self.refused(words.split(), sentence)


class WrongLines(Folder):
    def test_each_line_of_the_list(self):
        pairs = list(wrong_lines())
        self.assertGreaterEqual(len(pairs), 200)
        self.assertEqual(len({line for line, _ in pairs}), len(pairs), "a line stands there twice")
        for line, sentence in pairs:
            self.refused_file("bytes odd", f"# a comment\n{line}\n".encode(), f"odd:2: {sentence}")

    def test_the_files_that_they_are_held_against_are_good(self):
        self.assertEqual(run(["bytes", "text"]), (0, RECORDS, ""))
        self.assertEqual(run(["check", "text", "records", "lines"])[0], 0)

    def test_what_is_too_long_is_cut_in_the_sentence(self):
        nines = "'" + "9" * 30 + "..' of 10,000 characters"
        fits = "does not fit: the field has 4 bytes, so 0 to 4294967295"
        self.refused_file("bytes odd", b"tick " + b"9" * 10_000 + b" -> 0\n", f"odd:1: reading: {nines} {fits}")
        self.refused_file("bytes odd", b"tick 2^31+" + b"9" * 10_000 + b" -> 0\n",
                          f"odd:1: reading: '2^31+{'9' * 25}..' of 10,005 characters {fits}")
        self.refused_file("bytes odd", b"t" * 10_000 + b" -> 0\n",
                          f"odd:1: '{'t' * 30}..' of 10,000 characters is no record: there are make, tick, connect, "
                          "confirm, disconnect, data, message, record, define, use and done")
        self.refused_file("bytes odd", b"tick 5 -> " + b"x" * 50 + b"\n",
                          f"odd:1: '{'x' * 30}..' of 50 characters is no answer: "
                          "there are 0 to 14, 'bad record' and 'nothing'")
        self.refused_file("fill text odd", b"0\n" + b"x" * 50 + b"\n",
                          f"printed line 2: '{'x' * 30}..' of 50 characters is no answer")

    def test_a_control_character_is_shown(self):
        self.refused_file("bytes odd", b"# a text that is long enough\ntick 5\x1b -> 3\n",
                          r"odd:2: reading: '5\x1b' is no number: write it as in: tick 100")

    def test_blocks_that_come_to_too_much(self):
        """Forty blocks, each twice the one before, would never be laid out."""
        doubled = "".join(f"define b{n + 1}\nuse b{n}\nuse b{n}\ndone\n" for n in range(40))
        with unittest.mock.patch("notation.script.MOST_RECORDS", 1_000):
            self.refused_file("bytes odd", f"define b0\ntick 5 -> 3\ndone\n{doubled}".encode(),
                              "odd:42: with this the script has more than 1,000 records")


class WrongFiles(Folder):
    def test_no_such_file(self):
        self.refused(["bytes", "none"], "none: No such file or directory")
        self.refused(["bytes", "."], ".: Is a directory")
        self.refused(["bytes", "text/none"], "text/none: Not a directory")
        self.refused(["bytes", "no\0ne"], r"'no\x00ne': this is no name of a file")

    def test_empty(self):
        for words in (["bytes", "empty"], ["lines", "empty"], ["fill", "empty", "lines"], ["kind", "empty"],
                      ["play", "empty", "lines"], ["check", "empty", "records", "lines"]):
            self.refused(words, "empty: the file is empty")
        self.refused(["text", "empty"], "empty: the file is empty: there is no record in it")
        self.refused(["play", "text", "empty"],
                     "empty: the file is empty, and text has 2 records: the program printed nothing")

    def test_other_ways_to_save_a_text(self):
        mark = "odd: the file begins with a byte-order mark of"
        self.refused_file("bytes odd", b"\xef\xbb\xbf" + TEXT, f"{mark} UTF-8: save it without it")
        for order in ("utf-16", "utf-16-le", "utf-16-be"):
            data = TEXT.decode().encode(order)
            sentence = (f"{mark} UTF-16: save it as UTF-8" if order == "utf-16" else
                        "odd: every other byte is 0, as in UTF-16: save it as UTF-8")
            for words in ("bytes odd", "play odd lines", "play text odd"):
                self.refused_file(words, data, sentence)

    def test_no_utf_8(self):
        wish = "is no UTF-8: save the file as UTF-8"
        self.refused_file("bytes odd", b"# caf\xe9\n", f"odd:1: byte 6 of this line, 0xe9, {wish}")
        self.refused_file("bytes odd", TEXT + b"# x\xff\n", f"odd:3: byte 4 of this line, 0xff, {wish}")
        self.refused_file("play text odd", LINES + b"\x80\n", f"odd:3: byte 1 of this line, 0x80, {wish}")

    def test_line_ends_of_another_system(self):
        wish = "as on another system: save the file with line feeds alone"
        for end, name in (("\r\n", "CR and LF"), ("\r", "CR"), ("\u2028", "U+2028"), ("\x0c", "U+000C")):
            self.refused_file("bytes odd", TEXT.replace(b"\n", end.encode()),
                              f"odd:1: this line ends with {name}, {wish}")
        self.refused_file("bytes odd", TEXT + b"tick 5 -> 3\r\n", f"odd:3: this line ends with CR and LF, {wish}")
        self.refused_file("play text odd", b"0\r\n0 ask\r\n", f"odd:1: this line ends with CR and LF, {wish}")

    def test_one_kind_of_file_for_another(self):
        text = "a text is meant"
        records = "records are meant"
        lines = "lines that a program printed are meant"
        for command in ("bytes {}", "lines {}", "fill {} lines", "check {} records lines"):
            self.refused(command.format("records").split(),
                         f"records: these are records, and {text}: 'tools/scenes text' puts them in words")
            self.refused(command.format("lines").split(),
                         f"lines: these are lines that a program prints, and {text}")
        for command in ("text {}", "check text {} lines"):
            self.refused(command.format("text").split(), f"text: this is a text, and {records}: "
                         "'tools/scenes bytes' writes those of a text")
            self.refused(command.format("lines").split(),
                         f"lines: these are lines that a program prints, and {records}")
        for command in ("play text {}", "fill text {}", "text records {}", "check text records {}"):
            self.refused(command.format("text").split(), f"text: this is a text, and {lines}: "
                         "'tools/scenes lines' writes those that a text must get")
            self.refused(command.format("records").split(), f"records: these are records, and {lines}")
        self.refused(["play", "lines", "text"], f"lines: these are lines that a program prints, and {text}")

    def test_neither(self):
        self.refused_file("kind odd", b"caf\xe9\n",
                          "odd:1: byte 4 of this line, 0xe9, is no UTF-8: save the file as UTF-8")
        self.refused_file("text odd", b"hello\n",
                          "odd: this is a text, and records are meant: 'tools/scenes bytes' writes those of a text")
        self.refused_file("bytes odd", b"hello\n", "odd:1: 'hello' is no record: there are make, tick, connect, "
                          "confirm, disconnect, data, message, record, define, use and done")

    def test_lines_of_a_wrong_program_are_no_slip(self):
        """What it printed is shown, however odd it is."""
        pathlib.Path("odd").write_bytes(b"hello\n0 asks\n")
        self.assertEqual(run(["check", "text", "records", "odd"]),
                         (1, "text:1: record 1: the text answers '0', the stored output has 'hello'\n", ""))
        status, told, _ = run(["play", "--why", "text", "odd"])
        self.assertEqual((status, told.count("DIFFERS")), (1, 2))

    def test_lines_that_are_cut_or_too_many(self):
        cut = "odd: the last line has no end, so a part of it may be missing"
        self.refused_file("play text odd", b"0\n0 as", cut)
        self.refused_file("check text records odd", b"0\n0 ask", cut)
        self.refused_file("fill text odd", b"0\n", "1 lines were printed for 2 records")
        self.refused_file("text records odd", b"0\n0\n0\n", "3 lines were printed for 2 records")
        self.refused_file("text records odd", b"0\n0 asks\n",
                          "printed line 2: '0 asks' is no answer: 'asks' is not understood in it")


class WrongCommands(Folder):
    def test_commands_and_options(self):
        known = "there are bytes, lines, check, text, fill, play, picture and kind"
        for words, sentence in (
            ([], "which command? There are bytes, lines, check, text, fill, play, picture, kind"),
            (["plya", "text", "lines"], "'plya' is no command: did you mean play?"),
            (["Play", "text", "lines"], "'Play' is no command: words are in small letters, so write play"),
            (["sing"], f"'sing' is no command: {known}"),
            (["--why", "play"], f"'--why' is no command: {known}"),
            (["play", "--wyh", "text", "lines"], "play has no option '--wyh': did you mean --why?"),
            (["play", "--Why", "text", "lines"],
             "play has no option '--Why': words are in small letters, so write --why"),
            (["play", "-x", "text", "lines"], "play has no option '-x': there are --draft, --why"),
            (["lines", "--draft", "text"], "lines has no option '--draft': it takes none"),
            (["bytes"], "bytes takes one file, TEXT, and 0 are given"),
            (["play", "text"], "play takes two files, SCRIPT LINES, and 1 is given"),
            (["text", "a", "b", "c"], "text takes two files, RECORDS [LINES], and 3 are given"),
            (["check", "text", "records"], "check takes three files, TEXT RECORDS LINES, and 2 are given"),
            (["play", "-", "-"], "play: standard input can be read only once, and - stands for it twice"),
        ):
            self.refused(words, sentence)


class AnyFile(Folder):
    """Whatever a file holds, the commands come to a result or a sentence."""

    COMMANDS = ("bytes odd", "bytes --draft odd", "lines odd", "text odd", "text odd lines", "fill odd lines",
                "play --why --draft odd lines", "picture odd lines", "kind odd", "check odd records lines",
                "check text odd lines", "check text records odd", "play --why text odd", "picture --svg text odd",
                "text records odd", "fill text odd")

    def damaged(self, dice):
        """A good file with a few bytes changed, put in, or taken out."""
        data = bytearray(dice.choice((TEXT, RECORDS, LINES, TEXT + b"define a\nuse b\ndone\n", b"")))
        for _ in range(dice.randrange(1, 6)):
            at = dice.randrange(len(data) + 1)
            more = dice.choice((b"", dice.randbytes(1), dice.randbytes(3), b"\n", b" ", b"->", b"#", b"\xc3\xa9", b"9" * 50))
            data[at:at + dice.randrange(3)] = more
        return bytes(data)

    def test_damaged_files(self):
        dice = random.Random(7)
        met = set()
        for _ in range(400):
            pathlib.Path("odd").write_bytes(self.damaged(dice))
            words = dice.choice(self.COMMANDS)
            status, result, trouble = run(words.split())
            self.assertIn(status, (0, 1, 2))
            self.assertEqual(status == 2, bool(trouble))
            self.assertFalse(status == 2 and result)
            self.assertLessEqual(trouble.count("\n"), 1, trouble)
            self.assertLess(len(trouble), 500)
            met.add((words, status))
        self.assertEqual({status for _, status in met}, {0, 1, 2})


class Processes(Folder):
    """What only a process of its own can show: where things are written, and how long it takes."""

    def scenes(self, *words, **options):
        command = [sys.executable, str(support.SCENES), *words]
        return subprocess.run(command, stderr=subprocess.PIPE, check=False, **options)

    def said(self, done, sentence):
        self.assertEqual((done.returncode, done.stderr), (2, sentence.encode() + b"\n"))

    def test_a_full_disk(self):
        if not os.path.exists("/dev/full"):
            self.skipTest("there is no /dev/full here, so a full disk was not tried")
        for words in (["lines", "text"], ["bytes", "text"], ["play", "text", "lines"], ["--help"],
                      ["check", "text", "records", "lines"]):
            with open("/dev/full", "wb") as full:
                self.said(self.scenes(*words, stdout=full),
                          "standard output can't be written: No space left on device")

    def test_nothing_half_written(self):
        """A file that can't take all of the output is left as it was."""
        room = 100
        for before in (b"", b"what was there\n"):
            pathlib.Path("out").write_bytes(before)
            with open("out", "ab") as out:
                done = self.scenes("play", "text", "lines", stdout=out, preexec_fn=lambda: resource.setrlimit(
                    resource.RLIMIT_FSIZE, (room, room)))
            self.said(done, "standard output can't be written: File too large")
            self.assertEqual(pathlib.Path("out").read_bytes(), before)

    def test_closed_streams(self):
        self.said(self.scenes("lines", "text", preexec_fn=lambda: os.close(1)), "standard output is closed")
        self.said(self.scenes("lines", "-", stdout=subprocess.PIPE, preexec_fn=lambda: os.close(0)),
                  "standard input is closed")
        silent = subprocess.run([sys.executable, str(support.SCENES), "lines", "none"], stdout=subprocess.PIPE,
                                preexec_fn=lambda: os.close(2), check=False)
        self.assertEqual((silent.returncode, silent.stdout), (2, b""))

    def test_a_refused_text_leaves_no_output(self):
        pathlib.Path("odd").write_bytes(TEXT + b"tock 5 -> 3\n")
        done = self.scenes("lines", "odd", stdout=subprocess.PIPE)
        self.said(done, "odd:3: 'tock' is no record: did you mean tick?")
        self.assertEqual(done.stdout, b"")

    def test_very_long_lines(self):
        """Measured is the time of a processor. Each of these took a quadratic reader minutes."""
        pairs = DIGITS // 2
        for data in (
            b"tick " + b"9" * DIGITS, b"data 5 " + b"ab" * pairs, b"data 5 " + b"ab " * pairs,
            b"tick 5 -> 0" + b" up" * (pairs // 2) + b" down0",
        ):
            pathlib.Path("odd").write_bytes(data + b"\n")
            began = _seconds_of_children()
            done = self.scenes("bytes", "odd", stdout=subprocess.PIPE)
            with self.subTest(begins=data[:20]):
                self.assertEqual((done.returncode, done.stdout), (2, b""))
                self.assertEqual(done.stderr.count(b"\n"), 1)
                self.assertLess(len(done.stderr), 400)
                self.assertLess(_seconds_of_children() - began, SECONDS)


def _seconds_of_children():
    used = resource.getrusage(resource.RUSAGE_CHILDREN)
    return used.ru_utime + used.ru_stime


if __name__ == "__main__":
    unittest.main()
