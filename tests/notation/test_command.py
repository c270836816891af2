"""The command itself: what it prints where, and its exit status."""

import pathlib
import subprocess
import sys
import tempfile
import unittest

import support
from notation.script import Script

TEXT = f"{support.MAKE} -> 0\ntick 100 -> 0 ask\n"
LINES = b"0\n0 ask\n"


class Commands(unittest.TestCase):
    def setUp(self):
        folder = tempfile.TemporaryDirectory()
        self.addCleanup(folder.cleanup)
        self.folder = pathlib.Path(folder.name)
        self.put("text", TEXT.encode())
        self.put("stdin", Script(TEXT, "text").stdin())
        self.put("stdout", LINES)

    def put(self, name, data):
        (self.folder / name).write_bytes(data)

    def scenes(self, *words, given=b""):
        command = [sys.executable, str(support.SCENES), *words]
        return subprocess.run(command, input=given, capture_output=True, cwd=self.folder, check=False)

    def expect(self, done, status, stdout, stderr=b""):
        self.assertEqual((done.returncode, done.stdout, done.stderr), (status, stdout, stderr))

    def test_bytes_and_lines(self):
        self.assertEqual(len((self.folder / "stdin").read_bytes()), 38)
        self.expect(self.scenes("bytes", "text"), 0, (self.folder / "stdin").read_bytes())
        self.expect(self.scenes("lines", "text"), 0, LINES)

    def test_standard_input(self):
        self.expect(self.scenes("lines", "-", given=TEXT.encode()), 0, LINES)

    def test_text(self):
        laid_out = f"{support.MAKE}\n{'-> 0':>36}\n{'tick 100':32}-> 0 ask\n"
        self.expect(self.scenes("text", "stdin", "stdout"), 0, laid_out.encode())
        self.expect(self.scenes("text", "stdin"), 0, f"{support.MAKE}\ntick 100\n".encode())

    def test_text_without_filler(self):
        self.put("odd", bytes.fromhex("060000000501aa") + bytes(range(99)))
        full = self.scenes("text", "odd").stdout
        self.assertTrue(full.startswith(b"data 5 aa filler 000102"))
        self.expect(self.scenes("bytes", "--draft", "-", given=full), 0, (self.folder / "odd").read_bytes())
        self.expect(self.scenes("text", "--plain", "odd"), 0, b"data 5 aa\n")

    def test_draft(self):
        self.put("draft", TEXT.replace(" -> 0 ask", "").encode())
        refused = b"draft:2: this record has no answer: '->' and the line it must get are missing\n"
        for command in (["bytes", "draft"], ["lines", "draft"], ["check", "draft", "stdin", "stdout"],
                        ["play", "draft", "stdout"]):
            self.expect(self.scenes(*command), 2, b"", refused)
        self.expect(self.scenes("bytes", "--draft", "draft"), 0, (self.folder / "stdin").read_bytes())
        self.assertEqual(self.scenes("play", "--draft", "draft", "stdout").returncode, 0)
        self.assertIn(b"-> 0 ask", self.scenes("fill", "draft", "stdout").stdout)

    def test_check(self):
        self.expect(self.scenes("check", "text", "stdin", "stdout"), 0,
                    b"text: 2 records and their answers are as stored\n")
        self.put("stdout", b"0\n0\n")
        self.expect(self.scenes("check", "text", "stdin", "stdout"), 1,
                    b"text:2: record 2: the text answers '0 ask', the stored output has '0'\n")

    def test_play_fails_on_a_difference(self):
        self.assertEqual(self.scenes("play", "text", "stdout").returncode, 0)
        done = self.scenes("play", "text", "-", given=b"0\n3\n")
        self.assertEqual(done.returncode, 1)
        self.assertIn(b"DIFFERS: the text says 0 ask", done.stdout)

    def test_files_that_cannot_be_read(self):
        self.expect(self.scenes("bytes", "none"), 2, b"", b"none: No such file or directory\n")
        self.expect(self.scenes("fill", "text", "-", given=b"0\n0 ask"), 2, b"",
                    b"-: the last line has no end, so a part of it may be missing\n")

    def test_help(self):
        self.assertIn(b"scenes check TEXT RECORDS LINES", self.scenes("--help").stdout)

    def test_records_can_be_played_too(self):
        done = self.scenes("play", "--why", "stdin", "stdout")
        self.assertEqual(done.returncode, 0)
        self.assertIn(b"tick 100                      -> 0 ask                a fresh initiator asks at once\n",
                      done.stdout)

    def test_kinds(self):
        for name, kind in (("text", b"text\n"), ("stdin", b"records\n"), ("stdout", b"lines\n")):
            self.expect(self.scenes("kind", name), 0, kind)


if __name__ == "__main__":
    unittest.main()
