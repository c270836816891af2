"""The one command: what ./demo plays and refuses, and what it shows while the program is proved and built.

The kit is a made-up one: its rt prints what a test wants, and the program that it has built is a script.
"""

import os
import pathlib
import pty
import re
import shutil
import subprocess
import tempfile
import threading
import unittest

import support
from notation.command import run

CRATES = """# Each line: a crate and the crates it stands on.
judge:
wire: judge
sunday: wire judge io libc
other: judge
"""
RUNNING = "rt: running out/sunday; to give it other input, run that file yourself\n"
UNCHANGED = f"rt: nothing has changed since the last proved build, by out/sunday.stamp, so nothing is checked now\n{RUNNING}"
LAST = "functions=3 sum=5 native=nat\n"
RT = """#!/bin/sh
# Says what the file rt-says has, waits or ends where that says so, and then prints what the file rt-prints has.
# As the real one it runs in the folder of the program's crate.
kit=$(dirname "$(dirname "$0")")
[ "$*" = run ] && [ "${PWD##*/}" = sunday ] && [ -f src/main.rt ] || exit 2
while IFS= read -r line; do
    case $line in
        wait) while [ ! -e "$kit/go" ]; do sleep 0.1; done ;;
        "exit "*) exit "${line#exit }" ;;
        *) echo "$line" >&2 ;;
    esac
done <"$kit/rt-says"
if [ -e "$kit/rt-prints" ]; then cat "$kit/rt-prints"; fi
"""


def proved(name, more=""):
    """What rt says of a crate that it proves; more comes while it is at work."""
    return f"rt: chose --jobs 2 for {name}\n{more}fn {name}::it: proved\ncrate {name}: modules loaded=0 checked=4\nlogic=proved {LAST}"


class Place(unittest.TestCase):
    """A small repository beside a made-up kit."""

    def setUp(self):
        folder = tempfile.TemporaryDirectory()
        self.addCleanup(folder.cleanup)
        self.top, self.kit = pathlib.Path(folder.name) / "the top", pathlib.Path(folder.name) / "kit"
        for name in ("tools", "scenes"):
            shutil.copytree(support.TOP / name, self.top / name)
        shutil.copy(support.TOP / "demo", self.top)
        self.put(self.top / "crates.txt", CRATES)
        self.put(self.top / "crates/sunday/src/main.rt", "")
        self.put(self.kit / "bin/rt", RT)
        self.put(self.kit / "rt-says", UNCHANGED)
        self.lines = run(["lines", str(support.TOP / "scenes" / "story.txt")])[1]
        self.put(self.top / "lines", self.lines)
        self.put(self.top / "crates/sunday/out/sunday", f"#!/bin/sh\nexec cat '{self.top}/lines'\n")

    @staticmethod
    def put(path, text):
        path.parent.mkdir(parents=True, exist_ok=True)
        path.write_text(text, encoding="utf-8")
        path.chmod(0o755)

    def environment(self, **more):
        path = f"{self.kit / 'bin'}{os.pathsep}{os.environ['PATH']}"
        plain = {name: value for name, value in os.environ.items() if name not in ("PLAYER", "JUST_PROVED")}
        return {**plain, "PATH": path, **more}

    def demo(self, *words, **more):
        return subprocess.run(["./demo", *words], cwd=self.top, env=self.environment(**more), capture_output=True,
                              text=True, check=False)


class Plays(Place):
    def test_the_story(self):
        done = self.demo()
        self.assertEqual((done.returncode, done.stderr), (0, ""))
        told = run(["play", "--why", str(self.top / "scenes/story.txt"), str(self.top / "lines")])[1]
        self.assertEqual(done.stdout, told)
        self.assertIn("-> 11 error             late: age 403 ticks, limit 50;", done.stdout)

    def test_a_text_without_answers(self):
        self.put(self.top / "mine", f"{support.MAKE}\ntick 100\n")
        self.put(self.top / "lines", "0\n0 ask\n")
        done = self.demo("mine")
        self.assertEqual((done.returncode, done.stderr), (0, ""))
        self.assertIn("  tick 100                      -> 0 ask                a fresh initiator asks at once\n",
                      done.stdout)

    def test_records(self):
        records = run(["bytes", str(self.top / "scenes/story.txt")])[1]
        (self.top / "night").write_bytes(records)
        done = self.demo("night")
        self.assertEqual((done.returncode, done.stderr), (0, ""))
        self.assertEqual(done.stdout.count("->"), len(self.lines.splitlines()))
        self.assertIn("late: age 403 ticks", done.stdout)

    def test_the_program_reads_the_records(self):
        """What is played is what stands in the file."""
        records = run(["bytes", str(self.top / "scenes/story.txt")])[1]
        (self.top / "night").write_bytes(records)
        for words in ((), ("night",)):
            done = self.demo(*words, PLAYER="cat >read; cat lines")
            self.assertEqual(done.returncode, 0)
            self.assertEqual((self.top / "read").read_bytes(), records, words)
            (self.top / "read").unlink()

    def test_a_difference(self):
        self.put(self.top / "lines", self.lines.replace("11 error", "0 data dead"))
        done = self.demo()
        self.assertEqual(done.returncode, 1)
        self.assertIn("  DIFFERS: the text says 11 error\n", done.stdout)

    def test_a_program_that_prints_nothing(self):
        done = self.demo(PLAYER="false")
        self.assertEqual((done.returncode, done.stdout), (2, ""))
        self.assertIn("the file is empty, and ", done.stderr)


class Refuses(Place):
    def test_help(self):
        done = self.demo("--help")
        self.assertEqual((done.returncode, done.stderr), (0, ""))
        self.assertIn("./demo FILE", done.stdout)

    def test_each_with_a_sentence(self):
        for words, said in (
            (("--why",), "./demo: there is no option '--why', only --help, and a file to be played\n"),
            (("-",), "./demo: there is no option '-', only --help, and a file to be played\n"),
            (("a", "b"), "./demo: one file can be played at a time, and 2 are given\n"),
            (("--help", "x"), "./demo: one file can be played at a time, and 2 are given\n"),
            (("",), "./demo: a file without a name can't be played\n"),
            (("none",), "none: No such file or directory\n"),
            (("scenes",), "scenes: Is a directory\n"),
            (("/dev/null",), "/dev/null: the file is empty\n"),
            (("lines",), "./demo: lines has lines that a program printed, and a script is to be played\n"),
        ):
            done = self.demo(*words)
            self.assertEqual((done.returncode, done.stdout, done.stderr), (2, "", said), words)

    def test_a_slip_in_the_text(self):
        self.put(self.top / "mine", "tock 100\n")
        done = self.demo("mine")
        self.assertEqual((done.returncode, done.stdout, done.stderr),
                         (2, "", "mine:1: 'tock' is no record: did you mean tick?\n"))


class Progress(Place):
    def test_nothing_is_said_where_nothing_is_built(self):
        done = self.demo()
        self.assertEqual((done.returncode, done.stderr), (0, ""))

    def test_each_crate_that_is_proved(self):
        self.put(self.kit / "rt-says", "only=0 proved=0\n" + proved("wire") + proved("sunday") + RUNNING)
        done = self.demo()
        self.assertEqual(done.returncode, 0)
        said = [re.sub(r"\d+ s", "N s", line) for line in done.stderr.splitlines()]
        self.assertEqual(said, [
            "sunday is proved and built first. That takes some minutes; later it starts at once.",
            "  2 of 3: wire proved (N s)", "  3 of 3: sunday proved (N s)", "  sunday built", "  that took N s"])
        self.assertIn("late: age 403 ticks", done.stdout)

    def test_what_it_wrote_is_held_against_its_file(self):
        self.put(self.top / "crates/sunday/stdout", "0\n0 ask\n")
        self.put(self.kit / "rt-prints", "0\n0 ask\n")
        self.assertEqual(self.demo().returncode, 0)
        self.put(self.kit / "rt-prints", "0\n")
        done = self.demo()
        self.assertEqual((done.returncode, done.stdout), (1, ""))
        self.assertIn("it wrote something else than its file stdout has\n", done.stderr)

    def test_what_the_gate_has_built(self):
        self.put(self.kit / "rt-says", "exit 1\n")
        self.assertEqual(self.demo().returncode, 1)
        done = self.demo(JUST_PROVED="yes")
        self.assertEqual((done.returncode, done.stderr), (0, ""))
        (self.top / "crates/sunday/out/sunday").unlink()
        self.assertEqual(self.demo(JUST_PROVED="yes").returncode, 1)

    def test_what_rt_waits_for(self):
        self.put(self.kit / "rt-says", "rt: waiting for another rt to finish in crates/judge\n" + UNCHANGED)
        done = self.demo()
        self.assertEqual(done.returncode, 0)
        self.assertIn("\n  waiting for another rt to finish in crates/judge\n", done.stderr)

    def let_go_at_last(self):
        """Lets rt go on after a while, so that a test that waits for nothing comes to an end."""
        timer = threading.Timer(20, (self.kit / "go").touch)
        timer.start()
        self.addCleanup(timer.cancel)

    def test_it_is_told_as_it_comes(self):
        """A line of rt is told while rt has still to say the next."""
        self.put(self.kit / "rt-says", proved("judge") + "wait\n" + proved("wire") + RUNNING)
        self.let_go_at_last()
        process = subprocess.Popen(["./demo"], cwd=self.top, env=self.environment(), stdout=subprocess.PIPE,
                                   stderr=subprocess.PIPE, text=True)
        with process:
            process.stderr.readline()
            self.assertRegex(process.stderr.readline(), r"^  1 of 3: judge proved \(\d+ s\)\n$")
            self.assertFalse((self.kit / "go").exists())
            (self.kit / "go").touch()
            self.assertRegex(process.stderr.readline(), r"^  2 of 3: wire proved \(\d+ s\)\n$")

    def test_whoever_watches_sees_the_seconds(self):
        self.put(self.kit / "rt-says", proved("wire", more="wait\n") + RUNNING)
        self.let_go_at_last()
        ours, theirs = pty.openpty()
        process = subprocess.Popen(["./demo"], cwd=self.top, env=self.environment(PATIENCE="1"),
                                   stdout=subprocess.DEVNULL, stderr=theirs)
        os.close(theirs)
        shown = ""
        with process, open(ours, "rb", buffering=0) as screen:
            while "crate " not in shown and not (self.kit / "go").exists():
                shown += screen.read(4096).decode()
            (self.kit / "go").touch()
            process.wait()
        self.assertRegex(shown, r"^sunday is proved and built first\.[^\n]*\n\r\x1b\[K  crate 2 of 3, wire, \d+ s")
        self.assertEqual(process.returncode, 0)

    def test_what_is_not_proved(self):
        self.put(self.kit / "rt-says", "rt: chose --jobs 2 for judge\nfn judge::it: not proved\nlogic=not-proved " + LAST
                 + "rt: the library judge did not build, so nothing above it was checked\nexit 1\n")
        done = self.demo()
        self.assertEqual((done.returncode, done.stdout), (1, ""))
        self.assertIn("  judge was not proved\n", done.stderr)
        self.assertIn("rt: the library judge did not build, so nothing above it was checked\n"
                      "tools/program: sunday was not proved and built\n", done.stderr)

    def test_no_kit(self):
        (self.kit / "bin/rt").unlink()
        found = [name for name in os.environ["PATH"].split(os.pathsep) if not os.path.exists(os.path.join(name, "rt"))]
        done = self.demo(PATH=os.pathsep.join(found))
        self.assertEqual((done.returncode, done.stdout), (1, ""))
        self.assertIn("the Rattle kit that README.md names has to be installed", done.stderr)


if __name__ == "__main__":
    unittest.main()
