"""Texts: how they are read, what is wrong with them, and how they are held against stored files."""

import random
import unittest

import support
from notation.compare import filled, first_difference, text_of
from notation.play import played
from notation.fields import Trouble
from notation.script import Script

EXAMPLE = f"""# A call.
{support.MAKE} -> 0
tick 100 -> 0 ask   # at once
confirm 103
    -> 0 send start number 0 sent 103 echo 0 receipt 0

# Nobody answers.
tick 603 -> 12 release
"""
LINES = ["0", "0 ask", "0 send 010000000000670000000000000000", "12 release"]


def printed(lines):
    return "".join(line + "\n" for line in lines)


class Texts(unittest.TestCase):
    def test_the_example(self):
        script = Script(EXAMPLE, "t")
        self.assertEqual(script.printed(), LINES)
        self.assertEqual(len(script.stdin()), 33 + 3 * 5)
        self.assertEqual([step.entry.number for step in script.steps], [2, 3, 4, 8])

    def test_an_empty_text(self):
        for text in ("", "\n\n", "# nothing here\n"):
            script = Script(text, "t")
            self.assertEqual((script.stdin(), script.printed()), (b"", []))

    def test_blocks(self):
        script = Script("define a\n tick 1 -> 3\ndone\ndefine b\n use a\n tick 2 -> 3\ndone\n"
                        "use b\nuse a\ntick 3 -> 3\n", "t")
        self.assertEqual(script.stdin().hex(), "0200000001" "0200000002" "0200000001" "0200000003")
        self.assertEqual([step.place("t") for step in script.steps],
                         ["t:2 (used at line 8)", "t:6 (used at line 8)", "t:2 (used at line 9)", "t:10"])

    def test_a_draft_may_lack_answers(self):
        self.assertEqual(Script("tick 1\n", "t", draft=True).stdin().hex(), "0200000001")

    def test_after_a_bad_record(self):
        script = Script("tick 1 -> 3\nrecord 08 -> bad record\ntick 2 -> nothing\n", "t")
        self.assertEqual(script.printed(), ["3", "bad record"])


class Troubles(unittest.TestCase):
    """Each error names the file, the line and what is wrong. Those of single lines are in test_slips."""

    def refused(self, text, message):
        with self.assertRaises(Trouble, msg=text) as caught:
            Script(text, "t")
        self.assertEqual(str(caught.exception), message)

    def test_missing_and_lone_answers(self):
        self.refused("tick 5 -> 3\ntick 6\n",
                     "t:2: this record has no answer: '->' and the line it must get are missing")
        self.refused("-> 0\n", "t:1: this answer has no record on the line above")
        self.refused("tick 5\n\n-> 0\n", "t:3: this answer has no record on the line above")
        self.refused("tick 5 -> 3\n-> 3\n", "t:2: this record has two answers")

    def test_blocks(self):
        names = ("write 'define NAME', 'use NAME' or 'done'; "
                 "a name is one word of small letters, digits and hyphens")
        self.refused("use a\n", "t:1: no block 'a' is defined above")
        self.refused("define a\nuse a\ndone\n", "t:2: no block 'a' is defined above")
        self.refused("define a\ndefine b\n", "t:2: a 'define' inside the block 'a'")
        self.refused("define a\ndone\ndefine a\n", "t:3: the block 'a' is defined already")
        self.refused("# x\ndefine a\ntick 5 -> 3\n", "t:2: 'a' has no 'done'")
        self.refused("done\n", "t:1: 'done' without a 'define'")
        for line in ("define", "use", "define a b", "define A", "done a", "use a -> 0"):
            self.refused(f"{line}\n", f"t:1: {names}")

    def test_what_follows_a_bad_record(self):
        self.refused("record 08 -> bad record\ntick 5 -> 3\n",
                     "t:2: after a 'bad record' above, a record must get 'nothing'")
        self.refused("tick 5 -> nothing\n",
                     "t:1: without a 'bad record' above, a record can't get 'nothing'")

    def test_where_records_end(self):
        self.refused("record empty -> bad record\n", "t:1: a record has at least one byte")
        self.refused("record 02 00*5 -> 0\n", "t:1: a record of kind 2 has 5 bytes, not 6")
        self.refused("record 02 00 -> bad record\ntick 5 -> nothing\n",
                     "t:1: this record is cut (2 bytes of 5), so it must be the last")


class RoundTrips(unittest.TestCase):
    def test_bytes_to_text_to_bytes(self):
        for seed in range(200):
            stdin = b"".join(support.records(seed))
            self.assertEqual(Script(text_of(stdin), "t", draft=True).stdin(), stdin)

    def test_with_lines(self):
        for seed in range(200):
            dice = random.Random(seed)
            records = support.records(seed)
            lines = [support.line(dice) for _ in records]
            script = Script(text_of(b"".join(records), lines), "t")
            self.assertEqual(script.stdin(), b"".join(records))
            self.assertEqual(script.printed(), lines)

    def test_any_bytes_at_all(self):
        for seed in range(200):
            dice = random.Random(seed)
            stdin = b"".join(support.records(seed)) + dice.randbytes(dice.randrange(200))
            self.assertEqual(Script(text_of(stdin), "t", draft=True).stdin(), stdin)

    def test_a_text_is_a_fixed_point(self):
        for seed in range(100):
            stdin = b"".join(support.records(seed))
            text = text_of(stdin)
            self.assertEqual(text_of(Script(text, "t", draft=True).stdin()), text)

    def test_lines_and_records_must_match_in_number(self):
        stdin = Script(EXAMPLE, "t").stdin()
        for lines in (LINES[:-1], LINES + ["0"]):
            with self.assertRaises(Trouble) as caught:
                text_of(stdin, lines)
            self.assertEqual(str(caught.exception), f"{len(lines)} lines were printed for 4 records")
        ended = text_of(stdin, LINES[:2] + ["bad record"])
        self.assertIn("tick 603                        -> nothing", ended)

    def test_a_line_that_is_no_answer(self):
        with self.assertRaises(Trouble) as caught:
            text_of(Script(EXAMPLE, "t").stdin(), LINES[:-1] + ["oops"])
        self.assertEqual(str(caught.exception), "printed line 4: 'oops' is no answer")


class Filling(unittest.TestCase):
    def test_answers_are_replaced_and_all_else_stays(self):
        draft = EXAMPLE.replace("0 ask ", "3 ").replace("-> 12 release", "")
        text = filled(Script(draft, "t", draft=True), LINES)
        self.assertEqual(Script(text, "t").printed(), LINES)
        for kept in ("# A call.\n", "# at once\n", "\n\n# Nobody answers.\n"):
            self.assertIn(kept, text)

    def test_filled_text_stays_as_it_is(self):
        text = filled(Script(EXAMPLE, "t"), LINES)
        self.assertEqual(filled(Script(text, "t"), LINES), text)

    def test_the_wording_of_an_answer_that_is_right_stays(self):
        text = filled(Script("data 1 aa -> 0 data aa aa\n", "t"), ["0 data aaaa"])
        self.assertIn("-> 0 data aa aa", text)

    def test_a_block_gets_one_answer(self):
        script = Script("define a\n tick 1\ndone\nuse a\nuse a\n", "t", draft=True)
        self.assertIn("tick 1                         -> 3", filled(script, ["3", "3"]))
        with self.assertRaises(Trouble) as caught:
            filled(script, ["3", "2"])
        self.assertEqual(str(caught.exception),
                         "t:2 (used at line 5): this record gets '3' in one place and '2' in another, "
                         "so it can't stand in a block")


class Checking(unittest.TestCase):
    def setUp(self):
        self.script = Script(EXAMPLE, "t")
        self.stdin = self.script.stdin()

    def differs(self, stdin, stdout, message):
        self.assertEqual(first_difference(self.script, stdin, stdout), message)

    def test_no_difference(self):
        self.differs(self.stdin, printed(LINES), None)

    def test_another_record(self):
        other = self.stdin[:-1] + b"\x5c"
        self.differs(other, printed(LINES),
                     "t:8: record 4: the text has 'tick 603', the stored input has 'tick 604'")

    def test_input_too_short(self):
        self.differs(self.stdin[:-5], printed(LINES),
                     "t:8: record 4: the text has 'tick 603', the stored input ends before it")
        self.differs(self.stdin[:-1], printed(LINES),
                     "t:8: record 4: the text has 'tick 603', the stored input has 'record 02000002'")

    def test_input_too_long(self):
        self.differs(self.stdin + self.stdin[-5:], printed(LINES),
                     "t: the stored input goes on after the last record: 'tick 603'")

    def test_another_answer(self):
        self.differs(self.stdin, printed(["0", "0 send 0102"] + LINES[2:]),
                     "t:3: record 2: the text answers '0 ask', the stored output has '0 send bytes 0102'")
        self.differs(self.stdin, printed(LINES[:3] + ["12 RELEASE"]),
                     "t:8: record 4: the text answers '12 release', the stored output has '12 RELEASE'")

    def test_output_too_short(self):
        ends = "t:8: record 4: the text answers '12 release', the stored output ends before it"
        self.differs(self.stdin, printed(LINES[:-1]), ends)
        self.differs(self.stdin, printed(LINES)[:-1], ends)
        self.differs(self.stdin, "", "t:2: record 1: the text answers '0', the stored output ends before it")

    def test_output_too_long(self):
        self.differs(self.stdin, printed(LINES + ["0"]),
                     "t: the stored output goes on after the last answer: '0'")
        self.differs(self.stdin, printed(LINES) + "\n",
                     "t: the stored output goes on after the last answer: ''")

    def test_the_first_record_that_differs_is_named(self):
        other = self.stdin[:-1] + b"\x5c"
        self.differs(other, printed(["1"] + LINES[1:]),
                     "t:2: record 1: the text answers '0', the stored output has '1'")

    def test_a_line_after_a_bad_record(self):
        script = Script("record 08 -> bad record\ntick 5 -> nothing\n", "t")
        self.assertIsNone(first_difference(script, script.stdin(), "bad record\n"))
        self.assertEqual(first_difference(script, script.stdin(), "bad record\n3\n"),
                         "t: the stored output goes on after the last answer: '3'")


class Playing(unittest.TestCase):
    def test_comments_records_and_meanings(self):
        text, differ = played(Script(EXAMPLE, "t"), LINES)
        self.assertEqual(differ, 0)
        self.assertEqual(text.split("\n")[0], "A call.")
        self.assertIn("\n\nNobody answers.\n"
                      "  tick 603                      -> 12 release  (waited too long)\n", text)

    def test_differences_are_marked_and_counted(self):
        text, differ = played(Script(EXAMPLE, "t"), ["0", "3", LINES[2]])
        self.assertEqual(differ, 2)
        self.assertIn("  tick 100                      -> 3  (no rule for this here)\n"
                      "  DIFFERS: the text says 0 ask\n", text)
        self.assertIn("  tick 603                      -> nothing\n"
                      "  DIFFERS: the text says 12 release\n", text)

    def test_lines_without_a_record(self):
        text, differ = played(Script(EXAMPLE, "t"), LINES + ["0 ask"])
        self.assertEqual(differ, 1)
        self.assertIn("DIFFERS: one line more than there are records: 0 ask", text)


if __name__ == "__main__":
    unittest.main()
