"""The reasons: their figures held against every stored answer, and their words."""

import collections
import functools
import itertools
import random
import subprocess
import unittest

import support
from notation import answers
from notation.figures import HALF, Figures
from notation.follow import moments
from notation.messages import message_fault
from notation.play import played
from notation.records import split_records
from notation.script import Script
from notation.why import why


OUTSIDE = support.TOP / "tests/outside/target/release/outside"


def followed(script):
    """The moments of a script with the answers that its text has."""
    lines = [None if step.entry.line == answers.NOTHING else step.entry.line for step in script.steps]
    return list(moments([step.entry.record for step in script.steps], lines))


@functools.lru_cache(maxsize=None)
def scenes():
    """Every text of scenes/ with its moments."""
    paths = sorted((support.TOP / "scenes").glob("*.txt"))
    scripts = [Script(path.read_text(encoding="utf-8"), path.name) for path in paths]
    return [(script, followed(script)) for script in scripts]


def stored():
    """Every record of every scene: where it stands, and its moment."""
    for script, told in scenes():
        for step, moment in zip(script.steps, told):
            yield f"{step.place(script.name)}: {step.entry.words} -> {step.entry.answer}", moment


def objections(moment):
    """What in the figures speaks against the answer: nothing where the reasons fit it."""
    if moment.event is None or moment.answer is None:
        return []
    figures = why(moment).figures
    if moment.event.name == "make":
        return _of_make(moment.answer.number, figures)
    if moment.before is None:
        return [] if moment.answer.number == answers.NO_RULE else ["there is no end"]
    return _of_time(moment) + CHECKS[moment.answer.number](moment, figures)


def held(*claims):
    """The claims that do not hold; each is a truth value and its words."""
    return [words for true, words in claims if not true]


def _of_make(number, figures):
    outside = [at for at in range(8) if f"value{at}" in figures]
    wrong = [at for at in outside
             if figures[f"least{at}"] <= figures[f"value{at}"] <= figures[f"most{at}"]]
    return held((bool(outside) == (number == answers.OUT_OF_RANGE), "a setting outside its range"),
                (not wrong, "what is called outside is outside"))


def _of_time(moment):
    """The clock went back with answer 2 alone; an end is overdue with 12, or with an indication."""
    number, case = moment.answer.number, Figures(moment)
    back = 0 < case.ticks_back() <= HALF
    if number == answers.CLOCK_BACK:
        return held((back, "the reading lies back"))
    silent, waited = case.silent(), case.waited()
    overdue = (silent is not None and silent >= case.settings["silence"]
               or waited is not None and waited >= case.settings["wait"])
    indication = moment.event.name in ("connect", "disconnect")
    return held((not back, "the reading does not lie back"),
                (indication or overdue == (number == answers.OVERDUE), "overdue"))


def _sent_name(moment):
    sent = moment.answer.bytes_of("send")
    return None if sent is None else {2: "life-sign", 3: "train"}.get(sent[15:16] and sent[15], "start")


def _tick(moment, figures):
    before, sent = moment.before, _sent_name(moment)
    if before.state == "Up":
        quiet, interval = Figures(moment).quiet(), before.settings["life-sign"]
        return held((bool(before.waiting) == (sent == "train"), "the queue goes first"),
                    (bool(before.waiting) or (quiet >= interval) == (sent == "life-sign"), "life sign"),
                    (sent or figures["silent"] < figures["silence"], "silence"))
    if before.state == "Idle" and before.role == "initiator":
        at_once = before.asked is None or before.been_up
        due = at_once or figures["ago"] >= figures["retry"]
        return held((due == moment.answer.has("ask"), "asking is due"))
    return held((not moment.answer.outputs, "nothing to put out"))


def _data(moment, figures):
    if moment.answer.has("send"):
        return held((not moment.before.sent_since_tick, "nothing has gone since the last tick"))
    return held((moment.before.sent_since_tick, "one has gone since the last tick"),
                (1 <= figures["waiting"] <= figures["places"] == 8, "a place was free"))


def _message(moment, figures):
    state = moment.before.state
    if state == "Up":
        return held((figures["jump"] == 1, "expected"), (figures["age"] <= figures["oldest"], "fresh"))
    if state in ("Opening", "Answering"):
        return held((figures["echo"] == figures["opened"], "echo"),
                    (figures["spread"] <= figures["limit"], "spread"))
    if state == "Settling":
        return held((figures["minimum"] == figures["needed"], "minimum"))
    return held((state in ("Greeted", "Closing"), "a state that awaits a message"))


def _handled(moment, figures):
    name = moment.event.name
    if name in ("tick", "data", "message"):
        return {"tick": _tick, "data": _data, "message": _message}[name](moment, figures)
    state = {"connect": moment.before.state, "confirm": "Calling"}.get(name, moment.before.state)
    return held((figures["state"] == state, "the state"),
                (name != "disconnect" or state != "Idle", "there was a connection"))


def _no_rule(moment, _figures):
    name, end = moment.event.name, moment.before
    return held(({"connect": end.role == "initiator", "disconnect": end.state == "Idle",
                  "confirm": end.state != "Calling", "data": end.state != "Up",
                  "message": end.state in ("Idle", "Calling"), "tick": False}[name], "no rule"))


def _not_awaited(_moment, figures):
    if figures["state"] == "Up":
        return held((figures["name"] not in ("train", "life-sign"), "another kind"))
    same = (figures["name"], figures["number"]) == (figures["awaited"], figures["next"])
    return held((not same, "another kind or number"))


def _start_wrong(moment, figures):
    if moment.before.state == "Settling":
        return held((figures["minimum"] != figures["needed"], "minimum"))
    return held((figures["echo"] != figures["opened"] or figures["spread"] > figures["limit"],
                 "echo or spread"))


def _is_up(moment):
    return moment.before.state == "Up", "only an end that is Up judges numbers and ages"


def _at_the_limit(moment, figures):
    """An end goes down at E failures, and not before."""
    return held((1 <= figures["failures"] <= figures["errors"], "failures up to E"),
                (moment.answer.has("down") == (figures["failures"] == figures["errors"]), "down at E"))


def _old(moment, figures):
    return _at_the_limit(moment, figures) + held(
        _is_up(moment), (figures["jump"] == 0 or figures["jump"] >= 32_768, "old"),
        ((figures["jump"] + figures["behind"]) % 65_536 == 0, "as far behind as it jumps"))


def _lost(moment, figures):
    return held(_is_up(moment), (figures["jumps"] < figures["jump"] < 32_768, "lost"))


def _late(moment, figures):
    jump = Figures(moment).jump()
    return _at_the_limit(moment, figures) + held(
        _is_up(moment), (figures["age"] > figures["oldest"], "late"),
        (1 <= jump <= moment.before.settings["jump"], "a number that would do"))


def _gap(moment, figures):
    return held(_is_up(moment), (2 <= figures["jump"] <= figures["jumps"], "gap"),
                (figures["age"] <= figures["oldest"], "fresh"))


def _overdue(moment, figures):
    if moment.before.state == "Up":
        return held((figures["silent"] >= figures["silence"], "silent for R"))
    return held((figures["waited"] >= figures["wait"], "waited for T"))


CHECKS = {
    answers.HANDLED: _handled,
    answers.OUT_OF_RANGE: lambda moment, figures: ["an event gets no 1"],
    answers.CLOCK_BACK: lambda moment, figures: held((0 < figures["back"] <= HALF, "back")),
    answers.NO_RULE: _no_rule,
    answers.DATA_LENGTH: lambda moment, figures: held((not 1 <= figures["length"] <= 100, "length")),
    answers.QUEUE_FULL: lambda moment, figures: held((figures["waiting"] == 8, "eight wait"),
                                                     (moment.before.sent_since_tick, "must queue")),
    answers.MALFORMED: lambda moment, figures: held((message_fault(moment.event.data), "a fault")),
    answers.NOT_AWAITED: _not_awaited,
    answers.START_WRONG: _start_wrong,
    answers.OLD: _old,
    answers.LOST: _lost,
    answers.LATE: _late,
    answers.OVERDUE: _overdue,
    answers.GAP: _gap,
}


class EveryStoredAnswer(unittest.TestCase):
    """All records of all scenes: what decided each answer fits the answer."""

    def test_the_figures_fit_the_answers(self):
        met = collections.Counter()
        for where, moment in stored():
            self.assertEqual(objections(moment), [], where)
            met[moment.answer and moment.answer.number] += 1
        self.assertEqual({number for number in range(14) if not met[number]}, set())
        self.assertGreater(sum(met.values()), 1500)

    def test_every_answer_has_words(self):
        for where, moment in stored():
            words = why(moment).text()
            self.assertTrue(words, where)
            self.assertNotRegex(words, r"[{}]|None|: $|; $", where)

    def test_the_offsets_that_an_end_sends_are_those_that_were_worked_out(self):
        seen = 0
        for where, moment in stored():
            sent = moment.answer and moment.answer.bytes_of("send")
            if sent and sent[0] == 4:
                offsets = int.from_bytes(sent[15:19], "big"), int.from_bytes(sent[19:23], "big")
                self.assertEqual((moment.after.minimum, moment.after.maximum), offsets, where)
                seen += 1
        self.assertGreater(seen, 10)


class WrongAnswers(unittest.TestCase):
    """The figures speak against an answer that is wrong: so the test above can fail."""

    STORY = Script((support.TOP / "scenes" / "story.txt").read_text(encoding="utf-8"), "story.txt")

    def test_another_number_for_any_message(self):
        """Whatever else a message of the story would be answered, the figures object or are not there."""
        records = [step.entry.record for step in self.STORY.steps]
        lines = self.STORY.printed()
        wrong = ("7", "9 error", "10 release down", "11 error", "12 release down", "13 data f00d error",
                 "0 data f00d")
        messages = [at for at, record in enumerate(records) if record[0] == 7]
        for at, line in itertools.product(messages, wrong):
            if line.split()[0] == lines[at].split()[0]:
                continue
            moment = list(moments(records[:at + 1], lines[:at] + [line]))[-1]
            with self.subTest(record=at + 1, line=line):
                try:
                    self.assertNotEqual(objections(moment), [])
                except KeyError:
                    pass  # the figures that this answer would need are not there

    def test_a_limit_that_is_one_off(self):
        for text, answer in (("age 50", "age 403"), ("silence 300", "silence 301"), ("jump 4", "jump 1"),
                             ("spread 20", "spread 5"), ("life-sign 100", "life-sign 101")):
            moved = Script("\n".join(
                f"{step.entry.words.replace(text, answer)} -> {step.entry.answer}"
                for step in self.STORY.steps), "moved")
            found = [objection for moment in followed(moved) for objection in objections(moment)]
            self.assertNotEqual(found, [], text)


class Words(unittest.TestCase):
    UP = f"""{support.MAKE} -> 0
tick 100 -> 0 ask
confirm 103 -> 0 send start number 0 sent 103 echo 0 receipt 0
"""
    ANSWERED = UP + """message 109 answ1 number 0 sent 1006 echo 103 receipt 1006
  -> 0 send answ2 number 1 sent 109 echo 1006 receipt 109
"""
    DATA = ANSWERED + """message 115 est number 1 sent 1012 echo 109 receipt 1012 minimum 897 maximum 903
  -> 0 send end number 2 sent 115 echo 1012 receipt 115 up
"""

    def says(self, before, record, words):
        moment = followed(Script(f"{before}{record}\n", "t"))[-1]
        self.assertEqual(why(moment).text(), words, record)

    def test_makes(self):
        self.says("", f"{support.MAKE} -> 0", "every setting is in its range")
        self.says("", f"{support.MAKE.replace('life-sign 100', 'life-sign 400')} -> 1",
                  "life-sign 400 is outside 1 to 299")
        self.says("", f"{support.MAKE.replace('silence 300', 'silence 1').replace('age 50', 'age 0')} -> 1",
                  "age 0 is outside 1 to 100000; silence 1 is outside 2 to 1000000; "
                  "life-sign 100 has no range: from 1 to 0")
        self.says("", "tick 100 -> 3", "no end has been made")

    def test_starting(self):
        stamps = "sent 1006 echo 102 receipt 1006"
        for record, words in (
            ("tick 50 -> 2", "reading 50 is 53 ticks before the last, 103"),
            ("tick 102 -> 2", "reading 102 is 1 tick before the last, 103"),
            ("tick 110 -> 0", "Opening: waiting since 103, 7 ticks ago, limit 500"),
            ("tick 603 -> 12 release", "Opening: waiting since 103, 500 ticks ago, limit 500"),
            ("connect 110 -> 3", "initiator: only a called end takes a call"),
            ("confirm 110 -> 3", "Opening: only Calling awaits a confirm"),
            ("data 110 aa -> 3", "Opening: only an end that is Up takes user data"),
            ("disconnect 110 -> 0", "disconnected while Opening"),
            (f"message 109 train number 0 {stamps} data aa -> 7",
             "Opening awaits answ1 number 0; this is train number 0"),
            (f"message 109 answ1 number 0 {stamps} -> 8 release",
             "echo 102, should be 103; minimum -903, maximum -897: spread 6, limit 20"),
            ("message 109 bytes 02 00*13 -> 6", "answ1 has 15 bytes, and this has 14"),
            ("message 109 bytes 07 00*14 -> 6", "kind 7 is unknown"),
            ("message 109 bytes empty -> 6", "it has no bytes"),
            ("message 109 bytes 06 00*14 -> 6", "kind 6 has at least 16 bytes, and this has 15"),
            ("message 109 bytes 06 00*14 02 02 -> 6", "life-sign has 16 bytes, and this has 17"),
            ("message 109 bytes 06 00*14 03 -> 6", "train data are 1 to 100 bytes, and these are 0"),
            ("message 109 bytes 06 00*14 04 -> 6", "the payload begins with 4, which is neither 2 nor 3"),
            ("record 09 -> bad record", "kind 9 is unknown"),
        ):
            self.says(self.UP, record, words)
        self.says(self.ANSWERED, "message 115 est number 1 sent 1 echo 1 receipt 1 minimum 896 maximum 0 "
                  "-> 8 release", "minimum 896 should be 897, 0 less the own maximum -897")

    def test_data_while_up(self):
        stamps = "sent 1030 echo 0 receipt 0 data aa"
        for record, words in (
            (f"message 134 train number 2 {stamps} -> 0 data aa",
             "number 2 after 1; age 7 ticks, limit 50"),
            (f"message 134 train number 4 {stamps} -> 13 data aa error",
             "gap: number 4 after 1, a jump of 3, limit 4; age 7 ticks, limit 50"),
            (f"message 134 train number 6 {stamps} -> 10 release down",
             "lost: number 6 after 1, a jump of 5, limit 4"),
            (f"message 134 train number 1 {stamps} -> 9 error",
             "old: number 1 after 1, the same again; failure 1 of 2"),
            (f"message 134 train number 65,535 {stamps} -> 9 error",
             "old: number 65535 after 1, 2 behind; failure 1 of 2"),
            (f"message 178 train number 2 {stamps} -> 11 error",
             "late: age 51 ticks, limit 50; failure 1 of 2"),
            (f"message 126 train number 2 {stamps} -> 11 error",
             "late: age 2^32-1 ticks (its stamp is 1 ahead), limit 50; failure 1 of 2"),
            ("tick 415 -> 12 release down", "last heard at 115, 300 ticks ago, limit 300"),
            ("tick 200 -> 0", "nothing sent since Up at 115, 85 ticks ago, interval 100; "
                              "last heard at 115, 85 ticks ago, limit 300"),
            ("tick 215 -> 0 send life-sign number 3 sent 215 echo 1012 receipt 115",
             "nothing sent since Up at 115, 100 ticks ago, interval 100"),
            ("data 120 empty -> 4", "user data are 1 to 100 bytes, and these are 0"),
            ("data 120 aa -> 0 send train number 3 sent 120 echo 1012 receipt 115 data aa",
             "nothing has gone since the last tick, or since Up"),
            ("disconnect 120 -> 0 down", "disconnected while Up"),
        ):
            self.says(self.DATA, record, words)

    def test_the_queue(self):
        first = "data 120 aa -> 0 send train number 3 sent 120 echo 1012 receipt 115 data aa\n"
        self.says(self.DATA + first, "data 120 bb -> 0", "one has gone since the last tick; now 1 of 8 wait")
        full = first + "data 120 bb -> 0\n" * 8
        self.says(self.DATA + full, "data 121 cc -> 5", "8 of 8 wait already")
        self.says(self.DATA + full, "tick 130 -> 0 send train number 4 sent 130 echo 1012 receipt 115 data bb",
                  "8 waited, and the oldest goes")

    def test_after_the_end(self):
        self.says("record 09 -> bad record\n", "tick 5 -> nothing", "the program has ended")

    def test_beside_the_answers(self):
        script = Script(self.UP + "tick 603 -> 12 release\n", "t")
        text, differ = played(script, script.printed(), reasons=True)
        self.assertEqual(differ, 0)
        self.assertIn("  tick 100                      -> 0 ask                a fresh initiator asks at once\n"
                      "  confirm 103                   -> 0 send start number 0 sent 103 echo 0 receipt 0\n"
                      f"{'':56}Calling: waiting since 100, 3 ticks ago, limit 500\n", text)
        self.assertIn("  tick 603                      -> 12 release           "
                      "Opening: waiting since 103, 500 ticks ago,", text)


@unittest.skipUnless(OUTSIDE.exists(), "tests/outside is not built, so no random lives were followed")
class RandomLives(unittest.TestCase):
    """The lives of the comparison, with the lines of the implementation in Rust."""

    def test_the_figures_fit_the_answers(self):
        followed_records = 0
        for seed in range(1, 7):
            script = subprocess.run([OUTSIDE, "generate", "--seed", str(seed)], capture_output=True, check=True).stdout
            done = subprocess.run([OUTSIDE, "lines"], input=script, capture_output=True, check=True)
            records, lines = split_records(script), done.stdout.decode().splitlines()
            for at, moment in enumerate(moments(records, lines + [None] * (len(records) - len(lines))), 1):
                self.assertEqual(objections(moment), [], f"seed {seed}, record {at}: {moment.line}")
                self.assertTrue(why(moment).text(), f"seed {seed}, record {at}: {moment.line}")
                followed_records += 1
        self.assertGreater(followed_records, 3000)


class AnyProgram(unittest.TestCase):
    """Whatever a program prints, the reasons come to an end and say something sober."""

    def test_random_records_and_lines(self):
        for seed in range(200):
            dice = random.Random(seed)
            records = support.records(seed)
            lines = [dice.choice((support.line(dice), support.line(dice), "oops", "bad record", None))
                     for _ in records]
            for moment in moments(records, lines):
                self.assertNotRegex(why(moment).text(), r"[{}]|None")

    def test_any_bytes(self):
        dice = random.Random(5)
        for _ in range(200):
            records = split_records(dice.randbytes(400))
            for moment in moments(records, ["bad record"] * len(records)):
                why(moment).text()

    def test_a_late_message_that_is_delivered_shows_by_its_figures(self):
        script = Script(Words.DATA + "message 178 train number 2 sent 1030 echo 0 receipt 0 data aa "
                        "-> 0 data aa\n", "t")
        moment = followed(script)[-1]
        self.assertEqual(why(moment).text(), "number 2 after 1; age 51 ticks, limit 50")
        self.assertEqual(objections(moment), ["fresh"])


if __name__ == "__main__":
    unittest.main()
