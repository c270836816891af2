"""The picture: its parts are read back from the file and held against the script."""

import functools
import random
import re
import unittest
import unittest.mock
import xml.etree.ElementTree as xml

import support
from notation.answers import NOTHING, shown
from notation.command import run
from notation.compare import text_of
from notation.drawing import Canvas
from notation.fields import Trouble
from notation.lanes import (
    AGE_LIMIT, AGES, BAND, BAND_HEIGHT, EVENTS, MESSAGES, SENT, SILENCE_LIMIT, SILENCES)
from notation.marks import LEFT, LIMIT, RIGHT, STEP, WIDTH, marks_of, placed, state_of
from notation.page import page
from notation.script import Script
from notation.sheet import sheet
from notation.times import read_anchor, time_of_day, times

SVG = "{http://www.w3.org/2000/svg}"
STATES = {"no end": "none", "Idle": "idle", "starting": "starting", "Up": "up"}


def script_of(name):
    return Script((support.TOP / "scenes" / f"{name}.txt").read_text(encoding="utf-8"), name)


@functools.lru_cache(maxsize=None)
def picture(name):
    """A scene's marks, and its page as a tree."""
    script = script_of(name)
    marks = marks_of(script, script.printed())
    return placed(marks), xml.fromstring(page(name, marks))


def having(tree, name):
    """The elements that have a class, in order."""
    return [part for part in tree.iter() if name in part.get("class", "").split()]


def one(tree, name):
    found = having(tree, name)
    assert len(found) == 1, f"{len(found)} parts have the class {name}"
    return found[0]


def cells(tree):
    return having(one(tree, "cells"), "cell")


def in_cells(tree, name):
    """The elements with a class, each with the number of its cell."""
    return [(at, part) for at, cell in enumerate(cells(tree)) for part in having(cell, name)]


def number(part, name):
    return float(part.get(name))


def middle(mark):
    """Where a mark stands in its cell, whatever its shape is."""
    if mark.tag == "circle":
        return number(mark, "cx"), number(mark, "cy")
    if mark.tag == "rect":
        return (number(mark, "x") + number(mark, "width") / 2, number(mark, "y") + number(mark, "height") / 2)
    points = [tuple(map(float, point.split(","))) for point in mark.get("points").split()]
    xs, ys = zip(*points)
    return (min(xs) + max(xs)) / 2, (min(ys) + max(ys)) / 2


class Records(unittest.TestCase):
    """Every record is drawn once, in its place, with its class and its words."""

    SCENES = ("story", "sunday", "bad-while-up", "bad-first", "bad-role-2-and-age-0")

    def each(self):
        for name in self.SCENES:
            marks, tree = picture(name)
            groups = in_cells(tree, "record")
            self.assertEqual([group.get("id") for _, group in groups],
                             [f"r{at}" for at in range(1, len(marks) + 1)], name)
            for mark, (at, group) in zip(marks, groups):
                yield name, mark, at, group

    def test_in_their_places(self):
        for name, mark, at, group in self.each():
            x, y = middle(one(group, "mark"))
            self.assertAlmostEqual(at * WIDTH + x, mark.x, delta=0.2, msg=f"{name} {mark.number}")
            self.assertTrue(LEFT <= x <= WIDTH - RIGHT, f"{name} {mark.number}: {x}")
            message = mark.moment.event is not None and mark.moment.event.name == "message"
            self.assertAlmostEqual(y, MESSAGES if message else EVENTS, delta=3)

    def test_from_left_to_right(self):
        for name in self.SCENES:
            marks, _ = picture(name)
            for before, mark in zip(marks, marks[1:]):
                self.assertGreaterEqual(mark.x - before.x, STEP, f"{name} {mark.number}")

    def test_classes_and_signs(self):
        for name, mark, _, group in self.each():
            classes, sign = group.get("class").split(), one(group, "sign").text
            line = mark.moment.line
            if line is None:
                self.assertEqual((classes, sign), (["record", "nothing"], "?"))
            elif line == "bad record":
                self.assertEqual((classes, sign), (["record", "bad"], "!"))
            else:
                answer = line.split()[0]
                self.assertEqual((classes, sign), (["record", f"a{answer}"], answer), f"{name} {mark.number}")

    def test_each_answer_has_a_colour_and_not_by_colour_alone(self):
        _, tree = picture("sunday")
        style = next(tree.iter("style")).text
        looks = {}
        for _, group in in_cells(tree, "record"):
            kind = group.get("class").split()[1]
            self.assertIn(f".{kind} .mark", style)
            looks.setdefault(kind, set()).add(one(group, "mark").tag + str(len(having(group, "ring"))))
        self.assertEqual({kind for kind in looks if kind != "bad"}, {f"a{answer}" for answer in range(14)})
        for refused in ("a9", "a11"):
            self.assertNotEqual(looks[refused], looks["a0"])
        self.assertNotEqual(looks["a13"], looks["a0"])

    def test_words(self):
        for name, mark, _, group in self.each():
            words = group.find("title").text.split("\n")
            line = shown(mark.moment.line or NOTHING)
            self.assertEqual(words, [f"record {mark.number}, {mark.time.label}", mark.record, f"-> {line}",
                                     mark.reason], name)
            self.assertTrue(mark.reason, f"{name} {mark.number}")

    def test_the_words_are_those_of_the_text(self):
        script = script_of("story")
        marks, _ = picture("story")
        self.assertEqual([mark.record for mark in marks], [step.entry.words for step in script.steps])

    def test_what_was_sent(self):
        for name, mark, _, group in self.each():
            sent = bool(mark.moment.answer and mark.moment.answer.bytes_of("send"))
            arrows = having(group, "sent")
            self.assertEqual(len(arrows), 1 if sent else 0, f"{name} {mark.number}")
            for arrow in arrows:
                x, y = middle(arrow)
                self.assertAlmostEqual(x, middle(one(group, "mark"))[0], delta=0.1)
                self.assertAlmostEqual(y, SENT, delta=1)


class Ages(unittest.TestCase):
    """Bars against the limit: what was delivered stays below it, what is late goes over it."""

    def test_each_bar(self):
        seen = {0: 0, 11: 0, 13: 0}
        for name in ("story", "sunday"):
            marks, tree = picture(name)
            for mark, (_, group) in zip(marks, in_cells(tree, "record")):
                bars = having(group, "bar")
                if not bars:
                    self.assertIsNone(mark.age())
                    continue
                answer, height = mark.moment.answer.number, number(bars[0], "height")
                seen[answer] += 1
                self.assertAlmostEqual(number(bars[0], "y") + height, AGES, delta=0.1)
                over = height > AGE_LIMIT
                self.assertEqual(over, answer == 11, f"{name} {mark.number}: {height}")
        self.assertTrue(all(seen.values()), seen)

    def test_every_delivered_or_late_message_has_one(self):
        marks, tree = picture("sunday")
        for mark, (_, group) in zip(marks, in_cells(tree, "record")):
            moment = mark.moment
            judged = (moment.event is not None and moment.event.name == "message" and moment.before is not None
                      and moment.before.state == "Up" and moment.answer.number in (0, 11, 13))
            self.assertEqual(bool(having(group, "bar")), judged, mark.number)

    def test_the_figure_and_the_torn_bar(self):
        _, tree = picture("story")
        group = next(group for _, group in in_cells(tree, "record") if group.get("id") == "r23")
        self.assertEqual(one(group, "age-name").text, "4.03")
        self.assertEqual(len(having(group, "torn")), 1)


class Lanes(unittest.TestCase):
    def test_the_band(self):
        """Its pieces cover the time from the first record on, and each has the state that the record leads to."""
        for name in ("story", "sunday", "bad-while-up"):
            marks, tree = picture(name)
            pieces = []
            for at, part in in_cells(tree, "band"):
                left = at * WIDTH + number(part, "x")
                pieces.append((left, left + number(part, "width"), part.get("class").split()[1]))
                self.assertEqual((number(part, "y"), number(part, "height")), (BAND, BAND_HEIGHT))
            self.assertAlmostEqual(pieces[0][0], marks[0].x, delta=0.2)
            for before, piece in zip(pieces, pieces[1:]):
                self.assertAlmostEqual(before[1], piece[0], delta=0.2, msg=name)
            for mark in marks:
                state = next(state for left, right, state in pieces if left <= mark.x + 1 < right)
                self.assertEqual(state, STATES[state_of(mark.end())], f"{name} {mark.number}")

    def test_when_the_program_has_ended_there_is_no_end(self):
        marks, tree = picture("bad-while-up")
        ended = next(mark.x for mark in marks if mark.line == "bad record")
        bands = [(at * WIDTH + number(part, "x"), part.get("class")) for at, part in in_cells(tree, "band")]
        self.assertEqual({name for x, name in bands if x >= ended}, {"band none"})
        slopes = [at * WIDTH + float(part.get("points").split(",")[0]) for at, part in in_cells(tree, "slope")]
        self.assertLess(max(slopes), ended)

    def test_up_and_down(self):
        for name in ("story", "sunday"):
            marks, tree = picture(name)
            for word in ("up", "down"):
                lines = [at * WIDTH + number(part, "x1") for at, part in in_cells(tree, "flag")
                         if word in part.get("class").split()]
                wanted = [mark.x for mark in marks if mark.moment.answer and mark.moment.answer.has(word)]
                self.assertEqual(len(lines), len(wanted), f"{name} {word}")
                for found, place in zip(lines, wanted):
                    self.assertAlmostEqual(found, place, delta=0.1)

    def test_silence_grows_to_the_limit(self):
        """Where an end goes down for silence, the slope reaches the limit; where it is Up, it stays below."""
        marks, tree = picture("sunday")
        tops = {}
        for at, part in in_cells(tree, "slope"):
            for point in part.get("points").split():
                x, y = map(float, point.split(","))
                place = at * WIDTH + x
                tops[place] = max(tops.get(place, 0.0), SILENCES - y)
        reached = 0
        for mark in marks:
            moment = mark.moment
            if moment.answer is None or moment.before is None or moment.before.state == "Idle":
                continue
            top = tops.get(mark.x)
            if moment.answer.number == 12:
                self.assertGreaterEqual(top, SILENCE_LIMIT - 0.1, mark.number)
                reached += 1
            elif moment.event.name not in ("make", "connect", "disconnect"):
                self.assertLess(top, SILENCE_LIMIT, mark.number)
        self.assertGreater(reached, 40)

    def test_limits_are_named_in_each_cell(self):
        _, tree = picture("story")
        for cell in cells(tree):
            self.assertEqual([part.text for part in having(cell, "limit-name")], ["A 0.50 s", "R 3.00 s"])

    def test_a_limit_that_changes_is_named_anew(self):
        makes = support.MAKE, support.MAKE, support.MAKE.replace("age 50", "age 60")
        script = Script("".join(f"{make} -> 0\n" for make in makes), "t")
        tree = xml.fromstring(page("t", marks_of(script, script.printed())))
        self.assertEqual([part.text for _, part in in_cells(tree, "limit-name")],
                         ["A 0.50 s", "R 3.00 s", "A 0.60 s", "R 3.00 s"])

    def test_times_do_not_overlap(self):
        for anchor in (None, read_anchor("100=08:30:00")):
            script = script_of("sunday")
            tree = xml.fromstring(page("t", marks_of(script, script.printed(), anchor)))
            for cell in cells(tree):
                ends = -1.0
                for part in having(cell, "time"):
                    width = len(part.text) * 5.0
                    first = "first" in part.get("class")
                    left = number(part, "x") - (0 if first else width / 2)
                    self.assertGreater(left, ends)
                    ends = left + width
                    self.assertLess(ends, WIDTH + 3)

    def test_a_long_pause_is_cut_and_shown_so(self):
        text = f"{support.MAKE} -> 0\ntick 100 -> 0 ask\ntick 399 -> 0\ntick 99,999 -> 12 release\n"
        script = Script(text, "t")
        marks = placed(marks_of(script, script.printed()))
        self.assertEqual([mark.cut for mark in marks], [False, False, False, True])
        self.assertEqual(marks[2].x - marks[1].x, 299 * LIMIT // 300)
        tree = xml.fromstring(page("t", marks_of(script, script.printed())))
        self.assertEqual(len(in_cells(tree, "pause")), 1)


class Pages(unittest.TestCase):
    def test_nothing_is_fetched(self):
        script = script_of("story")
        for draw in (page, sheet):
            text = draw("t", marks_of(script, script.printed()))
            self.assertNotRegex(text.replace('xmlns="http://www.w3.org/2000/svg"', ""),
                                r"https?:|src=|@import|url\((?!#)|<link|<iframe|<image|fetch|XMLHttp")

    def test_patterns_that_are_used_are_there(self):
        script = script_of("story")
        for draw in (page, sheet):
            text = draw("t", marks_of(script, script.printed()))
            for name in set(re.findall(r"url\(#(\w+)\)", text)):
                self.assertEqual(text.count(f'id="{name}"'), 1, name)

    def test_the_summary(self):
        _, tree = picture("story")
        said = [part.text for part in tree.iter("p")]
        self.assertEqual(said[:3], [
            "26 records. The link came up twice and went down twice.",
            "4 messages were delivered, the oldest after 0.06 s, with a limit of 0.50 s.",
            "Not handled: 1 not the message awaited (7), 1 old (9), 1 late (11), 1 waited too long (12)."])

    def test_the_summary_of_a_program_that_ended(self):
        _, tree = picture("bad-while-up")
        said = [part.text for part in tree.iter("p")]
        self.assertEqual(said[0], "12 records. The link came up once and never went down.")
        self.assertEqual(said[2], "Not handled: 1 bad record, 4 records without an answer.")
        script = Script("tick 5\ntick 6\n", "t", draft=True)
        self.assertIn("Not handled: 1 no rule for this here (3), 1 line that no end prints.",
                      page("t", marks_of(script, ["oops", "3"])))

    def test_the_list_has_what_was_not_simply_handled(self):
        marks, tree = picture("story")
        rows = [[cell.text or cell.find("a").text for cell in row.iter("td")] for row in tree.iter("tr")][1:]
        self.assertEqual([int(row[0]) for row in rows], [5, 12, 17, 20, 22, 23, 25, 26])
        self.assertEqual(rows[5][1:], ["4.70 s", marks[22].record, "11 error",
                                       "late: age 403 ticks, limit 50; failure 1 of 2"])

    def test_a_script_without_trouble(self):
        script = Script(f"{support.MAKE} -> 0\ntick 100 -> 0 ask\n", "t")
        text = page("t", marks_of(script, script.printed()))
        for words in ("No message was delivered.", "Everything was handled.", "<p>Nothing.</p>"):
            self.assertIn(words, text)

    def test_names_and_answers_cannot_break_the_page(self):
        script = Script("tick 5\ntick 6\n", "t", draft=True)
        marks = marks_of(script, ['<script>alert("&")</script>', "0"])
        tree = xml.fromstring(page("<b>&\"'", marks))
        self.assertEqual(next(tree.iter("h1")).text, "<b>&\"'")
        self.assertIn('-> <script>alert("&")</script>', in_cells(tree, "record")[0][1].find("title").text)
        self.assertEqual(len(list(tree.iter("script"))), 1)

    def test_characters_that_no_page_can_have(self):
        script = Script("tick 5\n", "t", draft=True)
        for draw in (page, sheet):
            text = draw("a\udcff\x1bb", marks_of(script, ["\x1b[31m"]))
            self.assertIn(">a\ufffd\ufffdb</", text)
            self.assertIn(r"-> \x1b[31m", "".join(having(xml.fromstring(text), "record")[0].itertext()))

    def test_answers_that_differ_are_marked(self):
        script = Script(f"{support.MAKE} -> 0\ntick 100 -> 0 ask\n", "t")
        tree = xml.fromstring(page("t", marks_of(script, ["0", "3"])))
        groups = in_cells(tree, "record")
        self.assertEqual([group.get("class") for _, group in groups], ["record a0", "record a3 differs"])
        self.assertTrue(groups[1][1].find("title").text.endswith("\nDIFFERS: the text says 0 ask"))


class AnyProgram(unittest.TestCase):
    """Whatever a program printed can be drawn."""

    def test_random_records_and_lines(self):
        for seed in range(60):
            dice = random.Random(seed)
            records = support.records(seed) or [support.record(dice)]
            script = Script(text_of(b"".join(records)), "t", draft=True)
            lines = [dice.choice((support.line(dice), "0", "0 ask", "0 up", "oops")) for _ in records]
            marks = marks_of(script, lines[:dice.randrange(1, len(lines) + 1)])
            for draw in (page, sheet):
                tree = xml.fromstring(draw("t", marks))
                found = [part.get("id") for part in having(tree, "record")]
                self.assertEqual(found, [f"r{at}" for at in range(1, len(records) + 1)], seed)

    def test_limits_of_0_that_were_taken(self):
        none = "make called at 0 age 0 spread 0 jump 0 errors 0 silence 0 life-sign 0 wait 0 retry 0 -> 0\n"
        start = "number 0 sent 0 echo 0 receipt 0"
        script = Script(f"{none}connect 5 -> 0 accept\nmessage 6 start {start} -> 0 send answ1 {start}\n"
                        f"message 6 answ2 {start} -> 0 send est {start} minimum 0 maximum 0\n"
                        f"message 7 end {start} -> 0 up\nmessage 9 life-sign {start} -> 0\n", "t")
        self.assertEqual(len(in_cells(xml.fromstring(page("t", marks_of(script, script.printed()))), "bar")), 1)


class Sheets(unittest.TestCase):
    def test_the_story_in_the_documents_is_in_step(self):
        path = support.TOP / "docs" / "story.svg"
        stored = path.read_text(encoding="utf-8")
        title = one(xml.fromstring(stored), "heading").text
        script = script_of("story")
        self.assertEqual(stored, sheet(title, marks_of(script, script.printed())),
                         "docs/story.svg is not what scenes/story.txt comes to: tools/store draws it anew")

    def test_it_has_the_same_records_as_the_page(self):
        script = script_of("sunday")
        tree = xml.fromstring(sheet("t", marks_of(script, script.printed())))
        self.assertEqual([part.get("id") for part in having(tree, "record")],
                         [f"r{at}" for at in range(1, len(script.steps) + 1)])

    def test_no_words_outside(self):
        script = script_of("story")
        tree = xml.fromstring(sheet("t", marks_of(script, script.printed())))
        width, height = number(tree, "width"), number(tree, "height")
        for part in tree.findall(f"{SVG}text"):
            self.assertLess(number(part, "x") + len(part.text) * 5.0, width)
            self.assertLess(number(part, "y"), height)


class Times(unittest.TestCase):
    def labels(self, text, anchor=None):
        script = Script(text, "t", draft=True)
        return [mark.time.label for mark in marks_of(script, ["0"] * len(script.steps), anchor)]

    def test_seconds_since_the_make(self):
        make = support.MAKE.replace("at 100", "at 2^32-50")
        self.assertEqual(self.labels(f"{make}\ntick 2^32-1\ntick 0\ntick 950\n{support.MAKE}\ntick 163\n"),
                         ["0.00 s", "0.49 s", "0.50 s", "10.00 s", "0.00 s", "0.63 s"])

    def test_before_a_make_they_count_from_the_first_record(self):
        self.assertEqual(self.labels("tick 5\ntick 105\nrecord 09\n"), ["0.00 s", "1.00 s", "1.00 s"])

    def test_time_of_day(self):
        anchor = read_anchor("2^32-100=23:59:59.5")
        self.assertEqual(self.labels("tick 2^32-100\ntick 2^32-51\ntick 2^32-50\ntick 0\n", anchor),
                         ["23:59:59.50", "23:59:59.99", "00:00:00.00", "00:00:00.50"])
        self.assertEqual(self.labels("tick 0\n", read_anchor("6,000=08:30")), ["08:29:00.00"])

    def test_many_turns_of_the_clock(self):
        day = 8_640_000
        text = "".join(f"tick {at * day % 2**32}\n" for at in range(0, 700, 7))
        self.assertEqual(set(self.labels(text, read_anchor("0=12:00"))), {"12:00:00.00"})

    def test_a_clock_that_went_back_takes_no_time(self):
        script = Script(f"{support.MAKE} -> 0\ntick 200 -> 0 ask\ntick 150 -> 2\ntick 210 -> 0\n", "t")
        marks = marks_of(script, script.printed())
        self.assertEqual([mark.time.after for mark in marks], [0, 100, 0, 10])
        self.assertEqual([time.label for time in times([mark.moment for mark in marks])],
                         ["0.00 s", "1.00 s", "0.50 s", "1.10 s"])

    def test_anchors_that_are_none(self):
        example = "write it as in 100=08:30:00: a reading, and the time of day that it stands for"
        for word, said in (("100", f"'100' is none: {example}"), ("100=8", f"'100=8' is none: {example}"),
                           ("x=08:30", "'x' is no number"), ("2^32=08:30", "'2^32' does not fit: the field has 4 "
                                                            "bytes, so 0 to 4294967295"),
                           ("1=24:00", f"there is no time 24:00: {example}"),
                           ("1=08:60", f"there is no time 08:60: {example}")):
            with self.assertRaises(Trouble) as caught:
                read_anchor(word)
            self.assertEqual(str(caught.exception), f"--anchor: {said}")

    def test_the_time_of_day_wraps(self):
        self.assertEqual(time_of_day(-1), "23:59:59.99")


class Canvases(unittest.TestCase):
    def test_a_span_is_cut_at_the_edges(self):
        self.assertEqual(list(Canvas(100, 3).pieces(90.0, 210.0)), [(0, 90.0, 100.0), (1, 0.0, 100.0), (2, 0.0, 10.0)])
        self.assertEqual(list(Canvas(100, 3).pieces(100.0, 120.0)), [(1, 0.0, 20.0)])

    def test_a_line_is_cut_at_the_edges(self):
        self.assertEqual(list(Canvas(100, 3).strokes([(50.0, 0.0), (250.0, 200.0), (260.0, 200.0)])),
                         [(0, [(50.0, 0.0), (100.0, 50.0)]), (1, [(0.0, 50.0), (100.0, 150.0)]),
                          (2, [(0.0, 150.0), (50.0, 200.0), (60.0, 200.0)])])


class Command(unittest.TestCase):
    STORY = str(support.TOP / "scenes" / "story.txt")
    STDIN = str(support.TOP / "crates" / "sunday" / "stdin")
    STDOUT = str(support.TOP / "crates" / "sunday" / "stdout")

    def test_records_and_lines_alone(self):
        status, text, _ = run(["picture", "--title", "A night", self.STDIN, self.STDOUT])
        tree = xml.fromstring(text)
        self.assertEqual((status, next(tree.iter("h1")).text), (0, "A night"))
        self.assertEqual(len(in_cells(tree, "record")), len(script_of("sunday").steps))

    def test_a_part_of_the_records(self):
        status, text, _ = run(["picture", "--first", "40", "--last", "49", self.STDIN, self.STDOUT])
        groups = in_cells(xml.fromstring(text), "record")
        self.assertEqual((status, [group.get("id") for _, group in groups]), (0, [f"r{at}" for at in range(40, 50)]))

    def test_a_difference_is_told_by_the_status(self):
        status, text, _ = run(["picture", self.STORY, self.STDOUT])
        self.assertEqual(status, 1)
        self.assertIn("another: those marks have a red rim.", text)

    def test_refused(self):
        records = len(script_of("sunday").steps)
        takes = f"takes the number of a record, from 1 to {records}, not"
        for words, said in (
            (["--first", "0"], f"--first {takes} '0'"), (["--first", "x"], f"--first {takes} 'x'"),
            (["--last", str(records + 1)], f"--last {takes} '{records + 1}'"),
            (["--last", "9" * 5000], f"--last {takes} '{'9' * 30}..' of 5,000 characters"),
            (["--first", "9", "--last", "8"], "--first 9 is behind --last 8"),
            (["--anchor", "noon"], "--anchor: 'noon' is none: write it as in 100=08:30:00: a reading, and the time "
                                   "of day that it stands for"),
            (["--ancor", "noon"], "picture has no option '--ancor': did you mean --anchor?"),
        ):
            self.assertEqual(run(["picture", *words, self.STDIN, self.STDOUT]), (2, "", f"{said}\n"))
        self.assertEqual(run(["picture", self.STDIN, self.STDOUT, "--title"]),
                         (2, "", "picture: something is missing behind --title\n"))
        with unittest.mock.patch("notation.command.MOST_DRAWN", 100):
            self.assertEqual(run(["picture", "--first", "2", "--last", "102", self.STDIN, self.STDOUT]),
                             (2, "", "these are 101 records, and a picture has room for 100: "
                                     "choose some by --first and --last\n"))
            self.assertEqual(run(["picture", "--first", "2", "--last", "101", self.STDIN, self.STDOUT])[0], 0)
        empty = str(support.TOP / "scenes" / "empty.txt")
        self.assertEqual(run(["picture", empty, "/dev/null"]), (2, "", f"{empty}: there is no record to draw\n"))


if __name__ == "__main__":
    unittest.main()
