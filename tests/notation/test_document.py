"""docs/SCRIPTS.md says what the tools do: its tables and examples are held against them."""

import re
import unittest

import support
from notation.answers import MEANINGS, SIGNS
from notation.command import COMMANDS, HELP
from notation.fields import Trouble
from notation.follow import CALLING, GREETED, IDLE, SENDING_LEADS_TO, UP
from notation.messages import KINDS
from notation.records import OTHER_STARTS, STARTS, read_record
from notation.script import Script
from notation.settings import SETTINGS

TEXT = (support.TOP / "docs" / "SCRIPTS.md").read_text(encoding="utf-8")


def section(title):
    """What stands below a heading, up to the next."""
    match = re.search(rf"^#+ {re.escape(title)}\n(.*?)(?=^#|\Z)", TEXT, re.S | re.M)
    assert match, f"there is no heading '{title}'"
    return match.group(1)


def rows(title):
    """The rows of the tables below a heading, without their heads."""
    lines = [line for line in section(title).split("\n") if line.startswith("|")]
    rules = [at for at, line in enumerate(lines) if set(line) == set("|-")]
    heads = {at - 1 for at in rules}.union(rules)
    return [[cell.strip() for cell in line.strip("|").split("|")] for at, line in enumerate(lines) if at not in heads]


def anchors(text):
    """What links to the headings of a page are called."""
    return {re.sub(r"[^\w -]", "", heading.lower()).replace(" ", "-")
            for heading in re.findall(r"^#+ (.*)$", text, re.M)}


def quoted_in(text):
    return set(re.findall(r"`([^`]+)`", text))


class Document(unittest.TestCase):
    def test_lines_are_not_too_long(self):
        self.assertEqual([line for line in TEXT.split("\n") if len(line) > 110], [])

    def test_the_contents_lead_to_headings(self):
        links = re.findall(r"\]\(#([^)]+)\)", section("Contents"))
        self.assertEqual(set(links) - anchors(TEXT), set())
        self.assertEqual(anchors(TEXT) - set(links), {"scripts-in-words", "contents"})

    def test_links_to_other_pages(self):
        for name, anchor in re.findall(r"\]\((\w+\.md)#([^)]+)\)", TEXT):
            page = (support.TOP / "docs" / name).read_text(encoding="utf-8")
            self.assertIn(anchor, anchors(page), name)

    def test_records(self):
        self.assertEqual([row[0].strip("`") for row in rows("Records")], list(STARTS))
        for line in re.findall(r"^    (.+)$", section("Records") + section("Messages"), re.M):
            self.assertTrue(read_record(line), line)

    def test_settings(self):
        told = [(row[0], row[3]) for row in rows("Settings")]
        self.assertEqual(told, [(f"`{setting.name}`", self.range_of(setting)) for setting in SETTINGS])

    @staticmethod
    def range_of(setting):
        bounds = [{"silence": "R - 1", "wait": "T"}.get(bound) or f"{bound:,}"
                  for bound in (setting.least, setting.most)]
        return (" or " if setting.name == "errors" else " to ").join(bounds)

    def test_messages(self):
        self.assertLess(set(KINDS) | {"bytes", "number", "sent", "echo", "receipt", "minimum", "maximum"},
                        quoted_in(section("Messages")))

    def test_answers(self):
        self.assertEqual([row[:2] for row in rows("The numbers")],
                         [[str(number), words] for number, words in enumerate(MEANINGS[:-1])])
        self.assertIn(f"Answer 14, {MEANINGS[14]},", TEXT)
        self.assertEqual(quoted_in(section("Outputs")), {*SIGNS, "send", "data"})

    def test_states(self):
        named = re.findall(r"[A-Z]\w+", " ".join(row[0] for row in rows("The states")))
        self.assertEqual(set(named), {IDLE, CALLING, GREETED, UP, *SENDING_LEADS_TO.values()})

    def test_block_words(self):
        self.assertEqual(set(re.findall(r"^    (\w+)", section("Blocks"), re.M)), set(OTHER_STARTS))

    def test_commands_and_options(self):
        told = [re.match(r"`tools/scenes (\w+) ([^`]*)`", row[0]).groups() for row in rows("Commands")]
        self.assertEqual(told, [(name, " ".join(command.files)) for name, command in COMMANDS.items()])
        for name, command in COMMANDS.items():
            self.assertIn(f"scenes {name} {' '.join(command.files)}", HELP)
            for option in command.flags + command.values:
                self.assertIn(option, TEXT)
                self.assertIn(option, HELP)

    def test_what_is_said_about_slips(self):
        """Each sentence that is shown is the one that a text with that slip gets."""
        lines = {7: "Tick 100 -> 0", 9: "tick 1.5 -> 0", 12: "tick 5 => 0", 15: "data 5 abc -> 0"}
        shown = re.findall(r"^    (night\.txt:(\d+): .*)$", section("When something is wrong"), re.M)
        self.assertEqual([int(number) for _, number in shown], list(lines))
        for sentence, number in shown:
            with self.assertRaises(Trouble) as caught:
                Script("\n" * (int(number) - 1) + lines[int(number)], "night.txt")
            self.assertEqual(str(caught.exception), sentence)

    def test_files_that_are_named_are_there(self):
        for name in re.findall(r"`((?:scenes|tests|tools|crates)/[\w./*-]+)`", TEXT):
            self.assertTrue(list(support.TOP.glob(name)), name)


if __name__ == "__main__":
    unittest.main()
