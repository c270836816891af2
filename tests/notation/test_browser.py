"""The page in a browser: what it measures there, what a tap shows, and how it looks in a screenshot.

This part is left out where no Chromium is installed (Debian's package chromium).
"""

import functools
import json
import os
import pathlib
import shutil
import struct
import subprocess
import tempfile
import unittest
import xml.etree.ElementTree as xml
import zlib

import support
from notation.marks import marks_of
from notation.page import page
from notation.script import Script
from notation.times import read_anchor

BROWSER = next(filter(None, map(shutil.which, ("chromium", "chromium-browser", "google-chrome"))), None)
WIDE, NARROW, SHOT = (1400, 900), (390, 844), (390, 740)

# Taps a mark and a link of the list, measures, and leaves what was found in the page.
MEASURE = """<pre id="measured"></pre><script>
const box = part => part.getBoundingClientRect();
const all = name => [...document.querySelectorAll(name)];
const overlaps = name => all(".cells .cell").map(cell => {
  const boxes = [...cell.querySelectorAll(name)].map(box).sort((a, b) => a.left - b.left);
  return boxes.slice(1).filter((next, at) => next.left < boxes[at].right).length;
}).reduce((a, b) => a + b, 0);
const outside = (name, of) => all(name).filter(part => {
  const inner = box(part), outer = box(of(part));
  return inner.left < outer.left - 1 || inner.right > outer.right + 1;
}).length;
const at_first = document.getElementById("told").textContent;
document.querySelector("#r23 .mark").dispatchEvent(new MouseEvent("click", {bubbles: true}));
const tapped = document.getElementById("told").textContent;
document.querySelector('td a[href="#r17"]').dispatchEvent(new MouseEvent("click", {bubbles: true}));
document.getElementById("measured").textContent = JSON.stringify({
  at_first, tapped, linked: document.getElementById("told").textContent,
  chosen: all(".chosen").map(part => part.id), inner: innerWidth, page: document.documentElement.scrollWidth,
  rows: new Set(all(".cells .cell").map(cell => box(cell).top)).size, cells: all(".cells .cell").length,
  times: overlaps(".time"), states: outside(".state", part => part.previousElementSibling),
  signs: outside(".cells .sign", part => part.parentNode.querySelector(".mark")),
  words: all(".cells text").filter(part => box(part).width == 0).length,
});
</script></body>"""


def shows(path, size, *more):
    """What the browser prints about a page."""
    command = [BROWSER, "--headless", "--disable-gpu", "--disable-background-networking", "--no-first-run",
               "--hide-scrollbars", "--virtual-time-budget=2000", f"--window-size={size[0]},{size[1]}",
               *more, path.as_uri()]
    if os.geteuid() == 0:
        command.insert(1, "--no-sandbox")  # root can't have it
    done = subprocess.run(command, capture_output=True, timeout=120, check=True, cwd=path.parent,
                          env={**os.environ, "HOME": str(path.parent)})
    return done.stdout.decode()


def pixels(data):
    """The size of a PNG, and its rows of pixels."""
    width, height, depth, colours = struct.unpack(">IIBB", data[16:26])
    assert depth == 8 and colours in (2, 6), "a PNG of another kind"
    size, at, packed = (3 if colours == 2 else 4), 8, b""
    while at < len(data):
        length, name = struct.unpack(">I4s", data[at:at + 8])
        packed += data[at + 8:at + 8 + length] if name == b"IDAT" else b""
        at += length + 12
    return width, height, _unfiltered(zlib.decompress(packed), width * size, size), size


def _unfiltered(raw, stride, size):
    """The rows behind the filters of PNG: each byte was stored as a difference from its neighbours."""
    rows, above = [], bytearray(stride)
    for at in range(0, len(raw), stride + 1):
        kind, row = raw[at], bytearray(raw[at + 1:at + 1 + stride])
        for i in range(stride) if kind else ():
            left, up = (row[i - size] if i >= size else 0), above[i]
            corner = above[i - size] if i >= size else 0
            row[i] = (row[i] + (left, up, (left + up) // 2, _nearest(left, up, corner))[kind - 1]) % 256
        rows.append(bytes(row))
        above = row
    return rows


def _nearest(left, up, corner):
    guess = left + up - corner
    return min((left, up, corner), key=lambda value: abs(guess - value))


@unittest.skipIf(BROWSER is None, "no Chromium is installed, so no page was opened in a browser")
class InABrowser(unittest.TestCase):
    @classmethod
    def setUpClass(cls):
        folder = tempfile.TemporaryDirectory()
        cls.addClassCleanup(folder.cleanup)
        cls.folder = pathlib.Path(folder.name)
        script = Script((support.TOP / "scenes" / "story.txt").read_text(encoding="utf-8"), "story")
        cls.page = page("The story", marks_of(script, script.printed(), read_anchor("100=08:30:00")))

    @classmethod
    @functools.lru_cache(maxsize=None)
    def measured(cls, size):
        path = cls.folder / "measured.html"
        path.write_text(cls.page.replace("</body>", MEASURE), encoding="utf-8")
        dumped = shows(path, size, "--dump-dom")
        start = dumped.index('<pre id="measured">')
        return json.loads(xml.fromstring(dumped[start:dumped.index("</pre>", start) + 6]).text)

    def test_wide_and_narrow(self):
        for size, rows in ((WIDE, 1), (NARROW, 3)):
            with self.subTest(size=size):
                found = self.measured(size)
                self.assertEqual((found["cells"], found["rows"]), (3, rows))
                self.assertLessEqual(found["page"], found["inner"], "the page can be scrolled sideways")
                for name in ("times", "states", "signs", "words"):
                    self.assertEqual(found[name], 0, f"{name}: letters that overlap, stick out, or are not there")

    def test_a_tap_tells(self):
        found = self.measured(NARROW)
        self.assertTrue(found["at_first"].startswith("Tap a mark"))
        self.assertEqual(found["tapped"].split("\n"), [
            "record 23, 08:30:04.70", "message 570 train number 2 sent 1070 echo 130 receipt 1033 data dead",
            "-> 11 error", "late: age 403 ticks, limit 50; failure 1 of 2"])
        self.assertEqual(found["linked"].split("\n")[1:3], ["tick 540", "-> 12 release down"])
        self.assertEqual(found["chosen"], ["r17"])

    def test_a_screenshot(self):
        path = self.folder / "page.html"
        path.write_text(self.page, encoding="utf-8")
        shows(path, SHOT, f"--screenshot={self.folder / 'shot.png'}")
        width, height, rows, size = pixels((self.folder / "shot.png").read_bytes())
        self.assertEqual((width, height), SHOT)
        colours = {row[at:at + 3] for row in rows for at in range(0, len(row), size)}
        for name, colour in (("white", "ffffff"), ("the red of a late message", "c43c17"),
                             ("the green of a link that is up", "bfe3d4")):
            self.assertTrue(bytes.fromhex(colour) in colours, f"{name} is not to be seen")
        written = sum(any(pixel < 96 for pixel in row[::size]) for row in rows)
        self.assertGreater(written, height // 3, "hardly anything is written on the page")


if __name__ == "__main__":
    unittest.main()
