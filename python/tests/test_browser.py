"""The page in a Chromium without a window: it loads nothing, says nothing and runs no text of a
stream, and its buttons work."""
import json
import pathlib
import tempfile
import unittest

import cityseq
from cityseq import delivery as extras

from . import made_up
from .browser import CHROMIUM, browser
from .support import HEADER

try:
    extras.need_all()
    from cityseq.delivery import page

    MISSING = None if CHROMIUM else "chromium is not there"
except extras.PackageMissing as fault:
    MISSING = str(fault)

ROWS = """
Array.from(document.querySelectorAll('#rows tr'),
           (row) => Array.from(row.cells, (cell) => cell.textContent))
"""
# sets a control of the table to a value, as a user does
SET = """
(() => {{
  const control = document.getElementById('{0}');
  control.value = '{1}';
  for (const kind of ['input', 'change']) {{ control.dispatchEvent(new Event(kind)); }}
}})()
"""
OPENED = """
window.addEventListener('beforeprint', () => {
  window.opened = document.querySelectorAll('details[open]').length;
})
"""
SHAPES = [(width, dark) for width in (1280, 400) for dark in (False, True)]
# the texts whose contrast with what is behind them is below that of WCAG 2.1 AA: 4.5, or 3 where
# letters are large
PALE = """
(() => {
  const part = (value) =>
    value <= 10 ? value / 255 / 12.92 : ((value / 255 + 0.055) / 1.055) ** 2.4;
  const light = (rgb) => 0.2126 * part(rgb[0]) + 0.7152 * part(rgb[1]) + 0.0722 * part(rgb[2]);
  const read = (text) => (text.match(/[\\d.]+/g) || [0, 0, 0, 0]).map(Number);
  const behind = (element) => {
    for (let one = element; one; one = one.parentElement) {
      const colour = read(getComputedStyle(one).backgroundColor);
      if (colour.length < 4 || colour[3] > 0) { return colour; }
    }
    return [255, 255, 255];
  };
  const found = [];
  for (const element of document.querySelectorAll('body *')) {
    const own = Array.from(element.childNodes)
      .some((node) => node.nodeType === 3 && node.data.trim());
    if (!own || !element.getClientRects().length || element.closest('script')) { continue; }
    const style = getComputedStyle(element), inDrawing = element instanceof SVGElement;
    const one = light(read(inDrawing ? style.fill : style.color)), other = light(behind(element));
    const ratio = (Math.max(one, other) + 0.05) / (Math.min(one, other) + 0.05);
    if (ratio < (parseFloat(style.fontSize) >= 24 ? 3 : 4.5)) {
      found.push(ratio.toFixed(2) + ' ' + element.textContent.slice(0, 40));
    }
  }
  return found;
})()
"""


@unittest.skipIf(MISSING, MISSING)
class InBrowser(unittest.TestCase):
    @classmethod
    def setUpClass(cls):
        cls.folder = tempfile.TemporaryDirectory()
        cls.addClassCleanup(cls.folder.cleanup)
        context = browser()
        cls.browser = context.__enter__()
        cls.addClassCleanup(context.__exit__, None, None, None)

    def load(self, delivery, width=1280, dark=False):
        """Loads the page of a delivery, and looks that it asked for nothing and said nothing."""
        path = pathlib.Path(self.folder.name, "page.html")
        path.write_text(page.html(delivery), encoding="utf-8")
        self.browser.load(path, width, dark)
        self.assertEqual(self.browser.requests, [path.as_uri()])
        self.assertEqual(self.browser.said, [])

    def run_in_page(self, script):
        return self.browser.run(script)

    def test_it_loads_nothing_and_fits_any_screen(self):
        for width, dark in SHAPES:
            self.load(made_up.usual(), width, dark)
            self.assertEqual(self.run_in_page("document.documentElement.scrollWidth"), width)

    def test_no_text_of_a_stream_runs(self):
        for width in (1280, 400):
            made = made_up.hostile()
            self.load(made, width)
            self.assertEqual(self.run_in_page("document.documentElement.scrollWidth"), width)
            self.assertEqual(self.run_in_page("document.querySelectorAll('script').length"), 2)
            self.assertEqual(
                self.run_in_page("document.querySelectorAll('img, base, td b, h1 b, p b').length"),
                0,
            )
            self.assertEqual(
                self.run_in_page("document.querySelector('h1').textContent"),
                page.cut(made_up.HOSTILE[0]),
            )
            self.assertEqual(
                self.run_in_page("document.title").partition(":")[0], page.cut(made_up.HOSTILE[0])
            )
            self.assertEqual(self.run_in_page("document.querySelectorAll('section').length"), 6)
            shown = self.run_in_page(ROWS)
            self.assertEqual(
                [row[4] for row in shown], [page.cut(each.id) for each in made.reports]
            )
            # what an attacker could ask of the page's own functions does nothing either
            self.run_in_page(SET.format("filter", "<script>"))
            self.assertEqual(self.browser.said, [])

    def test_a_stream_of_hostile_texts(self):
        """The same from the bytes of a stream on: ids, system, excerpts, the name of the file."""
        texts = [text for text in made_up.HOSTILE if text]
        header = json.loads(HEADER)
        header["metadata"] = {"referenceSystem": texts[0]}
        lines = [
            {
                "type": "CityJSONFeature",
                "id": text,
                "CityObjects": {text: {"type": text[:50]}},
                "vertices": [[0, 0, 0]],
            }
            for text in texts
        ]
        lines += [
            {**line, "CityObjects": {line["id"]: {"type": "Building"}}}
            for line in lines
            for _ in "ab"
        ]
        path = pathlib.Path(self.folder.name, "<img src=x onerror=alert(1)>.jsonl")
        path.write_bytes(
            b"".join(
                json.dumps(line, ensure_ascii=False).encode("utf-8", "backslashreplace") + b"\n"
                for line in [header, *lines]
            )
        )
        output = pathlib.Path(self.folder.name, "hostile.html")
        try:
            made = cityseq.report(path, output)
        except cityseq.LibraryMissing as fault:
            self.skipTest(str(fault))
        self.assertEqual((made.files[0].invalid, made.repeated.ids), (len(texts), len(texts)))
        self.browser.load(output)
        self.assertEqual((self.browser.requests, self.browser.said), ([output.as_uri()], []))
        self.assertEqual(self.run_in_page("document.title").partition(":")[0], "hostile")
        self.assertEqual(
            [row[4] for row in self.run_in_page(ROWS)], [page.cut(text) for text in texts]
        )
        self.assertEqual(self.run_in_page("document.querySelectorAll('img, script').length"), 2)

    def test_a_script_that_got_in_would_not_run(self):
        path = pathlib.Path(self.folder.name, "broken.html")
        body = "<body><script>window.ran = 1</script><p onclick='window.ran = 1'>x</p>"
        path.write_text(page.html(made_up.usual()).replace("<body>", body), encoding="utf-8")
        self.browser.load(path)
        self.run_in_page("document.querySelector('p').click()")
        self.assertIsNone(self.run_in_page("window.ran"))
        self.assertTrue(
            any("Content Security Policy" in said for said in self.browser.said), self.browser.said
        )

    def test_reports_are_shown_step_by_step(self):
        self.load(made_up.usual(10_000))
        self.assertEqual(len(self.run_in_page(ROWS)), 100)
        self.run_in_page("document.getElementById('more').click()")
        self.assertEqual(len(self.run_in_page(ROWS)), 600)
        self.assertEqual(
            self.run_in_page("document.getElementById('count').textContent"),
            "Showing 600 of 10,000 reports",
        )

    def test_the_filter_selects(self):
        made = made_up.usual(60)
        self.load(made)
        wanted = [str(each.line) for each in made.reports if each.code == 4]
        self.run_in_page(SET.format("reason", "4"))
        self.assertEqual([row[1] for row in self.run_in_page(ROWS)], wanted)
        self.assertTrue(0 < len(wanted) < 60)
        self.run_in_page(SET.format("reason", ""))
        self.run_in_page(SET.format("filter", "pand.0503100000000011"))
        self.assertEqual([row[1] for row in self.run_in_page(ROWS)], ["11"])
        self.assertEqual(
            self.run_in_page("document.getElementById('count').textContent"),
            "Showing 1 of 1 reports (of 60)",
        )

    def test_heads_sort(self):
        made = made_up.usual(60)
        self.load(made)
        sort = "document.querySelectorAll('#reports thead button')[{0}].click()"
        state = "document.querySelectorAll('#reports thead th')[{0}].getAttribute('aria-sort')"
        lines = [each.line for each in made.reports]
        for column, key in (
            (1, lambda each: each.line),
            (3, lambda each: each.code),
            (4, lambda each: each.id),
        ):
            for way in ("ascending", "descending"):
                self.run_in_page(sort.format(column))
                wanted = sorted(made.reports, key=key, reverse=way == "descending")
                wanted.sort(key=key, reverse=way == "descending")
                shown = [int(row[1]) for row in self.run_in_page(ROWS)]
                self.assertEqual(
                    [key(made.reports[lines.index(line)]) for line in shown],
                    [key(each) for each in wanted],
                )
                self.assertEqual(sorted(shown), lines)
                self.assertEqual(self.run_in_page(state.format(column)), way)

    def test_a_head_can_be_reached_by_keys(self):
        self.load(made_up.usual(60))
        self.run_in_page("document.querySelectorAll('#reports thead button')[1].focus()")
        for kind in ("keyDown", "keyUp"):
            self.browser.call(
                "Input.dispatchKeyEvent",
                type=kind,
                key="Enter",
                code="Enter",
                windowsVirtualKeyCode=13,
                text="\r",
            )
        self.assertEqual(
            self.run_in_page(
                "document.querySelectorAll('#reports thead th')[1].getAttribute('aria-sort')"
            ),
            "ascending",
        )

    def test_the_box_is_copied(self):
        self.browser.call(
            "Browser.grantPermissions",
            permissions=["clipboardReadWrite", "clipboardSanitizedWrite"],
        )
        self.load(made_up.usual())
        self.browser.call("Page.bringToFront")
        button = "document.querySelector('[data-of=area-1]')"
        self.assertFalse(self.run_in_page(f"{button}.hidden"))
        self.run_in_page(f"{button}.click()")
        self.run_in_page("new Promise((done) => setTimeout(done, 300))")
        self.assertEqual(
            self.run_in_page("document.getElementById('said').textContent"),
            "Copied to the clipboard",
        )
        self.assertEqual(
            self.run_in_page("navigator.clipboard.readText()"),
            "84616.468,447422.999,85199.1,448101.25",
        )

    def test_texts_stand_out(self):
        for dark in (False, True):
            self.load(made_up.usual(), dark=dark)
            self.run_in_page(
                "for (const one of document.querySelectorAll('details')) { one.open = true; }"
            )
            self.assertEqual(self.run_in_page(PALE), [])

    def test_what_a_screen_reader_is_told(self):
        self.load(made_up.usual())
        self.browser.call("Accessibility.enable")
        nodes = self.browser.call("Accessibility.getFullAXTree")["nodes"]
        told = {
            (node["role"]["value"], node.get("name", {}).get("value"))
            for node in nodes
            if not node["ignored"]
        }
        for wanted in (
            ("heading", "delivery"),
            ("heading", "What is invalid"),
            ("image", "Map"),
            ("image", "Lines by their length"),
            ("button", "Copy 84616.468,447422.999,85199.1,448101.25"),
            ("columnheader", "Verdict"),
            ("rowheader", "north.city.jsonl.gz"),
            ("searchbox", "Text in file, feature, reason or excerpt"),
            ("combobox", "Reason"),
            ("button", "Excerpt"),
        ):
            self.assertTrue(
                wanted in told or (wanted[0].replace("image", "img"), wanted[1]) in told, wanted
            )

    def test_without_its_script_the_first_reports_are_there(self):
        self.browser.call("Emulation.setScriptExecutionDisabled", value=True)
        try:
            self.load(made_up.usual(60))
        finally:
            self.browser.call("Emulation.setScriptExecutionDisabled", value=False)
        self.assertEqual(len(self.run_in_page(ROWS)), page.STATIC_ROWS)

    def test_a_long_id_hides_no_excerpt(self):
        reports = [made_up.report(3), made_up.report(5, feature="x" * 5_000)]
        self.load(made_up.delivery(reports))
        places = self.run_in_page(
            "Array.from(document.querySelectorAll('#reports td.excerpt mark'),"
            " (mark) => mark.getBoundingClientRect().right)"
        )
        self.assertEqual(len(places), 2)
        self.assertTrue(all(place < 1_280 for place in places), places)

    def test_on_a_phone_it_is_read_why_a_file_was_not_judged(self):
        missing = made_up.file("missing", 3, fault="read fault: No such file or directory")
        self.load(made_up.delivery([], [missing, made_up.file("good")]), 400)
        edges = self.run_in_page(
            "Array.from(document.querySelectorAll('.more p, .more summary'),"
            " (each) => each.getBoundingClientRect().right)"
        )
        self.assertEqual(len(edges), 3)
        self.assertTrue(all(edge <= 400 for edge in edges), edges)

    def test_on_paper_words_stay_with_their_table(self):
        self.load(made_up.usual(3))
        self.browser.call("Emulation.setEmulatedMedia", media="print")
        try:
            styles = self.run_in_page(
                "[getComputedStyle(document.querySelector('#invalid + .wide')).breakInside,"
                " getComputedStyle(document.querySelector('#all + p')).breakInside,"
                " getComputedStyle(document.querySelector('#all + p')).breakAfter,"
                " getComputedStyle(document.querySelector('#count')).breakAfter]"
            )
        finally:
            self.browser.call("Emulation.setEmulatedMedia", media="")
        self.assertEqual(styles, ["avoid"] * 4)

    def test_on_paper_a_heading_stays_with_its_map(self):
        self.load(made_up.usual(3))
        self.browser.call("Emulation.setEmulatedMedia", media="print")
        try:
            style = self.run_in_page(
                "(() => { const area = document.querySelector('.area');"
                " return [getComputedStyle(area).breakInside, area.querySelector('h3') !== null"
                " && area.querySelector('svg.drawing') !== null]; })()"
            )
        finally:
            self.browser.call("Emulation.setEmulatedMedia", media="")
        self.assertEqual(style, ["avoid", True])

    def test_on_paper_it_is_a4_and_details_are_open(self):
        self.load(made_up.usual(3))
        self.run_in_page(OPENED)
        printed = self.browser.printed()
        self.assertTrue(printed.startswith(b"%PDF-"))
        self.assertRegex(printed, rb"/MediaBox \[0 0 59\d\.\d+ 84\d\.\d+\]")
        self.assertEqual(self.run_in_page("window.opened"), 4)
        self.assertEqual(self.run_in_page("document.querySelectorAll('details[open]').length"), 0)


if __name__ == "__main__":
    unittest.main()
