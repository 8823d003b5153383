"""Tests of the page in headless Chromium: the numbers are read back out of the page and compared with the planner's.

Run by `bindings/python/browse`. Where YADVORKHUL_SHOTS names a folder, screenshots and the printed pages are left there.
"""

import base64
import json
import os
import random
import re
import subprocess
import sys
import tempfile
import unittest

from browser import Browser, found
from yadvorkhul import Case, Refusal, __version__, bounds, page, plan
from yadvorkhul.again import one_more
from yadvorkhul.compare import compare, side
from yadvorkhul.curve import curve_of
from yadvorkhul.files import PRODUCTION, TARIFF, File, open_file, plan_text, read_case
from yadvorkhul.forms import fingerprint, plan_fingerprint
from yadvorkhul.pages import bounds_page, compare_page, files_page

EXAMPLES = os.path.join(os.path.dirname(os.path.abspath(__file__)), "..", "..", "examples")
A = dict(costs=[[2, 6], [5, 3], [1, 4]], supplies=[3, 3, 1], demands=[3, 2], table=[99, 20, 24, 20])


def example(folder, table="production.csv"):
    return open_file(TARIFF, os.path.join(EXAMPLES, folder, "tariff.csv")), open_file(PRODUCTION, os.path.join(EXAMPLES, folder, table))


def season():
    with open(os.path.join(EXAMPLES, "season", "season.json"), encoding="utf-8") as stream:
        return Case(**json.load(stream))


def large():
    """32 sources, 64 terminals, 4,001 entries, rebates and ceilings."""
    draw = random.Random(1995)
    costs = [[draw.randint(-50, 900) for _ in range(64)] for _ in range(32)]
    demands = [draw.randint(20, 200) for _ in range(64)]
    stock = [draw.randint(20, 90) for _ in range(30)]
    table = [200_000 + abs(4000 - (y * 37) % 8000) * 5 + y * 40 for y in range(4001)]
    ceilings = [[draw.choice((4000, 4000, 4000, 90, 60, 0)) for _ in range(64)] for _ in range(32)]
    return Case(costs, [4000, 4000] + stock, demands, table, ceilings=ceilings)


def number(text):
    """A number as a page shows it."""
    return 0 if text == "\u00b7" else int(text.replace(",", "").replace("\u2212", "-").replace("+", ""))


@unittest.skipUnless(found(), "chromium is not there")
class Pages(unittest.TestCase):
    @classmethod
    def setUpClass(cls):
        cls.browser = Browser()
        cls.folder = tempfile.mkdtemp(prefix="yadvorkhul-pages-")

    @classmethod
    def tearDownClass(cls):
        cls.browser.close()

    def show(self, name, text, **size):
        """Opens a page; nothing may be complained of."""
        path = os.path.join(self.folder, name + ".html")
        with open(path, "w", encoding="utf-8", newline="\n") as out:
            out.write(text)
        self.browser.open(path, **size)
        self.assertEqual(self.browser.errors, [])
        shots = os.environ.get("YADVORKHUL_SHOTS")
        if shots:
            wide = f"-{size['width']}" if size else ""
            self.browser.screenshot(os.path.join(shots, name + wide + ".png"))
            self.browser.paper(os.path.join(shots, name + ".pdf"))

    def text(self, selector):
        return self.browser.run(f"document.querySelector({selector!r}).innerText")

    def texts(self, selector):
        """The text of each element, hidden or not."""
        return self.browser.run(f"Array.from(document.querySelectorAll({selector!r})).map(x => x.textContent)")

    def table(self, selector):
        return self.browser.run(f"Array.from(document.querySelectorAll({selector!r})).map(r => Array.from(r.cells).map(c => c.textContent))")

    def check_plan(self, name, case, text):
        """Every number of the page against the planner's."""
        due, m, n = case.plan(), len(case.supplies), len(case.demands)
        self.show(name, text)
        made = sum(case.demands) - sum(case.supplies[2:])
        shown = [number(self.text("#" + part)) for part in ("split", "rest", "production", "freight", "total")]
        self.assertEqual(shown, [due.split, made - due.split, case.table[due.split], due.freight, due.total])
        self.check_lanes(case, due, m, n)
        self.check_list(case, due)
        self.check_curve(case, due, made)
        self.assertEqual(len(self.texts("figure svg")), 2)

    def check_lanes(self, case, due, m, n):
        amounts = [number(x) for x in self.texts("#lanes .amount")]
        self.assertEqual([amounts[i * n : (i + 1) * n] for i in range(m)], due.amounts)
        units = [number(x) for x in self.texts("#lanes .unit")]
        self.assertEqual(units, [c for cs, xs in zip(case.costs, due.amounts) for c, x in zip(cs, xs) if x])
        worth = [x * c for xs, cs in zip(due.amounts, case.costs) for x, c in zip(xs, cs) if x]
        self.assertEqual([number(x) for x in self.texts("#lanes .cost .cost, #lanes td .cost")], worth)
        self.assertEqual([number(x) for x in self.texts("#lanes td.sent")], [sum(row) for row in due.amounts])
        self.assertEqual([number(x) for x in self.texts("#lanes tr.got td.to")], list(case.demands))
        self.assertEqual([number(x) for x in self.texts("#lanes tr.demand td.to")], list(case.demands))
        self.assertEqual(sum(number(x) for x in self.texts("#lanes td.freight")), due.freight)
        self.assertEqual(sum(number(x) for x in self.texts("#lanes tr.cost td.to")), due.freight)
        full = [f"{i + 1},{j + 1}" for i in range(m) for j in range(n) if case.ceilings and 0 < due.amounts[i][j] == case.ceilings[i][j] < 4000]
        self.assertEqual(self.browser.run("Array.from(document.querySelectorAll('#lanes td.full')).map(c => c.dataset.lane)"), full)
        empty = sum(x == 0 for row in due.amounts for x in row)
        self.assertEqual(len(self.texts("#lanes td.empty")), empty)

    def check_list(self, case, due):
        listed = [[int(row[0]), int(row[1])] + [int(x) for x in row[4:]] for row in self.table("#list tbody tr")]
        used = [[i + 1, j + 1, x, c, x * c] for i, (xs, cs) in enumerate(zip(due.amounts, case.costs)) for j, (x, c) in enumerate(zip(xs, cs)) if x]
        self.assertEqual(listed, used)
        data = self.browser.run("document.getElementById('file').href").split("base64,")[1]
        self.assertEqual(base64.b64decode(data).decode(), plan_text(case, due))

    def check_curve(self, case, due, made):
        stops = [[number(x) for x in pair] for pair in self.browser.run("Array.from(document.querySelectorAll('#stops li')).map(x => [x.firstChild.textContent, x.lastChild.textContent])")]
        self.assertEqual([tuple(pair) for pair in stops], due.stops)
        every = [[int(x) for x in row] for row in self.table("#splits tbody tr")]
        self.assertEqual([row[0] for row in every], list(range(due.stops[0][0], due.stops[-1][0] + 1)))
        for row in every:
            self.assertEqual(row[1:3], [made - row[0], case.table[row[0]]])
            self.assertEqual(row[4:], [row[2] + row[3], row[2] + row[3] - due.total])
        totals = {row[0]: row[4] for row in every}
        self.assertEqual(min((t, y) for y, t in totals.items()), (due.total, due.split))
        if len(totals) > 1:
            self.check_within(totals, due)
        self.check_minima(totals, due)

    def check_within(self, totals, due):
        """The stretches of splits within 0.1 % of the total."""
        near = {y for y, t in totals.items() if 1000 * (t - due.total) <= abs(due.total)}
        told = self.text("#within").split(" and ")[0]
        shown = set()
        for part in told.split(", "):
            ends = [number(x) for x in part.split(" to ")]
            shown |= set(range(ends[0], ends[-1] + 1))
        self.assertLessEqual(shown, near)
        if " and " not in self.text("#within"):
            self.assertEqual(shown, near)

    def check_minima(self, totals, due):
        """Each row of the table of local minima has higher totals on both sides, and no split that has is missing."""
        rows = self.table("#minima tbody tr")
        self.assertEqual(number(rows[0][0].split()[0]), due.split)
        low, high = min(totals), max(totals)
        shown = set()
        for row in rows:
            ends = [number(x) for x in re.split(" to ", row[0])]
            first, last = ends[0], ends[-1]
            self.assertEqual({totals[y] for y in range(first, last + 1)}, {number(row[4])})
            self.assertTrue(first == low or totals[first - 1] > totals[first])
            self.assertTrue(last == high or totals[last + 1] > totals[last])
            shown.add(first)
        strict = [y for y in totals if all(totals.get(z, totals[y] + 1) > totals[y] for z in (y - 1, y + 1))]
        if len(rows) < 12:
            self.assertLessEqual(set(strict), shown)

    def check_forced(self, case, due):
        """The freight at a split off the stops is what the planner finds when the plants must make just that."""
        every = [[int(x) for x in row] for row in self.table("#splits tbody tr")]
        for row in every[:: max(1, len(every) // 7)]:
            forced = plan(*case[:4], runs=(row[0], row[1]), ceilings=case.ceilings)
            self.assertEqual((forced.split, forced.freight, forced.total), (row[0], row[3], row[4]))

    def test_case_a(self):
        tariff, production = example("case_a")
        case = read_case(tariff, production)
        self.check_plan("case_a", case, files_page(tariff, production))
        self.check_forced(case, case.plan())
        self.assertEqual(self.text("#within"), "3")
        self.assertEqual(self.table("#minima tbody tr")[1][0], "1")
        self.assertEqual(self.table("#minima tbody tr")[1][5:], ["+1", "3.03\u00a0%"])
        self.assertEqual(self.text("#alternative"), "Best alternative: Plant 1 makes 1 (+1, 3.03\u00a0%).")

    def test_report(self):
        tariff, production = example("report", "rates.csv")
        case = read_case(tariff, production)
        self.check_plan("report", case, files_page(tariff, production))
        self.check_forced(case, case.plan())
        self.assertEqual((self.text("#split"), self.text("#total")), ("180", "2,161"))

    def test_season(self):
        case = season()
        self.check_plan("season", case, page(case))
        self.check_forced(case, case.plan())
        self.assertGreater(len(self.texts("#lanes td.full")), 3)
        self.assertIn("1,075 to 1,115", [row[0] for row in self.table("#minima tbody tr")])
        self.assertRegex(self.text("#alternative"), r"^Best alternative: Grasse [0-9,]+( to [0-9,]+)? \(\+[0-9,]+, 0\.[0-9]+\u00a0%\)\.$")

    def test_large(self):
        case = large()
        self.check_plan("large", case, page(case))
        self.check_forced(case, case.plan())
        self.assertEqual(len(self.texts("#lanes .amount")), 2048)

    def test_ties_and_single_splits(self):
        tied = Case(**{**A, "table": [99, 20, 24, 21]})
        self.check_plan("tie", tied, page(tied))
        self.assertEqual((self.text("#ties"), self.text("#within")), ("2", "1, 3"))
        self.assertEqual(self.text("#alternative"), "Best alternative: Plant 1 makes 3 (the same total).")
        single = Case(**{**A, "supplies": [3, 1, 1]})
        self.check_plan("single", single, page(single))
        flat = Case([[1, 1]] * 2, [6, 6], [3, 3], [5] * 7)
        self.check_plan("flat", flat, page(flat))
        free = Case([[0, 0]] * 2, [6, 6], [3, 3], [0] * 7)
        self.check_plan("free", free, page(free))

    def refused(self, name, tariff, production=b"99\r\n20\r\n24\r\n20\r\n"):
        self.show(name, files_page(File(TARIFF, "tariff.csv", tariff), File(PRODUCTION, "production.csv", production)))

    def test_refusals(self):
        self.refused("semicolon", b"2,6,3\r\n5;3;3\r\n1,4,1\r\n3,2,\r\n")
        self.assertEqual([self.text("#" + part) for part in ("number", "place", "record", "field", "offset")], ["21", "8", "2", "1", "8"])
        self.assertEqual((self.text("pre mark"), self.text("#byte")), (";", "; (byte 59)"))
        self.assertIn("semicolon", self.text("#cause"))
        self.assertIn("5;3;3", self.text("pre"))
        self.refused("fields", b"2,6,3\r\n5,3,3\r\n1,4,5,1\r\n3,2,\r\n")
        self.assertEqual([self.text("#" + part) for part in ("number", "place", "record", "field")], ["22", "3", "3", "4"])
        self.assertEqual(self.text("pre mark"), "1")
        self.refused("supply", b"2,6,3\r\n5,3,4001\r\n1,4,1\r\n3,2,\r\n")
        self.assertEqual([self.text("#" + part) for part in ("number", "place", "record", "field")], ["4", "2", "2", "3"])
        self.assertEqual(self.text("pre mark"), "4001")
        self.refused("short", b"2,6,3\r\n5,3,3")
        self.assertEqual([self.text("#" + part) for part in ("number", "offset")], ["21", "12"])
        self.assertIn("end", self.text("pre mark"))
        self.refused("balance", b"2,6,3\r\n5,3,3\r\n1,4,6\r\n3,2,\r\n")
        self.assertEqual(self.text("#number"), "7")
        self.assertEqual(self.texts("#facts td"), ["5", "6", "\u22121", "6", "0"])
        self.show("missing", files_page(open_file(TARIFF, "nowhere.csv"), File(PRODUCTION, "production.csv", b"1")))
        self.assertEqual(self.text("#number"), "20")

    def test_hostile_bytes(self):
        """What stands in a file is shown, not run."""
        self.refused("hostile", b"<script>alert(1)</script>")
        self.assertEqual((self.text("pre mark"), len(self.texts("script"))), ("<", 0))

    def in_order(self, selector):
        """Whether the signs of an element's text stand from left to right."""
        script = """(selector => {
          const text = document.querySelector(selector).firstChild, range = document.createRange(), lefts = [];
          for (let k = 0; k < text.length; k++) { range.setStart(text, k); range.setEnd(text, k + 1); lefts.push(range.getBoundingClientRect().left); }
          return lefts.every((left, k) => k === 0 || lefts[k - 1] < left);
        })"""
        return self.browser.run(f"{script}({json.dumps(selector)})")

    def test_names_do_not_turn_numbers_round(self):
        """A name with a mark that turns the direction of writing, and a path with one."""
        shown = page(season()._replace(sources=["Gra\u202esse", "Holz\u2067minden"], title="Autumn \u202e"))
        self.show("turned", shown)
        numbers = ("#within", "#split", "#rest", "td.use")
        self.assertEqual([self.in_order(selector) for selector in numbers], [True] * 4)
        self.show("turned-bare", shown.replace("<bdi>", "").replace("</bdi>", ""))  # the test of the test
        self.assertFalse(all(self.in_order(selector) for selector in numbers))
        self.show("turned-path", files_page(File(TARIFF, "tar\u202eiff.csv", b"2;6"), File(PRODUCTION, "p", b"1")))
        self.assertEqual(self.texts("#sentence bdi, h2 bdi, header bdi"), ["No plan", "tar\u202eiff.csv", "p", "tar\u202eiff.csv", "tar\u202eiff.csv"])

    def test_names_in_attributes_and_the_title(self):
        """Where no element can set a name apart, marks do, and no mark in the name ends them."""
        case = Case(**A, sources=["Gra\u202esse", "Holz\u2067min\u2069\u2069den", "c"], terminals=["a", "b"], title="Autumn \u202e")
        self.show("marked", page(case))
        self.assertEqual(self.browser.run("document.title"), "\u2068Autumn \u202e\u2069")
        titles = self.browser.run("['1,2', '2,1'].map(lane => document.querySelector(`td[data-lane='${lane}']`).title)")
        self.assertEqual(titles, ["\u2068Gra\u202esse\u2069 \u2192 \u2068b\u2069: unit cost 6", "\u2068Holz\u2067minden\u2069\u2069 \u2192 \u2068a\u2069: unit cost 5"])

    def test_names_are_copied_as_text(self):
        case = Case(**A, sources=["=1+1", "\t-2", "@x"], terminals=["a\tb\r\nc", '+"d"'])
        self.show("copied", page(case))
        self.browser.run("document.addEventListener('copy', () => { window.copied = document.activeElement.value; })")
        self.browser.run("document.getElementById('copy').focus()")
        self.browser.press("Enter", text="\r")
        rows = [row.split("\t") for row in self.browser.run("window.copied").split("\n")]
        due = [["1", "1", "'=1+1", "a b c", "3", "2", "6"], ["2", "2", "' -2", "\"'+\"\"d\"\"\"", "1", "3", "3"], ["3", "2", "'@x", "\"'+\"\"d\"\"\"", "1", "4", "4"], [""]]
        self.assertEqual(rows[1:], due)

    def test_policy(self):
        """No script runs but the page's own, and a refusal has none."""
        text = page(A)
        policy = re.search('Content-Security-Policy" content="([^"]*)"', text).group(1)
        for part in ("default-src &#39;none&#39;", "base-uri &#39;none&#39;", "form-action &#39;none&#39;", "script-src &#39;sha256-"):
            self.assertIn(part, policy.replace("'", "&#39;"))
        path = os.path.join(self.folder, "policy.html")
        for shown in (text, page({**A, "table": [1]})):
            with open(path, "w", encoding="utf-8", newline="\n") as out:
                out.write(shown.replace("</main>", "</main><script>window.ran = true</script>"))
            self.browser.open(path)
            self.assertEqual((self.browser.run("window.ran === undefined"), len(self.browser.errors)), (True, 1))

    def test_path_that_is_no_text(self):
        tariff = File(TARIFF, os.fsdecode(b"tar\xff.csv"), b"2;6")
        text = files_page(tariff, File(PRODUCTION, "p", b"1"))
        text.encode("utf-8")
        self.assertIn("<bdi>tar\\xff.csv</bdi>", text)

    def test_narrow(self):
        for name, text in (("season", page(season())), ("refusal", files_page(File(TARIFF, "a/long/" * 20 + "tariff.csv", b"x" * 500), File(PRODUCTION, "p", b"1")))):
            self.show(name, text, width=360, height=740)
            self.assertLessEqual(self.browser.run("document.documentElement.scrollWidth"), 360)
        self.show("season", page(season()), width=360, height=740)
        self.assertEqual(self.browser.run("[getComputedStyle(document.querySelector('.broad')).display, getComputedStyle(document.querySelector('.slim')).display]"), ["none", "block"])

    def test_paper(self):
        """Each part of a large table fits on a page of A4 with margins of 12 mm, also where every number is as long as it can be."""
        draw = random.Random(7)
        long = Case(
            [[draw.choice((-1, 1)) * draw.randint(900_000, 1_000_000) for _ in range(64)] for _ in range(32)],
            [4000, 4000] + [draw.randint(60, 70) for _ in range(30)],
            [draw.randint(30, 60) for _ in range(64)],
            [1_000_000_000 - y for y in range(4001)],
            ceilings=[[draw.choice((5, 6, 7, 8, 9, 3999)) for _ in range(64)] for _ in range(32)],
        )
        for name, case in (("paper-large", large()), ("paper-long", long), ("paper-season", season())):
            self.show(name, page(case), width=703, height=1031)
            self.browser.call("Emulation.setEmulatedMedia", media="print")
            sizes = self.browser.run("Array.from(document.querySelectorAll('div.paper table.lanes')).map(t => [t.offsetWidth, t.offsetHeight])")
            words = self.browser.run("Array.from(document.querySelectorAll('dd')).every(d => d.scrollWidth <= d.parentElement.clientWidth)")
            letters = "Array.from(document.querySelectorAll('div.paper table.lanes *')).map(x => parseFloat(getComputedStyle(x).fontSize))"
            smallest = self.browser.run(f"Math.min(...{letters})")
            scaled = "x => parseFloat(getComputedStyle(x).fontSize) * Math.hypot(x.getScreenCTM().a, x.getScreenCTM().b)"
            seen = "Array.from(document.querySelectorAll('figure svg text')).filter(x => x.getBoundingClientRect().width)"
            drawn = self.browser.run(f"Math.min(...{seen}.map({scaled}))")
            self.browser.call("Emulation.setEmulatedMedia", media="")
            self.assertGreaterEqual(round(smallest * 72 / 96, 2), 7)  # points
            self.assertGreaterEqual(round(drawn * 72 / 96, 2), 7)
            self.assertGreaterEqual(len(sizes), 3)
            self.assertLessEqual(max(wide for wide, _ in sizes), 703)
            self.assertLessEqual(max(high for _, high in sizes), 1031)
            self.assertTrue(words)

    def test_keyboard(self):
        self.show("keyboard", page(season()))
        reached = []
        for _ in range(12):
            self.browser.press("Tab")
            reached.append(self.browser.run("document.activeElement.id || document.activeElement.getAttribute('aria-label') || document.activeElement.tagName"))
        for due in ("SUMMARY", "Drums from each source to each terminal", "copy", "file", "Lanes in use"):
            self.assertIn(due, reached)
        self.browser.run("document.getElementById('copy').focus()")
        self.browser.press("Enter", text="\r")
        self.assertIn("49 lanes", self.text("#copied"))
        self.browser.run("document.querySelector('summary').focus()")
        self.browser.press("Enter", text="\r")
        self.assertTrue(self.browser.run("document.querySelector('details').open"))
        self.assertEqual(self.browser.errors, [])

    def test_about(self):
        """Runs, use of the plants, currency, date, version and both fingerprints."""
        case = season()._replace(currency="EUR", date="17 November 2026")
        due = case.plan()
        self.show("about", page(case))
        made = sum(case.demands) - sum(case.supplies[2:])
        self.assertEqual([x.split(",  ")[0].rsplit(", ", 1)[0] for x in self.texts("td.use")], [f"{x:,} of {a:,}" for x, a in zip((due.split, made - due.split), case.supplies)])
        self.assertEqual([number(x) for x in self.texts("td.run")], list(case.runs))
        self.assertEqual((self.text("#currency"), self.text("#date")), ("EUR", "17 November 2026"))
        self.assertEqual(self.browser.run("[document.getElementById('case-print').title, document.getElementById('plan-print').title]"), [fingerprint(case), plan_fingerprint(case, due)])
        self.assertIn(f"yadvorkhul {__version__}", self.text("#about"))
        self.assertIn("drums that Grasse makes", " ".join(self.texts("figure svg text")))

    def test_one_more(self):
        """Each change that is shown is that of planning again."""
        case = season()
        self.show("one-more", page(case))
        shown = self.browser.run("Array.from(document.querySelectorAll('.help li span')).map(x => x.textContent)")
        due = sorted(drum.change for drum in one_more(case) if drum.change)
        self.assertEqual(sorted(number(x) for x in shown), due)
        self.assertIn("below 70,747", " ".join(self.texts(".help li")))

    def test_pointer(self):
        """The numbers under the pointer and by the arrow keys are those of the list of every split."""
        case = season()
        self.show("pointer", page(case))
        every = {int(row[0]): row for row in self.table("#splits tbody tr")}
        box = self.browser.run("(() => { const s = document.querySelector('.broad svg'), b = s.getBoundingClientRect(), d = s.dataset; return [b.left + (Number(d.left) + Number(d.right)) / 2 / s.viewBox.baseVal.width * b.width, b.top + 20]; })()")
        self.browser.call("Input.dispatchMouseEvent", type="mouseMoved", x=box[0], y=box[1])
        told = self.text("#pointed")
        split = number(re.search("Grasse\\W* ([0-9,]+), ", told).group(1))
        low, high = min(every), max(every)
        self.assertLessEqual(abs(split - (low + high) / 2), 2)
        self.assertIn(f"total {int(every[split][4]):,}", told)
        self.browser.run("document.querySelector('figure').focus()")
        for _ in range(2):
            self.browser.press("ArrowRight")
        self.assertIn(f"total {int(every[split + 2][4]):,}", self.text("#pointed"))
        self.assertEqual(self.browser.errors, [])

    def test_bounds(self):
        """The page of bounds: counts and stretches are the proved function's."""
        case = season()
        high = [entry + 900 for entry in case.table]
        found = bounds(*case[:4], high, case.runs, case.ceilings)
        self.show("bounds", bounds_page(case, high, found))
        self.assertEqual([number(self.text("#" + name)) for name in ("smallest", "largest")], [found.smallest, found.largest])
        marks = [row[1] == "yes" for row in self.table("#splits tbody tr")]
        self.assertEqual(marks, found.possible)
        shown = set()
        for part in self.text("#possible").split(", "):
            ends = [number(x) for x in part.split(" to ")]
            shown |= set(range(ends[0], ends[-1] + 1))
        self.assertEqual(shown, {found.first + k for k, can in enumerate(found.possible) if can})

    def test_compare(self):
        one, other = season(), season()._replace(ceilings=None)
        self.show("compare", compare_page(compare(side("a", one), side("b", other))))
        results = [[number(x) for x in row[1:3]] for row in self.table("#results tbody tr")]
        self.assertEqual(results[-1], [one.plan().total, other.plan().total])
        self.assertEqual(len(self.table("#inputs tbody tr")), 11)
        differ = sum(x != y for xs, ys in zip(one.plan().amounts, other.plan().amounts) for x, y in zip(xs, ys))
        self.assertEqual(len(self.table("#lanes-differ tbody tr")), differ)

    def test_contrast(self):
        """Each text against what it stands on, by the rule of WCAG 2: at least 4.5 to 1."""
        script = """(() => {
          const part = c => { c /= 255; return c <= 0.03928 ? c / 12.92 : Math.pow((c + 0.055) / 1.055, 2.4); };
          const numbers = c => c.match(/[0-9.]+/g).map(Number);
          const light = c => { const [r, g, b] = numbers(c); return 0.2126 * part(r) + 0.7152 * part(g) + 0.0722 * part(b); };
          const behind = x => { for (; x; x = x.parentElement) { const c = getComputedStyle(x).backgroundColor; const n = numbers(c); if (n.length < 4 || n[3] > 0) return c; } return 'rgb(255, 255, 255)'; };
          let least = 99;
          for (const x of document.querySelectorAll('main *')) {
            if (x.closest('svg') || !Array.from(x.childNodes).some(c => c.nodeType === 3 && c.textContent.trim())) continue;
            const a = light(getComputedStyle(x).color), b = light(behind(x));
            least = Math.min(least, (Math.max(a, b) + 0.05) / (Math.min(a, b) + 0.05));
          }
          return least;
        })()"""
        self.show("contrast", page(season()))
        self.assertGreaterEqual(self.browser.run(script), 4.5)
        self.refused("contrast-refused", b"2,6,3\n")
        self.assertGreaterEqual(self.browser.run(script), 4.5)

    def test_the_console_is_heard(self):
        """The test of the tests: a page that errs is noticed, and so is one that asks for a file elsewhere."""
        path = os.path.join(self.folder, "errs.html")
        for body in ("<script>nothing.at.all</script>", "<script>console.error('no')</script>", "<img src='http://127.0.0.1:9/x.png'>"):
            with open(path, "w", encoding="utf-8") as out:
                out.write(body)
            self.browser.open(path)
            self.assertNotEqual(self.browser.errors, [])


class Pictures(unittest.TestCase):
    def picture(self, settings):
        """The picture, made in a folder with a matplotlibrc that says this."""
        with tempfile.TemporaryDirectory() as folder:
            if settings is not None:
                with open(os.path.join(folder, "matplotlibrc"), "wb") as out:
                    out.write(settings)
            words = ["page", *(os.path.abspath(file.path) for file in example("case_a")), "-o", "plan.html", "--picture", "plan.svg"]
            here = {**os.environ, "PYTHONPATH": os.path.dirname(os.path.abspath(__file__))}
            done = subprocess.run([sys.executable, "-m", "yadvorkhul", *words], cwd=folder, env=here, capture_output=True)
            if done.returncode:
                return done.returncode, done.stderr.decode(), sorted(os.listdir(folder))
            with open(os.path.join(folder, "plan.svg"), "rb") as stream:
                return stream.read()

    def test_settings_of_the_folder_are_not_taken(self):
        due = self.picture(None)
        self.assertIn(b"<svg", due)
        self.assertEqual(self.picture(b"axes.facecolor: red\nfont.size: 40\naxes.titlesize: 40\nsvg.fonttype: path\nbackend: nothing\n"), due)

    def test_long_name(self):
        """A name of any length: the page has it whole, the picture its beginning."""
        shown = page({**A, "sources": ["x" * 5_000]})
        self.assertEqual((shown.count("drums that " + "x" * 39 + "\u2026 makes"), "x" * 5_000 in shown), (2, True))

    def test_settings_that_are_no_text(self):
        self.assertEqual(self.picture(b"\xff\xfe\x00"), self.picture(None))

    def test_folder_and_environment_stay(self):
        """Threads draw for the first time in a folder with settings: one page, and the folder and MATPLOTLIBRC are as before."""
        script = (
            "import concurrent.futures, os, sys; from yadvorkhul import page; given = dict(costs=[[2], [5]], supplies=[3, 3], demands=[3], table=[9] * 4)\n"
            "before = os.getcwd(), os.environ.get('MATPLOTLIBRC')\n"
            "with concurrent.futures.ThreadPoolExecutor(4) as pool: pages = set(pool.map(page, [given] * 4))\n"
            "sys.exit(len(pages) != 1 or (os.getcwd(), os.environ.get('MATPLOTLIBRC')) != before)"
        )
        with tempfile.TemporaryDirectory() as folder:
            with open(os.path.join(folder, "matplotlibrc"), "wb") as out:
                out.write(b"\xff\xfe\x00")
            here = {**os.environ, "PYTHONPATH": os.path.dirname(os.path.abspath(__file__)), "MATPLOTLIBRC": os.path.join(folder, "matplotlibrc")}
            done = subprocess.run([sys.executable, "-c", script], cwd=folder, env=here, capture_output=True)
            self.assertEqual((done.returncode, done.stderr), (0, b""))


class Curves(unittest.TestCase):
    def test_valleys(self):
        found = curve_of(plan(**A), A["table"])
        self.assertEqual([(v.first.split, v.last.split, v.more) for v in found.valleys], [(1, 1, 1), (3, 3, 0)])

    def test_refused_case(self):
        with self.assertRaises(Refusal):
            Case(**{**A, "table": [1]}).plan()
        self.assertIn("entries wanted", page({**A, "table": [1]}))


if __name__ == "__main__":
    unittest.main()
