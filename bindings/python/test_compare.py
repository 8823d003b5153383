"""Tests of what one drum more would change, of changes a line, and of two plans beside each other."""

import contextlib
import importlib.util
import io
import json
import os
import random
import tempfile
import unittest

from yadvorkhul import Case, Refusal, Role, command
from yadvorkhul.again import Again, NotAChange, as_json, one_more
from yadvorkhul.cases import read_case
from yadvorkhul.commands.compare import text_of
from yadvorkhul.compare import case_named, compare, side
from yadvorkhul.forms import case_json

EXAMPLES = os.path.join(os.path.dirname(os.path.abspath(__file__)), "..", "..", "examples")
A = Case([[2, 6], [5, 3], [1, 4]], [3, 3, 1], [3, 2], [99, 20, 24, 20])
FIELDS = {"demand": "demands", "supply": "supplies", "stock": "supplies"}


def season():
    return read_case(os.path.join(EXAMPLES, "season", "season.json"))


def drawn(draw):
    """A small case, of which many have full lanes, runs and rebates."""
    m, n = draw.randint(2, 4), draw.randint(1, 4)
    demands = [draw.randint(0, 6) for _ in range(n)]
    supplies = [draw.randint(0, 9), draw.randint(0, 9)] + [draw.randint(0, 3) for _ in range(m - 2)]
    costs = [[draw.randint(-3, 9) for _ in range(n)] for _ in range(m)]
    table = [draw.randint(0, 30) for _ in range(supplies[0] + 1)]
    ceilings = [[draw.choice((4000, 0, 1, 2, 3, 5)) for _ in range(n)] for _ in range(m)] if draw.random() < 0.7 else None
    return Case(costs, supplies, demands, table, (draw.randint(0, min(2, supplies[0])), draw.randint(0, min(2, supplies[1]))), ceilings)


def altered(case, drum):
    """The case that a drum speaks of, entered afresh."""
    if drum.kind == "ceiling":
        rows = [list(row) for row in case.ceilings]
        rows[drum.source - 1][drum.terminal - 1] += 1
        return case._replace(ceilings=rows)
    if drum.kind == "run":
        runs = list(case.runs)
        runs[drum.source - 1] -= 1
        return case._replace(runs=tuple(runs))
    numbers = list(getattr(case, FIELDS[drum.kind]))
    numbers[(drum.terminal or drum.source) - 1] += 1
    return case._replace(**{FIELDS[drum.kind]: numbers})


def answer(case):
    try:
        plan = case.plan()
        return 0, plan.total
    except Refusal as refusal:
        return refusal.number, None


class OneMore(unittest.TestCase):
    def check(self, case):
        plan = case.plan()
        seen = set()
        for drum in one_more(case):
            seen.add(drum.kind)
            if (drum.kind, drum.source) == ("supply", 1):
                self.check_plant_1(case, plan, drum)
                continue
            number, total = answer(altered(case, drum))
            self.assertEqual((drum.refusal, drum.change), (number, None if number else total - plan.total))
        return seen

    def check_plant_1(self, case, plan, drum):
        """At the price told the total does not fall, one below it does."""
        if drum.below is None:
            self.assertTrue(drum.refusal)
            return
        more = case._replace(supplies=[case.supplies[0] + 1] + case.supplies[1:])
        for price, cheaper in ((drum.below, False), (drum.below - 1, True)):
            if 0 <= price <= 1_000_000_000:
                self.assertEqual(more._replace(table=case.table + [price]).plan().total < plan.total, cheaper)

    def test_random(self):
        draw, seen, planned = random.Random(40), set(), 0
        while planned < 150:
            case = drawn(draw)
            if not answer(case)[0]:
                seen |= self.check(case)
                planned += 1
        self.assertEqual(seen, {"ceiling", "demand", "supply", "stock", "run"})

    def test_season(self):
        case = season()
        self.check(case)
        drums = one_more(case)
        full = [drum for drum in drums if drum.kind == "ceiling" and drum.now]
        self.assertEqual((len(full), sum(drum.kind == "demand" for drum in drums)), (8, 30))
        self.assertEqual(json.loads(json.dumps(as_json(drums)))[0]["change"], drums[0].change)

    def test_case_is_not_changed(self):
        case = season()
        again = Again(case)
        before = again.plan([])
        for drum in one_more(case):
            self.assertEqual(case, season())
        with self.assertRaises(Refusal):
            again.plan(again.changes("demand 1 = 4001"))
        self.assertEqual((again.plan([]), before), (before, case.plan()))


class Changes(unittest.TestCase):
    def test_against_afresh(self):
        """A line of changes gives what the changed case gives, entered afresh."""
        draw, case = random.Random(7), season()
        again = Again(case)
        for _ in range(60):
            i, j, y = draw.randrange(12), draw.randrange(30), draw.randrange(1501)
            value, entry = draw.choice((0, 50, 120, 4001)), draw.choice((0, 99999, 2_000_000_000))
            kind = draw.choice(("demand", "supply", "cost", "ceiling", "entry", "run"))
            fields = case._asdict()
            rows = {name: [list(row) for row in fields[name]] for name in ("costs", "ceilings")}
            lists = {name: list(fields[name]) for name in ("demands", "supplies", "table", "runs")}
            if kind in ("cost", "ceiling"):
                rows[kind + "s"][i][j] = value
                text = f"{kind} {i + 1} {j + 1} = {value}"
            elif kind == "entry":
                lists["table"][y] = entry
                text = f"entry {y} = {entry}"
            else:
                place = j if kind == "demand" else i if kind == "supply" else i % 2
                lists[{"demand": "demands", "supply": "supplies", "run": "runs"}[kind]][place] = value
                text = f"{kind} {place + 1} = {value}"
            due = Case(**{**fields, **rows, **lists})
            number, place, total = again.totals(again.changes(text))
            try:
                plan = due.plan()
                self.assertEqual((number, place, total), (0, plan.split, plan.total), text)
                self.assertEqual(again.plan(again.changes(text)), plan)
            except Refusal as refusal:
                self.assertEqual((number, place), (refusal.number, refusal.place), text)

    def test_several(self):
        again = Again(A)
        self.assertEqual(again.totals(again.changes("demand 2 = 3, demand 2 = 9, demand 2 = 2")), again.totals([]))
        self.assertEqual(again.changes("  "), [])

    def test_wrong(self):
        again = Again(A)
        for text, words in (
            ("demand 3 = 1", "there is no demand 3"),
            ("demand 0 = 1", "there is no demand 0"),
            ("entry 4 = 1", "there is no entry 4; the case has 4 from 0 on"),
            ("cost 1 = 1", "a source and a terminal"),
            ("cost 4 1 = 1", "there is no lane from source 4 to terminal 1"),
            ("demand 1 2 = 1", "one number"),
            ("demand 1 = -1", "only a cost may be below 0"),
            ("demand 1 = 1.5", "is no change"),
            ("demand 1", "is no change"),
            ("demand 1 = 2; demand 2 = 1", "is no change"),
            ("demand 1 = 99999999999999999999", "is no change"),
            ("cost 1 1 = 9999999999999999999", "does not fit a cell"),
        ):
            with self.assertRaises(NotAChange) as caught:
                again.changes(text)
            self.assertIn(words, str(caught.exception))


class Compared(unittest.TestCase):
    def test_same(self):
        found = compare(side("a", A), side("b", A._replace(sources=["Grasse"])))
        self.assertEqual((found.inputs, found.lanes, {row.more for row in found.results}), ([], [], {0}))
        self.assertTrue(all(one == other for _, one, other in found.prints))

    def test_differs(self):
        other = A._replace(demands=[3, 3], runs=(0, 1), ceilings=[[4000, 4000], [4000, 4000], [0, 4000]], table=[99, 20, 24, 21])
        found = compare(side("a", A), side("b", other))
        told = {row.name: (row.one, row.other) for row in found.inputs}
        due = {"demand of Terminal 2": (2, 3), "least run of Plant 2": (0, 1), "ceiling Depot 3 to Terminal 1": (4000, 0), "entry 3": (20, 21)}
        self.assertEqual(told, due)
        a, b = A.plan(), other.plan()
        lanes = {(row.one, row.other) for row in found.lanes}
        self.assertEqual(lanes, {(x, y) for xs, ys in zip(a.amounts, b.amounts) for x, y in zip(xs, ys) if x != y})
        self.assertEqual([row.other for row in found.results], [b.split, 6 - 1 - b.split, other.table[b.split], b.freight, b.total])
        self.assertTrue(all(one != two for _, one, two in found.prints))

    def test_by_name(self):
        """Sources and terminals in another order are the same ones: numbers stand under the name that they have in both."""
        case = season()
        turn = lambda names, k, l: [names[l] if i == k else names[k] if i == l else name for i, name in enumerate(names)]
        for k, l, m, n in ((0, 1, 2, 5), (3, 29, 11, 7)):
            both = lambda rows: [turn(row, k, l) for row in turn(rows, m, n)]
            other = case._replace(costs=both(case.costs), ceilings=both(case.ceilings), demands=turn(case.demands, k, l), supplies=turn(case.supplies, m, n))
            other = other._replace(sources=turn(case.sources, m, n), terminals=turn(case.terminals, k, l))
            found = compare(side("a", case), side("b", other))
            self.assertEqual((found.inputs, found.by_name, {row.more for row in found.results}), ([], ["sources", "terminals"], {0}))
            self.assertEqual(len(set(found.prints[0][1:])), 2)
            demands = list(other.demands)
            demands[k] += 1
            found = compare(side("a", case), side("b", other._replace(demands=demands)))
            self.assertEqual(found.inputs, [(f"demand of {case.terminals[l]}", case.demands[l], case.demands[l] + 1)])
            amounts = {(s, t): x for s, row in zip(other.sources, other._replace(demands=demands).plan().amounts) for t, x in zip(other.terminals, row)}
            for row in found.lanes:
                self.assertEqual(row.other, amounts[tuple(row.name.split(" to "))])
            self.assertIn("numbers are matched by name", text_of(found))
        refused = other._replace(costs=other.costs[1:])
        self.assertEqual(compare(side("a", case), side("b", refused)).by_name, [])

    def test_names_differ(self):
        """Another name, title, currency or date is an input that differs, and a number stands under both names."""
        one = A._replace(sources=["G", "H", "L"], terminals=["Paris", "Rome"], currency="EUR", date="1 May")
        other = one._replace(terminals=["Elsewhere", "Rome"], currency="CHF", date="2 May", title="t", demands=[2, 2])
        found = compare(side("a", one), side("b", other))
        texts = [("title", None, "t"), ("currency", "EUR", "CHF"), ("date", "1 May", "2 May"), ("name of terminal 1", "Paris", "Elsewhere")]
        self.assertEqual(found.inputs, texts + [("demand of Paris / Elsewhere", 3, 2)])
        self.assertIn("EUR", text_of(found))
        turned = one._replace(sources=["H", "G", "L"])
        found = compare(side("a", one), side("b", turned))
        self.assertEqual(found.inputs, [("name of plant 1", "G", "H"), ("name of plant 2", "H", "G")])
        self.assertEqual([row.name for row in found.results[:2]], ["G / H makes", "H / G makes"])
        small = Case([[1], [1]], [2, 2], [2], [0, 0, 0], sources=["X", "H"])
        found = compare(side("a", one._replace(currency="", date="")), side("b", small))
        self.assertEqual([row.name for row in found.inputs], ["name of plant 1", "sources", "terminals"])
        self.assertEqual(found.results[0].name, "G / X makes")
        said = text_of(compare(side("a", one), side("b\udcff", one._replace(title="\u202e\x1b[2J"))))
        self.assertEqual(("\x1b" in said, "\\x1b[2J" in said, "b\\xff" in said), (False, True, True))

    @unittest.skipUnless(importlib.util.find_spec("matplotlib") and importlib.util.find_spec("jinja2"), "the page needs Jinja2 and Matplotlib")
    def test_names_on_the_page(self):
        from yadvorkhul.pages import compare_page

        one = A._replace(sources=["G", "H", "L"], terminals=["Paris", "Rome"], currency="<EUR>")
        page = compare_page(compare(side("a", one), side("b", one._replace(terminals=["Rome", "Paris"], currency="CHF"))))
        self.assertIn("<td><bdi>&lt;EUR&gt;</bdi></td><td><bdi>CHF</bdi></td><td></td>", page)
        self.assertIn("The terminals stand in another order in B: numbers are matched by name", page)

    def test_refused_and_sizes(self):
        small = Case([[1], [1]], [2, 2], [9], [0, 0, 0])
        found = compare(side("a", A), side("b", small))
        self.assertEqual((found.alike, found.lanes, found.sides[1].plan), (False, [], None))
        self.assertIn("refusal 8", found.sides[1].refused)
        self.assertEqual([(row.name, row.one, row.other) for row in found.inputs], [("sources", 3, 2), ("terminals", 2, 1)])

    def test_no_fingerprint(self):
        """A side without a plan has no fingerprint of one, and that is said."""
        refused = A._replace(demands=[9, 9])
        for one, other, due in ((A, refused, " / none"), (refused, A, "none / "), (refused, refused, "fingerprint of the plan: none; neither has one\n")):
            found = compare(side("a", one), side("b", other))
            self.assertIn(due, text_of(found))
            self.assertNotRegex(text_of(found), "the same, *\n")

    def test_cause_of_a_file(self):
        with tempfile.TemporaryDirectory() as folder:
            for name, data in (("tariff.csv", b"2;6;3\r\n"), ("production.csv", b"99\r\n")):
                with open(os.path.join(folder, name), "wb") as out:
                    out.write(data)
            status, _, said = self.told(folder, folder)
            self.assertEqual(status, 2)
            self.assertIn("Here stands a semicolon; fields are parted by commas", said)

    def told(self, *words):
        out, errors = io.BytesIO(), io.StringIO()
        with contextlib.redirect_stdout(io.TextIOWrapper(out)), contextlib.redirect_stderr(errors):
            status = command.main(["compare", *words])
            return status, out.getvalue().decode(), errors.getvalue()

    def test_command(self):
        a = os.path.join(EXAMPLES, "case_a")
        pair = os.path.join(a, "tariff.csv") + "+" + os.path.join(a, "production.csv")
        status, text, _ = self.told(a, pair)
        self.assertEqual(status, 0)
        self.assertIn("no input differs.", text)
        self.assertIn("fingerprint of the case: the same", text)
        with tempfile.TemporaryDirectory() as folder:
            path = os.path.join(folder, "b.json")
            with open(path, "w", encoding="utf-8") as out:
                out.write(case_json(A._replace(demands=[3, 3])))
            status, text, _ = self.told(a, path, "--json")
            found = json.loads(text)
            self.assertEqual(found["inputs"], [{"name": "demand of Terminal 2", "a": 2, "b": 3}])
            self.assertEqual([row["b"] for row in found["results"]][-1], 36)
            self.assertEqual(len(found["a"]["plan_fingerprint"]), 64)
        self.assertEqual(self.told(a, os.path.join(EXAMPLES, "none.json"))[0], 2)
        self.assertEqual(self.told(a, os.path.join(EXAMPLES, "season", "none") + "+x")[0], 2)

    def test_marks(self):
        """A mark of a served case, read out of its journal."""
        from yadvorkhul.serve.journal import create
        from yadvorkhul.serve.shared import Person, SharedCase

        with tempfile.TemporaryDirectory() as folder:
            path = os.path.join(folder, "a.journal")
            fields = {name: list(value) if isinstance(value, tuple) else value for name, value in A._asdict().items()}
            opened = create(path, {"do": "enter", "user": "", "role": int(Role.PLANNER), "case": fields})
            shared = SharedCase(opened.journal, opened.records)
            who = Person("p", Role.PLANNER)
            shared.do(who, [["mark", 3]], {}, "")
            shared.do(who, [["edit_demand", 2, 3]], {}, "")
            self.assertEqual(case_named(path + "@3"), A)
            self.assertEqual(case_named(path), A._replace(demands=[3, 3]))
            self.assertEqual(self.told(path + "@4", path)[0], 2)
            status, text, _ = self.told(path + "@3", path)
            self.assertIn("demand of Terminal 2", text)
            opened.journal.close()


if __name__ == "__main__":
    unittest.main()
