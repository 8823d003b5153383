"""Tests of the working case: random histories against whole copies, refusals, roles, and what depot and reader get."""

import copy
import doctest
import gc
import pickle
import random
import unittest

import yadvorkhul.work
from yadvorkhul import Refusal, Role, WorkingCase, plan
from yadvorkhul.work import store_cells

A = dict(costs=[[2, 6], [5, 3], [1, 4]], supplies=[3, 3, 1], demands=[3, 2], table=[99, 20, 24, 20])
CALLS = ("edit_demand", "edit_supply", "edit_cost", "edit_entry", "mark", "go_back")


def told(call, *numbers):
    """What a call gives, or number and place of its refusal."""
    try:
        return call(*numbers)
    except Refusal as refusal:
        return refusal.number, refusal.place


class Model:
    """A whole copy of the case, and one for each mark that is set; refusals as the paper has them."""

    def __init__(self, case):
        self.case, self.marks = copy.deepcopy(case), {}

    def edit_demand(self, j, v):
        if not 1 <= j <= len(self.case["demands"]):
            return 24, 0
        if v > 4000:
            return 4, len(self.case["supplies"]) + j
        self.case["demands"][j - 1] = v

    def edit_supply(self, i, v):
        if not 1 <= i <= len(self.case["supplies"]):
            return 24, 0
        if v > 4000:
            return 4, i
        if i <= 2 and v < self.case["runs"][i - 1]:
            return 23, i
        self.case["supplies"][i - 1] = v
        if i == 1:
            self.case["table"] = (self.case["table"] + [0] * v)[: v + 1]

    def edit_cost(self, i, j, v):
        n = len(self.case["demands"])
        if not (1 <= i <= len(self.case["supplies"]) and 1 <= j <= n):
            return 24, 0
        if abs(v) > 1000000:
            return 5, (i - 1) * n + j
        self.case["costs"][i - 1][j - 1] = v

    def edit_entry(self, y, v):
        if y >= len(self.case["table"]):
            return 24, 0
        self.case["table"][y] = v

    def mark(self, k):
        if not 1 <= k <= 8:
            return 24, 0
        self.marks[k] = copy.deepcopy(self.case)

    def go_back(self, k):
        if not 1 <= k <= 8:
            return 24, 0
        if k not in self.marks:
            return 25, k
        self.case = copy.deepcopy(self.marks[k])


def drawn_case(draw):
    m, n = draw.randint(2, 4), draw.randint(1, 3)
    supplies = [draw.randint(0, 8) for _ in range(m)]
    return dict(
        costs=[[draw.randint(-20, 60) for _ in range(n)] for _ in range(m)],
        supplies=supplies,
        demands=[draw.randint(0, 9) for _ in range(n)],
        table=[draw.randint(0, 200) for _ in range(supplies[0] + 1)],
        runs=[draw.randint(0, min(2, supplies[0])), draw.randint(0, min(2, supplies[1]))],
        ceilings=[[draw.choice((0, 2, 9, 4000)) for _ in range(n)] for _ in range(m)],
    )


def drawn_call(draw, case):
    """A call of any kind, now and then at a place that is not there or with a value out of range."""
    m, n, entries = len(case["supplies"]), len(case["demands"]), len(case["table"])
    place = lambda most: draw.choice((0, most + 1, (1 << 64) - 1)) if draw.random() < 0.08 else draw.randint(1, most)
    amount = lambda: draw.choice((4001, (1 << 64) - 1)) if draw.random() < 0.06 else draw.randint(0, 11)
    kind = draw.choice(CALLS)
    if kind == "edit_demand":
        return kind, (place(n), amount())
    if kind == "edit_supply":
        return kind, (draw.choice((1, 2, place(m))), draw.choice((0, amount(), amount())))
    if kind == "edit_cost":
        return kind, (place(m), place(n), draw.choice((1000001, -1000001)) if draw.random() < 0.06 else draw.randint(-30, 60))
    if kind == "edit_entry":
        return kind, (draw.randint(0, entries), draw.choice((draw.randint(0, 200), 1000000001, (1 << 64) - 1)))
    return kind, (draw.choice((place(8), draw.randint(1, 4))),)


class Histories(unittest.TestCase):
    def test_random(self):
        draw, met = random.Random(204), {}
        for _ in range(300):
            model = Model(drawn_case(draw))
            work = WorkingCase(**model.case)
            for _ in range(12):
                kind, numbers = drawn_call(draw, model.case)
                found = told(getattr(work, kind), Role.PLANNER, *numbers)
                self.assertEqual(found, getattr(model, kind)(*numbers), (kind, numbers, model.case))
                fresh = told(plan, *(model.case[k] for k in ("costs", "supplies", "demands", "table", "runs", "ceilings")))
                self.assertEqual(told(work.plan, Role.PLANNER), fresh, model.case)
                self.assertEqual(work.see_tariff(Role.PLANNER), tuple(model.case[k] for k in ("costs", "supplies", "demands")))
                self.assertEqual(work.see_table(Role.PLANNER), model.case["table"])
                self.assertEqual(work.see_limits(Role.PLANNER), (model.case["runs"], model.case["ceilings"]))
                self.assertEqual(work.marks(Role.PLANNER), sorted(model.marks))
                mark = draw.randint(1, 8)
                held = model.marks.get(mark)
                kept = told(plan, *(held[k] for k in ("costs", "supplies", "demands", "table", "runs", "ceilings"))) if held else (25, mark)
                self.assertEqual(told(work.plan_mark, Role.PLANNER, mark), kept)
                for answer in (found, fresh):
                    number = 0 if answer is None or len(answer) == 5 else answer[0]
                    met[number] = met.get(number, 0) + 1
        for number in (0, 4, 5, 7, 8, 9, 23, 24, 25, 27):
            self.assertGreater(met.get(number, 0), 10, number)


class Refusals(unittest.TestCase):
    def refused(self, number, place, call, *numbers):
        self.assertEqual(told(call, *numbers), (number, place))

    def test_entering(self):
        self.assertEqual(store_cells(3, 2), 9 * (6 + 3 + 2 + 4020) + 9 * 6)
        self.assertEqual([store_cells(*size) for size in ((1, 2), (33, 2), (3, 0), (3, 65))], [0] * 4)
        for number, place, change in (
            (1, 0, dict(supplies=[3])),
            (2, 0, dict(demands=[])),
            (3, 0, dict(costs=[[2, 6], [5, 3], [1]])),
            (4, 5, dict(demands=[3, 4001])),
            (23, 2, dict(runs=(0, 4))),
            (5, 6, dict(costs=[[2, 6], [5, 3], [1, -1000001]])),
            (26, 0, dict(ceilings=[[1]])),
            (6, 0, dict(table=[99])),
        ):
            self.refused(number, place, lambda: WorkingCase(**{**A, **change}))
        WorkingCase(**{**A, "demands": [3000, 2], "table": [1 << 63] * 4})  # judged when it is planned

    def test_marks_and_edits(self):
        work = WorkingCase(**A, runs=(0, 1))
        self.refused(25, 1, work.go_back, 1, 1)
        for mark in (0, 9, (1 << 64) - 1):
            self.refused(24, 0, work.mark, 1, mark)
            self.refused(24, 0, work.go_back, 1, mark)
            self.refused(24, 0, work.plan_mark, 1, mark)
        self.refused(24, 0, work.edit_demand, 1, 3, 1)
        self.refused(24, 0, work.edit_supply, 1, 4, 1)
        self.refused(24, 0, work.edit_cost, 1, 1, 3, 1)
        self.refused(24, 0, work.edit_entry, 1, 4, 1)
        self.refused(4, 5, work.edit_demand, 1, 2, 4001)
        self.refused(4, 3, work.edit_supply, 1, 3, 4001)
        self.refused(23, 2, work.edit_supply, 1, 2, 0)
        self.refused(5, 6, work.edit_cost, 1, 3, 2, 1000001)
        self.assertEqual((work.see_tariff(4), work.see_table(2)), ((A["costs"], A["supplies"], A["demands"]), A["table"]))
        work.edit_supply(1, 1, 1)
        work.edit_supply(1, 1, 4)
        self.assertEqual(work.see_table(Role.PLANT), [99, 20, 0, 0, 0])

    def test_numbers(self):
        work = WorkingCase(**A)
        for odd in (-1, 1 << 64, 1.5, "3", None):
            with self.assertRaises(TypeError):
                work.mark(1, odd)
            with self.assertRaises(TypeError):
                work.plan(odd)
        with self.assertRaises(TypeError):
            work.edit_cost(1, 1, 1, 1 << 63)
        self.assertEqual(repr(work), "WorkingCase of 3 sources and 2 terminals")

    def test_roles(self):
        allowed = {1: (1, 2, 3, 4, 5, 6, 7, 8), 2: (3, 4, 5), 3: (1, 4), 4: (4,)}
        for role in (0, 1, 2, 3, 4, 5, (1 << 64) - 1):
            work = WorkingCase(**A)
            work.mark(1, 1)
            deeds = [(1, work.edit_demand, 1, 3), (1, work.edit_supply, 2, 3), (2, work.edit_cost, 1, 1, 2), (3, work.edit_entry, 0, 99)]
            deeds += [(4, work.see_tariff), (5, work.see_table), (6, work.plan), (7, work.mark, 2), (8, work.go_back, 1)]
            deeds += [(6, work.see_limits), (6, work.marks), (6, work.plan_mark, 1)]  # they count as planning
            for deed, call, *numbers in deeds:
                refused = told(call, role, *numbers) == (31, 0)
                self.assertEqual(refused, deed not in allowed.get(role, ()), (role, deed))
            self.assertEqual(told(work.edit_supply, role, 1, 3), None if role == 1 else (31, 0))
            if role != 1:
                self.refused(31, 0, work.mark, role, 9)  # 31 before 24
                self.refused(31, 0, work.plan_mark, role, 9)


class Store(unittest.TestCase):
    def test_copies_have_a_store_of_their_own(self):
        work = WorkingCase(**A)
        work.mark(1, 3)
        work.edit_demand(1, 2, 3)
        for other in (copy.copy(work), copy.deepcopy(work)):
            self.assertEqual(other.plan(1), work.plan(1))
            other.go_back(1, 3)
            other.edit_entry(1, 0, 7)
            self.assertEqual((other.plan(1).total, other.see_table(1)[0]), (33, 7))
            self.assertEqual((work.plan(1).total, work.see_table(1)[0]), (36, 99))

    def test_is_not_pickled(self):
        with self.assertRaisesRegex(TypeError, "its store holds every entry"):
            pickle.dumps(WorkingCase(**A))

    def test_closing_clears(self):
        with WorkingCase(**A) as work:
            store = work._store
            self.assertIn(99, store[:])
        self.assertEqual(set(store), {0})
        for call in (work.plan, work.see_tariff, work.see_table, work.see_limits, work.marks):
            self.assertEqual(told(call, Role.PLANNER), (11, 0))
        self.assertEqual(told(work.plan_mark, Role.PLANNER, 1), (11, 0))
        work.close()

    def test_only_a_signed_store_holds_a_case(self):
        """Any other number in the cell of the signature, and every call is refused by 11."""
        work = WorkingCase(**A)
        own = work._store[10]
        for other in (0, 7, own - 1, own + 1):
            work._store[10] = other
            for call in (work.plan, work.see_tariff, work.see_table, work.see_limits, work.marks):
                self.assertEqual(told(call, Role.PLANNER), (11, 0), other)
            self.assertEqual(told(work.mark, Role.PLANNER, 1), (11, 0))
        work._store[10] = own
        self.assertEqual((work.plan(1).total, work.marks(1)), (33, []))

    def test_a_case_is_rebuilt_from_what_is_seen(self):
        draw = random.Random(6)
        for _ in range(50):
            case = drawn_case(draw)
            work = WorkingCase(**case)
            costs, supplies, demands = work.see_tariff(1)
            runs, ceilings = work.see_limits(1)
            self.assertEqual(dict(costs=costs, supplies=supplies, demands=demands, table=work.see_table(1), runs=runs, ceilings=ceilings), case)

    def test_a_mark_is_planned_and_nothing_changes(self):
        work = WorkingCase(**A)
        for mark in (3, 8):
            work.mark(1, mark)
            work.edit_demand(1, 2, 3)
        before = work._store[:]
        self.assertEqual([work.plan_mark(1, mark).total for mark in (3, 8)], [33, 36])
        self.assertEqual((work.marks(1), work.plan(1).total, work._store[:] == before), ([3, 8], 36, True))

    def test_the_end_of_the_object_clears(self):
        work = WorkingCase(**A)
        other = copy.copy(work)
        stores = [work._store, other._store]
        del work, other
        gc.collect()
        self.assertEqual([set(store) for store in stores], [{0}, {0}])


class Outsiders(unittest.TestCase):
    def test_two_stores(self):
        """Two cases alike but for entries, in the case and its marks, give depot and reader the same."""
        draw, met = random.Random(212), {}
        for _ in range(500):
            case = drawn_case(draw)
            pair = [WorkingCase(**{**case, "table": [draw.getrandbits(64) for _ in case["table"]]}) for _ in range(2)]
            for work in pair:
                work.mark(1, 2)
                work.edit_entry(1, 0, draw.getrandbits(64))
            for _ in range(12):
                role, kind = draw.choice((Role.DEPOT, Role.DEPOT, Role.DEPOT, Role.READER)), draw.choice(("call", "call", "call", "see_tariff", "see_tariff", "see_table", "plan", "see_limits", "marks"))
                kind, numbers = drawn_call(draw, case) if kind == "call" else (kind, ())
                first, second = (told(getattr(work, kind), role, *numbers) for work in pair)
                self.assertEqual(first, second, (role, kind, numbers))
                number = first[0] if isinstance(first, tuple) and len(first) == 2 else 0
                met[number] = met.get(number, 0) + 1
        for number in (0, 4, 23, 24, 31):
            self.assertGreater(met.get(number, 0), 10, number)


def load_tests(loader, tests, pattern):
    tests.addTests(doctest.DocTestSuite(yadvorkhul.work, optionflags=doctest.IGNORE_EXCEPTION_DETAIL))
    return tests


if __name__ == "__main__":
    unittest.main()
