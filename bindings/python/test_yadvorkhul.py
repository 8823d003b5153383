"""Tests of the Python module: the paper's cases, refusals, lent lists cell by cell, and a listing of all plans."""

import array
import concurrent.futures
import copy
import doctest
import itertools
import pickle
import random
import types
import unittest
import warnings

import yadvorkhul
from yadvorkhul import Refusal, bounds, bounds_into, plan, plan_into
from yadvorkhul.files import TARIFF, File, FileRefusal

A = dict(costs=[[2, 6], [5, 3], [1, 4]], supplies=[3, 3, 1], demands=[3, 2], table=[99, 20, 24, 20])


def rows(m, n, total_rows, columns, ceilings):
    """All ways to fill m rows of n amounts with these row and column sums, none above its ceiling."""
    if m == 0:
        if not any(columns):
            yield []
        return
    for row in fill(n, total_rows[0], [min(pair) for pair in zip(columns, ceilings[0])]):
        left = [b - x for b, x in zip(columns, row)]
        for rest in rows(m - 1, n, total_rows[1:], left, ceilings[1:]):
            yield [row] + rest


def fill(n, total, most):
    if n == 1:
        if total <= most[0]:
            yield [total]
        return
    for x in range(min(total, most[0]) + 1):
        for rest in fill(n - 1, total - x, most[1:]):
            yield [x] + rest


def listed(costs, supplies, demands, table, runs, ceilings):
    """Split, total, f at each split that has a plan, and the first cheapest plan at the split, by a listing of all plans, which
    rises lane by lane; None where no split has one."""
    m, n = len(supplies), len(demands)
    d = sum(demands) - sum(supplies[2:])
    curve, first = {}, {}
    spent = lambda p: sum(c * x for cr, xr in zip(costs, p) for c, x in zip(cr, xr))
    for y in range(max(runs[0], d - supplies[1]), min(supplies[0], d - runs[1]) + 1):
        plans = list(rows(m, n, [y, d - y] + supplies[2:], demands, ceilings))
        if plans:
            first[y] = min(plans, key=spent)
            curve[y] = spent(first[y])
    if not curve:
        return None
    total, split = min((f + table[y], y) for y, f in curve.items())
    return split, total, curve, first[split]


class Cases(unittest.TestCase):
    def expect(self, split, total, **changes):
        found = plan(**{**A, **changes})
        self.assertEqual((found.split, found.total), (split, total))
        return found

    def refused(self, number, place, **changes):
        with self.assertRaises(Refusal) as caught:
            plan(**{**A, **changes})
        self.assertEqual((caught.exception.number, caught.exception.place), (number, place))

    def test_p1_to_p4(self):
        found = self.expect(3, 33)
        self.assertEqual(found.amounts, [[3, 0], [0, 1], [0, 1]])
        self.assertEqual(found.stops, [(1, 14), (2, 11), (3, 13)])
        self.expect(1, 34, table=[99, 20, 24, 22])
        self.expect(1, 34, table=[99, 20, 24, 21])
        self.expect(2, 31, table=[99, 20, 20, 20])

    def test_p5_to_p8(self):
        self.refused(7, 0, supplies=[3, 3, 6])
        self.refused(8, 0, supplies=[1, 2, 1], table=[99, 20])
        self.expect(2, 31, table=[99, 20, 20, 22])
        self.refused(4, 1, supplies=[4001, 3, 1])

    def test_p9_and_p10(self):
        found = self.expect(0, 110, supplies=[3, 3, 5])
        self.assertEqual((found.freight, found.stops), (11, [(0, 11)]))
        found = self.expect(3, 33, supplies=[3, 1, 1])
        self.assertEqual(found.stops, [(3, 13)])

    def test_report_example(self):
        costs = [[12, 1, 3, 4], [4, 9, 6, 2], [2, 6, 2, 10]]
        found = plan(costs, [200, 200, 150], [80, 180, 120, 70], [0] * 201)
        self.assertEqual(found.split, 200)
        self.assertEqual(found.stops, [(100, 1430), (150, 1030), (180, 820), (200, 800)])

    def test_runs(self):
        self.expect(3, 33, runs=(2, 1))
        found = self.expect(2, 35, runs=[2, 2])
        self.assertEqual(found.stops, [(2, 11)])
        self.refused(7, 0, runs=(2, 3))
        self.refused(23, 1, runs=(4, 4))
        self.refused(23, 2, runs=(3, (1 << 64) - 1))
        for odd in ((-1, 0), (0, 1.5), (0, 1 << 64)):
            with self.assertRaises(TypeError):
                plan(**A, runs=odd)

    def test_ceilings(self):
        found = self.expect(1, 34, ceilings=[[1, 4000], [4000, 4000], [4000, 4000]])
        self.assertEqual(found.stops, [(1, 14), (3, 20)])
        self.expect(3, 33, ceilings=[[4000] * 2] * 3)
        self.refused(26, 0, ceilings=[[4000] * 2] * 2)
        self.refused(26, 0, ceilings=[[4000] * 3, [4000], [4000] * 2])
        self.refused(26, 4, ceilings=[[4000] * 2, [4000, 4001], [4001] * 2])
        self.refused(27, 0, ceilings=[[4000] * 2, [4000] * 2, [0, 0]])
        self.refused(27, 0, ceilings=[[1, 1], [4000] * 2, [4000] * 2], runs=(3, 0))
        with self.assertRaises(TypeError):
            plan(**A, ceilings=[[-1, 4000], [4000] * 2, [4000] * 2])

    def test_one_plan_for_everybody(self):
        found = self.expect(2, 25, costs=[[5, 5]] * 3, table=[9, 9, 0, 9])
        self.assertEqual(found.amounts, [[0, 2], [2, 0], [1, 0]])

    def test_rebates(self):
        found = self.expect(3, -11, costs=[[2, 6], [5, 3], [1, -40]])
        self.assertEqual((found.freight, found.stops), (-31, [(1, -25), (3, -31)]))
        self.expect(3, -30, costs=[[-10, -10], [0, 0], [0, 0]], table=[99, 11, 11, 0])

    def test_other_refusals(self):
        self.refused(1, 0, supplies=[3], costs=[[2, 6]])
        self.refused(2, 0, demands=[], costs=[[], [], []])
        self.refused(3, 0, costs=[[2, 6], [5, 3, 1], [4]])
        self.refused(3, 0, costs=[[2, 6], [5, 3]])
        self.refused(5, 6, costs=[[2, 6], [5, 3], [1, 1_000_001]])
        self.refused(5, 6, costs=[[2, 6], [5, 3], [1, -1_000_001]])
        self.refused(5, 1, costs=[[-1 << 63, 6], [5, 3], [1, (1 << 63) - 1]])
        self.refused(6, 0, table=[99, 20, 24])
        self.refused(9, 2, table=[99, 20, 1_000_000_001, 20])

    def test_readable(self):
        with self.assertRaisesRegex(Refusal, "^refusal 4 at place 5: a supply or demand is above 4,000$"):
            plan(**{**A, "demands": [3, 4001]})
        with self.assertRaisesRegex(Refusal, "^refusal 5 at place 1: a unit cost is below -1,000,000 or above 1,000,000$"):
            plan(**{**A, "costs": [[-1_000_001, 6], [5, 3], [1, 4]]})

    def test_numbers(self):
        for odd in (-1, 1 << 64, 1.5, "3", True, None):
            with self.assertRaises(TypeError):
                plan(**{**A, "demands": [3, odd]})
        for odd in ((-1 << 63) - 1, 1 << 63, 1.5, "3", True, None):
            with self.assertRaises(TypeError):
                plan(**{**A, "costs": [[2, 6], [5, 3], [1, odd]]})
        self.refused(4, 5, demands=[3, (1 << 64) - 1])

    def test_whole_numbers_of_other_kinds(self):
        """What is a whole number by `operator.index` is taken, in whatever holds it."""

        class Whole:
            def __init__(self, number):
                self.number = number

            def __index__(self):
                return self.number

        due = plan(**A)
        self.assertEqual(plan([[Whole(c) for c in row] for row in A["costs"]], map(Whole, A["supplies"]), (3, Whole(2)), A["table"]), due)
        self.assertEqual(plan(**{**A, "supplies": array.array("l", A["supplies"]), "table": tuple(A["table"])}), due)
        self.assertEqual(plan(**A, runs=(Whole(2), Whole(2))).split, 2)
        self.assertEqual(yadvorkhul.rates(Whole(3)), [0, 100, 141, 173])
        truth = Whole(1)  # as NumPy's bool is
        truth.dtype = types.SimpleNamespace(kind="b")
        for odd in (Whole(-1), Whole(1 << 64), truth):
            with self.assertRaises(TypeError):
                plan(**{**A, "demands": [3, odd]})

    def test_numpy(self):
        try:
            import numpy
        except ImportError:
            self.skipTest("NumPy is not there (Debian: python3-numpy)")
        due = plan(**A)
        for kind in (numpy.int64, numpy.uint8, numpy.int32):
            self.assertEqual(plan(**{name: numpy.array(numbers, dtype=kind) for name, numbers in A.items()}), due)
            self.assertEqual(plan(**{**A, "demands": [kind(3), 2]}), due)
        with self.assertRaisesRegex(TypeError, "^not a whole number from 0 to 18446744073709551615: 2.5$"):
            plan(**{**A, "demands": numpy.array([2.5, 3])})
        with self.assertRaises(TypeError):
            plan(**{**A, "demands": numpy.array([True, False])})
        with warnings.catch_warnings():
            warnings.simplefilter("ignore")
            for given in ({"demands": [3, numpy.bool_(True)]}, {"costs": [[2, 6], [5, 3], [1, numpy.bool_(False)]]}, {"runs": (numpy.bool_(True), 0)}):
                with self.assertRaisesRegex(TypeError, "^not a whole number from "):
                    plan(**{**A, **given})

    def test_lists(self):
        """What is no list is named in a sentence; bytes are no entries, though Python goes through them as numbers."""
        for name in ("supplies", "demands", "table"):
            for odd, kind in ((b"abcd", "bytes"), (bytearray(b"abcd"), "bytearray"), ("abcd", "str"), (None, "None"), (4, "int")):
                with self.assertRaisesRegex(TypeError, f"^a list of numbers is wanted, not {kind}$"):
                    plan(**{**A, name: odd})
        for odd, kind in ((None, "None"), ([2, 6], "int"), ([[2, 6], [5, 3], None], "None"), ([[2, 6], [5, 3], b"ab"], "bytes"), ("ab", "str")):
            for name in ("costs", "ceilings"):
                if (name, odd) != ("ceilings", None):
                    with self.assertRaisesRegex(TypeError, f"^a row of numbers for each source is wanted, not {kind}$"):
                        plan(**{**A, name: odd})
        with self.assertRaisesRegex(TypeError, "^a list of numbers is wanted, not bytes$"):
            yadvorkhul.flow(b"p min 2 1\na 1 2 0 3 1\n", 1, b"abcd")

    def test_runs_are_two(self):
        for odd in ((), (1,), (1, 1, 1)):
            with self.assertRaisesRegex(TypeError, "^the least runs are two numbers, one for each plant, not "):
                plan(**A, runs=odd)

    def test_doc(self):
        failed, tried = doctest.testmod(yadvorkhul, verbose=False, optionflags=doctest.IGNORE_EXCEPTION_DETAIL)
        self.assertEqual(failed, 0)
        self.assertGreater(tried, 3)


def refused_case(demand):
    return plan(**{**A, "demands": [3, demand]})


class Copies(unittest.TestCase):
    def refusals(self):
        yield Refusal(4, 5)
        yield yadvorkhul.FlowRefusal(29, 3)
        yield FileRefusal(21, 7, File(TARIFF, "tariff.csv", b"2;3"))

    def test_copied_and_pickled(self):
        for refusal in self.refusals():
            for other in (copy.copy(refusal), copy.deepcopy(refusal), pickle.loads(pickle.dumps(refusal))):
                self.assertIs(type(other), type(refusal))
                self.assertEqual((str(other), vars(other)), (str(refusal), vars(refusal)))

    def test_process_pool(self):
        """One refused case must not break the pool for the others."""
        with concurrent.futures.ProcessPoolExecutor(max_workers=1) as pool:
            jobs = [pool.submit(refused_case, demand) for demand in (2, 4001, 2)]
            self.assertEqual(jobs[0].result(timeout=60).total, 33)
            with self.assertRaises(Refusal) as caught:
                jobs[1].result(timeout=60)
            self.assertEqual((caught.exception.number, caught.exception.place), (4, 5))
            self.assertEqual(jobs[2].result(timeout=60).total, 33)


class Lent(unittest.TestCase):
    def call(self, plan_cells=8, split_cells=4, freight_cells=5, report_cells=4, worth_cells=3, **changes):
        case = {**A, **changes}
        lent = [[7] * k for k in (plan_cells, split_cells, freight_cells, report_cells, worth_cells)]
        costs = [c for row in case["costs"] for c in row]
        read = costs, case["supplies"], case["demands"], [4000] * 6, case["table"]
        return plan_into(3, 2, 0, 0, *read, *lent), lent

    def test_planned(self):
        number, lent = self.call()
        self.assertEqual(number, 0)
        self.assertEqual(lent, [[3, 0, 0, 1, 0, 1, 7, 7], [1, 2, 3, 7], [14, 11, 13, 7, 7], [3, 3, 7, 7], [33, 13, 7]])

    def test_refused(self):
        number, lent = self.call(table=[99, 20, 1_000_000_001, 22])
        self.assertEqual(number, 9)
        self.assertEqual(lent, [[7] * 8, [7] * 4, [7] * 5, [2] + [7] * 3, [7] * 3])

    def test_short_by_one(self):
        for short in (dict(plan_cells=5), dict(split_cells=2), dict(freight_cells=2)):
            number, lent = self.call(**short)
            self.assertEqual((number, lent[3][0]), (11, 0))
            self.assertTrue(all(cell == 7 for cells in lent[:3] + lent[4:] for cell in cells))

    def test_short_report(self):
        for report, worth in ((0, 2), (1, 2), (2, 0), (2, 1), (0, 0)):
            number, lent = self.call(report_cells=report, worth_cells=worth)
            self.assertEqual(number, yadvorkhul.SHORT_REPORT)
            self.assertTrue(all(cell == 7 for cells in lent for cell in cells))
        self.assertEqual(self.call(report_cells=2, worth_cells=2)[1][3:], [[3, 3], [33, 13]])


class Bounds(unittest.TestCase):
    def case(self, **changes):
        case = {**A, "low": A["table"], "high": [99, 20, 24, 21], **changes}
        del case["table"]
        return bounds(**case)

    def refused(self, number, place, **changes):
        with self.assertRaises(Refusal) as caught:
            self.case(**changes)
        self.assertEqual((caught.exception.number, caught.exception.place), (number, place))

    def test_case_a(self):
        self.assertEqual(self.case(), (1, [True, False, True], 33, 34))
        self.assertEqual(self.case(high=[0, 20, 24, 20]), (1, [False, False, True], 33, 33))
        self.assertEqual(self.case(runs=(2, 1), high=[99, 20, 24, 22]), (2, [True, True], 33, 35))
        self.assertEqual(self.case(costs=[[-9, 6], [5, 3], [1, 4]], low=[0, 0, 0, 9], high=[0, 0, 1, 11]), (1, [False, True, True], -11, -10))

    def test_refusals(self):
        self.refused(28, 0, high=[99, 20, 24])
        self.refused(28, 2, high=[99, 20, 23, 19])
        self.refused(28, 3, high=[99, 20, 24, 1_000_000_001])
        self.refused(9, 2, low=[99, 20, 1_000_000_001, 20], high=[0] * 4)
        self.refused(6, 0, low=[99, 20, 24], high=[0] * 3)
        self.refused(26, 0, ceilings=[])
        answers, report, worth = [7, 7], [7, 7, 7], [7, 7]
        number = bounds_into(3, 2, 0, 0, [2, 6, 5, 3, 1, 4], [3, 3, 1], [3, 2], [4000] * 6, [99, 20, 24, 20], [99, 20, 24, 21], answers, report, worth)
        self.assertEqual((number, answers, report, worth), (11, [7, 7], [0, 7, 7], [7, 7]))

    def test_all_tables(self):
        draw = random.Random(209)
        answered = 0
        while answered < 200:
            m, n = draw.randint(2, 3), draw.randint(1, 2)
            costs = [[draw.randint(-9, 9) for _ in range(n)] for _ in range(m)]
            supplies = [draw.randint(0, 4) for _ in range(m)]
            demands = [draw.randint(0, 4) for _ in range(n)]
            low = [draw.randint(0, 9) for _ in range(supplies[0] + 1)]
            high = [entry + draw.randint(0, 2) for entry in low]
            ceilings = [[draw.randint(2, 4) for _ in range(n)] for _ in range(m)]
            found = listed(costs, supplies, demands, low, (0, 0), ceilings)
            if found is None:
                continue
            curve = found[2]
            leasts, cheapest = [], set()
            for table in itertools.product(*(range(low[y], high[y] + 1) for y in curve)):
                totals = {y: f + entry for (y, f), entry in zip(curve.items(), table)}
                leasts.append(min(totals.values()))
                cheapest.update(y for y in curve if totals[y] == leasts[-1])
            want = min(curve), [y in cheapest for y in curve], min(leasts), max(leasts)
            self.assertEqual(bounds(costs, supplies, demands, low, high, ceilings=ceilings), want)
            answered += 1


class Listing(unittest.TestCase):
    def test_random_small_cases(self):
        draw = random.Random(1995)
        planned, without = 0, 0
        while planned < 500:
            m, n = draw.randint(2, 3), draw.randint(1, 3)
            size = draw.choice((1, 9, 1_000_000))
            costs = [[draw.randint(-size, size) for _ in range(n)] for _ in range(m)]
            supplies = [draw.randint(0, 4) for _ in range(m)]
            demands = [draw.randint(0, 4) for _ in range(n)]
            most = draw.choice((3, 30, 1_000_000_000))
            table = [draw.randint(0, most) for _ in range(supplies[0] + 1)]
            runs = draw.choice(((0, 0), tuple(draw.randint(0, a) for a in supplies[:2])))
            most = draw.choice((2, 4, 4000))
            ceilings = [[draw.randint(most // 2, most) for _ in range(n)] for _ in range(m)]
            case = costs, supplies, demands, table, runs, ceilings
            d = sum(demands) - sum(supplies[2:])
            number = 7 if d < sum(runs) else 8 if d > supplies[0] + supplies[1] else 0 if listed(*case) else 27
            if number:
                with self.assertRaises(Refusal) as caught:
                    plan(*case)
                self.assertEqual((caught.exception.number, caught.exception.place), (number, 0))
                without += number == 27
                continue
            self.check(plan(*case), *case)
            planned += 1
        self.assertGreater(without, 50)

    def check(self, found, costs, supplies, demands, table, runs, ceilings):
        split, total, curve, due = listed(costs, supplies, demands, table, runs, ceilings)
        self.assertEqual((found.split, found.total, found.freight), (split, total, curve[split]))
        self.assertEqual(found.amounts, due)
        ends = min(curve), max(curve)
        bends = [y for y in curve if y in ends or curve[y - 1] + curve[y + 1] != 2 * curve[y]]
        self.assertEqual(found.stops, [(y, curve[y]) for y in bends])


if __name__ == "__main__":
    unittest.main()
