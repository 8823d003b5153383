"""Tests of the least-cost flow: lent lists cell by cell, refusals with their sentences, and a listing of all flows."""

import itertools
import random
import unittest

from yadvorkhul import FlowRefusal, flow, flow_into
from yadvorkhul.files import NETWORK, File
from yadvorkhul.refusals import explain_network

FILE = b"c from 1 to 4\np min 4 5\nn 1 5\nn 4 -5\na 1 2 0 4 3\na 1 3 0 3 1\na 3 2 0 2 -1\na 2 4 0 5 2\na 3 4 0 2 9\n"
TABLE = [0, 10, 12, 14, 16, 40]


def listed(nodes, supplies, arcs, named, table):
    """The least total and the smallest flow on the named arc with it, over all flows; None where there is none."""
    found = []
    for amounts in itertools.product(*(range(arc[2] + 1) for arc in arcs)):
        left = list(supplies)
        for (start, end, _, _), x in zip(arcs, amounts):
            left[start - 1] -= x
            left[end - 1] += x
        if not any(left):
            costs = (table[x] if k == named else arc[3] * x for k, (arc, x) in enumerate(zip(arcs, amounts)))
            found.append((sum(costs), amounts[named]))
    return min(found, default=None)


class Flows(unittest.TestCase):
    def refused(self, number, place, file=FILE, named=4, table=TABLE):
        """The refusal, and what a person is told."""
        with self.assertRaises(FlowRefusal) as caught:
            flow(file, named, table)
        self.assertEqual((caught.exception.number, caught.exception.place), (number, place))
        told = explain_network(caught.exception, File(NETWORK, "net.min", file), named, table)
        return told.sentence, told.spot.cause if told.spot else ""

    def test_example(self):
        found = flow(FILE, 4, TABLE)
        self.assertEqual(found.total, 32)
        self.assertEqual([tuple(arc) for arc in found.arcs], [(1, 2, 4, 3, 2), (1, 3, 3, 1, 3), (3, 2, 2, -1, 2), (2, 4, 5, 2, 4), (3, 4, 2, 9, 1)])

    def test_lent(self):
        lent = [[7] * 7, [7] * 5, [7] * 6, [7] * 5, [7] * 8]
        report, worth = [7, 7], [7]
        self.assertEqual(flow_into(FILE, 4, TABLE, *lent, report, worth), 0)
        due = [[2, 3, 2, 4, 1, 7, 7], [1, 1, 3, 2, 3], [2, 3, 2, 4, 4, 7], [4, 3, 2, 5, 2], [3, 1, -1, 2, 9, 7, 7, 7]]
        self.assertEqual((lent, report, worth), (due, [5, 7], [32]))
        for short in range(5):
            lent = [[7] * 5 for _ in range(5)]
            lent[short] = [7] * 4
            kept = [list(cells) for cells in lent]
            report, worth = [7], [7]
            self.assertEqual(flow_into(FILE, 4, TABLE, *lent, report, worth), 30)
            self.assertEqual((lent, report, worth), (kept, [0], [7]))
        lent = [[7] * 5 for _ in range(5)]
        self.assertEqual(flow_into(FILE, 4, TABLE, *lent, [], [7]), 34)
        self.assertEqual(flow_into(FILE, 4, TABLE, *lent, [7], []), 34)
        self.assertEqual(lent, [[7] * 5] * 5)

    def test_lines(self):
        spoil = lambda old, new: FILE.replace(old, new)
        for file, line, cause in (
            (b"", 1, "before the p line"),
            (FILE[:-1], 9, "without LF"),
            (FILE[:-12], 9, "after 4 of 5 a lines"),
            (spoil(b"n 1 5\n", b"n 1 5\r\n"), 3, "CR LF"),
            (spoil(b"n 1 5\n", b"n 1 5\n\n"), 4, "blank"),
            (spoil(b"n 1 5", b"n\t1 5"), 3, "tab"),
            (spoil(b"n 1 5", b"n 1 5 "), 3, "space at an end"),
            (spoil(b"n 1 5", b"node 1 5"), 3, "as in n NODE SUPPLY"),
            (spoil(b"n 1 5", b"m 1 5"), 3, "none of c, p, n and a"),
            (b"\xef\xbb\xbf" + FILE, 1, "byte order mark"),
            (spoil(b"p min", b"p max"), 2, "networks are p min"),
            (spoil(b"n 1 5", b"n 1 05"), 3, "0 in front"),
            (spoil(b"n 1 5", b"n 1 12345678901"), 3, "more than ten digits"),
            (spoil(b"n 1 5", b"n 1 5.0"), 3, "whole"),
            (spoil(b"n 1 5", b"n 1 5 6"), 3, "another count of fields"),
            (spoil(b"n 1 5", b"n -1 5"), 3, "minus"),
            (spoil(b"n 1 5", b"p min 4 5"), 3, "second p line"),
            (spoil(b"c from", b"n 1 4\nc from"), 1, "before the p line"),
            (FILE + b"n 2 0\n", 10, "after the first a line"),
            (FILE + b"a 1 2 0 1 1\n", 10, "more than the p line says"),
        ):
            with self.subTest(cause=cause):
                sentence, found = self.refused(29, line, file)
                self.assertIn(f"line {line} of the network file net.min is not of the form", sentence)
                self.assertIn(cause, found)
        self.assertIn(": n 1 05.", self.refused(29, 3, spoil(b"n 1 5", b"n 1 05"))[0])

    def test_limits(self):
        spoil = lambda old, new: FILE.replace(old, new)
        for changes, words in (
            (dict(file=spoil(b"p min 4 5", b"p min 33 5")), "33 nodes and 5 arcs"),
            (dict(file=b"p min 2 65\n" + b"a 1 2 0 1 1\n" * 65), "2 nodes and 65 arcs"),
            (dict(file=spoil(b"n 1 5", b"n 5 5")), "node 5"),
            (dict(file=spoil(b"n 1 5", b"n 4 5")), "two n lines for node 4"),
            (dict(file=spoil(b"a 3 4", b"a 3 5")), "arc 5, at node 5"),
            (dict(file=spoil(b"a 3 4", b"a 3 3")), "arc 5, from node 3 to itself"),
            (dict(file=spoil(b"a 3 4 0", b"a 3 4 1")), "arc 5, with a lower bound of 1"),
            (dict(file=spoil(b"0 2 9", b"0 4001 9")), "arc 5, with a ceiling of 4001"),
            (dict(file=spoil(b"0 2 9", b"0 2 1000001")), "arc 5, with a cost of 1000001"),
            (dict(file=spoil(b"0 2 9", b"0 4000 9").replace(b"n 4 -5", b"n 4 5")), "node 4, whose supply"),
            (dict(named=0), "arc 0 as the named one"),
            (dict(named=6), "arc 6 as the named one; the file has 5"),
            (dict(table=TABLE[:-1]), "a table of 5 entries for arc 4"),
            (dict(table=TABLE[:-1] + [1_000_000_001]), "entry for a flow of 5"),
        ):
            with self.subTest(words=words):
                self.assertIn(words, self.refused(30, 0, **changes)[0])

    def test_no_flow(self):
        self.assertIn("sum to 0", self.refused(27, 0, FILE.replace(b"n 1 5", b"n 1 4"))[0])
        self.assertIn("node 4, which takes more", self.refused(27, 0, FILE.replace(b"n 1 5", b"n 1 8").replace(b"n 4 -5", b"n 4 -8"))[0])
        self.assertNotIn("there is", self.refused(27, 0, FILE.replace(b"n 1 5", b"n 1 7").replace(b"n 4 -5", b"n 4 -7").replace(b"0 4 3", b"0 3 3"))[0])

    def test_all_flows(self):
        draw = random.Random(211)
        flows = 0
        for _ in range(400):
            nodes = draw.randint(2, 4)
            arcs, supplies = [], [0] * nodes
            for _ in range(draw.randint(1, 5)):
                start, end = draw.sample(range(1, nodes + 1), 2)
                arcs.append((start, end, draw.randint(0, 3), draw.randint(-5, 5)))
                x = draw.randint(0, arcs[-1][2])
                supplies[start - 1] += x
                supplies[end - 1] -= x
            supplies[draw.randrange(nodes)] += draw.choice([0, 0, 0, 1])
            named = draw.randrange(len(arcs))
            table = [draw.randint(0, 20) for _ in range(arcs[named][2] + 1)]
            text = f"p min {nodes} {len(arcs)}\n" + "".join(f"n {v} {supply}\n" for v, supply in enumerate(supplies, 1) if supply)
            text += "".join(f"a {start} {end} 0 {ceiling} {cost}\n" for start, end, ceiling, cost in arcs)
            due = listed(nodes, supplies, arcs, named, table)
            if due is None:
                self.refused(27, 0, text.encode(), named + 1, table)
                continue
            found = flow(text.encode(), named + 1, table)
            self.assertEqual((found.total, found.arcs[named].flow), due, text)
            self.assertEqual([arc[:4] for arc in found.arcs], arcs)
            left = list(supplies)
            for arc in found.arcs:
                self.assertLessEqual(arc.flow, arc.ceiling)
                left[arc.start - 1] -= arc.flow
                left[arc.end - 1] += arc.flow
            self.assertEqual(left, [0] * nodes)
            self.assertEqual(sum(table[arc.flow] if k == named else arc.cost * arc.flow for k, arc in enumerate(found.arcs)), found.total)
            flows += 1
        self.assertGreater(flows, 200)

    def test_numbers(self):
        for odd in (-1, 1 << 64, 1.5, "3", None):
            with self.assertRaises(TypeError):
                flow(FILE, odd, TABLE)
            with self.assertRaises(TypeError):
                flow(FILE, 4, TABLE[:-1] + [odd])


if __name__ == "__main__":
    unittest.main()
