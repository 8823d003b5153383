"""Tests of the functions on files: what the proved reader reads and refuses, that the printed bytes are those of what was read and planned,
and, where target/bin/plan is built, that they are the program's; what is written out is read again."""

import os
import random
import subprocess
import tempfile
import unittest

import yadvorkhul
from yadvorkhul import Case, Refusal
from yadvorkhul.files import (
    LONGEST,
    PRODUCTION,
    TARIFF,
    File,
    FileRefusal,
    bounds_files,
    flow_files,
    open_file,
    plan_files,
    plan_text,
    read_case,
    read_table,
    refusal_text,
    tidy_files,
    write_case,
)
from yadvorkhul.causes import cause_of
from yadvorkhul.refusals import explain

PROGRAM = os.path.join(os.path.dirname(os.path.abspath(__file__)), "..", "..", "target", "bin", "plan")
T, P = b"2,6,3\r\n5,3,3\r\n1,4,1\r\n3,2,", b"99\r\n20\r\n24\r\n20"


def files(tariff, production):
    return File(TARIFF, "tariff.csv", tariff), File(PRODUCTION, "production.csv", production)


def printed(tariff, production):
    """What is printed of the case that was read, by the package's own lines."""
    try:
        case = read_case(*files(tariff, production))
        return plan_text(case, case.plan()).encode()
    except Refusal as refusal:
        return refusal_text(refusal).encode()


def damaged(draw):
    """Two files with a few bytes changed, put in or left out."""
    signs = [bytes([b]) for b in b'0123456789,,,\r\n\r\n"--;. x+\xef\t']
    both = [T + draw.choice((b"", b"\r\n")), P + draw.choice((b"", b"\r\n"))]
    if draw.random() < 0.3:
        both = [data.replace(b"3", b'"3"').replace(b"6", b"-6") for data in both]
    for _ in range(draw.choice((1, 1, 2, 3))):
        which = draw.randrange(2)
        data, at = both[which], draw.randrange(len(both[which]) + 1)
        new = draw.choice(signs) if draw.random() < 0.8 else b""
        both[which] = data[:at] + new + data[at + draw.randrange(2) :]
    return both


class Reader(unittest.TestCase):
    def refused(self, number, place, tariff=T, production=P):
        due = f"refusal,place\r\n{number},{place}\r\n".encode()
        self.assertEqual(printed(tariff, production), due)
        self.assertEqual(plan_files(tariff, production), (number, place, due))

    def test_what_is_no_file(self):
        good = File(PRODUCTION, "p", P)
        for call in (lambda odd: read_table(odd), lambda odd: read_case(odd, good), lambda odd: read_case(good, odd)):
            for odd, kind in ((5, "int"), ("p.csv", "str"), (b"1", "bytes"), (None, "NoneType")):
                with self.assertRaisesRegex(TypeError, f"^a File is wanted, as open_file gives one, not {kind}$"):
                    call(odd)

    def test_case_a(self):
        case = read_case(*files(T, P))
        self.assertEqual(case[:4], ([[2, 6], [5, 3], [1, 4]], [3, 3, 1], [3, 2], [99, 20, 24, 20]))
        self.assertEqual(read_case(*files(T + b"\r\n", P + b"\r\n")), case)
        self.assertEqual(read_case(*files(b'"2",6,3\r\n5,3,"3"\r\n1,4,1\r\n3,"2",', b'"99"\r\n20\r\n24\r\n20')), case)
        self.assertEqual(read_case(*files(b'-2,"-6",3\r\n5,3,3\r\n1,4,1\r\n3,2,', P)).costs[0], [-2, -6])

    def test_places(self):
        self.refused(21, 0, b"")
        self.refused(21, 0, T, b"")
        self.refused(20, 0, b"2" * (LONGEST + 1))
        self.refused(21, 2, b"2,007" + T[3:])
        self.refused(21, 3, b"2,-0,3\r\n")
        self.refused(21, 12, b"2,12345678901")
        self.refused(21, 2, b"2,,3\r\n")
        self.refused(21, 2, b"2,\r\n3,2,")
        self.refused(21, 27, T + b"\r\n\r\n")
        self.refused(22, 2, b"2,6,3\r\n5,3\r\n1,4,1\r\n3,2,")
        self.refused(22, 2, T, b"99\r\n20,5\r\n24\r\n20")
        self.refused(1, 0, b"2,3\r\n1,")

    def test_too_long_and_missing(self):
        for data in (None, b"1" * 65_537):
            with self.assertRaises(FileRefusal) as caught:
                read_case(File(TARIFF, "t", data), File(PRODUCTION, "p", P))
            self.assertEqual((caught.exception.number, caught.exception.place, caught.exception.file.path), (20, 0, "t"))
            with self.assertRaises(FileRefusal) as caught:
                read_case(File(TARIFF, "t", T), File(PRODUCTION, "p", data))
            self.assertEqual((caught.exception.number, caught.exception.file.path), (20, "p"))
        self.assertIsNone(open_file(TARIFF, "no\0file").data)

    def test_causes(self):
        for data, at, word in (
            (b"\xef\xbb\xbf2,6", 0, "byte order mark"),
            (b"2,6,3\n", 5, "LF without CR"),
            (b"2;6", 1, "semicolon"),
            (b"2.5,6", 1, "decimal point"),
            (b'"2,5",6', 2, "decimal comma"),
            (b"cost,supply", 0, "header line"),
            (b'"cost",2', 1, "header line"),
            (b"2, 6", 2, "space"),
            (b"2,,6", 2, "empty field"),
            (b"2,\r\n", 2, "empty field"),
            (b"007,6", 0, "0 in front"),
            (b"2,-\xc2\xa05", 3, "space"),
            (b"2,6,3", 5, "end of the file"),
            (T + b"\r\n1", 27, "after the record of the demands"),
        ):
            self.assertIn(word, cause_of(TARIFF, data, at))

    def test_spots(self):
        told = explain(FileRefusal(21, 9, files(b"2,6,3\r\n5, 3,3\r\n", P)[0]))
        self.assertEqual((told.spot.record, told.spot.field, told.spot.offset), (2, 2, 9))
        self.assertEqual([line.marked for line in told.spot.lines], ["", " "])


class Printing(unittest.TestCase):
    def test_damaged_files(self):
        draw, refused = random.Random(1995), set()
        for _ in range(3000):
            both = damaged(draw)
            found = plan_files(*both)
            self.assertEqual(printed(*both), found.text, both)
            self.assertEqual(found.text.startswith(b"refusal"), found.number != 0)
            refused.add(found.number)
        self.assertLessEqual({0, 21, 22}, refused)

    def test_sizes(self):
        """A size that is never planned is refused as it is planned; the longest table is read, a longer one as far as it is stored."""
        tall = b"1,1\r\n" * 33 + b"1,"
        wide = b",".join([b"1"] * 66) + b"\r\n"
        for tariff, number in ((tall, 1), (wide * 2 + b"1," * 65, 2), (b"1,3\r\n1,", 1), (b"1\r\n1\r\n", 21)):
            self.assertEqual(plan_files(tariff, P).number, number)
            with self.assertRaises(Refusal) as caught:
                read_case(*files(tariff, P))
            self.assertEqual(caught.exception.number, number)
            told = explain(caught.exception, None, *files(tariff, P))
            self.assertEqual(told.number, number)
        self.assertEqual(told.spot.offset, 6)
        for count in (4001, 4002, 9000):
            self.assertEqual(len(read_table(File(PRODUCTION, "p", b"1\r\n" * count))), min(count, 4002))
            self.assertEqual(plan_files(T, b"1\r\n" * count).number, 6)
            self.assertEqual(read_case(*files(T, b"1\r\n" * count)).supplies, [3, 3, 1])
            with self.assertRaises(Refusal) as caught:
                read_case(*files(T, b"1\r\n" * count)).plan()
            told = explain(caught.exception, read_case(*files(T, b"1\r\n" * count)), *files(T, b"1\r\n" * count))
            self.assertEqual(dict(told.facts)["entries"], f"{count:,}")

    def test_bounds_and_flow(self):
        self.assertEqual(bounds_files(T, P, b"99\r\n20\r\n24\r\n22").text, b"smallest,largest\r\n33,34\r\nsplit,possible\r\n1,1\r\n2,0\r\n3,1\r\n")
        self.assertEqual(bounds_files(T, P, b"9"), (28, 0, b"refusal,place\r\n28,0\r\n"))
        network = b"p min 2 2\nn 1 3\nn 2 -3\na 1 2 0 2 5\na 1 2 0 3 1\n"
        due = b"total\r\n11\r\nstart,end,flow,cost\r\n1,2,1,5\r\n1,2,2,6\r\n"
        self.assertEqual(flow_files(network, b"2", b"0\r\n4\r\n6\r\n20"), (0, 0, due))
        self.assertEqual(flow_files(network, b"3", b"0\r\n4\r\n6\r\n20")[:2], (30, 0))
        self.assertEqual(flow_files(b"p min\n", b"3", b"x")[:2], (29, 1))

    def test_written_again(self):
        case = read_case(*files(T, P))
        self.assertEqual(write_case(case), (T + b"\r\n", P + b"\r\n"))
        self.assertEqual(tidy_files(T.replace(b"2", b'"2"'), P), write_case(case))
        draw = random.Random(213)
        for _ in range(50):
            m, n = draw.randint(2, 32), draw.randint(1, 64)
            demands = [draw.randint(0, 30) for _ in range(n)]
            costs = [[draw.randint(-1_000_000, 1_000_000) for _ in range(n)] for _ in range(m)]
            made = sum(demands)
            drawn = Case(costs, [made, made] + [0] * (m - 2), demands, [draw.randint(0, 1_000_000_000) for _ in range(made + 1)])
            self.assertEqual(read_case(*files(*write_case(drawn))), drawn)
        for table, number in (([99, 20, 24], 6), ([10_000_000_000, 20, 24, 20], 32)):
            with self.assertRaises(Refusal) as caught:
                write_case(case._replace(table=table))
            self.assertEqual(caught.exception.number, number)

    def test_no_bytes(self):
        for odd in (5, "2,6,3", None):
            self.assertRaises(TypeError, plan_files, odd, P)
            self.assertRaises(TypeError, yadvorkhul.flow, odd, 1, [0])


@unittest.skipUnless(os.path.exists(PROGRAM), "target/bin/plan is not built (examples/run builds it)")
class Program(unittest.TestCase):
    def program(self, tariff, production):
        with tempfile.TemporaryDirectory() as folder:
            for name, data in (("tariff.csv", tariff), ("production.csv", production)):
                with open(os.path.join(folder, name), "wb") as out:
                    out.write(data)
            return subprocess.run([PROGRAM], cwd=folder, capture_output=True, check=True).stdout

    def test_damaged_files(self):
        draw = random.Random(202)
        for _ in range(300):
            both = damaged(draw)
            self.assertEqual(plan_files(*both).text, self.program(*both), both)


if __name__ == "__main__":
    unittest.main()
