"""Tests that a refusal names its cause: the cut of 27, the sums of 7 and 8, files that are something else, the line with a caret."""

import contextlib
import io
import os
import random
import tempfile
import unittest
from unittest import mock

from yadvorkhul import Case, Refusal, command
from yadvorkhul.cut import cut_of, cut_sentence, network_cut, sums_sentence
from yadvorkhul.dimacs import read

T = "2,6,3\r\n5,3,3\r\n1,4,1\r\n3,2,\r\n"
P = "99\r\n20\r\n24\r\n20\r\n"
WIDE = 4000


def run(tariff, production, subcommand="plan"):
    """Status and what is said of two files."""
    with tempfile.TemporaryDirectory() as folder:
        paths = []
        for name, data in (("tariff.csv", tariff), ("production.csv", production)):
            paths.append(os.path.join(folder, name))
            with open(paths[-1], "wb") as out:
                out.write(data if isinstance(data, bytes) else data.encode())
        errors = io.StringIO()
        with contextlib.redirect_stdout(io.TextIOWrapper(io.BytesIO())), contextlib.redirect_stderr(errors):
            return command.main([subcommand, *paths]), errors.getvalue()


class Causes(unittest.TestCase):
    def said(self, words, tariff, production=P):
        status, said = run(tariff, production)
        self.assertEqual(status, 1)
        self.assertIn(words, said)
        return said

    def test_other_files(self):
        self.said("perhaps the two files are swapped", P, T)
        self.said("perhaps the two files are swapped", T, T)
        self.said("the beginning of a workbook (PK)", b"PK\x03\x04\x14\0\6\0")
        self.said("the beginning of a workbook (PK)", T, b"PK\x03\x04\x14\0\6\0")
        self.said("a byte order mark of UTF-16", T.encode("utf-16"))
        self.said("text in UTF-16", T.encode("utf-16-le"))
        self.said("text in UTF-16", T, P.encode("utf-16-be"))
        self.said("`yadvorkhul import` reads such files", T.encode("utf-16"))

    def test_long(self):
        """A workbook is named by its first bytes where it is too long to be read, and so is an old one."""
        for data, words in (
            (b"PK\x03\x04" + b"x" * 70_000, "is longer than 65,536 bytes. Here stands the beginning of a workbook (PK), whatever the file is called; `yadvorkhul import`"),
            (b"\xd0\xcf\x11\xe0" + bytes(70_000), "is longer than 65,536 bytes. Here stands the beginning of an old workbook (.xls)"),
            (("9" * 40_000).encode("utf-16-le"), "Here stands text in UTF-16"),
        ):
            self.said(words, data)
            self.said(words, T, data)
        self.assertNotIn("Here stands", self.said("is longer than 65,536 bytes", b"2,6,3\r\n" * 10_000))
        self.assertNotIn("Here stands", self.said("is longer than 65,536 bytes", bytes(70_000)))

    def test_more_causes(self):
        again = "`yadvorkhul import` reads such files"
        for words, tariff in (
            (f"a sign that parts thousands; a number has digits alone ({again})", T.replace("2,6", "1\u202f234,6")),
            ("a space; a number has digits alone", T.replace("2,6", "2,\u202f6")),
            ("the beginning of an old workbook (.xls)", b"\xd0\xcf\x11\xe0\xa1\xb1\x1a\xe1"),
            (f"an empty field, perhaps of a header line; the files have none ({again})", ",A,B,\r\n" + T),
            (f"a line that ends in CR without LF; records end in CR LF ({again})", T.replace("\r\n", "\r")),
            ("a plus; a number has digits alone", T.replace("5,3,3", "+5,3,3")),
            ("a minus or a dash that is not the plain one (byte 45)", T.replace("2,6", "\u22122,6")),
            ("a 0 after a minus; 0 has none", T.replace("2,6", "-0,6")),
            ("a blank line after demands that lack their last comma", T.rstrip("\r\n,") + "\r\n\r\n"),
            (f"a semicolon; fields are parted by commas ({again})", T.replace(",", ";")),
            (f"a byte order mark; save the file as plain text without one ({again})", "\ufeff" + T),
            (f"a line that ends in LF without CR; records end in CR LF ({again})", T.replace("\r\n", "\n")),
        ):
            self.said(words, tariff)
        self.said("a blank line; the files have none", T, P.replace("20\r\n24", "20\r\n\r\n24"))
        self.assertNotIn("UTF-16", self.said("NUL (byte 0)", "2,\0,3\r\n5,\0,3\r\n1,\0,1\r\n3,2,"))

    def test_thousands_in_a_tariff(self):
        """Both readings of 1,234 are said, and the mark is below it."""
        comma = "perhaps by a comma in 1,234, between thousands or of a decimal; a number has digits alone"
        said = self.said(f"a field too many, {comma}", T.replace("5,3,3", "5,1,234,3")).split("\n")
        self.assertEqual(said[1:], ["     2: 5,1,234,3\u2039CR\u203a\u2039LF\u203a", "          ^^^^^", ""])
        self.said(f"or record 1 has one too many, {comma}", T.replace("2,6", "1,234,6"))
        self.said("perhaps an item code, or the end of 99,00 with a comma in it", T.replace("5,3,3", "5,99,00,3"))
        said = self.said("a comma in 1,234, between thousands or of a decimal", T, P.replace("24", "1,234")).split("\n")
        self.assertEqual(said[1:], ["     3: 1,234\u2039CR\u203a\u2039LF\u203a", "        ^^^^^", ""])

    def test_numbers(self):
        self.said("a decimal comma in 99,00", T, P.replace("99", "99,00"))
        self.said("a decimal comma in 20,5", T, P.replace("20\r\n24", "20,5\r\n24"))
        self.said("a comma in 1,234, between thousands or of a decimal", T, P.replace("99", "1,234"))
        self.said("a comma within quotes", T.replace("2,6", '"1,234",6'))
        self.said("a tab; fields are parted by commas", T.replace(",", "\t"))
        self.said("a sign that parts thousands", T.replace("2,6", "1 234,6"))
        self.said("a sign that parts thousands", T.replace("2,6", "1\u00a0234,6"))
        self.said("a sign that parts thousands", T.replace("2,6", "1'234,6"))
        self.said("a point, of a decimal point or between thousands", T.replace("2,6", "1.234,6"))
        self.said("a decimal point", T.replace("2,6", "1.5,6"))
        self.said("a space", T.replace("2,6", "2, 6"))

    def test_last_comma(self):
        for end in ("", "\r\n"):
            self.said("the demands lack their last comma", T.rstrip("\r\n,") + end)
        self.assertNotIn("last comma", self.said("the end of the file", "2,6,3\r\n5,3,3\r\n1,4,1\r\n3\r\n"))

    def test_caret(self):
        said = self.said("a semicolon", T.replace("5,3,3", "5;3,3")).split("\n")
        self.assertEqual(said[1:], ["     2: 5;3,3\u2039CR\u203a\u2039LF\u203a", "         ^", ""])
        said = self.said("above 4,000", T.replace("1,4,1", "1,4,4001")).split("\n")
        self.assertEqual(said[1:], ["     3: 1,4,4001\u2039CR\u203a\u2039LF\u203a", "            ^^^^", ""])

    def test_sums(self):
        self.said("the terminals take 5, the depots hold 6 and the least runs make 0: 1 too many", T.replace("1,4,1", "1,4,6"))
        self.said("the terminals take 15, the depots hold 1 and the plants can make 6: 8 too few", T.replace("3,2,", "13,2,"))
        self.assertIn("2 too many", sums_sentence(Case([[1], [1], [1]], [3, 3, 1], [2], [0] * 4, (2, 1)), 7))


class Cuts(unittest.TestCase):
    def test_depot(self):
        case = Case([[1, 1]] * 3, [50, 50, 40], [30, 30], [0] * 51, ceilings=[[WIDE] * 2, [WIDE] * 2, [10, 15]])
        self.assertEqual(cut_sentence(case), "Depot 3 must send 40; its lanes carry 25 together")

    def test_terminal(self):
        case = Case([[1, 1]] * 3, [50, 50, 10], [30, 30], [0] * 51, ceilings=[[5, WIDE], [6, WIDE], [7, WIDE]], terminals=["Paris"])
        self.assertEqual(cut_sentence(case), "Paris takes 30; the lanes to it carry 18 together")

    def test_plant(self):
        case = Case([[1, 1]] * 2, [50, 50], [30, 30], [0] * 51, runs=(40, 0), ceilings=[[20, 10], [WIDE] * 2])
        self.assertEqual(cut_sentence(case), "Plant 1 must send 40; its lanes carry 30 together")

    def test_every_27_has_its_cut(self):
        """Small cases: the sums of the cut are right, and no plan is refused by 27 without one."""
        draw, seen = random.Random(27), 0
        while seen < 120:
            m, n = draw.randint(2, 5), draw.randint(1, 4)
            demands = [draw.randint(0, 8) for _ in range(n)]
            supplies = [draw.randint(0, 20), draw.randint(0, 20)] + [draw.randint(0, 5) for _ in range(m - 2)]
            ceilings = [[draw.choice((0, 1, 2, 4, WIDE)) for _ in range(n)] for _ in range(m)]
            runs = draw.randint(0, min(4, supplies[0])), draw.randint(0, min(4, supplies[1]))
            case = Case([[0] * n] * m, supplies, demands, [0] * (supplies[0] + 1), runs, ceilings)
            try:
                case.plan()
                continue
            except Refusal as refusal:
                if refusal.number != 27:
                    continue
            seen += 1
            cut = cut_of(case)
            self.assertIsNotNone(cut)
            self.check(case, cut)
            self.assertRegex(cut_sentence(case), "(take|takes|must send) [0-9,]+")

    def check(self, case, cut):
        """Counted afresh: whatever the split, these terminals take more than can come."""
        made = sum(case.demands) - sum(case.supplies[2:])
        for split in range(max(case.runs[0], made - case.supplies[1]), min(case.supplies[0], made - case.runs[1]) + 1):
            sent = [split, made - split] + case.supplies[2:]
            lanes = sum(case.ceilings[i][j] for i in range(len(sent)) for j in cut.terminals if i not in cut.sources)
            self.assertGreater(sum(case.demands[j] for j in cut.terminals), sum(sent[i] for i in cut.sources) + lanes)

    def test_a_wrong_cut_is_not_told(self):
        """The sums are checked: a set of nodes that is no cut gives no sentence."""
        case = Case([[1, 1]] * 3, [50, 50, 40], [30, 30], [0] * 51, ceilings=[[WIDE] * 2, [WIDE] * 2, [10, 15]])
        for prices in ([0] * 5, [1] * 5, [0, 0, 0, 1, 0], [0, 0, 1, 1, 1]):
            with mock.patch("yadvorkhul.cut._cut", lambda *_: prices):
                self.assertEqual((cut_of(case), cut_sentence(case)), (None, ""))

    def test_network(self):
        lines = [b"p min 3 2", b"n 1 9", b"n 3 -9", b"a 1 2 0 20 1", b"a 2 3 0 4 1"]
        self.assertEqual(network_cut(read(lines)), "nodes 1 and 2 must send 9 on; their arcs to all others carry 4 together")
        lines[3] = b"a 1 2 0 3 1"
        self.assertEqual(network_cut(read(lines)), "node 1 must send 9 on; its arcs to all others carry 3 together")


if __name__ == "__main__":
    unittest.main()
