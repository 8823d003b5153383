"""Tests of `flow --tidy`, of the drawing of a network, and of the page of bounds from the command."""

import contextlib
import importlib.util
import io
import os
import shutil
import tempfile
import unittest

from yadvorkhul import command, flow
from yadvorkhul.tidy import NotCovered, tidied

EXAMPLES = os.path.join(os.path.dirname(os.path.abspath(__file__)), "..", "..", "examples")
NETWORK, TABLE = (os.path.join(EXAMPLES, "pipeline", name) for name in ("network.min", "table.csv"))


def run(*words):
    out, errors = io.BytesIO(), io.StringIO()
    with contextlib.redirect_stdout(io.TextIOWrapper(out)), contextlib.redirect_stderr(errors):
        status = command.main(list(words))
        return status, out.getvalue().decode(), errors.getvalue()


class Tidy(unittest.TestCase):
    def setUp(self):
        self.folder = tempfile.mkdtemp(prefix="yadvorkhul-tidy-")
        self.addCleanup(shutil.rmtree, self.folder)
        with open(NETWORK, "rb") as stream:
            self.data = stream.read()

    def path(self, data, name="network.min"):
        path = os.path.join(self.folder, name)
        with open(path, "wb") as out:
            out.write(data)
        return path

    def test_same_flow(self):
        due = run("flow", NETWORK, "1", TABLE)
        self.assertEqual((due[0], due[1].split("\r\n")[1]), (0, "773"))
        for spoiled, said in (
            (self.data.replace(b"\n", b"\r\n"), "line ends CR LF"),
            (self.data.replace(b"a ", b"a\t"), "tabs"),
            (self.data.replace(b"\n", b"  \n"), "blanks at an end of a line"),
            (b"\n" + self.data + b"\n", "empty lines left out: 2"),
            (self.data.rstrip(b"\n"), "the last line had no end"),
            (b"\xef\xbb\xbf" + self.data, "byte order mark"),
            (self.data.replace(b"\n", b"\r"), "line ends CR: "),
            (self.data.decode().encode("utf-16"), "UTF-16 made plain text"),
            (self.data.decode().replace("\n", "\r\n").encode("utf-16-be"), "UTF-16 made plain text"),
        ):
            path = self.path(spoiled)
            status, _, told = run("flow", path, "1", TABLE)
            self.assertEqual((status, "`flow --tidy` would put right: " in told, said in told), (1, True, True))
            status, printed, told = run("flow", path, "1", TABLE, "--tidy")
            self.assertEqual((status, printed), due[:2])
            self.assertIn("tidied: ", told)
            self.assertIn(said, told)
        self.assertEqual(tidied(self.data)[:2], (self.data, []))

    def test_lines_of_the_file(self):
        """A refusal after tidying says that its line is of the tidied text, and which line of the file that was."""
        lines = self.data.split(b"\n")
        wrong = next(k for k, line in enumerate(lines) if line.startswith(b"a ")) + 1
        lines[wrong - 1] += b" x"
        path = self.path(b"\n\n\n" + b"\r\n".join(lines))
        status, _, told = run("flow", path, "1", TABLE, "--tidy")
        self.assertEqual(status, 1)
        self.assertIn(f"line {wrong} of the network file {path} as tidied is not of the form", told)
        self.assertIn(f"Line {wrong} of the tidied text is line {wrong + 3} of the file.", told)
        self.assertNotIn("would put right", told)

    def test_too_long(self):
        """A file that is too long is not read whole, so it is not tidied: a number cut short is no number."""
        ends = self.data.rstrip(b"\n").replace(b"\n", b"\r\n")
        comment = b"c" + b"x" * (65_537 - len(ends) - 3) + b"\r\n"
        status, printed, told = run("flow", self.path(comment + ends + b"00\r\n"), "1", TABLE, "--tidy")
        self.assertEqual((status, "is longer than 65,536 bytes" in told), (1, True), printed + told)

    def test_other_files(self):
        """Of a workbook nothing is promised; a long line is cut."""
        status, _, told = run("flow", self.path(b"PK\x03\x04" + bytes(range(256))), "1", TABLE)
        self.assertEqual((status, "would put right" in told), (1, False))
        status, _, told = run("flow", self.path(self.data + b"a 1 2 " + b"9" * 60_000 + b"\n"), "1", TABLE)
        self.assertEqual((status, len(told) < 1_000), (1, True))
        self.assertIn("\u2026", told)

    def test_numbers_are_not_touched(self):
        """What is wrong in a number stays refused."""
        for old, new in ((b"n 1 ", b"n 1 0"), (b"p min", b"p  min x")):
            self.assertEqual(run("flow", self.path(self.data.replace(old, new, 1)), "1", TABLE, "--tidy")[0], 1)

    def test_not_covered(self):
        other = self.data.replace(b"p min", b"p max")
        with self.assertRaises(NotCovered):
            tidied(other)
        status, _, said = run("flow", self.path(other), "1", TABLE, "--tidy")
        self.assertEqual((status, "a largest flow is not covered" in said), (2, True))
        status, _, said = run("flow", self.path(other), "1", TABLE)
        self.assertEqual((status, "p max; networks are p min" in said, "a largest flow is not covered" in said), (1, True, True))

    @unittest.skipUnless(shutil.which("dot"), "graphviz is not there")
    def test_drawing(self):
        path = os.path.join(self.folder, "network.svg")
        self.assertEqual(run("flow", NETWORK, "1", TABLE, "--drawing", path)[0], 0)
        with open(path, encoding="utf-8") as stream:
            drawn = stream.read()
        with open(TABLE, "rb") as stream:
            table = [int(line) for line in stream.read().split()]
        for k, arc in enumerate(flow(self.data, 1, table).arcs, 1):
            self.assertIn(f">{k}: {arc.flow} of {arc.ceiling}<", drawn)
        self.assertEqual(run("flow", NETWORK, "1", TABLE, "--drawing", NETWORK)[0], 2)

    @unittest.skipUnless(importlib.util.find_spec("matplotlib") and importlib.util.find_spec("jinja2"), "the page needs Jinja2 and Matplotlib")
    def test_bounds_page(self):
        paths = [os.path.join(EXAMPLES, "case_a", name) for name in ("tariff.csv", "production.csv")]
        page = os.path.join(self.folder, "bounds.html")
        status, printed, said = run("bounds", *paths, paths[1], "-o", page)
        self.assertEqual((status, printed.split("\r\n")[0]), (0, "smallest,largest"))
        with open(page, encoding="utf-8") as stream:
            self.assertIn('id="possible">3</b>', stream.read())
        self.assertEqual(run("bounds", *paths, paths[1], "-o", paths[0])[0], 2)


if __name__ == "__main__":
    unittest.main()
