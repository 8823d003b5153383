"""Tests of what is written: whole or not at all, and never over an input."""

import os
import stat
import subprocess
import sys
import tempfile
import unittest
from unittest import mock

from yadvorkhul.outputs import BadOutput, NotWritten, check_outputs, shown, write_whole


class Whole(unittest.TestCase):
    def setUp(self):
        folder = tempfile.TemporaryDirectory()
        self.addCleanup(folder.cleanup)
        self.folder, self.path = folder.name, os.path.join(folder.name, "plan.html")

    def read(self):
        with open(self.path, encoding="utf-8", newline="") as stream:
            return stream.read()

    def test_written(self):
        write_whole(self.path, "one\ntwo\u00e9")
        self.assertEqual((self.read(), os.listdir(self.folder)), ("one\ntwo\u00e9", ["plan.html"]))
        os.chmod(self.path, 0o640)
        write_whole(self.path, "again")
        self.assertEqual((self.read(), os.listdir(self.folder), stat.S_IMODE(os.stat(self.path).st_mode)), ("again", ["plan.html"], 0o640))

    def test_nothing_is_left_where_it_fails(self):
        with self.assertRaisesRegex(BadOutput, r"plan.html is not written: the text holds '\\ud800', which is no character$"):
            write_whole(self.path, "a lone surrogate: \ud800")
        self.assertEqual(os.listdir(self.folder), [])
        write_whole(self.path, "old")
        with mock.patch("os.replace", side_effect=OSError("no room")):
            with self.assertRaises(OSError):
                write_whole(self.path, "new")
        self.assertEqual((self.read(), os.listdir(self.folder)), ("old", ["plan.html"]))
        with self.assertRaises(OSError):
            write_whole(os.path.join(self.folder, "none", "plan.html"), "new")

    def test_what_fails_is_named_as_it_was_given(self):
        given = os.path.join(self.folder, "link", "..", "none", "plan.html")
        with self.assertRaises(OSError) as caught:
            write_whole(given, "new")
        self.assertEqual((caught.exception.filename, isinstance(caught.exception, NotWritten)), (given, False))
        with mock.patch("os.replace", side_effect=OSError(28, "No space left on device", "x.part")):
            with self.assertRaisesRegex(NotWritten, "/plan.html was not written: No space left on device$"):
                write_whole(self.path, "new")
        self.assertEqual(os.listdir(self.folder), [])

    @unittest.skipUnless(os.path.exists("/dev/full") and os.path.exists("/dev/stdout"), "there is no /dev/full")
    def test_devices(self):
        with self.assertRaisesRegex(NotWritten, "^/dev/full was not written: No space left on device$"):
            write_whole("/dev/full", "new")
        script = "import yadvorkhul.command, sys; sys.exit(yadvorkhul.command.main(sys.argv[1:]))"
        here = os.path.dirname(os.path.abspath(__file__))
        for output, status, printed, said in (
            ("/dev/full", 4, b"", b"yadvorkhul: /dev/full was not written: No space left on device"),
            ("no/such", 2, b"", b"yadvorkhul: No such file or directory: no/such"),
            ("/dev/stdout", 0, b"{\n", b"written: /dev/stdout"),
        ):
            words = [sys.executable, "-c", script, "import", "../../examples/case_a/tariff.csv", "../../examples/case_a/production.csv", "-o", output]
            done = subprocess.run(words, cwd=here, capture_output=True)
            self.assertEqual((done.returncode, done.stdout[:2]), (status, printed), done.stderr)
            self.assertIn(said, done.stderr)

    def test_links_and_devices_stay(self):
        link = os.path.join(self.folder, "link.html")
        os.symlink("plan.html", link)
        write_whole(link, "through")
        self.assertEqual((self.read(), os.path.islink(link)), ("through", True))
        write_whole(os.devnull, "gone")
        self.assertFalse(os.path.isfile(os.devnull))


class Outputs(unittest.TestCase):
    def test_not_over_an_input(self):
        with tempfile.TemporaryDirectory() as folder:
            tariff, table, page, link = (os.path.join(folder, name) for name in ("tariff.csv", "production.csv", "plan.html", "link.csv"))
            for path in (tariff, table):
                with open(path, "w", encoding="utf-8") as out:
                    out.write("1")
            os.symlink(tariff, link)
            os.link(table, os.path.join(folder, "hard.csv"))
            inputs = [tariff, table]
            check_outputs([page, None], inputs)
            check_outputs([page, os.path.join(folder, "plan.svg")], inputs)
            for output in (tariff, os.path.join(folder, ".", "tariff.csv"), link, os.path.join(folder, "hard.csv")):
                with self.assertRaisesRegex(BadOutput, "is read as an input; name another file for the output$"):
                    check_outputs([page, output], inputs)
            with self.assertRaisesRegex(BadOutput, "is named for two outputs$"):
                check_outputs([page, os.path.join(folder, ".", "plan.html")], inputs)
            check_outputs([os.devnull, os.devnull], inputs)
            with self.assertRaisesRegex(BadOutput, "is a folder; name a file$"):
                check_outputs([folder], inputs)

    def test_paths_that_are_no_text(self):
        self.assertEqual(shown("tariff.csv"), "tariff.csv")
        self.assertEqual(shown(os.fsdecode(b"tar\xff.csv")), "tar\\xff.csv")


if __name__ == "__main__":
    unittest.main()
