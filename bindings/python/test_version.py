"""One version: the archive's, the package's, the command's and, where they are built, the programs'."""

import os
import subprocess
import sys
import unittest

import yadvorkhul

HERE = os.path.dirname(os.path.abspath(__file__))
ROOT = os.path.join(HERE, "..", "..")
PROGRAMS = ("plan", "bounds", "flow", "tidy", "rates")


def said(*words):
    done = subprocess.run(words, cwd=HERE, capture_output=True, text=True)
    return done.returncode, done.stdout, done.stderr


class Version(unittest.TestCase):
    def test_archive_and_package(self):
        self.assertEqual(yadvorkhul.version(), yadvorkhul.__version__)

    def test_command(self):
        self.assertEqual(said(sys.executable, "-m", "yadvorkhul", "--version"), (0, f"yadvorkhul {yadvorkhul.__version__}\n", ""))

    def test_files(self):
        status, printed, errors = said(sys.executable, os.path.join(ROOT, "tools", "check-version"))
        self.assertEqual((status, printed.split()[1], errors), (0, yadvorkhul.__version__, ""))

    def test_programs(self):
        source = os.path.getmtime(os.path.join(ROOT, "crates", "version", "src", "lib.rt"))
        paths = [os.path.join(ROOT, "target", "bin", name) for name in PROGRAMS]
        built = [path for path in paths if os.path.exists(path) and os.path.getmtime(path) > source]
        if not built:
            self.skipTest("no program is built of this version's source: tools/programs " + " ".join(PROGRAMS))
        for path in built:
            self.assertEqual(said(path, "--version"), (0, f"{os.path.basename(path)} {yadvorkhul.__version__}\n", ""))


if __name__ == "__main__":
    unittest.main()
