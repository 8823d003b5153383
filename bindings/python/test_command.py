"""Tests of the command `python3 -m yadvorkhul`: each subcommand, refusals, and what a build lacks."""

import contextlib
import importlib.util
import io
import json
import os
import shutil
import subprocess
import sys
import tempfile
import unittest
from unittest import mock

import yadvorkhul
from yadvorkhul import Case, command
from yadvorkhul.forms import fingerprints

HERE = os.path.dirname(os.path.abspath(__file__))
EXAMPLES = os.path.join(HERE, "..", "..", "examples")
PRINTED = "source,terminal,amount,cost\r\n0,0,3,20\r\n1,1,3,6\r\n1,2,0,0\r\n2,1,0,0\r\n2,2,1,3\r\n3,1,0,0\r\n3,2,1,4\r\n"


def files(folder):
    return [os.path.join(EXAMPLES, folder, name) for name in ("tariff.csv", "production.csv")]


def run(*words):
    """Status, standard output and standard error of the command."""
    done = subprocess.run([sys.executable, "-m", "yadvorkhul", *words], cwd=HERE, capture_output=True)
    return done.returncode, done.stdout.decode(), done.stderr.decode()


def run_here(*words):
    """The same in this process, where parts may be exchanged."""
    out, errors = io.BytesIO(), io.StringIO()
    with contextlib.redirect_stdout(io.TextIOWrapper(out)), contextlib.redirect_stderr(errors):
        return command.main(list(words)), out.getvalue().decode(), errors.getvalue()


class Command(unittest.TestCase):
    def test_plan(self):
        self.assertEqual(run("plan", *files("case_a")), (0, PRINTED, ""))

    def test_plan_of_json(self):
        with tempfile.TemporaryDirectory() as folder:
            path = os.path.join(folder, "case.json")
            case = dict(costs=[[2, 6], [5, 3], [1, 4]], supplies=[3, 3, 1], demands=[3, 2], table=[99, 20, 24, 20], ceilings=[[1, 9]] + [[9, 9]] * 2)
            with open(path, "w", encoding="utf-8") as out:
                json.dump(case, out)
            status, printed, _ = run("plan", path)
            self.assertEqual((status, printed.split("\r\n")[1]), (0, "0,0,1,20"))
            with open(path, "w", encoding="utf-8") as out:
                out.write("{}")
            self.assertEqual(run("plan", path)[0], 2)
            for spoiled in ({**case, "demands": [3, "2"]}, {**case, "costs": 5}, {**case, "runs": [1]}, {**case, "drums": 1}):
                with open(path, "w", encoding="utf-8") as out:
                    json.dump(spoiled, out)
                status, printed, said = run("plan", path)
                self.assertEqual((status, printed), (2, ""))
                self.assertIn("is not a case in JSON", said)

    def test_json_that_is_no_case(self):
        """One sentence and status 2, whatever the file is."""
        with tempfile.TemporaryDirectory() as folder:
            path = os.path.join(folder, "case.json")
            case = b'"costs": [[2, 6], [5, 3], [1, 4]], "supplies": [3, 3, 1], "demands": [3, 2], "table": [99, 20, 24, 20]'
            for data, sentence in (
                (b"[" * 100_000, "brackets stand more than 8 deep"),
                (b" " * 4_000_001, "longer than 4,000,000 bytes"),
                (b'{"sources": 5, ' + case + b"}", "sources: a list or null is wanted, not a whole number"),
                (b'{"sources": "abc", ' + case + b"}", "sources: a list or null is wanted, not a text"),
                (b'{"table": [1], ' + case + b"}", "the key 'table' stands twice"),
                (b'{"title": "\\ud800", ' + case + b"}", "a lone surrogate"),
            ):
                with open(path, "wb") as out:
                    out.write(data)
                for words in (("plan", path), ("page", path, "-o", os.path.join(folder, "plan.html"))):
                    status, printed, said = run(*words)
                    self.assertEqual((status, printed, said.count("\n")), (2, "", 1), said)
                    self.assertIn(sentence, said)
                self.assertEqual(os.listdir(folder), ["case.json"])

    def test_refusal(self):
        with tempfile.TemporaryDirectory() as folder:
            tariff = os.path.join(folder, "tariff.csv")
            with open(tariff, "wb") as out:
                out.write(b"2,6,3\n5,3,3\n")
            status, printed, said = run("plan", tariff, files("case_a")[1])
            self.assertEqual((status, printed), (1, "refusal,place\r\n21,5\r\n"))
            self.assertIn("record 1, field 3, offset 5", said)
            self.assertIn("LF without CR", said)
            table = os.path.join(folder, "table.csv")
            for data, printed, sentence in (
                (b"1\r\n2\r\n", "6,0", f"the production file {table} has 2 entries, not 4."),
                (b"9\r\n20\r\n1000000001\r\n1", "9,2", f"the entry of split 2 (record 3 of the production file {table}) is above 1,000,000,000."),
            ):
                with open(table, "wb") as out:
                    out.write(data)
                status, shown, said = run("plan", files("case_a")[0], table)
                self.assertEqual((status, shown), (1, f"refusal,place\r\n{printed}\r\n"))
                self.assertIn(sentence, said)
            status, printed, said = run("plan", os.path.join(folder, "none.csv"), files("case_a")[1])
            self.assertEqual((status, printed), (1, "refusal,place\r\n20,0\r\n"))

    def test_help(self):
        for name in ("plan", "tidy", "page", "bounds", "rates", "flow"):
            status, printed, _ = run(name, "--help")
            self.assertEqual(status, 0)
            self.assertIn(f"yadvorkhul {name}", printed)
        self.assertEqual(run("dance")[0], 2)
        self.assertEqual(run("plan", "a", "b", "c")[0], 2)

    def test_lacking(self):
        with mock.patch.object(yadvorkhul, "offers", lambda symbol: symbol == "yadvorkhul_plan"):
            for name, symbol in (("plan", "plan_files"), ("tidy", "tidy_files"), ("bounds", "bounds"), ("rates", "rates"), ("flow", "flow")):
                status, printed, said = run_here(name, "1", "2", "3")
                self.assertEqual((status, printed), (3, ""))
                self.assertIn(f"no yadvorkhul_{symbol}", said)

    def test_lacking_with_options(self):
        """What is missing is said whatever options there are; where nothing is, an option that is none is a wrong use."""
        nowhere = {**os.environ, "YADVORKHUL_SO": "/nonexist"}
        for words in (["page", "t", "p", "-o", "z"], ["plan", "--json", "t"], ["flow", "n", "-1", "t", "--drawing=x"]):
            done = subprocess.run([sys.executable, "-m", "yadvorkhul", *words], cwd=HERE, env=nowhere, capture_output=True)
            self.assertEqual((done.returncode, done.stdout), (3, b""), words)
            self.assertIn(f"yadvorkhul {words[0]}: nonexist is not there".encode(), done.stderr)
        status, printed, said = run("plan", *files("case_a"), "--jsonn")
        self.assertEqual((status, printed), (2, ""))
        self.assertIn("unrecognized arguments: --jsonn", said)

    def test_no_shared_object(self):
        for path in ("/nowhere/lib.so", __file__):
            done = subprocess.run(
                [sys.executable, "-m", "yadvorkhul", "plan", *files("case_a")], cwd=HERE, capture_output=True, env={**os.environ, "YADVORKHUL_SO": path}
            )
            self.assertEqual((done.returncode, done.stdout), (3, b""))
            self.assertIn(b"bindings/python/build", done.stderr)
            self.assertEqual(done.stderr.count(b"\n"), 1)

    def test_closed_output(self):
        command = f'"{sys.executable}" -m yadvorkhul plan "{files("case_a")[0]}" "{files("case_a")[1]}"'
        for closed in (command + " >&-", f"({command}; echo $? >&2) | :", command + " > /dev/full"):
            done = subprocess.run(["sh", "-c", closed], cwd=HERE, stdout=subprocess.PIPE, stderr=subprocess.PIPE)
            said = done.stderr.decode()
            self.assertIn("standard output could not be written", said)
            self.assertNotIn("Traceback", said)
            self.assertTrue(done.returncode == 4 or said.endswith("4\n"), (closed, said, done.returncode))

    def test_control_characters(self):
        odd = "no\x1b[31m\u202efile\nRefusal"
        status, printed, said = run("plan", odd, "b")
        self.assertEqual((status, printed), (1, "refusal,place\r\n20,0\r\n"))
        self.assertIn("no\\x1b[31m\\xe2\\x80\\xaefile\\x0aRefusal", said)
        self.assertEqual(said.count("\n"), 1)
        status, printed, said = run("plan", "a", "b", "--\x1b[31m")
        self.assertEqual((status, printed), (2, ""))
        self.assertNotIn("\x1b", said)
        self.assertEqual(run("plan", "b\udcff", "b")[0], 1)

    def test_unforeseen(self):
        def broken(arguments):
            raise RuntimeError("odd\x07")

        with mock.patch("yadvorkhul.commands.plan.run", broken):
            status, printed, said = run_here("plan")
        self.assertEqual((status, printed), (4, ""))
        self.assertIn("RuntimeError: odd\\x07", said)

    def test_version(self):
        self.assertEqual(run("--version"), (0, f"yadvorkhul {yadvorkhul.__version__}\n", ""))
        self.assertEqual(yadvorkhul.version(), yadvorkhul.__version__)
        root = os.path.join(HERE, "..", "..")
        number = "".join(f"{int(part):02d}" for part in yadvorkhul.__version__.split(".")).lstrip("0")
        for path, line in (
            ("bindings/python/pyproject.toml", f'version = "{yadvorkhul.__version__}"'),
            ("bindings/rust/Cargo.toml", f'version = "{yadvorkhul.__version__}"'),
            ("bindings/c/yadvorkhul.h", f"#define YADVORKHUL_VERSION {number} "),
        ):
            with open(os.path.join(root, path), encoding="utf-8") as stream:
                self.assertIn(line, stream.read())

    @unittest.skipUnless(importlib.util.find_spec("argcomplete"), "python3-argcomplete is not there")
    def test_completion(self):
        for line, due in (("yadvorkhul bo", "bounds"), ("yadvorkhul plan --j", "--json")):
            asked = {"COMP_LINE": line, "COMP_POINT": str(len(line)), "_ARGCOMPLETE": "1", "_ARGCOMPLETE_IFS": "\v"}
            command = f'"{sys.executable}" -m yadvorkhul 8>&1 9>/dev/null >/dev/null'
            done = subprocess.run(["sh", "-c", command], cwd=HERE, capture_output=True, env={**os.environ, **asked})
            self.assertEqual((done.returncode, done.stdout.decode().strip()), (0, due))

    def test_endless(self):
        status, printed, said = run("plan", "/dev/zero")
        self.assertEqual((status, printed), (2, ""))
        self.assertIn("longer than", said)
        self.assertEqual(run("plan", "/dev/zero", "/dev/zero")[:2], (1, "refusal,place\r\n20,0\r\n"))
        with tempfile.TemporaryDirectory() as folder:
            path = os.path.join(folder, "case.json")
            for text in ("[" * 100_000, '{"costs":' * 50_000, '{"sources": 5}', '{"table": [1], "table": [2]}', "5", "1e999"):
                with open(path, "w", encoding="utf-8") as out:
                    out.write(text)
                status, printed, said = run("plan", path)
                self.assertEqual((status, printed, said.count("\n")), (2, "", 1), text[:40])

    def test_called(self):
        for called, due in (("/usr/bin/yadvorkhul", "usage: yadvorkhul "), ("/x/__main__.py", "usage: python3 -m yadvorkhul ")):
            with mock.patch.object(sys, "argv", [called]):
                self.assertTrue(run_here("--help")[1].startswith(due))

    def test_json(self):
        case = dict(split=3, total=33, freight=13, amounts=[[3, 0], [0, 1], [0, 1]], stops=[[1, 14], [2, 11], [3, 13]])
        status, printed, said = run("plan", "--json", *files("case_a"))
        entered = Case([[2, 6], [5, 3], [1, 4]], [3, 3, 1], [3, 2], [99, 20, 24, 20])
        case.update(fingerprints(entered, entered.plan()))
        self.assertEqual((status, json.loads(printed), said), (0, case, ""))
        tariff, low = files("case_a")
        status, printed, _ = run("bounds", tariff, low, low, "--json")
        self.assertEqual((status, json.loads(printed)), (0, dict(first=1, possible=[False, False, True], smallest=33, largest=33)))
        status, printed, said = run("bounds", tariff, low, tariff, "--json")
        self.assertEqual((status, json.loads(printed)), (1, dict(refusal=21, place=25)))
        self.assertIn(f"the high file {tariff} has a byte that cannot stand there", said)
        network, table = (os.path.join(EXAMPLES, "pipeline", name) for name in ("network.min", "table.csv"))
        status, printed, _ = run("flow", network, "1", table, "--json")
        found = json.loads(printed)
        self.assertEqual((status, found["total"], found["arcs"][0]["flow"]), (0, 773, 30))
        status, printed, _ = run("flow", network, "0", table, "--json")
        self.assertEqual((status, json.loads(printed)), (1, dict(refusal=30, place=0)))
        self.assertEqual(json.loads(run("plan", "--json", "none", "none")[1]), dict(refusal=20, place=0))

    def test_tidy(self):
        with tempfile.TemporaryDirectory() as folder:
            paths = [os.path.join(folder, name) for name in ("a.csv", "b.csv", "c.csv", "d.csv")]
            with open(paths[0], "wb") as out:
                out.write(b'"2",6,3\r\n5,3,3\r\n1,4,1\r\n3,2,')
            with open(paths[1], "wb") as out:
                out.write(b'99\r\n20\r\n24\r\n"20"')
            status, printed, said = run("tidy", *paths)
            self.assertEqual((status, said), (0, ""))
            self.assertEqual(printed, f"file,bytes\r\n{paths[2]},27\r\n{paths[3]},16\r\n")
            with open(paths[2], "rb") as tariff, open(paths[3], "rb") as production:
                self.assertEqual((tariff.read(), production.read()), (b"2,6,3\r\n5,3,3\r\n1,4,1\r\n3,2,\r\n", b"99\r\n20\r\n24\r\n20\r\n"))
            # names as fields of RFC 4180
            odd = [os.path.join(folder, name) for name in ("a,1", 'b"2', "c\r3", "d\n4", "e 5", "f;6")]
            for k, (one, other) in enumerate((('"%s/a,1"', '"%s/b""2"'), ('"%s/c\r3"', '"%s/d\n4"'), ("%s/e 5", "%s/f;6"))):
                due = f"file,bytes\r\n{one % folder},27\r\n{other % folder},16\r\n"
                self.assertEqual(run("tidy", *paths[:2], *odd[2 * k : 2 * k + 2]), (0, due, ""))
            # over no file; both or none
            status, printed, said = run("tidy", *paths)
            self.assertEqual((status, printed), (2, ""))
            self.assertIn("c.csv was not written", said)
            new = os.path.join(folder, "e.csv")
            self.assertEqual(run("tidy", paths[0], paths[1], new, paths[3])[:2], (2, ""))
            self.assertFalse(os.path.exists(new))
            status, printed, said = run("tidy", paths[1], paths[0], new, new)
            self.assertEqual((status, printed), (1, "refusal,place\r\n21,16\r\n"))
            self.assertIn(f"the tariff file {paths[1]} ends too soon: record 4, field 1, offset 16", said)
            self.assertFalse(os.path.exists(new))

    def test_rates(self):
        self.assertEqual(run("rates", "3"), (0, "0\r\n100\r\n141\r\n173\r\n", ""))
        self.assertEqual(run("rates", "4001")[:2], (1, ""))
        for odd in ("-1", "4,000", "", "12345", "x", "\u0664"):
            self.assertEqual(run("rates", "--", odd)[:2], (2, ""))

    def test_bounds(self):
        tariff, low = files("case_a")
        with tempfile.TemporaryDirectory() as folder:
            path = os.path.join(folder, "high.csv")

            def asked(data, high=True):
                with open(path, "wb") as out:
                    out.write(data)
                return run("bounds", tariff, low, path) if high else run("bounds", tariff, path, low)

            due = "smallest,largest\r\n33,34\r\nsplit,possible\r\n1,1\r\n2,0\r\n3,1\r\n"
            self.assertEqual(asked(b"99\r\n20\r\n24\r\n22\r\n"), (0, due, ""))
            for data, high, printed, sentence in (
                (b"99\r\n20\r\n24\r\n", False, "6,0", f"the low file {path} has 3 entries, not 4."),
                (b"9\r\n20\r\n1000000001\r\n1\r\n", False, "9,2", f"the entry of split 2 (record 3 of the low file {path}) is above 1,000,000,000."),
                (b"99\r\n", True, "28,0", f"the high file {path} has 1 entry, the low one 4."),
                (b"99\r\n20\r\n23\r\n20\r\n", True, "28,2", f"the entry of split 2 (record 3 of the high file {path}), 23, is below the low one, 24."),
                (b"99\r\n20\r\n1000000001\r\n20\r\n", True, "28,2", "1,000,000,001, is above 1,000,000,000."),
                (b"99\r\n2;0", True, "21,5", f"the high file {path} has a byte that cannot stand there: record 2, field 1, offset 5 counted from 0."),
                (b"99\r\n2;0", False, "21,5", f"the low file {path} has a byte that cannot stand there: record 2, field 1, offset 5 counted from 0."),
                (b"99,1\r\n", False, "22,1", f"record 1 of the low file {path} has 2 fields; each has 1."),
                (b"9" * 65_537, True, "20,0", f"the high file {path} is longer than 65,536 bytes."),
            ):
                status, out, said = asked(data, high)
                self.assertEqual((status, out), (1, f"refusal,place\r\n{printed}\r\n"))
                self.assertIn(sentence, said)

    def test_flow(self):
        lines = b"p min 4 5\nn 1 5\nn 4 -5\na 1 2 0 4 3\na 1 3 0 3 1\na 3 2 0 2 -1\na 2 4 0 5 2\na 3 4 0 2 9\n"
        with tempfile.TemporaryDirectory() as folder:
            network, table = os.path.join(folder, "net.min"), os.path.join(folder, "table.csv")
            with open(table, "wb") as out:
                out.write(b"0\r\n10\r\n12\r\n14\r\n16\r\n40\r\n")

            def asked(data, arc="4", costs=table):
                with open(network, "wb") as out:
                    out.write(data)
                return run("flow", network, arc, costs)

            due = "total\r\n32\r\nstart,end,flow,cost\r\n1,2,2,6\r\n1,3,3,3\r\n3,2,2,-2\r\n2,4,4,16\r\n3,4,1,9\r\n"
            self.assertEqual(asked(lines), (0, due, ""))
            status, printed, said = asked(lines.replace(b"n 1 5", b"n 1 05"))
            self.assertEqual((status, printed), (1, "refusal,place\r\n29,2\r\n"))
            self.assertIn(f"line 2 of the network file {network} is not of the form: n 1 05. Here stands a number with 0 in front.", said)
            status, printed, said = asked(lines, "1")
            self.assertEqual((status, printed), (1, "refusal,place\r\n30,0\r\n"))
            self.assertIn("a table of 6 entries for arc 1, whose ceiling is 4", said)
            status, printed, said = asked(lines.replace(b"n 1 5", b"n 1 4"))
            self.assertEqual((status, printed), (1, "refusal,place\r\n27,0\r\n"))
            self.assertIn("a sum of all supplies of -1", said)
            status, printed, said = asked(lines, "4", os.path.join(folder, "none.csv"))
            self.assertEqual((status, printed), (1, "refusal,place\r\n20,0\r\n"))
            self.assertIn(f"the table file {os.path.join(folder, 'none.csv')} cannot be opened", said)
            status, printed, said = run("flow", os.path.join(folder, "none.min"), "4", table)
            self.assertEqual((status, printed), (1, "refusal,place\r\n20,0\r\n"))
            self.assertIn("the network file", said)
            # the form of the network, the table's file, then the limits
            status, printed, _ = asked(lines.replace(b"n 1 5", b"n 1 05"), "1", os.path.join(folder, "none.csv"))
            self.assertEqual((status, printed), (1, "refusal,place\r\n29,2\r\n"))
            status, printed, _ = asked(lines, "9", os.path.join(folder, "none.csv"))
            self.assertEqual((status, printed), (1, "refusal,place\r\n20,0\r\n"))
            for odd in ("one", "", "12345", "\u0664", "1x", "-1", "00001", "0", "0099"):
                status, printed, said = asked(lines, odd)
                self.assertEqual((status, printed), (1, "refusal,place\r\n30,0\r\n"))
                self.assertIn('there is arc %s as the named one; the file has 5.' % (odd or '""'), said)
            self.assertEqual(asked(lines, "0004"), (0, due, ""))

    def test_page_is_written_over_no_input(self):
        with tempfile.TemporaryDirectory() as folder:
            tariff, table = (shutil.copy(path, folder) for path in files("case_a"))
            page = os.path.join(folder, "plan.html")
            for words in (("-o", tariff), ("-o", table), ("-o", page, "--picture", tariff), ("-o", page, "--picture", page), ("-o", folder)):
                status, printed, said = run("page", tariff, table, *words)
                self.assertEqual((status, printed, said.count("\n")), (2, "", 1), said)
                self.assertEqual(sorted(os.listdir(folder)), ["production.csv", "tariff.csv"])
            for path, other in zip((tariff, table), files("case_a")):
                with open(path, "rb") as one, open(other, "rb") as two:
                    self.assertEqual(one.read(), two.read())

    def test_page_without_libraries(self):
        for name in ("jinja2", "matplotlib"):
            with mock.patch.dict(sys.modules, {name: None}):
                status, _, said = run_here("page", *files("case_a"), "-o", os.devnull)
                self.assertEqual(status, 3)
                self.assertIn("apt-get install -y python3-jinja2 python3-matplotlib", said)
                self.assertEqual(run_here("plan", *files("case_a")), (0, PRINTED, ""))


if __name__ == "__main__":
    unittest.main()
