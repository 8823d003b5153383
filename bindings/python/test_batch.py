"""Tests of many cases: order, refusals, wrong lines, stopping and going on, the summary, and two Dask workers."""

import contextlib
import importlib.util
import io
import json
import os
import random
import shutil
import signal
import subprocess
import sys
import tempfile
import time
import unittest

from yadvorkhul import Case, Refusal, command
from yadvorkhul.batch import Batch, CannotGoOn, answers, begin, chunks, run, summary
from yadvorkhul.cases import read_case
from yadvorkhul.forms import case_fields, case_json

HERE = os.path.dirname(os.path.abspath(__file__))
EXAMPLES = os.path.join(HERE, "..", "..", "examples")
SEASON = os.path.join(EXAMPLES, "season", "season.json")
A = Case([[2, 6], [5, 3], [1, 4]], [3, 3, 1], [3, 2], [99, 20, 24, 20])


def changes(count, seed=5):
    draw = random.Random(seed)
    lines = [f"demand {draw.randint(1, 30)} = {draw.randint(20, 160)}" for _ in range(count)]
    lines[count // 2] = "demand 1 = 4001"
    lines[count // 3] = "demand 99 = 1"
    return lines


def told(*words):
    out, errors = io.BytesIO(), io.StringIO()
    with contextlib.redirect_stdout(io.TextIOWrapper(out)), contextlib.redirect_stderr(errors):
        return command.main(list(words)), errors.getvalue()


class Lines(unittest.TestCase):
    def test_cases(self):
        """A case a line: what `plan` gives, a refusal, and what is no case, each on its own line."""
        other = A._replace(demands=[3, 3])
        lines = [json.dumps(case_fields(case)) for case in (A, other, A._replace(demands=[9, 9]))] + ["{}", "", "[1", '{"x": "\udc80"}']
        found = [json.loads(line) for line in answers(lines)]
        self.assertEqual(found[:3], [{"split": 3, "total": 33}, {"split": 3, "total": 36}, {"refusal": 8, "place": 0}])
        self.assertEqual([list(one) for one in found[3:]], [["wrong"]] * 4)
        whole = json.loads(answers(lines[:1], plans=True)[0])
        self.assertEqual((whole["freight"], whole["amounts"]), (A.plan().freight, A.plan().amounts))

    def test_changes(self):
        """Changes a line: what the changed case gives, entered afresh; a change does not stay for the next line."""
        case = read_case(SEASON)
        for line, answer in zip(changes(30), answers(changes(30), case)):
            found = json.loads(answer)
            _, place, _, value = line.split()
            if int(place) > 30:
                self.assertIn("there is no demand 99", found["wrong"])
                continue
            demands = list(case.demands)
            demands[int(place) - 1] = int(value)
            try:
                plan = case._replace(demands=demands).plan()
                self.assertEqual(found, {"split": plan.split, "total": plan.total})
            except Refusal as refusal:
                self.assertEqual(found, {"refusal": refusal.number, "place": refusal.place})
        self.assertEqual(answers(['"demand 2 = 3"', "demand 2 = 3", "", '"x'], A)[:2], ['{"split": 3, "total": 36}'] * 2)
        self.assertEqual(json.loads(answers(["demand 2 = 3"], A, True)[0])["amounts"], A._replace(demands=[3, 3]).plan().amounts)

    def test_no_number_is_guessed(self):
        for line, words in (("demand 2 = 03", "is no change"), ("demand 2 = -0", "is no change"), ("demand 2 = 1,024", "'024' is no change"), ("demand 2 = 2.5", "is no change")):
            self.assertIn(words, json.loads(answers([line], A)[0])["wrong"])
        self.assertEqual(answers(["demand 2 = 3, demand 1 = 3"], A), ['{"split": 3, "total": 36}'])

    def test_chunks(self):
        self.assertEqual(list(chunks("abcde", 2)), [["a", "b"], ["c", "d"], ["e"]])


class Files(unittest.TestCase):
    def setUp(self):
        self.folder = tempfile.mkdtemp(prefix="yadvorkhul-batch-")
        self.addCleanup(shutil.rmtree, self.folder)
        self.lines = changes(1500)
        self.source, self.output = self.path("lines.txt"), self.path("answers.jsonl")
        with open(self.source, "w", encoding="utf-8") as out:
            out.write("\n".join(self.lines) + "\n")
        self.case = read_case(SEASON)
        self.due = answers(self.lines, self.case)

    def path(self, name):
        return os.path.join(self.folder, name)

    def got(self):
        with open(self.output, encoding="utf-8") as stream:
            return stream.read().split("\n")[:-1]

    def test_command(self):
        status, said = told("batch", self.source, "--case", SEASON, "-o", self.output, "--cores", "2")
        self.assertEqual((status, self.got()), (0, self.due), said)
        self.assertFalse(os.path.exists(self.output + ".state"))
        found = summary(self.output)
        self.assertEqual((found.lines, len(found.totals), found.wrong, sum(found.refusals.values())), (1500, 1498, 1, 1))
        self.assertEqual(told("batch", self.source, "--case", SEASON, "-o", self.output)[0], 2)  # it is finished
        self.assertEqual(self.got(), self.due)
        self.assertEqual(told("batch", self.source, "--case", SEASON, "-o", self.source)[0], 2)

    @unittest.skipUnless(importlib.util.find_spec("matplotlib") and importlib.util.find_spec("jinja2"), "the page needs Jinja2 and Matplotlib")
    def test_summary(self):
        page = self.path("summary.html")
        self.assertEqual(told("batch", self.source, "--case", SEASON, "-o", self.output, "--summary", page)[0], 0)
        with open(page, encoding="utf-8") as stream:
            text = stream.read()
        self.assertIn('id="planned">1,498<', text)
        often = max(summary(self.output).splits.values())
        self.assertIn(f"<td>{often:,}</td>", text)

    def test_going_on(self):
        """Stopped in the midst of a line, it goes on where it was, and no answer is planned twice."""
        batch = Batch(self.source, self.output, self.case, False)
        self.assertEqual(begin(batch), 0)

        class Stop(Exception):
            pass

        def stop(count):
            raise Stop

        with self.assertRaises(Stop):
            run(batch, 0, 2, stop)
        done = len(self.got())
        self.assertEqual((done, self.got()), (400, self.due[:400]))
        with open(self.output, "ab") as out:
            out.write(b'{"split": 1')
        self.assertEqual(begin(batch), 400)
        counted = []
        self.assertEqual(run(batch, 400, 2, counted.append), 1500)
        self.assertEqual((sum(counted), self.got()), (1100, self.due))

    def test_other_files(self):
        """A byte order mark is passed over; a workbook or UTF-16 is no file of lines, and nothing is begun."""
        with open(self.source, "wb") as out:
            out.write(b"\xef\xbb\xbf" + "\r\n".join(self.lines).encode())
        self.assertEqual(told("batch", self.source, "--case", SEASON, "-o", self.output)[0], 0)
        self.assertEqual(self.got(), self.due)
        for data, words in ((b"PK\x03\x04" + b"x" * 99, "here stands the beginning of a workbook (PK), whatever the file is called"), ("demand 3 = 1\n".encode("utf-16"), "UTF-16")):
            with open(self.source, "wb") as out:
                out.write(data)
            other = self.path("other.jsonl")
            status, said = told("batch", self.source, "--case", SEASON, "-o", other)
            self.assertEqual((status, os.path.exists(other), os.path.exists(other + ".state")), (2, False, False))
            self.assertIn(f"{self.source} is no file of lines: ", said)
            self.assertIn(words, said)

    def test_other_lines(self):
        """Answers to something else are not touched."""
        batch = Batch(self.source, self.output, self.case, False)
        begin(batch)
        with open(self.output, "ab") as out:
            out.write(b"kept\n")
        for other in (batch._replace(plans=True), batch._replace(case=A), batch._replace(case=None)):
            with self.assertRaises(CannotGoOn):
                begin(other)
        with open(self.source, "a", encoding="utf-8") as out:
            out.write("demand 1 = 5\n")
        with self.assertRaises(CannotGoOn):
            begin(batch)
        self.assertEqual(self.got(), ["kept"])

    def test_killed(self):
        """Killed at any moment: started again, the answers are the same."""
        words = [sys.executable, "-m", "yadvorkhul", "batch", self.source, "--case", SEASON, "-o", self.output, "--cores", "1"]
        first = subprocess.Popen(words, cwd=HERE, stderr=subprocess.DEVNULL, start_new_session=True)
        try:
            while first.poll() is None and not (os.path.exists(self.output) and os.path.getsize(self.output)):
                pass
        finally:
            if first.poll() is None:
                os.killpg(first.pid, 9)
            first.wait()
        unfinished = os.path.exists(self.output + ".state")  # else it was too quick for us
        status, _ = told("batch", self.source, "--case", SEASON, "-o", self.output, "--cores", "1")
        self.assertEqual((status, self.got()), (0 if unfinished else 2, self.due))

    def many(self):
        """Lines that take a while."""
        with open(self.source, "w", encoding="utf-8") as out:
            out.write("\n".join(self.lines * 40) + "\n")
        return self.due * 40

    def begun(self, cores="2"):
        """The command, once it has written something more."""
        size = lambda: os.path.getsize(self.output) if os.path.exists(self.output) else 0
        before = size()
        words = [sys.executable, "-m", "yadvorkhul", "batch", self.source, "--case", SEASON, "-o", self.output, "--cores", cores, "--plans"]
        first = subprocess.Popen(words, cwd=HERE, stderr=subprocess.PIPE, start_new_session=True)
        while first.poll() is None and size() <= before:
            time.sleep(0.002)
        return first

    def test_stopped(self):
        """By TERM or INT, to it alone or to all its processes: one sentence, whole answers; started again it goes on."""
        self.many()
        for number, send in ((signal.SIGTERM, os.kill), (signal.SIGINT, os.killpg), (signal.SIGTERM, os.killpg)):
            first = self.begun()
            send(first.pid, number)
            said = first.communicate(timeout=60)[1].decode()
            with open(self.output, "rb") as stream:
                written = stream.read()
            lines = written.count(b"\n")
            self.assertTrue(written.endswith(b"\n"))
            self.assertEqual(first.returncode, 128 + number, said)
            self.assertEqual([line for line in said.splitlines() if "going on" not in line],
                             [f"yadvorkhul: stopped: {self.output} has {lines:,} answers, each whole; the same command goes on from there"])
            self.assertRaises(ProcessLookupError, os.killpg, first.pid, 0)
        status, said = told("batch", self.source, "--case", SEASON, "-o", self.output, "--cores", "2", "--plans")
        self.assertEqual(status, 0, said)
        self.assertIn(f"has {lines:,} answers; going on from there", said)
        self.assertEqual([(one.get("split"), one.get("refusal")) for one in map(json.loads, self.got())],
                         [(one.get("split"), one.get("refusal")) for one in map(json.loads, self.due * 40)])

    def test_worker_killed(self):
        """A worker that is killed from outside: one sentence, status 4; nothing hangs, and it can go on."""
        self.many()
        first = self.begun()
        workers = subprocess.run(["ps", "-o", "pid=", "--ppid", str(first.pid)], capture_output=True, check=True).stdout.split()
        os.kill(int(workers[0]), signal.SIGKILL)
        said = first.communicate(timeout=60)[1].decode()
        self.assertEqual(first.returncode, 4, said)
        self.assertEqual(len(said.splitlines()), 1, said)
        self.assertIn("a worker was ended from outside", said)
        self.assertTrue(os.path.exists(self.output + ".state"))

    def test_two_at_once(self):
        """Two runs on one file: the second is told so, and what the first writes is not touched."""
        due = self.many()
        first = self.begun()
        status, said = told("batch", self.source, "--case", SEASON, "-o", self.output, "--cores", "1", "--plans")
        running = first.poll() is None
        first.communicate(timeout=240)
        self.assertEqual((status, running), (2, True), said)
        self.assertIn(f"{self.output} is being written by another run", said)
        self.assertEqual((first.returncode, len(self.got())), (0, len(due)))
        self.assertEqual([json.loads(one).get("split") for one in self.got()], [json.loads(one).get("split") for one in due])
        self.assertFalse(os.path.exists(self.output + ".state"))

    def test_state_over_nothing(self):
        """The state is written over no file that was read, nor over one that is no state; over one that an earlier run left, it is."""
        state = self.output + ".state"
        shutil.copy(self.source, state)
        for source, words in ((state, "is read as an input"), (self.source, "is no state of a batch")):
            status, said = told("batch", source, "--case", SEASON, "-o", self.output, "--cores", "1")
            self.assertEqual((status, os.path.exists(self.output)), (2, False), said)
            self.assertIn(words, said)
            with open(state, encoding="utf-8") as stream:
                self.assertEqual(stream.read(), "\n".join(self.lines) + "\n")
        os.unlink(state)
        begin(Batch(self.source, self.output, A, True))
        os.unlink(self.output)
        self.assertEqual(told("batch", self.source, "--case", SEASON, "-o", self.output, "--cores", "1")[0], 0)
        self.assertEqual(self.got(), self.due)
        self.assertEqual(told("batch", self.source, "--case", SEASON, "-o", self.path("b.jsonl"), "--summary", self.path("b.jsonl.state"))[0], 2)

    def test_parent_killed(self):
        """No worker outlives its parent."""
        self.many()
        first = self.begun()
        os.kill(first.pid, signal.SIGKILL)
        first.communicate(timeout=60)
        end = time.monotonic() + 20
        while time.monotonic() < end:
            try:
                os.killpg(first.pid, 0)
                time.sleep(0.05)
            except ProcessLookupError:
                return
        self.fail("a worker is left")

    @unittest.skipUnless(shutil.which("python3"), "python3 is not there")
    def test_dask(self):
        """The same answers by two local Dask workers."""
        try:
            import distributed  # noqa: F401
        except ImportError:
            self.skipTest("python3-distributed is not there")
        words = [sys.executable, os.path.join(EXAMPLES, "batch_dask.py"), SEASON, self.source, self.output]
        done = subprocess.run(words, cwd=HERE, env={**os.environ, "PYTHONPATH": HERE}, capture_output=True, timeout=240)
        self.assertEqual(done.returncode, 0, done.stderr.decode()[-2000:])
        self.assertIn("4 parts by 2 workers", done.stdout.decode())
        self.assertEqual(self.got(), self.due)


class Forms(unittest.TestCase):
    def test_lines_of_a_file(self):
        """A case as it is written for a line is a case."""
        with tempfile.TemporaryDirectory() as folder:
            path = os.path.join(folder, "a.json")
            with open(path, "w", encoding="utf-8") as out:
                out.write(case_json(A))
            self.assertEqual(read_case(path), A)


if __name__ == "__main__":
    unittest.main()
