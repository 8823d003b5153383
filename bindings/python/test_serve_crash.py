"""kill -9 at random moments during 500 writes: after each restart every answered call is there, and none twice."""

import http.client
import os
import random
import shutil
import tempfile
import threading
import time
import unittest

from yadvorkhul import Role, plan
from yadvorkhul.serve.journal import open_journal
from yadvorkhul.serve.shared import SharedCase

from serve_kit import Client, Process, free_port, make_people, season

WRITES, KILLS = 500, 12


class Crash(unittest.TestCase):
    def setUp(self):
        self.folder = tempfile.mkdtemp(prefix="yadvorkhul-crash-")
        self.addCleanup(shutil.rmtree, self.folder, True)
        make_people(os.path.join(self.folder, "people.json"))
        self.case = season()
        import json

        self.file = os.path.join(self.folder, "case.json")
        with open(self.file, "w", encoding="utf-8") as out:
            json.dump(self.case, out)

    def write(self, client, k):
        """Write number k: a demand, known by its number, and now and then a block of entries with it."""
        calls = [["edit_demand", k % 30 + 1, k]]
        if k % 7 == 0:
            calls += [["edit_entry", y, 1000 + k] for y in range(200)]
        got = client.do(*calls, id=f"w{k}")
        self.assertEqual(got.status, 200, got)
        return got

    def test_kill(self):
        draw, port, answered, unanswered, k = random.Random(5), free_port(), [], [], 0
        kills, process = 0, Process(self.folder, [self.file], port)
        try:
            client = Client(port, "anna")
            while k < WRITES:
                due = draw.randint(5, 2 * WRITES // KILLS)
                killer = None
                for step in range(due):
                    if k >= WRITES:
                        break
                    if step == due - 1 and kills < KILLS:
                        killer = threading.Timer(draw.uniform(0, 0.02), process.process.kill)
                        killer.start()
                    try:
                        self.write(client, k)
                        answered.append(k)
                    except (OSError, http.client.HTTPException):
                        unanswered.append(k)
                    k += 1
                if killer is None:
                    continue
                killer.join()
                process.kill()
                kills += 1
                process = Process(self.folder, [self.file], port)
                client = Client(port, "anna")
                self.sent_again(client, unanswered, answered)
            shown = client.state()
        finally:
            process.kill()
        self.check(answered, shown)
        print(f"\n    {kills} kills during {WRITES} writes, {len(unanswered)} of them unanswered and sent again: each stands once", flush=True)
        self.assertGreaterEqual(kills, 8)

    def sent_again(self, client, unanswered, answered):
        """As the page does: what had no answer goes out again, with its identity."""
        for one in unanswered:
            if one not in answered:
                self.write(client, one)
                answered.append(one)

    def check(self, answered, shown):
        opened = open_journal(os.path.join(self.folder, "case.journal"))
        shared = SharedCase(opened.journal, opened.records)
        found = [step.calls[0][2] for step in shared.history.steps if step.case is None]
        self.assertEqual(sorted(found), sorted(answered))
        self.assertEqual(len(found), len(set(found)))
        self.assertEqual(found, sorted(found))  # one client: in its order
        demands, table = list(self.case["demands"]), list(self.case["table"])
        for k in found:
            demands[k % 30] = k
            if k % 7 == 0:
                table[:200] = [1000 + k] * 200
        self.assertEqual((shown["tariff"]["demands"], shown["table"]), (demands, table))
        self.assertEqual(shared.work.see_table(Role.PLANNER), table)
        opened.journal.close()

    def test_second_server_is_refused(self):
        process = Process(self.folder, [self.file])
        try:
            with self.assertRaisesRegex(RuntimeError, "another server has the journal"):
                Process(self.folder, [self.file])
        finally:
            process.kill()
        Process(self.folder, [self.file]).kill()  # the lock goes with the process

    def test_first_start_makes_a_planner(self):
        os.unlink(os.path.join(self.folder, "people.json"))
        process = Process(self.folder, [self.file])
        time.sleep(0.5)
        try:
            import re

            word = re.search("one-time word ([^ ]+)", process.said()).group(1)
            client = Client(process.port)
            self.assertEqual(client.sign_in("planner", word).status, 303)
            self.assertEqual(os.stat(os.path.join(self.folder, "people.json")).st_mode & 0o777, 0o600)
        finally:
            process.kill()
        log = process.said()
        self.assertNotIn("Traceback", log)
        process = Process(self.folder)  # the journal alone is enough
        try:
            self.assertEqual(process.said().count("one-time word"), 1)
        finally:
            process.kill()

    def test_log_has_no_number_of_the_case(self):
        process = Process(self.folder, [self.file])
        try:
            client = Client(process.port, "anna")
            client.do(["edit_demand", 1, 3987])
            client.do(["edit_demand", 1, 54321])
            client.get("/tariff?x=3987")
        finally:
            process.kill()
        for number in ("3987", "54321"):
            self.assertNotIn(number, process.said())


if __name__ == "__main__":
    unittest.main()
