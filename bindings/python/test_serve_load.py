"""Eight clients at once for a minute: no wrong plan, no lost call. SERVE_SECONDS sets another time."""

import json
import os
import random
import shutil
import tempfile
import threading
import time
import unittest

from yadvorkhul import Refusal, plan
from yadvorkhul.serve.journal import open_journal
from yadvorkhul.serve.shared import SharedCase

from serve_kit import Client, Process, make_people, season

CLIENTS = 8
SECONDS = float(os.environ.get("SERVE_SECONDS", "60"))


class Worker(threading.Thread):
    """A person who edits demands, entries or costs, and looks at every plan that comes back."""

    def __init__(self, port, number):
        super().__init__()
        self.client = Client(port, ["anna", "anna", "anna", "anna", "anna", "paul", "dora", "dora"][number])
        self.draw, self.number, self.ends = random.Random(number), number, 0.0
        self.wrong, self.answered, self.planned, self.slowest, self.odd = [], [], 0, 0.0, {}

    def call(self):
        if self.client.name == "paul":
            return ["edit_entry", self.draw.randint(0, 1500), self.draw.randint(0, 90000)]
        if self.client.name == "dora":
            return ["edit_demand", self.draw.randint(1, 30), self.draw.randint(20, 160)]
        return self.draw.choice(
            [
                ["edit_demand", self.draw.randint(1, 30), self.draw.randint(20, 160)],
                ["edit_cost", self.draw.randint(1, 12), self.draw.randint(1, 30), self.draw.randint(-9, 120)],
                ["edit_entry", self.draw.randint(0, 1500), self.draw.randint(0, 90000)],
            ]
        )

    def check(self, state):
        """The plan of an answer is the plan of the case of that very answer."""
        if "plan" not in state and "refused" not in state:
            return
        tariff, limits = state["tariff"], state["limits"]
        try:
            due = plan(tariff["costs"], tariff["supplies"], tariff["demands"], state["table"], tuple(limits["runs"]), limits["ceilings"])
            shown = state.get("plan")
            good = shown is not None and (shown["split"], shown["total"], shown["amounts"]) == (due.split, due.total, due.amounts)
        except Refusal as refusal:
            good = state.get("refused", {}).get("number") == refusal.number
        self.planned += 1
        if not good:
            self.wrong.append(state)

    def run(self):
        count = 0
        while time.monotonic() < self.ends:
            identity = f"c{self.number}-{count}"
            count += 1
            start = time.monotonic()
            got = self.client.do(self.call(), id=identity)
            self.slowest = max(self.slowest, time.monotonic() - start)
            if got.status != 200:
                self.odd[got.status] = self.odd.get(got.status, 0) + 1
                continue
            self.answered.append(identity)
            if count % 4 == 0:
                self.check(got.told)


class Load(unittest.TestCase):
    def setUp(self):
        self.folder = tempfile.mkdtemp(prefix="yadvorkhul-load-")
        self.addCleanup(shutil.rmtree, self.folder, True)
        make_people(os.path.join(self.folder, "people.json"))
        with open(os.path.join(self.folder, "case.json"), "w", encoding="utf-8") as out:
            json.dump(season(), out)

    def worked(self, port):
        """The workers after their time, and the state that is shown then."""
        workers = [Worker(port, number) for number in range(CLIENTS)]
        ends = time.monotonic() + SECONDS
        for worker in workers:
            worker.ends = ends
            worker.start()
        for worker in workers:
            worker.join()
        state = workers[0].client.state()
        workers[0].check(state)
        return workers, state

    def test_eight_clients(self):
        process = Process(self.folder, [os.path.join(self.folder, "case.json")])
        try:
            workers, state = self.worked(process.port)
        finally:
            process.stop()
        answered = [identity for worker in workers for identity in worker.answered]
        opened = open_journal(os.path.join(self.folder, "case.journal"))
        shared = SharedCase(opened.journal, opened.records)
        self.assertEqual(sorted(identity for _, identity in shared.history.ids), sorted(answered))
        self.assertEqual(len(shared.history.steps), len(answered) + 1)
        self.assertEqual([worker.wrong for worker in workers], [[]] * CLIENTS)
        self.assertEqual([worker.odd for worker in workers], [{}] * CLIENTS)
        self.assertEqual(shared.work.plan(1).total, state["plan"]["total"])
        opened.journal.close()
        planned, slowest = sum(worker.planned for worker in workers), max(worker.slowest for worker in workers)
        print(f"\n    {len(answered)} writes by {CLIENTS} clients in {SECONDS:.0f} s, {planned} plans compared, slowest answer {slowest * 1000:.0f} ms", flush=True)
        self.assertGreater(planned, CLIENTS)


if __name__ == "__main__":
    unittest.main()
