"""Tests of one working case under threads: each call is told its own report, and an edit does not run beside a plan."""

import subprocess
import sys
import threading
import time
import unittest

from yadvorkhul import Refusal, Role, WorkingCase

SECONDS = 1.5  # for each test


def season():
    """A case that takes long enough to plan for others to run meanwhile: its plan's split is far from 0."""
    m, n, supply = 8, 12, 3900
    costs = [[(i * 37 + j * 53) % 97 for j in range(n)] for i in range(m)]
    supplies = [supply, 3000] + [40] * (m - 2)
    demands = [300 + 7 * j for j in range(n)]
    table = [200_000 - 40 * y + (y * 7919) % 1000 for y in range(supply + 1)]
    return dict(costs=costs, supplies=supplies, demands=demands, table=table)


def together(*jobs):
    """Runs the jobs, each over and over in a thread of its own, and raises what one of them raised."""
    end, raised = time.monotonic() + SECONDS, []

    def over_and_over(job):
        try:
            while time.monotonic() < end and not raised:
                job()
        except BaseException as error:
            raised.append(error)

    threads = [threading.Thread(target=over_and_over, args=(job,)) for job in jobs]
    for thread in threads:
        thread.start()
    for thread in threads:
        thread.join()
    if raised:
        raise raised[0]


class Readers(unittest.TestCase):
    def test_each_is_told_its_own(self):
        """Two planners and a depot: no plan is mixed up with another call's report, and the depot learns no split."""
        work = WorkingCase(**season())
        due = work.plan(Role.PLANNER)
        self.assertGreater(due.split, 0)

        def planner():
            self.assertEqual(work.plan(Role.PLANNER), due)

        def depot():
            with self.assertRaises(Refusal) as caught:
                work.see_table(Role.DEPOT)
            self.assertEqual((caught.exception.number, caught.exception.place), (31, 0))

        together(planner, planner, depot)


# Without a lock the planner reads past its table and the process may end, so this runs in one of its own.
EDITING = """
import sys
from test_threads import season, together
from yadvorkhul import Role, WorkingCase

work = WorkingCase(**season())
due = []
for supply in (3900, 2500):
    work.edit_supply(Role.PLANNER, 1, supply)
    due.append(work.plan(Role.PLANNER))
tables = [work.see_table(Role.PLANNER)]
work.edit_supply(Role.PLANNER, 1, 3900)
tables.append(work.see_table(Role.PLANNER))
due.append(work.plan(Role.PLANNER))

def editor():
    for supply in (2500, 3900):
        work.edit_supply(Role.PLANNER, 1, supply)

def planner():
    found = work.plan(Role.PLANNER)
    if found not in due:
        sys.exit(f"a plan of no state of the case: split {found.split}, total {found.total}")

def looker():
    if work.see_table(Role.PLANT) not in tables:
        sys.exit("a table of no state of the case")

together(editor, editor, planner, planner, looker)
"""


class Writers(unittest.TestCase):
    def test_edits_beside_plans(self):
        """Editors, planners and one who sees the table: all that is told belongs to one of the two states."""
        done = subprocess.run([sys.executable, "-c", EDITING], capture_output=True, text=True)
        self.assertEqual((done.returncode, done.stdout, done.stderr), (0, "", ""))


if __name__ == "__main__":
    unittest.main()
