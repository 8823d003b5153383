"""The journal of a shared case: what is kept, what is dropped, what is refused."""

import os
import tempfile
import unittest

from yadvorkhul import Role
from yadvorkhul.serve.cases import case_of
from yadvorkhul.serve.journal import JournalError, NotWritten, create, open_journal
from yadvorkhul.serve.shared import Person, Refused, SharedCase

from serve_kit import A

ANNA, DORA = Person("anna", Role.PLANNER), Person("dora", Role.DEPOT)


class Journals(unittest.TestCase):
    def setUp(self):
        folder = tempfile.TemporaryDirectory()
        self.addCleanup(folder.cleanup)
        self.path = os.path.join(folder.name, "case.journal")

    def begun(self) -> SharedCase:
        opened = create(self.path, {"do": "enter", "user": "", "case": case_of(A)})
        return SharedCase(opened.journal, opened.records)

    def again(self):
        opened = open_journal(self.path)
        return SharedCase(opened.journal, opened.records), opened.told

    def test_mode_and_restart(self):
        shared = self.begun()
        self.assertEqual(os.stat(self.path).st_mode & 0o777, 0o600)
        shared.do(DORA, [["edit_demand", 2, 3]], {}, "")
        shared.do(ANNA, [["mark", 1]], {1: "first"}, "")
        shared.do(ANNA, [["edit_cost", 1, 1, -7]], {}, "")
        plan = shared.work.plan(Role.PLANNER)
        shared.journal.close()
        shared, told = self.again()
        self.assertEqual(told, [])
        self.assertEqual(shared.work.plan(Role.PLANNER), plan)
        self.assertEqual(shared.history.marks(), {1: ("first", 3)})
        shared.work.go_back(Role.PLANNER, 1)
        self.assertEqual(shared.work.plan(Role.PLANNER).total, 36)
        shared.journal.close()

    def test_torn_last_line_at_every_byte(self):
        shared = self.begun()
        shared.do(ANNA, [["edit_demand", 2, 3]], {}, "")
        whole = os.path.getsize(self.path)
        shared.do(ANNA, [["edit_demand", 1, 2]], {}, "")
        shared.journal.close()
        with open(self.path, "rb") as stream:
            data = stream.read()
        for length in range(whole + 1, len(data)):
            with open(self.path, "wb") as out:
                out.write(data[:length])
            shared, told = self.again()
            self.assertEqual(shared.work.see_tariff(Role.READER).demands, [3, 3])
            self.assertIn("torn", told[-1])
            self.assertEqual(os.path.getsize(self.path), whole)
            shared.do(ANNA, [["edit_demand", 1, 1]], {}, "")
            shared.journal.close()
            shared, told = self.again()
            self.assertEqual(shared.work.see_tariff(Role.READER).demands, [1, 3])
            shared.journal.close()

    def test_damage_is_refused_and_nothing_changed(self):
        shared = self.begun()
        for value in (1, 2, 3):
            shared.do(ANNA, [["edit_demand", 1, value]], {}, "")
        shared.journal.close()
        with open(self.path, "rb") as stream:
            data = stream.read()
        lines = data.split(b"\n")
        spoiled = [data[:k] + bytes([data[k] ^ 1]) + data[k + 1 :] for k in range(len(data)) if data[k] != 10 and data[k] ^ 1 != 10]
        spoiled += [b"\n".join(lines[:2] + lines[3:]), b"\n".join(lines[:2] + [lines[3], lines[2]] + lines[4:])]  # a line lost, two exchanged
        spoiled += [b"", b"\n", lines[0] + b"\n", b"yadvorkhul-journal 2\n" + b"\n".join(lines[1:])]
        for one in spoiled:
            with open(self.path, "wb") as out:
                out.write(one)
            with self.assertRaises(JournalError, msg=one[:80]):
                self.again()
            with open(self.path, "rb") as stream:
                self.assertEqual(stream.read(), one)

    def test_another_version_says_so(self):
        with open(self.path, "wb") as out:
            out.write(b"yadvorkhul-journal 7\nx\n")
        with self.assertRaisesRegex(JournalError, "version 7"):
            open_journal(self.path)

    def test_second_server(self):
        shared = self.begun()
        with self.assertRaisesRegex(JournalError, "another server"):
            open_journal(self.path)
        shared.journal.close()
        open_journal(self.path).journal.close()

    def test_loose_mode_is_tightened_and_told(self):
        self.begun().journal.close()
        os.chmod(self.path, 0o644)
        shared, told = self.again()
        self.assertEqual(os.stat(self.path).st_mode & 0o777, 0o600)
        self.assertIn("644", told[0])
        shared.journal.close()

    def test_a_write_that_fails_changes_nothing(self):
        shared = self.begun()
        before = os.path.getsize(self.path)
        good = shared.journal._descriptor
        full = os.open("/dev/full", os.O_WRONLY)
        shared.journal._descriptor = full
        with self.assertRaises(NotWritten):
            shared.do(ANNA, [["edit_demand", 1, 1]], {}, "")
        self.assertEqual(shared.work.see_tariff(Role.READER).demands, [3, 2])
        self.assertEqual(os.path.getsize(self.path), before)
        with self.assertRaises(NotWritten):  # what is cut off could not be cut off there: no more is taken
            shared.do(ANNA, [["edit_demand", 1, 1]], {}, "")
        os.close(full)
        os.close(good)

    def test_all_or_nothing(self):
        shared = self.begun()
        with self.assertRaises(Refused) as error:
            shared.do(ANNA, [["edit_supply", 1, 1], ["edit_demand", 1, 1], ["edit_demand", 2, 4001]], {}, "")
        self.assertEqual((error.exception.index, error.exception.refusal.number, error.exception.refusal.place), (2, 4, 5))
        self.assertEqual(shared.work.see_table(Role.PLANNER), A["table"])  # a_1 was cut on the way
        self.assertEqual(shared.work.see_tariff(Role.PLANNER).demands, A["demands"])
        self.assertEqual(len(shared.history.steps), 1)
        shared.journal.close()

    def test_written_twice_is_done_once(self):
        shared = self.begun()
        shared.do(ANNA, [["edit_demand", 1, 1]], {}, "x1")
        shared.do(ANNA, [["edit_demand", 1, 2]], {}, "x2")
        shared.do(ANNA, [["edit_demand", 1, 1]], {}, "x1")
        self.assertEqual(shared.work.see_tariff(Role.PLANNER).demands, [2, 2])
        shared.do(DORA, [["edit_demand", 1, 1]], {}, "x1")  # another person's identity is another
        self.assertEqual(shared.work.see_tariff(Role.PLANNER).demands, [1, 2])
        shared.journal.close()


if __name__ == "__main__":
    unittest.main()
