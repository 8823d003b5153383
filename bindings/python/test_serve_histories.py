"""Random histories over HTTP by planner, plant and depot, with marks, undo, redo and restarts: what is shown is what `plan` says of the case entered afresh."""

import copy
import random
import unittest

from yadvorkhul import Refusal, plan

from serve_kit import Running
from test_work import Model, drawn_case

ROUNDS, STEPS = 8, 60
MAY = {  # by the paper's sentences
    "anna": lambda call: True,
    "paul": lambda call: call[0] == "edit_entry",
    "dora": lambda call: call[0] == "edit_demand" or call[0] == "edit_supply" and call[1] != 1,
}


def drawn_call(draw, case):
    m, n = len(case["supplies"]), len(case["demands"])
    amount = draw.choice([draw.randint(0, 9), draw.randint(0, 9), 4001])
    return draw.choice(
        [
            ["edit_demand", draw.randint(1, n + (draw.random() < 0.1)), amount],
            ["edit_supply", draw.randint(1, m + (draw.random() < 0.1)), amount],
            ["edit_cost", draw.randint(1, m), draw.randint(1, n), draw.choice([draw.randint(-9, 40), 1000001])],
            ["edit_entry", draw.randint(0, 9), draw.choice([draw.randint(0, 60), 10**9 + 1])],
            ["mark", draw.randint(1, 9)],
            ["go_back", draw.randint(1, 8)],
        ]
    )


class Trial:
    """The server beside whole copies of the case."""

    def __init__(self, test, draw, seed):
        self.test, self.draw, self.seed = test, draw, seed
        case = drawn_case(draw)
        case.setdefault("runs", [0, 0])
        case["runs"] = list(case["runs"])
        self.model, self.past, self.future = Model(case), [], []
        self.running = Running({**case, "ceilings": case.get("ceilings")})
        self.sign_in()

    def sign_in(self):
        self.clients = {name: self.running.client(name) for name in MAY}

    def restart(self):
        path = self.running.path
        with open(path, "rb") as stream:
            kept = stream.read()
        self.running.close()
        import os
        import tempfile

        folder = tempfile.mkdtemp(prefix="yadvorkhul-again-")
        again = os.path.join(folder, "case.journal")
        with open(again, "wb") as out:
            out.write(kept)
        os.chmod(again, 0o600)
        self.running = Running(journal=again)
        self.sign_in()

    def write(self):
        name = self.draw.choice(["anna", "anna", "paul", "dora"])
        calls = [drawn_call(self.draw, self.model.case) for _ in range(self.draw.choice([1, 1, 2, 4]))]
        after, due = copy.deepcopy(self.model), None
        for index, (kind, *numbers) in enumerate(calls):
            refused = (31, 0) if not MAY[name]([kind, *numbers]) else getattr(after, kind)(*numbers)
            if refused:
                due = (index, *refused)
                break
        got = self.clients[name].do(*calls)
        if due is None:
            self.test.assertEqual(got.status, 200, (self.seed, name, calls, got))
            self.past.append(self.model)
            self.model, self.future = after, []
        else:
            told = got.told["refused"]
            self.test.assertEqual((told["index"], told["number"], told["place"]), due, (self.seed, name, calls))
            self.test.assertEqual(got.status, 403 if due[1] == 31 else 422)

    def undo(self):
        state = self.clients["anna"].state()
        self.test.assertEqual(state["undo"] is not None, bool(self.past))
        if self.past:
            self.test.assertEqual(self.clients["anna"].post("/undo", {"of": state["undo"]["of"]}).status, 200)
            self.future.append(self.model)
            self.model = self.past.pop()

    def redo(self):
        state = self.clients["anna"].state()
        self.test.assertEqual(state["redo"] is not None, bool(self.future))
        if self.future:
            self.test.assertEqual(self.clients["anna"].post("/redo", {"of": state["redo"]["of"]}).status, 200)
            self.past.append(self.model)
            self.model = self.future.pop()

    def outcome(self, model):
        try:
            found = plan(**model)
            return found.split, found.total, found.freight, found.amounts, [list(stop) for stop in found.stops]
        except Refusal as refusal:
            return refusal.number, refusal.place

    def shown(self, told):
        if "plan" in told:
            return tuple(told["plan"][part] for part in ("split", "total", "freight", "amounts", "stops"))
        return told["refused"]["number"], told["refused"]["place"]

    def compare(self):
        state = self.clients["anna"].state()
        case = self.model.case
        self.test.assertEqual(state["tariff"], {"costs": case["costs"], "supplies": case["supplies"], "demands": case["demands"]}, self.seed)
        self.test.assertEqual(state["table"], case["table"], self.seed)
        self.test.assertEqual(self.shown(state), self.outcome(case), self.seed)
        if self.past:
            before = self.outcome(self.past[-1].case)
            self.test.assertEqual(state["before"]["total"], before[1] if len(before) == 5 else None, self.seed)
        marks = {one["mark"]: one for one in self.clients["anna"].get("/marks").told["marks"]}
        self.test.assertEqual(sorted(marks), sorted(self.model.marks), self.seed)
        for mark, held in self.model.marks.items():
            self.test.assertEqual((marks[mark]["table"], marks[mark]["tariff"]["costs"]), (held["table"], held["costs"]), self.seed)
            self.test.assertEqual(self.shown(marks[mark]), self.outcome(held), self.seed)


class Histories(unittest.TestCase):
    def test_shown_is_planned_afresh(self):
        compared = 0
        for seed in range(ROUNDS):
            draw = random.Random(seed)
            trial = Trial(self, draw, seed)
            try:
                for step in range(STEPS):
                    draw.choice([trial.write] * 8 + [trial.undo] * 2 + [trial.redo])()
                    trial.compare()
                    compared += 1
                    if step == STEPS // 2:
                        trial.restart()
                        trial.compare()
            finally:
                trial.running.close()
        print(f"\n    {compared} states compared with the case entered afresh", flush=True)


if __name__ == "__main__":
    unittest.main()
