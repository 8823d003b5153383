"""Two servers that are alike but for production entries: depot and reader get the same from both, to the byte."""

import random
import re
import unittest

from serve_kit import Running

CASE = dict(
    costs=[[4, 9, 3], [7, 2, 8], [1, 5, 6], [2, 2, 2]],
    supplies=[9, 8, 3, 2],
    demands=[5, 6, 4],
    table=[50, 40, 33, 28, 25, 20, 24, 29, 35, 50],
    runs=[1, 2],
    sources=["Grasse", "Holzminden", "Lyon", "Geneva"],
    title="Two alike",
)
ASIDE = {"date", "set-cookie"}
ROUNDS = 600


def other_entries(draw):
    return [draw.choice([0, 1, 77, 10**9, 10**9 + 1, 2**63, 2**64 - 1, draw.randint(0, 10**6)]) for _ in CASE["table"]]


def planners_past(draw):
    """Calls of planner and plant before: marks too hold entries."""
    calls = [["mark", 1], ["edit_demand", 1, 6], ["mark", 5], ["edit_supply", 1, 7], ["edit_supply", 1, 9], ["mark", 2]]
    return calls + [["edit_entry", draw.randint(0, 9), None] for _ in range(12)] + [["mark", 8]]


def drawn_request(draw, mine):
    """What a depot or a reader may send, sensible or not."""
    kind = draw.random()
    if kind < 0.35:
        paths = ["/state", "/tariff", "/table", "/plan", "/marks", "/log", "/rates", "/", "/out/tariff.csv", "/out/production.csv", "/out/case.json"]
        paths += ["/out/plan.csv", "/out/plan.html", "/state?have=" + mine.get("tag", "x"), "/nothing", "/static/app.css"]
        return "GET", draw.choice(paths), None
    if kind < 0.9:
        calls = [drawn_call(draw) for _ in range(draw.choice([1, 1, 1, 2, 3]))]
        body = {"calls": calls}
        if draw.random() < 0.1:
            body["names"] = {"1": "mine"}
        if draw.random() < 0.3:
            body["id"] = f"id-{draw.randint(0, 30)}"
        return "POST", "/do", body
    path = draw.choice(["/undo", "/redo", "/import", "/publish", "/withdraw", "/bounds", "/sign-in"])
    return "POST", path, draw.choice([{}, {"of": draw.randint(0, 40)}, {"case": CASE}, {"low": [1] * 10, "high": [2] * 10}])


def drawn_call(draw):
    amount = draw.choice([0, 1, 3, 5, 8, 9, 4000, 4001, 2**64 - 1, draw.randint(0, 12)])
    return draw.choice(
        [
            ["edit_demand", draw.randint(0, 4), amount],
            ["edit_demand", draw.randint(1, 3), amount],
            ["edit_supply", draw.randint(0, 5), amount],
            ["edit_supply", draw.randint(2, 4), amount],
            ["edit_cost", draw.randint(0, 4), draw.randint(0, 3), draw.randint(-9, 9)],
            ["edit_entry", draw.randint(0, 11), amount],
            ["mark", draw.randint(0, 9)],
            ["go_back", draw.randint(0, 9)],
        ]
    )


class Secrecy(unittest.TestCase):
    def alike(self, seed):
        """Two servers after the same past but for entries, and the same people signed in on both."""
        draw = random.Random(seed)
        pair = []
        past = planners_past(draw)
        for _ in range(2):
            running = Running({**CASE, "table": other_entries(draw)})
            self.addCleanup(running.close)
            anna = running.client("anna")
            calls = [[name, *(draw.randint(0, 10**6) if n is None else n for n in numbers)] for name, *numbers in past]
            self.assertEqual(anna.do(*calls[:8]).status, 200)
            self.assertEqual(anna.do(*calls[8:]).status, 200)
            pair.append(running)
        return draw, pair

    def told(self, client, method, path, body):
        got = client.get(path) if method == "GET" else client.post(path, body)
        headers = [(name, value) for name, value in got.headers if name.lower() not in ASIDE]
        # tokens are random, as cookies are
        text = re.sub(rb'name="token" value="[0-9a-f]{64}"', b"TOKEN", got.body.replace(client.token.encode(), b"TOKEN"))
        return got, (got.status, headers, text)

    def test_same_to_the_byte(self):
        asked, statuses = 0, {}
        for seed in range(3):
            draw, pair = self.alike(seed)
            people = {name: [running.client(name) for running in pair] for name in ("dora", "rita")}
            mine = {name: {} for name in people}
            for _ in range(ROUNDS // 3):
                name = draw.choice(["dora", "dora", "rita"])
                method, path, body = drawn_request(draw, mine[name])
                (got, one), (_, other) = (self.told(client, method, path, body) for client in people[name])
                self.assertEqual(one, other, (seed, name, method, path, body))
                asked += 1
                statuses[got.status] = statuses.get(got.status, 0) + 1
                if path == "/state" and got.status == 200:
                    mine[name] = got.told
            # the test can fail: what the planner gets differs
            anna = [running.client("anna") for running in pair]
            self.assertNotEqual(anna[0].get("/table").body, anna[1].get("/table").body)
        print(f"\n    {asked} of {asked} responses the same on both servers, by status {dict(sorted(statuses.items()))}", flush=True)
        self.assertTrue({200, 204, 403, 422} <= set(statuses), statuses)


if __name__ == "__main__":
    unittest.main()
