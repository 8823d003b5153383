"""`yadvorkhul serve` over HTTP: roles against deeds, undo, marks, import, publishing, files, and who is turned away."""

import json
import os
import re
import subprocess
import sys
import tempfile
import threading
import time
import unittest
from unittest import mock

from yadvorkhul import Role, plan, rates
from yadvorkhul.serve.cases import case_of
from yadvorkhul.serve.journal import create
from yadvorkhul.serve.people import People
from yadvorkhul.serve.sessions import Sessions, Waiting
from yadvorkhul.serve.start import CannotStart, opened, start

from serve_kit import A, HERE, NAMES, WORD, Client, Running, season

# the paper's sentences (W-212), by hand: who may do which deed
DEEDS = {
    "edit demand": {"anna", "dora"},
    "edit supply": {"anna", "dora"},
    "edit a_1": {"anna"},
    "edit lane cost": {"anna"},
    "edit entry": {"anna", "paul"},
    "see tariff": {"anna", "paul", "dora", "rita"},
    "see table": {"anna", "paul"},
    "plan": {"anna"},
    "set mark": {"anna"},
    "go back": {"anna"},
}
WRITES = {
    "edit demand": ["edit_demand", 2, 2],
    "edit supply": ["edit_supply", 3, 1],
    "edit a_1": ["edit_supply", 1, 3],
    "edit lane cost": ["edit_cost", 1, 1, 2],
    "edit entry": ["edit_entry", 0, 99],
    "set mark": ["mark", 1],
    "go back": ["go_back", 1],
}
ABOUT = {"title", "currency", "date", "sources", "terminals"}
READS = {"see tariff": "/tariff", "see table": "/table", "plan": "/plan"}


class WithServer(unittest.TestCase):
    case = A

    @classmethod
    def setUpClass(cls):
        cls.running = Running(cls.case)
        cls.anna, cls.paul, cls.dora, cls.rita = (cls.running.client(name) for name in NAMES)

    @classmethod
    def tearDownClass(cls):
        cls.running.close()

    def setUp(self):
        self.assertEqual(self.anna.post("/import", {"case": self.case}).status, 200)


class Roles(WithServer):
    def test_every_role_and_deed(self):
        self.anna.do(["mark", 1])
        for name in NAMES:
            client = getattr(self, name)
            for deed, allowed in DEEDS.items():
                got = client.do(WRITES[deed]) if deed in WRITES else client.get(READS[deed])
                self.assertEqual(got.status, 200 if name in allowed else 403, (name, deed, got))
                if name not in allowed:
                    self.assertEqual(got.told["refused"]["number"], 31, (name, deed))
                    self.assertEqual(got.told["refused"]["place"], 0)

    def test_shown_is_what_is_answered(self):
        for name, parts in {"anna": {"tariff", "table", "plan", "limits", "marks", "undo"}, "paul": {"tariff", "table"}, "dora": {"tariff"}, "rita": {"tariff"}}.items():
            state = getattr(self, name).state()
            shown = {part for part in ("tariff", "table", "plan", "limits", "marks", "refused", "before", "undo", "redo", "published") if part in state}
            self.assertEqual(shown - {"before", "redo"}, parts, name)
        self.assertEqual(self.dora.state()["may"], ["edit_demand", "edit_supply"])
        self.assertEqual(self.paul.state()["may"], ["edit_entry"])
        self.assertEqual(self.rita.state()["may"], [])
        self.assertEqual(len(self.anna.state()["may"]), 7)

    def test_what_is_no_deed_is_the_planners(self):
        of = self.anna.state()["undo"]["of"]
        for client in (self.paul, self.dora, self.rita):
            for path, body in (("/undo", {"of": of}), ("/redo", {"of": of}), ("/import", {"case": A}), ("/publish", {}), ("/withdraw", {})):
                self.assertEqual(client.post(path, body).status, 403, path)
            for path in ("/marks", "/log", "/out/plan.csv", "/out/plan.html"):
                self.assertEqual(client.get(path).status, 403, path)
            self.assertEqual(client.post("/bounds", {"low": A["table"], "high": A["table"]}).status, 403)
            self.assertEqual(client.post("/do", {"calls": [], "names": {"1": "mine"}}).status, 403)
        self.assertEqual(self.dora.get("/out/production.csv").status, 403)
        self.assertEqual(self.paul.get("/out/production.csv").status, 200)

    def test_role_is_read_at_each_request(self):
        self.running.people.add("max", Role.PLANNER, WORD)
        max_ = self.running.client("max")
        self.assertEqual(max_.get("/plan").status, 200)
        with self.running.people._changing() as entries:
            entries["max"] = entries["max"]._replace(role=Role.READER)
        self.assertEqual(max_.get("/plan").status, 403)
        self.running.people.remove("max")
        self.assertEqual(max_.get("/tariff").status, 401)


class Calls(WithServer):
    def test_edit_plan_and_effect(self):
        state = self.anna.do(["edit_demand", 2, 3]).told
        self.assertEqual((state["plan"]["total"], state["before"]["total"]), (36, 33))
        self.assertEqual(state["undo"]["what"], "demand of Terminal 2: 3")

    def test_refusals_are_sentences_with_their_cell(self):
        for call, number, place, word in (
            (["edit_demand", 2, 4001], 4, 5, "Demand of Terminal 2"),
            (["edit_cost", 1, 2, -1000001], 5, 2, "Unit cost Plant 1 to Terminal 2"),
            (["edit_supply", 9, 1], 24, 0, "no such place"),
            (["go_back", 5], 25, 5, "never set"),
        ):
            got = self.anna.do(["edit_demand", 1, 3], call)
            refused = got.told["refused"]
            self.assertEqual((got.status, refused["number"], refused["place"], refused["index"], refused["call"]), (422, number, place, 1, call))
            self.assertIn(word, refused["sentence"])
        self.assertEqual(self.anna.state()["tariff"]["demands"], A["demands"])

    def test_least_run_is_not_told_to_a_depot(self):
        self.anna.post("/import", {"case": {**A, "runs": [0, 2]}})
        got = self.dora.do(["edit_supply", 2, 1])
        self.assertEqual((got.status, got.told["refused"]["number"]), (422, 23))
        self.assertNotIn("2", got.told["refused"]["sentence"].replace("Plant 2", ""))

    def test_no_plan_is_a_sentence_with_its_sums(self):
        refused = self.anna.do(["edit_demand", 1, 30]).told["refused"]
        self.assertEqual(refused["number"], 8)
        self.assertIn(["the plants can make", "6"], refused["facts"])

    def test_undo_and_redo(self):
        state = self.anna.state()
        self.anna.do(["edit_supply", 1, 1])
        state = self.dora.do(["edit_demand", 1, 2]) and self.anna.state()
        self.assertEqual((state["undo"]["user"], state["tariff"]["demands"]), ("dora", [2, 2]))
        self.assertEqual(self.anna.post("/undo", {"of": state["undo"]["of"] - 1}).status, 409)
        state = self.anna.post("/undo", {"of": state["undo"]["of"]}).told
        state = self.anna.post("/undo", {"of": state["undo"]["of"]}).told
        self.assertEqual(state["table"], A["table"])  # the entries that were cut are back
        self.assertEqual(self.anna.post("/redo", {"of": state["redo"]["of"] + 1}).status, 409)
        state = self.anna.post("/redo", {"of": state["redo"]["of"]}).told
        self.assertEqual(state["table"], [99, 20])
        state = self.anna.do(["edit_demand", 1, 1]).told
        self.assertIsNone(state["redo"])

    def test_first_case_is_not_undone(self):
        fresh = Running(A)
        try:
            anna = fresh.client("anna")
            self.assertIsNone(anna.state()["undo"])
            self.assertEqual(anna.post("/undo", {"of": 1}).status, 409)
        finally:
            fresh.close()

    def test_marks_hold_their_case(self):
        self.anna.do(["mark", 3], names={"3": "as it was"})
        self.anna.do(["edit_demand", 2, 3], ["edit_entry", 1, 7])
        marks = self.anna.get("/marks").told["marks"]
        self.assertEqual([(m["mark"], m["name"], m["plan"]["total"], m["table"], m["tariff"]["demands"]) for m in marks], [(3, "as it was", 33, A["table"], [3, 2])])
        state = self.anna.post("/do", {"calls": [], "names": {"3": "May"}}).told
        self.assertEqual(state["marks"][0]["name"], "May")
        state = self.anna.do(["go_back", 3]).told
        self.assertEqual((state["plan"]["total"], state["tariff"]["demands"]), (33, [3, 2]))
        self.assertEqual(state["marks"][0]["name"], "May")

    def test_marks_that_have_no_plan(self):
        self.anna.do(["edit_demand", 2, 300], ["mark", 1])
        self.anna.do(["edit_demand", 2, 2], ["edit_entry", 2, 2000000000], ["mark", 2])
        self.assertEqual([m["refused"]["number"] for m in self.anna.get("/marks").told["marks"]], [8, 9])

    def test_publish(self):
        amounts = self.anna.state()["plan"]["amounts"]
        self.assertEqual(self.anna.post("/publish", {}).status, 200)
        self.anna.do(["edit_demand", 2, 3])
        for client in (self.dora, self.rita, self.paul):
            published = client.state()["published"]
            self.assertEqual((published["amounts"], published["user"]), (amounts, "anna"))
            self.assertFalse({"total", "freight", "table", "split", "costs"} & set(published))
        state = self.anna.state()
        self.anna.post("/undo", {"of": state["undo"]["of"]})
        self.assertIn("published", self.dora.state())  # undo takes no publication back
        self.anna.post("/withdraw", {})
        self.assertNotIn("published", self.dora.state())

    def test_entries_beyond_a_browsers_numbers(self):
        most = (1 << 64) - 1
        state = self.paul.do(["edit_entry", 0, str(most)]).told
        self.assertEqual(state["table"][0], str(most))
        self.assertEqual(self.anna.get("/out/production.csv").told["refused"]["number"], 32)  # no field can hold it
        self.assertEqual(json.loads(self.anna.get("/out/case.json").body)["table"][0], most)

    def test_bounds_and_rates(self):
        found = self.anna.post("/bounds", {"low": A["table"], "high": [99, 20, 24, 21]}).told
        self.assertEqual((found["first"], found["possible"], found["smallest"], found["largest"]), (1, [1, 0, 1], 33, 34))
        got = self.anna.post("/bounds", {"low": A["table"], "high": [99, 20, 23, 21]})
        self.assertEqual((got.status, got.told["refused"]["number"], got.told["refused"]["place"]), (422, 28, 2))
        self.assertIn("below", got.told["refused"]["sentence"])
        self.assertEqual(self.paul.get("/rates").told["table"], rates(3))

    def test_a_write_is_for_the_case_that_was_seen(self):
        was = self.dora.state()["standing"]
        self.assertEqual(self.dora.do(["edit_demand", 1, 2], standing=was).status, 200)
        self.assertEqual(self.dora.state()["standing"], was)  # no edit alters it
        self.anna.post("/import", {"case": {**A, "terminals": ["Nice", "Arles"]}})
        got = self.dora.do(["edit_demand", 1, 1], standing=was)
        self.assertEqual((got.status, self.anna.state()["tariff"]["demands"]), (409, A["demands"]))
        self.assertIn("another case", got.told["sentence"].lower())
        self.assertEqual(self.anna.post("/publish", {"standing": was}).status, 409)
        self.assertNotIn("published", self.dora.state())
        self.assertEqual(self.dora.do(["edit_demand", 1, 1], standing=self.dora.state()["standing"]).status, 200)
        self.assertEqual(self.dora.do(["edit_demand", 1, 1], standing=5).status, 400)

    def test_an_identity_is_of_one_write(self):
        self.assertEqual(self.anna.do(["edit_demand", 1, 1], id="one-1").status, 200)
        self.assertEqual(self.anna.do(["edit_demand", 1, 1], id="one-1").status, 200)
        for path, body in (("/do", {"calls": [["edit_demand", 1, 2]]}), ("/publish", {}), ("/import", {"case": A}), ("/withdraw", {})):
            self.assertEqual(self.anna.post(path, {**body, "id": "one-1"}).status, 409, path)
        self.assertEqual(self.anna.state()["tariff"]["demands"], [1, 2])
        self.assertEqual(self.anna.post("/publish", {"id": "one-2"}).status, 200)
        self.anna.do(["edit_demand", 1, 3])
        self.assertEqual(self.anna.post("/publish", {"id": "one-2"}).status, 200)
        self.anna.post("/withdraw", {})

    def test_unchanged_is_204(self):
        for client in (self.anna, self.dora):
            tag = client.state()["tag"]
            self.assertEqual(client.get("/state?have=" + tag).status, 204)
            self.anna.do(["edit_demand", 1, 2])
            self.assertEqual(client.get("/state?have=" + tag).status, 200)
            self.anna.do(["edit_demand", 1, 3])

    def test_speed(self):
        self.anna.post("/import", {"case": season()})
        times, spent = [], time.process_time()
        for k in range(40):
            start = time.perf_counter()
            self.assertEqual(self.anna.do(["edit_demand", 1, 150 + k]).status, 200)
            times.append(time.perf_counter() - start)
        spent = (time.process_time() - spent) / 40
        times.sort()
        print(f"\n    edit to curve, 12 x 30: {spent * 1000:.1f} ms of a processor, median {times[20] * 1000:.1f} ms by the clock", file=sys.stderr)
        self.assertLess(spent, 0.04)  # server and client together; by the clock a loaded machine may take longer


class Files(WithServer):
    def test_csv_is_tidys(self):
        self.assertEqual(self.dora.get("/out/tariff.csv").body, b"2,6,3\r\n5,3,3\r\n1,4,1\r\n3,2,\r\n")
        self.assertEqual(self.anna.get("/out/production.csv").body, b"99\r\n20\r\n24\r\n20\r\n")
        self.assertEqual(self.anna.get("/out/plan.csv").body, b"source,terminal,amount,cost\r\n0,0,3,20\r\n1,1,3,6\r\n1,2,0,0\r\n2,1,0,0\r\n2,2,1,3\r\n3,1,0,0\r\n3,2,1,4\r\n")

    def test_csv_of_a_case_that_is_not_written(self):
        self.anna.do(["edit_demand", 1, 30], ["edit_entry", 1, 10**10])
        for client in (self.anna, self.dora, self.rita):
            got = client.get("/out/tariff.csv")
            self.assertEqual((got.status, got.told["refused"]["number"]), (422, 8))  # the same to all: entries are not looked at
        self.assertEqual(self.anna.get("/out/case.json").status, 200)

    def test_case_in_json_per_role(self):
        told = json.loads(self.anna.get("/out/case.json").body)
        self.assertEqual(plan(*(told[f] for f in ("costs", "supplies", "demands", "table", "runs", "ceilings"))).total, 33)
        self.assertEqual(self.anna.post("/import", {"case": told}).status, 200)
        self.assertEqual(set(json.loads(self.paul.get("/out/case.json").body)) - ABOUT, {"costs", "supplies", "demands", "table"})
        self.assertEqual(set(json.loads(self.dora.get("/out/case.json").body)) - ABOUT, {"costs", "supplies", "demands"})

    def test_page(self):
        try:
            import matplotlib  # noqa: F401
        except ImportError:
            self.skipTest("the page needs Matplotlib")
        got = self.anna.get("/out/plan.html")
        self.assertEqual(got.status, 200)
        self.assertIn(b"<svg", got.body)
        self.assertIn("attachment", dict(got.headers)["Content-Disposition"])

    def test_currency_and_date_are_kept(self):
        case = {**A, "currency": "EUR", "date": "17 November 2026"}
        self.assertEqual(self.anna.post("/import", {"case": case}).status, 200)
        for told in (self.dora.state(), json.loads(self.dora.get("/out/case.json").body), json.loads(self.anna.get("/out/case.json").body)):
            self.assertEqual((told["currency"], told["date"]), ("EUR", "17 November 2026"))
        self.assertEqual(self.running.shared.case(Role.PLANNER)[-2:], ("EUR", "17 November 2026"))

    def test_import_of_a_text(self):
        most = (1 << 64) - 1
        got = self.anna.post("/import", {"text": json.dumps({**A, "table": [99, 20, 24, most]})})
        self.assertEqual((got.status, got.told["table"][3]), (200, str(most)))
        twice = json.dumps(A)[:-1] + ', "table": [1, 1, 1, 1]}'
        for text, word in ((twice, "stands twice"), ("{", "not JSON"), ("\ufeff" + json.dumps(A), "byte order mark"), (json.dumps({**A, "table": [1.0]}), "whole number")):
            got = self.anna.post("/import", {"text": text})
            self.assertEqual(got.status, 422, got)
            self.assertIn(word, got.told["sentence"])
        self.assertEqual(self.anna.state()["table"][3], str(most))

    def test_titles_that_nobody_can_read(self):
        for field in ("title", "currency", "date"):
            for odd in ("a\u202eb", "a\u0007b", "a\nb", "a\u2066b"):
                got = self.anna.post("/import", {"case": {**A, field: odd}})
                self.assertEqual(got.status, 422, (field, odd))
                self.assertIn("direction", got.told["sentence"])
        self.assertEqual(self.anna.post("/import", {"case": {**A, "title": "Saison\u00a02026, \u00e9t\u00e9"}}).status, 200)

    def test_half_a_character(self):
        for body in ({"tariff": "\ud800", "production": "1"}, {"case": {**A, "title": "\udcff"}}, {"text": "\ud800"}, {"\ud800": 1}):
            got = self.anna.post("/import", body)
            self.assertEqual((got.status, "half of a character" in got.told["sentence"]), (400, True), body)
        self.assertEqual(self.anna.post("/import", {"case": {**A, "title": "\U0001f6e2"}}).status, 200)  # two escapes, one character

    def test_import(self):
        got = self.anna.post("/import", {"tariff": "2,6,3\r\n5,3,3\r\n1,4,1\r\n3,3,\r\n", "production": "99\r\n20\r\n24\r\n20"})
        self.assertEqual(got.told["plan"]["total"], 36)
        for body, status, word in (
            ({"tariff": "2;6;3\r\n", "production": "1\r\n"}, 422, "semicolon"),
            ({"case": {**A, "table": [1]}}, 422, "one entry more"),
            ({"case": {**A, "tabel": [1]}}, 422, "tabel"),
            ({"case": {"costs": []}}, 422, "missing"),
            ({"case": {**A, "demands": [3, 2.5]}}, 422, "whole number"),
            ({"case": {**A, "demands": [3, True]}}, 422, "whole number"),
            ({"case": {**A, "demands": [3, -1]}}, 422, "below 0"),
            ({"case": {**A, "sources": "abc"}}, 422, "sources"),
            ({"case": 5}, 422, "object"),
            ({}, 400, "tariff"),
        ):
            got = self.anna.post("/import", body)
            self.assertEqual(got.status, status, (body, got))
            self.assertIn(word, got.body.decode())
        self.assertEqual(self.anna.state()["plan"]["total"], 36)
        self.assertEqual(self.anna.state()["undo"]["what"], "case entered")


class TurnedAway(WithServer):
    def write(self, **headers):
        return self.anna.post("/do", {"calls": [["edit_demand", 1, 1]]}, **headers)

    def unchanged(self):
        self.assertEqual(self.anna.state()["tariff"]["demands"], A["demands"])

    def test_token_origin_and_host(self):
        for headers, status in (
            ({"X_Token": "wrong"}, 403),
            ({"X_Token": self.dora.token}, 403),
            ({"X_Token": None}, 403),
            ({"X_Token": "ü"}, 403),
            ({"Origin": "http://evil.example"}, 403),
            ({"Origin": "null"}, 403),
            ({"Origin": None}, 403),
            ({"Origin": f"https://127.0.0.1:{self.anna.port}"}, 403),
            ({"Host": "evil.example"}, 421),
            ({"Host": "127.0.0.1"}, 421),
            ({"Host": f"evil.example:{self.anna.port}"}, 421),
            ({"Cookie": "x=y"}, 401),
        ):
            self.assertEqual(self.write(**headers).status, status, headers)
        self.assertEqual(self.anna.get("/state", Host="evil.example").status, 421)
        self.assertEqual(self.anna.get("/static/app.css", Host="evil.example").status, 421)
        self.unchanged()
        self.assertEqual(self.write(Host=f"localhost:{self.anna.port}", Origin=f"http://localhost:{self.anna.port}").status, 200)

    def test_bodies(self):
        good = json.dumps({"calls": [["edit_demand", 1, 1]]}).encode()
        for data, headers, status in (
            (good, {"Content_Type": "text/plain"}, 415),
            (b"x" * 1_000_001, {}, 413),
            (b"", {}, 400),
            (b"{", {}, 400),
            (b"[]", {}, 400),
            (b"\xff\xfe", {}, 400),
            (b"[" * 100_000, {}, 400),
            (b'{"calls": 5}', {}, 400),
            (b'{"calls": [["edit_demand", 1, 1]], "calls": [["edit_demand", 1, 1]]}', {}, 400),
            (b'{"calls": [["mark", 1]], "names": {"1": "a", "1": "b"}}', {}, 400),
            (b'{"calls": []}', {}, 400),
            (b'{"calls": [5]}', {}, 400),
            (b'{"calls": [[]]}', {}, 400),
            (b'{"calls": [[["a"]]]}', {}, 400),
            (b'{"calls": [["close"]]}', {}, 400),
            (b'{"calls": [["__init__", 1]]}', {}, 400),
            (b'{"calls": [["edit_demand", 1]]}', {}, 400),
            (b'{"calls": [["edit_demand", 1, 2, 3]]}', {}, 400),
            (b'{"calls": [["edit_demand", 1, 2.5]]}', {}, 400),
            (b'{"calls": [["edit_demand", 1, true]]}', {}, 400),
            (b'{"calls": [["edit_demand", 1, -1]]}', {}, 400),
            (b'{"calls": [["edit_demand", 1, "1e3"]]}', {}, 400),
            (b'{"calls": [["edit_demand", 1, NaN]]}', {}, 400),
            (b'{"calls": [["edit_demand", 1, 18446744073709551616]]}', {}, 400),
            (b'{"calls": [["edit_cost", 1, 1, 9223372036854775808]]}', {}, 400),
            (b'{"calls": [["mark", 1]], "names": {"9": "x"}}', {}, 400),
            (b'{"calls": [["mark", 1]], "names": {"1": "\\u0000"}}', {}, 400),
            (b'{"calls": [["mark", 1]], "id": "../x"}', {}, 400),
            (json.dumps({"calls": [["edit_demand", 1, 1]] * 8001}).encode(), {}, 400),
        ):
            got = self.anna.ask("POST", "/do", data, {"Content-Type": "application/json", "X-Token": self.anna.token, **headers})
            self.assertEqual(got.status, status, (data[:60], got))
            if status != 413:
                self.assertIn("sentence", got.told)
            self.anna.connection.close()
        try:  # far too long: turned away while it is still being sent
            self.assertEqual(self.anna.post("/do", b"x" * 5_000_000).status, 413)
        except OSError:
            pass
        self.anna.connection.close()
        self.unchanged()
        for data in (b'{"of": "x"}', b"{}", b'{"of": -1}', b'{"of": 1.5}'):
            self.assertEqual(self.anna.post("/undo", data).status, 400, data)

    def test_methods_and_unknown_addresses(self):
        self.assertEqual(self.anna.get("/do").status, 405)
        self.assertEqual(self.anna.get("/nothing").status, 404)
        self.assertEqual(self.anna.get("/static/../app.py").status, 404)
        self.assertEqual(self.anna.get("/static/%2e%2e/app.py").status, 404)

    def test_headers(self):
        for path in ("/", "/state", "/sign-in", "/static/app.css", "/nothing", "/out/case.json"):
            headers = dict(self.anna.get(path).headers)
            self.assertEqual(headers["Cache-Control"], "no-store", path)
            self.assertIn("default-src 'none'; script-src 'self'", headers["Content-Security-Policy"])
            self.assertNotIn("unsafe", headers["Content-Security-Policy"])
            self.assertNotIn("ETag", headers)
            self.assertNotIn("Last-Modified", headers)
        client = Client(self.running.port)
        got = client.sign_in("anna", WORD)
        cookie = next(v for k, v in got.headers if k == "Set-Cookie" and f"yadvorkhul-{self.running.port}=" in v)
        for part in ("HttpOnly", "SameSite=Strict", "Max-Age=28800", "Path=/"):
            self.assertIn(part, cookie)

    def test_signing_in(self):
        client = Client(self.running.port)
        self.assertEqual(client.get("/").status, 303)
        self.assertEqual(client.get("/state").status, 401)
        client.form_token("/sign-in")
        self.assertEqual(client.form("/sign-in", {"name": "anna", "word": WORD, "token": "x"}).status, 403)
        self.assertEqual(client.sign_in("nobody", WORD).status, 403)
        got = client.sign_in("paul", "wrong word here")
        self.assertEqual(got.status, 403)
        self.assertIn(b"Name and password do not fit", got.body)
        got = client.sign_in("paul", "wrong word here")
        got = client.sign_in("paul", WORD)  # the third wrong word from this address: wait
        self.assertEqual(got.status, 429)
        self.assertIn("Retry-After", dict(got.headers))
        time.sleep(2.1)
        self.assertEqual(client.sign_in("paul", WORD).status, 303)
        client.load_token()
        self.assertEqual(client.form("/sign-out", {"token": "x"}).status, 403)
        self.assertEqual(client.form("/sign-out", {"token": client.token}).status, 303)
        self.assertEqual(client.get("/state").status, 401)

    def test_many_tries_at_once(self):
        """As many words are looked at as one after the other, whatever form the name has."""
        running, looked = Running(A), []
        self.addCleanup(running.close)
        running.people.add("ren\u00e9", Role.DEPOT, WORD)
        at = running.app.extensions["yadvorkhul"]
        check = running.people.signed_in

        def slow(name, word):
            looked.append(name)
            time.sleep(0.5)
            return check(name, word)

        running.people.signed_in = slow
        clients = [Client(running.port) for _ in range(8)]
        tokens = [client.form_token("/sign-in") for client in clients]
        names = ["ren\u00e9", "rene\u0301"] * 4
        sent = [
            threading.Thread(target=client.form, args=("/sign-in", {"name": name, "word": "wrong word", "token": token}))
            for client, token, name in zip(clients, tokens, names)
        ]
        for one in sent:
            one.start()
        for one in sent:
            one.join()
        self.assertEqual(looked, ["ren\u00e9"] * 3)
        self.assertGreater(at.by_name.left("ren\u00e9"), 0)
        time.sleep(max(at.by_name.left("ren\u00e9"), at.by_address.left("127.0.0.1")) + 0.1)
        self.assertEqual(clients[0].sign_in("rene\u0301", WORD).status, 303)
        self.assertEqual((at.by_name.left("ren\u00e9"), at.by_address.left("127.0.0.1")), (0, 0))
        for client in clients:
            client.connection.close()

    def test_one_time_word(self):
        word = self.running.people.add("otto", Role.DEPOT)
        client = Client(self.running.port)
        self.assertEqual(dict(client.sign_in("otto", word).headers)["Location"], "/password")
        self.assertEqual(client.get("/state").status, 403)
        self.assertEqual(client.get("/").status, 303)
        token = client.form_token("/password")
        for fields in ({"old": "x", "new": "0123456789", "again": "0123456789"}, {"old": word, "new": "short", "again": "short"}, {"old": word, "new": "0123456789", "again": "012345678x"}):
            self.assertIn(client.form("/password", {**fields, "token": token}).status, (403, 422))
        self.assertEqual(client.form("/password", {"old": word, "new": "0123456789", "again": "0123456789", "token": token}).status, 303)
        self.assertEqual(client.get("/state").status, 200)
        self.assertEqual(Client(self.running.port).sign_in("otto", word).status, 403)

    def test_another_password_ends_other_sessions(self):
        self.running.people.add("ines", Role.READER, WORD)
        one, other = self.running.client("ines"), self.running.client("ines")
        token = one.form_token("/password")
        self.assertEqual(one.form("/password", {"old": WORD, "new": "0123456789", "again": "0123456789", "token": token}).status, 303)
        self.assertEqual(one.get("/state").status, 200)
        self.assertEqual(other.get("/state").status, 401)


class Proxy(unittest.TestCase):
    def test_only_the_proxys_name(self):
        running = Running(A, proxy="plan.example.org")
        try:
            client = Client(running.port)
            self.assertEqual(client.get("/sign-in").status, 421)
            got = client.get("/sign-in", Host="plan.example.org")
            self.assertEqual(got.status, 200)
            cookie = next(v for k, v in got.headers if k == "Set-Cookie")
            self.assertIn("Secure", cookie)
            self.assertTrue(cookie.startswith("__Host-"))
            self.assertEqual(client.form("/sign-in", {}, Host="plan.example.org").status, 403)  # Origin http
        finally:
            running.close()


    def test_waits_by_the_address_that_the_proxy_names(self):
        running = Running(A, proxy="plan.example.org")
        try:
            client = Client(running.port)
            asked = {"Host": "plan.example.org", "Origin": "https://plan.example.org"}

            def sign_in(name, word, address):
                body = client.get("/sign-in", **asked).body.decode()
                token = re.search(r'name="token" value="([^"]+)"', body).group(1)
                return client.form("/sign-in", {"name": name, "word": word, "token": token}, X_Forwarded_For=address, **asked).status

            self.assertEqual([sign_in(name, "wrong word", "10.0.0.1") for name in ("anna", "paul", "dora", "rita")], [403, 403, 403, 429])
            self.assertEqual(sign_in("rita", WORD, "10.0.0.2"), 303)
        finally:
            running.close()


class Clocks(unittest.TestCase):
    def test_sessions_end_after_eight_hours(self):
        now = [0.0]
        sessions = Sessions(lambda: now[0])
        with tempfile.TemporaryDirectory() as folder:
            people = People(os.path.join(folder, "people.json"))
            people.add("anna", Role.PLANNER, WORD)
            secret = sessions.start(people.find("anna"))
        now[0] = 8 * 3600 - 1
        self.assertIsNotNone(sessions.find(secret))
        now[0] = 8 * 3600 + 1
        self.assertIsNone(sessions.find(secret))

    def test_waits_grow(self):
        now = [0.0]
        waiting, waits = Waiting(60, lambda: now[0]), []
        for _ in range(12):
            waiting.wrong("anna")
            waits.append(waiting.left("anna"))
            now[0] += waits[-1]
        self.assertEqual(waits, [0, 0, 1, 2, 4, 8, 16, 32, 60, 60, 60, 60])
        self.assertEqual(waiting.left("dora"), 0)


class Commands(unittest.TestCase):
    def run_in(self, folder, *words, given=None):
        env = {**os.environ, "PYTHONPATH": HERE}
        return subprocess.run([sys.executable, "-m", "yadvorkhul", *words], cwd=folder, env=env, input=given, capture_output=True, text=True, timeout=60)

    def test_user(self):
        with tempfile.TemporaryDirectory() as folder:
            got = self.run_in(folder, "user", "add", "dora", "depot")
            self.assertEqual(got.returncode, 0, got)
            self.assertRegex(got.stdout, "^dora: depot, one-time word [A-Za-z0-9_-]{16}\n$")
            self.assertEqual(os.stat(os.path.join(folder, "yadvorkhul-users.json")).st_mode & 0o777, 0o600)
            self.assertEqual(self.run_in(folder, "user", "add", "dora", "reader").returncode, 2)
            self.assertEqual(self.run_in(folder, "user", "add", "rita", "boss").returncode, 2)
            self.assertEqual(self.run_in(folder, "user", "add", "a b", "reader").returncode, 2)
            self.assertEqual(self.run_in(folder, "user", "add", "rita", "reader", "--ask", given="a good long word\n").returncode, 0)
            self.assertRegex(self.run_in(folder, "user", "list").stdout, "dora\tdepot.*not used yet\nrita\treader\tadded [^\t]*\n")
            self.assertEqual(self.run_in(folder, "user", "remove", "dora").returncode, 0)
            self.assertEqual(self.run_in(folder, "user", "remove", "dora").returncode, 2)
            self.assertNotIn("dora", self.run_in(folder, "user", "list").stdout)

    def test_loose_file_of_people_is_tightened_and_told(self):
        with tempfile.TemporaryDirectory() as folder:
            path = os.path.join(folder, "yadvorkhul-users.json")
            People(path).add("anna", Role.PLANNER, WORD)
            for words in (["user", "list"], ["serve", "case.json", "--port", "1"]):
                with open(os.path.join(folder, "case.json"), "w") as out:
                    json.dump(A, out)
                os.chmod(path, 0o644)
                with mock.patch("waitress.create_server", side_effect=OSError(98, "taken")):
                    got = self.run_in(folder, *words) if words[0] == "user" else self.start_in(folder, path)
                self.assertIn("had mode 644; it has 600 now", got.stderr if words[0] == "user" else got)
                self.assertEqual(os.stat(path).st_mode & 0o777, 0o600)

    def start_in(self, folder, users):
        """What a start says that gets no port."""
        said = []
        with self.assertRaises(CannotStart):
            start([os.path.join(folder, "case.json")], os.path.join(folder, "case.journal"), users, 1, "", said.append)
        return "\n".join(said)

    def test_a_torn_line_is_told_whatever_fails(self):
        with tempfile.TemporaryDirectory() as folder:
            path, users, file = (os.path.join(folder, name) for name in ("case.journal", "users.json", "case.json"))
            create(path, {"do": "enter", "user": "", "case": case_of(A)}).journal.close()
            for text in ("{", '{"costs": 1}', json.dumps({**A, "title": "another"})):
                with open(path, "ab") as out:
                    out.write(b"torn")
                with open(file, "w") as out:
                    out.write(text)
                found = opened(path, [file])  # the journal stands, so a bad file does not stop it
                found.journal.close()
                self.assertIn("torn", found.told[0])
                self.assertRegex(found.told[-1], "the journal counts")
            with open(path, "ab") as out:
                out.write(b"torn")
            with mock.patch("waitress.create_server", side_effect=OSError(98, "taken")):
                self.assertIn("torn", self.start_in(folder, users))
            with open(path, "ab") as out:
                out.write(b"torn")
            with open(users, "w") as out:
                out.write("{")
            self.assertIn("torn", self.start_in(folder, users))

    def test_serve_says_why_not(self):
        with tempfile.TemporaryDirectory() as folder:
            for name, text in (("bad.json", "{"), ("odd.json", '{"costs": 1}'), ("case.json", json.dumps({**A, "table": [1]}))):
                with open(os.path.join(folder, name), "w") as out:
                    out.write(text)
                got = self.run_in(folder, "serve", name)
                self.assertEqual(got.returncode, 2, got)
                self.assertNotIn("Traceback", got.stderr)
            for words in (["serve"], ["serve", "a", "b", "c"], ["serve", "none.json"], ["serve", "case.json", "--port", "0"], ["serve", "case.json", "--behind-proxy", "a b"]):
                got = self.run_in(folder, *words)
                self.assertEqual(got.returncode, 2, got)
                self.assertNotIn("Traceback", got.stderr)
            self.assertFalse([name for name in os.listdir(folder) if "journal" in name])


if __name__ == "__main__":
    unittest.main()
