"""Tests of certificates: random cases, false claims of eighteen kinds and by hand, wrong checkers, the second checker in Rust, page and formulas."""

import ast
import base64
import contextlib
import copy
import csv
import io
import json
import os
import random
import re
import shutil
import subprocess
import sys
import tempfile
import time
import unittest
from unittest import mock

from yadvorkhul import Case, Refusal, certificate, check_certificate
from yadvorkhul.command import main
from yadvorkhul.commands import certify

HERE = os.path.dirname(os.path.abspath(__file__))
CHECKER = os.path.join(HERE, "yadvorkhul", "check_certificate.py")
RUST = os.path.join(HERE, "..", "rust", "tests", "certificate.rs")
STORED = os.path.join(HERE, "..", "rust", "tests", "certificates.txt")
CASE_A = dict(costs=[[2, 6], [5, 3], [1, 4]], supplies=[3, 3, 1], demands=[3, 2], table=[99, 20, 24, 20])
CASES = int(os.environ.get("CERTIFICATES", 5000))
FALSE_EACH = 4  # kinds of false claim that are tried on a case


def random_case(draw) -> Case:
    """A small case, mostly balanced, with runs, ceilings and rebates; some have no plan."""
    m, n, most = draw.randint(2, 5), draw.randint(1, 5), draw.choice([1, 3, 6, 12])
    spread = draw.choice([1, 3, 30, 1_000_000])
    demands = [draw.randint(0, most) for _ in range(n)]
    stocks = [draw.randint(0, most) // 2 for _ in range(m - 2)]
    made = max(0, sum(demands) - sum(stocks))
    plants = [draw.randint(0, made), draw.randint(0, made)]
    if sum(plants) < made and draw.random() < 0.9:
        plants[draw.randint(0, 1)] += made - sum(plants)
    runs = tuple(draw.randint(0, plant) if draw.random() < 0.3 else 0 for plant in plants)
    ceilings = [[draw.randint(0, most) for _ in range(n)] for _ in range(m)]
    costs = [[draw.randint(-spread, spread) for _ in range(n)] for _ in range(m)]
    table = [draw.choice([0, draw.randint(0, 9), draw.randint(0, 1000), draw.randint(0, 10**9)]) for _ in range(plants[0] + 1)]
    return Case(costs, plants + stocks, demands, table, runs, ceilings if draw.random() < 0.6 else None)


def made_of(case: Case):
    """The certificate as another program reads it."""
    return json.loads(certificate.text(certificate.certificate(case)))


def wrong(cert):
    """What the checker says is wrong, or None."""
    right, sentence = check_certificate.told(json.dumps(cert))
    return None if right else sentence.split(": ", 1)[1]


def plan_at(case: Case, split: int):
    made = sum(case.demands) - sum(case.supplies[2:])
    return Case(*case[:4], (split, made - split), case.ceilings).plan()


# ---- false claims: from a case, its certificate and a draw to a certificate that claims something false, or None where there is no such one


def another_split(case, cert, draw):
    """The cheapest plan of another split, with its own split and total."""
    splits = [y for piece in cert["pieces"] if not piece["none"] for y in range(piece["from"], piece["to"] + 1) if y != cert["split"]]
    if cert["plan"] is None or not splits:
        return None
    plan = plan_at(case, draw.choice(splits))
    return {**cert, "plan": plan.amounts, "split": plan.split, "total": plan.total}


def total_too_low(case, cert, draw):
    return None if cert["plan"] is None else {**cert, "total": cert["total"] - 1}


def lanes_moved(case, cert, draw):
    """A drum from each of two lanes to the two across them: a plan still, dearer, or as cheap and not the one due."""
    x, k = cert["plan"], cert["case"]["ceilings"]
    m, n = len(case.supplies), len(case.demands)
    places = [(i, g, j, h) for i in range(m) for g in range(m) for j in range(n) for h in range(n) if i != g and j != h]
    draw.shuffle(places)
    for i, g, j, h in places if x else []:
        if x[i][j] and x[g][h] and x[i][h] < k[i][h] and x[g][j] < k[g][j]:
            y = copy.deepcopy(x)
            y[i][j], y[g][h], y[i][h], y[g][j] = x[i][j] - 1, x[g][h] - 1, x[i][h] + 1, x[g][j] + 1
            more = case.costs[i][h] + case.costs[g][j] - case.costs[i][j] - case.costs[g][h]
            return {**cert, "plan": y, "total": cert["total"] + more}
    return None


def in_case(cert, **fields):
    return {**cert, "case": {**cert["case"], **fields}}


def changed(numbers, place, number):
    return numbers[:place] + [number] + numbers[place + 1 :]


def demand_altered(case, cert, draw):
    if cert["plan"] is None:
        return None
    j = draw.randrange(len(case.demands))
    return in_case(cert, demands=changed(cert["case"]["demands"], j, case.demands[j] + 1))


def prices_altered(case, cert, draw):
    """At the split given a terminal's price falls by far: its demand pays nothing any more."""
    wanted = [j for j, demand in enumerate(case.demands) if demand]
    if cert["plan"] is None or not wanted:
        return None
    false, j = copy.deepcopy(cert), draw.choice(wanted)
    for piece in false["pieces"]:
        if piece["from"] <= cert["split"] <= piece["to"]:
            piece["terminals"][j] -= 10**12
    return false


def piece_left_out(case, cert, draw):
    if not cert["pieces"]:
        return None
    return {**cert, "pieces": cert["pieces"][1:] if draw.random() < 0.5 else cert["pieces"][:-1]}


def ceiling_below(case, cert, draw):
    """The ceiling of a lane in use falls below what it carries."""
    used = [(i, j) for i, row in enumerate(cert["plan"] or []) for j, amount in enumerate(row) if amount]
    if not used:
        return None
    (i, j), k = draw.choice(used), cert["case"]["ceilings"]
    return in_case(cert, ceilings=changed(k, i, changed(k[i], j, cert["plan"][i][j] - 1)))


def cost_altered(case, cert, draw):
    used = [(i, j) for i, row in enumerate(cert["plan"] or []) for j, amount in enumerate(row) if amount]
    if not used:
        return None
    (i, j), c = draw.choice(used), cert["case"]["costs"]
    return in_case(cert, costs=changed(c, i, changed(c[i], j, c[i][j] - 1)))


def cheaper_entry(case, cert, draw):
    """The entry of another split is so low that a plan there is due."""
    found = certificate.why(cert) if cert["plan"] else None
    bounds = [b for piece in found.pieces for b in piece.bounds if not b.none and b.split != cert["split"]] if found else []
    low = [(b.split, cert["total"] - b.bound - (b.split > cert["split"])) for b in bounds]
    low = [(y, entry) for y, entry in low if 0 <= entry]
    if not low:
        return None
    y, entry = draw.choice(low)
    return in_case(cert, table=changed(cert["case"]["table"], y, min(entry, cert["case"]["table"][y])))


def said_to_be_empty(case, cert, draw):
    """A piece that has plans is said to have none."""
    pieces = [k for k, piece in enumerate(cert["pieces"]) if not piece["none"]]
    if not pieces:
        return None
    k = draw.choice(pieces)
    return {**cert, "pieces": changed(cert["pieces"], k, {**cert["pieces"][k], "none": True})}


def refused_wrongly(case, cert, draw):
    """No plan is said to be there, or by another number."""
    number = draw.choice([number for number in (7, 8, 27) if number != cert["refusal"]])
    return {**cert, "plan": None, "split": None, "total": None, "one": None, "refusal": number}


def run_raised(case, cert, draw):
    if cert["plan"] is None or cert["split"] == case.supplies[0]:
        return None
    return in_case(cert, runs=[cert["split"] + 1, cert["case"]["runs"][1]])


def run_of_plant_2_raised(case, cert, draw):
    made = sum(cert["plan"][1]) if cert["plan"] else 4000
    return in_case(cert, runs=[cert["case"]["runs"][0], made + 1]) if made < case.supplies[1] else None


def supply_of_plant_2_lowered(case, cert, draw):
    """Plant 2 sends a drum more than it can make."""
    made = sum(cert["plan"][1]) if cert["plan"] else 0
    return in_case(cert, supplies=changed(cert["case"]["supplies"], 1, made - 1)) if made > case.runs[1] else None


def negative_amounts(case, cert, draw):
    """Drums from two lanes to the two across them, more than there are, for less money; split, sums and ceilings are kept."""
    x, k, c = cert["plan"], cert["case"]["ceilings"], case.costs
    m, n = len(case.supplies), len(case.demands)
    places = [(i, g, j, h) for i in range(m) for g in range(m) for j in range(n) for h in range(n) if i != g and j != h]
    draw.shuffle(places)
    for i, g, j, h in places if x else []:
        more, drums = c[i][h] + c[g][j] - c[i][j] - c[g][h], min(x[i][j], x[g][h]) + 1
        if more < 0 and x[i][h] + drums <= k[i][h] and x[g][j] + drums <= k[g][j]:
            y = copy.deepcopy(x)
            y[i][j], y[g][h], y[i][h], y[g][j] = x[i][j] - drums, x[g][h] - drums, x[i][h] + drums, x[g][j] + drums
            return {**cert, "plan": y, "total": cert["total"] + more * drums}
    return None


def split_altered(case, cert, draw):
    return None if cert["plan"] is None else {**cert, "split": cert["split"] + draw.choice([-1, 1])}


def stock_kept(case, cert, draw):
    """A depot keeps a drum, a plant sends it; split and total are those of these amounts."""
    x, k, m = cert["plan"], cert["case"]["ceilings"], len(case.supplies)
    places = [(i, g, j) for i in range(2, m) for g in (0, 1) for j in range(len(case.demands))]
    draw.shuffle(places)
    for i, g, j in places if x else []:
        if x[i][j] and x[g][j] < k[g][j] and sum(x[g]) < case.supplies[g]:
            y = copy.deepcopy(x)
            y[i][j], y[g][j] = x[i][j] - 1, x[g][j] + 1
            entries = case.table[sum(y[0])] - case.table[sum(x[0])]
            return {**cert, "plan": y, "split": sum(y[0]), "total": cert["total"] + case.costs[g][j] - case.costs[i][j] + entries}
    return None


def no_cut(case, cert, draw):
    """Prices 0 show nothing of splits without a plan."""
    false = copy.deepcopy(cert)
    empty = [piece for piece in false["pieces"] if piece["none"]]
    for piece in empty:
        piece["sources"], piece["terminals"] = [0] * len(case.supplies), [0] * len(case.demands)
    return false if empty else None


KINDS = [
    another_split, total_too_low, lanes_moved, demand_altered, prices_altered, piece_left_out, ceiling_below, cost_altered, cheaper_entry,
    said_to_be_empty, refused_wrongly, run_raised, split_altered, stock_kept, no_cut, run_of_plant_2_raised, supply_of_plant_2_lowered,
    negative_amounts,
]  # fmt: skip


# ---- certificates by hand: (whether it is right, its text), each in one line

RUN_2 = dict(costs=[[0], [10]], supplies=[4, 4], demands=[4], table=[0] * 5)
SUPPLY_2 = dict(costs=[[10], [0]], supplies=[4, 4], demands=[4], table=[0] * 5)
CROSS = dict(costs=[[0, 1], [1, 0]], supplies=[2, 2], demands=[2, 2], table=[0] * 3, runs=(2, 2))
SIX = dict(costs=[[1, 0, 0], [0, 1, 0], [0, 0, 1]], supplies=[1, 1, 1], demands=[1, 1, 1], table=[0] * 2, runs=(1, 1))  # two plans of six lanes
NO_PLAN = {7: {**CASE_A, "supplies": [3, 3, 6]}, 8: {**CASE_A, "supplies": [1, 2, 1], "table": [0, 0]}, 27: {**CASE_A, "ceilings": [[1, 1]] * 3, "demands": [4, 2]}}


def with_piece(cert, **fields):
    return {**cert, "pieces": [{**cert["pieces"][0], **fields}] + cert["pieces"][1:]}


def with_one(cert, **fields):
    return {**cert, "one": {**cert["one"], **fields}}


def without(part, name):
    return {key: value for key, value in part.items() if key != name}


def by_hand_false():
    """Objects that are no right certificates."""
    cert = made_of(Case(**CASE_A))
    yield in_case(made_of(Case(**RUN_2)), runs=[0, 2])
    yield in_case(made_of(Case(**SUPPLY_2)), supplies=[4, 2])
    yield {**made_of(Case(**CROSS)), "plan": [[3, -1], [-1, 3]], "total": -2}
    for form in ("yadvorkhul certificate 2", "", None, 1, ["yadvorkhul certificate 1"]):
        yield {**cert, "form": form}
    for number in (0, 7, 8, 27, False, "none"):
        yield {**cert, "refusal": number}
    for case in NO_PLAN.values():
        refused = made_of(Case(**case))
        yield from ({**refused, "refusal": number} for number in (float(refused["refusal"]), str(refused["refusal"]), 4, True, None, [8]))
        yield from ({**refused, name: junk} for name in ("split", "total", "one") for junk in (0, "junk", [], {}, False))
        yield {**refused, "plan": [], "refusal": None}
        yield from ({**refused, "pieces": pieces} for pieces in ({}, "", None))
    for runs in ([4, 0], [0, 4]):  # above a supply; no split is left, and no other number than 27
        yield in_case({**cert, "plan": None, "split": None, "total": None, "one": None, "refusal": 27, "pieces": []}, runs=runs)
    yield in_case(with_piece(cert, **{"from": 0}), supplies=[3, 4001, 1])
    yield in_case(with_piece(cert, **{"from": 0}), table=[10**9 + 1, 20, 24, 20], supplies=[3, 4, 1])
    yield in_case(cert, costs=[[2, 1_000_001], [5, 3], [1, 4]])
    yield large_demand(2001)
    yield with_one(sized(2, 1), tree=[[0, 1]])
    yield {**made_of(Case(**SIX)), "plan": [[0, 1, 0], [0, 0, 1], [1, 0, 0]]}
    for first in (1.0, "1", None, True, [1], -(2**63) - 1, 10**30):
        yield with_piece(cert, **{"from": first})
        yield with_piece(cert, to=first if first is not True else False)
    for none in (0, 1, None, "false", []):
        yield with_piece(cert, none=none)
    bad = {**cert["pieces"][0], "terminals": [-(10**9)] * 2}
    yield from ({**cert, "pieces": pieces} for pieces in (cert["pieces"] + [bad], [bad] + cert["pieces"], cert["pieces"] + [5], {}, None, "", 5))
    sources, terminals, tree = (cert["one"][name] for name in ("sources", "terminals", "tree"))
    yield with_one(cert, sources=sources + terminals[:1], terminals=terminals[1:])
    yield with_one(cert, sources=sources[:-1], terminals=sources[-1:] + terminals)
    yield with_one(cert, terminals=terminals + [0])
    for steps in ([[-5, 3]] + tree[1:], [[-3, 3]] + tree[1:], [[False, 3]] + tree[1:], [[0, -2]] + tree[1:], [[0, 1]] + tree[1:], [[3, 4]] + tree[1:], [[0, 5]] + tree[1:], [[5, 0]] + tree[1:],
                  [[0, 3, 4]] + tree[1:], [[0]] + tree[1:], [0, 3], [[0.0, 3]] + tree[1:], tree + tree, tree * 5000, {}, None, "", []):  # fmt: skip
        yield with_one(cert, tree=steps)
    for junk in (None, {}, [], 5, "one"):
        yield {**cert, "one": junk}
    for price in (2**63 + 1, -(2**63) - 1, 0.0, True, None, "0"):
        yield with_one(cert, sources=[price] + sources[1:])
        yield {**cert, "pieces": cert["pieces"] + [{**cert["pieces"][0], "from": 9, "to": 9, "sources": [price, 0, 0]}]}
        yield {**cert, "pieces": cert["pieces"] + [{**cert["pieces"][0], "from": 9, "to": 9, "terminals": [0, price]}]}
    for size in ([], [0], [0] * 4):
        yield {**cert, "pieces": cert["pieces"] + [{**cert["pieces"][0], "from": 9, "to": 9, "sources": size}]}
        yield {**cert, "pieces": cert["pieces"] + [{**cert["pieces"][0], "from": 9, "to": 9, "terminals": size}]}
    for total in (33.0, "33", True, None, 34, 32):
        yield {**cert, "total": total}
    for split in (3.0, "3", True, None, 2):
        yield {**cert, "split": split}
    for amount in (3.0, True, "3", None, [3]):
        yield {**cert, "plan": [[amount, 0], [0, 1], [0, 1]]}
    for plan in ([[3, 0], [0, 1]], [[3, 0], [0, 1], [0, 1], [0, 0]], [[3, 0, 0], [0, 1, 0], [0, 1, 0]], [[3], [0], [0]], {}, 5, "plan", [5, 5, 5], [[], [], []]):
        yield {**cert, "plan": plan}
    for name in cert:
        yield without(cert, name)
    for name in cert["case"]:
        yield {**cert, "case": without(cert["case"], name)}
    for name in cert["one"]:
        yield {**cert, "one": without(cert["one"], name)}
    for name in cert["pieces"][0]:
        yield {**cert, "pieces": [without(cert["pieces"][0], name)] + cert["pieces"][1:]}
    yield from ({**cert, "more": 1}, in_case(cert, more=1), with_one(cert, more=1), with_piece(cert, more=1))
    yield from ([], 5, None, "certificate", {}, [cert], {**cert, "case": None}, {**cert, "case": []})
    yield from (in_case(cert, **fields) for fields in SPOILED)


SPOILED = [
    dict(supplies=[3]), dict(demands=[]), dict(costs=[[2, 6], [5, 3]]), dict(supplies=[3, 3, -1]), dict(supplies=[3, 4001, 1]),
    dict(runs=[4, 0]), dict(runs=[0, 4]), dict(runs=[0]), dict(runs=[0, 0, 0]), dict(runs=[-1, 0]), dict(runs=[0, -1]), dict(runs=[0, False]),
    dict(costs=[[2, 6], [5, 3], [1, 1_000_001]]), dict(costs=[[2, 6], [5, 3], [1, -1_000_001]]), dict(ceilings=[[4001] * 2] * 3),
    dict(ceilings=[[4000] * 2] * 2), dict(ceilings=[[4000, 4000]] * 2 + [[4000, -1]]), dict(table=[99, 20, 24]), dict(table=[99, 20, 24, 20, 0]),
    dict(table=[-1, 20, 24, 20]), dict(table=[2**64, 20, 24, 20]), dict(demands=[3, 2.0]), dict(supplies={}), dict(demands="ab"), dict(table={}),
    dict(costs={}), dict(costs=[5, 5, 5]), dict(ceilings=None), dict(runs=None), dict(runs={"0": 0, "1": 0}), dict(supplies=None), dict(demands=5),
]  # fmt: skip


def sized(m, n):
    """The certificate of a case of this size in which nothing is sent, the planner's sizes or not."""
    case = dict(costs=[[0] * n] * m, supplies=[0] * m, demands=[0] * n, table=[0], runs=[0, 0], ceilings=[[0] * n] * m)
    prices = {"sources": [0] * m, "terminals": [0] * n}
    return dict(form=certificate.FORM, case=case, refusal=None, plan=[[0] * n] * m, split=0, total=0, one={**prices, "tree": []},
                pieces=[{"from": 0, "to": 0, "none": False, **prices}])  # fmt: skip


def large_demand(stock):
    """A certificate in which two depots send 2,000 drums and this stock to one terminal."""
    cert = sized(4, 1)
    case = {**cert["case"], "supplies": [0, 0, stock, 2000], "demands": [stock + 2000], "ceilings": [[4000]] * 4}
    return with_one({**cert, "case": case, "plan": [[0], [0], [stock], [2000]]}, tree=[[2, 4], [4, 3]])


def by_hand_right():
    cert = made_of(Case(**CASE_A))
    yield cert
    yield from (made_of(Case(**case)) for case in (*NO_PLAN.values(), RUN_2, SUPPLY_2, CROSS, SIX))
    yield large_demand(2000)
    yield in_case(with_piece(cert, **{"from": 0}), supplies=[3, 4, 1])
    yield in_case(cert, costs=[[2, 1_000_000], [5, 3], [1, 4]])
    yield from (in_case(cert, runs=[0, 0], **fields) for fields in (dict(table=[2**64 - 1, 20, 24, 20]), dict(table=[0, 20, 24, 20])))
    yield {**cert, "pieces": cert["pieces"] + cert["pieces"][:1]}
    yield {**cert, "pieces": [{**cert["pieces"][0], "from": -(2**63)}, {**cert["pieces"][1], "to": 2**63}]}
    yield {**cert, "pieces": cert["pieces"] + [{**cert["pieces"][0], "from": 9, "to": 8, "sources": [2**63, -(2**63), 0]}]}
    yield from (sized(m, n) for m, n in ((2, 1), (32, 1), (2, 64)))


def by_hand():
    """Certificates and texts of all kinds with what is to be said of them."""
    cert = json.dumps(made_of(Case(**CASE_A)))
    yield from ((True, json.dumps(right)) for right in by_hand_right())
    yield from ((False, json.dumps(false)) for false in by_hand_false())
    yield from ((False, json.dumps(sized(m, n))) for m, n in ((1, 1), (33, 1), (2, 65), (2, 0)))
    for old, new in (
        ('"yad', '"\\u0079ad'), ('"case"', '"c\\u0061se"'), ("[0, 0]", "[-0, 0]"), ("[0, 0]", "[ 0\t,0 ]"), (" ", ""),
    ):  # fmt: skip
        yield True, cert.replace(old, new if new else "", 1)
    for old, new in (
        ('"case": {', '"case" {'), ('"case": {', '"case": : {'), ("[2, 6]", "[2 6]"), ("[2, 6]", "[2, 6,]"), ("[2, 6]", "[2,, 6]"), ("[2, 6]", "[, 2, 6]"),
        ("[2, 6]", "[02, 6]"), ("[2, 6]", "[+2, 6]"), ("[2, 6]", "[2.0, 6]"), ("[2, 6]", "[2e0, 6]"), ("[2, 6]", "[NaN, 6]"), ("[2, 6]", "[2_0, 6]"),
        ("[2, 6]", "(2, 6)"), ("[2, 6]", "[2, 6"), ("[2, 6]", "[2, 6}"), ("[2, 6]", "[- 2, 6]"), ("[2, 6]", "[2, 6]]"), ("null", "nul"), ("null", "None"),
        ("null", "Null"), ("false", "False"), ("null", "nullnull"), ('"yad', '"\\yad'), ('"yad', '"\\u79ad'), ('"yad', '"\\u+079ad'), ('"yad', '"\tyad'),
        ('"yad', '"\\ud800yad'), ('"yad', "yad"), ('"yad', "'yad"), ('"runs": [0, 0]', '"runs": [0, 0], "runs": [0, 0]'), ('"runs": [0, 0]', '"runs": [9, 9], "runs": [0, 0]'),
        ('"none": false', '"none": false, "none": false'), ('"tree"', '"tree": [], "tree"'), ('"split": 3', '"split": 3, "split": 3'), ('"split"', '"s\\u0070lit": 3, "split"'),
        ('{"form"', '{"total": 32, "form"'), ('{"form"', '{, "form"'), ('{"form"', '{form'), ('{"form"', '\ufeff{"form"'), ('{"form"', 'x{"form"'), ('{"form"', '\f{"form"'),
    ):  # fmt: skip
        assert old in cert, old
        yield False, cert.replace(old, new, 1)
    yield from ((False, cert + more) for more in (" x", "}", "[]", ",", " null", "0", "\x00", "\f", cert))
    yield from ((False, cert[:-1] + more) for more in ("", ",}", ', "more": 0}', ', "total": 33}', "]", "}}"))
    yield from ((False, text) for text in ("", " ", "[", "{", "[" * 100_000, '{"a":' * 100_000, "null", "NaN", "7", '"', "-", "9" * 5000))


def damaged(draw, text):
    """A text with one to three characters taken away, put in, or replaced."""
    for _ in range(draw.choice([1, 1, 1, 2, 3])):
        place, char = draw.randrange(len(text)), draw.choice('0123456789,:[]{}" -.e\\truefalsn')
        text = text[:place] + draw.choice(["", char, char + text[place]]) + text[place + 1 :]
    return text


def other_value(draw, value):
    """A value in which one thing, somewhere, is another."""
    if isinstance(value, (dict, list)) and value and draw.random() < 0.85:
        value = copy.copy(value)
        key = draw.choice(list(value) if isinstance(value, dict) else range(len(value)))
        chance = draw.random()
        if chance < 0.08:
            del value[key]
        elif chance < 0.14 and isinstance(value, list):
            value.insert(key, value[key])
        else:
            value[key] = other_value(draw, value[key])
        return value
    if type(value) is int and draw.random() < 0.7:
        return value + draw.choice([-1, 1, 2, -1000, 4000])
    return draw.choice([None, True, False, 0, 1, -1, 7, 8, 27, 8.0, 1e3, "", "x", [], {}, [0], [[0, 0]], 2**63 + 1, 10**45, -(10**18)])


def large_case(draw) -> Case:
    """32 sources, 64 terminals, about 3,000 splits, signed costs."""
    demands = [draw.randint(40, 80) for _ in range(64)]
    stocks = [draw.randint(0, 60) for _ in range(30)]
    made = sum(demands) - sum(stocks)
    costs = [[draw.randint(-100, 1000) for _ in range(64)] for _ in range(32)]
    table = [int(100 * (y * 10_000) ** 0.5) for y in range(3001)]
    return Case(costs, [3000, min(4000, made)] + stocks, demands, table, (0, 0), [[draw.randint(5, 80) for _ in range(64)] for _ in range(32)])


def rust_checker(folder):
    """The second checker, where there is a Rust compiler."""
    program = os.path.join(folder, "certificate")
    subprocess.run(["rustc", "-O", "--edition", "2021", "-o", program, RUST], check=True, capture_output=True)
    return program


def store():
    """Writes anew what `cargo test` looks at: python3 -c "import test_certificate; test_certificate.store()"."""
    draw = random.Random(14)
    cases = [Case(**CASE_A), Case(**CASE_A, runs=(2, 2)), Case(**CASE_A, ceilings=[[1, 9], [9, 9], [9, 9]])] + [random_case(draw) for _ in range(17)]
    with open(STORED, "w", encoding="utf-8") as lines:
        for case in cases:
            cert = made_of(case)
            lines.write("right " + json.dumps(cert) + "\n")
            false = [kind(case, cert, draw) for kind in draw.sample(KINDS, FALSE_EACH)]
            lines.writelines("wrong " + json.dumps(claim) + "\n" for claim in false if claim is not None)
        for right, text in by_hand():
            if text.isprintable() and len(text) < 2000:
                lines.write(f"{'right' if right else 'wrong'} {text}\n")


def judged_in_rust(test, folder, path):
    """The second checker judges a file of certificates as it is told there; where there is none, that is said."""
    if not shutil.which("rustc"):
        print("\nRUSTC IS MISSING: the second checker judged nothing (Debian: rustc)", file=sys.stderr)
        test.skipTest("rustc is missing: the first checker was tried, the second judged nothing (Debian: rustc)")
    done = subprocess.run([rust_checker(folder), path], capture_output=True, text=True)
    print("\n" + done.stdout[:300], file=sys.stderr)
    test.assertEqual(done.returncode, 0, done.stdout[:3000] + done.stderr[:1000])


class RandomCases(unittest.TestCase):
    def test_right_and_false(self):
        draw, numbers, tried = random.Random(41), {}, dict.fromkeys(KINDS, 0)
        with tempfile.TemporaryDirectory() as folder:
            path = os.path.join(folder, "certificates.txt")
            with open(path, "w", encoding="utf-8") as lines:
                for _ in range(CASES):
                    self.one_case(random_case(draw), draw, numbers, tried, lines)
            self.assertEqual(set(numbers), {None, 7, 8, 27})
            for kind, count in tried.items():
                self.assertGreater(count, CASES // 200, kind.__name__)
            print(f"\n{CASES} right by number {numbers}; false " + ", ".join(f"{kind.__name__} {count}" for kind, count in tried.items()), file=sys.stderr)
            judged_in_rust(self, folder, path)

    def one_case(self, case, draw, numbers, tried, lines):
        cert = made_of(case)
        self.assertIsNone(wrong(cert), cert)
        numbers[cert["refusal"]] = numbers.get(cert["refusal"], 0) + 1
        lines.write("right " + json.dumps(cert) + "\n")
        for kind in draw.sample(KINDS, FALSE_EACH):
            false = kind(case, cert, draw)
            if false is not None:
                tried[kind] += 1
                right, sentence = check_certificate.told(json.dumps(false))
                self.assertFalse(right, (kind.__name__, sentence, false))
                lines.write("wrong " + json.dumps(false) + "\n")

    def test_large(self):
        draw = random.Random(3264)
        for _ in range(2):
            case = large_case(draw)
            start = time.perf_counter()
            text = certificate.text(certificate.certificate(case))
            made = time.perf_counter()
            right, sentence = check_certificate.told(text)
            done = time.perf_counter()
            self.assertTrue(right, sentence)
            print(f"\n32 x 64: {text.count('from')} pieces, {len(text):,} bytes, made in {made - start:.2f} s, checked in {done - made:.2f} s", file=sys.stderr)


class Answers(unittest.TestCase):
    def test_the_same_plan(self):
        """The certificate's plan is the planner's, and nothing of the case is lost."""
        cert, plan = made_of(Case(**CASE_A)), Case(**CASE_A).plan()
        self.assertEqual((cert["plan"], cert["split"], cert["total"]), (plan.amounts, plan.split, plan.total))
        self.assertEqual([cert["case"][name] for name in CASE_A], list(CASE_A.values()))
        self.assertEqual((cert["case"]["runs"], cert["case"]["ceilings"]), ([0, 0], [[4000] * 2] * 3))

    def test_equally_cheap(self):
        """All plans cost the same: each but the one due is refused, by both."""
        cert = made_of(Case([[0, 0], [0, 0]], [2, 2], [1, 1], [0, 0, 0]))
        self.assertEqual((cert["split"], wrong(cert)), (0, None))
        cert = made_of(Case([[0, 0], [0, 0]], [1, 1], [1, 1], [0, 0], runs=(1, 1)))
        self.assertEqual((cert["plan"], wrong(cert)), ([[0, 1], [1, 0]], None))
        self.assertEqual(wrong({**cert, "plan": [[1, 0], [0, 1]]}), "another plan of this split may be due")

    def test_other_kinds_of_numbers(self):
        """Rows and numbers of other kinds, which the planner takes, come out as plain ones."""

        class Drums(int):
            pass

        odd = {**CASE_A, "costs": tuple((Drums(a), b) for a, b in CASE_A["costs"]), "table": range(99, 103), "runs": (False + 0, 0)}
        cert = made_of(Case(**odd))
        self.assertEqual((cert["case"]["costs"], cert["case"]["table"], wrong(cert)), (CASE_A["costs"], [99, 100, 101, 102], None))

    def test_no_plan(self):
        for change, number in ((dict(supplies=[3, 3, 6]), 7), (dict(supplies=[1, 2, 1], table=[0, 0]), 8), (dict(ceilings=[[1, 1]] * 3, demands=[4, 2]), 27)):
            cert = made_of(Case(**{**CASE_A, **change}))
            self.assertEqual((cert["refusal"], cert["plan"], wrong(cert)), (number, None, None))
            self.assertLessEqual(len(cert["pieces"]), 1)  # one cut for all splits
            found = certificate.why(cert)
            self.assertEqual((found.right, found.split, len(found.sources) > 0), (True, None, number == 27))
            self.assertTrue(all(bound.none and bound.bound > 0 for bound in found.bounds))

    def test_other_refusals_are_raised(self):
        with self.assertRaises(Refusal) as found:
            certificate.certificate(Case(**{**CASE_A, "demands": [3, 4001]}))
        self.assertEqual(found.exception.number, 4)

    def test_entries_beside_the_splits(self):
        """An entry at which there is no plan is not judged, one at which there is, is."""
        cert = made_of(Case(**{**CASE_A, "table": [2**64 - 1, 20, 24, 20]}))
        self.assertIsNone(wrong(cert))
        self.assertIsNotNone(wrong(in_case(cert, table=[0, 20, 10**9 + 1, 20])))


class Checker(unittest.TestCase):
    def test_short_and_alone(self):
        with open(CHECKER, encoding="utf-8") as file:
            text = file.read()
        self.assertLess(text.count("\n"), 80)
        imports = [node for node in ast.walk(ast.parse(text)) if isinstance(node, (ast.Import, ast.ImportFrom))]
        self.assertEqual([[name.name for name in node.names] for node in imports], [["json", "sys"]])

    def test_as_a_program(self):
        with tempfile.TemporaryDirectory() as folder:
            program, path = shutil.copy(CHECKER, folder), os.path.join(folder, "cert.json")

            def run(*words):
                done = subprocess.run([sys.executable, "-I", program, *words], cwd=folder, capture_output=True, text=True)
                self.assertEqual(done.stderr, "")
                return done.returncode, done.stdout

            def checked(cert):
                with open(path, "w", encoding="utf-8") as out:
                    out.write(cert if isinstance(cert, str) else json.dumps(cert))
                return run(path)

            cert = made_of(Case(**CASE_A))
            right = f"{path}: right: 3 sources, 2 terminals, 5 drums demanded: plant 1 makes 3, total 33: no plan is cheaper\n"
            self.assertEqual(checked(cert), (0, right))
            self.assertEqual(checked({**cert, "total": 32}), (1, f"{path}: NOT RIGHT: split or total is not the plan's own\n"))
            self.assertEqual(checked({**cert, "pieces": cert["pieces"][:-1]})[0], 1)
            for spoiled in ("", "[]", "{", "null", "{}", json.dumps({**cert, "pieces": 5}), json.dumps({**cert, "case": {}}), "NaN"):
                status, said = checked(spoiled)
                self.assertEqual((status, said[len(path) :][:12]), (1, ": NOT RIGHT:"), spoiled)
            for amount in (3.0, True, "3", None, [3]):
                self.assertEqual(checked({**cert, "plan": [[amount, 0], [0, 1], [0, 1]]})[0], 1)
            status, said = run()
            self.assertEqual((status, said.split(" ")[0]), (1, "usage:"))
            self.several_files(folder, run, json.dumps(cert))

    def several_files(self, folder, run, right):
        """Each file named has a line; one that is not right, or cannot be read, makes the status 1, wherever it stands."""
        texts = {"a.json": right, "b.json": right.replace("33", "32"), "c.json": right}
        for name, text in texts.items():
            with open(os.path.join(folder, name), "w", encoding="utf-8") as out:
                out.write(text)
        with open(os.path.join(folder, "latin.json"), "wb") as out:
            out.write(b'{"form": "\xff"}')
        for names, judged in (("ac", [True, True]), ("ab", [True, False]), ("ba", [False, True]), ("abc", [True, False, True])):
            status, said = run(*[f"{name}.json" for name in names])
            self.assertEqual(status, int(not all(judged)))
            self.assertEqual([line.split(": ")[:2] for line in said.splitlines()], [[f"{name}.json", "right" if ok else "NOT RIGHT"] for name, ok in zip(names, judged)])
        for odd in ("missing.json", "latin.json", "."):
            status, said = run("a.json", odd, "c.json")
            self.assertEqual((status, [line.split(": ")[:2] for line in said.splitlines()]), (1, [["a.json", "right"], [odd, "NOT RIGHT"], ["c.json", "right"]]))

    def test_by_hand(self):
        """Certificates by hand: no part is left unread, and what is said is a sentence."""
        for right, text in by_hand():
            judged, sentence = check_certificate.told(text)
            self.assertEqual(judged, right, (sentence, text[:1500]))
            self.assertNotRegex(sentence, r"Error|NoneType|subscript|unpack|argument|iterable")

    def test_sentences(self):
        cert = made_of(Case(**CASE_A))
        parts = "a certificate must have these parts and no other: form case refusal plan split total pieces one"
        self.assertEqual(wrong(without(cert, "one")), parts)
        self.assertEqual(wrong({**cert, "one": None}), "one must have these parts and no other: sources terminals tree")
        self.assertEqual(wrong({**cert, "form": 5}), "its form is not yadvorkhul certificate 1, with a list of pieces")
        self.assertEqual(wrong({**cert, "refusal": 8}), "it is another refusal, or there is a plan beside it")
        self.assertEqual(check_certificate.told(json.dumps(cert)[:-1] + ', "total": 33}'), (False, "NOT RIGHT: a name stands twice in one part"))
        self.assertEqual(check_certificate.told("{")[1][:27], "NOT RIGHT: it is no JSON, E")

    def test_two_checkers(self):
        """By hand, damaged and altered at random: both checkers judge alike, right or not."""
        draw, count = random.Random(2), {True: 0, False: 0}
        with tempfile.TemporaryDirectory() as folder:
            path = os.path.join(folder, "certificates.txt")
            with open(path, "w", encoding="utf-8", newline="\n") as lines:
                for right, text in by_hand():
                    lines.write(f"{'right' if right else 'wrong'} {text}\n")
                for _ in range(CASES // 10):
                    cert = made_of(random_case(draw))
                    text = json.dumps(cert)
                    others = [damaged(draw, text) for _ in range(6)] + [json.dumps(other_value(draw, cert)) for _ in range(6)]
                    for other in others:
                        judged = check_certificate.told(other)[0]
                        count[judged] += 1
                        lines.write(f"{'right' if judged else 'wrong'} {other}\n")
            self.assertGreater(min(count.values()), CASES // 200, count)
            judged_in_rust(self, folder, path)

    def test_ranges(self):
        """What the planner refuses by 1 to 6, 23 and 26 is no case here."""
        cert = made_of(Case(**CASE_A))
        for fields in SPOILED:
            self.assertEqual(wrong(in_case(cert, **fields)), "the case is not of the form, or out of range", fields)

    def test_second_checker(self):
        """The stored certificates, which `cargo test` looks at, are judged by this checker too."""
        with open(STORED, encoding="utf-8") as lines:
            stored = [line.split(" ", 1) for line in lines]
        self.assertEqual({word for word, _ in stored}, {"right", "wrong"})
        for word, cert in stored:
            self.assertEqual(check_certificate.told(cert)[0], word == "right", cert)


def left_out(text):
    """Wrong checkers, each with one test left out: a term of an `and`, what a `need` asks, an end of a range."""
    starts = [0]
    for line in text.splitlines(keepends=True):
        starts.append(starts[-1] + len(line))

    def instead(node, new):
        first, last = starts[node.lineno - 1] + node.col_offset, starts[node.end_lineno - 1] + node.end_col_offset
        return text[first:last], text[:first] + new + text[last:]

    for node in ast.walk(ast.parse(text)):
        if isinstance(node, ast.BoolOp) and isinstance(node.op, ast.And):
            yield from (instead(term, "True") for term in node.values)
        elif isinstance(node, ast.Call) and getattr(node.func, "id", "") == "need" and not isinstance(node.args[0], ast.BoolOp):
            yield instead(node.args[0], "True")
        elif isinstance(node, ast.Compare) and len(node.ops) == 2:
            low, middle, high = (ast.get_source_segment(text, part) for part in (node.left, *node.comparators))
            yield instead(node, f"{low} <= {middle}")
            yield instead(node, f"{middle} <= {high}")


ALTERED = [
    ("for i in (0, 1))", "for i in (0,))"), ("for i in (0, 1))", "for i in (1,))"), ('0, 4000), "the plan', '-4000, 4000), "the plan'), ("(y < split)", "0"),
    ("min(0, c + u - v)", "max(0, c + u - v)"), ("min(0, c + u - v)", "c + u - v"), ("min(0, c + u - v)", "0"), ("p[1] - p[0]", "p[0] - p[1]"), ("- times([p[2:]], [a[2:]])", ""),
    ("base + rise * y > 0", "base + rise * y >= 0"), ("+ table[y] >=", ">="), ("+ table[y] >=", "+ table[y] + 1 >="), ("[[0] * n] * m if none else c", "c"),
    ("max(runs[0], d - a[1])", "d - a[1]"), ("max(runs[0], d - a[1])", "runs[0]"), ("min(a[0], d - runs[1])", "a[0]"), ("min(a[0], d - runs[1])", "d - runs[1]"),
    ("max(runs[0], d - a[1])", "max(runs[0], d - a[1]) + 1"), ("min(a[0], d - runs[1])", "min(a[0], d - runs[1]) - 1"), ("7 if d < sum(runs)", "7 if d <= sum(runs)"),
    ("8 if d > a[0] + a[1]", "8 if d >= a[0] + a[1]"), ("7 if d < sum(runs) else ", ""), ("8 if d > a[0] + a[1] else ", ""), ("sent[2:] == a[2:]", "sent[3:] == a[3:]"),
    ("table[sent[0]] + times(c, x)", "times(c, x)"), ("v <= most", "v <= most + 1"), ("m * n - 1 - i * n - j", "i * n + j"), ("- digit[v][u - m]", "+ digit[v][u - m]"),
    ("c * top + t", "c + t"), ("4001 ** (m * n - 1", "1 ** (m * n - 1"), ("c * top + t for", "c * top for"), ("if some: check_one", "if None: check_one"), ("if some: check_plan", "if None: check_plan"),
    ("    else: need([", "    elif 0: need(["), (", object_pairs_hook=once", ""), ("type(x) is int", "isinstance(x, int)"), ("type(x) is int", "isinstance(x, (int, float))"), ("<= 10**9", "<= 10**10"),
    ("2 <= m <= 32", "1 <= m <= 32"), ("2 <= m <= 32", "2 <= m <= 33"), ("1 <= n <= 64", "1 <= n <= 65"), ("max(low, first)", "low"), ("min(high, last)", "high"), ("len(tree) < m + n", "len(tree) < 9999"),
]  # fmt: skip


class WrongCheckers(unittest.TestCase):
    """The claims of these tests tell the checker from wrong ones: a test left out, a sign, an order, an end."""

    def claims(self):
        """Certificates with what the checker says of them, by hand first, then at random with every kind of false claim."""
        yield from by_hand()
        draw = random.Random(7)
        for _ in range(300):
            case = random_case(draw)
            cert = made_of(case)
            yield True, json.dumps(cert)
            for kind in KINDS:
                false = kind(case, cert, draw)
                if false is not None:
                    yield False, json.dumps(false)

    def test_each_is_caught(self):
        with open(CHECKER, encoding="utf-8") as file:
            text = file.read()
        claims = [(right, claim) for right, claim in self.claims() if len(claim) < 50_000]
        checkers = list(left_out(text)) + [(f"{old} -> {new}", text.replace(old, new, 1)) for old, new in ALTERED if self.assertIn(old, text) is None]
        missed = [what for what, checker in checkers if not self.caught(checker, claims)]
        print(f"\n{len(checkers)} wrong checkers, {len(claims)} claims", file=sys.stderr)
        self.assertEqual(missed, [])

    def caught(self, checker, claims):
        """Whether a claim is judged otherwise."""
        names = {"__name__": "checker"}
        exec(compile(checker, "checker", "exec"), names)
        for right, claim in claims:
            try:
                judged = names["told"](claim)[0]
            except Exception:  # a sentence is due
                judged = None
            if judged != right:
                return True
        return False


def certificate_written(path, text):
    with open(path, "w", encoding="utf-8") as out:
        out.write(text)


class Command(unittest.TestCase):
    """`certify` and `plan --certify`."""

    def setUp(self):
        self.folder = tempfile.mkdtemp()
        self.addCleanup(shutil.rmtree, self.folder)
        self.case, self.cert = (os.path.join(self.folder, name) for name in ("case.json", "cert.json"))

    def write_case(self, **change):
        with open(self.case, "w", encoding="utf-8") as out:
            json.dump({**CASE_A, **change}, out)

    def run_on(self, *words, **change):
        self.write_case(**change)
        done = subprocess.run([sys.executable, "-m", "yadvorkhul", *words], cwd=HERE, capture_output=True, text=True)
        return done.returncode, done.stdout, done.stderr

    def written(self):
        with open(self.cert, encoding="utf-8") as file:
            return json.load(file)

    def test_certify(self):
        status, printed, said = self.run_on("certify", self.case, "-o", self.cert)
        self.assertEqual((status, printed), (0, ""))
        self.assertIn("checked: right: 3 sources, 2 terminals, 5 drums demanded: plant 1 makes 3, total 33", said)
        self.assertEqual(self.written(), made_of(Case(**CASE_A)))
        done = subprocess.run([sys.executable, CHECKER, self.cert], capture_output=True, text=True)
        self.assertEqual((done.returncode, done.stdout[: len(self.cert) + 8]), (0, f"{self.cert}: right:"))

    def test_two_files(self):
        files = [os.path.join(HERE, "..", "..", "examples", "case_a", name) for name in ("tariff.csv", "production.csv")]
        self.assertEqual(self.run_on("certify", *files, "-o", self.cert)[0], 0)
        self.assertEqual(self.written(), made_of(Case(**CASE_A)))

    def test_plan_and_certify(self):
        alone = self.run_on("plan", self.case)
        status, printed, said = self.run_on("plan", self.case, "--certify", self.cert)
        self.assertEqual((status, printed), alone[:2])
        self.assertIn("checked: right:", said)
        self.assertEqual(self.written()["total"], 33)

    def test_no_plan(self):
        for change, number in ((dict(supplies=[3, 3, 6]), 7), (dict(supplies=[1, 2, 1], table=[0, 0]), 8), (dict(ceilings=[[1, 1]] * 3, demands=[4, 2]), 27)):
            status, printed, said = self.run_on("certify", self.case, "-o", self.cert, **change)
            self.assertEqual((status, printed, self.written()["refusal"]), (0, "", number))
            os.remove(self.cert)
            status, printed, said = self.run_on("plan", self.case, "--certify", self.cert, **change)
            self.assertEqual((status, printed, self.written()["refusal"]), (1, f"refusal,place\n{number},0\n", number))
            self.assertIn(f"no plan, refusal {number}", said)

    def in_here(self, *words):
        """The command in this process, so that a part of it can be another."""
        printed, said = io.TextIOWrapper(io.BytesIO()), io.StringIO()
        with contextlib.redirect_stdout(printed), contextlib.redirect_stderr(said):
            status = main(list(words))
        return status, printed.buffer.getvalue(), said.getvalue()

    def refuses(self, made, words, sentence):
        """A certificate that is made otherwise is not written: nothing is left, and an older file stays. The answer is printed."""
        older = os.path.join(self.folder, "older.json")
        with open(older, "w", encoding="utf-8") as out:
            out.write("older")
        alone = self.in_here("plan", *words)
        for path in (self.cert, older):
            with mock.patch.object(certify, "certificate", lambda case: made):
                status, printed, said = self.in_here("plan", *words, "--certify", path)
            self.assertEqual((status, printed, said.count("\n")), (4, alone[1], 1), said)
            self.assertIn(sentence, said)
        self.assertFalse(os.path.exists(self.cert))
        with open(older, encoding="utf-8") as file:
            self.assertEqual(file.read(), "older")

    def test_another_answer(self):
        """What was printed is compared with the certificate: plan, split and total, or the refusal."""
        files = [os.path.join(HERE, "..", "..", "examples", "case_a", name) for name in ("tariff.csv", "production.csv")]
        others = [{**CASE_A, "table": [99, 20, 24, 21]}, {**CASE_A, "table": [99, 20, 14, 20]}, {**CASE_A, "costs": [[2, 6], [5, 3], [0, 5]]}, *NO_PLAN.values()]
        self.write_case()
        for other in others:
            made = certificate.certificate(Case(**other))
            self.assertTrue(certificate.why(made).right)
            for words in ([self.case], [self.case, "--json"], files, [*files, "--json"]):
                self.refuses(made, words, "another answer than the one printed")
        for number, case in NO_PLAN.items():
            self.write_case(**case)
            for other in (CASE_A, NO_PLAN[{7: 8, 8: 27, 27: 7}[number]]):
                for words in ([self.case], [self.case, "--json"]):
                    self.refuses(certificate.certificate(Case(**other)), words, "another answer than the one printed")

    def test_answer_in(self):
        """What is read from a table or from JSON is the answer."""
        for words in ((), ("--json",)):
            for case in (CASE_A, SIX, CROSS, *NO_PLAN.values()):
                made = certificate.certificate(Case(**case))
                self.write_case(**case)
                printed = certify.answer_in(self.in_here("plan", self.case, *words)[1])
                self.assertEqual(printed, (made["refusal"], made["plan"], made["split"], made["total"]))

    def test_found_wrong(self):
        """A certificate that is found wrong does not stay on the disk."""
        self.write_case()
        self.refuses({**certificate.certificate(Case(**CASE_A)), "total": 32}, [self.case], "split or total is not the plan's own")
        spoiled = lambda path, text: certificate_written(path, text.replace("33", "32"))
        for words in (["plan", self.case, "--certify", self.cert], ["certify", self.case, "-o", self.cert]):
            with mock.patch.object(certify, "write_whole", spoiled):
                status, _, said = self.in_here(*words)
            self.assertEqual((status, os.path.exists(self.cert)), (4, False))
            self.assertIn("taken away", said)
            self.assertEqual(self.in_here(*words)[0], 0)
            os.remove(self.cert)

    def test_other_refusals(self):
        for words in (("certify", self.case, "-o", self.cert), ("plan", self.case, "--certify", self.cert)):
            status, _, said = self.run_on(*words, demands=[3, 4001])
            self.assertEqual((status, os.path.exists(self.cert)), (1, False))
            self.assertIn("no certificate is written", said)

    def test_wrong_use(self):
        for path in (self.case, self.folder, os.path.join(self.folder, "none", "cert.json")):
            for words in (("certify", self.case, "-o", path), ("plan", self.case, "--certify", path)):
                status, _, said = self.run_on(*words)
                self.assertEqual((status, said.count("\n")), (2, 1), said)
        self.assertEqual(sorted(os.listdir(self.folder)), ["case.json"])


class Page(unittest.TestCase):
    def test_why(self):
        """The page has the bound at every split, and the certificate itself."""
        try:
            import jinja2, matplotlib  # noqa: E401, F401
        except ImportError:
            self.skipTest("needs Jinja2 and Matplotlib")
        from yadvorkhul import page

        text = page({**CASE_A, "ceilings": [[4, 4], [4, 4], [4, 4]], "supplies": [4, 3, 1], "table": [99, 20, 24, 20, 50]})
        rows = re.findall(r"<tr>(.*?)</tr>", text.split('<table id="bounds">')[1].split("</tbody>")[0], re.S)[1:]
        found = [[int(cell) for cell in re.findall(r"<td>(-?\d+)</td>", row)] for row in rows]
        self.assertEqual(found, [[1, 14, 20, 34, 1], [2, 11, 24, 35, 2], [3, 13, 20, 33, 0], [4, 16, 50, 66, 33]])
        link = re.search(r'href="data:application/json;base64,([^"]*)"', text).group(1)
        cert = json.loads(base64.b64decode(link))
        self.assertEqual((cert["total"], wrong(cert)), (33, None))
        prices = re.findall(r"</b>(.*?)</li>", text.split('id="source-prices"')[1].split("</ul>")[0])
        self.assertEqual(prices, [str(price).replace("-", "\u2212") for price in cert["pieces"][1]["sources"]])

    def test_stops(self):
        """A certificate that does not show the plan makes no page."""
        case = Case(**CASE_A)
        with self.assertRaises(ValueError):
            certificate.why_cheapest(case, case.plan()._replace(total=32))


class Workbook(unittest.TestCase):
    def test_formulas(self):
        """The formulas, reckoned as a spreadsheet does (a column and a row beside a table are spread over it), are the bounds."""
        try:
            import numpy
        except ImportError:
            self.skipTest("needs numpy (Debian: python3-numpy)")
        draw = random.Random(9)
        for _ in range(200):
            cert = made_of(random_case(draw))
            if cert["plan"] is not None:
                self.reckoned(numpy, cert)

    def reckoned(self, numpy, cert):
        case = cert["case"]
        names = certificate.Cells("C", "K", "B", "A", "D", "P1", "P2", "P", "PD", "Q")
        if len(case["supplies"]) == 2:
            names = names._replace(stocks="", depots="")
        for piece in certificate.why(cert).pieces:
            p = numpy.array(piece.sources, dtype=object).reshape(-1, 1)
            cells = dict(
                C=numpy.array(case["costs"], dtype=object), K=numpy.array(case["ceilings"], dtype=object), B=numpy.array([case["demands"]], dtype=object),
                A=numpy.array(case["supplies"][2:], dtype=object).reshape(-1, 1), D=sum(case["demands"]) - sum(case["supplies"][2:]),
                P1=piece.sources[0], P2=piece.sources[1], P=p, PD=p[2:], Q=numpy.array([piece.terminals], dtype=object),
                SUMPRODUCT=lambda *parts: numpy.prod(numpy.broadcast_arrays(*parts), axis=0).sum(),
            )  # fmt: skip
            base, rise = eval(certificate.base_formula(names, piece.none), cells), eval(certificate.rise_formula(names), cells)
            self.assertEqual((base, rise), (piece.base, piece.rise))
            for bound in piece.bounds:
                there = eval(certificate.bound_formula("BASE", "RISE", "Y"), dict(BASE=base, RISE=rise, Y=bound.split))
                self.assertEqual(there, bound.bound)
                formula = certificate.shown_formula("BOUND", "ENTRY", "TOTAL", "Y", "GIVEN", piece.none)
                self.assertTrue(eval(formula, dict(BOUND=there, ENTRY=bound.entry, TOTAL=cert["total"], Y=bound.split, GIVEN=cert["split"])))

    @unittest.skipUnless(shutil.which("ssconvert"), "needs Gnumeric (Debian: gnumeric)")
    def test_in_a_spreadsheet(self):
        """Gnumeric reckons the formulas of a workbook: base, rise, bound and whether it shows the split, for the first split of each piece."""
        try:
            import openpyxl
        except ImportError:
            self.skipTest("needs openpyxl (Debian: python3-openpyxl)")
        book, draw, expected = openpyxl.Workbook(), random.Random(77), []
        book.active.append(["a case, a set of prices, and what is to be shown"])
        for _ in range(60):
            cert = made_of(random_case(draw))
            for piece in certificate.why(cert).pieces if cert["plan"] else []:
                expected.append((book.active.max_row + len(cert["case"]["supplies"]) + 5, piece))
                self.laid_out(book.active, cert, piece)
        with tempfile.TemporaryDirectory() as folder:
            path, values = os.path.join(folder, "book.xlsx"), os.path.join(folder, "book.csv")
            book.save(path)
            subprocess.run(["ssconvert", "--recalc", path, values], check=True, capture_output=True)
            with open(values, encoding="utf-8", newline="") as file:
                rows = list(csv.reader(file))
        for row, piece in expected:
            base, rise, bound, shown = rows[row - 1][:4]
            self.assertEqual([int(base), int(rise), int(bound), shown], [piece.base, piece.rise, piece.bounds[0].bound, "TRUE"])

    def laid_out(self, sheet, cert, piece):
        """A case and a set of prices below what the sheet has, then a row of formulas."""
        case, top = cert["case"], sheet.max_row + 1
        m, n = len(case["supplies"]), len(case["demands"])

        def cell(row, column):
            return f"${openpyxl_letter(column + 1)}${top + row}"

        for i in range(m):
            sheet.append(case["costs"][i] + case["ceilings"][i] + [piece.sources[i], case["supplies"][i]])
        sheet.append(case["demands"])
        sheet.append(piece.terminals)
        sheet.append([sum(case["demands"]) - sum(case["supplies"][2:]), piece.first, piece.bounds[0].entry, cert["total"], cert["split"]])
        sheet.append(["base", "rise", "bound", "shown"])
        made, split, entry, total, given = (cell(m + 2, k) for k in range(5))
        depots = [f"{cell(2, 2 * n + k)}:{cell(m - 1, 2 * n + k)}" if m > 2 else "" for k in (0, 1)]
        cells = certificate.Cells(
            f"{cell(0, 0)}:{cell(m - 1, n - 1)}", f"{cell(0, n)}:{cell(m - 1, 2 * n - 1)}", f"{cell(m, 0)}:{cell(m, n - 1)}", depots[1], made,
            cell(0, 2 * n), cell(1, 2 * n), f"{cell(0, 2 * n)}:{cell(m - 1, 2 * n)}", depots[0], f"{cell(m + 1, 0)}:{cell(m + 1, n - 1)}",
        )  # fmt: skip
        base, rise, bound = (cell(m + 4, k) for k in range(3))
        formulas = [certificate.base_formula(cells, piece.none), certificate.rise_formula(cells), certificate.bound_formula(base, rise, split)]
        sheet.append(["=" + formula for formula in formulas + [certificate.shown_formula(bound, entry, total, split, given, piece.none)]])


def openpyxl_letter(column):
    from openpyxl.utils import get_column_letter

    return get_column_letter(column)


if __name__ == "__main__":
    unittest.main()
