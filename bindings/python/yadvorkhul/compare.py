"""Two cases beside each other: what differs in the numbers given, in the plans, and lane by lane."""

import os
import re
from itertools import zip_longest
from typing import Any, Dict, List, NamedTuple, Optional, Tuple, Union

from . import MOST_AMOUNT, Case, Plan, Refusal, Role
from .cases import read_case as read_json
from .files import PRODUCTION, TARIFF, open_file, read_case
from .forms import fingerprint, plan_fingerprint
from .refusals import explain


class CannotCompare(ValueError):
    """What was named is no case, in a sentence."""


class Side(NamedTuple):
    name: str  # as it was given
    case: Case
    plan: Optional[Plan]
    refused: str  # the sentence of a refusal; empty where there is a plan


class Row(NamedTuple):
    """A number or a text of each."""

    name: str
    one: Union[int, str, None]
    other: Union[int, str, None]

    @property
    def more(self) -> Optional[int]:
        return self.other - self.one if isinstance(self.one, int) and isinstance(self.other, int) else None


class Compared(NamedTuple):
    sides: Tuple[Side, Side]
    results: List[Row]
    inputs: List[Row]  # that differ
    lanes: List[Row]  # that carry another amount
    alike: bool  # as many sources and terminals: only then numbers are compared one by one
    by_name: List[str]  # what stands in another order in B, and is matched by its names: sources, terminals
    prints: List[Tuple[str, str, str]]  # fingerprints


# what is named -----------------------------------------------------------------------------------------------------------------------


def _of_journal(path: str, mark: int) -> Case:
    """The working case of a served journal as it is, or as a mark holds it. The journal is only read."""
    from .serve.history import folded
    from .serve.journal import JournalError, _read
    from .serve.shared import replayed

    try:
        with open(path, "rb") as stream:
            records, _, _ = _read(path, stream.read())
        history = folded(records)
        work = replayed(history)
        if mark:
            work.go_back(Role.PLANNER, mark)
    except JournalError as error:
        raise CannotCompare(str(error)) from error
    except Refusal as refusal:
        raise CannotCompare(f"{path} has no mark {mark}: {refusal}") from refusal
    entered, _ = history.since_entry()
    tariff = work.see_tariff(Role.PLANNER)
    about = {name: entered.get(name) or "" for name in ("title", "currency", "date")}
    names = {name: entered.get(name) for name in ("sources", "terminals")}
    return Case(*tariff, work.see_table(Role.PLANNER), tuple(entered["runs"]), entered["ceilings"], **about, **names)


def _of_files(tariff: str, production: str) -> Case:
    files = open_file(TARIFF, tariff), open_file(PRODUCTION, production)
    try:
        return read_case(*files)
    except Refusal as refusal:
        found = explain(refusal, None, *files)
        cause = f" Here stands {found.spot.cause}." if found.spot and found.spot.cause else ""
        raise CannotCompare(f"Refusal {refusal.number}: {found.sentence}{cause}") from refusal


def case_named(text: str) -> Case:
    """A JSON case, a workbook, a folder, two files joined by +, or a served journal, with @ and a mark where one is meant."""
    journal, at, mark = text.rpartition("@")
    if at and re.fullmatch("[0-9]", mark) and os.path.isfile(journal):
        return _of_journal(journal, int(mark))
    if os.path.isdir(text):
        return _of_files(os.path.join(text, "tariff.csv"), os.path.join(text, "production.csv"))
    if not os.path.exists(text) and "+" in text:
        return _of_files(*text.split("+", 1))
    if text.lower().endswith(".xlsx"):
        from .imports import import_book

        return import_book(text).case
    if text.endswith(".journal"):
        return _of_journal(text, 0)
    return read_json(text)


def side(name: str, case: Case) -> Side:
    """A case with its plan, or with the sentence of its refusal."""
    try:
        return Side(name, case, case.plan(), "")
    except Refusal as refusal:
        return Side(name, case, None, f"refusal {refusal.number}: {explain(refusal, case).sentence}")


# what differs ------------------------------------------------------------------------------------------------------------------------


def _named(names, k: int, default: str) -> str:
    return names[k] if names and k < len(names) and names[k] else f"{default} {k + 1}"


def source_name(case: Case, i: int) -> str:
    return _named(case.sources, i, "Plant" if i < 2 else "Depot")


def terminal_name(case: Case, j: int) -> str:
    return _named(case.terminals, j, "Terminal")


def _lane(case: Case, i: int, j: int) -> str:
    return f"{source_name(case, i)} to {terminal_name(case, j)}"


def _numbers(case: Case) -> Dict[Any, Tuple[str, int]]:
    """Every number of a case with its name, by its place."""
    found: Dict[Any, Tuple[str, int]] = {}
    for i, supply in enumerate(case.supplies):
        found["supply", i] = f"supply of {source_name(case, i)}", supply
    for j, demand in enumerate(case.demands):
        found["demand", j] = f"demand of {terminal_name(case, j)}", demand
    for k, run in enumerate(case.runs):
        found["run", k] = f"least run of {source_name(case, k)}", run
    for i, row in enumerate(case.costs):
        for j, cost in enumerate(row):
            found["cost", i, j] = f"unit cost {_lane(case, i, j)}", cost
            ceiling = case.ceilings[i][j] if case.ceilings else MOST_AMOUNT
            found["ceiling", i, j] = f"ceiling {_lane(case, i, j)}", min(ceiling, MOST_AMOUNT)
    for y, entry in enumerate(case.table):
        found["entry", y] = f"entry {y:,}", entry
    return found


def _differing(one: Dict, other: Dict) -> List[Row]:
    found = []
    for key in list(one) + [key for key in other if key not in one]:
        name = (one.get(key) or other.get(key))[0]
        first, second = (side[key][1] if key in side else None for side in (one, other))
        if first != second:
            found.append(Row(name, first, second))
    return found


# names ---------------------------------------------------------------------------------------------------------------------------------


def _order(ours: Optional[List[str]], theirs: Optional[List[str]], count: int, fixed: int = 0) -> List[int]:
    """Where each of our names stands among theirs; as they are where the two do not have the same names, each once, the fixed ones first."""
    ours, theirs = list(ours or []), list(theirs or [])
    known = len(ours) == len(theirs) == len(set(ours)) == count and "" not in ours
    if not known or set(ours) != set(theirs) or ours[:fixed] != theirs[:fixed]:
        return list(range(count))
    return [theirs.index(name) for name in ours]


def _whole(case: Case) -> bool:
    """Whether costs and ceilings have a number for each lane; a refused case may lack some."""
    m, n = len(case.supplies), len(case.demands)
    return all(len(rows) == m and all(len(row) == n for row in rows) for rows in (case.costs, case.ceilings) if rows is not None)


def _ordered(side: Side, sources: List[int], terminals: List[int]) -> Side:
    """The same case and plan with sources and terminals in this order. The plants, and so the splits, stay."""
    pick = lambda rows: [[rows[i][j] for j in terminals] for i in sources]
    case = side.case
    case = case._replace(
        costs=pick(case.costs),
        supplies=[case.supplies[i] for i in sources],
        demands=[case.demands[j] for j in terminals],
        ceilings=pick(case.ceilings) if case.ceilings else None,
        sources=case.sources and [case.sources[i] if i < len(case.sources) else "" for i in sources],
        terminals=case.terminals and [case.terminals[j] if j < len(case.terminals) else "" for j in terminals],
    )
    return side._replace(case=case, plan=side.plan and side.plan._replace(amounts=pick(side.plan.amounts)))


def _both(ours: Optional[List[str]], theirs: Optional[List[str]]) -> List[str]:
    """A name for each place: that of the one that has one, or both where they differ."""
    pairs = zip_longest(ours or [], theirs or [], fillvalue="")
    return [a if a == b or not b else b if not a else f"{a} / {b}" for a, b in pairs]


def _texts(one: Case, other: Case, terminals: bool) -> List[Row]:
    """Title, currency and date that differ, and names that stand at one place and differ; of cases that are not alike, those of the plants."""
    rows = [Row(field, getattr(one, field) or None, getattr(other, field) or None) for field in ("title", "currency", "date")]
    sources = list(zip(one.sources or [], other.sources or []))
    rows += [Row(f"name of {'plant' if i < 2 else 'depot'} {i + 1}", a, b) for i, (a, b) in enumerate(sources if terminals else sources[:2]) if a and b]
    if terminals:
        rows += [Row(f"name of terminal {j}", a, b) for j, (a, b) in enumerate(zip(one.terminals or [], other.terminals or []), 1) if a and b]
    return [row for row in rows if row.one != row.other]


# the whole -----------------------------------------------------------------------------------------------------------------------------


def _results(one: Side, other: Side) -> List[Row]:
    def told(side: Side):
        if side.plan is None:
            return [None] * 5
        made = sum(side.case.demands) - sum(side.case.supplies[2:])
        return [side.plan.split, made - side.plan.split, side.case.table[side.plan.split], side.plan.freight, side.plan.total]

    names = [f"{source_name(one.case, 0)} makes", f"{source_name(one.case, 1)} makes", "production", "freight", "total"]
    return [Row(*row) for row in zip(names, told(one), told(other))]


def _lanes(one: Side, other: Side) -> List[Row]:
    if one.plan is None or other.plan is None:
        return []
    amounts = lambda side: {(i, j): (_lane(one.case, i, j), x) for i, row in enumerate(side.plan.amounts) for j, x in enumerate(row)}
    return _differing(amounts(one), amounts(other))


def _matched(one: Side, other: Side) -> Tuple[Side, List[str]]:
    """The other in the order of the first, where the same names stand in another order, and what was so matched."""
    if not (_whole(one.case) and _whole(other.case)):
        return other, []
    sources = _order(one.case.sources, other.case.sources, len(other.case.supplies), 2)
    terminals = _order(one.case.terminals, other.case.terminals, len(other.case.demands))
    moved = [name for name, order in (("sources", sources), ("terminals", terminals)) if order != sorted(order)]
    return (_ordered(other, sources, terminals) if moved else other), moved


def compare(one: Side, other: Side) -> Compared:
    """What differs between two cases and their plans. Numbers are matched by name where both have the same names, else by place."""
    size = lambda side: (len(side.case.supplies), len(side.case.demands))
    alike = size(one) == size(other)
    prints = [("the case", fingerprint(one.case), fingerprint(other.case))]
    planned = [plan_fingerprint(side.case, side.plan) if side.plan else "" for side in (one, other)]
    prints.append(("the plan", planned[0], planned[1]))
    other, moved = _matched(one, other) if alike else (other, [])
    inputs = _texts(one.case, other.case, alike)
    named = {field: _both(getattr(one.case, field), getattr(other.case, field)) for field in ("sources", "terminals")}
    one, other = (side._replace(case=side.case._replace(**named)) for side in (one, other))
    if alike:
        inputs += _differing(_numbers(one.case), _numbers(other.case))
    else:
        inputs += [Row(name, a, b) for name, a, b in zip(("sources", "terminals"), size(one), size(other)) if a != b]
    return Compared((one, other), _results(one, other), inputs, _lanes(one, other) if alike else [], alike, moved, prints)


def by_name(found: Compared) -> str:
    """Says what was matched by name; nothing where all stands in one order."""
    what = " and ".join(found.by_name)
    return f"The {what} stand in another order in B: numbers are matched by name; fingerprints go by the order." if what else ""


def as_json(found: Compared) -> Dict:
    """The same for JSON."""
    row = lambda one: {"name": one.name, "a": one.one, "b": one.other}
    sides = [{"name": side.name, "refused": side.refused or None} for side in found.sides]
    for (what, *both) in found.prints:
        for told, print_ in zip(sides, both):
            told[what.replace("the ", "") + "_fingerprint"] = print_ or None
    parts = {name: [row(one) for one in getattr(found, name)] for name in ("results", "inputs", "lanes")}
    return {"a": sides[0], "b": sides[1], "alike": found.alike, "matched_by_name": found.by_name, **parts}
