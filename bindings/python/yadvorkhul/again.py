"""Planning a case again and again with single numbers changed, by the proved function: what one drum more would change, and many scenarios.

    >>> from yadvorkhul import Case
    >>> again = Again(Case([[2, 6], [5, 3], [1, 4]], [3, 3, 1], [3, 2], [99, 20, 24, 20]))
    >>> again.totals([]), again.totals(again.changes("demand 2 = 3"))
    ((0, 3, 33), (0, 3, 36))
"""

import ctypes
import re
from typing import Dict, List, NamedTuple, Optional, Sequence, Tuple

from . import MOST_AMOUNT, MOST_SPLITS, REPORT_CELLS, WORTH_CELLS, Case, Plan, Refusal, _cells, _entered, _parts, _plan, _rows, _RANGES

Change = Tuple[int, int, int]  # which slice, which cell of it, the number that stands there

COSTS, SUPPLIES, DEMANDS, CEILINGS, TABLE, RUNS = range(6)
WORDS = {"cost": (COSTS, 2), "supply": (SUPPLIES, 1), "demand": (DEMANDS, 1), "ceiling": (CEILINGS, 2), "entry": (TABLE, 1), "run": (RUNS, 1)}
_CHANGE = re.compile(r"\s*(cost|supply|demand|ceiling|entry|run)\s+([0-9]{1,4})(?:\s+([0-9]{1,4}))?\s*=\s*(0|-?[1-9][0-9]{0,18})\s*")


class NotAChange(ValueError):
    """A change that names no number of the case, in a sentence."""


class Again:
    """A case in arrays of its own, lent to the planner at each call. One object is for one thread."""

    def __init__(self, case: Case):
        ceilings = case.ceilings
        if ceilings is None:
            ceilings = [[MOST_AMOUNT] * len(case.demands) for _ in case.supplies]
        numbers, read, lanes = _entered(case.costs, case.supplies, case.demands, case.runs, ceilings)
        self.m, self.n, first, second = numbers
        read.append(_cells(ctypes.c_uint64, case.table))
        self._runs = [first, second]
        self._slices = [cells for cells, _ in read] + [self._runs]
        self._lengths = [length for _, length in read] + [2]
        self._plan = (ctypes.c_uint64 * max(1, lanes))()
        self._splits, self._freights = (ctypes.c_uint64 * MOST_SPLITS)(), (ctypes.c_int64 * MOST_SPLITS)()
        self._report, self._worth = (ctypes.c_uint64 * REPORT_CELLS)(), (ctypes.c_int64 * WORTH_CELLS)()
        written = [(self._plan, lanes), (self._splits, MOST_SPLITS), (self._freights, MOST_SPLITS)]
        written += [(self._report, REPORT_CELLS), (self._worth, WORTH_CELLS)]
        # pointers and lengths as C has them, made once: turning them at each call would cost more than a small plan
        self._fixed = [ctypes.cast(part, ctypes.POINTER(part._type_)) if isinstance(part, ctypes.Array) else ctypes.c_size_t(part) for part in _parts(read + written)]
        self._size = ctypes.c_size_t(self.m), ctypes.c_size_t(self.n)
        self.one = re.compile(_CHANGE)

    # what is changed -----------------------------------------------------------------------------------------------------------------

    def place(self, kind: str, first: int, second: Optional[int]) -> Tuple[int, int]:
        """The cell of a number by its name: sources, terminals and plants are counted from 1, entries from 0."""
        which, count = WORDS[kind]
        if (second is not None) != (count == 2):
            raise NotAChange(f"{kind} has {'a source and a terminal' if count == 2 else 'one number'} before the sign =")
        if count == 2:
            if not (1 <= first <= self.m and 1 <= second <= self.n):
                raise NotAChange(f"there is no lane from source {first} to terminal {second}; there are {self.m} and {self.n}")
            cell = (first - 1) * self.n + second - 1
        else:
            cell = first if kind == "entry" else first - 1
        if not 0 <= cell < self._lengths[which]:
            raise NotAChange(f"there is no {kind} {first}; the case has {self._lengths[which]}{' from 0 on' if kind == 'entry' else ''}")
        return which, cell

    def changes(self, text: str) -> List[Change]:
        """The changes of a line such as "demand 3 = 120, cost 2 5 = -4"; nothing for an empty line."""
        found = []
        for part in text.split(",") if text.strip() else []:
            match = _CHANGE.fullmatch(part)
            if not match:
                raise NotAChange(f"{part.strip()[:60]!r} is no change; write for instance: demand 3 = 120")
            kind, first, second, number = match.groups()
            which, cell = self.place(kind, int(first), None if second is None else int(second))
            value = int(number)
            low, high = _RANGES[ctypes.c_int64 if which == COSTS else ctypes.c_uint64]
            if not low <= value < high:
                raise NotAChange(f"{part.strip()[:60]!r}: {'the number does not fit a cell' if value > 0 else 'only a cost may be below 0'}")
            found.append((which, cell, value))
        return found

    # planning ------------------------------------------------------------------------------------------------------------------------

    def _called(self) -> int:
        first, second = self._runs
        return _plan(*self._size, first, second, *self._fixed)

    def totals(self, changes: Sequence[Change]) -> Tuple[int, int, int]:
        """The case with these changes: 0, split and total; or the refusal's number, its place and 0. Then all is as it was."""
        slices, before = self._slices, []
        for which, cell, value in changes:
            cells = slices[which]
            before.append((cells, cell, cells[cell]))
            cells[cell] = value
        number = self._called()
        for cells, cell, value in reversed(before):
            cells[cell] = value
        return (number, self._report[0], 0) if number else (0, self._report[0], self._worth[0])

    def plan(self, changes: Sequence[Change]) -> Plan:
        """The whole plan with these changes, or a `Refusal`."""
        number, place, total = self.totals(changes)
        if number:
            raise Refusal(number, place)
        count = self._report[1]
        stops = list(zip(self._splits[:count], self._freights[:count]))
        return Plan(place, total, self._worth[1], _rows(self._plan, self.m, self.n), stops)


# one drum more ---------------------------------------------------------------------------------------------------------------------


class Drum(NamedTuple):
    """What one drum more (of a least run: less) would change."""

    kind: str  # "ceiling", "demand", "supply", "stock" or "run"
    source: int  # from 1; 0 where none is meant
    terminal: int
    now: int  # the number as it is
    asked: int  # the number that was planned with
    change: Optional[int]  # of the total; None where there is no plan
    refusal: int  # the refusal's number then, else 0
    split: Optional[int]  # what plant 1 would make
    below: Optional[int] = None  # plant 1 alone: its entry for one drum more would have to be below this to be worth anything


def _drum(again: Again, total: int, kind: str, source: int, terminal: int, now: int, change: Change) -> Drum:
    number, split, new = again.totals([change])
    asked = change[2]
    return Drum(kind, source, terminal, now, asked, None if number else new - total, number, None if number else split)


def _plant_1(case: Case, total: int) -> Drum:
    """The table has no entry for one drum more: what it may be at most is what is told. The freight there is planned, not guessed."""
    now = case.supplies[0]
    forced = case._replace(supplies=[now + 1] + list(case.supplies[1:]), table=list(case.table) + [0], runs=(now + 1, case.runs[1]))
    try:
        freight = forced.plan().freight
    except Refusal as refusal:
        return Drum("supply", 1, 0, now, now + 1, None, refusal.number, None)
    return Drum("supply", 1, 0, now, now + 1, None, 0, None, total - freight)


def _lanes(case: Case, plan: Plan):
    """The lanes that carry as much as they may."""
    for i, row in enumerate(case.ceilings or []):
        for j, ceiling in enumerate(row):
            if plan.amounts[i][j] == ceiling < MOST_AMOUNT:
                yield i, j, ceiling


def one_more(case: Case, plan: Optional[Plan] = None) -> List[Drum]:
    """Each full or closed lane, terminal, depot, plant and least run with one drum more (a run: less), planned again by the proved function,
    exact for that one drum. A case that has no plan is a `Refusal`."""
    plan = plan or case.plan()
    again, n, total = Again(case), len(case.demands), plan.total
    found = [_drum(again, total, "ceiling", i + 1, j + 1, now, (CEILINGS, i * n + j, now + 1)) for i, j, now in _lanes(case, plan)]
    found += [_drum(again, total, "demand", 0, j + 1, now, (DEMANDS, j, now + 1)) for j, now in enumerate(case.demands)]
    found.append(_plant_1(case, total))
    for i, now in enumerate(case.supplies[1:], 2):
        found.append(_drum(again, total, "supply" if i == 2 else "stock", i, 0, now, (SUPPLIES, i - 1, now + 1)))
    found += [_drum(again, total, "run", k + 1, 0, run, (RUNS, k, run - 1)) for k, run in enumerate(case.runs) if run]
    return found


def as_json(drums: List[Drum]) -> List[Dict]:
    """The same for JSON, as the app sends it."""
    return [drum._asdict() for drum in drums]
