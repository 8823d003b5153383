"""A working case with marks, and roles.

    >>> from yadvorkhul import Role, WorkingCase
    >>> work = WorkingCase(costs=[[2, 6], [5, 3], [1, 4]], supplies=[3, 3, 1], demands=[3, 2], table=[99, 20, 24, 20])
    >>> work.mark(Role.PLANNER, 3)
    >>> work.edit_demand(Role.DEPOT, 2, 3)
    >>> work.plan(Role.PLANNER).total
    36
    >>> work.go_back(Role.PLANNER, 3)
    >>> work.plan(Role.PLANNER).total
    33
    >>> work.see_tariff(Role.READER).demands
    [3, 2]
    >>> work.marks(Role.PLANNER), work.plan_mark(Role.PLANNER, 3).total
    ([3], 33)
    >>> work.see_limits(Role.PLANNER).runs
    [0, 0]
    >>> work.see_table(Role.DEPOT)
    Traceback (most recent call last):
    yadvorkhul.Refusal: refusal 31: the role may not do this

Sources, terminals and marks are counted from 1, entries from 0.

Threads may share a working case: each call has a report of its own and is alone on the object while it runs. What several calls do
together, such as an edit and the plan after it, is for the caller to guard.
"""

import ctypes
import enum
import threading
import weakref
from typing import List, NamedTuple, Optional, SupportsIndex

from . import MOST_SPLITS, REPORT_CELLS, WORTH_CELLS
from . import Numbers, Plan, Refusal, Rows, _cells, _entered, _library, _number, _parts, _READ, _rows

_CELL, _SIGNED, _SIZE = ctypes.c_uint64, ctypes.c_int64, ctypes.c_size_t

MOST_MARKS = 8  # marks are numbered from 1 up to this


class Role(enum.IntEnum):
    """Who calls."""

    PLANNER = 1  # may do all
    PLANT = 2  # may edit entries, see the tariff and the table
    DEPOT = 3  # may edit demands and supplies, the first supply aside, and see the tariff
    READER = 4  # may see the tariff


class Tariff(NamedTuple):
    """What a working case's tariff is now."""

    costs: List[List[int]]  # a row for each source
    supplies: List[int]
    demands: List[int]


class Limits(NamedTuple):
    """What no edit alters: with tariff and table all of a case."""

    runs: List[int]  # the least runs of plants 1 and 2
    ceilings: List[List[int]]  # a row for each source


def _function(name, numbers, slices):
    """A function of the archive: its numbers, then its slices, each a pointer and then a length. None where the archive lacks it."""
    function = getattr(_library, "yadvorkhul_" + name, None)
    if function is not None:
        function.argtypes = list(numbers) + [part for kind in slices for part in (ctypes.POINTER(kind), _SIZE)]
        function.restype = _CELL
    return function


_store_cells = _function("store_cells", [_SIZE] * 2, [])
_enter = _function("enter", [_SIZE] * 2 + [_CELL] * 2, _READ + [_CELL] * 2)
_CALLS = {
    "edit_demand": [_SIZE, _SIZE, _CELL],
    "edit_supply": [_SIZE, _SIZE, _CELL],
    "edit_cost": [_SIZE, _SIZE, _SIZE, _SIGNED],
    "edit_entry": [_SIZE, _SIZE, _CELL],
    "set_mark": [_SIZE, _SIZE],
    "go_back": [_SIZE, _SIZE],
}
_calls = {name: _function(name, numbers, [_CELL] * 2) for name, numbers in _CALLS.items()}
_plan_case = _function("plan_case", [_SIZE], [_CELL, _CELL, _CELL, _SIGNED, _CELL, _SIGNED])
_see_tariff = _function("see_tariff", [_SIZE], [_CELL, _SIGNED, _CELL, _CELL, _CELL])
_see_table = _function("see_table", [_SIZE], [_CELL, _CELL, _CELL])
_see_limits = _function("see_limits", [_SIZE], [_CELL, _CELL, _CELL, _CELL])
_marks_set = _function("marks_set", [_SIZE], [_CELL, _CELL, _CELL])
_plan_mark = _function("plan_mark", [_SIZE] * 2, [_CELL, _CELL, _CELL, _SIGNED, _CELL, _SIGNED])


def _report():
    """A report of its own for each call: what one call is told must not reach another thread."""
    return (_CELL * REPORT_CELLS)()


def store_cells(m: SupportsIndex, n: SupportsIndex) -> int:
    """How many cells a store for m sources and n terminals must have; 0 where no case has that size."""
    return _store_cells(_number(_CELL, m), _number(_CELL, n))


def _clear(store):
    """Empties a store: it holds every entry."""
    ctypes.memset(store, 0, ctypes.sizeof(store))


class WorkingCase:
    """A working case that takes edits, marks and returns. It owns its store; a role, a `Role` or its number, is handed to every call. That
    it is the role of the person who asks is for the caller to see to. A call that is refused raises a `Refusal` and changes nothing.

    `close`, the end of a `with`, and the object's own end clear the store. A closed case is refused by 11. A copy has a store of its own."""

    def __init__(
        self, costs: Rows, supplies: Numbers, demands: Numbers, table: Numbers, runs: Numbers = (0, 0), ceilings: Optional[Rows] = None
    ):
        """Enters a case, the parameters as for `plan`: refused by the tests 1 to 6, with 23 and 26. Balance and entries are judged when it
        is planned. No mark is set."""
        numbers, read, _ = _entered(costs, supplies, demands, runs, ceilings)
        read.append(_cells(_CELL, table))
        m, n = numbers[:2]
        self._own(m, n, store_cells(m, n))
        self._alone(_enter, (*numbers, *_parts(read)), report=_report())

    def _own(self, m: int, n: int, length: int):
        """Takes a store, which is cleared when the object ends."""
        self._m, self._n, self._length = m, n, length
        self._store = (_CELL * (length + 1))()
        self._lock = threading.RLock()
        weakref.finalize(self, _clear, self._store)

    def __repr__(self) -> str:
        """No cell: the store holds every entry."""
        return f"WorkingCase of {self._m} sources and {self._n} terminals"

    def __copy__(self) -> "WorkingCase":
        """A working case as this one is now, marks too, with a store of its own."""
        other = object.__new__(type(self))
        other._own(self._m, self._n, self._length)
        with self._lock:
            ctypes.memmove(other._store, self._store, ctypes.sizeof(self._store))
        return other

    def __deepcopy__(self, memo) -> "WorkingCase":
        return self.__copy__()

    def __reduce_ex__(self, protocol):
        raise TypeError("a working case is not pickled: its store holds every entry")

    def __enter__(self) -> "WorkingCase":
        return self

    def __exit__(self, *error) -> None:
        self.close()

    def close(self) -> None:
        """Clears the store. The case is gone; every later call is refused by 11."""
        with self._lock:
            _clear(self._store)

    def _alone(self, function, numbers, *lent, report):
        """Makes one call, alone on the object: its numbers, the store, lent arrays. `report` is one of these, or the last."""
        lent = lent if any(cells is report for cells in lent) else lent + (report,)
        parts = [part for cells in lent for part in (cells, len(cells))]
        with self._lock:
            number = function(*numbers, self._store, self._length, *parts)
        if number != 0:
            raise Refusal(number, report[0])

    def _call(self, name: str, *numbers: SupportsIndex):
        whole = [_number(kind if kind is _SIGNED else _CELL, number) for kind, number in zip(_CALLS[name], numbers)]
        self._alone(_calls[name], whole, report=_report())

    def edit_demand(self, role: SupportsIndex, terminal: SupportsIndex, value: SupportsIndex) -> None:
        """Alters the demand of a terminal."""
        self._call("edit_demand", role, terminal, value)

    def edit_supply(self, role: SupportsIndex, source: SupportsIndex, value: SupportsIndex) -> None:
        """Alters the supply of a source. Another first supply lengthens the table with zeros, or cuts it."""
        self._call("edit_supply", role, source, value)

    def edit_cost(self, role: SupportsIndex, source: SupportsIndex, terminal: SupportsIndex, value: SupportsIndex) -> None:
        """Alters the unit cost of the lane from a source to a terminal."""
        self._call("edit_cost", role, source, terminal, value)

    def edit_entry(self, role: SupportsIndex, split: SupportsIndex, value: SupportsIndex) -> None:
        """Alters the entry at a split. It may be any number."""
        self._call("edit_entry", role, split, value)

    def mark(self, role: SupportsIndex, mark: SupportsIndex) -> None:
        """Sets a mark, 1 to 8: it holds the whole case as it is now."""
        self._call("set_mark", role, mark)

    def go_back(self, role: SupportsIndex, mark: SupportsIndex) -> None:
        """Makes the case what it was when the mark was last set; all marks keep theirs."""
        self._call("go_back", role, mark)

    def _lent(self, function, role: SupportsIndex, *lent, report):
        """Calls a function that reads the store, on lent arrays."""
        self._alone(function, (_number(_CELL, role),), *lent, report=report)

    def _planned(self, function, *numbers: SupportsIndex) -> Plan:
        """Calls a function that plans from the store."""
        amounts, splits, freights = (_CELL * (self._m * self._n))(), (_CELL * MOST_SPLITS)(), (_SIGNED * MOST_SPLITS)()
        report, worth = _report(), (_SIGNED * WORTH_CELLS)()
        whole = [_number(_CELL, number) for number in numbers]
        self._alone(function, whole, amounts, splits, freights, report, worth, report=report)
        (split, count), (total, freight) = report, worth
        return Plan(split, total, freight, _rows(amounts, self._m, self._n), list(zip(splits[:count], freights[:count])))

    def plan(self, role: SupportsIndex) -> Plan:
        """The plan of the case as it is now: what a case entered afresh would get."""
        return self._planned(_plan_case, role)

    def plan_mark(self, role: SupportsIndex, mark: SupportsIndex) -> Plan:
        """The plan of the case that a mark holds, without going back. Refused as going back is. The planner's alone."""
        return self._planned(_plan_mark, role, mark)

    def marks(self, role: SupportsIndex) -> List[int]:
        """The marks that are set. The planner's alone."""
        flags = (_CELL * MOST_MARKS)()
        self._lent(_marks_set, role, flags, report=_report())
        return [mark for mark, flag in enumerate(flags, 1) if flag]

    def see_limits(self, role: SupportsIndex) -> Limits:
        """Least runs and ceilings. The planner's alone."""
        runs, ceilings = (_CELL * 2)(), (_CELL * (self._m * self._n))()
        self._lent(_see_limits, role, runs, ceilings, report=_report())
        return Limits(list(runs), _rows(ceilings, self._m, self._n))

    def see_tariff(self, role: SupportsIndex) -> Tariff:
        """Unit costs, supplies and demands as they are now."""
        costs, supplies, demands = (_SIGNED * (self._m * self._n))(), (_CELL * self._m)(), (_CELL * self._n)()
        self._lent(_see_tariff, role, costs, supplies, demands, report=_report())
        return Tariff(_rows(costs, self._m, self._n), list(supplies), list(demands))

    def see_table(self, role: SupportsIndex) -> List[int]:
        """The entries as they are now, one more than the first supply."""
        table = (_CELL * MOST_SPLITS)()
        with self._lock:
            self._lent(_see_table, role, table, report=_report())
            # whoever may see the table may see the tariff, which has the table's length
            return table[: self.see_tariff(role).supplies[0] + 1]
