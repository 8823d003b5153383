"""The proved two-plant production and freight planner, for Python.

    >>> from yadvorkhul import Role, WorkingCase, bounds, flow, plan, rates
    >>> p = plan(costs=[[2, 6], [5, 3], [1, 4]], supplies=[3, 3, 1], demands=[3, 2], table=[99, 20, 24, 20])
    >>> p.split, p.total, p.freight
    (3, 33, 13)
    >>> p.amounts
    [[3, 0], [0, 1], [0, 1]]
    >>> p.stops
    [(1, 14), (2, 11), (3, 13)]

A unit cost below 0 is a rebate; freights and totals are signed too. A plant may have a least run, which every plan makes, and
a lane a ceiling, which no plan passes:

    >>> p = plan([[2, 6], [5, 3], [1, 4]], [3, 3, 1], [3, 2], [99, 20, 24, 20], runs=(2, 2))
    >>> p.split, p.total
    (2, 35)
    >>> p = plan([[2, 6], [5, 3], [1, 4]], [3, 3, 1], [3, 2], [99, 20, 24, 20], ceilings=[[1, 9], [9, 9], [9, 9]])
    >>> p.split, p.total
    (1, 34)

A case that fails a test is refused by an exception that has the number and the place:

    >>> plan(costs=[[2, 6], [5, 3], [1, 4]], supplies=[3, 3, 6], demands=[3, 2], table=[99, 20, 24, 20])
    Traceback (most recent call last):
    yadvorkhul.Refusal: refusal 7: the terminals take less than the depots hold and the least runs make

A house without a production table starts from the square-root rates, one for each output of plant 1 up to its supply:

    >>> rates(3)
    [0, 100, 141, 173]

Where each production entry is known between a low and a high one only, `bounds` tells which splits can be the cheapest:

    >>> b = bounds([[2, 6], [5, 3], [1, 4]], [3, 3, 1], [3, 2], low=[99, 20, 24, 20], high=[99, 20, 24, 21])
    >>> b.first, b.possible, b.smallest, b.largest
    (1, [True, False, True], 33, 34)

A `WorkingCase` takes edits, marks and returns, each with the `Role` of who asks, and is planned as it is then (see `yadvorkhul.work`):

    >>> work = WorkingCase([[2, 6], [5, 3], [1, 4]], [3, 3, 1], [3, 2], [99, 20, 24, 20])
    >>> work.edit_demand(Role.DEPOT, 2, 3)
    >>> work.plan(Role.PLANNER).total
    36

A network in DIMACS form, one of whose arcs has a table of costs, is planned by `flow`:

    >>> found = flow(b"p min 2 2\\nn 1 3\\nn 2 -3\\na 1 2 0 2 5\\na 1 2 0 3 1\\n", place=2, table=[0, 4, 6, 20])
    >>> found.total, [(arc.start, arc.end, arc.flow) for arc in found.arcs]
    (11, [(1, 2, 1), (1, 2, 2)])

`page(case)` gives a page for a browser and for paper, `python3 -m yadvorkhul --help` shows the same functions as a command.

The shared object is made from the proved archive by `bindings/python/build`. `tools/check-declarations` compares the declarations
here with the Rattle source.

Threads may call all of this: the functions keep no state, and each call lends arrays of its own.
"""

import array
import ctypes
import itertools
import operator
from typing import Any, Iterable, List, Mapping, MutableSequence, NamedTuple, Optional, SupportsIndex, Tuple, Union

from .archive import load

__all__ = ["bounds", "bounds_into", "plan", "plan_into", "rates", "rates_into", "Bounds", "Plan", "Refusal", "SHORT_REPORT"]
__all__ += ["Case", "page", "offers", "version", "__version__"]
__all__ += ["Limits", "Role", "Tariff", "WorkingCase"]
__all__ += ["flow", "flow_into", "Arc", "Flow", "FlowRefusal"]
__all__ += ["File", "FileRefusal", "Printed", "bounds_files", "flow_files", "plan_files", "read_table", "tidy_files", "write_case"]

__version__ = "1.0.0"  # of the package; `version` asks the archive

MOST_SOURCES = 32
MOST_TERMINALS = 64
MOST_AMOUNT = 4000
MOST_SPLITS = 4001
REPORT_CELLS = 2
WORTH_CELLS = 2
SHORT_REPORT = 34

_MEANINGS = {
    1: "the count of sources is not 2 to 32",
    2: "the count of terminals is not 1 to 64",
    3: "the costs are not one for each source and terminal",
    4: "a supply or demand is above 4,000",
    5: "a unit cost is below -1,000,000 or above 1,000,000",
    6: "the table has not one entry more than plant 1's supply",
    7: "the terminals take less than the depots hold and the least runs make",
    8: "the terminals take more than depots and plants can give",
    9: "a table entry at a split in use is above 1,000,000,000",
    11: "a lent slice is too short for the plan or the stops",
    20: "a file cannot be opened and read, or is longer than 65,536 bytes",
    21: "a byte of a file cannot stand there, or the file ends too soon",
    22: "a record has another count of fields than it should",
    23: "a least run is above its plant's supply",
    24: "a mark outside 1 to 8, or an edit at a source, terminal, lane or entry that the case lacks",
    25: "going back to a mark that was never set",
    26: "the ceilings are not one for each lane, or a ceiling is above 4,000",
    27: "no plan is within both the ceilings and the least runs",
    28: "the high table is not as long as the low one, or an entry is below its low one or above 1,000,000,000",
    31: "the role may not do this",
    32: "a table entry is above 9,999,999,999, which no file can hold",
    33: "a lent slice is too short for its text",
    SHORT_REPORT: "the report or the worth has fewer than two cells",
}


class Refusal(ValueError):
    """The first test that a case fails: its number, and the place where it fails (0 where the number names none)."""

    def __init__(self, number: int, place: int):
        self.number = number
        self.place = place
        at = f" at place {place}" if place or number in (9, 28) else ""
        super().__init__(f"refusal {number}{at}: {_MEANINGS.get(number, 'unknown')}")

    def __reduce__(self):
        """Copied and pickled with all that it says: a process pool hands it back as it is."""
        return _again, (type(self), self.args, self.__dict__)


def _again(kind, arguments, said):
    """An exception of this kind as it was, made without asking for its parameters."""
    refusal = kind.__new__(kind, *arguments)
    refusal.__dict__.update(said)
    return refusal


Numbers = Iterable[SupportsIndex]  # whole numbers: ints, NumPy's integers and arrays
Rows = Iterable[Iterable[SupportsIndex]]  # a row of numbers for each source
Cells = MutableSequence[int]  # a list that is lent, and changed in the cells that are written


class Plan(NamedTuple):
    """The cheapest plan that is due: of those at the split the one that has the smaller amount at the first lane, in row order, where
    it differs from another. Equal cases get equal plans."""

    split: int  # what plant 1 makes: the smallest of the splits with the least total
    total: int  # freight plus the table's entry at the split
    freight: int  # the least of any plan at the split
    amounts: List[List[int]]  # a row for each source: the drums to each terminal
    stops: List[Tuple[int, int]]  # the freight curve: split and least freight, at the ends and the bends alone


class Bounds(NamedTuple):
    """What can be the cheapest where each production entry is known between two bounds only."""

    first: int  # the first split
    possible: List[bool]  # for each split from the first up: can it be the cheapest?
    smallest: int  # the smallest and the largest that the least total can be
    largest: int


class Case(NamedTuple):
    """What is planned: the parameters of `plan`, then the names, the currency and the date that a page shows where there are some."""

    costs: List[List[int]]
    supplies: List[int]
    demands: List[int]
    table: List[int]
    runs: Tuple[int, int] = (0, 0)
    ceilings: Optional[List[List[int]]] = None
    title: str = ""
    sources: Optional[List[str]] = None
    terminals: Optional[List[str]] = None
    currency: str = ""
    date: str = ""

    def plan(self) -> Plan:
        """The plan, or a `Refusal`."""
        return plan(*self[:6])


def page(case: Union[Case, Mapping[str, Any]]) -> str:
    """One HTML page, with nothing outside it, of the plan of a case or of its refusal. The case is a `Case` or a mapping with its
    fields. Needs Jinja2, and Matplotlib for the picture."""
    from .pages import case_page

    return case_page(case if isinstance(case, Case) else Case(**case))


def offers(symbol: str) -> bool:
    """Whether the archive that the shared object was made of has this C function."""
    return _library.offers(symbol)


def version() -> str:
    """The version of the archive, as major.minor.patch."""
    number = _library.yadvorkhul_version()
    return f"{number // 10_000}.{number // 100 % 100}.{number % 100}"


def archive_missing() -> str:
    """Why there is no shared object to call, in a sentence; empty where it is there."""
    return _library.missing


def _declared(function, kinds):
    """The function with its types: m, n and the least runs, then the slices, each a pointer and then a length."""
    slices = [part for kind in kinds for part in (ctypes.POINTER(kind), ctypes.c_size_t)]
    function.argtypes = [ctypes.c_size_t] * 2 + [ctypes.c_uint64] * 2 + slices
    function.restype = ctypes.c_uint64
    return function


_READ = [ctypes.c_int64] + [ctypes.c_uint64] * 4  # costs; supplies, demands, ceilings, table
_WRITTEN = [ctypes.c_uint64] * 2 + [ctypes.c_int64, ctypes.c_uint64, ctypes.c_int64]  # plan, splits; freights; report; worth
_BOUNDS_READ = _READ + [ctypes.c_uint64]  # the high table too
_BOUNDS_WRITTEN = [ctypes.c_uint64] * 2 + [ctypes.c_int64]  # answers, report; worth
_library = load()
_plan = _declared(_library.yadvorkhul_plan, _READ + _WRITTEN)
_bounds = _declared(_library.yadvorkhul_bounds, _BOUNDS_READ + _BOUNDS_WRITTEN)
_rates = _library.yadvorkhul_rates
_rates.argtypes = [ctypes.c_uint64, ctypes.POINTER(ctypes.c_uint64), ctypes.c_size_t]
_rates.restype = ctypes.c_uint64
_library.yadvorkhul_version.argtypes = []
_library.yadvorkhul_version.restype = ctypes.c_uint64


_CODES = {ctypes.c_uint64: "Q", ctypes.c_int64: "q"}
_RANGES = {ctypes.c_uint64: (0, 1 << 64), ctypes.c_int64: (-1 << 63, 1 << 63)}


def _numpy_bool(number) -> bool:
    """Whether it is NumPy's bool, which is no number either; some of its versions give it out as one."""
    return getattr(getattr(number, "dtype", None), "kind", "") == "b"


def _number(kind, number) -> int:
    """The whole number. One that does not fit a cell is an error, and is not cut down to one that does."""
    low, high = _RANGES[kind]
    try:
        whole = operator.index(number)
    except TypeError:
        whole = high
    if isinstance(number, bool) or _numpy_bool(number) or not low <= whole < high:
        raise TypeError(f"not a whole number from {low} to {high - 1}: {number!r}")
    return whole


def _listed(numbers, wanted: str = "a list of numbers") -> list:
    """The items as a list; of an array as Python's own numbers. Text and bytes are no numbers, though Python goes through them too."""
    items = numbers.tolist() if hasattr(numbers, "tolist") else numbers
    if isinstance(items, (str, bytes, bytearray)) or not (hasattr(items, "__iter__") or hasattr(items, "__getitem__")):
        raise TypeError(f"{wanted} is wanted, not {'None' if numbers is None else type(numbers).__name__}")
    return list(items)


def _cells(kind, numbers):
    """An array of the numbers, exactly as long as they are, and its length."""
    numbers = _listed(numbers)
    if not set(map(type, numbers)) <= {int}:
        numbers = [_number(kind, number) for number in numbers]
    try:
        cells = array.array(_CODES[kind], numbers)
    except OverflowError:
        cells = None
    if cells is None:  # the one that does not fit is named
        cells = array.array(_CODES[kind], [_number(kind, number) for number in numbers])
    # one cell where there is none, so that the pointer of an empty slice points at something
    return (kind * max(1, len(cells))).from_buffer(cells or array.array(_CODES[kind], [0])), len(numbers)


def _parts(slices) -> list:
    """Pointers and lengths, in turn, of arrays with their lengths."""
    return [part for pair in slices for part in pair]


def _call(function, numbers, read_kinds, read, written_kinds, lent):
    """Calls a function on lent lists. Each of the last ones is changed in the cells that it writes. Answers its number."""
    read = [_cells(kind, cells) for kind, cells in zip(read_kinds, read)]
    written = [_cells(kind, cells) for kind, cells in zip(written_kinds, lent)]
    numbers = [_number(ctypes.c_uint64, number) for number in numbers]
    answer = function(*numbers, *_parts(read + written))
    for cells, (now, length) in zip(lent, written):
        cells[:] = now[:length]
    return answer


def plan_into(
    m: SupportsIndex,
    n: SupportsIndex,
    run1: SupportsIndex,
    run2: SupportsIndex,
    costs: Numbers,
    supplies: Numbers,
    demands: Numbers,
    ceilings: Numbers,
    table: Numbers,
    plan: Cells,
    splits: Cells,
    freights: Cells,
    report: Cells,
    worth: Cells,
) -> int:
    """The planner on lent lists. Each of the last five is changed in the cells that the planner writes. Answers its number."""
    read = (costs, supplies, demands, ceilings, table)
    return _call(_plan, [m, n, run1, run2], _READ, read, _WRITTEN, [plan, splits, freights, report, worth])


def bounds_into(
    m: SupportsIndex,
    n: SupportsIndex,
    run1: SupportsIndex,
    run2: SupportsIndex,
    costs: Numbers,
    supplies: Numbers,
    demands: Numbers,
    ceilings: Numbers,
    low: Numbers,
    high: Numbers,
    answers: Cells,
    report: Cells,
    worth: Cells,
) -> int:
    """Which splits can be the cheapest, on lent lists. Each of the last three is changed in the cells that are written."""
    read = (costs, supplies, demands, ceilings, low, high)
    return _call(_bounds, [m, n, run1, run2], _BOUNDS_READ, read, _BOUNDS_WRITTEN, [answers, report, worth])


def _lanes(rows, m, n):
    """The numbers of m rows of n, one row after the other; rows of other lengths must not pass for a table of the right size."""
    wanted = "a row of numbers for each source"
    rows = [row if type(row) is list else _listed(row, wanted) for row in _listed(rows, wanted)]
    even = len(rows) == m and all(len(row) == n for row in rows)
    return list(itertools.chain.from_iterable(rows)) if even else []


_WIDE = (ctypes.c_uint64 * (MOST_SOURCES * MOST_TERMINALS))(*[MOST_AMOUNT] * (MOST_SOURCES * MOST_TERMINALS))  # only read


def _two(runs) -> Tuple[int, int]:
    """The two least runs."""
    runs = _listed(runs)
    if len(runs) != 2:
        raise TypeError(f"the least runs are two numbers, one for each plant, not {len(runs)}")
    return _number(ctypes.c_uint64, runs[0]), _number(ctypes.c_uint64, runs[1])


def _entered(costs, supplies, demands, runs, ceilings):
    """The numbers and the slices that each planning function begins with: m, n and the runs; then costs, supplies, demands, ceilings.
    Where there are no ceilings 4,000 stands on every lane, which no plan passes."""
    supplies, demands = _cells(ctypes.c_uint64, supplies), _cells(ctypes.c_uint64, demands)
    m, n = supplies[1], demands[1]
    lanes = min(m, MOST_SOURCES) * min(n, MOST_TERMINALS)
    wide = (_WIDE, lanes) if ceilings is None else _cells(ctypes.c_uint64, _lanes(ceilings, m, n))
    costs = _cells(ctypes.c_int64, _lanes(costs, m, n))
    return (m, n, *_two(runs)), [costs, supplies, demands, wide], lanes


def _rows(cells, m, n) -> List[List[int]]:
    """The cells of m rows of n."""
    return [cells[i * n : (i + 1) * n] for i in range(m)]


def plan(costs: Rows, supplies: Numbers, demands: Numbers, table: Numbers, runs: Numbers = (0, 0), ceilings: Optional[Rows] = None) -> Plan:
    """The plan, or a `Refusal`.

    costs     a row for each source: its unit cost to each terminal, below 0 for a rebate
    supplies  the most each of the two plants can make, then each depot's stock, which must all leave
    demands   what each terminal takes
    table     one entry more than the first supply: entry y is the cost of both plants together when plant 1 makes y;
              of any shape
    runs      the least that each of the two plants must make, at most its supply; 0 for none
    ceilings  a row for each source: the most that its lane to each terminal carries; 0 closes it; None for no bound
    """
    numbers, read, lanes = _entered(costs, supplies, demands, runs, ceilings)
    read.append(_cells(ctypes.c_uint64, table))
    # arrays of this call alone: another thread may plan meanwhile
    amounts, splits, freights = (ctypes.c_uint64 * max(1, lanes))(), (ctypes.c_uint64 * MOST_SPLITS)(), (ctypes.c_int64 * MOST_SPLITS)()
    report, worth = (ctypes.c_uint64 * REPORT_CELLS)(), (ctypes.c_int64 * WORTH_CELLS)()
    written = [(amounts, lanes), (splits, MOST_SPLITS), (freights, MOST_SPLITS), (report, REPORT_CELLS), (worth, WORTH_CELLS)]
    number = _plan(*numbers, *_parts(read + written))
    if number != 0:
        raise Refusal(number, report[0])
    (split, count), (total, freight) = report, worth
    return Plan(split, total, freight, _rows(amounts, numbers[0], numbers[1]), list(zip(splits[:count], freights[:count])))


def rates_into(most: SupportsIndex, to: Cells) -> int:
    """Writes 100 times the square root of y, rounded down, for y from 0 to most, into the first items of a list. Answers 0; or 4
    where most is above 4,000, or 11 where the list is too short, and then writes nothing."""
    cells, length = _cells(ctypes.c_uint64, to)
    answer = _rates(_number(ctypes.c_uint64, most), cells, length)
    to[:] = cells[:length]
    return answer


def rates(supply: SupportsIndex) -> List[int]:
    """A production table for a plant 1 of this supply, at most 4,000: 100 times the square root of its output, rounded down."""
    most = _number(ctypes.c_uint64, supply)
    table = [0] * (min(most, MOST_AMOUNT) + 1)
    number = rates_into(most, table)
    if number != 0:
        raise Refusal(number, 1)
    return table


def bounds(
    costs: Rows, supplies: Numbers, demands: Numbers, low: Numbers, high: Numbers, runs: Numbers = (0, 0), ceilings: Optional[Rows] = None
) -> Bounds:
    """Which splits can be the cheapest with entries between the low and the high table, or a `Refusal`; the rest as for `plan`."""
    numbers, read, _ = _entered(costs, supplies, demands, runs, ceilings)
    read += [_cells(ctypes.c_uint64, low), _cells(ctypes.c_uint64, high)]
    answers, report, worth = (ctypes.c_uint64 * MOST_SPLITS)(), (ctypes.c_uint64 * REPORT_CELLS)(), (ctypes.c_int64 * WORTH_CELLS)()
    written = [(answers, MOST_SPLITS), (report, REPORT_CELLS), (worth, WORTH_CELLS)]
    number = _bounds(*numbers, *_parts(read + written))
    if number != 0:
        raise Refusal(number, report[0])
    (first, count), (smallest, largest) = report, worth
    return Bounds(first, [mark == 1 for mark in answers[:count]], smallest, largest)


from .work import Limits, Role, Tariff, WorkingCase  # noqa: E402  (it uses what stands above)
from .networks import Arc, Flow, FlowRefusal, flow, flow_into  # noqa: E402  it uses what is declared above
from .files import File, FileRefusal, Printed, bounds_files, flow_files, plan_files, read_table, tidy_files, write_case  # noqa: E402
