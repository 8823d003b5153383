"""The least-cost flow of a network in DIMACS form, where a table replaces the cost of one arc."""

import ctypes
from typing import List, NamedTuple, SupportsIndex, Union

from . import Cells, Numbers, Refusal, _cells, _library, _number, _parts

MOST_NODES = 32
MOST_ARCS = 64

_MEANINGS = {
    27: "no flow meets the supplies within the ceilings",
    29: "a line is not of the form, or is missing",
    30: "a number, the named arc or the table is outside the limits",
}


class FlowRefusal(Refusal):
    """Refusal 27, 29 or 30 of a network; the place of 29 is the line, from 1."""

    def __init__(self, number: int, place: int):
        super().__init__(number, place)
        at = f" at line {place}" if place else ""
        self.args = (f"refusal {number}{at}: {_MEANINGS.get(number, 'unknown')}",)


class Arc(NamedTuple):
    """An arc as its line says it, and the flow on it."""

    start: int
    end: int
    ceiling: int
    cost: int  # of a unit; of the named arc it is replaced by the table
    flow: int


class Flow(NamedTuple):
    """A flow of the least total; of these, one with the smallest flow on the named arc."""

    total: int
    arcs: List[Arc]  # in file order


_UNSIGNED, _SIGNED = ctypes.c_uint64, ctypes.c_int64
_WRITTEN = [_UNSIGNED] * 4 + [_SIGNED, _UNSIGNED, _SIGNED]  # flow, starts, ends, ceilings; costs; report; worth
_flow = _library.yadvorkhul_flow
_flow.argtypes = [ctypes.c_char_p, ctypes.c_size_t, ctypes.c_size_t]
_flow.argtypes += [part for kind in [_UNSIGNED] + _WRITTEN for part in (ctypes.POINTER(kind), ctypes.c_size_t)]
_flow.restype = _UNSIGNED


Bytes = Union[bytes, bytearray, memoryview]


def flow_into(
    file: Bytes,
    place: SupportsIndex,
    table: Numbers,
    flow: Cells,
    starts: Cells,
    ends: Cells,
    ceilings: Cells,
    costs: Cells,
    report: Cells,
    worth: Cells,
) -> int:
    """The flow of the network in these bytes on lent lists. Each of the last seven is changed in the cells that are written. Answers the
    number."""
    if not isinstance(file, (bytes, bytearray, memoryview)):
        raise TypeError(f"the bytes of a file are wanted, not {type(file).__name__}")
    file = bytes(file)
    lent = [flow, starts, ends, ceilings, costs, report, worth]
    written = [_cells(kind, cells) for kind, cells in zip(_WRITTEN, lent)]
    answer = _flow(file, len(file), _number(_UNSIGNED, place), *_cells(_UNSIGNED, table), *_parts(written))
    for cells, (now, length) in zip(lent, written):
        cells[:] = now[:length]
    return answer


def flow(file: Bytes, place: SupportsIndex, table: Numbers) -> Flow:
    """The least-cost flow of the network in a DIMACS file, or a `FlowRefusal`.

    file   the bytes of the file
    place  the arc whose cost the table replaces, by its place among the a lines, from 1
    table  one entry more than that arc's ceiling: entry x is the cost of x units on it; of any shape
    """
    lent = [[0] * MOST_ARCS for _ in range(5)]
    report, worth = [0], [0]
    number = flow_into(file, place, table, *lent, report, worth)
    if number != 0:
        raise FlowRefusal(number, report[0])
    amounts, starts, ends, ceilings, costs = (cells[: report[0]] for cells in lent)
    return Flow(worth[0], [Arc(*arc) for arc in zip(starts, ends, ceilings, costs, amounts)])
