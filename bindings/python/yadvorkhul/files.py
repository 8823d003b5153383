"""Files and the proved functions on their bytes.

What a file may hold, how it is read, planned, printed and written out is decided by the archive alone; here bytes are lent to it, and
numbers or bytes come back.

    >>> read_case(File(TARIFF, "t", b"2,6,3\\r\\n5,3,3\\r\\n1,4,1\\r\\n3,2,"), File(PRODUCTION, "p", b"99\\r\\n20\\r\\n24\\r\\n20")).demands
    [3, 2]
    >>> plan_files(b"2,6,3\\r\\n5,3,3\\r\\n1,4,1\\r\\n3,2,", b"99\\r\\n20\\r\\n24\\r\\n20").text.split()[1]
    b'0,0,3,20'
"""

import ctypes
from typing import List, NamedTuple, Optional, Tuple

from . import MOST_SOURCES, MOST_TERMINALS, Case, Plan, Refusal, _cells, _lanes, _library, _parts, _rows

LONGEST = 65_536  # bytes of a file that is read
STORED = 4_002  # entries of a table that are stored: one more than any case has
TARIFF, PRODUCTION, NETWORK = "tariff", "production", "network"
_PLAN_ROOM, _BOUNDS_ROOM, _FLOW_ROOM = 174_265, 172_286, 5_662  # bytes of the longest texts, as the programs have them

_UNSIGNED, _SIGNED, _SIZE = ctypes.c_uint64, ctypes.c_int64, ctypes.c_size_t
_BYTES = [ctypes.c_char_p, _SIZE]  # a file


def _slice(kind):
    return [ctypes.POINTER(kind), _SIZE]


_TEXT, _REPORT = _slice(ctypes.c_uint8), _slice(_UNSIGNED)


def _declared(name: str, kinds: list):
    function = getattr(_library, name)
    function.argtypes, function.restype = kinds, _UNSIGNED
    return function


_NUMBERS = _slice(_SIGNED) + _slice(_UNSIGNED) * 3  # costs; supplies, demands, table
_read_case = _declared("yadvorkhul_read_case", _BYTES * 2 + _NUMBERS + _REPORT)
_read_table = _declared("yadvorkhul_read_table", _BYTES + _slice(_UNSIGNED) + _REPORT)
_plan_files = _declared("yadvorkhul_plan_files", _BYTES * 2 + _TEXT + _REPORT)
_bounds_files = _declared("yadvorkhul_bounds_files", _BYTES * 3 + _TEXT + _REPORT)
_flow_files = _declared("yadvorkhul_flow_files", _BYTES * 3 + _TEXT + _REPORT)
_write_case = _declared("yadvorkhul_write_case", [_SIZE] * 2 + _NUMBERS + _TEXT * 2 + _REPORT)
_tidy_files = _declared("yadvorkhul_tidy_files", _BYTES * 2 + _TEXT * 2 + _REPORT)


class File(NamedTuple):
    """A file as it was read; `data` is None where it could not be opened or read."""

    kind: str  # TARIFF, PRODUCTION or NETWORK
    path: str
    data: Optional[bytes]


class FileRefusal(Refusal):
    """Refusal 20, 21 or 22, with the file that it is about."""

    def __init__(self, number: int, place: int, file: File):
        super().__init__(number, place)
        self.file = file


class Printed(NamedTuple):
    """What a program prints: the text, and the refusal's number and place, 0 and 0 where there is none."""

    number: int
    place: int
    text: bytes


def open_file(kind: str, path: str) -> File:
    """Reads a file, and no more of it than shows that it is too long."""
    try:
        with open(path, "rb") as stream:
            return File(kind, path, stream.read(LONGEST + 1))
    except (OSError, ValueError):  # a path with NUL in it is a ValueError
        return File(kind, path, None)


def handed(file: File) -> bytes:
    """The bytes that are lent: of a file that was not read, as in the programs, too many, which is refused by 20."""
    if not isinstance(file, File):
        raise TypeError(f"a File is wanted, as open_file gives one, not {type(file).__name__}")
    return bytes(LONGEST + 1) if file.data is None else file.data


def _lent(*files: bytes) -> list:
    """Pointers and lengths of bytes. A number is no file."""
    for data in files:
        if not isinstance(data, (bytes, bytearray, memoryview)):
            raise TypeError(f"bytes are wanted, not {type(data).__name__}")
    return _parts((bytes(data), len(bytes(data))) for data in files)


def _room(size: int):
    return (ctypes.c_uint8 * size)(), size


def _first(cells, count: int) -> bytes:
    return bytes(memoryview(cells)[:count])


# reading -------------------------------------------------------------------------------------------------------------------------


def read_case(tariff: File, production: File) -> Case:
    """The case of two files; or a `FileRefusal`, or refusal 1 or 2 of a size that is never planned."""
    costs, supplies = (_SIGNED * (MOST_SOURCES * MOST_TERMINALS))(), (_UNSIGNED * MOST_SOURCES)()
    demands, table, report = (_UNSIGNED * MOST_TERMINALS)(), (_UNSIGNED * STORED)(), (_UNSIGNED * 3)()
    slices = [(cells, len(cells)) for cells in (costs, supplies, demands, table, report)]
    number = _read_case(*_lent(handed(tariff), handed(production)), *_parts(slices))
    if number:
        place, file = report[0], report[1]
        raise FileRefusal(number, place, (tariff, production)[file - 1]) if file else Refusal(number, place)
    m, n, entries = report
    return Case(_rows(costs, m, n), supplies[:m], demands[:n], table[: min(entries, STORED)])


def read_table(file: File) -> List[int]:
    """The entries of a production file, 4,002 at most; or a `FileRefusal`."""
    table, report = (_UNSIGNED * STORED)(), (_UNSIGNED * 2)()
    number = _read_table(*_lent(handed(file)), table, STORED, report, 2)
    if number:
        raise FileRefusal(number, report[0], file)
    return table[: min(report[0], STORED)]


# printing ------------------------------------------------------------------------------------------------------------------------


def _printed(function, room: int, *files: bytes) -> Printed:
    text, report = _room(room), (_UNSIGNED * 2)()
    number = function(*_lent(*files), *text, report, 2)
    return Printed(number, report[1], _first(text[0], report[0]))


def plan_files(tariff: bytes, production: bytes) -> Printed:
    """The plan of two files' bytes, or the refusal, as the program `plan` prints it."""
    return _printed(_plan_files, _PLAN_ROOM, tariff, production)


def bounds_files(tariff: bytes, low: bytes, high: bytes) -> Printed:
    """Which splits can be the cheapest, or the refusal, as the program `bounds` prints it."""
    return _printed(_bounds_files, _BOUNDS_ROOM, tariff, low, high)


def flow_files(network: bytes, arc: bytes, table: bytes) -> Printed:
    """The least-cost flow of a network, or the refusal, as the program `flow` prints it; `arc` is the text that names an arc."""
    return _printed(_flow_files, _FLOW_ROOM, network, arc, table)


def plan_text(case: Case, plan: Plan) -> str:
    """The plan of a case that no two files are (with least runs, ceilings or names) in the form of the program's. Not proved; the tests
    compare it with the proved text."""
    lines = ["source,terminal,amount,cost", f"0,0,{plan.split},{case.table[plan.split]}"]
    for i, (amounts, costs) in enumerate(zip(plan.amounts, case.costs), 1):
        lines += [f"{i},{j},{x},{x * c}" for j, (x, c) in enumerate(zip(amounts, costs), 1)]
    return "".join(line + "\r\n" for line in lines)


def refusal_text(refusal: Refusal) -> str:
    """A refusal of such a case in the form of the program's."""
    return f"refusal,place\r\n{refusal.number},{refusal.place}\r\n"


# writing -------------------------------------------------------------------------------------------------------------------------


def _texts(function, *parts) -> Tuple[bytes, bytes]:
    """Two texts, or a `Refusal`."""
    tariff, production, report = _room(LONGEST + 1), _room(LONGEST + 1), (_UNSIGNED * 2)()
    number = function(*parts, *tariff, *production, report, 2)
    if number:
        raise Refusal(number, report[0])
    return _first(tariff[0], report[0]), _first(production[0], report[1])


def write_case(case: Case) -> Tuple[bytes, bytes]:
    """The tariff and the production file of a case, without its least runs and ceilings, which no file holds; or a `Refusal`."""
    m, n = len(case.supplies), len(case.demands)
    read = [_cells(_SIGNED, _lanes(case.costs, m, n))]
    read += [_cells(_UNSIGNED, numbers) for numbers in (case.supplies, case.demands, case.table)]
    return _texts(_write_case, m, n, *_parts(read))


def tidy_files(tariff: bytes, production: bytes) -> Tuple[bytes, bytes]:
    """Two files' bytes in the one form of their case, or a `Refusal`."""
    return _texts(_tidy_files, *_lent(tariff, production))
