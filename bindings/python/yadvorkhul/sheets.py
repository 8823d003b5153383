"""Cells of a workbook or of a text file with separators, each with its address, and what was taken for granted while reading.

Nothing is guessed: a number that could be meant in two ways is a `BadSheet` with its cell. What is understood is noted, to be printed.
"""

import csv
import datetime
import io
import os
import re
import zipfile
from typing import Any, Dict, Iterable, List, NamedTuple, Optional, Sequence, Tuple

INSTALL = "apt-get install -y python3-openpyxl python3-defusedxml"
MOST_ROWS, MOST_COLUMNS = 20_000, 500
MOST_UNPACKED = 50_000_000  # bytes of a workbook once unpacked
MOST_TEXT = 4_000_000  # bytes of a text file
SHEETS = ("tariff", "production", "runs", "ceilings", "about")
OPTIONAL = SHEETS[2:]


class BadSheet(ValueError):
    """A cell or a file that is not understood, in a sentence."""


class Cell(NamedTuple):
    value: Any  # None where it is empty
    where: str  # as tariff!B2
    shape: str = ""  # the number format of a workbook's cell
    formula: bool = False
    merged: str = ""  # the cells of a workbook that this one is merged with


class Sheet(NamedTuple):
    name: str
    rows: List[List[Cell]]  # all of one length; no row or column at the end is empty
    sign: str = ""  # what parts the fields of a text file
    fields: Sequence[int] = ()  # how many fields each row of a text file has as it is written


class Notes:
    """What was understood, each thing once, with the first cell that it was seen in."""

    def __init__(self, thousands: str = ""):
        self.lines: List[str] = []
        self.seen: Dict[str, Tuple[str, int]] = {}
        self.thousands = set(thousands)

    def say(self, sentence: str) -> None:
        if sentence not in self.lines:
            self.lines.append(sentence)

    def count(self, what: str, where: str) -> None:
        first, count = self.seen.get(what, (where, 0))
        self.seen[what] = first, count + 1

    def all(self) -> List[str]:
        return self.lines + [f"{what} ({first}{f' and {count - 1:,} more' if count > 1 else ''})" for what, (first, count) in self.seen.items()]


def column_name(j: int) -> str:
    """A, B, ... Z, AA for 0, 1, ..."""
    return (column_name(j // 26 - 1) if j >= 26 else "") + chr(65 + j % 26)


def _sheet(name: str, rows: List[List[Cell]], first: int = 1) -> Sheet:
    """Without the empty rows and columns at the end, and with empty cells where a row is short."""
    empty = lambda cell: cell.value is None or isinstance(cell.value, str) and not cell.value.strip()
    rows = [[cell._replace(value=None) if empty(cell) else cell for cell in row] for row in rows]
    while rows and all(cell.value is None for cell in rows[-1]):
        rows.pop()
    wide = max((j + 1 for row in rows for j, cell in enumerate(row) if cell.value is not None), default=0)
    if not wide:
        raise BadSheet(f"{name} is empty")
    for what, cells in ((f"row {first}", rows[0]), ("column A", [row[0] for row in rows if row])):
        if all(cell.value is None and not cell.formula for cell in cells):
            raise BadSheet(f"{name}: {what} is empty; a table begins in its first row and column")
    full = lambda i, row: row[:wide] + [Cell(None, f"{name}!{column_name(j)}{i}") for j in range(len(row), wide)]
    return Sheet(name, [full(i, row) for i, row in enumerate(rows, first)])


# workbooks -----------------------------------------------------------------------------------------------------------------------


def load(path: str, values: bool) -> Any:
    """A workbook, with the stored values of its formulas or with the formulas."""
    try:
        import openpyxl
    except ImportError as error:
        raise ImportError(f"workbooks need openpyxl, which this Python does not have. On Debian: {INSTALL}, then /usr/bin/python3.") from error
    if not openpyxl.DEFUSEDXML:
        raise ImportError(f"a workbook is read only where defusedxml is installed. On Debian: {INSTALL}.")
    try:
        return openpyxl.load_workbook(path, data_only=values)
    except OSError:
        raise
    except Exception as error:  # of a damaged or hostile file anything may come
        raise BadSheet(f"{path} cannot be read as a workbook: {type(error).__name__}: {error}") from error


OLD_BOOK = b"\xd0\xcf\x11\xe0"  # how a workbook of the form before .xlsx begins


def _small(path: str):
    """Stops at what is no workbook, or would fill the memory."""
    with open(path, "rb") as stream:
        if stream.read(4) == OLD_BOOK:
            raise BadSheet(f"{path} is an old workbook (.xls), whatever its name says; save it as .xlsx")
    try:
        with zipfile.ZipFile(path) as packed:
            size = sum(part.file_size for part in packed.infolist())
    except zipfile.BadZipFile as error:
        raise BadSheet(f"{path} is not a workbook (.xlsx): {error}; of text files give two, a tariff and a production table") from error
    if size > MOST_UNPACKED:
        raise BadSheet(f"{path} is longer than {MOST_UNPACKED:,} bytes once unpacked")


def _book_sheet(name: str, shown, written, notes: Notes) -> Sheet:
    if shown.max_row > MOST_ROWS or shown.max_column > MOST_COLUMNS:
        raise BadSheet(f"sheet {name} goes to row {shown.max_row:,} and column {shown.max_column:,}; delete what is not meant")
    if any(part.hidden for part in list(shown.row_dimensions.values()) + list(shown.column_dimensions.values())):
        notes.say(f"hidden rows or columns of sheet {name} are read like others")
    if shown.sheet_state != "visible":
        notes.say(f"sheet {name} is hidden, and read like others")
    merged = {(row, column): area.coord for area in shown.merged_cells.ranges for row, column in area.cells}
    rows = []
    for i, (shown_row, written_row) in enumerate(zip(shown.iter_rows(), written.iter_rows()), 1):
        row = []
        for j, (cell, source) in enumerate(zip(shown_row, written_row), 1):
            formula = source.data_type == "f"
            row.append(Cell(cell.value, f"{name}!{cell.coordinate}", getattr(cell, "number_format", "") or "", formula, merged.get((i, j), "")))
        rows.append(row)
    return _sheet(name, rows)


def book_sheets(path: str, notes: Notes) -> Dict[str, Sheet]:
    """The sheets of a workbook that a case is made of, by their names in small letters."""
    _small(path)
    shown, written = load(path, True), load(path, False)
    found: Dict[str, Sheet] = {}
    for page in shown.worksheets:
        name = page.title.strip().lower()
        if name in found:
            raise BadSheet(f"two sheets are named {name}; delete one or name it otherwise")
        if name in OPTIONAL and all(cell.value is None for row in page.iter_rows() for cell in row):
            notes.say(f"sheet {name} is empty: there is none")
        elif name in SHEETS:
            found[name] = _book_sheet(name, page, written[page.title], notes)
    others = [page.title for page in shown.worksheets if page.title.strip().lower() not in SHEETS]
    if others:
        notes.say(f"not read: {'sheet' if len(others) == 1 else 'sheets'} {', '.join(others)}")
    return found


# text files with separators ------------------------------------------------------------------------------------------------------

_MARKS = ((b"\xef\xbb\xbf", "utf-8-sig", "UTF-8 with a byte order mark"), (b"\xff\xfe", "utf-16", "UTF-16"), (b"\xfe\xff", "utf-16", "UTF-16"))
_SEPARATORS = {"\t": "tab", ";": "semicolon", ",": "comma"}


def _without_mark(data: bytes) -> str:
    """The encoding of a text without a byte order mark: UTF-16 where of every other byte a tenth at least is 0, and none of those between.
    Letters that are not Latin have no 0."""
    head = data[:200]
    even, odd = head[::2].count(0), head[1::2].count(0)
    if odd > 1 and not even and odd >= len(head) // 20:
        return "utf-16-le"
    return "utf-16-be" if even > 1 and not odd and even >= len(head) // 20 else "utf-8"


def decoded(data: bytes, name: str, notes: Notes) -> str:
    """The text of a file in one of the usual encodings."""
    for mark, codec, words in _MARKS:
        if data.startswith(mark):
            notes.say(f"{name}: {words}")
            break
    else:
        codec = _without_mark(data)
        if codec != "utf-8":
            notes.say(f"{name}: UTF-16 without its mark")
    try:
        return data.decode(codec)
    except UnicodeDecodeError as error:
        if codec != "utf-8":
            raise BadSheet(f"{name} is not {codec.upper()} from byte {error.start} on") from error
    notes.say(f"{name}: not UTF-8, read as Windows-1252; look at the names")
    return data.decode("cp1252", "replace")


def separator(text: str) -> str:
    """The sign between the fields, outside quotes: of tab ; , the first that stands as often in each line, else the first of the first line,
    else of the text."""
    bare = re.sub(r'"[^"]*"', "", text)
    lines = [line for line in re.split("\r\n|\r|\n", bare) if line.strip()]
    for sign in _SEPARATORS:
        if len({line.count(sign) for line in lines}) == 1 and sign in bare:
            return sign
    for part in lines[:1] + [bare]:
        for sign in _SEPARATORS:
            if sign in part:
                return sign
    return ""


def _line_ends(text: str, name: str, notes: Notes):
    bare = text.replace("\r\n", "")
    if "\n" in bare or "\r" in bare:
        notes.say(f"{name}: lines end in {'LF' if chr(10) in bare else 'CR'}")


def _line_of(text: str) -> int:
    """The line of the first NUL."""
    return len(re.findall("\r\n|\r|\n", text[: text.index("\0")])) + 1


def text_sheet(name: str, path: str, notes: Notes) -> Sheet:
    """The cells of a text file; `name` is how its cells are called."""
    with open(path, "rb") as stream:
        data = stream.read(MOST_TEXT + 1)
    if len(data) > MOST_TEXT:
        raise BadSheet(f"{path} is longer than {MOST_TEXT:,} bytes")
    if data.startswith(b"PK"):
        raise BadSheet(f"{path} is a workbook, whatever its name says; give it alone, as BOOK.xlsx")
    if data.startswith(OLD_BOOK):
        raise BadSheet(f"{path} is an old workbook (.xls), whatever its name says; save it as .xlsx and give it alone")
    file = os.path.basename(path)
    text = decoded(data, file, notes)
    if "\0" in text:
        raise BadSheet(f"{path} holds a NUL character (byte 0) in line {_line_of(text)}; no text has one")
    _line_ends(text, file, notes)
    hint = re.match(r"sep=(.)\r?\n", text)
    sign = hint.group(1) if hint else separator(text)
    if sign:
        notes.say(f"{file}: separator {_SEPARATORS.get(sign, sign)}")
    start = 1 if hint else 0
    try:
        rows = list(csv.reader(io.StringIO(text, newline=""), delimiter=sign or ",", strict=True))[start:]
    except csv.Error as error:
        raise BadSheet(f"{path}: {error}") from error
    if len(rows) > MOST_ROWS or max(map(len, rows), default=0) > MOST_COLUMNS:
        raise BadSheet(f"{path} has more rows or columns than any case")
    address = lambda i, j: f"{name}!{column_name(j)}{i}"
    found = _sheet(name, [[Cell(value, address(i, j)) for j, value in enumerate(row)] for i, row in enumerate(rows, 1 + start)], 1 + start)
    return found._replace(sign=sign or ",", fields=list(map(len, rows)))


# numbers -------------------------------------------------------------------------------------------------------------------------

_PLAIN = re.compile(r"-?(0|[1-9][0-9]{0,9})")
_GROUPS = {" ": "a blank", "\u00a0": "a blank", "\u202f": "a blank", "\u2009": "a blank", "'": "an apostrophe", "\u2019": "an apostrophe"}
_GROUPED = re.compile(r"-?[1-9][0-9]{0,2}(?:([ \u00a0\u202f\u2009'\u2019,.])[0-9]{3})(?:\1[0-9]{3})*")
_SIGNS = {",": "a comma", ".": "a point"}


def gather_thousands(sheets: Iterable[Sheet], notes: Notes) -> None:
    """A number such as 1,234,567 shows what its sign means in all of these sheets."""
    for sheet in sheets:
        for cell in (cell for row in sheet.rows for cell in row):
            found = isinstance(cell.value, str) and _GROUPED.fullmatch(cell.value.strip())
            if found and found.group(1) in _SIGNS and cell.value.count(found.group(1)) > 1:
                notes.thousands.add(found.group(1))


def _why_not(text: str) -> str:
    """Why a text is no number that can be taken as it stands."""
    digits = re.sub(r"[^0-9]", "", text)
    if re.fullmatch(r"#[A-Z0-9/]+[A!?]", text):
        return "is an error of the program that wrote it, not a number"
    if re.fullmatch(r"-?0+[0-9]+", text):
        return "has 0 in front, perhaps an item code; no number does"
    if text == "-0":
        return "is no number: 0 has no minus"
    if re.fullmatch(r"-?[0-9]{11,}", text):
        return "has more than ten digits"
    if re.fullmatch(r"[0-9.,' ]+-|\([0-9.,' ]+\)|\+[0-9.,' ]+|[\u2212\u2013][0-9.,' ]+", text):
        return "has a sign that is not a plain minus before its digits"
    if re.fullmatch(r"-?[1-9][0-9]{0,2}[.,][0-9]{3}", text):
        return f"may be {digits} or a decimal; if it is {digits}, say --thousands '{re.sub('[-0-9]', '', text)}'"
    if re.fullmatch(r"-?[0-9.,' \u00a0]*[.,][0-9]+", text):
        return "is a decimal; numbers are whole (use a smaller coin or unit)"
    return "is not a whole number in digits"


def _of_text(text: str, where: str, notes: Notes) -> Tuple[Optional[int], str]:
    """The number of a text, or None and why not."""
    bare = text.strip(" \u00a0")
    if bare != text:
        notes.count("blanks around numbers left out", where)
    if _PLAIN.fullmatch(bare) and bare != "-0":
        return int(bare), ""
    found = _GROUPED.fullmatch(bare)
    sign = found.group(1) if found else ""
    if sign in _GROUPS or sign in notes.thousands:
        notes.count(f"{_GROUPS.get(sign) or _SIGNS[sign]} within numbers taken as a thousands separator", where)
        number = int(bare.replace(sign, ""))
        return (number, "") if abs(number) < 10**10 else (None, "has more than ten digits")
    return None, _why_not(bare)


def _of_book(cell: Cell) -> Tuple[Optional[int], str]:
    """The number of a workbook's cell that is no text, or None and why not."""
    value = cell.value
    if isinstance(value, bool):
        return None, "is true or false, not a number"
    if isinstance(value, (datetime.date, datetime.time, datetime.timedelta)):
        return None, "is a date or a time, perhaps made of a number by the program that wrote it"
    if not isinstance(value, (int, float)) or value != value or value in (float("inf"), float("-inf")):
        return None, "is not a whole number"
    if value != int(value):
        return None, "is a fraction; numbers are whole (use a smaller coin or unit)"
    if re.fullmatch(r"0{2,}.*", cell.shape) and not cell.shape.startswith("0.0"):
        return None, f"is shown with 0 in front ({cell.shape}), perhaps an item code; no number is"
    if "%" in cell.shape:
        return None, "is a percentage"
    return (int(value), "") if abs(value) < 10**10 else (None, "has more than ten digits")


def why_parted(text: str) -> str:
    """What is wrong with a number whose fields a comma parted."""
    digits = text.replace(",", "")
    if re.fullmatch(r"[1-9][0-9]{0,2}(,[0-9]{3})+", text):
        other = "" if text.count(",") > 1 else ", unless it is a decimal"
        return f"is parted by its comma; write {digits}{other}, or put it in quotes and say --thousands ','"
    return "is parted by its comma, perhaps a decimal; numbers are whole (use a smaller coin or unit)"


def whole(cell: Cell, notes: Notes, signed: bool = False) -> int:
    """The whole number of a cell, or a `BadSheet` with its address."""
    if cell.value is None and cell.formula:
        raise BadSheet(f"{cell.where} has a formula without a stored value; open the workbook, save it and try again")
    if cell.value is None and cell.merged:
        raise BadSheet(f"{cell.where} has no number of its own: it is merged with others ({cell.merged})")
    if cell.value is None:
        raise BadSheet(f"{cell.where} is empty; a number is wanted")
    if isinstance(cell.value, str):
        number, reason = _of_text(cell.value, cell.where, notes)
        if number is not None and cell.shape:
            notes.count("numbers stored as text", cell.where)
    else:
        number, reason = _of_book(cell)
    if number is None:
        shown = cell.value if isinstance(cell.value, str) else str(cell.value)
        raise BadSheet(f"{cell.where}: {shown[:40]!r} {reason}")
    if number < 0 and not signed:
        raise BadSheet(f"{cell.where}: {number} is below 0; only a unit cost may be")
    if cell.formula:
        notes.count("formulas read by their stored values", cell.where)
    return number


def is_number(cell: Cell) -> bool:
    """Whether a cell holds a number, or a text that is meant as one."""
    if isinstance(cell.value, str):
        return re.fullmatch(r"[-+(\u2212]?[0-9][-0-9.,' \u00a0\u202f\u2009)]*", cell.value.strip()) is not None
    return isinstance(cell.value, (int, float)) and not isinstance(cell.value, bool)


def label(cell: Cell) -> str:
    """The name that a cell holds; empty where it holds none."""
    if cell.value is None and cell.formula:
        raise BadSheet(f"{cell.where} has a formula without a stored value; open the workbook, save it and try again")
    if cell.value is None and cell.merged:
        raise BadSheet(f"{cell.where} has no name of its own: it is merged with others ({cell.merged})")
    if cell.value is None:
        return ""
    if isinstance(cell.value, str):
        return re.sub("_x([0-9A-Fa-f]{4})_", lambda found: chr(int(found.group(1), 16)), cell.value) if cell.shape else cell.value
    if isinstance(cell.value, int) and not isinstance(cell.value, bool):
        return str(cell.value)
    raise BadSheet(f"{cell.where}: {str(cell.value)[:40]!r} is no name; write it as text")
