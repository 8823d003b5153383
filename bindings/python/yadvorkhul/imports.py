"""A case from a workbook or from text files, as a spreadsheet writes them.

The sheet `tariff` has a row for each source: unit costs to the terminals, then the supply; the demands come last. `production` has an entry
in each row, `runs` the two least runs, `ceilings` a row for each source. Labels in the first row and the first column become names.
What is read is written in W-213's form and read again by the reader of the two files, which has the last word.
"""

import re
from typing import Dict, List, NamedTuple, Optional, Tuple

from . import MOST_AMOUNT, Case
from .cases import check_names
from .forms import read_again
from .sheets import BadSheet, Cell, Notes, Sheet, book_sheets, gather_thousands, is_number, label, text_sheet, whole, why_parted
from .words import counted


class Imported(NamedTuple):
    case: Case
    notes: List[str]  # what was taken for granted


class _Labelled(NamedTuple):
    """A table of cells without its labels."""

    cells: List[List[Cell]]
    rows: Optional[List[str]]
    columns: Optional[List[str]]


def _names(names: List[str]) -> Optional[List[str]]:
    """The names without empty ones at the end; none where all are empty."""
    while names and not names[-1]:
        names.pop()
    return names or None


def _say_row(sheet: Sheet, notes: Notes):
    notes.say(f"{sheet.name}: row {re.sub('.*[^0-9]', '', sheet.rows[0][0].where)} taken as names")


def _labelled(sheet: Sheet, notes: Notes, top: bool, left: bool) -> _Labelled:
    """Takes the labels off a sheet: of the first row, of the first column."""
    if top:
        _say_row(sheet, notes)
    if left:
        notes.say(f"{sheet.name}: column A taken as names")
    rows = sheet.rows[1:] if top else sheet.rows
    columns = [label(cell) for cell in sheet.rows[0][1 if left else 0 :]] if top else None
    return _Labelled([row[1 if left else 0 :] for row in rows], [label(row[0]) for row in rows] if left else None, columns)


def _named(row: List[Cell]) -> bool:
    """Whether a row holds a name, and not numbers alone."""
    return any(cell.value is not None and not is_number(cell) for cell in row)


def _length(row: List[Cell]) -> int:
    """The length of a row without the empty cells at its end."""
    return max((j for j, cell in enumerate(row, 1) if cell.value is not None), default=0)


def _joined(sheet: Sheet, row: List[Cell]) -> str:
    """A row of a text file as it was before its fields were parted."""
    return sheet.sign.join(str(cell.value) for cell in row if cell.value is not None)


def _covered(sheet: Sheet, names: int):
    """The first row, where it holds names, is as long as the others: a row that is longer may have a number that its comma parted."""
    for row in sheet.rows[1:]:
        if _length(row) > names:
            comma = f"; or a comma parted a number of {_joined(sheet, row)[:40]!r}" if sheet.sign == "," else ""
            raise BadSheet(f"{row[names].where}: row 1 has {counted(names, 'field')}, this row {_length(row)}; perhaps a name is missing there{comma}")


def _even(sheet: Sheet, start: int):
    """The sources of a tariff in commas have as many fields each: one more may be a number that its comma parted."""
    rows = sheet.rows[start:-1]
    least = min(sheet.fields[start : start + len(rows)], default=0)
    for row in rows if sheet.sign == "," else []:
        if _length(row) > least:
            raise BadSheet(f"{row[least].where}: this row has {counted(_length(row), 'field')}, another {least}; perhaps a comma parted a number of "
                           f"{_joined(sheet, row)[:40]!r}")


def _bare(cells: List[Cell], last: Cell, *words: str) -> bool:
    """Whether what would be names are numbers, and the cell at their end is not the word that says so."""
    return not _named(cells) and any(map(is_number, cells)) and str(last.value).strip().lower() not in words


def _tariff(sheet: Sheet, notes: Notes) -> Case:
    """Costs, supplies and demands with their names; the table is still to come."""
    if _named(sheet.rows[0][1:]):
        _covered(sheet, sheet.fields[0] if sheet.fields else len(sheet.rows[0]))
    _even(sheet, 1 if _named(sheet.rows[0][1:]) else 0)
    if len(sheet.rows[0]) > 1 and _length(sheet.rows[0]) == 1 and not is_number(sheet.rows[0][0]):
        raise BadSheet(f"{sheet.rows[0][0].where}: a row with a title alone; the first row has the names or a source")
    top, left = not is_number(sheet.rows[0][-1]), not is_number(sheet.rows[-1][0])
    if top and _bare(sheet.rows[0][1 if left else 0 : -1], sheet.rows[0][-1], "supply", "supplies"):
        raise BadSheet(f"{sheet.rows[0][-1].where}: the supply is missing; each source has its unit costs, then its supply "
                       "(where row 1 holds names that are numbers, write supply there)")
    if left and _bare([row[0] for row in sheet.rows[1 if top else 0 : -1]], sheet.rows[-1][0], "demand", "demands"):
        raise BadSheet(f"{sheet.rows[-1][0].where}: the demand of terminal 1 is missing or no number; the last row has the demands "
                       "(where column A holds names that are numbers, write demand there)")
    found = _labelled(sheet, notes, top, left)
    if len(found.cells) < 2 or len(found.cells[0]) < 2:
        raise BadSheet(f"{sheet.name} is too small: sources with their supplies, then the demands, are wanted")
    *sources, demands = found.cells
    if demands[-1].value is not None:
        raise BadSheet(f"{demands[-1].where} must be empty: the last row holds the demands, and no supply")
    costs = [[whole(cell, notes, signed=True) for cell in row[:-1]] for row in sources]
    supplies = [whole(row[-1], notes) for row in sources]
    rows = _names(found.rows[:-1]) if found.rows else None
    columns = _names(found.columns[:-1]) if found.columns else None
    return Case(costs, supplies, [whole(cell, notes) for cell in demands[:-1]], [], sources=rows, terminals=columns)


def _counts(rows: List[List[Cell]]) -> bool:
    """Whether the first column counts 0, 1, 2, ..."""
    return all(str(row[0].value).strip() == str(output) for output, row in enumerate(rows))


def _one_column(sheet: Sheet):
    """A production table without names has one column; in commas a longer row is a number that its comma parted."""
    odd = next((row for row in sheet.rows if _length(row) > 1), None)
    if odd is None:
        return
    if sheet.sign == "," and not _counts(sheet.rows):
        text = _joined(sheet, odd)
        raise BadSheet(f"{odd[0].where}: {text[:40]!r} {why_parted(text)}")
    raise BadSheet(f"{odd[1].where}: a second column without a name in row 1; perhaps a decimal comma or a thousands separator parted a number")


def _column(sheet: Sheet, notes: Notes) -> List[Cell]:
    """The column of entries; one before it counts the outputs 0, 1, 2, ..."""
    if not _named(sheet.rows[0]):
        _one_column(sheet)
        return [row[0] for row in sheet.rows]
    _say_row(sheet, notes)
    _covered(sheet, _length(sheet.rows[0]))
    if len(sheet.rows[0]) > 2:
        raise BadSheet(f"{sheet.name} has {len(sheet.rows[0])} columns; one of entries is wanted, or one of outputs and one of entries")
    rows = sheet.rows[1:]
    if len(sheet.rows[0]) == 2:
        for output, row in enumerate(rows):
            if whole(row[0], notes) != output:
                raise BadSheet(f"{row[0].where}: output {output} is wanted; the first column counts 0, 1, 2, ...")
        notes.say(f"{sheet.name}: column A counts the outputs")
    return [row[-1] for row in rows]


def _plants(names: List[str], case: Case, sheet: Sheet, notes: Notes):
    """Names of the least runs are those of the plants in the tariff, in its order; or `Plant 1` and `Plant 2`, or 1 and 2."""
    known = [name.strip() for name in case.sources or []]
    default = lambda k: {f"plant {k}", str(k)}
    for k, name in enumerate(map(str.strip, names), 1):
        due = known[k - 1] if k <= len(known) else ""
        if name in ("", due) or name.lower() in default(k) and not (due and name in known):
            continue
        if due or name.lower() in default(3 - k) or name in known:
            other = f"{due!r} in the tariff" if due else f"plant {k} is due"
            raise BadSheet(f"{sheet.name}: the least run of plant {k} is named {name!r}, but {other}; the order is the same in both")
        notes.say(f"{sheet.name}: {name} taken as plant {k}, which has no name in the tariff")


def _run_names(sheet: Sheet, rows: List[List[Cell]], top: bool, notes: Notes) -> List[str]:
    """The names of the two least runs: before each, or above each."""
    if top:
        _say_row(sheet, notes)
    if len(rows[0]) > (2 if len(rows) == 1 else 1):
        notes.say(f"{sheet.name}: column A taken as names")
    if len(rows) == 2:
        return [label(row[0]) for row in rows] if len(rows[0]) == 2 else []
    return [label(cell) for cell in sheet.rows[0][-2:]] if top else []


def _runs(sheet: Sheet, case: Case, notes: Notes) -> Tuple[int, int]:
    """Two least runs, below or beside each other, with or without names."""
    top = not is_number(sheet.rows[0][-1])
    if top:
        _covered(sheet, _length(sheet.rows[0]))
    rows = sheet.rows[1:] if top else sheet.rows
    before = [row[0] for row in rows if len(row) > (2 if len(rows) == 1 else 1)]  # what is read as a name
    if (len(rows), len(rows[0]) if rows else 0) in ((2, 1), (2, 2), (1, 2), (1, 3)) and (top or not any(map(is_number, before))):
        _plants(_run_names(sheet, rows, top, notes), case, sheet, notes)
        return (whole(rows[0][-1], notes), whole(rows[1][-1], notes)) if len(rows) == 2 else (whole(rows[0][-2], notes), whole(rows[0][-1], notes))
    raise BadSheet(f"{sheet.name}: two numbers are wanted, the least run of each plant, each with its name before it or without names")


def _same(names: Optional[List[str]], due: Optional[List[str]], sheet: str, what: str):
    """Names of a second sheet are those of the tariff, in its order."""
    for k, (one, other) in enumerate(zip(names or [], due or []), 1):
        if one and one != other:
            raise BadSheet(f"{sheet}: {what} {k} is named {one!r}, but {other!r} in the tariff; the order is the same in both")


def _ceilings(sheet: Sheet, case: Case, notes: Notes) -> List[List[int]]:
    m, n = len(case.supplies), len(case.demands)
    top, left = len(sheet.rows) == m + 1, len(sheet.rows[0]) == n + 1
    names = (sheet.rows[0][1 if left else 0 :] if top and not case.terminals else []), ([row[0] for row in sheet.rows] if left and not top else [])
    numbers = any(part and all(map(is_number, part)) for part in names)  # numbers where names are wanted: a row too many, or a parted number
    if numbers or not top and len(sheet.rows) > m or not left and len(sheet.rows[0]) > n:
        raise BadSheet(f"{sheet.name} has {len(sheet.rows)} rows and {len(sheet.rows[0])} columns; {m} sources and {n} terminals, perhaps with names, are wanted")
    if top:
        _covered(sheet, sheet.fields[0] if sheet.fields else len(sheet.rows[0]))
    found = _labelled(sheet, notes, top, left)
    _same(found.rows, case.sources, sheet.name, "source")
    _same(found.columns, case.terminals, sheet.name, "terminal")
    ceilings = [[MOST_AMOUNT] * n for _ in range(m)]
    for i, row in enumerate(found.cells):
        for j, cell in enumerate(row):
            if cell.value is not None or cell.formula:
                ceilings[i][j] = whole(cell, notes)
    if any(cell.value is None for row in found.cells for cell in row) or len(found.cells) < m or len(found.cells[0]) < n:
        notes.say(f"{sheet.name}: an empty cell is no ceiling")
    return ceilings


def _about(sheet: Sheet) -> Dict[str, str]:
    """Title, currency and date, each in a row beside its name."""
    found = {}
    for row in sheet.rows:
        name = str(row[0].value or "").strip().lower()
        if name not in ("title", "currency", "date"):
            raise BadSheet(f"{row[0].where}: title, currency or date is wanted, not {name!r}")
        value = row[1].value if len(row) > 1 else None
        found[name] = value.date().isoformat() if hasattr(value, "date") else label(row[1]) if value is not None else ""
    return found


def case_of(sheets: Dict[str, Sheet], notes: Notes) -> Case:
    """The case of the sheets, by their names."""
    for name in ("tariff", "production"):
        if name not in sheets:
            raise BadSheet(f"a sheet named {name} is wanted; there {'is' if len(sheets) == 1 else 'are'} {', '.join(sheets) or 'none'}")
    tariff, table = sheets["tariff"].rows, sheets["production"].rows
    if len(tariff[0]) <= 2 < len(table[0]) and all(_length(row) > 2 for row in table[:-1]):
        raise BadSheet("the tariff has one column or two and the production table several; perhaps the two are swapped")
    gather_thousands(sheets.values(), notes)
    case = _tariff(sheets["tariff"], notes)
    case = case._replace(table=[whole(cell, notes) for cell in _column(sheets["production"], notes)])
    if "runs" in sheets:
        case = case._replace(runs=_runs(sheets["runs"], case, notes))
    if "ceilings" in sheets:
        ceilings = _ceilings(sheets["ceilings"], case, notes)
        case = case._replace(ceilings=ceilings if any(one != MOST_AMOUNT for row in ceilings for one in row) else None)
    if "about" in sheets:
        case = case._replace(**_about(sheets["about"]))
    return read_again(check_names(case))


def import_book(path: str, thousands: str = "") -> Imported:
    """The case of a workbook, or a `BadSheet`, or the reader's refusal."""
    notes = Notes(thousands)
    return Imported(case_of(book_sheets(path, notes), notes), notes.all())


def import_files(paths: Dict[str, str], thousands: str = "") -> Imported:
    """The same of text files, by the names of the sheets."""
    notes = Notes(thousands)
    sheets = {name: text_sheet(name, path, notes) for name, path in paths.items()}
    return Imported(case_of(sheets, notes), notes.all())
