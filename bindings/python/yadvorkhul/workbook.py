"""Workbooks: the template, and a case with its plan. Needs openpyxl (Debian: python3-openpyxl).

The sheets `tariff`, `production`, `runs`, `ceilings` and `about` are those that `import` reads, so what is exported can be imported again.
The formulas of the sheet `certificate` add up by themselves what `check_certificate.py` checks (docs/certificate.md).
"""

import io
import re
from typing import Any, List, Optional, Sequence

from . import MOST_AMOUNT, Case, Plan
from .certificate import Cells, base_formula, bound_formula, certificate, rise_formula, shown_formula, why
from .curve import curve_of
from .files import write_case
from .forms import fingerprint, plan_fingerprint
from .sheets import INSTALL, BadSheet, column_name

_INPUT, _HEAD, _SUM = "FFF8E1", "E8EDF2", "F3F5F7"  # colours of cells that are typed, of labels, of sums
_WIDEST = 28

EXAMPLE = Case(
    costs=[[2, 6], [5, 3], [1, 4]],
    supplies=[3, 3, 1],
    demands=[3, 2],
    table=[99, 20, 24, 20],
    title="Write your own numbers over these",
    sources=["Plant 1", "Plant 2", "Depot 3"],
    terminals=["Room A", "Room B"],
    currency="EUR",
)


def _openpyxl() -> Any:
    try:
        import openpyxl
    except ImportError as error:
        raise ImportError(f"workbooks need openpyxl, which this Python does not have. On Debian: {INSTALL}, then /usr/bin/python3.") from error
    return openpyxl


def _text(value: str) -> str:
    """A text as a workbook holds it; one that looks like a coded character is coded itself."""
    bad = re.search("[\x00-\x08\x0b\x0c\x0e-\x1f\ufffe\uffff]", value)
    if bad:
        raise BadSheet(f"{value!r} holds a character that no workbook can hold")
    return re.sub("_(?=x[0-9A-Fa-f]{4}_)", "_x005F_", value)


def _put(sheet, row: int, column: int, value, colour: str = ""):
    """A cell; a text is never a formula, whatever it begins with."""
    from openpyxl.styles import Font, PatternFill

    cell = sheet.cell(row, column)
    if isinstance(value, str):
        cell.value = _text(value)
        cell.data_type = "s"
        cell.quotePrefix = value[:1] in "=+-@'"
    else:
        cell.value = value
        cell.number_format = "#,##0" if type(value) is int else "General"
    if colour:
        cell.fill = PatternFill("solid", fgColor=colour)
        cell.font = Font(bold=colour == _HEAD)
    return cell


def _row(sheet, row: int, values: Sequence, colour: str = "", column: int = 1):
    for k, value in enumerate(values):
        if value is not None:
            _put(sheet, row, column + k, value, colour)


def _formula(sheet, row: int, column: int, formula: str):
    sheet.cell(row, column).value = "=" + formula


def _fit(sheet, freeze: str = ""):
    """Columns as wide as what stands in them, within reason."""
    wide = {}
    for row in sheet.iter_rows():
        for cell in row:
            if cell.value is not None and cell.data_type != "f":
                wide[cell.column] = max(wide.get(cell.column, 0), len(str(cell.value)))
    for column, letters in wide.items():
        sheet.column_dimensions[column_name(column - 1)].width = min(_WIDEST, letters + 3)
    if freeze:
        sheet.freeze_panes = freeze


class _Place:
    """Where the numbers of a case stand in its sheets: they begin below and beside the names, where there are some."""

    def __init__(self, case: Case):
        self.m, self.n = len(case.supplies), len(case.demands)
        self.named = case.sources is not None or case.terminals is not None
        self.top = self.left = 2 if self.named else 1

    def column(self, j: int) -> str:
        return column_name(self.left - 1 + j)

    def area(self, sheet: str, i: int, j: int, k: int, l: int) -> str:
        """Source i to k, terminal j to l, as a range that does not move."""
        return f"{sheet}!${self.column(j)}${self.top + i}:${self.column(l)}${self.top + k}"


def _named(names: Optional[List[str]], count: int) -> List[str]:
    names = list(names or [])
    return names + [""] * (count - len(names))


def _inputs(book, case: Case, place: _Place):
    """The sheets that `import` reads."""
    m, n, top, left = place.m, place.n, place.top, place.left
    tariff, production = book.create_sheet("tariff"), book.create_sheet("production")
    runs, ceilings, about = book.create_sheet("runs"), book.create_sheet("ceilings"), book.create_sheet("about")
    sources, terminals = _named(case.sources, m), _named(case.terminals, n)
    if place.named:
        _row(tariff, 1, ["unit cost"] + terminals + ["supply"], _HEAD)
        _row(ceilings, 1, ["ceiling"] + terminals, _HEAD)
        for i, name in enumerate(sources + ["demand"]):
            _put(tariff, top + i, 1, name, _HEAD)
            if i < m:
                _put(ceilings, top + i, 1, name, _HEAD)
    for i in range(m):
        _row(tariff, top + i, list(case.costs[i]) + [case.supplies[i]], _INPUT, left)
        _row(ceilings, top + i, case.ceilings[i] if case.ceilings else [MOST_AMOUNT] * n, _INPUT, left)
    _row(tariff, top + m, list(case.demands), _INPUT, left)
    _row(production, 1, ["output", "cost of both plants"], _HEAD)
    for y, entry in enumerate(case.table):
        _put(production, y + 2, 1, y, _HEAD)
        _put(production, y + 2, 2, entry, _INPUT)
    _row(runs, 1, ["plant", "least run"], _HEAD)
    for i in range(2):
        _row(runs, i + 2, [sources[i] or f"Plant {i + 1}", case.runs[i]], _INPUT)
    for k, (name, value) in enumerate((("title", case.title), ("currency", case.currency), ("date", case.date)), 1):
        _row(about, k, [name, value or None], _INPUT)
    for sheet, freeze in ((tariff, "B2" if place.named else ""), (production, "A2"), (runs, "A2"), (ceilings, "B2" if place.named else ""), (about, "")):
        _fit(sheet, freeze)


_HELP = [
    "Fill in the yellow cells, then: yadvorkhul import BOOK.xlsx -o case.json",
    "tariff: a row for each source, the two plants first. Unit costs to the terminals (a rebate has a minus), then the supply.",
    "The last row has the demands; the cell below the supplies stays empty. Row 1 and column A are names.",
    "production: one entry for each output of plant 1, from 0 to its supply: the cost of both plants together.",
    "runs: the least that each plant must make; 0 for none. ceilings: the most that a lane carries; 4,000 or empty for none, 0 for a closed lane.",
    "about: title, currency and date, each if you like.",
    "Numbers are whole. Decimals, 00412 and signs behind a number are refused with their cell, never guessed.",
]


def _saved(book) -> bytes:
    out = io.BytesIO()
    book.save(out)
    return out.getvalue()


def template() -> bytes:
    """The workbook to fill in, with a small case in it."""
    book = _openpyxl().Workbook()
    book.active.title = "how"
    for k, sentence in enumerate(_HELP, 1):
        _put(book.active, k, 1, sentence)
    book.active.column_dimensions["A"].width = 120
    _inputs(book, EXAMPLE, _Place(EXAMPLE))
    return _saved(book)


# a case with its plan --------------------------------------------------------------------------------------------------------------


def _plan_sheet(book, case: Case, plan: Plan, sources: List[str], terminals: List[str]):
    """The drums on every lane with their sums."""
    sheet = book.create_sheet("plan", 0)
    m, n = len(sources), len(terminals)
    _row(sheet, 1, ["drums from \\ to"] + terminals + ["drums", "of", "freight"], _HEAD)
    for i, amounts in enumerate(plan.amounts):
        _put(sheet, i + 2, 1, sources[i], _HEAD)
        _row(sheet, i + 2, [x or None for x in amounts], "", 2)
        freight = sum(x * c for x, c in zip(amounts, case.costs[i]))
        _row(sheet, i + 2, [sum(amounts), case.supplies[i], freight], _SUM, n + 2)
    down = list(zip(*plan.amounts))
    freights = [sum(x * case.costs[i][j] for i, x in enumerate(down[j])) for j in range(n)]
    _row(sheet, m + 2, ["drums"] + [sum(column) for column in down] + [sum(map(sum, plan.amounts))], _SUM)
    _row(sheet, m + 3, ["freight"] + freights + [None, None, plan.freight], _SUM)
    made = sum(plan.amounts[0]) + sum(plan.amounts[1])
    told = [(f"{sources[0]} makes", plan.split), (f"{sources[1]} makes", made - plan.split), ("production", case.table[plan.split])]
    told += [("freight", plan.freight), ("total", plan.total), ("currency", case.currency or None), ("date", case.date or None)]
    told += [("fingerprint of the case", fingerprint(case)), ("fingerprint of the plan", plan_fingerprint(case, plan))]
    for k, (name, value) in enumerate(told):
        _row(sheet, m + 5 + k, [name, value])
    _fit(sheet, "B2")
    sheet.column_dimensions["B"].width = 14


def _lanes_sheet(book, case: Case, plan: Plan, sources, terminals):
    """The lanes in use as a list."""
    sheet = book.create_sheet("lanes", 1)
    _row(sheet, 1, ["source", "terminal", "from", "to", "drums", "unit cost", "cost", "ceiling"], _HEAD)
    row = 2
    for i, amounts in enumerate(plan.amounts):
        for j, x in enumerate(amounts):
            if x:
                ceiling = case.ceilings[i][j] if case.ceilings and case.ceilings[i][j] < MOST_AMOUNT else None
                _row(sheet, row, [i + 1, j + 1, sources[i], terminals[j], x, case.costs[i][j], x * case.costs[i][j], ceiling])
                row += 1
    _fit(sheet, "A2")


def _curve_sheets(book, case: Case, plan: Plan, sources):
    """Every split, and the local minima."""
    curve, made = curve_of(plan, case.table), sum(case.demands) - sum(case.supplies[2:])
    sheet = book.create_sheet("curve", 2)
    stops = {split for split, _ in plan.stops}
    _row(sheet, 1, [sources[0], sources[1], "production", "freight", "total", "more than the least", "stop"], _HEAD)
    for k, s in enumerate(curve.splits, 2):
        _row(sheet, k, [s.split, made - s.split, s.production, s.freight, s.total, s.total - plan.total, "stop" if s.split in stops else None])
    _fit(sheet, "A2")
    sheet = book.create_sheet("local minima", 3)
    _row(sheet, 1, [f"{sources[0]} from", "to", "production", "freight", "total", "more than the least"], _HEAD)
    for k, v in enumerate(sorted(curve.valleys, key=lambda v: (v.more, v.first.split)), 2):
        _row(sheet, k, [v.first.split, v.last.split, v.first.production, v.first.freight, v.first.total, v.more])
    _fit(sheet, "A2")


def _prices_sheet(book, pieces, sources, terminals) -> int:
    """A column of prices at the sources for each piece, below them a row of prices at the terminals; answers the first such row."""
    sheet = book.create_sheet("prices", 4)
    m = len(sources)
    _row(sheet, 1, ["price at \\ piece"] + list(range(1, len(pieces) + 1)), _HEAD)
    for i, name in enumerate(sources):
        _row(sheet, i + 2, [name] + [piece.sources[i] for piece in pieces])
    _row(sheet, m + 3, ["piece \\ price at"] + terminals, _HEAD)
    for k, piece in enumerate(pieces):
        _row(sheet, m + 4 + k, [k + 1] + piece.terminals)
    _fit(sheet, "B2")
    return m + 4


def _cells(place: _Place, k: int, first: int) -> Cells:
    """Where the case and the prices of piece k stand."""
    m, n, column = place.m, place.n, column_name(k + 1)
    price = lambda i, j: f"prices!${column}${i + 2}:${column}${j + 2}"
    return Cells(
        costs=place.area("tariff", 0, 0, m - 1, n - 1),
        ceilings=place.area("ceilings", 0, 0, m - 1, n - 1),
        demands=place.area("tariff", m, 0, m, n - 1),
        stocks=place.area("tariff", 2, n, m - 1, n) if m > 2 else "",
        made="$B$3",
        plant1=f"prices!${column}$2",
        plant2=f"prices!${column}$3",
        sources=price(0, m - 1),
        depots=price(2, m - 1) if m > 2 else "",
        terminals=f"prices!$B${first + k}:${column_name(n)}${first + k}",
    )


def _ties(place: _Place, entries: int, start: int, last: int):
    """Formulas that tie split, total and the splits listed to the case and to the sheet `plan`, each with what it says."""
    m, n = place.m, place.n
    end = column_name(n)
    plan, line = f"plan!$B$2:${end}${m + 1}", lambda i: f"SUM(plan!$B${i + 2}:${end}${i + 2})"
    supply = lambda i: place.area("tariff", i, n, i, n).split(":")[0]
    down = lambda j: f"SUM(plan!${column_name(j + 1)}$2:${column_name(j + 1)}${m + 1})"
    costs, ceilings = (place.area(sheet, 0, 0, m - 1, n - 1) for sheet in ("tariff", "ceilings"))
    yield "plant 1 sends the split given", f"{line(0)}=$B$1"
    yield "freight and production are the total given", f"SUMPRODUCT({costs},{plan})+INDEX(production!$B$2:$B${entries + 1},$B$1+1)=$B$2"
    for i in (0, 1):
        yield f"plant {i + 1} keeps run and supply", f"AND({line(i)}>=runs!$B${i + 2},{line(i)}<={supply(i)})"
    yield "each depot sends its stock", f"AND({','.join(['TRUE'] + [f'{line(i)}={supply(i)}' for i in range(2, m)])})"
    demand = lambda j: place.area("tariff", m, j, m, j).split(":")[0]
    yield "each terminal gets its demand", f"AND({','.join(f'{down(j)}={demand(j)}' for j in range(n))})"
    yield "no lane is below 0 or above its ceiling", f"SUMPRODUCT(({plan}>{ceilings})+({plan}<0))=0"
    yield "the first split is the lowest", f"$A${start}=MAX(runs!$B$2,$B$3-{supply(1)})"
    yield "the last split is the highest", f"$A${last}=MIN({supply(0)},$B$3-runs!$B$3)"
    if start < last:
        step = f"$A${start + 1}:$A${last}-$A${start}:$A${last - 1}"
        yield "no split between is left out", f"SUMPRODUCT(({step}<0)+({step}>1))=0"


def _certificate_sheet(book, case: Case, plan: Plan, place: _Place, sources, terminals):
    """Why no plan is cheaper, as formulas over the other sheets: a line for each set of prices, then one for each split."""
    found = why(certificate(case, plan))
    if not found.right:
        raise ValueError(f"the certificate does not show the plan: {found.sentence}")
    first = _prices_sheet(book, found.pieces, sources, terminals)
    sheet = book.create_sheet("certificate", 5)
    stock = place.area("tariff", 2, place.n, place.m - 1, place.n) if place.m > 2 else ""
    _row(sheet, 1, ["split given", plan.split])
    _row(sheet, 2, ["total given", plan.total])
    _put(sheet, 3, 1, "both plants make")
    _formula(sheet, 3, 2, f"SUM({place.area('tariff', place.m, 0, place.m, place.n - 1)})" + (f"-SUM({stock})" if stock else ""))
    start = 8 + len(found.pieces)
    _put(sheet, 4, 1, "no plan is cheaper")
    last = start + sum(len(piece.bounds) for piece in found.pieces) - 1
    ties = list(_ties(place, len(case.table), start, last))
    _formula(sheet, 4, 2, f"AND($F${start}:$F${last},$F${last + 2}:$F${last + 1 + len(ties)})")
    for k, (name, formula) in enumerate(ties, last + 2):
        _put(sheet, k, 1, name)
        _formula(sheet, k, 6, formula)
    _row(sheet, 5, ["piece", "from split", "to split", "no plan there", "bound = base", "+ rise × split"], _HEAD)
    for k, piece in enumerate(found.pieces):
        cells = _cells(place, k, first)
        _row(sheet, 6 + k, [k + 1, piece.first, piece.last, "no plan" if piece.none else None])
        _formula(sheet, 6 + k, 5, base_formula(cells, piece.none))
        _formula(sheet, 6 + k, 6, rise_formula(cells))
    _row(sheet, start - 1, ["split", "piece", "bound", "production", "together", "shown"], _HEAD)
    row = start
    for k, piece in enumerate(found.pieces):
        for bound in piece.bounds:
            _row(sheet, row, [bound.split, k + 1])
            _formula(sheet, row, 3, bound_formula(f"$E${6 + k}", f"$F${6 + k}", f"A{row}"))
            _formula(sheet, row, 4, f"INDEX(production!$B$2:$B${len(case.table) + 1},A{row}+1)")
            _formula(sheet, row, 5, f"C{row}+D{row}")
            _formula(sheet, row, 6, shown_formula(f"C{row}", f"D{row}", "$B$2", f"A{row}", "$B$1", piece.none))
            row += 1
    _fit(sheet, "A6")


def export_book(case: Case, plan: Plan) -> bytes:
    """A workbook of a case and its plan; or refusal 32 of the proved writer, by an entry that could not be imported again."""
    write_case(case)
    book, place = _openpyxl().Workbook(), _Place(case)
    book.remove(book.active)
    m, n = place.m, place.n
    sources = [name or (f"Plant {i + 1}" if i < 2 else f"Depot {i + 1}") for i, name in enumerate(_named(case.sources, m))]
    terminals = [name or f"Terminal {j + 1}" for j, name in enumerate(_named(case.terminals, n))]
    _inputs(book, case, place)
    _plan_sheet(book, case, plan, sources, terminals)
    _lanes_sheet(book, case, plan, sources, terminals)
    _curve_sheets(book, case, plan, sources)
    _certificate_sheet(book, case, plan, place, sources, terminals)
    return _saved(book)
