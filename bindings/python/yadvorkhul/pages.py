"""The page of a plan or of a refusal: one HTML file with nothing outside it. Needs Jinja2, and Matplotlib for the picture.

Nothing here is proved. The numbers of the plan come from the proved function; the page adds them up once more and stops where they do
not balance.
"""

import base64
import contextlib
import hashlib
import os
import re
import sys
import threading
from typing import TYPE_CHECKING, Any, Callable, Iterable, Iterator, List, NamedTuple, Optional, Tuple

from . import MOST_AMOUNT, Bounds, Case, Plan, Refusal, __version__
from .again import Drum, one_more
from .cases import check_names
from .curve import Curve, curve_of, within
from .files import File, plan_text, read_case
from .forms import fingerprint, plan_fingerprint, spoken
from .outputs import shown
from .refusals import explain
from .words import counted, grouped, percent

if TYPE_CHECKING:
    from .batch import Summary
    from .compare import Compared

INSTALL = "apt-get install -y python3-jinja2 python3-matplotlib"
ROOM = 150  # millimetres that the terminals have beside each other on paper, and the sums of the rows with them
SUMS = 46  # millimetres that the sums take
LETTER, EDGE = 1.35, 3.2  # millimetres of a letter of 7 points, and of the edges of a cell
TALL = 18  # sources beyond which unit cost and cost stand beside each other on paper, so that a part fits on a page
FEW = 6  # terminals of a table that is printed in larger letters
WITHIN_SHOWN = 6  # stretches of splits that are nearly as cheap
RIVALS_SHOWN = 12
OFTEN_SHOWN = 30  # splits of a batch
STOPS_SHOWN = 60


class MissingLibrary(ImportError):
    """A library that only the page needs is not there."""


_LOADING = threading.Lock()  # the folder and the environment are the whole process's


@contextlib.contextmanager
def _no_settings(name: str) -> Iterator[None]:
    """Loads Matplotlib for the first time without the settings of the current folder and of the user, which need not even be text. Those of
    the folder come first whatever MATPLOTLIBRC says, so where there are some it is left meanwhile."""
    if name != "matplotlib" or name in sys.modules:
        yield
        return
    before, here = os.environ.get("MATPLOTLIBRC"), None
    os.environ["MATPLOTLIBRC"] = os.devnull
    try:
        if os.path.exists("matplotlibrc"):
            here = os.open(".", os.O_RDONLY)
            os.chdir(TEMPLATES)
        yield
    finally:
        if here is not None:
            os.chdir(here)
            os.close(here)
        if before is None:
            del os.environ["MATPLOTLIBRC"]
        else:
            os.environ["MATPLOTLIBRC"] = before


def _needed(name: str) -> Any:
    import importlib

    try:
        with _LOADING, _no_settings(name):
            return importlib.import_module(name)
    except ImportError as error:
        raise MissingLibrary(
            f"the page needs {name}, which this Python does not have. On Debian: {INSTALL}, then run it by /usr/bin/python3. "
            "`plan` works without it."
        ) from error
    except Exception as error:
        raise MissingLibrary(f"the page needs {name}, which this Python cannot load: {error}") from error


class Lane(NamedTuple):
    source: int  # from 1, as are terminals
    terminal: int
    amount: int
    unit: int  # its unit cost
    cost: int
    ceiling: Optional[int]  # None where there is no bound
    full: bool  # it carries as much as its ceiling, and more than nothing


class Row(NamedTuple):
    """A source with its lanes and their sums."""

    name: str
    lanes: List[Lane]
    sent: int
    limit: int  # a plant's capacity, a depot's stock
    plant: bool
    freight: int


class Column(NamedTuple):
    """A terminal with the sums of its lanes."""

    name: str
    got: int
    demand: int
    freight: int


def _lane(case: Case, plan: Plan, i: int, j: int) -> Lane:
    amount, unit = plan.amounts[i][j], case.costs[i][j]
    ceiling = case.ceilings[i][j] if case.ceilings else MOST_AMOUNT
    bound = ceiling if ceiling < MOST_AMOUNT else None
    return Lane(i + 1, j + 1, amount, unit, amount * unit, bound, amount > 0 and amount == bound)


def _names(given: Optional[Iterable[str]], count: int, default: Callable[[int], str]) -> List[str]:
    given = list(given or [])
    return [given[i] if i < len(given) and given[i] else default(i) for i in range(count)]


def _source_name(i: int) -> str:
    return f"Plant {i + 1}" if i < 2 else f"Depot {i + 1}"


def _balance(case: Case, plan: Plan, rows: List[Row], columns: List[Column]):
    """Stops where the sums at the edges are not those of the case and the plan."""
    made = sum(case.demands) - sum(case.supplies[2:])
    due = [plan.split, made - plan.split] + list(case.supplies[2:])
    good = [row.sent for row in rows] == due and [column.got for column in columns] == list(case.demands)
    freight = sum(row.freight for row in rows)
    if not good or freight != plan.freight or freight != sum(column.freight for column in columns):
        raise ValueError("the plan does not balance")


def _grid(case: Case, plan: Plan):
    m, n = len(case.supplies), len(case.demands)
    lanes = [[_lane(case, plan, i, j) for j in range(n)] for i in range(m)]
    sources = _names(case.sources, m, _source_name)
    terminals = _names(case.terminals, n, lambda j: f"Terminal {j + 1}")
    rows = [
        Row(sources[i], lanes[i], sum(lane.amount for lane in lanes[i]), case.supplies[i], i < 2, sum(lane.cost for lane in lanes[i]))
        for i in range(m)
    ]
    down = list(zip(*lanes))
    columns = [
        Column(terminals[j], sum(lane.amount for lane in down[j]), case.demands[j], sum(lane.cost for lane in down[j])) for j in range(n)
    ]
    _balance(case, plan, rows, columns)
    return rows, columns


def _data(text: str) -> str:
    """A file inside the page."""
    return "data:text/csv;charset=utf-8;base64," + base64.b64encode(text.encode()).decode()


def _blocks(rows: List[Row]):
    """Terminals by parts that fit on paper, by the longest number of a lane; the first one leaves room for the sums of the rows."""
    parts = [(f"\u00d7 {grouped(lane.unit)}", f"= {grouped(lane.cost)}") for row in rows for lane in row.lanes if lane.amount]
    beside = len(rows) > TALL
    most = max([len(" ".join(pair)) if beside else max(map(len, pair)) for pair in parts] + [5])
    wide = most * LETTER + EDGE
    n, first, later = len(rows[0].lanes), int((ROOM - SUMS) // wide), int(ROOM // wide)
    ends = [0, min(n, max(2, first))]
    while ends[-1] < n:
        ends.append(min(n, ends[-1] + later))
    return [range(a, b) for a, b in zip(ends, ends[1:])]


class Help(NamedTuple):
    """One drum more (of a run: less), in words."""

    name: str
    now: int
    change: Optional[int]
    words: str  # instead of a change


def _help(drum: Drum, rows: List[Row], columns: List[Column]) -> Help:
    source, terminal = (names[k - 1].name if k else "" for names, k in ((rows, drum.source), (columns, drum.terminal)))
    name = f"{source} \u2192 {terminal}" if drum.kind == "ceiling" else source or terminal
    words = ""
    if drum.below is not None:
        words = f"worth it if the entry for {grouped(drum.asked)} is below {grouped(drum.below)}" if drum.below > 0 else "worth nothing at any entry"
    elif drum.change is None:
        words = f"no plan (refusal {drum.refusal})"
    return Help(name, drum.now, drum.change, words)


_HELPS = (
    (("ceiling",), "One drum more on a lane that is full or closed"),
    (("demand",), "One drum more of demand"),
    (("supply", "stock"), "One drum more that a plant can make, or that a depot holds"),
    (("run",), "A least run one drum lower"),
)


def _helps(case: Case, plan: Plan, rows: List[Row], columns: List[Column]):
    """What one drum more would change, by kinds; the lanes that help most come first."""
    drums = one_more(case, plan)
    found = []
    for kinds, title in _HELPS:
        some = [_help(drum, rows, columns) for drum in drums if drum.kind in kinds]
        if kinds == ("ceiling",):
            some.sort(key=lambda one: one.change if one.change is not None else 0)
        if some:
            found.append((title, some))
    return found


def _signs(text: str):
    """Text of a file, with the names of bytes that have no sign of their own set small."""
    from markupsafe import Markup, escape

    return Markup(re.sub("\u2039(\\w+)\u203a", r'<span class="sign">\1</span>', str(escape(text))))


def _isolated(sentence: str, paths: Iterable[str]):
    """A sentence with a capital, its paths set apart: a mark in them that turns the direction of writing must not reach the numbers."""
    from markupsafe import Markup, escape

    found = escape(sentence[0].upper() + sentence[1:])
    for path in sorted(set(paths), key=len, reverse=True):
        found = Markup(found.replace(escape(path), Markup(f"<bdi>{escape(shown(path))}</bdi>")))
    return found


_INITIATORS, _END = "\u2066\u2067\u2068", "\u2069"


def _apart(text: str) -> str:
    """A name for an attribute or a title, where no element can set it apart: within an isolate that no mark of its own ends."""
    bare = text.replace(_END, "")
    return "\u2068" + bare + _END * (1 + sum(sign in _INITIATORS for sign in bare))


TEMPLATES = os.path.join(os.path.dirname(os.path.abspath(__file__)), "templates")


def _script() -> Tuple[str, str]:
    """The script of the page, and the source that its security policy names: no other script runs."""
    with open(os.path.join(TEMPLATES, "copy.js"), encoding="utf-8") as stream:
        script = stream.read()
    digest = base64.b64encode(hashlib.sha256(script.encode()).digest()).decode()
    return script, f"'sha256-{digest}'"


def _environment():
    jinja2 = _needed("jinja2")
    environment = jinja2.Environment(
        loader=jinja2.FileSystemLoader(TEMPLATES), autoescape=True, trim_blocks=True, lstrip_blocks=True, undefined=jinja2.StrictUndefined
    )
    environment.filters.update(number=grouped, signs=_signs, isolated=_isolated, apart=_apart, path=shown)
    environment.globals.update(percent=percent, counted=counted)
    return environment


def _rivals(curve: Curve):
    """The local minima without the one given, the cheapest first."""
    return sorted((v for v in curve.valleys if v.first is not curve.given), key=lambda v: (v.more, v.first.split))


def picture(case: Case, plan: Plan) -> str:
    """The picture alone, as an SVG file."""
    _needed("matplotlib")
    from .picture import svg

    return svg(curve_of(plan, case.table), plan.stops, plant=_names(case.sources, 1, lambda _: "plant 1")[0]) + "\n"


def plan_page(case: Case, plan: Plan, read_from: Iterable[str] = ()) -> str:
    """The page of a plan; `read_from` names the files that the case was read from."""
    environment = _environment()
    _needed("matplotlib")
    from .certificate import why_cheapest
    from .picture import svg

    curve = curve_of(plan, case.table)
    rows, columns = _grid(case, plan)
    blocks = _blocks(rows)
    script, script_source = _script()
    prints = fingerprint(case), plan_fingerprint(case, plan)
    return environment.get_template("plan.html").render(
        case=case,
        why=why_cheapest(case, plan),
        title=case.title or "Production and freight plan",
        read_from=list(read_from),
        plan=plan,
        curve=curve,
        made=rows[0].sent + rows[1].sent,
        rows=rows,
        columns=columns,
        blocks=blocks,
        wide=len(blocks) > 1,
        few=len(columns) <= FEW,
        tall=len(rows) > TALL,
        used=[lane for row in rows for lane in row.lanes if lane.amount],
        bounded=any(lane.ceiling is not None for row in rows for lane in row.lanes),
        within=within(curve),
        within_shown=WITHIN_SHOWN,
        helps=_helps(case, plan, rows, columns),
        prints=[(spoken(one), one) for one in prints],
        version=__version__,
        rivals=_rivals(curve),
        rivals_shown=RIVALS_SHOWN,
        stops_shown=STOPS_SHOWN,
        broad=svg(curve, plan.stops, 8.4, "broad", rows[0].name),
        slim=svg(curve, plan.stops, 4.2, "slim", rows[0].name),
        plan_file=_data(plan_text(case, plan)),
        script=script,
        script_source=script_source,
    )


def compare_page(found: "Compared") -> str:
    """The page of two cases beside each other, a `Compared`."""
    environment = _environment()
    _needed("matplotlib")
    from .compare import by_name
    from .picture import two_curves

    planned = [side for side in found.sides if side.plan]
    name = _names(found.sides[0].case.sources, 1, lambda _: "plant 1")[0]
    letters = [letter for letter, side in zip("AB", found.sides) if side.plan]
    drawn = two_curves([curve_of(side.plan, side.case.table) for side in planned], letters, plant=name) if planned else ""
    prints = [(what, spoken(one), spoken(other), one == other != "") for what, one, other in found.prints]
    return environment.get_template("compare.html").render(
        title="Two plans beside each other",
        found=found,
        by_name=by_name(found),
        picture=drawn,
        prints=prints,
        version=__version__,
        script_source="'none'",
    )


def batch_page(found: "Summary", source: str, case: Optional[Case] = None) -> str:
    """The page of many answers, a `batch.Summary`."""
    environment = _environment()
    _needed("matplotlib")
    from . import _MEANINGS
    from .picture import histograms

    name = _names(case.sources if case else None, 1, lambda _: "Plant 1")[0]
    often = sorted(found.splits.items(), key=lambda pair: (-pair[1], pair[0]))[:OFTEN_SHOWN]
    return environment.get_template("batch.html").render(
        title="Many cases",
        found=found,
        source=source,
        case_title=case.title if case else "",
        name=name,
        often=often,
        meanings=_MEANINGS,
        picture=histograms(found.splits, found.totals, plant=name) if found.totals else "",
        version=__version__,
        script_source="'none'",
    )


def bounds_page(case: Case, high: List[int], found: Bounds) -> str:
    """The page of what can be the cheapest between two tables, a `Bounds`; the case has the low one."""
    environment = _environment()
    _needed("matplotlib")
    from .curve import freights
    from .picture import band

    name = _names(case.sources, 1, lambda _: "Plant 1")[0]
    curve = freights(case.plan().stops)
    if len(curve) != len(found.possible):
        raise ValueError("the splits of the plan and of the bounds do not agree")
    stretches: List[Tuple[int, int]] = []
    for split in (found.first + k for k, can in enumerate(found.possible) if can):
        first = stretches.pop()[0] if stretches and stretches[-1][1] == split - 1 else split
        stretches.append((first, split))
    return environment.get_template("bounds.html").render(
        title=case.title or "What can be the cheapest",
        name=name,
        found=found,
        count=sum(found.possible),
        stretches=stretches,
        rows=[(found.first + k, can, f + case.table[found.first + k], f + high[found.first + k]) for k, (can, f) in enumerate(zip(found.possible, curve))],
        picture=band(found.first, found.possible, curve, case.table, high, plant=name),
        version=__version__,
        script_source="'none'",
    )


def refusal_page(refusal: Refusal, case: Optional[Case] = None, tariff: Optional[File] = None, production: Optional[File] = None) -> str:
    """The page of a refusal."""
    told = explain(refusal, case, tariff, production)
    title = case.title if case and case.title else "No plan"
    files = [file.path for file in (tariff, production) if file]
    return _environment().get_template("refusal.html").render(title=title, told=told, read_from=files, script_source="'none'")


def case_page(case: Case, tariff: Optional[File] = None, production: Optional[File] = None) -> str:
    """The page of a case, planned or refused."""
    check_names(case)
    try:
        plan = case.plan()
    except Refusal as refusal:
        return refusal_page(refusal, case, tariff, production)
    return plan_page(case, plan, [file.path for file in (tariff, production) if file])


def files_page(tariff: File, production: File) -> str:
    """The page of two files, planned or refused."""
    try:
        case = read_case(tariff, production)
    except Refusal as refusal:
        return refusal_page(refusal, None, tariff, production)
    return case_page(case, tariff, production)
