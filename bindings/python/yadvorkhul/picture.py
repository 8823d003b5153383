"""The picture of a plan: total, freight and production over the splits, as SVG. Needs Matplotlib."""

import contextlib
import html
import io
import re
import threading
import warnings
from typing import Dict, Sequence, Tuple

from .curve import Curve
from .words import grouped, increase

INK, BLUE, GREEN, ORANGE, GREY = "#1b1f24", "#0b5cad", "#1a7f37", "#b35900", "#57606a"
MARK = 6  # points that the mark of a rival is wide
MOST_LABELS = 6  # of rivals that get their numbers in the picture
BEHIND = dict(facecolor="white", edgecolor="none", alpha=0.8, pad=0.8)  # of a label
MOST_DOTS = 60  # splits that are drawn one by one
MOST_NAME = 40  # letters of a name beside an axis


def _lines(axes, curve: Curve, values, color, width=1.6):
    splits = [s.split for s in curve.splits]
    dots = dict(marker="o", markersize=3.2) if len(splits) <= MOST_DOTS else {}
    axes.plot(splits, values, color=color, linewidth=width, **dots)
    if len(splits) == 1:
        axes.set_xlim(splits[0] - 1, splits[0] + 1)
    if min(values) == max(values):
        axes.set_ylim(values[0] - 1, values[0] + 1)


def _frame(axes, title: str, ticker, wide: bool):
    axes.set_title(title, loc="left", fontsize=10, color=INK)
    axes.grid(True, color="#d8dee4", linewidth=0.6)
    axes.margins(x=0.04, y=0.18)
    axes.yaxis.set_major_formatter(ticker.FuncFormatter(lambda value, _: grouped(int(value)) if value == int(value) else ""))
    axes.xaxis.set_major_formatter(ticker.FuncFormatter(lambda value, _: grouped(int(value)) if value == int(value) else ""))
    axes.xaxis.set_major_locator(ticker.MaxNLocator(nbins=7 if wide else 4, integer=True, steps=[1, 2, 5, 10]))
    axes.yaxis.set_major_locator(ticker.MaxNLocator(nbins=5, integer=True))
    axes.tick_params(labelsize=8.2, colors=GREY)
    for side in ("top", "right"):
        axes.spines[side].set_visible(False)


def _total(axes, curve: Curve):
    """The total with the split given, the ties and every other local minimum."""
    _lines(axes, curve, [s.total for s in curve.splits], INK, 1.9)
    least = curve.given.total
    rivals = [v for v in curve.valleys if v.first is not curve.given]
    for valley in rivals:
        axes.plot([valley.first.split, valley.last.split], [valley.first.total] * 2, color=ORANGE, linewidth=2.5)
        axes.plot([valley.first.split], [valley.first.total], marker="D", markersize=MARK, color=ORANGE)
    axes.axhline(least, color=GREEN, linewidth=0.8, linestyle=(0, (4, 3)))
    axes.plot([curve.given.split], [least], marker="*", markersize=14, color=GREEN)
    _label(axes, curve.given, f"given: {grouped(curve.given.split)}, total {grouped(least)}", GREEN, weight="bold")
    for valley in sorted(rivals, key=lambda v: v.more)[:MOST_LABELS]:
        _label(axes, valley.first, "equal" if valley.more == 0 else increase(valley.more, least), ORANGE)


def _label(axes, at, text: str, color: str, **more):
    """A text below a point of the total."""
    axes.annotate(
        text, (at.split, at.total), xytext=(0, -17), textcoords="offset points", ha="center", fontsize=8.2, color=color, bbox=BEHIND, **more
    )


def _settle(figure, axes, marked):
    """Moves a label that would pass an end of the axes inwards, then one that would cover an earlier one or a mark above its point, and
    leaves it out where it still would, unless it is the first, of the split given."""
    from matplotlib.transforms import Bbox

    figure.canvas.draw()
    box = axes.get_window_extent()
    size = MARK * figure.dpi / 144
    placed = [Bbox.from_extents(x - size, y - size, x + size, y + size) for x, y in axes.transData.transform([(s.split, s.total) for s in marked])]
    first, *_ = axes.texts
    for text in list(axes.texts):
        extent = text.get_window_extent()
        if extent.x0 < box.x0:
            text.set_ha("left")
        elif extent.x1 > box.x1:
            text.set_ha("right")
        if text.get_window_extent().count_overlaps(placed):
            text.set_position((0, 9))
        if not text.get_window_extent().count_overlaps(placed) or text is first:
            placed.append(text.get_window_extent())
        else:
            text.remove()


_DRAWING = threading.Lock()  # Matplotlib's settings are the whole process's: one picture at a time


@contextlib.contextmanager
def _canvas(width: float, height: float, name: str):
    """A figure from Matplotlib's own defaults, whatever a matplotlibrc of the current folder or of the user says."""
    import matplotlib
    from matplotlib.backends.backend_agg import FigureCanvasAgg
    from matplotlib.figure import Figure

    settings = {"svg.fonttype": "none", "svg.hashsalt": name, "font.family": "DejaVu Sans"}
    with _DRAWING, matplotlib.rc_context(), warnings.catch_warnings():
        warnings.simplefilter("ignore")  # a name may have letters that the font lacks; the browser has them
        matplotlib.rcdefaults()
        matplotlib.rcParams.update(settings)
        figure = Figure(figsize=(width, height), constrained_layout=True)
        FigureCanvasAgg(figure)
        yield figure


def _drawn(figure) -> str:
    out = io.StringIO()
    figure.savefig(out, format="svg", metadata={"Date": None, "Creator": None})
    return out.getvalue()


def _axis(axes, plant: str):
    """What the splits are, by the name of the plant, or by the beginning of a long one."""
    short = plant if len(plant) <= MOST_NAME else plant[: MOST_NAME - 1] + "\u2026"
    shown = "".join(c if c.isprintable() else " " for c in short)
    axes.set_xlabel(f"drums that {shown} makes", fontsize=9, color=INK, parse_math=False)


def _scale(figure, axes, low: int, high: int) -> str:
    """Where the first and the last split stand in the picture, for what is read under the pointer."""
    left, right = (axes.transData.transform((split, 0))[0] * 72 / figure.dpi for split in (low, high))
    return f' data-low="{low}" data-high="{high}" data-left="{left:.2f}" data-right="{right:.2f}"'


def svg(curve: Curve, stops: Sequence[Tuple[int, int]], width: float = 8.4, name: str = "picture", plant: str = "plant 1") -> str:
    """The picture as an `svg` element, so many inches wide; its words are text. Two pictures on a page have two names."""
    with _canvas(width, 7.2, name) as figure:
        from matplotlib import ticker

        total, freight, production = figure.subplots(3, 1, sharex=True, gridspec_kw={"height_ratios": [2.2, 1.2, 1.2]})
        for axes, title in ((total, "Total"), (freight, "Freight, with its stops"), (production, "Production table")):
            _frame(axes, title, ticker, width > 6)
        _total(total, curve)
        _lines(freight, curve, [s.freight for s in curve.splits], BLUE)
        freight.plot(*zip(*stops), linestyle="", marker="o", markersize=6, markerfacecolor="white", markeredgecolor=BLUE, markeredgewidth=1.6)
        _lines(production, curve, [s.production for s in curve.splits], GREY)
        for axes in (total, freight, production):
            axes.axvline(curve.given.split, color=GREEN, linewidth=0.8, linestyle=(0, (4, 3)), zorder=0)
        _axis(production, plant)
        _settle(figure, total, [valley.first for valley in curve.valleys])
        drawn = _drawn(figure)
        scale = _scale(figure, production, curve.splits[0].split, curve.splits[-1].split)
    return _embedded(drawn, _words(curve), scale)


def two_curves(curves: Sequence[Curve], names: Sequence[str], width: float = 8.4, name: str = "both", plant: str = "plant 1") -> str:
    """The totals of two cases in one picture, each with the split given."""
    with _canvas(width, 4.4, name) as figure:
        from matplotlib import ticker

        axes = figure.subplots()
        _frame(axes, "Total", ticker, width > 6)
        for curve, color, label, style in zip(curves, (BLUE, ORANGE), names, ("-", (0, (5, 2)))):
            axes.plot([s.split for s in curve.splits], [s.total for s in curve.splits], color=color, linewidth=1.9, linestyle=style, label=label)
            axes.plot([curve.given.split], [curve.given.total], marker="*", markersize=13, color=color)
            _label(axes, curve.given, f"{label}: {grouped(curve.given.split)}, {grouped(curve.given.total)}", color, weight="bold")
        axes.legend(loc="best", fontsize=8.2, frameon=False)
        _axis(axes, plant)
        drawn = _drawn(figure)
    words = "; ".join(f"{label}: least total {grouped(c.given.total)} at {c.given.split}" for c, label in zip(curves, names))
    return _embedded(drawn, f"Two totals over the splits. {words}.")


def histograms(splits: Dict[int, int], totals: Sequence[int], width: float = 8.4, name: str = "batch", plant: str = "plant 1") -> str:
    """How often each split is the cheapest, and how the totals are spread."""
    with _canvas(width, 5.6, name) as figure:
        from matplotlib import ticker

        above, below = figure.subplots(2, 1)
        _frame(above, "Cases by split", ticker, width > 6)
        _frame(below, "Cases by total", ticker, width > 6)
        spread = max(splits) - min(splits)
        above.bar(list(splits), list(splits.values()), width=max(0.8, spread / 120), color=BLUE)
        if not spread:
            above.set_xlim(min(splits) - 1, min(splits) + 1)
        below.hist(totals, bins=min(60, len(set(totals)) + 1), color=GREEN)
        _axis(above, plant)
        below.set_xlabel("total", fontsize=9, color=INK)
        drawn = _drawn(figure)
    return _embedded(drawn, f"Cases by split and by total: {len(totals)} cases, {len(splits)} splits.")


def band(
    first: int,
    possible: Sequence[bool],
    freights: Sequence[int],
    low: Sequence[int],
    high: Sequence[int],
    width: float = 8.4,
    name: str = "band",
    plant: str = "plant 1",
) -> str:
    """The total at each split between its least and its greatest, and the splits that can be the cheapest."""
    with _canvas(width, 4.6, name) as figure:
        from matplotlib import ticker

        axes = figure.subplots()
        _frame(axes, "Total, from its least to its greatest", ticker, width > 6)
        splits = list(range(first, first + len(possible)))
        least, most = ([f + table[y] for y, f in zip(splits, freights)] for table in (low, high))
        axes.fill_between(splits, least, most, color=BLUE, alpha=0.22, linewidth=0)
        dots = dict(marker="o", markersize=3.2) if len(splits) <= MOST_DOTS else {}
        axes.plot(splits, least, color=BLUE, linewidth=1.2, **dots)
        axes.plot(splits, most, color=BLUE, linewidth=1.2, **dots)
        best = min(most)
        axes.axhline(best, color=GREEN, linewidth=0.9, linestyle=(0, (4, 3)))
        chosen = [(y, value) for y, value, can in zip(splits, least, possible) if can]
        axes.plot([y for y, _ in chosen], [value for _, value in chosen], linestyle="", marker="o", markersize=4, color=ORANGE)
        if len(splits) == 1:
            axes.set_xlim(first - 1, first + 1)
        _axis(axes, plant)
        drawn = _drawn(figure)
        scale = _scale(figure, axes, splits[0], splits[-1])
    return _embedded(drawn, f"Totals between two bounds; {len(chosen)} of {len(splits)} splits can be the cheapest.", scale)


def _words(curve: Curve) -> str:
    given, rivals = curve.given, len(curve.valleys) - 1
    return (
        f"Total, freight and production for plant 1 making {curve.splits[0].split} to {curve.splits[-1].split} drums. The total is least at "
        f"{given.split}, where it is {grouped(given.total)}; it has {rivals} other local minima."
    )


def _embedded(text: str, words: str, more: str = "") -> str:
    """The `svg` element alone, as wide as its place, with words for those who do not see it."""
    text = text[text.index("<svg") :]
    text = re.sub(r"<metadata>.*?</metadata>", "", text, flags=re.DOTALL)
    text = re.sub(r'<g id="[^"]*"', "<g", text)
    head, rest = text.split(">", 1)
    head = re.sub(r' (width|height)="[^"]*"', "", head)
    return f'{head} role="img" aria-label="{html.escape(words)}"{more}>{rest}'.strip()
