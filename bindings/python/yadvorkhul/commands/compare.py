"""Tells what differs between two cases and their plans; with -o a page with both curves."""

import json

from ..console import DONE, WrongUse, emit, escaped, say
from ..outputs import BadOutput, check_outputs, write_whole
from ..words import grouped

ORDER = 25
SUMMARY = "tell what differs between two cases and their plans"
NEEDS = ["yadvorkhul_plan"]
SHOWN = 40  # rows of a kind in the terminal
_WHAT = "a .json case, a workbook, a folder with tariff.csv and production.csv, TARIFF+PRODUCTION, or the journal of serve, with @3 for mark 3"


def add(parser):
    parser.add_argument("a", help=_WHAT)
    parser.add_argument("b", help="the same of the other")
    parser.add_argument("--json", action="store_true", help="print it as JSON, with all that differs")
    parser.add_argument("-o", "--output", metavar="PAGE", help="write a page with both curves")


def _sides(arguments):
    from ..cases import NotACase
    from ..compare import CannotCompare, case_named, side
    from ..sheets import BadSheet

    try:
        return [side(text, case_named(text)) for text in (arguments.a, arguments.b)]
    except (CannotCompare, NotACase, BadSheet) as error:
        raise WrongUse(str(error)) from error


def _signed(number) -> str:
    return "" if number is None else "=" if number == 0 else ("+" if number > 0 else "") + grouped(number)


def _rows(rows, wide: int):
    shown = lambda value: "\u2013" if value is None else value if isinstance(value, str) else grouped(value)
    lines = [f"{row.name:<{wide}} {shown(row.one):>14} {shown(row.other):>14} {_signed(row.more):>12}" for row in rows[:SHOWN]]
    if len(rows) > SHOWN:
        lines.append(f"... and {len(rows) - SHOWN:,} more (--json has all)")
    return lines


def text_of(found) -> str:
    """The comparison for a terminal."""
    from ..compare import by_name
    from ..forms import spoken

    wide = max([24] + [len(row.name) for part in (found.results, found.inputs[:SHOWN], found.lanes[:SHOWN]) for row in part])
    lines = [f"A: {found.sides[0].name}", f"B: {found.sides[1].name}", ""]
    lines.append(f"{'':<{wide}} {'A':>14} {'B':>14} {'B - A':>12}")
    lines += _rows(found.results, wide)
    lines += [f"{letter}: {side.refused}" for letter, side in zip("AB", found.sides) if side.refused]
    for what, one, other in found.prints:
        both = f"the same, {spoken(one)}" if one else "none; neither has one"
        lines.append(f"fingerprint of {what}: " + (both if one == other else f"{spoken(one) or 'none'} / {spoken(other) or 'none'}"))
    lines += [by_name(found)] if found.by_name else []
    lines += ["", "inputs that differ:" if found.inputs else "no input differs."] + _rows(found.inputs, wide)
    if all(side.plan for side in found.sides):
        lines += ["", "lanes that differ (drums):" if found.lanes else "no lane differs." if found.alike else "the lanes are not compared: the sizes differ."]
        lines += _rows(found.lanes, wide)
    return "".join(escaped(line) + "\n" for line in lines)


def run(arguments) -> int:
    from ..compare import as_json, compare

    try:
        check_outputs([arguments.output], [arguments.a, arguments.b])
    except BadOutput as error:
        raise WrongUse(str(error)) from error
    found = compare(*_sides(arguments))
    if arguments.output:
        from ..pages import compare_page

        write_whole(arguments.output, compare_page(found))
        say(f"written: {arguments.output}")
    emit((json.dumps(as_json(found), indent=1) + "\n" if arguments.json else text_of(found)).encode())
    return DONE
