"""Prints the smallest and the largest that the least total can be, then 1 or 0 for each split: whether it can be the cheapest."""

import yadvorkhul

from .. import Refusal
from ..console import DONE, emit
from ..files import PRODUCTION, TARIFF, bounds_files, handed, open_file, read_case, read_table
from ..refusals import explain_bounds
from ._bounds_page import page_of, page_writable, write_page
from ._given import json_of
from ._say import emit_json, emit_refusal, told

ORDER = 30
SUMMARY = "tell which splits can be the cheapest, from two production tables"
NEEDS = ["yadvorkhul_bounds", "yadvorkhul_bounds_files", "yadvorkhul_read_case", "yadvorkhul_read_table"]


def add(parser):
    parser.add_argument("tariff", help="the tariff file")
    parser.add_argument("low", help="the production table of the lowest entries")
    parser.add_argument("high", help="the production table of the highest entries")
    json_of(parser)
    page_of(parser)


def _explained(number: int, place: int, files) -> int:
    """The sentence of a refusal: the tariff and the low file are read again, then the high one, until one is at fault."""
    tariff, low, high = files
    refusal, case, entries = Refusal(number, place), None, []
    try:
        case = read_case(tariff, low)
        entries = read_table(high)
    except Refusal as found:
        refusal = found
    return told(explain_bounds(refusal, case, entries, *files))


def _as_json(files):
    tariff, low, high = files
    case = read_case(tariff, low)
    found = yadvorkhul.bounds(case.costs, case.supplies, case.demands, case.table, read_table(high))
    emit_json(found._asdict())


def run(arguments) -> int:
    page_writable(arguments)
    files = open_file(TARIFF, arguments.tariff), open_file(PRODUCTION, arguments.low), open_file(PRODUCTION, arguments.high)
    printed = bounds_files(*map(handed, files))
    if not printed.number and arguments.output:
        write_page(arguments.output, read_case(files[0], files[1]), read_table(files[2]))
    if printed.number and arguments.json:
        emit_refusal(Refusal(printed.number, printed.place))
    elif arguments.json:
        _as_json(files)
    else:
        emit(printed.text)
    return _explained(printed.number, printed.place, files) if printed.number else DONE
