"""Prints the least-cost flow of a network: the total, then for each arc its start, its end, the flow on it and what that costs."""

import os
import re

import yadvorkhul

from .. import Refusal
from ..console import DONE, emit
from ..files import LONGEST, NETWORK, PRODUCTION, FileRefusal, flow_files, handed, open_file, read_table
from ..networks import FlowRefusal
from ..refusals import explain_network
from ._flow_more import draw, hint, more_of, say_line, tidy
from ._given import json_of
from ._say import emit_json, emit_refusal, told

ORDER = 50
SUMMARY = "print the least-cost flow of a network in DIMACS form, as the program flow does"
NEEDS = ["yadvorkhul_flow", "yadvorkhul_flow_files", "yadvorkhul_read_table"]


def add(parser):
    parser.add_argument("network", help="the network in DIMACS form: c, p min, n and a lines")
    parser.add_argument("arc", help="the arc whose cost the table replaces, by its place among the a lines, from 1")
    parser.add_argument("table", help="the costs of that arc, in the form of a production table: an entry for each flow from 0 to its ceiling")
    json_of(parser)
    more_of(parser)


def _place(arc: str) -> int:
    """The place that a text names, for the sentence and for JSON; the proved function read it by itself."""
    return int(arc) if re.fullmatch("[0-9]{1,4}", arc) else 0


def _explained(number: int, place: int, network, arc: str, table) -> int:
    """The sentence of a refusal: 20 is the network's where it is too long or was not read, else the table's, as are 21 and 22."""
    refusal, entries = FlowRefusal(number, place), []
    if number == 20 and len(handed(network)) > LONGEST:
        refusal = FileRefusal(number, place, network)
    elif number in (20, 21, 22):
        refusal = FileRefusal(number, place, table)
    elif number == 30:
        entries = read_table(table)
    return told(explain_network(refusal, network, _place(arc), entries, arc or '""'))


def _as_json(network, arc: str, table):
    found = yadvorkhul.flow(network.data, _place(arc), read_table(table))
    emit_json({"total": found.total, "arcs": [one._asdict() for one in found.arcs]})


def run(arguments) -> int:
    (network, lines), table = tidy(open_file(NETWORK, arguments.network), arguments), open_file(PRODUCTION, arguments.table)
    printed = flow_files(handed(network), os.fsencode(arguments.arc), handed(table))
    if not printed.number and arguments.drawing:
        entries = read_table(table)
        draw(arguments, network, yadvorkhul.flow(network.data, _place(arguments.arc), entries), _place(arguments.arc), entries)
    if printed.number and arguments.json:
        emit_refusal(Refusal(printed.number, printed.place))
    elif arguments.json:
        _as_json(network, arguments.arc, table)
    else:
        emit(printed.text)
    if not printed.number:
        return DONE
    status = _explained(printed.number, printed.place, network, arguments.arc, table)
    if printed.number == 29:
        say_line(lines, printed.place)
        hint(network)
    return status
