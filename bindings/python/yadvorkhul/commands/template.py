"""Writes a workbook to fill in."""

import os

from ..console import DONE, WrongUse, say
from ..outputs import BadOutput, check_outputs, shown, write_whole

ORDER = 4
SUMMARY = "write a workbook to fill in, with a small case in it"
NEEDS = ["yadvorkhul_plan"]


def add(parser):
    parser.add_argument("-o", "--output", default="template.xlsx", metavar="BOOK", help="where the workbook is written (default: template.xlsx)")


def run(arguments) -> int:
    from ..workbook import template

    try:
        check_outputs([arguments.output], [])
        if os.path.isfile(arguments.output):  # perhaps one that is filled in
            raise BadOutput(f"{shown(arguments.output)} is there already; name another file, or take it away")
    except BadOutput as error:
        raise WrongUse(str(error)) from error
    write_whole(arguments.output, template())
    say(f"written: {arguments.output}")
    return DONE
