"""Writes a case and its plan as a workbook, which can be imported again."""

from .. import Refusal
from ..console import DONE, WrongUse, say
from ..files import read_case
from ..outputs import BadOutput, check_outputs, write_whole
from ..refusals import explain
from ._given import files_of, given, named
from ._say import told

ORDER = 22
SUMMARY = "write a workbook with the plan, the curve, the inputs and the certificate"
NEEDS = ["yadvorkhul_plan"]


def add(parser):
    files_of(parser)
    parser.add_argument("-o", "--output", default="plan.xlsx", metavar="BOOK", help="where the workbook is written (default: plan.xlsx)")


def run(arguments) -> int:
    from ..sheets import BadSheet
    from ..workbook import export_book

    case, tariff, production = given(arguments)
    try:
        check_outputs([arguments.output], named(arguments))
        case = case or read_case(tariff, production)
        write_whole(arguments.output, export_book(case, case.plan()))
    except Refusal as refusal:
        return told(explain(refusal, case, tariff, production))
    except (BadOutput, BadSheet) as error:
        raise WrongUse(str(error)) from error
    say(f"written: {arguments.output}")
    return DONE
