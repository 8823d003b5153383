"""Writes the page of a case."""

from .. import Refusal
from ..console import DONE, WrongUse, say
from ..files import read_case
from ..outputs import BadOutput, check_outputs, write_whole
from ..refusals import explain
from ._given import files_of, given
from ._say import told

ORDER = 20
SUMMARY = "write a page with the plan and the curve, or with the refusal"
NEEDS = ["yadvorkhul_plan", "yadvorkhul_read_case"]


def add(parser):
    files_of(parser)
    parser.add_argument("-o", "--output", default="plan.html", metavar="PAGE", help="where the page is written (default: plan.html)")
    parser.add_argument("--picture", metavar="SVG", help="where the picture alone is written too")


def _page(arguments) -> int:
    from ..pages import picture, plan_page, refusal_page

    case, tariff, production = given(arguments)
    check_outputs([arguments.output, arguments.picture], arguments.files or ["tariff.csv", "production.csv"])
    try:
        case = case or read_case(tariff, production)
        plan = case.plan()
    except Refusal as refusal:
        _write(arguments.output, refusal_page(refusal, case, tariff, production))
        return told(explain(refusal, case, tariff, production))
    page = plan_page(case, plan, [file.path for file in (tariff, production) if file])
    drawn = picture(case, plan) if arguments.picture else ""
    _write(arguments.output, page)
    if arguments.picture:
        _write(arguments.picture, drawn)
    return DONE


def run(arguments) -> int:
    try:
        return _page(arguments)
    except BadOutput as error:
        raise WrongUse(str(error)) from error


def _write(path: str, text: str):
    write_whole(path, text)
    say(f"written: {path}")
