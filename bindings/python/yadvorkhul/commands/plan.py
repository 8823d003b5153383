"""Prints the plan of a case. Of two files it prints what the proved function wrote."""

from .. import Refusal
from ..console import DONE, emit
from ..files import handed, plan_files, plan_text, read_case, refusal_text
from ..forms import fingerprints
from ..refusals import explain
from ._given import files_of, given, json_of
from ._say import json_line, json_refusal, told
from .certify import certified, certified_refusal, writable

ORDER = 10
SUMMARY = "print the plan, as the program plan does"
NEEDS = ["yadvorkhul_plan", "yadvorkhul_plan_files", "yadvorkhul_read_case"]


def add(parser):
    files_of(parser)
    json_of(parser)
    parser.add_argument("--certify", metavar="CERT", help="write a certificate of the answer too, and check it")


def _text(arguments, case, plan, tariff, production) -> bytes:
    """The plan or the refusal that was found, as it is printed."""
    if arguments.json:
        return json_refusal(plan) if isinstance(plan, Refusal) else json_line({**plan._asdict(), **fingerprints(case, plan)})
    if tariff:
        return plan_files(handed(tariff), handed(production)).text
    return (refusal_text(plan) if isinstance(plan, Refusal) else plan_text(case, plan)).encode()


def run(arguments) -> int:
    if arguments.certify is not None:
        writable(arguments, arguments.certify)
    case, tariff, production = given(arguments)
    try:
        case = case or read_case(tariff, production)
        plan = case.plan()
    except Refusal as refusal:
        printed = _text(arguments, case, refusal, tariff, production)
        emit(printed)
        if arguments.certify is not None:
            certified_refusal(refusal, case, arguments.certify, printed)
        return told(explain(refusal, case, tariff, production))
    printed = _text(arguments, case, plan, tariff, production)
    emit(printed)
    if arguments.certify is not None:
        certified(case, arguments.certify, printed)
    return DONE
