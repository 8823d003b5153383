"""Writes the certificate of a case's answer, and checks it as a reader would."""

import json
import os
from typing import Optional

from .. import Refusal, check_certificate
from ..certificate import NO_PLAN, certificate, text
from ..console import DONE, Broken, WrongUse, say
from ..files import read_case
from ..outputs import BadOutput, check_outputs, write_whole
from ..refusals import explain
from ._given import files_of, given, named
from ._say import told

ORDER = 15
SUMMARY = "write a certificate that no plan is cheaper, or that there is none, and check it"
NEEDS = ["yadvorkhul_plan"]


def add(parser):
    files_of(parser)
    parser.add_argument("-o", "--output", default="certificate.json", metavar="CERT", help="where it is written (default: certificate.json)")


def writable(arguments, path: str):
    """A certificate is not written over what is read."""
    try:
        check_outputs([path], named(arguments))
    except BadOutput as error:
        raise WrongUse(str(error)) from error


def answer_in(printed: bytes):
    """Refusal, plan, split and total in what was printed: the program's table, or JSON."""
    if printed.startswith(b"{"):
        found = json.loads(printed)
        return tuple(found.get(name) for name in ("refusal", "amounts", "split", "total"))
    head, *lines = [line.split(",") for line in printed.decode().split()]
    first, *lanes = [[int(number) for number in line] for line in lines]
    if head[0] == "refusal":
        return first[0], None, None, None
    plan = [[amount for source, _, amount, _ in lanes if source == i + 1] for i in range(lanes[-1][0])]
    return None, plan, first[2], first[3] + sum(cost for _, _, _, cost in lanes)


def certified(case, path: str, printed: Optional[bytes] = None):
    """Checks the certificate of a plan, or of refusal 7, 8 or 27, compares it with the answer that was printed, writes it and reads it
    again; says so. One that is not right is not written. Any other refusal is raised."""
    made = text(certificate(case))
    right, sentence = check_certificate.told(made)
    if not right:
        raise Broken(f"no certificate is written, for the one made does not show the answer: {sentence}")
    held = json.loads(made)
    if printed is not None and answer_in(printed) != (held["refusal"], held["plan"], held["split"], held["total"]):
        raise Broken("no certificate is written, for it shows another answer than the one printed")
    write_whole(path, made)
    _read_again(path, made)
    compared = "" if printed is None else ", and it is the answer printed"
    say(f"written: {path}; checked: {sentence}{compared}")


def _read_again(path: str, made: str):
    """A file that does not hold what was written is taken away; a pipe or a printer cannot be read again."""
    if not os.path.isfile(path):
        return
    with open(path, "rb") as back:
        if back.read() == made.encode():
            return
    os.unlink(os.path.realpath(path))
    raise Broken(f"the certificate in {path} was not read as it was written, and is taken away")


def certified_refusal(refusal: Refusal, case, path: str, printed: Optional[bytes] = None):
    """The same of a refusal; that of a file or of a number out of range shows itself."""
    if case is not None and refusal.number in NO_PLAN:
        certified(case, path, printed)
    else:
        say("no certificate is written: it is for plans and for the refusals 7, 8 and 27.")


def run(arguments) -> int:
    writable(arguments, arguments.output)
    case, tariff, production = given(arguments)
    try:
        case = case or read_case(tariff, production)
        certified(case, arguments.output)
        return DONE
    except Refusal as refusal:
        certified_refusal(refusal, case, arguments.output)
        return told(explain(refusal, case, tariff, production))
