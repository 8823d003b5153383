"""Writes the case of two files as two new ones, in the one form that depends on the case alone."""

import os

from .. import Refusal
from ..console import DONE, Broken, WrongUse, emit
from ..files import PRODUCTION, TARIFF, handed, open_file, plan_files, read_case, tidy_files
from ..refusals import explain
from ._say import told

ORDER = 15
SUMMARY = "write a case again as two new files in one form, as the program tidy does"
NEEDS = ["yadvorkhul_tidy_files", "yadvorkhul_plan_files", "yadvorkhul_read_case"]


def add(parser):
    parser.add_argument("tariff", help="the tariff file")
    parser.add_argument("production", help="the production table")
    parser.add_argument("new_tariff", help="the tariff that is written; there is no file of that name")
    parser.add_argument("new_production", help="the production table that is written; likewise")


def _write_new(path: str, data: bytes):
    """Makes a file and writes it; where that fails nothing is left of it. It writes over no file."""
    try:
        out = open(path, "xb")
    except (OSError, ValueError) as error:
        why = error.strerror if isinstance(error, OSError) else str(error)
        raise WrongUse(f"{path} was not written: {why}") from error
    try:
        with out:
            out.write(data)
    except OSError as error:
        os.unlink(path)
        raise Broken(f"{path} was not written: {error.strerror}") from error


def _write_both(first: str, tariff: bytes, second: str, production: bytes):
    """Both new files, or none."""
    _write_new(first, tariff)
    try:
        _write_new(second, production)
    except BaseException:
        os.unlink(first)
        raise


def _field(name: bytes) -> bytes:
    """A name as a field of RFC 4180, as the program prints it."""
    return b'"' + name.replace(b'"', b'""') + b'"' if any(sign in name for sign in b',"\r\n') else name


def _refused(refusal: Refusal, tariff, production) -> int:
    """As `plan` says it, of the same case."""
    case = None
    emit(plan_files(handed(tariff), handed(production)).text)
    try:
        case = read_case(tariff, production)
    except Refusal as of_a_file:
        refusal = of_a_file
    return told(explain(refusal, case, tariff, production))


def run(arguments) -> int:
    tariff, production = open_file(TARIFF, arguments.tariff), open_file(PRODUCTION, arguments.production)
    try:
        texts = tidy_files(handed(tariff), handed(production))
    except Refusal as refusal:
        return _refused(refusal, tariff, production)
    _write_both(arguments.new_tariff, texts[0], arguments.new_production, texts[1])
    lines = [b"file,bytes"]
    for path, text in zip((arguments.new_tariff, arguments.new_production), texts):
        lines.append(_field(os.fsencode(path)) + b",%d" % len(text))
    emit(b"".join(line + b"\r\n" for line in lines))
    return DONE
