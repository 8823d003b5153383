"""Makes a case of a workbook, or of text files as a spreadsheet saves them, and says what was taken for granted."""

from .. import Refusal
from ..console import DONE, WrongUse, say
from ..outputs import BadOutput, check_outputs, write_whole
from ..refusals import explain

ORDER = 5
SUMMARY = "make a case of a workbook or of spreadsheet files, never guessing a number"
NEEDS = ["yadvorkhul_plan"]


def add(parser):
    parser.add_argument("files", nargs="+", metavar="FILE", help="a workbook BOOK.xlsx, or a tariff and a production table as text with separators")
    parser.add_argument("--runs", metavar="FILE", help="the least runs of the two plants, beside text files")
    parser.add_argument("--ceilings", metavar="FILE", help="the lane ceilings, beside text files")
    parser.add_argument("--thousands", choices=[",", "."], default="", help="the sign within numbers such as 1,234 that parts thousands")
    parser.add_argument("-o", "--output", default="case.json", metavar="CASE", help="where the case is written (default: case.json)")


def paths_of(arguments):
    """The text files by the names of their sheets; nothing for a workbook."""
    if len(arguments.files) == 1 and not arguments.runs and not arguments.ceilings:
        return {}
    if len(arguments.files) != 2:
        raise WrongUse("give one workbook, or a tariff and a production table, with --runs and --ceilings where there are some")
    paths = dict(zip(("tariff", "production"), arguments.files))
    paths.update({name: path for name, path in (("runs", arguments.runs), ("ceilings", arguments.ceilings)) if path})
    return paths


def _planned(case):
    """What the planner says of the case, as a first look."""
    try:
        plan = case.plan()
        say(f"planned: plant 1 makes {plan.split:,}, total {plan.total:,}")
    except Refusal as refusal:
        found = explain(refusal, case)
        say(f"the planner refuses this case, by {found.number}: {found.sentence} {found.advice}")


def run(arguments) -> int:
    from ..cases import NotACase
    from ..forms import case_json
    from ..imports import import_book, import_files
    from ..sheets import BadSheet

    paths = paths_of(arguments)
    try:
        check_outputs([arguments.output], list(paths.values()) or arguments.files)
        found = import_files(paths, arguments.thousands) if paths else import_book(arguments.files[0], arguments.thousands)
    except (BadSheet, BadOutput, NotACase) as error:
        raise WrongUse(str(error)) from error
    except Refusal as refusal:  # of the reader of the two files, which has the last word
        raise WrongUse(f"what was read is no case: {explain(refusal).sentence}") from refusal
    for note in found.notes:
        say(f"taken: {note}")
    write_whole(arguments.output, case_json(found.case))
    m, n = len(found.case.supplies), len(found.case.demands)
    say(f"written: {arguments.output}: {m} sources, {n} terminals, {len(found.case.table):,} entries")
    _planned(found.case)
    return DONE
