"""The page of bounds, beside what the subcommand prints."""

import yadvorkhul

from ..console import WrongUse, say
from ..outputs import BadOutput, check_outputs, write_whole


def page_of(parser):
    parser.add_argument("-o", "--output", metavar="PAGE", help="write a page with a picture too: the band of totals, the possible splits marked")


def page_writable(arguments):
    try:
        check_outputs([arguments.output], [arguments.tariff, arguments.low, arguments.high])
    except BadOutput as error:
        raise WrongUse(str(error)) from error


def write_page(path, case, high):
    """Writes the page where one is asked for; the case has the low table."""
    if path:
        from ..pages import bounds_page

        found = yadvorkhul.bounds(case.costs, case.supplies, case.demands, case.table, high, case.runs, case.ceilings)
        write_whole(path, bounds_page(case, high, found))
        say(f"written: {path}")
