"""The files of a case that a subcommand is given: a tariff and a production table, or one JSON file."""

from .. import cases
from ..console import WrongUse
from ..files import PRODUCTION, TARIFF, open_file


def files_of(parser):
    parser.add_argument(
        "files",
        nargs="*",
        metavar="FILE",
        help="the tariff and the production table (default: tariff.csv and production.csv), or one .json file with the fields of a case, "
        "which may have least runs, ceilings and names",
    )


def json_of(parser):
    parser.add_argument("--json", action="store_true", help="print the answer, or the refusal's number and place, as JSON")


def named(arguments):
    """The paths of the files, those that are meant where none is named too."""
    return arguments.files or ["tariff.csv", "production.csv"]


def given(arguments):
    """The files named: None and the two files, or the case of a JSON file and None twice."""
    paths = named(arguments)
    if len(paths) == 1 and paths[0].lower().endswith(".csv"):
        raise WrongUse(f"{paths[0]} alone is no case; give a tariff and a production table, or one .json file")
    if len(paths) == 1:
        return json_case(paths[0]), None, None
    if len(paths) == 2:
        return None, open_file(TARIFF, paths[0]), open_file(PRODUCTION, paths[1])
    raise WrongUse("give a tariff and a production table, or one .json file")


def json_case(path: str):
    """The case of a JSON file."""
    try:
        return cases.read_case(path)
    except cases.NotACase as error:
        raise WrongUse(str(error)) from error
