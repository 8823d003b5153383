# PYTHON_ARGCOMPLETE_OK
"""The command `yadvorkhul`, or `python3 -m yadvorkhul`. Its subcommands are the modules of `yadvorkhul.commands`.

The status is 0 where all went well, 1 for a refusal, 2 for a wrong use, 3 where this build or this Python lacks what is needed, 4 where
something else went wrong, such as an output that cannot be written.
"""

import argparse
import os
import sys

import yadvorkhul

from . import commands
from .console import BROKEN, LACKING, WRONG_USE, Broken, WrongUse, emit, say
from .outputs import NotWritten


class _Parser(argparse.ArgumentParser):
    """Says a wrong use with its control characters made visible."""

    def error(self, message):
        say(self.format_usage().rstrip("\n").replace("\n", " "))
        say(f"{self.prog}: error: {message}")
        self.exit(WRONG_USE)

    def _print_message(self, message, file=None):
        if message:
            emit(message.encode())


def _lacks(needed):
    """The sentence of what the archive lacks for a subcommand, or nothing."""
    if yadvorkhul.archive_missing():
        return yadvorkhul.archive_missing()
    absent = [symbol for symbol in needed if not yadvorkhul.offers(symbol)]
    if absent:
        return (
            f"this build does not have it. The archive it was made of has no {absent[0]}, or the package is older than the archive; "
            "build both anew with bindings/python/build."
        )
    return ""


def _lacking(reason: str):
    def run(arguments) -> int:
        say(f"yadvorkhul {arguments.subcommand}: {reason}")
        return LACKING

    return run


def _called() -> str:
    """What the command is called by: its own name where it is installed."""
    name = os.path.basename(sys.argv[0] or "")
    return name if name.startswith("yadvorkhul") else "python3 -m yadvorkhul"


class _Version(argparse.Action):
    """Prints the version of the package, and that of the archive where it is another."""

    def __call__(self, whole, namespace, values, option_string=None):
        built = "no archive" if yadvorkhul.archive_missing() else yadvorkhul.version() if yadvorkhul.offers("yadvorkhul_version") else "an older archive"
        emit(f"yadvorkhul {yadvorkhul.__version__}{'' if built == yadvorkhul.__version__ else f' ({built})'}\n".encode())
        whole.exit(0)


def parser() -> argparse.ArgumentParser:
    """The parser with all subcommands."""
    whole = _Parser(prog=_called(), description="The proved two-plant production and freight planner.")
    whole.add_argument("--version", action=_Version, nargs=0, help="print the version and exit")
    parsers = whole.add_subparsers(title="subcommands", metavar="SUBCOMMAND", dest="subcommand")
    parsers.required = True
    for name, module in commands.all_of_them():
        lacks = _lacks(module.NEEDS)
        summary = f"{module.SUMMARY} (not in this build)" if lacks else module.SUMMARY
        one = parsers.add_parser(name, help=summary, description=summary[0].upper() + summary[1:] + ".")
        if lacks:
            one.add_argument("rest", nargs="*", help=argparse.SUPPRESS)
        else:
            module.add(one)
        one.set_defaults(run=_lacking(lacks) if lacks else module.run, lacks=lacks)
    return whole


def _completed(whole):
    """Completion in the shell, where python3-argcomplete is installed and asked."""
    if "_ARGCOMPLETE" in os.environ:
        try:
            import argcomplete
        except ImportError:
            return
        argcomplete.autocomplete(whole)


def _run(words) -> int:
    whole = parser()
    _completed(whole)
    arguments, rest = whole.parse_known_args(words)
    if rest and not arguments.lacks:  # what a subcommand lacks is said whatever it is given
        whole.error(f"unrecognized arguments: {' '.join(rest)}")
    return arguments.run(arguments)


def _ended(kind, error) -> int:
    """The status of what went wrong outside a case, with its sentence."""
    if isinstance(error, WrongUse):
        status, sentence = WRONG_USE, str(error)
    elif isinstance(error, ImportError):
        status, sentence = LACKING, str(error)
    elif isinstance(error, (Broken, NotWritten)):
        status, sentence = BROKEN, str(error)
    elif isinstance(error, OSError) and error.filename is not None:
        status, sentence = WRONG_USE, f"{error.strerror}: {error.filename}"
    else:
        status, sentence = BROKEN, f"something that should not happen: {kind.__name__}: {error}"
    say(f"yadvorkhul: {sentence}")
    return status


def main(words=None) -> int:
    try:
        return _run(words)
    except SystemExit as ended:  # argparse: help, or a wrong use
        return ended.code if isinstance(ended.code, int) else 0
    except KeyboardInterrupt:
        say("yadvorkhul: interrupted")
        return 130
    except Exception as error:
        return _ended(type(error), error)
