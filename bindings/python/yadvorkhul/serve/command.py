"""The subcommands `serve` and `user`: their arguments, and what they say."""

import contextlib
import getpass
import os
import re
import sys

from ..console import DONE, WRONG_USE, say

USERS = "yadvorkhul-users.json"
PORT = 8421


def users_file() -> str:
    return os.environ.get("YADVORKHUL_USERS", USERS)


@contextlib.contextmanager
def _libraries():
    """What only the server needs may be missing."""
    try:
        yield
    except ModuleNotFoundError as error:
        raise ImportError(
            f"the server needs Flask and Waitress, and this Python has no {error.name}. On Debian: apt-get install -y python3-flask "
            "python3-waitress, then run it by /usr/bin/python3."
        ) from error


def add_serve(parser):
    parser.add_argument(
        "files", nargs="*", metavar="FILE", help="one .json file, or the tariff and the production table; not needed where the journal is there"
    )
    parser.add_argument("--journal", metavar="FILE", help="where the calls are kept (default: beside the first file, with the end .journal)")
    parser.add_argument("--users", metavar="FILE", default=users_file(), help=f"who may sign in (default: $YADVORKHUL_USERS, else {USERS})")
    parser.add_argument("--port", type=int, default=PORT, help=f"the port of this machine (default: {PORT})")
    parser.add_argument(
        "--behind-proxy", metavar="HOST", default="", help="the name that a reverse proxy with TLS answers to; only requests for it are let in"
    )


def _say(sentence: str):
    say(f"yadvorkhul serve: {sentence}")


def run_serve(arguments) -> int:
    with _libraries():
        from .start import CannotStart, journal_beside, start
    if not 0 < arguments.port < 65536:
        return _wrong("serve", "the port is a number from 1 to 65,535")
    if arguments.behind_proxy and not re.fullmatch(r"[A-Za-z0-9.-]+(:[0-9]{1,5})?", arguments.behind_proxy):
        return _wrong("serve", "the proxy's name is a host name, such as plan.example.org")
    if not arguments.files and not arguments.journal:
        return _wrong("serve", "name the files of a case, or a journal")
    journal = arguments.journal or journal_beside(arguments.files)
    try:
        start(arguments.files, journal, arguments.users, arguments.port, arguments.behind_proxy.lower(), _say)
    except CannotStart as error:
        return _wrong("serve", str(error))
    except KeyboardInterrupt:
        _say("stopped")
    return DONE


def _wrong(subcommand: str, sentence: str) -> int:
    say(f"yadvorkhul {subcommand}: {sentence}")
    return WRONG_USE


def add_user(parser):
    parser.add_argument("--users", metavar="FILE", default=users_file(), help=f"the file (default: $YADVORKHUL_USERS, else {USERS})")
    kinds = parser.add_subparsers(metavar="add|remove|list", dest="what")
    kinds.required = True
    one = kinds.add_parser("add", help="add a person; a one-time word is printed, to be replaced at the first signing in")
    one.add_argument("name")
    one.add_argument("role", help="planner, plant, depot or reader")
    one.add_argument("--ask", action="store_true", help="ask for a password instead (from a pipe: the first line)")
    kinds.add_parser("remove", help="remove a person, who is signed out at once").add_argument("name")
    kinds.add_parser("list", help="names and roles")


def _asked_word() -> str:
    if not sys.stdin.isatty():
        return sys.stdin.readline().rstrip("\r\n")
    word = getpass.getpass("password: ")
    if getpass.getpass("again: ") != word:
        raise _people().PeopleError("it was not typed alike twice")
    return word


def _people():
    with _libraries():
        from . import people
    return people


def run_user(arguments) -> int:
    module = _people()
    people = module.People(arguments.users)
    try:
        for sentence in people.private():
            say(f"yadvorkhul user: {sentence}")
        if arguments.what == "add":
            role = module.clean_role(arguments.role)
            word = people.add(arguments.name, role, _asked_word() if arguments.ask else None)
            print(f"{arguments.name}: {role.name.lower()}" + ("" if arguments.ask else f", one-time word {word}"))
        elif arguments.what == "remove":
            people.remove(arguments.name)
        else:
            for entry in people.entries().values():
                print(f"{entry.name}\t{entry.role.name.lower()}\tadded {entry.added}" + ("\tone-time word not used yet" if entry.once else ""))
        return DONE
    except module.PeopleError as error:
        return _wrong("user", str(error))
