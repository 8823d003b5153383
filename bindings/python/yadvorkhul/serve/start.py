"""From the arguments of the command to a running server."""

import os
from typing import List

from .. import Refusal, Role, cases
from ..files import PRODUCTION, TARIFF, open_file, read_case
from ..refusals import explain
from .app import ADDRESS, make_app, make_server
from .cases import fields
from .journal import JournalError, Opened, create, open_journal
from .people import People, PeopleError
from .shared import SharedCase, entered


class CannotStart(Exception):
    """Why the server does not start, as a sentence."""


def _read_json(path: str) -> dict:
    try:
        return fields(cases.read_case(path))
    except cases.NotACase as error:
        raise CannotStart(str(error)) from error


def _read_files(tariff_path: str, production_path: str) -> dict:
    tariff, production = open_file(TARIFF, tariff_path), open_file(PRODUCTION, production_path)
    try:
        return fields(read_case(tariff, production))
    except Refusal as refusal:
        told = explain(refusal, None, tariff, production)
        raise CannotStart(f"refusal {told.number}: {told.sentence} {told.advice}") from refusal


def read_given(files: List[str]) -> dict:
    """The case of the files named."""
    if len(files) == 1:
        return _read_json(files[0])
    if len(files) == 2:
        return _read_files(*files)
    raise CannotStart("give one .json file, or a tariff and a production table")


def journal_beside(files: List[str]) -> str:
    """Where the journal is kept where nobody says so: beside the first file, by its name."""
    return os.path.splitext(files[0])[0] + ".journal"


def _new(path: str, case: dict) -> Opened:
    try:
        entered(case)
    except Refusal as refusal:
        raise CannotStart(str(refusal)) from refusal
    return create(path, {"do": "enter", "user": "", "case": case})


def _resumed(path: str, files: List[str]) -> Opened:
    opened = open_journal(path)
    calls = len(opened.records) - 1
    opened.told.append(f"the journal {path} goes on, with {calls} record{'' if calls == 1 else 's'} after the case as entered")
    if files and os.path.exists(files[0]):
        opened.told.extend(_beside(files, opened.records[0].get("case")))
    return opened


def _beside(files: List[str], case: dict) -> List[str]:
    """What to say of files that are named beside a journal. The journal counts, so they stop nothing."""
    try:
        if read_given(files) == case:
            return []
        return ["the files named hold another case than the journal began with; the journal counts. To take them in, import them"]
    except CannotStart as error:
        return [f"the files named cannot be read; the journal counts. {error}"]
    except OSError as error:
        return [f"the files named cannot be read; the journal counts. {error.strerror}: {error.filename}"]


def opened(path: str, files: List[str]) -> Opened:
    """The journal that is there, or a new one with the case of the files."""
    try:
        if os.path.exists(path):
            return _resumed(path, files)
        if not files:
            raise CannotStart(f"there is no journal {path}; name the files of a case to begin one")
        return _new(path, read_given(files))
    except JournalError as error:
        raise CannotStart(str(error)) from error
    except OSError as error:
        raise CannotStart(f"{error.strerror}: {error.filename or path}") from error


def first_planner(people: People) -> List[str]:
    """Where nobody may sign in yet: a planner with a one-time word, said this once."""
    if people.entries():
        return []
    word = people.add("planner", Role.PLANNER)
    return [f"there was nobody who may sign in; now there is: name planner, one-time word {word} (said this once)"]


def _server(found: Opened, users: str, port: int, proxy: str, say):
    """A server that listens, or a `CannotStart`."""
    people = People(users)
    try:
        shared = SharedCase(found.journal, found.records)
        for sentence in people.private() + first_planner(people):
            say(sentence)
        return make_server(make_app(shared, people, port, proxy), port, proxy)
    except (JournalError, PeopleError) as error:
        raise CannotStart(str(error)) from error
    except OSError as error:
        raise CannotStart(f"port {port} of {ADDRESS}: {error.strerror}") from error


def start(files: List[str], journal: str, users: str, port: int, proxy: str, say):
    """Serves until it is stopped."""
    found = opened(journal, files)
    try:
        for sentence in found.told:  # first: a line that was dropped is told even where the start fails below
            say(sentence)
        server = _server(found, users, port, proxy, say)
        say(f"https://{proxy}/ by way of {ADDRESS}:{port}" if proxy else f"http://{ADDRESS}:{port}/")
        try:
            server.run()
        finally:
            server.close()
    finally:
        found.journal.close()
