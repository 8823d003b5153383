"""The journal of a shared case: a file to which each call is appended, and on the disk before the call is answered.

Line 1 names the form. Each later line is a check, a blank and a record in JSON. The check is over the line before it too, so that a line
that was altered, lost or moved is found. A last line without its end was being written when the power went: it is dropped, and said.
"""

import fcntl
import hashlib
import json
import os
import time
from typing import List, NamedTuple

VERSION = 1
_HEAD = "yadvorkhul-journal"
_CHECK = 16  # letters of a check


class JournalError(Exception):
    """A journal that cannot be used, with a sentence that says why."""


class NotWritten(Exception):
    """A record that did not reach the disk. Nothing of it stands in the journal."""


class Opened(NamedTuple):
    journal: "Journal"
    records: List[dict]
    told: List[str]  # sentences for whoever starts the server


def _check(before: str, text: str) -> str:
    return hashlib.sha256(f"{before} {text}".encode()).hexdigest()[:_CHECK]


def _line(before: str, record: dict):
    text = json.dumps(record, separators=(",", ":"), ensure_ascii=True)
    check = _check(before, text)
    return check, f"{check} {text}\n".encode()


def _stamped(record: dict, number: int) -> dict:
    return {"seq": number, "time": time.strftime("%Y-%m-%dT%H:%M:%SZ", time.gmtime()), **record}


def _sync_folder(path: str):
    folder = os.open(os.path.dirname(os.path.abspath(path)), os.O_RDONLY)
    try:
        os.fsync(folder)
    finally:
        os.close(folder)


def _write_all(descriptor: int, data: bytes):
    while data:
        data = data[os.write(descriptor, data) :]


def _lock(descriptor: int, path: str):
    try:
        fcntl.flock(descriptor, fcntl.LOCK_EX | fcntl.LOCK_NB)
    except OSError as error:
        raise JournalError(f"another server has the journal {path} open. One journal has one server.") from error


class Journal:
    """An open journal. One thread at a time may append."""

    def __init__(self, path: str, descriptor: int, size: int, check: str, count: int):
        self.path, self._descriptor, self._size, self._check, self._count = path, descriptor, size, check, count
        self._broken = False

    def append(self, record: dict) -> dict:
        """Writes a record and waits until it is on the disk. The record with its number and time; or `NotWritten`."""
        if self._broken:
            raise NotWritten("the journal could not be written before; the server takes no more changes until it is started again")
        stamped = _stamped(record, self._count + 1)
        check, line = _line(self._check, stamped)
        try:
            _write_all(self._descriptor, line)
            os.fsync(self._descriptor)
        except OSError as error:
            self._take_back()
            raise NotWritten(f"the journal could not be written ({error.strerror}); nothing was changed") from error
        self._size, self._check, self._count = self._size + len(line), check, self._count + 1
        return stamped

    def _take_back(self):
        """Cuts off what a failed write left. Where that fails too, no further record is taken."""
        try:
            os.ftruncate(self._descriptor, self._size)
            os.fsync(self._descriptor)
        except OSError:
            self._broken = True

    def close(self):
        os.close(self._descriptor)


def create(path: str, record: dict) -> Opened:
    """A new journal with its first record: made beside, then put in its place whole."""
    stamped = _stamped(record, 1)
    head = f"{_HEAD} {VERSION}\n".encode()
    check, line = _line(head.decode().strip(), stamped)
    beside = f"{path}.{os.getpid()}.new"
    descriptor = os.open(beside, os.O_RDWR | os.O_CREAT | os.O_EXCL | os.O_APPEND | os.O_CLOEXEC, 0o600)
    try:
        _lock(descriptor, path)
        _write_all(descriptor, head + line)
        os.fsync(descriptor)
        os.link(beside, path)  # fails where there is one already
        _sync_folder(path)
    except FileExistsError as error:
        os.close(descriptor)
        raise JournalError(f"another server made the journal {path} just now.") from error
    except BaseException:
        os.close(descriptor)
        raise
    finally:
        os.unlink(beside)
    return Opened(Journal(path, descriptor, len(head) + len(line), check, 1), [stamped], [f"new journal: {path}"])


def _head(path: str, line: bytes) -> str:
    words = line.decode("ascii", "replace").split(" ")
    if len(words) != 2 or words[0] != _HEAD:
        raise JournalError(f"{path} is not a journal of this program.")
    if words[1] != str(VERSION):
        raise JournalError(f"the journal {path} is of version {words[1]}; this program writes and reads version {VERSION}. Nothing was changed.")
    return f"{_HEAD} {VERSION}"


def _record(path: str, number: int, check: str, line: bytes):
    """The check and the record of a line."""
    text = line.decode("ascii", "replace")
    found, body = text[:_CHECK], text[_CHECK + 1 :]
    try:
        record = json.loads(body) if text[_CHECK : _CHECK + 1] == " " and _check(check, body) == found else None
    except ValueError:
        record = None
    if not isinstance(record, dict) or record.get("seq") != number - 1:
        raise JournalError(
            f"line {number} of the journal {path} is damaged: its check does not fit. Nothing was changed. "
            "Put a copy of the journal in its place; the calls before that line are whole."
        )
    return found, record


def _read(path: str, data: bytes):
    """The records, the last check, and how many bytes are whole."""
    whole = data.rfind(b"\n") + 1
    lines = data[:whole].split(b"\n")[:-1]
    if len(lines) < 2:
        raise JournalError(f"{path} is not a journal of this program: it has no case.")
    check, records = _head(path, lines[0]), []
    for number, line in enumerate(lines[1:], 2):
        check, record = _record(path, number, check, line)
        records.append(record)
    return records, check, whole


def _private(descriptor: int, path: str) -> List[str]:
    """Nobody but the owner may read or write the journal."""
    mode = os.fstat(descriptor).st_mode & 0o777
    if mode == 0o600:
        return []
    os.fchmod(descriptor, 0o600)
    return [f"the journal {path} had mode {mode:03o}; it has 600 now"]


def open_journal(path: str) -> Opened:
    """A journal that is there, whole but for a torn last line, which is cut off and told."""
    descriptor = os.open(path, os.O_RDWR | os.O_APPEND | os.O_CLOEXEC)
    try:
        _lock(descriptor, path)
        with open(path, "rb") as stream:
            data = stream.read()
        records, check, whole = _read(path, data)
        told = _private(descriptor, path)
        if whole < len(data):
            os.ftruncate(descriptor, whole)
            os.fsync(descriptor)
            told.append(f"the last line of the journal {path} was torn ({len(data) - whole} bytes) and is dropped; it was never answered")
    except BaseException:
        os.close(descriptor)
        raise
    return Opened(Journal(path, descriptor, whole, check, len(records)), records, told)
