"""Who may sign in: a file of names, roles and password hashes, mode 0600.

It is read again where it changed, so a role that is altered or a person that is removed counts from the next request on.
"""

import contextlib
import fcntl
import json
import os
import secrets
import tempfile
import threading
import time
import unicodedata
from typing import Dict, List, NamedTuple, Optional

from werkzeug.security import check_password_hash, generate_password_hash

from .. import Role

METHOD = "pbkdf2:sha256:600000"
SHORTEST = 10  # letters of a password
LONGEST = 200
ROLES = {role.name.lower(): role for role in Role}
_VERSION = 1
# of a word that nobody has: so that a name that is not there takes as long as one that is
_NOBODY = generate_password_hash(secrets.token_urlsafe(16), METHOD)


class PeopleError(Exception):
    """A wrong use of the file of people, with its sentence."""


class Entry(NamedTuple):
    name: str
    role: Role
    hash: str
    once: bool  # the word is a one-time word, to be replaced at the first signing in
    added: str


def kept_name(name: str) -> str:
    """A name in the form in which names are kept."""
    return unicodedata.normalize("NFC", name.strip())


def clean_name(name: str) -> str:
    """A name as it is kept; an error for one that cannot be."""
    name = kept_name(name)
    if not 1 <= len(name) <= 40 or not all(letter.isalnum() or letter in "._-" for letter in name):
        raise PeopleError("a name has 1 to 40 letters, digits, points, hyphens and underscores")
    return name


def clean_role(role: str) -> Role:
    if role not in ROLES:
        raise PeopleError(f"the role is one of {', '.join(ROLES)}")
    return ROLES[role]


class People:
    def __init__(self, path: str):
        self.path = path
        self._lock = threading.Lock()
        self._stamp, self._entries = None, {}

    # reading -----------------------------------------------------------------------------------------------------------------------

    def entries(self) -> Dict[str, Entry]:
        """Everybody, by name. Read again where the file is another one."""
        with self._lock:
            try:
                now = os.stat(self.path)
            except FileNotFoundError:
                return {}
            stamp = (now.st_ino, now.st_mtime_ns, now.st_size)
            if stamp != self._stamp:
                self._entries = _read(self.path)
                self._stamp = stamp
            return self._entries

    def find(self, name: str) -> Optional[Entry]:
        return self.entries().get(kept_name(name))

    def signed_in(self, name: str, word: str) -> Optional[Entry]:
        """The person whose name and word these are. One hash is reckoned in any case."""
        entry = self.find(name)
        fits = check_password_hash(entry.hash if entry else _NOBODY, word[:LONGEST])
        return entry if fits else None

    def private(self) -> List[str]:
        """Nobody but the owner may read or write the file; what had to be altered for it."""
        try:
            mode = os.stat(self.path).st_mode & 0o777
            if mode == 0o600:
                return []
            os.chmod(self.path, 0o600)
        except FileNotFoundError:
            return []
        except OSError as error:
            raise PeopleError(f"the file of people {self.path} cannot be made private: {error.strerror}") from error
        return [f"the file of people {self.path} had mode {mode:03o}; it has 600 now"]

    # changing ----------------------------------------------------------------------------------------------------------------------

    def add(self, name: str, role: Role, word: Optional[str] = None) -> str:
        """Adds a person with a word, or with a one-time word, which is returned."""
        name = clean_name(name)
        given = secrets.token_urlsafe(12) if word is None else checked_word(word)
        with self._changing() as entries:
            if name in entries:
                raise PeopleError(f"{name} is there already, as {entries[name].role.name.lower()}; remove the name first")
            added = time.strftime("%Y-%m-%dT%H:%M:%SZ", time.gmtime())
            entries[name] = Entry(name, role, generate_password_hash(given, METHOD), word is None, added)
        return given

    def remove(self, name: str):
        with self._changing() as entries:
            if entries.pop(kept_name(name), None) is None:
                raise PeopleError(f"there is no {name}")

    def change_word(self, name: str, word: str):
        hashed = generate_password_hash(checked_word(word), METHOD)
        with self._changing() as entries:
            if name not in entries:
                raise PeopleError(f"there is no {name}")
            entries[name] = entries[name]._replace(hash=hashed, once=False)

    @contextlib.contextmanager
    def _changing(self):
        """The entries to change, written whole afterwards; nobody else changes the file meanwhile."""
        guard = os.open(self.path + ".lock", os.O_RDWR | os.O_CREAT | os.O_CLOEXEC, 0o600)
        try:
            fcntl.flock(guard, fcntl.LOCK_EX)
            entries = dict(_read(self.path)) if os.path.exists(self.path) else {}
            yield entries
            _write(self.path, entries)
        finally:
            os.close(guard)


def checked_word(word: str) -> str:
    if not SHORTEST <= len(word) <= LONGEST:
        raise PeopleError(f"a password has {SHORTEST} to {LONGEST} letters")
    return word


def _read(path: str) -> Dict[str, Entry]:
    try:
        with open(path, encoding="utf-8") as stream:
            told = json.load(stream)
        if told["version"] != _VERSION:
            raise PeopleError(f"{path} is of version {told['version']}; this program reads version {_VERSION}")
        found = {}
        for name, one in told["people"].items():
            found[name] = Entry(name, ROLES[one["role"]], one["hash"], bool(one["once"]), one["added"])
        return found
    except (KeyError, TypeError, AttributeError, ValueError) as error:
        raise PeopleError(f"{path} is not a file of people that this program wrote") from error


def _write(path: str, entries: Dict[str, Entry]):
    people = {one.name: {"role": one.role.name.lower(), "hash": one.hash, "once": one.once, "added": one.added} for one in entries.values()}
    folder = os.path.dirname(os.path.abspath(path))
    descriptor, beside = tempfile.mkstemp(prefix=".people-", dir=folder)  # made with mode 0600
    try:
        with os.fdopen(descriptor, "w", encoding="utf-8") as out:
            json.dump({"version": _VERSION, "people": people}, out, indent=1)
            out.write("\n")
            out.flush()
            os.fsync(out.fileno())
        os.replace(beside, path)
    except BaseException:
        os.unlink(beside)
        raise
