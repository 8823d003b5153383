"""Who is signed in, in memory alone, and how long whoever guessed wrong has to wait."""

import hashlib
import hmac
import secrets
import threading
import time
from typing import Dict, NamedTuple, Optional, Tuple

from .people import Entry

HOURS = 8
MOST = 2000  # people signed in at once
_FREE = 3  # wrong words without a wait


class Session(NamedTuple):
    name: str
    hash: str  # of the password hash at signing in: another password ends the session
    token: str  # goes with every write
    ends: float


def _mark(entry: Entry) -> str:
    return hashlib.sha256(entry.hash.encode()).hexdigest()


class Sessions:
    def __init__(self, clock=time.monotonic):
        self._clock, self._lock = clock, threading.Lock()
        self._found: Dict[str, Session] = {}
        self._key = secrets.token_bytes(32)

    def start(self, entry: Entry) -> str:
        """A new session; its secret goes into the cookie."""
        secret = secrets.token_urlsafe(32)
        with self._lock:
            now = self._clock()
            self._found = {key: one for key, one in self._found.items() if one.ends > now}
            if len(self._found) >= MOST:
                del self._found[min(self._found, key=lambda key: self._found[key].ends)]
            self._found[secret] = Session(entry.name, _mark(entry), secrets.token_urlsafe(24), now + HOURS * 3600)
        return secret

    def find(self, secret: str) -> Optional[Session]:
        with self._lock:
            one = self._found.get(secret)
            return one if one is not None and one.ends > self._clock() else None

    def stands(self, session: Session, entry: Optional[Entry]) -> bool:
        """Whether the person is still there with the same password."""
        return entry is not None and session.hash == _mark(entry)

    def end(self, secret: str):
        with self._lock:
            self._found.pop(secret, None)

    def form_token(self, before: str) -> str:
        """The token of the form for signing in, by a cookie that was set with the form."""
        return hmac.new(self._key, before.encode(), "sha256").hexdigest()


class Waiting:
    """A growing wait for a name and for an address after wrong words."""

    def __init__(self, longest: float, clock=time.monotonic):
        self._longest, self._clock, self._lock = longest, clock, threading.Lock()
        self._wrong: Dict[str, tuple] = {}  # how often, and until when to wait

    def left(self, key: str) -> float:
        """Seconds that are left to wait."""
        with self._lock:
            return max(0.0, self._wrong.get(key, (0, 0.0))[1] - self._clock())

    def wrong(self, key: str):
        """One wrong word more."""
        self._count(key, 1)

    def stay(self, key: str):
        """The wait of what was counted already, from now on."""
        self._count(key, 0)

    def _count(self, key: str, more: int):
        with self._lock:
            now = self._clock()
            self._wrong = {k: one for k, one in self._wrong.items() if one[1] + 3600 > now}
            times = self._wrong.get(key, (0, 0.0))[0] + more
            wait = 0.0 if times < _FREE else min(self._longest, 2.0 ** (times - _FREE))
            self._wrong[key] = (times, now + wait)

    def right(self, key: str):
        with self._lock:
            self._wrong.pop(key, None)


_beginning = threading.Lock()


def begin(*kept: Tuple[Waiting, str]) -> float:
    """Seconds that are left to wait. Where there are none the try counts as wrong before its word is looked at, so that many tries at
    once are no more than many one after the other; `right` takes it back."""
    with _beginning:
        wait = max(waiting.left(key) for waiting, key in kept)
        if wait <= 0:
            for waiting, key in kept:
                waiting.wrong(key)
        return wait
