"""Lets a request in or turns it away, before any route sees it; and what goes with every answer."""

import hmac
from typing import NamedTuple, Optional, Tuple

from flask import Flask, abort, current_app, g, redirect, request
from werkzeug.exceptions import HTTPException

from .people import Entry, People
from .sessions import Session, Sessions, Waiting
from .shared import Person, SharedCase

MOST_BODY = 1_000_000
_POLICY = (
    "default-src 'none'; script-src 'self'; style-src 'self'; img-src 'self'; connect-src 'self'; "
    "form-action 'self'; base-uri 'none'; frame-ancestors 'none'"
)
_HEADERS = {
    "Content-Security-Policy": _POLICY,
    "Cache-Control": "no-store",
    "X-Content-Type-Options": "nosniff",
    "X-Frame-Options": "DENY",
    # not "no-referrer": with it a browser sends a form's Origin as null
    "Referrer-Policy": "same-origin",
    "Cross-Origin-Opener-Policy": "same-origin",
    "Cross-Origin-Resource-Policy": "same-origin",
}
_OPEN = ("static", "sign_in", "sign_in_form")  # routes without a session
_ONCE = _OPEN + ("new_word", "new_word_form", "sign_out")  # and those for whoever came by a one-time word


class OtherHost(HTTPException):
    code, description = 421, "This server does not go by that name."


class Server(NamedTuple):
    """All that the routes work on."""

    shared: SharedCase
    people: People
    sessions: Sessions
    by_name: Waiting
    by_address: Waiting
    hosts: Tuple[str, ...]  # what the Host of a request may be
    origins: Tuple[str, ...]  # and its Origin
    secure: bool  # behind a proxy with TLS
    cookie: str


def server() -> Server:
    return current_app.extensions["yadvorkhul"]


def who() -> Person:
    """Whoever is signed in, with the role that the file of people has for the name now."""
    return Person(g.entry.name, g.entry.role)


def _signed_in() -> Tuple[Optional[Session], Optional[Entry]]:
    at = server()
    session = at.sessions.find(request.cookies.get(at.cookie, ""))
    if session is None:
        return None, None
    entry = at.people.find(session.name)
    return (session, entry) if at.sessions.stands(session, entry) else (None, None)


def equal(one: str, other: str) -> bool:
    return hmac.compare_digest(one.encode(), other.encode())


def _token() -> str:
    return request.headers.get("X-Token", "") or request.form.get("token", "")


def _check_write():
    """Origin, size and token of what may change something."""
    if request.headers.get("Origin", "") not in server().origins:
        abort(403, "The request comes from another site.")
    if request.content_length is None or request.content_length > MOST_BODY:
        abort(413, "The request is longer than 1 MB.")
    if g.session is not None and not equal(_token(), g.session.token):
        abort(403, "The token of the page does not fit; load the page again.")


def route() -> str:
    """The name of the route that the request is for; nothing where there is none."""
    return (request.endpoint or "").rsplit(".", 1)[-1]


def let_in():
    if request.headers.get("Host", "").lower() not in server().hosts:
        raise OtherHost()
    if not route():
        return None  # no such page, or another method: said by Flask
    g.session, g.entry = _signed_in()
    if g.session is None and route() not in _OPEN:
        return redirect("/sign-in", 303) if route() == "screen" else abort(401, "Sign in first.")
    if request.method not in ("GET", "HEAD", "OPTIONS"):
        _check_write()
    if g.entry is not None and g.entry.once and route() not in _ONCE:
        return redirect("/password", 303) if route() == "screen" else abort(403, "Choose a password of your own first.")
    return None


def dress(response):
    response.headers.update(_HEADERS)
    for name in ("ETag", "Last-Modified"):  # of static files: nothing is kept, so nothing need be compared
        response.headers.pop(name, None)
    return response


def install(app: Flask):
    app.before_request(let_in)
    app.after_request(dress)
