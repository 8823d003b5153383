"""The web application and the server that runs it: Flask on Waitress, on the loopback address alone."""

import logging
import sys
import time
import traceback

import waitress
from flask import Flask, Response, g, request
from werkzeug.exceptions import HTTPException

from .. import Refusal
from . import guard, views
from .guard import MOST_BODY, Server
from .journal import NotWritten
from .more import more
from .people import People, PeopleError
from .routes import refused, routes
from .sessions import Sessions, Waiting
from .shared import OutOfDate, SharedCase

ADDRESS = "127.0.0.1"
THREADS = 8


def _sentence(sentence: str, status: int) -> Response:
    return Response(views.packed({"sentence": sentence}), status, mimetype="application/json")


def _http(error: HTTPException) -> Response:
    response = _sentence(error.description or error.name, error.code or 500)
    for name, value in error.get_headers():
        if name not in ("Content-Type", "Content-Length"):
            response.headers[name] = value
    return response


def _unexpected(error: Exception) -> Response:
    """No word of the error goes out, and none of its numbers into the log: only where it was."""
    at = traceback.extract_tb(error.__traceback__)[-1]
    logging.getLogger("yadvorkhul").error("%s at %s:%s", type(error).__name__, at.filename.rsplit("/", 1)[-1], at.lineno)
    return _sentence("Something that should not happen. Nothing was changed by it that the screen does not show.", 500)


def _noted(response):
    """A line for each request, without a number of the case."""
    name = g.entry.name if getattr(g, "entry", None) else "-"
    if guard.route() != "static":
        logging.getLogger("yadvorkhul").info("%s %s %s %s", name, request.method, guard.route() or "?", response.status_code)
    return response


def make_app(shared: SharedCase, people: People, port: int, proxy: str = "") -> Flask:
    """The application for a port of this machine, or for a proxy's name."""
    app = Flask(__name__, static_folder="static", template_folder="templates")
    app.config.update(MAX_CONTENT_LENGTH=MOST_BODY, PROPAGATE_EXCEPTIONS=False, TESTING=False, DEBUG=False)
    app.jinja_env.trim_blocks = app.jinja_env.lstrip_blocks = True
    local = tuple(f"{name}:{port}" for name in (ADDRESS, "localhost"))
    app.extensions["yadvorkhul"] = Server(
        shared,
        people,
        Sessions(),
        Waiting(60),
        Waiting(900),
        hosts=(proxy,) if proxy else local,
        origins=(f"https://{proxy}",) if proxy else tuple(f"http://{name}" for name in local),
        secure=bool(proxy),
        cookie="__Host-yadvorkhul" if proxy else f"yadvorkhul-{port}",
    )
    guard.install(app)
    app.after_request(_noted)
    app.register_blueprint(routes)
    app.register_blueprint(more)
    app.register_error_handler(Refusal, refused)
    app.register_error_handler(OutOfDate, lambda error: _sentence(f"{str(error)[0].upper()}{str(error)[1:]}.", 409))
    app.register_error_handler(NotWritten, lambda error: _sentence(f"{str(error)[0].upper()}{str(error)[1:]}.", 507))
    app.register_error_handler(PeopleError, lambda error: _sentence("The file of people cannot be read.", 500))
    app.register_error_handler(HTTPException, _http)
    app.register_error_handler(Exception, _unexpected)
    return app


def _logging():
    handler = logging.StreamHandler(sys.stderr)
    formatter = logging.Formatter("%(asctime)s %(message)s", "%Y-%m-%dT%H:%M:%SZ")
    formatter.converter = time.gmtime
    handler.setFormatter(formatter)
    log = logging.getLogger("yadvorkhul")
    log.setLevel(logging.INFO)
    log.propagate = False
    log.handlers = [handler]
    logging.getLogger("waitress").setLevel(logging.ERROR)


def make_server(app: Flask, port: int, proxy: str = ""):
    """A server that listens already, and serves by its `run`."""
    _logging()
    behind = dict(trusted_proxy=ADDRESS, trusted_proxy_headers={"x-forwarded-for"}) if proxy else {}
    return waitress.create_server(
        app,
        host=ADDRESS,
        port=port,
        threads=THREADS,
        ident="yadvorkhul",
        max_request_body_size=2 * MOST_BODY,  # up to there the application says so itself, in a sentence
        clear_untrusted_proxy_headers=True,
        **behind,
    )
