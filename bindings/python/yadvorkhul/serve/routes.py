"""The addresses. Each calls the working case with the role of whoever is signed in; 31 is status 403.

No rule about roles stands here, but that undo, redo, import and withdrawing, which are no deeds, are the planner's.
"""

import math

from flask import Blueprint, Response, abort, g, redirect, render_template, request

from .. import Refusal, Role, bounds, rates
from ..cases import NotACase
from ..files import FileRefusal
from ..refusals import explain
from . import asked, out, views
from .cases import case_of, case_of_files, case_of_text
from .guard import equal, server, who
from .people import PeopleError, kept_name
from .sessions import begin
from .shared import Refused

routes = Blueprint("routes", __name__)


def told(answer: dict, status: int = 200) -> Response:
    return Response(views.packed(answer), status, mimetype="application/json")


def refused(refusal: Refusal, **more) -> Response:
    """31 is 403, any other refusal 422."""
    answer = {"number": refusal.number, "place": refusal.place, "sentence": "Your role may not do this." if refusal.number == 31 else str(refusal)}
    answer.update(more)
    return told({"refused": answer}, 403 if refusal.number == views.NO_DEED else 422)


def planner_only():
    """Undo, redo, import and withdrawing are no deeds of the table."""
    if who().role != Role.PLANNER:
        abort(403, "Your role may not do this.")


def shared():
    return server().shared


def state_now() -> Response:
    return told(views.state(shared(), who().role))


# signing in ------------------------------------------------------------------------------------------------------------------------


def _form(page: str, status: int, sentence: str, **more) -> Response:
    return Response(render_template(page, sentence=sentence, title=shared().names()["title"] if g.session else "", **more), status)


def _sign_in_page(status: int = 200, sentence: str = "") -> Response:
    at = server()
    before = request.cookies.get(at.cookie + "-form", "") or out.secret()
    response = _form("sign-in.html", status, sentence, token=at.sessions.form_token(before))
    _cookie(response, at.cookie + "-form", before, 3600)
    return response


def _cookie(response: Response, name: str, value: str, seconds: int):
    response.set_cookie(name, value, max_age=seconds, path="/", secure=server().secure, httponly=True, samesite="Strict")


@routes.get("/sign-in", endpoint="sign_in_form")
def sign_in_form():
    return redirect("/", 303) if g.session else _sign_in_page()


@routes.post("/sign-in", endpoint="sign_in")
def sign_in():
    at = server()
    before = request.cookies.get(at.cookie + "-form", "")
    if not before or not equal(request.form.get("token", ""), at.sessions.form_token(before)):
        return _sign_in_page(403, "This form was too old. Please try again.")
    name, address = kept_name(request.form.get("name", "")[:80]), request.remote_addr or ""
    wait = begin((at.by_name, name), (at.by_address, address))
    if wait > 0:
        response = _sign_in_page(429, f"Too many wrong words. Please wait {math.ceil(wait)} s.")
        response.headers["Retry-After"] = str(math.ceil(wait))
        return response
    entry = at.people.signed_in(name, request.form.get("word", ""))
    if entry is None:
        at.by_name.stay(name)
        at.by_address.stay(address)
        return _sign_in_page(403, "Name and password do not fit.")
    at.by_name.right(name)
    at.by_address.right(address)
    response = redirect("/password" if entry.once else "/", 303)
    _cookie(response, at.cookie, at.sessions.start(entry), 8 * 3600)
    response.delete_cookie(at.cookie + "-form", path="/", secure=at.secure, httponly=True, samesite="Strict")
    return response


@routes.post("/sign-out", endpoint="sign_out")
def sign_out():
    at = server()
    at.sessions.end(request.cookies.get(at.cookie, ""))
    response = redirect("/sign-in", 303)
    response.delete_cookie(at.cookie, path="/", secure=at.secure, httponly=True, samesite="Strict")
    return response


@routes.get("/password", endpoint="new_word_form")
def new_word_form():
    return _form("password.html", 200, "", token=g.session.token, once=g.entry.once)


@routes.post("/password", endpoint="new_word")
def new_word():
    at, name = server(), g.entry.name
    again = dict(token=g.session.token, once=g.entry.once)
    if begin((at.by_name, name)) > 0:
        return _form("password.html", 429, "Too many wrong words. Please wait a little.", **again)
    if at.people.signed_in(name, request.form.get("old", "")) is None:
        at.by_name.stay(name)
        return _form("password.html", 403, "The present password does not fit.", **again)
    at.by_name.right(name)
    new = request.form.get("new", "")
    if new != request.form.get("again", ""):
        return _form("password.html", 422, "The new password was not typed alike twice.", **again)
    if new == request.form.get("old", ""):
        return _form("password.html", 422, "The new password is the old one.", **again)
    try:
        at.people.change_word(name, new)
    except PeopleError as error:
        return _form("password.html", 422, f"{str(error)[0].upper()}{str(error)[1:]}.", **again)
    at.sessions.end(request.cookies.get(at.cookie, ""))
    response = redirect("/", 303)
    _cookie(response, at.cookie, at.sessions.start(at.people.find(name)), 8 * 3600)
    return response


# the screen and what it shows ------------------------------------------------------------------------------------------------------


@routes.get("/", endpoint="screen")
def screen():
    role = who().role.name.lower()
    return render_template("screen.html", token=g.session.token, name=g.entry.name, role=role, title=shared().names()["title"])


@routes.get("/state", endpoint="state")
def state():
    text = views.packed(views.state(shared(), who().role))
    if request.args.get("have", "") == text[8:28]:
        return Response(status=204)
    return Response(text, mimetype="application/json")


@routes.get("/tariff", endpoint="tariff")
def tariff():
    with shared().lock:
        return told({"tariff": views.tariff_part(shared().work.see_tariff(who().role))})


@routes.get("/table", endpoint="table")
def table():
    with shared().lock:
        return told({"table": views.table_part(shared().work.see_table(who().role))})


@routes.get("/plan", endpoint="plan")
def plan():
    with shared().lock:
        found = shared().work.plan(who().role)
        return told({"plan": views.plan_part(found, shared().work.see_table(who().role))})


@routes.get("/marks", endpoint="marks")
def marks():
    return told(views.marks(shared(), who().role))


@routes.get("/log", endpoint="log")
def log():
    planner_only()
    return told(views.log(shared()))


@routes.get("/rates", endpoint="rates")
def square_root_rates():
    """A table to start from, for the first supply as it is now."""
    with shared().lock:
        supply = shared().work.see_tariff(who().role).supplies[0]
    return told({"table": rates(supply)})


@routes.post("/bounds", endpoint="bounds")
def possible():
    """Which splits can be the cheapest with entries between two tables, on the case as it is now."""
    body = asked.body()
    low, high = asked.entries(body, "low"), asked.entries(body, "high")
    case = shared().case(who().role)
    try:
        found = bounds(case.costs, case.supplies, case.demands, low, high, case.runs, case.ceilings)
    except Refusal as refusal:
        return refused(refusal, **views.bounds_refused(refusal, case, low, high))
    return told({"first": found.first, "possible": [int(one) for one in found.possible], "smallest": found.smallest, "largest": found.largest})


# what changes the case ---------------------------------------------------------------------------------------------------------------


@routes.post("/do", endpoint="do")
def do():
    """The calls of one write, all or none."""
    body = asked.body()
    calls, names = asked.calls(body), asked.names(body)
    if not calls and not names:
        abort(400, "The request has no call.")
    try:
        shared().do(who(), calls, names, asked.identity(body), asked.standing(body))
    except Refused as error:
        names = shared().names()
        return refused(error.refusal, index=error.index, **views.call_refused(names, error.refusal, error.call))
    return state_now()


@routes.post("/undo", endpoint="undo")
def undo():
    planner_only()
    body = asked.body()
    shared().undo(who(), asked.number(body, "of"), asked.identity(body))
    return state_now()


@routes.post("/redo", endpoint="redo")
def redo():
    planner_only()
    body = asked.body()
    shared().redo(who(), asked.number(body, "of"), asked.identity(body))
    return state_now()


@routes.post("/import", endpoint="import")
def import_case():
    """Another case: an object with the fields of a case, the text of a JSON file, or the texts of the two files."""
    planner_only()
    body = asked.body()
    tariff = production = None
    try:
        if "case" in body:
            case = case_of(body["case"])
        elif "text" in body:
            case = case_of_text(asked.text(body, "text"))
        else:
            tariff, production = (asked.text(body, field).encode() for field in ("tariff", "production"))
            case = case_of_files(tariff, production)
        shared().enter(who(), case, asked.identity(body))
    except NotACase as error:
        abort(422, f"This is no case: {error}.")
    except FileRefusal as refusal:
        return refused(refusal, sentence=_sentence(explain(refusal)))
    except Refusal as refusal:
        return refused(refusal, sentence=_sentence(explain(refusal, out.as_case(case))))
    return state_now()


def _sentence(explained) -> str:
    cause = f" Here stands {explained.spot.cause}." if explained.spot and explained.spot.cause else ""
    return f"{explained.sentence[0].upper()}{explained.sentence[1:]}{cause} {explained.advice}"


@routes.post("/publish", endpoint="publish")
def publish():
    body = asked.body()
    shared().publish(who(), asked.identity(body), asked.standing(body))
    return state_now()


@routes.post("/withdraw", endpoint="withdraw")
def withdraw():
    planner_only()
    shared().withdraw(who(), asked.identity(asked.body()))
    return state_now()


# out -------------------------------------------------------------------------------------------------------------------------------


def _file(data: bytes, name: str, kind: str) -> Response:
    response = Response(data, mimetype=kind)
    response.headers["Content-Disposition"] = f'attachment; filename="{name}"'
    return response


@routes.get("/out/tariff.csv", endpoint="out_tariff")
def out_tariff():
    with shared().lock:
        return _file(out.tariff_text(shared(), who().role), "tariff.csv", "text/csv")


@routes.get("/out/production.csv", endpoint="out_production")
def out_production():
    with shared().lock:
        return _file(out.production_text(shared(), who().role), "production.csv", "text/csv")


@routes.get("/out/plan.csv", endpoint="out_plan")
def out_plan():
    with shared().lock:
        return _file(out.plan_csv(shared(), who().role), "plan.csv", "text/csv")


@routes.get("/out/case.json", endpoint="out_case")
def out_case():
    return _file(out.case_json(shared(), who().role), "case.json", "application/json")


@routes.get("/out/plan.html", endpoint="out_page")
def out_page():
    """The page, to be kept and printed. It has a style and a script in it, which this server's policy forbids: so it is saved."""
    return _file(out.page(shared(), who().role), "plan.html", "text/html")
