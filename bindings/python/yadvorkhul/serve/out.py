"""What leaves the server as a file: the page, CSV in the form of `tidy`, JSON. Per role what its calls answer."""

import json
import secrets
import threading

from .. import Case, Role, write_case
from ..files import plan_text
from .shared import SharedCase, answer

_drawing = threading.Lock()  # a picture takes a second; nobody who edits waits for it


def secret() -> str:
    return secrets.token_urlsafe(24)


def as_case(case: dict) -> Case:
    return Case(**case)


def tariff_text(shared: SharedCase, role: Role) -> bytes:
    """The tariff as the archive writes a case (W-213), with zeros for entries, which the tariff does not tell of."""
    tariff = shared.work.see_tariff(role)
    return write_case(Case(*tariff, [0] * (tariff.supplies[0] + 1)))[0]


def production_text(shared: SharedCase, role: Role) -> bytes:
    """The table as the archive writes a case."""
    table = shared.work.see_table(role)
    return write_case(Case(*shared.work.see_tariff(role), table))[1]


def plan_csv(shared: SharedCase, role: Role) -> bytes:
    """The plan as the program `plan` prints it."""
    plan = shared.work.plan(role)
    return plan_text(shared.case(role), plan).encode()


def case_json(shared: SharedCase, role: Role) -> bytes:
    """The fields of `Case` that the role may see; a planner's can be served and imported again."""
    with shared.lock:
        told = dict(shared.names())
        tariff = shared.work.see_tariff(role)
        told.update(costs=tariff.costs, supplies=tariff.supplies, demands=tariff.demands)
        table, _ = answer(shared.work.see_table, role)
        if table is not None:
            told["table"] = table
        limits, _ = answer(shared.limits, role)
        if limits is not None:
            told.update(runs=list(limits[0]), ceilings=limits[1])
    return (json.dumps(told, ensure_ascii=False, indent=1) + "\n").encode()


def page(shared: SharedCase, role: Role) -> bytes:
    """The page of the plan, or of its refusal, for whoever may plan."""
    from ..pages import case_page

    with shared.lock:
        case = shared.case(role)
    with _drawing:
        return case_page(case).encode()
