"""What one drum more would change, and the fingerprints of case and plan: for whoever may see the table and plan."""

from flask import Blueprint

from ..again import as_json, one_more
from ..forms import fingerprints
from .guard import server, who
from .routes import told

more = Blueprint("more", __name__)


@more.get("/one-more", endpoint="one_more")
def one_drum_more():
    """Planned again by the proved function, a copy of the case at a time; the working case is not touched. 31 goes on to whoever asked."""
    shared = server().shared
    with shared.lock:
        plan, case = shared.work.plan(who().role), shared.case(who().role)
    return told({"drums": as_json(one_more(case, plan)), **fingerprints(case, plan)})
