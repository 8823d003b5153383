"""What a role is shown: what the calls answer to it. A part whose call is refused by 31 is left out.

Nothing here asks which role it is, but for undo. A version is made of the answer itself, so that it tells a depot or a reader no more than
the answer does.
"""

import hashlib
import json
from typing import List, Optional

from .. import Case, Plan, Refusal, Role, Tariff
from ..curve import curve_of
from ..refusals import explain_case
from ..words import counted, grouped
from .shared import SharedCase, answer

EXACT = 1 << 53  # whole numbers beyond it are sent as text: a browser would round them
RIVALS = 12  # local minima that are told, the cheapest first
NO_DEED = 31


def sent(number: int):
    return number if abs(number) < EXACT else str(number)


def packed(told: dict) -> str:
    """An answer as JSON, with a version that depends on nothing but the answer."""
    text = json.dumps(told, separators=(",", ":"), ensure_ascii=False)
    tag = hashlib.sha256(text.encode()).hexdigest()[:20]
    return f'{{"tag":"{tag}",{text[1:]}'


# who may do what -------------------------------------------------------------------------------------------------------------------

# calls at a place that no case has, or with an amount that no case takes: refused in any case, by 31 where the role may not
_PROBES = {
    "edit_demand": ("edit_demand", 0, 0),
    "edit_supply": ("edit_supply", 0, 0),
    "edit_first_supply": ("edit_supply", 1, 4001),
    "edit_cost": ("edit_cost", 0, 0, 0),
    "edit_entry": ("edit_entry", (1 << 64) - 1, 0),
    "mark": ("mark", 0),
    "go_back": ("go_back", 0),
}


def may(shared: SharedCase, role: Role) -> List[str]:
    """What the role may change, asked of the proved table."""
    return [deed for deed, (call, *numbers) in _PROBES.items() if answer(getattr(shared.work, call), role, *numbers)[1].number != NO_DEED]


# parts -----------------------------------------------------------------------------------------------------------------------------


def tariff_part(tariff: Tariff) -> dict:
    return {"costs": tariff.costs, "supplies": tariff.supplies, "demands": tariff.demands}


def table_part(table: List[int]) -> list:
    return [sent(entry) for entry in table]


def plan_part(plan: Plan, table: List[int]) -> dict:
    curve = curve_of(plan, table)
    rivals = sorted((v for v in curve.valleys if v.first is not curve.given), key=lambda v: (v.more, v.first.split))
    return {
        "split": plan.split,
        "total": plan.total,
        "freight": plan.freight,
        "production": table[plan.split],
        "amounts": plan.amounts,
        "stops": plan.stops,
        "rivals": [[v.first.split, v.last.split, v.first.total, v.more] for v in rivals[:RIVALS]],
        "more_rivals": max(0, len(rivals) - RIVALS),
        "ties": len(curve.ties),
    }


def refusal_part(refusal: Refusal, case: Case) -> dict:
    """Why a case has no plan: a sentence, what to do, and what the case's numbers say of it."""
    told = explain_case(refusal, case)
    sentence = told.sentence[0].upper() + told.sentence[1:]
    return {"number": refusal.number, "place": refusal.place, "sentence": sentence, "advice": told.advice, "facts": told.facts}


# sentences of calls ------------------------------------------------------------------------------------------------------------------


def source_name(names: dict, i: int) -> str:
    given = names["sources"] or []
    return given[i - 1] if 1 <= i <= len(given) else f"{'Plant' if i <= 2 else 'Depot'} {i}"


def terminal_name(names: dict, j: int) -> str:
    given = names["terminals"] or []
    return given[j - 1] if 1 <= j <= len(given) else f"Terminal {j}"


def call_text(names: dict, call: list) -> str:
    """A call in words."""
    kind, *numbers = call
    if kind == "edit_demand":
        return f"demand of {terminal_name(names, numbers[0])}: {grouped(numbers[1])}"
    if kind == "edit_supply":
        return f"supply of {source_name(names, numbers[0])}: {grouped(numbers[1])}"
    if kind == "edit_cost":
        return f"unit cost {source_name(names, numbers[0])} to {terminal_name(names, numbers[1])}: {grouped(numbers[2])}"
    if kind == "edit_entry":
        return f"entry of split {grouped(numbers[0])}: {grouped(numbers[1])}"
    return f"mark {numbers[0]} set" if kind == "mark" else f"back to mark {numbers[0]}"


def step_text(names: dict, calls: List[list], case: Optional[dict], marks: dict) -> str:
    if case is not None:
        return "case entered"
    if not calls:
        return "; ".join(f"mark {mark} named {name}" for mark, name in marks.items())
    first = call_text(names, calls[0])
    return first if len(calls) == 1 else f"{first} and {counted(len(calls) - 1, 'more change')}"


_LIMITS = {
    4: "{what}: a whole number from 0 to 4,000, please. {number} is above that.",
    5: "{what}: from −1,000,000 to 1,000,000, please. {number} is outside that.",
    23: "{what}: {number} is below the plant's least run.",
    24: "There is no such place in the case.",
    25: "Mark {place} was never set.",
    31: "Your role may not do this.",
}


def call_refused(names: dict, refusal: Refusal, call: list) -> dict:
    """The sentence of a refused call, by its own numbers alone, and the cell that it is about."""
    what = call_text(names, call).split(":")[0]
    number = grouped(call[-1]) if len(call) > 1 else ""
    sentence = _LIMITS.get(refusal.number, str(refusal)).format(what=what[0].upper() + what[1:], number=number, place=refusal.place)
    return {"number": refusal.number, "place": refusal.place, "sentence": sentence, "call": [call[0]] + [sent(n) for n in call[1:]]}


def bounds_refused(refusal: Refusal, case: Case, low: List[int], high: List[int]) -> dict:
    """The sentence of a refused pair of tables; the low one stands as the case's own."""
    if refusal.number != 28:
        return refusal_part(refusal, case._replace(table=low))
    if len(high) != len(low):
        return {"sentence": f"The high table has {counted(len(high), 'entry', 'entries')}, the low one {grouped(len(low))}."}
    what = "above 1,000,000,000" if high[refusal.place] >= low[refusal.place] else "below the low one"
    return {"sentence": f"The high entry of split {grouped(refusal.place)}, {grouped(high[refusal.place])}, is {what}."}


# the whole ---------------------------------------------------------------------------------------------------------------------------


def _plan_parts(shared: SharedCase, role: Role, table: List[int]) -> dict:
    """Plan, limits, marks, and what the last step did to the total; nothing where the role may not plan."""
    plan, refusal = answer(shared.work.plan, role)
    if refusal is not None and refusal.number == NO_DEED:
        return {}
    runs, ceilings = shared.limits(role)
    names = shared.history.marks()
    found = {"limits": {"runs": list(runs), "ceilings": ceilings}}
    found["marks"] = [{"mark": k, "name": names[k][0], "set": names[k][1]} for k in shared.marks(role)]
    if plan is not None:
        found["plan"] = plan_part(plan, table)
    else:
        found["refused"] = refusal_part(refusal, shared.case(role))
    shared.outcomes[shared.history.last.seq] = plan.total if plan else None
    if len(shared.history.steps) > 1 and shared.history.last.case is None:
        found["before"] = {"total": shared.outcome(role, len(shared.history.steps) - 1)}
    return found


def _turns(shared: SharedCase) -> dict:
    """What can be undone and redone."""
    history, names = shared.history, shared.names()

    def told(step):
        return {"of": step.seq, "user": step.user, "what": step_text(names, step.calls, step.case, step.names)}

    return {
        "undo": told(history.last) if history.may_undo() else None,
        "redo": told(history.undone[-1]) if history.undone else None,
    }


def state(shared: SharedCase, role: Role) -> dict:
    """All that the role is shown of the case as it is now."""
    with shared.lock:
        told = dict(shared.names())
        told["standing"] = shared.standing()
        told["may"] = may(shared, role)
        tariff, _ = answer(shared.work.see_tariff, role)
        if tariff is not None:
            told["tariff"] = tariff_part(tariff)
        table, _ = answer(shared.work.see_table, role)
        if table is not None:
            told["table"] = table_part(table)
        told.update(_plan_parts(shared, role, table))
        if role == Role.PLANNER:
            told.update(_turns(shared))
        if shared.history.published is not None:
            told["published"] = shared.history.published
        return told


def marks(shared: SharedCase, role: Role) -> dict:
    """What each mark holds."""
    with shared.lock:
        names, told = shared.history.marks(), []
        limits = shared.limits(role)
        for mark, held in shared.marked(role).items():
            one = {"mark": mark, "name": names[mark][0], "set": names[mark][1], "tariff": tariff_part(held.tariff), "table": table_part(held.table)}
            if held.plan is not None:
                one["plan"] = plan_part(held.plan, held.table)
            else:
                one["refused"] = refusal_part(held.refusal, Case(*held.tariff, held.table, *limits))
            told.append(one)
        return {"marks": told}


def log(shared: SharedCase) -> dict:
    """The steps that stand, the last first, in words."""
    with shared.lock:
        names = shared.names()
        steps = [
            {"time": step.time, "user": step.user, "what": step_text(names, step.calls, step.case, step.names)}
            for step in reversed(shared.history.steps)
        ]
        return {"steps": steps[:500], "count": len(steps)}
