"""A working case that several people share: one lock, one store, one journal.

The store is what the steps of the history lead to. A step that is refused half way, undo and redo make it anew from the steps: planning
after any run of calls gives what the case of that history entered afresh gives (W-204, proved), so nothing else need be kept.
"""

import hashlib
import json
import threading
from typing import Dict, List, NamedTuple, Optional

from .. import Case, Plan, Refusal, Role, Tariff, WorkingCase, offers
from .history import History, folded, wanted
from .journal import Journal, JournalError, NotWritten

CALLS = {"edit_demand": 2, "edit_supply": 2, "edit_cost": 3, "edit_entry": 2, "mark": 1, "go_back": 1}  # and how many numbers each takes
MOST_MARKS = 8


class Person(NamedTuple):
    name: str
    role: Role


class Refused(Exception):
    """A refusal of one of the calls of a write; none of them was done."""

    def __init__(self, refusal: Refusal, index: int, call: list):
        super().__init__(str(refusal))
        self.refusal, self.index, self.call = refusal, index, call


class OutOfDate(Exception):
    """What was to be undone or redone is no longer the last step, or the write was meant for another case."""


class Marked(NamedTuple):
    """What a mark holds."""

    tariff: Tariff
    table: List[int]
    plan: Optional[Plan]
    refusal: Optional[Refusal]


def entered(case: dict) -> WorkingCase:
    return WorkingCase(*(case[field] for field in ("costs", "supplies", "demands", "table")), tuple(case["runs"]), case["ceilings"])


def _repeat(work: WorkingCase, role: int, call: list):
    name, *numbers = call
    getattr(work, name)(role, *numbers)


def replayed(history: History, count: Optional[int] = None) -> WorkingCase:
    """A working case of its own with all that the first steps did."""
    case, steps = history.since_entry(count)
    work = entered(case)
    for step in steps:
        for call in step.calls:
            _repeat(work, step.role, call)
    return work


def _offered(call: str, symbol: str = "") -> bool:
    """Whether the package and the archive that it was built of both have a call; older ones do not."""
    return hasattr(WorkingCase, call) and offers(f"yadvorkhul_{symbol or call}")


def answer(call, *numbers):
    """What a call gives, and its refusal; one of the two is None."""
    try:
        return call(*numbers), None
    except Refusal as refusal:
        return None, refusal


class SharedCase:
    def __init__(self, journal: Journal, records: List[dict]):
        self.lock = threading.RLock()
        self.journal = journal
        try:
            self.history = folded(records)
            self.work = replayed(self.history)
        except Refusal as refusal:
            raise JournalError(f"the journal {journal.path} has a call that this archive refuses: {refusal}. Nothing was changed.") from refusal
        except (KeyError, IndexError, TypeError, ValueError) as error:
            raise JournalError(f"the journal {journal.path} has a record that this program cannot read ({error}). Nothing was changed.") from error
        self._marked: Dict[tuple, Dict[int, Marked]] = {}
        self.outcomes: Dict[int, Optional[int]] = {}  # by the number of the last step: the least total, None where there is no plan

    # what changes the case ---------------------------------------------------------------------------------------------------------

    def do(self, who: Person, calls: List[list], names: Dict[int, str], identity: str, standing: str = ""):
        """All calls of a write, or none. One that was answered before is not done again."""
        record = {"do": "calls", "user": who.name, "role": int(who.role), "calls": calls, **_naming(names), **_identity(identity)}
        with self.lock:
            if self._answered(record):
                return
            self._stands(standing)
            self._do_all(who, calls)
            if names:
                self._may_name(who, calls)
            self._note(record)

    def _do_all(self, who: Person, calls: List[list]):
        done = 0
        try:
            for call in calls:
                _repeat(self.work, who.role, call)
                done += 1
        except BaseException as error:
            if done:
                self.work = replayed(self.history)
            if isinstance(error, Refusal):
                raise Refused(error, done, calls[done]) from error
            raise

    def _may_name(self, who: Person, calls: List[list]):
        """Who may set a mark may name it: the call with mark 0 changes nothing, and is 31 or 24."""
        refusal = answer(self.work.mark, who.role, 0)[1]
        if refusal.number == 31:
            self.work = replayed(self.history)
            raise Refused(refusal, len(calls), ["mark", 0])

    def _answered(self, record: dict) -> bool:
        """Whether the write was answered before. An identity is of one write: with another one it is refused."""
        before = self.history.ids.get((record["user"], record.get("id", "")))
        if before is not None and before != wanted(record):
            raise OutOfDate("this write has the identity of another one; nothing was changed")
        return before is not None

    def _stands(self, standing: str):
        """A write names cells by their places: it is for the case that whoever sent it looked at."""
        if standing and standing != self.standing():
            raise OutOfDate("another case was entered meanwhile; nothing was changed")

    def _note(self, record: dict):
        """The record into the journal, then into the history. Where it does not reach the disk the store is as before."""
        try:
            self.history.add(self.journal.append(record))
        except NotWritten:
            self.work = replayed(self.history)
            raise

    def undo(self, who: Person, of: int, identity: str):
        """Takes the last step away, which must be the one named."""
        with self.lock:
            if self._answered(_turning("undo", who, identity)):
                return
            if not self.history.may_undo() or self.history.last.seq != of:
                raise OutOfDate("somebody else changed the case meanwhile; look at it before you undo")
            self._turn("undo", who, identity)

    def redo(self, who: Person, of: int, identity: str):
        """Brings the step back that was undone last, which must be the one named."""
        with self.lock:
            if self._answered(_turning("redo", who, identity)):
                return
            if not self.history.undone or self.history.undone[-1].seq != of:
                raise OutOfDate("somebody else changed the case meanwhile; there is nothing to redo")
            self._turn("redo", who, identity)

    def _turn(self, kind: str, who: Person, identity: str):
        self._note(_turning(kind, who, identity))
        self.work = replayed(self.history)

    def enter(self, who: Person, case: dict, identity: str):
        """Another case in place of this one. Its marks are gone with it, and come back by undo."""
        record = {"do": "enter", "user": who.name, "role": int(who.role), "case": case, **_identity(identity)}
        with self.lock:
            if self._answered(record):
                return
            fresh = entered(case)
            self._note(record)
            self.work = fresh

    def publish(self, who: Person, identity: str, standing: str = ""):
        """Freezes the lanes of the plan for everybody to see, without costs."""
        with self.lock:
            if self._answered(_turning("publish", who, identity)):
                return
            self._stands(standing)
            plan, tariff = self.work.plan(who.role), self.work.see_tariff(who.role)
            lanes = {"amounts": plan.amounts, "supplies": tariff.supplies, "demands": tariff.demands, **self.names()}
            self._note({**_turning("publish", who, identity), "lanes": lanes})

    def withdraw(self, who: Person, identity: str):
        with self.lock:
            record = _turning("withdraw", who, identity)
            if not self._answered(record) and self.history.published is not None:
                self._note(record)

    # what is read from it ----------------------------------------------------------------------------------------------------------

    def names(self) -> dict:
        """Title, currency, date and names, which everybody sees."""
        case = self.history.case
        about = {field: case.get(field, "") for field in ("title", "currency", "date")}
        return {**about, "sources": case["sources"], "terminals": case["terminals"]}

    def standing(self) -> str:
        """Tells the case that stands from another one, by what everybody sees of it: names and sizes, which no edit alters."""
        with self.lock:
            case = self.history.case
            parts = [self.names(), len(case["supplies"]), len(case["demands"])]
        return hashlib.sha256(json.dumps(parts, sort_keys=True).encode()).hexdigest()[:16]

    def limits(self, role: Role):
        """Least runs and ceilings; a deed of whoever may plan. No edit alters them, so an archive without the call needs none."""
        if _offered("see_limits"):
            return self.work.see_limits(role)
        _allowed(answer(self.work.plan, role)[1])
        case = self.history.case
        wide = [[4000] * len(case["demands"]) for _ in case["supplies"]]
        return tuple(case["runs"]), case["ceilings"] or wide

    def marks(self, role: Role) -> List[int]:
        """The marks that are set; a deed of whoever may plan."""
        if _offered("marks", "marks_set"):
            return self.work.marks(role)
        _allowed(answer(self.work.plan, role)[1])
        return list(self.history.marks())

    def case(self, role: Role) -> Case:
        """The case as it is now, for whoever may see all of it."""
        with self.lock:
            runs, ceilings = self.limits(role)
            tariff, table = self.work.see_tariff(role), self.work.see_table(role)
            return Case(*tariff, table, runs, ceilings, **self.names())

    def marked(self, role: Role) -> Dict[int, Marked]:
        """What each mark holds: the steps done again in a second store, which then goes back to it. Kept until a mark is set."""
        found = self.marks(role)
        _allowed(answer(self.work.see_table, role)[1])
        key = tuple((mark, seq) for mark, (_, seq) in self.history.marks().items())
        if key not in self._marked:
            again = replayed(self.history)
            self._marked = {key: {mark: self._held(again, role, mark) for mark in found}}
        return self._marked[key]

    def _held(self, again: WorkingCase, role: Role, mark: int) -> Marked:
        """What a mark holds, by the second store; its plan by the first one where the archive plans a mark."""
        again.go_back(role, mark)
        planned = (self.work.plan_mark, role, mark) if _offered("plan_mark") else (again.plan, role)
        plan, refusal = answer(*planned)
        return Marked(again.see_tariff(role), again.see_table(role), plan, refusal)

    def outcome(self, role: Role, count: int) -> Optional[int]:
        """The least total after the first steps, None where there is no plan. Asked of the proved role table each time."""
        _allowed(answer(self.work.plan, role)[1])
        seq = self.history.steps[count - 1].seq
        if seq not in self.outcomes:
            plan, _ = answer(replayed(self.history, count).plan, role)
            self.outcomes[seq] = plan.total if plan else None
        return self.outcomes[seq]


def _allowed(refusal: Optional[Refusal]):
    """31 goes on to whoever asked; what else there is to say is no matter of roles."""
    if refusal is not None and refusal.number == 31:
        raise refusal


def _naming(names: Dict[int, str]) -> dict:
    return {"names": {str(mark): name for mark, name in names.items()}} if names else {}


def _turning(kind: str, who: Person, identity: str) -> dict:
    """The record of a write that has nothing but its kind."""
    return {"do": kind, "user": who.name, "role": int(who.role), **_identity(identity)}


def _identity(identity: str) -> dict:
    return {"id": identity} if identity else {}
