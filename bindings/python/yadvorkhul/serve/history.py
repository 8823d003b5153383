"""What a journal says: the steps that stand, those undone, the names of marks, and what is published.

A step is one entering of a case, or the calls of one write, which stand or fall together. Undo takes the last step away, redo brings it
back; a new step forgets those undone.
"""

import bisect
import hashlib
import json
from typing import Dict, List, NamedTuple, Optional, Tuple


class Step(NamedTuple):
    seq: int  # the number of its record; equal prefixes of steps have equal last numbers
    time: str
    user: str
    role: int
    calls: List[list]  # each the name of a call and its numbers
    names: Dict[int, str]  # of marks
    case: Optional[dict]  # of an entering


class History:
    def __init__(self):
        self.steps: List[Step] = []
        self.undone: List[Step] = []
        self.published: Optional[dict] = None
        self.ids: Dict[Tuple[str, str], str] = {}  # by user and identity: what each write that was answered asked for
        self._entered: List[int] = []  # where among the steps a case was entered
        self._marks: Optional[Dict[int, Tuple[str, int]]] = None  # kept until undo, redo or another case

    def add(self, record: dict):
        kind = record["do"]
        if record.get("id"):
            self.ids[record["user"], record["id"]] = wanted(record)
        if kind in ("enter", "calls"):
            self._push(_step(record))
            self.undone.clear()
        elif kind == "undo":
            self.undone.append(self._pop())
        elif kind == "redo":
            self._push(self.undone.pop())
        elif kind == "publish":
            self.published = {"time": record["time"], "user": record["user"], **record["lanes"]}
        elif kind == "withdraw":
            self.published = None
        else:
            raise ValueError(f"a record of an unknown kind, {kind}")

    def _push(self, step: Step):
        if step.case is not None:
            self._entered.append(len(self.steps))
        self.steps.append(step)
        if step.case is not None or step.names or any(call[0] == "mark" for call in step.calls):
            self._marks = None

    def _pop(self) -> Step:
        step = self.steps.pop()
        if step.case is not None:
            self._entered.pop()
        self._marks = None
        return step

    @property
    def case(self) -> dict:
        """The case that was entered last."""
        return self.steps[self._entered[-1]].case

    @property
    def last(self) -> Step:
        return self.steps[-1]

    def since_entry(self, count: Optional[int] = None) -> Tuple[dict, List[Step]]:
        """Of the first steps the case that was entered last, and the steps after it."""
        end = len(self.steps) if count is None else count
        start = self._entered[bisect.bisect_left(self._entered, end) - 1]
        return self.steps[start].case, self.steps[start + 1 : end]

    def may_undo(self) -> bool:
        """The first step, which entered the case, stays."""
        return len(self.steps) > 1

    def marks(self) -> Dict[int, Tuple[str, int]]:
        """The name of each mark that was set since the case was entered, and the number of the step that set it last."""
        if self._marks is None:
            found, names = {}, {}
            for step in self.since_entry()[1]:
                names.update(step.names)
                found.update({call[1]: step.seq for call in step.calls if call[0] == "mark"})
            self._marks = {mark: (names.get(mark, f"Mark {mark}"), seq) for mark, seq in sorted(found.items())}
        return self._marks


def wanted(record: dict) -> str:
    """What a write asks for, as a hash; what is published is not asked for but found."""
    parts = [record["do"], record.get("calls"), record.get("names"), record.get("case")]
    return hashlib.sha256(json.dumps(parts, sort_keys=True).encode()).hexdigest()[:16]


def _step(record: dict) -> Step:
    names = {int(mark): name for mark, name in record.get("names", {}).items()}
    return Step(record["seq"], record["time"], record["user"], record.get("role", 0), record.get("calls", []), names, record.get("case"))


def folded(records: List[dict]) -> History:
    history = History()
    for record in records:
        history.add(record)
    return history
