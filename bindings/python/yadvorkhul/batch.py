"""Many cases, one a line: all cores, order kept, a refusal a line like any other; stopped and started again it goes on where it was.

`answers` is the whole work on some lines, from text to text. Whoever has more than one machine hands it to an engine that exists
(examples/batch_dask.py).

    >>> from yadvorkhul import Case
    >>> case = Case([[2, 6], [5, 3], [1, 4]], [3, 3, 1], [3, 2], [99, 20, 24, 20])
    >>> answers(["demand 2 = 3", "demand 1 = 4001"], case)
    ['{"split": 3, "total": 36}', '{"refusal": 4, "place": 4}']
"""

import collections
import contextlib
import hashlib
import json
import os
from typing import Callable, Dict, Iterable, Iterator, List, NamedTuple, Optional, TextIO

from . import Case, Refusal
from .again import Again, NotAChange
from .cases import NotACase, parse_case
from .causes import other
from .forms import fingerprint

CHUNK = 400  # lines that a worker takes at a time
AHEAD = 4  # chunks for each worker that are under way
FORM = "yadvorkhul batch 1"


class CannotGoOn(ValueError):
    """Answers that are there already and are not of these cases, in a sentence."""


# some lines --------------------------------------------------------------------------------------------------------------------------


def _planned(plan, plans: bool) -> str:
    told = {"split": plan.split, "total": plan.total}
    if plans:
        told.update(freight=plan.freight, amounts=plan.amounts)
    return json.dumps(told)


def _refused(number: int, place: int) -> str:
    return f'{{"refusal": {number}, "place": {place}}}'


def _wrong(error: Exception) -> str:
    return json.dumps({"wrong": str(error)})


def _of_case(line: str, plans: bool) -> str:
    try:
        return _planned(parse_case(line.encode("utf-8", "surrogatepass")).plan(), plans)
    except Refusal as refusal:
        return _refused(refusal.number, refusal.place)
    except NotACase as error:
        return _wrong(error)


def _text(line: str) -> str:
    """A change as it stands, or as a text in JSON."""
    if not line.startswith('"'):
        return line
    try:
        found = json.loads(line)
    except ValueError as error:
        raise NotAChange(f"the line is not JSON: {error}") from error
    return found


def _of_change(again: Again, line: str, plans: bool) -> str:
    try:
        changes = again.changes(_text(line))
        if plans:
            return _planned(again.plan(changes), True)
    except NotAChange as error:
        return _wrong(error)
    except Refusal as refusal:
        return _refused(refusal.number, refusal.place)
    number, place, total = again.totals(changes)
    return _refused(number, place) if number else f'{{"split": {place}, "total": {total}}}'


def _answers(lines: List[str], again: Optional[Again], plans: bool) -> List[str]:
    if again is None:
        return [_of_case(line, plans) for line in lines]
    return [_of_change(again, line, plans) for line in lines]


def answers(lines: List[str], case: Optional[Case] = None, plans: bool = False) -> List[str]:
    """The answer to each line, a line of JSON: a case a line, or changes of the one case that is given."""
    return _answers(lines, None if case is None else Again(case), plans)


# a file ------------------------------------------------------------------------------------------------------------------------------


class Batch(NamedTuple):
    source: str  # the file of lines
    output: str
    case: Optional[Case]  # that each line changes; None where each line is a case
    plans: bool

    @property
    def state(self) -> str:
        return self.output + ".state"


def _identity(batch: Batch) -> Dict:
    """What the answers are answers to."""
    digest = hashlib.sha256()
    with open(batch.source, "rb") as stream:
        for part in iter(lambda: stream.read(1 << 20), b""):
            digest.update(part)
    return {"form": FORM, "lines": digest.hexdigest(), "case": batch.case and fingerprint(batch.case), "plans": batch.plans}


def _whole_lines(path: str) -> int:
    """How many answers are whole; a torn last one is cut off."""
    count, end = 0, 0
    with open(path, "rb+") as stream:
        for line in stream:
            if line.endswith(b"\n"):
                count, end = count + 1, end + len(line)
        stream.truncate(end)
    return count


def _lock(state: TextIO, batch: Batch):
    """From here on, while the state is open, this run alone writes the answers."""
    import fcntl

    try:
        fcntl.lockf(state, fcntl.LOCK_EX | fcntl.LOCK_NB)
        mine = os.path.samestat(os.fstat(state.fileno()), os.stat(batch.state))
    except (BlockingIOError, PermissionError, FileNotFoundError):
        mine = False
    if not mine:
        raise CannotGoOn(f"{batch.output} is being written by another run; let it end, or name another file")


def _before(state: TextIO) -> object:
    """What a state says; None where it is not JSON."""
    try:
        return json.load(state)
    except ValueError:
        return None


def _enter(state: TextIO, batch: Batch, identity: Dict):
    """Begins the answers. A file that is no state of a batch is not written over."""
    before = _before(state)
    if state.tell() and not (isinstance(before, dict) and before.get("form") == FORM):
        raise CannotGoOn(f"{batch.state} is there already, and is no state of a batch; name another file for the answers, or take it away")
    state.seek(0)
    state.truncate()
    json.dump(identity, state)
    state.flush()
    with open(batch.output, "xb"):
        pass


@contextlib.contextmanager
def held(batch: Batch) -> Iterator[int]:
    """How many lines are answered already; until the end no other run writes the answers. Answers to something else are not touched."""
    identity = _identity(batch)
    finished = f"{batch.output} is there already, and is not unfinished; name another file, or take it away"
    if os.path.exists(batch.output) and not os.path.exists(batch.state):
        raise CannotGoOn(finished)
    with open(os.open(batch.state, os.O_RDWR | os.O_CREAT, 0o666), "r+", encoding="utf-8", errors="replace") as state:
        _lock(state, batch)
        if not os.path.exists(batch.output):
            _enter(state, batch, identity)
        elif not os.fstat(state.fileno()).st_size:  # another run ended meanwhile
            os.unlink(batch.state)
            raise CannotGoOn(finished)
        elif _before(state) != identity:
            raise CannotGoOn(f"{batch.output} holds answers to other lines, another case or another form; name another file, or take it away")
        yield _whole_lines(batch.output)


def begin(batch: Batch) -> int:
    """The same for one who is alone: how many lines are answered already."""
    with held(batch) as done:
        return done


def _lines(path: str) -> Iterator[str]:
    with open(path, encoding="utf-8-sig", errors="surrogateescape", newline="\n") as stream:
        for line in stream:
            yield line.rstrip("\r\n")


def count_lines(path: str) -> int:
    """How many lines a file has, where it is a text."""
    with open(path, "rb") as stream:
        cause = other(stream.read(64))
        if cause:
            raise CannotGoOn(f"{path} is no file of lines: here stands {cause.split(';')[0]}")
        stream.seek(0)
        return sum(1 for _ in stream)


def chunks(lines: Iterable[str], size: int = CHUNK) -> Iterator[List[str]]:
    part: List[str] = []
    for line in lines:
        part.append(line)
        if len(part) == size:
            yield part
            part = []
    if part:
        yield part


_worker: Dict = {}  # of this process: the case in its arrays


def _start(case: Optional[Case], plans: bool):
    import ctypes
    import signal

    signal.signal(signal.SIGINT, signal.SIG_IGN)  # the parent ends its workers
    signal.signal(signal.SIGTERM, signal.SIG_DFL)
    if hasattr(ctypes, "CDLL") and os.uname().sysname == "Linux":
        ctypes.CDLL(None).prctl(1, signal.SIGKILL)  # PR_SET_PDEATHSIG: none outlives its parent
    _worker.update(again=None if case is None else Again(case), plans=plans)


def _work(lines: List[str]) -> str:
    return "".join(answer + "\n" for answer in _answers(lines, _worker["again"], _worker["plans"]))


class Stopped(Exception):
    """The work was stopped; what is written is whole. It says how many answers that is."""

    def __init__(self, done: int, why: str = ""):
        super().__init__(done)
        self.done, self.why = done, why


def _waited(one, stopped: Callable[[], bool]) -> Optional[str]:
    """The answers of a part; None where all was stopped meanwhile."""
    from concurrent.futures import TimeoutError as NotYet

    while not stopped():
        try:
            return one.result(timeout=0.2)
        except NotYet:
            pass
    return None


def _in_order(pool, parts: Iterator[List[str]], ahead: int, stopped: Callable[[], bool]):
    """The answers of each part, in the order of the parts; no more are read than are soon worked on."""
    under_way = collections.deque()
    for part in parts:
        under_way.append((len(part), pool.submit(_work, part)))
        if len(under_way) >= ahead:
            count, one = under_way.popleft()
            yield count, _waited(one, stopped)
    for count, one in under_way:
        yield count, _waited(one, stopped)


def _written(batch: Batch, done: int, found, progress: Optional[Callable[[int], object]]) -> int:
    """Writes each part's answers at once; gives the count of all."""
    from concurrent.futures.process import BrokenProcessPool

    with open(batch.output, "ab") as out:
        try:
            for count, text in found:
                if text is None:
                    raise Stopped(done)
                out.write(text.encode())
                out.flush()
                done += count
                if progress:
                    progress(count)
        except BrokenProcessPool as error:
            raise Stopped(done, "a worker was ended from outside") from error
    return done


def run(batch: Batch, done: int, cores: int, progress: Optional[Callable[[int], object]] = None, stopped: Callable[[], bool] = lambda: False) -> int:
    """Answers the lines that are left, and says by `progress` how many at a time. Gives the count of all; where `stopped` says so, or a
    worker is ended, a `Stopped`."""
    import itertools
    import multiprocessing
    from concurrent.futures import ProcessPoolExecutor

    parts = chunks(itertools.islice(_lines(batch.source), done, None))
    pool = ProcessPoolExecutor(cores, multiprocessing.get_context("fork"), _start, (batch.case, batch.plans))
    try:
        done = _written(batch, done, _in_order(pool, parts, cores * AHEAD, stopped), progress)
    finally:
        pool.shutdown(wait=True, cancel_futures=True)
    os.unlink(batch.state)
    return done


# a summary ---------------------------------------------------------------------------------------------------------------------------


class Summary(NamedTuple):
    lines: int
    splits: Dict[int, int]  # how often each split is the cheapest
    totals: List[int]
    refusals: Dict[int, int]
    wrong: int


def summary(path: str) -> Summary:
    """What a file of answers says as a whole."""
    splits: Dict[int, int] = collections.Counter()
    refusals: Dict[int, int] = collections.Counter()
    totals, wrong, lines = [], 0, 0
    with open(path, encoding="utf-8") as stream:
        for line in stream:
            answer = json.loads(line)
            lines += 1
            if "refusal" in answer:
                refusals[answer["refusal"]] += 1
            elif "wrong" in answer:
                wrong += 1
            else:
                splits[answer["split"]] += 1
                totals.append(answer["total"])
    return Summary(lines, dict(splits), sorted(totals), dict(refusals), wrong)
