"""Plans many cases, one a line, on all cores."""

import contextlib
import os
import signal
import threading

from ..console import DONE, Broken, WrongUse, say
from ..outputs import BadOutput, check_outputs, write_whole
from ..words import counted

ORDER = 26
SUMMARY = "plan many cases, a case or some changes a line, on all cores"
NEEDS = ["yadvorkhul_plan"]


def add(parser):
    parser.add_argument("lines", metavar="LINES", help="a case in JSON on each line; with --case some changes, such as: demand 3 = 120, cost 2 5 = -4")
    parser.add_argument("--case", metavar="CASE", help="the .json case that each line changes")
    parser.add_argument("-o", "--output", default="answers.jsonl", metavar="ANSWERS", help="an answer a line, in the same order (default: answers.jsonl)")
    parser.add_argument("--plans", action="store_true", help="write freight and lanes too, not split and total alone")
    parser.add_argument("--cores", type=int, default=0, help="processes at once (default: one for each core)")
    parser.add_argument("--summary", metavar="PAGE", help="write a page of the whole: how often which split is the cheapest, and the totals")


def _cores(asked: int) -> int:
    if asked < 0 or asked > 1024:
        raise WrongUse("the count of processes is a number from 1 on")
    return asked or len(os.sched_getaffinity(0))


def _bar(total: int, done: int):
    """A progress bar with cases a second, where python3-tqdm is installed and somebody looks."""
    try:
        import tqdm
    except ImportError:
        return None
    return tqdm.tqdm(total=total, initial=done, unit=" cases", disable=None, dynamic_ncols=True)


@contextlib.contextmanager
def _heard():
    """Signals that ask the work to stop are heard and not obeyed at once: what is being written is written to its end."""
    heard = []
    hear = lambda number, _: heard.append(number)
    before = {number: signal.signal(number, hear) for number in (signal.SIGINT, signal.SIGTERM)} if threading.current_thread() is threading.main_thread() else {}
    try:
        yield heard
    finally:
        for number, handler in before.items():
            signal.signal(number, handler)


def _went_on(batch, total: int, cores: int, heard):
    """Answers what is left, from where an earlier run was stopped."""
    from ..batch import held, run

    with held(batch) as done:
        if done:
            say(f"{batch.output} has {done:,} answers; going on from there")
        bar = _bar(total, done)
        try:
            return run(batch, done, cores, bar.update if bar is not None else None, lambda: bool(heard))
        finally:
            if bar is not None:
                bar.close()


def _stopped(stopped, output: str, heard) -> int:
    """One sentence, and the status that a shell gives to what a signal stopped."""
    why = "stopped" if heard else stopped.why  # a signal to all processes ends the workers too
    sentence = f"{why}: {output} has {counted(stopped.done, 'answer')}, each whole; the same command goes on from there"
    if not heard:
        raise Broken(sentence)
    say(f"yadvorkhul: {sentence}")
    return 128 + heard[0]


def run(arguments) -> int:
    from ..batch import Batch, CannotGoOn, Stopped, count_lines, summary
    from ._given import json_case

    try:
        case = json_case(arguments.case) if arguments.case else None
        batch = Batch(arguments.lines, arguments.output, case, arguments.plans)
        check_outputs([batch.output, batch.state, arguments.summary], [path for path in (arguments.lines, arguments.case) if path])
        with _heard() as heard:
            count = _went_on(batch, count_lines(arguments.lines), _cores(arguments.cores), heard)
    except Stopped as stopped:
        return _stopped(stopped, arguments.output, heard)
    except (BadOutput, CannotGoOn) as error:
        raise WrongUse(str(error)) from error
    say(f"written: {arguments.output}: {count:,} answers")
    if arguments.summary:
        from ..pages import batch_page

        write_whole(arguments.summary, batch_page(summary(arguments.output), arguments.lines, case))
        say(f"written: {arguments.summary}")
    return DONE
