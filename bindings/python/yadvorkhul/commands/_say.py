"""An answer or a refusal: bytes or JSON on standard output, a sentence for people on standard error."""

import json

from .. import Refusal
from ..console import REFUSED, emit, say
from ..refusals import Explained


def _pointed(found: Explained):
    """The line of the place, and a caret below the place."""
    for line in found.spot.lines if found.spot else []:
        if line.marked:
            number = f"{line.number:>6}: "
            say(number + line.before + line.marked + line.after)
            say(" " * (len(number) + len(line.before)) + "^" * len(line.marked))


def told(found: Explained) -> int:
    """The sentence with the place, its usual cause and what to do; then the line with a caret."""
    stands = found.spot and (found.spot.cause or found.number == 21 and found.spot.byte)
    cause = f" Here stands {stands}." if stands else ""
    say(f"Refusal {found.number}: {found.sentence}{cause} {found.advice}")
    _pointed(found)
    return REFUSED


def json_line(answer: dict) -> bytes:
    return (json.dumps(answer) + "\n").encode()


def json_refusal(refusal: Refusal) -> bytes:
    return json_line({"refusal": refusal.number, "place": refusal.place})


def emit_json(answer: dict):
    emit(json_line(answer))


def emit_refusal(refusal: Refusal):
    emit(json_refusal(refusal))
