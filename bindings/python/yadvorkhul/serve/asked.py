"""What stands in a request, each part of its kind; 400 with a sentence for anything else."""

import json
import re
from typing import Dict, List

from flask import abort, request

from .shared import CALLS, MOST_MARKS

MOST_CALLS = 8000  # of one write: every lane, amount and entry of the largest case at once
_DIGITS = re.compile(r"-?[0-9]{1,20}")


def _once(pairs) -> dict:
    found = dict(pairs)
    if len(found) != len(pairs):
        abort(400, "A key stands twice in the request.")
    return found


def body() -> dict:
    if request.mimetype != "application/json":
        abort(415, "The request is not JSON.")
    data = request.get_data()
    try:
        told = json.loads(data.decode("utf-8"), object_pairs_hook=_once)
        if b"\\ud" in data.lower():  # half a character comes by an escape alone
            json.dumps(told, ensure_ascii=False).encode("utf-8")
    except UnicodeEncodeError:
        abort(400, "The request holds half of a character (a lone surrogate).")
    except (RecursionError, ValueError):
        told = None
    if not isinstance(told, dict):
        abort(400, "The request is not an object in JSON.")
    return told


def _number(value, signed: bool) -> int:
    """A whole number that a cell can hold, as a number or in digits."""
    if isinstance(value, str) and _DIGITS.fullmatch(value):
        value = int(value)
    low, high = (-1 << 63, 1 << 63) if signed else (0, 1 << 64)
    if isinstance(value, bool) or not isinstance(value, int) or not low <= value < high:
        abort(400, "A number of the request is not whole, or too large.")
    return value


def _call(told) -> list:
    if not isinstance(told, list) or not told or not isinstance(told[0], str) or told[0] not in CALLS or len(told) != CALLS[told[0]] + 1:
        abort(400, "The request has a call that there is not.")
    name, *numbers = told
    return [name] + [_number(value, name == "edit_cost" and k == 2) for k, value in enumerate(numbers)]


def calls(told: dict) -> List[list]:
    found = told.get("calls", [])
    if not isinstance(found, list) or len(found) > MOST_CALLS:
        abort(400, "The request has no list of calls, or too long a one.")
    return [_call(one) for one in found]


def names(told: dict) -> Dict[int, str]:
    """Names of marks."""
    found = told.get("names", {})
    if not isinstance(found, dict) or not all(key in [str(k) for k in range(1, MOST_MARKS + 1)] for key in found):
        abort(400, "The request names a mark that there is not.")
    if not all(isinstance(name, str) and 0 < len(name.strip()) <= 40 and name.isprintable() for name in found.values()):
        abort(400, "The name of a mark has 1 to 40 letters.")
    return {int(key): name.strip() for key, name in found.items()}


def identity(told: dict) -> str:
    """What tells a write that is sent twice; nothing where the caller gives none."""
    found = told.get("id", "")
    if not isinstance(found, str) or not re.fullmatch("[A-Za-z0-9-]{0,40}", found):
        abort(400, "The request has no good identity.")
    return found


def standing(told: dict) -> str:
    """The case that the sender looked at, as `state` told it; nothing where the caller does not say."""
    found = told.get("standing", "")
    if not isinstance(found, str):
        abort(400, "The request does not say well for which case it is.")
    return found


def number(told: dict, field: str) -> int:
    return _number(told.get(field), False)


def entries(told: dict, field: str) -> List[int]:
    found = told.get(field)
    if not isinstance(found, list) or len(found) > 4001:
        abort(400, "The request has no list of entries, or too long a one.")
    return [_number(value, False) for value in found]


def text(told: dict, field: str) -> str:
    found = told.get(field)
    if not isinstance(found, str):
        abort(400, f"The request has no {field}.")
    return found
