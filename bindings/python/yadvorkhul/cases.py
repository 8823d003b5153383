"""A case from a JSON file: an object with the fields of `Case`, of the form that `case.schema.json` says.

    >>> check_case({"costs": [[1]], "supplies": [1, 1], "demands": [1], "table": [0, "5"]})
    Traceback (most recent call last):
    yadvorkhul.cases.NotACase: table, item 2: a whole number is wanted, not a text

The schema says what is a number, a text or a list; what the numbers may be is the planner's to judge. Where the package jsonschema is
installed (Debian: python3-jsonschema) it does the checking, else the few lines here; both give the same sentence.
"""

import json
import os
import re
from typing import Any, Dict, Iterable, Iterator, List, NamedTuple, Optional, Union

from . import Case

LONGEST_JSON = 4_000_000  # bytes; the largest case with names takes a tenth
DEEPEST_JSON = 8  # brackets within each other; a case has three
LONGEST_NUMBER = 20  # letters of a number; no cell holds more


class NotACase(ValueError):
    """A file or a value that is no case, in a sentence."""


class Fault(NamedTuple):
    """Where a value is not of the form, and which word of the schema says so."""

    path: List[Union[str, int]]
    word: str
    wanted: Any
    found: Any


def schema() -> Dict[str, Any]:
    """The form of a case, as a JSON schema (draft 7)."""
    with open(os.path.join(os.path.dirname(os.path.abspath(__file__)), "case.schema.json"), encoding="utf-8") as stream:
        return json.load(stream)


# the form --------------------------------------------------------------------------------------------------------------------------

_KINDS = {"object": dict, "array": list, "string": str, "integer": int, "null": type(None)}


def _is(value: Any, kind: str) -> bool:
    return isinstance(value, _KINDS[kind]) and not (kind == "integer" and isinstance(value, bool))


def plain_faults(form: Dict[str, Any], value: Any, path: List[Union[str, int]]) -> Iterator[Fault]:
    """What is not of the form, by the words that our schema uses and no others."""
    kinds = [form["type"]] if isinstance(form["type"], str) else form["type"]
    if not any(_is(value, kind) for kind in kinds):
        yield Fault(path, "type", form["type"], value)
    elif isinstance(value, dict):
        yield from _object_faults(form, value, path)
    elif isinstance(value, list):
        if not form.get("minItems", 0) <= len(value) <= form.get("maxItems", len(value)):
            yield Fault(path, "minItems", form["minItems"], value)
        for k, item in enumerate(value):
            yield from plain_faults(form["items"], item, path + [k])
    elif isinstance(value, str):
        if len(value) > form.get("maxLength", len(value)):
            yield Fault(path, "maxLength", form["maxLength"], value)
    elif isinstance(value, int) and not form["minimum"] <= value <= form["maximum"]:
        yield Fault(path, "minimum" if value < form["minimum"] else "maximum", form, value)


def _object_faults(form, value, path):
    if not set(value) <= set(form["properties"]):
        yield Fault(path, "additionalProperties", False, value)
    for name in form["required"]:
        if name not in value:
            yield Fault(path, "required", form["required"], value)
    for name, inner in form["properties"].items():
        if name in value:
            yield from plain_faults(inner, value[name], path + [name])


def package_faults(form: Dict[str, Any], value: Any) -> Iterator[Fault]:
    """The same by the package jsonschema; raises `ImportError` where it is not there."""
    import jsonschema

    for error in jsonschema.Draft7Validator(form).iter_errors(value):
        yield Fault(list(error.absolute_path), error.validator, error.validator_value, error.instance)


_ORDER = ["type", "additionalProperties", "required", "minItems", "maxItems", "maxLength", "minimum", "maximum"]


def first_fault(form: Dict[str, Any], faults: Iterable[Fault]) -> Optional[Fault]:
    """The fault that is told: the outermost, in the schema's order of fields."""
    fields = list(form["properties"])

    def place(fault: Fault):
        inner = [fields.index(part) if isinstance(part, str) else part for part in fault.path]
        return len(inner) > 0, inner, _ORDER.index(fault.word)

    return min(faults, key=place, default=None)


# sentences -------------------------------------------------------------------------------------------------------------------------

_WORDS = {"object": "an object", "array": "a list", "string": "a text", "integer": "a whole number", "null": "null"}
_ROWED = ("costs", "ceilings")


def _named(value: Any) -> str:
    """What a JSON value is, for people."""
    if value is True or value is False:
        return "true or false"
    if isinstance(value, float):
        return "a fraction"
    return next(word for kind, word in _WORDS.items() if isinstance(value, _KINDS[kind]))


def _where(path: List[Union[str, int]]) -> str:
    if not path:
        return ""
    parts = [str(path[0])]
    for k, part in enumerate(path[1:]):
        parts.append(f"{'row' if path[0] in _ROWED and k == 0 else 'item'} {int(part) + 1}")
    return ", ".join(parts) + ": "


def _sentence(form: Dict[str, Any], fault: Fault) -> str:
    at, found = _where(fault.path), fault.found
    if fault.word == "type":
        kinds = [fault.wanted] if isinstance(fault.wanted, str) else fault.wanted
        return f"{at}{' or '.join(_WORDS[kind] for kind in kinds)} is wanted, not {_named(found)}"
    if fault.word == "additionalProperties":
        odd = min(set(found) - set(form["properties"]))
        return f"{odd!r} is no field of a case; these are {', '.join(name for name in form['properties'] if name[0] != '$')}"
    if fault.word == "required":
        return f"{next(name for name in form['required'] if name not in found)} is missing"
    if fault.word in ("minItems", "maxItems"):
        return f"{at}two numbers are wanted, one for each plant, not {len(found)}"
    if fault.word == "maxLength":
        return f"{at}at most {fault.wanted} letters are wanted, not {len(found)}"
    if fault.word == "minimum" and fault.path[0] != "costs":
        return f"{at}{found} is below 0"
    return f"{at}{found} does not fit a cell of 64 bits"


def _writable(text: str) -> bool:
    """Whether a text can be written down in UTF-8."""
    try:
        text.encode("utf-8")
    except UnicodeEncodeError:
        return False
    return True


def check_names(case: Case) -> Case:
    """The case, where its title is a text and its names are lists of texts that can be written down, none left over; or a `NotACase`."""
    named = [case.title, case.currency, case.date]
    for field, text in zip(("title", "currency", "date"), named):
        if not isinstance(text, str):
            raise NotACase(f"{field}: a text is wanted")
    for field, names, count, of in (
        ("sources", case.sources, len(list(case.supplies)), "supplies"),
        ("terminals", case.terminals, len(list(case.demands)), "demands"),
    ):
        if names is None:
            continue
        if not isinstance(names, (list, tuple)) or not all(isinstance(name, str) for name in names):
            raise NotACase(f"{field}: a list of texts is wanted")
        if len(names) > count:
            raise NotACase(f"{field}: there are {len(names)} names and {count} {of}")
        named += names
    for name in named:
        if not _writable(name):
            raise NotACase(f"{name!r} holds half of a character (a lone surrogate), which no file can hold")
    return case


def check_case(value: Any) -> Case:
    """The case of a value as JSON has it, or a `NotACase` with the first fault."""
    form = schema()
    try:
        fault = first_fault(form, package_faults(form, value))
    except ImportError:
        fault = first_fault(form, plain_faults(form, value, []))
    if fault:
        raise NotACase(_sentence(form, fault))
    return check_names(Case(**{name: field for name, field in value.items() if name != "$schema"}))


# the file --------------------------------------------------------------------------------------------------------------------------


def _once(pairs):
    """A JSON object; a key that stands twice would hide what the first one said."""
    found: Dict[str, Any] = {}
    for key, value in pairs:
        if key in found:
            raise NotACase(f"the key {key!r} stands twice")
        found[key] = value
    return found


def _whole(digits: str) -> int:
    if len(digits) > LONGEST_NUMBER:
        raise NotACase(f"a number of {len(digits.lstrip('-'))} digits; no cell holds it")
    return int(digits)


def _odd(digits: str):
    raise NotACase(f"{digits[:LONGEST_NUMBER]} is not a whole number in digits")


def _depth(text: str) -> int:
    """How deep the brackets of a JSON text stand within each other, texts aside."""
    depth = most = 0
    inside = False  # a text
    for sign in re.findall(r'\\.|["\[\]{}]', text, re.DOTALL):
        if sign == '"':
            inside = not inside
        elif not inside and len(sign) == 1:
            depth += 1 if sign in "[{" else -1
            most = max(most, depth)
    return most


def parse_case(data: bytes) -> Case:
    """The case of a JSON text, or a `NotACase`."""
    if data.startswith((b"PK\x03\x04", b"\xd0\xcf\x11\xe0")):
        raise NotACase("it is a workbook; `yadvorkhul import BOOK.xlsx -o CASE.json` makes a case of one" + ("" if data[:2] == b"PK" else " that is saved as .xlsx"))
    if len(data) > LONGEST_JSON:
        raise NotACase(f"it is longer than {LONGEST_JSON:,} bytes")
    if data.startswith((b"\xef\xbb\xbf", b"\xff\xfe", b"\xfe\xff")):
        raise NotACase("it begins with a byte order mark; save it as UTF-8 without one")
    try:
        text = data.decode("utf-8")
        if _depth(text) > DEEPEST_JSON:
            raise NotACase(f"its brackets stand more than {DEEPEST_JSON} deep; a case has three")
        value = json.loads(text, object_pairs_hook=_once, parse_int=_whole, parse_float=_odd, parse_constant=_odd)
    except UnicodeDecodeError as error:
        raise NotACase(f"it is not UTF-8 from byte {error.start} on") from error
    except json.JSONDecodeError as error:
        raise NotACase(f"it is not JSON: {error.msg}, line {error.lineno}, column {error.colno}") from error
    return check_case(value)


def read_case(path: Union[str, "os.PathLike[str]"]) -> Case:
    """The case of a JSON file, or a `NotACase` that names the file. No more is read than shows that it is too long."""
    try:
        with open(path, "rb") as stream:
            data = stream.read(LONGEST_JSON + 1)
        return parse_case(data)
    except OSError as error:
        raise NotACase(f"{os.fspath(path)} is not a case in JSON: {error.strerror}") from error
    except NotACase as error:
        raise NotACase(f"{os.fspath(path)} is not a case in JSON: {error}") from error
