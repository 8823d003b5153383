"""A case as it is entered: the fields of `Case` as they stand in the journal."""

import unicodedata

from .. import Case
from ..cases import NotACase, check_case, parse_case
from ..files import PRODUCTION, TARIFF, File, read_case

_LONGEST = 80  # letters of a name
_LONGEST_TITLE = 200


def _shown(text: str) -> bool:
    """Whether each letter stands where it is read: no control, no change of direction."""
    return all(letter.isprintable() or unicodedata.category(letter) == "Zs" for letter in text)


def fields(case: Case) -> dict:
    """The fields of a case, as JSON has them."""
    told = {name: list(value) if isinstance(value, tuple) else value for name, value in case._asdict().items()}
    for name in told["sources"] or [], told["terminals"] or []:
        if any(len(one) > _LONGEST for one in name):
            raise NotACase(f"a name has at most {_LONGEST} letters")
    if len(told["title"]) > _LONGEST_TITLE:
        raise NotACase(f"a title has at most {_LONGEST_TITLE} letters")
    for field in ("title", "currency", "date"):
        if not _shown(told[field]):
            raise NotACase(f"{field}: it holds a control or direction character, which nobody sees")
    return told


def case_of(told) -> dict:
    """The fields of a case, each of its kind, or a `NotACase`. Whether the case is accepted is for the working case to say."""
    return fields(check_case(told))


def case_of_text(text: str) -> dict:
    """The same of a JSON file's text, read as strictly as the command reads a file."""
    return fields(parse_case(text.encode()))


def case_of_files(tariff: bytes, production: bytes) -> dict:
    """The case of the two files, or a `FileRefusal`."""
    return fields(read_case(File(TARIFF, "tariff", tariff), File(PRODUCTION, "production", production)))
