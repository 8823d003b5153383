"""Usual causes of a refused file, as far as its bytes tell. Numbers and places are the reader's; only the words come from here.

The programs name the same causes in the same words and in this order (crate `file_causes`); `examples/sentences` holds one to the other."""

import re
from typing import NamedTuple, Optional, Tuple

TARIFF, PRODUCTION = "tariff", "production"
CR, LF, QUOTE, COMMA, MINUS, ZERO, NINE = 13, 10, 34, 44, 45, 48, 57
_IMPORT = "`yadvorkhul import` reads such files"
_NUMBER = rb'(?:0|[1-9][0-9]{0,9}|"(?:0|[1-9][0-9]{0,9})")'
_COST = rb'(?:0|-?[1-9][0-9]{0,9}|"(?:0|-?[1-9][0-9]{0,9})")'
_SPACES = (b" ", b"\xa0", b"\xc2\xa0", b"\xe2\x80\xaf", b"\xe2\x80\x89")  # 160 by itself and in UTF-8, the narrow one, the thin one
_APOSTROPHES = (b"'", b"\xe2\x80\x99")
_MINUSES = (b"\xe2\x88\x92", b"\xe2\x80\x93")  # the minus sign and the dash of Unicode


def _byte(data: bytes, at: int) -> int:
    return data[at] if 0 <= at < len(data) else -1


def _digit(byte: int) -> bool:
    return ZERO <= byte <= NINE


def _letter(byte: int) -> bool:
    return chr(byte).isascii() and chr(byte).isalpha() or byte >= 128


# the file as a whole --------------------------------------------------------------------------------------------------------------


def _wide(data: bytes) -> bool:
    """Whether every other byte is 0, as in UTF-16: half of them at least, and none of those between."""
    head = data[:64]
    even, odd = head[::2].count(0), head[1::2].count(0)
    return any(these > 1 and these >= len(head) // 4 and not others for these, others in ((even, odd), (odd, even)))


def other(data: Optional[bytes]) -> str:
    """What a file is that is no text of this kind, by its first bytes; or nothing."""
    data = data or b""
    if data.startswith(b"PK\x03\x04"):
        return f"the beginning of a workbook (PK), whatever the file is called; {_IMPORT}"
    if data.startswith(b"\xd0\xcf\x11\xe0"):
        return "the beginning of an old workbook (.xls), whatever the file is called; save it as .xlsx, which `yadvorkhul import` reads"
    if data.startswith((b"\xff\xfe", b"\xfe\xff")):
        return f"a byte order mark of UTF-16; save the file as plain text, or: {_IMPORT}"
    if _wide(data):
        return f"text in UTF-16 (every other byte is 0); save the file as plain text, or: {_IMPORT}"
    return ""


def _is_tariff(data: bytes) -> bool:
    """Whether the bytes are a tariff: sources with unit costs and a supply, then the demands with an empty last field, all of one width."""
    records = (data[:-2] if data.endswith(b"\r\n") else data).split(b"\r\n")
    sources, demands = records[:-1], records[-1]
    forms = [re.fullmatch(rb"(?:" + _COST + rb",)+" + _NUMBER, record) for record in sources]
    forms.append(re.fullmatch(rb"(?:" + _NUMBER + rb",)+", demands))
    return bool(sources) and all(forms) and len({record.count(b",") for record in records}) == 1


def _last_comma(kind: str, data: bytes, at: int) -> str:
    """A tariff that was read to its end, or to a blank line there, and whose last record lacks only the comma behind the demands."""
    text = data.rstrip(b"\r\n")
    records = text.split(b"\n")
    lacks = len(records) > 2 and records[-1].count(b",") + 1 == records[0].split(b"\r")[0].count(b",") and not text.endswith(b",")
    if kind != TARIFF or not lacks:
        return ""
    if at >= len(data):
        return "the end of the file where the demands lack their last comma: that record ends in an empty field"
    return "a blank line after demands that lack their last comma: that record ends in an empty field" if at > len(text) else ""


def _whole(kind: str, data: bytes, at: int) -> str:
    """What the file is instead, by the place of its refusal."""
    if kind == TARIFF and at >= len(data) > 0 and b"," not in data:
        return "the end of a single column, which is a production table; perhaps the two files are swapped"
    if kind == PRODUCTION and _is_tariff(data):
        return "a tariff, with several fields in each record; perhaps the two files are swapped"
    return ""


# a number with a sign in it -------------------------------------------------------------------------------------------------------


def _parts_thousands(data: bytes, at: int, width: int) -> bool:
    """Whether one to three digits stand before a sign of so many bytes, and exactly three after it."""
    before, after = data[:at], data[at + width : at + width + 4]
    return re.search(rb"(?<![0-9])[0-9]{1,3}\Z", before[-4:]) is not None and re.fullmatch(rb"[0-9]{3}[^0-9]?", after, re.DOTALL) is not None


def _width(data: bytes, at: int, signs: Tuple[bytes, ...]) -> int:
    """How many bytes one of these signs takes there; 0 where none stands."""
    return next((len(sign) for sign in signs if data.startswith(sign, at)), 0)


def _number(data: bytes, at: int) -> str:
    """What is wrong with the number at the place."""
    byte = data[at : at + 1]
    if byte == b"\t":
        return f"a tab; fields are parted by commas ({_IMPORT})"
    width = _width(data, at, _SPACES + _APOSTROPHES)
    if width and _parts_thousands(data, at, width):
        return f"a sign that parts thousands; a number has digits alone ({_IMPORT})"
    if byte == b"." and _parts_thousands(data, at, 1):
        return "a point, of a decimal point or between thousands; numbers are whole and have digits alone"
    if byte == b"," and _parts_thousands(data, at, 1):
        return "a comma within quotes, a decimal comma or one between thousands; numbers are whole and have digits alone"
    return ""


def _entry(record: bytes) -> str:
    """A record of a production table that is one number with a comma in it, or nothing."""
    if re.fullmatch(rb"[0-9]+,[0-9]{1,2}", record):
        return f"a decimal comma in {record.decode()}; numbers are whole"
    if re.fullmatch(rb"[0-9]{1,3}(,[0-9]{3})+", record):
        return f"a comma in {record.decode()}, between thousands or of a decimal; a number has digits alone"
    return ""


def _record(data: bytes, at: int) -> bytes:
    """The record of an offset, to its CR."""
    text = data[data.rfind(b"\n", 0, at) + 1 :]
    line = text.split(b"\n", 1)[0]
    return line.split(b"\r", 1)[0] if b"\r" in line else text


# the byte at the place ------------------------------------------------------------------------------------------------------------


def _leads(data: bytes, at: int) -> bool:
    """Whether a 0 that a number of several digits begins with stands there."""
    back = _byte(data, at - 1)
    begins = back in (-1, COMMA, MINUS, LF) or back == QUOTE and not _digit(_byte(data, at - 2))
    return _byte(data, at) == ZERO and _digit(_byte(data, at + 1)) and begins


def _in_front(data: bytes, at: int) -> str:
    """A number with 0 in front; two or three digits after a comma may be the end of a number."""
    head = re.search(rb"(?:\A|[\n,])(-?[0-9]+,)\Z", data[:at])
    tail = _record(data, at)[at - data.rfind(b"\n", 0, at) - 1 :].split(b",", 1)[0]
    told = "a number with 0 in front, perhaps an item code"
    if head is None or not re.fullmatch(rb"[0-9]{2,3}", tail):
        return told
    return f"{told}, or the end of {(head.group(1) + tail).decode()} with a comma in it; a number has digits alone"


def _place(data: bytes, at: int) -> str:
    """A place that tells the cause by itself."""
    back = _byte(data, at - 1)
    if back == LF and _byte(data, at - 3) == COMMA:
        return "more after the record of the demands, which is the last: it alone has an empty last field"
    if _leads(data, at):
        return _in_front(data, at)
    if back == MINUS and _byte(data, at) == ZERO:
        return "a 0 after a minus; 0 has none"
    if at == 0 and data.startswith(b"\xef\xbb\xbf"):
        return f"a byte order mark; save the file as plain text without one ({_IMPORT})"
    return ""


def _empty(data: bytes, at: int) -> str:
    """A comma, CR or quote: after a digit or a quote a comma is part of a number, at the start of a field they leave it empty."""
    byte, back = _byte(data, at), _byte(data, at - 1)
    if byte == COMMA and (_digit(back) or back == QUOTE):
        return "a decimal comma; numbers are whole"
    record = data[data.rfind(b"\n", 0, at) + 1 : at]
    if byte == CR and back == COMMA and b"-" in record:
        return "an empty last field, as the demands have, in a record with a minus; it can stand only before a unit cost"
    if byte == CR and record.rsplit(b",", 1)[-1].startswith((b"-", b'"-')):
        return "the end of a record whose last number has a minus; it can stand only before a unit cost"
    if back != QUOTE if byte == QUOTE else back not in (-1, COMMA, LF):
        return ""
    if LF not in data[:at] and any(map(_letter, _record(data, at))):
        return f"an empty field, perhaps of a header line; the files have none ({_IMPORT})"
    if byte == CR and back != COMMA:
        return "a blank line; the files have none"
    return "an empty field; only the last field of the demands is empty"


def _alone(data: bytes, at: int) -> str:
    """A byte that is told by what it is alone."""
    byte = _byte(data, at)
    if _width(data, at, _SPACES):
        return "a space; a number has digits alone"
    if _width(data, at, _MINUSES):
        return "a minus or a dash that is not the plain one (byte 45), which can stand only before a unit cost"
    if _letter(byte) and LF not in data[:at]:
        return f"a letter, perhaps of a header line; the files have none ({_IMPORT})"
    if byte == MINUS:
        return "a minus; it can stand only before a unit cost"
    if byte == 43:
        return "a plus; a number has digits alone"
    return "a number of more than ten digits" if _digit(byte) and _digit(_byte(data, at - 1)) else ""


_PARTING = {
    LF: f"a line that ends in LF without CR; records end in CR LF ({_IMPORT})",
    59: f"a semicolon; fields are parted by commas ({_IMPORT})",
    46: "a decimal point; numbers are whole",
}


def cause_of(kind: str, data: bytes, at: int) -> str:
    """The cause of refusal 21 at an offset; empty where the bytes do not tell it."""
    whole = _last_comma(kind, data, at) or other(data) or _whole(kind, data, at)
    if whole:
        return whole
    if _byte(data, at - 1) == CR and _byte(data, at) != LF:
        return f"a line that ends in CR without LF; records end in CR LF ({_IMPORT})"
    if at >= len(data):
        return "the end of the file; a tariff ends in the record of the demands and its empty last field, a production table in an entry"
    entry = _entry(_record(data, at)) if kind == PRODUCTION and data[at] == ZERO else ""
    told = entry or _number(data, at) or _place(data, at) or _PARTING.get(data[at], "")
    return told or (_empty(data, at) if data[at] in (COMMA, CR, QUOTE) else _alone(data, at))


# counts of fields -----------------------------------------------------------------------------------------------------------------


class Odd(NamedTuple):
    """The cause of refusal 22, and which bytes of the record are meant where it is known."""

    cause: str
    low: int = 0
    high: int = 0


def _parted(record: bytes) -> Optional["re.Match[bytes]"]:
    """The first number of a record whose thousands a comma parts, or none."""
    return re.search(rb"(?<![0-9])[0-9]{1,3},[0-9]{3}(?![0-9])", record)


def odd_record(kind: str, data: bytes, records: Tuple[bytes, bytes], wanted: int) -> Odd:
    """Of a record that has other than the wanted count of fields; the first record stands before it."""
    first, record = records
    told, entry = other(data) or _whole(kind, data, 0), _entry(record) if kind == PRODUCTION else ""
    if told or entry:
        return Odd(told) if told else Odd(entry, 0, len(record))
    more = record.count(b",") + 1 > wanted
    found = _parted(record if more else first) if kind == TARIFF else None
    if found is None:
        many = "a field too many, perhaps after a decimal comma or one between thousands; numbers are whole and have digits alone"
        return Odd(many if more else "the end of a record that has too few fields")
    comma = f"perhaps by a comma in {found.group().decode()}, between thousands or of a decimal; a number has digits alone"
    if more:
        return Odd(f"a field too many, {comma}", found.start(), found.end())
    return Odd(f"the end of a record that has too few fields, or record 1 has one too many, {comma}")
