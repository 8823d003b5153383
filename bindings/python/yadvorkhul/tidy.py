"""A network's file in the form that the proved reader takes: CR LF, CR, UTF-16, tabs, blanks at the ends and empty lines are put right, and
said. No number is touched, and what is not a minimum-cost flow stays refused."""

import re
from typing import List, NamedTuple

from .sheets import _without_mark


class NotCovered(ValueError):
    """A DIMACS problem of another kind, in a sentence."""


_KINDS = {b"max": "a largest flow", b"sp": "shortest paths", b"asn": "an assignment", b"cnf": "a formula", b"edge": "a colouring", b"col": "a colouring"}


def kind_of(line: bytes) -> str:
    """What the p line of another DIMACS problem asks for; empty for any other line."""
    words = line.split()
    return _KINDS.get(words[1], "") if len(words) > 1 and words[0] == b"p" else ""


class Tidied(NamedTuple):
    """The file in its form, what was put right, and which line of the file each of its lines was, from 1."""

    data: bytes
    said: List[str]
    lines: List[int]


def _text(data: bytes, said: List[str]) -> bytes:
    """The file as bytes of ASCII or UTF-8 whose lines end in LF or CR LF."""
    codec = "utf-16" if data[:2] in (b"\xff\xfe", b"\xfe\xff") else _without_mark(data)
    if codec != "utf-8":
        try:
            data = data.decode(codec).encode()
            said.append("UTF-16 made plain text")
        except UnicodeDecodeError:
            pass  # it stays as it is, and is refused
    if data.startswith(b"\xef\xbb\xbf"):
        data = data[3:]
        said.append("a byte order mark left out")
    if b"\r" in data and b"\n" not in data:
        said.append(f"line ends CR: {data.count(bytes([13])):,}")
        data = data.replace(b"\r", b"\n")
    return data


def tidied(data: bytes) -> Tidied:
    """The file in its form; a workbook stays as it is."""
    if data.startswith((b"PK\x03\x04", b"\xd0\xcf\x11\xe0")):
        return Tidied(data, [], [])
    said: List[str] = []
    lines = _text(data, said).split(b"\n")
    ended = lines[-1] == b""
    lines = lines[:-1] if ended else lines
    counts = {"line ends CR LF": 0, "tabs": 0, "blanks at an end of a line": 0, "empty lines left out": 0}
    found, numbers = [], []
    for number, line in enumerate(lines, 1):
        bare = line[:-1] if line.endswith(b"\r") else line
        counts["line ends CR LF"] += bare != line
        if not bare.startswith(b"c"):
            counts["tabs"] += bare.count(b"\t")
            bare = bare.replace(b"\t", b" ")
        short = bare.strip(b" ")
        counts["blanks at an end of a line"] += short != bare
        if not short:
            counts["empty lines left out"] += 1
            continue
        kind = kind_of(short)
        if kind:
            raise NotCovered(f"{re.sub(' +', ' ', short.decode('ascii', 'replace'))[:40]}: {kind} is not covered; a minimum-cost flow (p min) is")
        found.append(short)
        numbers.append(number)
    said += [f"{what}: {count:,}" for what, count in counts.items() if count]
    if not ended:
        said.append("the last line had no end")
    return Tidied(b"".join(line + b"\n" for line in found), said, numbers)
