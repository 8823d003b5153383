"""What a refusal means for a person: a sentence, what to do, and the place in the file, with the usual cause where the byte tells it."""

from typing import List, NamedTuple, Optional, Tuple

from . import Case, Refusal, causes
from .dimacs import cause_of_limits, cause_of_line, cause_of_none
from .files import TARIFF, File, FileRefusal
from .words import counted, grouped

CR, LF, COMMA = 13, 10, 44

_ADVICE = {
    1: "Plan regions apart, or join depots that lie together.",
    2: "Plan regions apart, or join terminals that lie together.",
    3: "Look for a missing or doubled row; each source has one unit cost for each terminal.",
    4: "Look at that number; plan in a larger unit if it is right.",
    5: "Look at that cost; use a larger coin if it is right.",
    6: "Give one entry for each output of plant 1, 0 and its supply included.",
    7: "No plan exists: the stock and what must be made cannot all leave. Lower a stock or a least run, or raise a demand.",
    8: "No plan exists. Raise a capacity or a stock, or lower a demand.",
    9: "Look at that entry; use a larger coin if it is right.",
    20: "Look at its path and size.",
    21: "Look at the marked byte. A number has 1 to 10 digits, the first not 0, or is a single 0; commas part the fields, and each record ends in CR LF.",
    22: "Look for a missing or doubled comma, or a decimal comma.",
    23: "Lower the run or raise that plant's supply; 0 is no run.",
    26: "Give one ceiling for each lane, in the order of the costs; 4,000 where there is none.",
    27: "Look for a terminal, a depot or a plant with a least run whose lanes together are too narrow, then for groups of them; raise a ceiling or lower a run.",
    32: "Look at that entry; use a larger coin if it is right.",
}

_HIGH_ADVICE = "Give a high entry for each low one, not below it."

_NETWORK_ADVICE = {
    27: "Look for a node whose arcs together are too narrow, then for groups of them; raise a ceiling or change a supply.",
    29: "A line is c with any words, p min NODES ARCS, n NODE SUPPLY or a START END 0 CEILING COST, in this order, its fields parted by spaces, and ends in LF.",
    30: "Look at that number; plan in a larger unit or a larger coin if it is right.",
}


class Line(NamedTuple):
    """A line of a file around the place, cut to what fits; `marked` is empty but in the line of the place."""

    number: int
    before: str
    marked: str
    after: str


class Spot(NamedTuple):
    """A place in a file."""

    file: File
    offset: int  # from 0
    record: int  # from 1
    field: int  # from 1
    byte: str  # what stands there
    cause: str  # the usual cause, or nothing
    lines: List[Line]


class Explained(NamedTuple):
    number: int
    place: int
    sentence: str
    advice: str
    facts: List[Tuple[str, str]]  # what the numbers of the case say of it
    spot: Optional[Spot]


# bytes ---------------------------------------------------------------------------------------------------------------------------


def _byte(data: bytes, at: int) -> int:
    return data[at] if 0 <= at < len(data) else -1


_NAMES = {-1: "the end of the file", 0: "NUL", 9: "a tab", LF: "LF", CR: "CR", 32: "a space"}


def _name(data: bytes, at: int) -> str:
    byte = _byte(data, at)
    if byte in _NAMES:
        return _NAMES[byte] if byte < 0 else f"{_NAMES[byte]} (byte {byte})"
    return f"{chr(byte)} (byte {byte})" if 32 < byte < 127 else f"byte {byte} (hexadecimal {byte:02x})"


_SHOWN = {CR: "\u2039CR\u203a", LF: "\u2039LF\u203a", 9: "\u2039TAB\u203a"}


def _shown(data: bytes) -> str:
    """Bytes for the eye: names for CR, LF and tab, hexadecimal for what is not ASCII, all in angle quotes."""
    return "".join(_SHOWN.get(b) or (chr(b) if 32 <= b < 127 else f"\u2039{b:02x}\u203a") for b in data)


_WIDE = 48  # bytes that are shown on each side of the place


def _marked(data: bytes, number: int, start: int, end: int, low: int, high: int) -> Line:
    """The line from start to end, its part from low to high set apart, and no more than fits on each side."""
    left, right = max(start, low - _WIDE), min(end, high + _WIDE)
    before = ("\u2026" if start < left else "") + _shown(data[left:low])
    after = _shown(data[high:right]) + ("\u2026" if right < end else "")
    return Line(number, before, _shown(data[low:high]) or "\u2039end\u203a", after)


def _plain(data: bytes, number: int, start: int, end: int) -> Line:
    cut = min(end, start + 2 * _WIDE)
    return Line(number, _shown(data[start:cut]) + ("\u2026" if cut < end else ""), "", "")


def _lines(data: bytes, low: int, high: int) -> List[Line]:
    """The line of the place, two before it and two after it."""
    bounds = [0] + [i + 1 for i, b in enumerate(data) if b == LF]
    if bounds[-1] < len(data) or low == len(data):
        bounds.append(len(data))
    here = data[:low].count(LF)
    found = []
    for k in range(max(0, here - 2), min(len(bounds) - 1, here + 3)):
        start, end = bounds[k], bounds[k + 1]
        found.append(_marked(data, k + 1, start, end, low, high) if k == here else _plain(data, k + 1, start, end))
    return found


def spot_of(file: File, low: int, high: int, cause: str) -> Spot:
    """The place from offset low to high, by its record and field."""
    data = file.data
    record_start = data.rfind(b"\n", 0, low) + 1
    record, field = data[:low].count(LF) + 1, data[record_start:low].count(COMMA) + 1
    return Spot(file, low, record, field, _name(data, low), cause, _lines(data, low, high))


def _records(data: bytes) -> int:
    """How many records a file of the form has."""
    return data.count(LF) + (not data.endswith(b"\n"))


def _fields(data: bytes, record: int) -> List[Tuple[int, int]]:
    """Where the fields of a record begin and end, in a file that the proved reader found to be of the form: no field has a comma or a line
    end in it."""
    low = 0
    for _ in range(record - 1):
        low = data.index(LF, low) + 1
    found = []
    for field in data[low:].split(b"\r\n", 1)[0].split(b","):
        found.append((low, low + len(field)))
        low += len(field) + 1
    return found


# sentences -----------------------------------------------------------------------------------------------------------------------


def _explain_file(refusal: FileRefusal, called: str = "") -> Explained:
    """Refusals 20 to 22, of a file that is called by its kind where no other word is given."""
    file, number, place = refusal.file, refusal.number, refusal.place
    name = f"the {called or file.kind} file {file.path}"
    spot = None
    if number == 20:
        cause = causes.other(file.data)
        sentence = f"{name} cannot be opened and read." if file.data is None else f"{name} is longer than 65,536 bytes."
        sentence += f" Here stands {cause}." if cause else ""
    elif number == 21:
        spot = spot_of(file, place, place + 1, causes.cause_of(file.kind, file.data, place))
        at = f"record {spot.record}, field {spot.field}, offset {place} counted from 0"
        ends = place >= len(file.data)
        sentence = f"{name} ends too soon: {at}." if ends else f"{name} has a byte that cannot stand there: {at}."
    else:
        odd, wanted = _fields(file.data, place), len(_fields(file.data, 1)) if file.kind == TARIFF else 1
        than = "record 1 has" if file.kind == TARIFF else "each has"
        sentence = f"record {place} of {name} has {counted(len(odd), 'field')}; {than} {wanted}."
        low, high = (odd[wanted][0], odd[-1][1]) if len(odd) > wanted else (odd[-1][1], odd[-1][1] + 1)
        records = file.data.split(b"\r\n")
        found = causes.odd_record(file.kind, file.data, (records[0], records[place - 1]), wanted)
        if found.high:
            low, high = odd[0][0] + found.low, odd[0][0] + found.high
        spot = spot_of(file, low, max(high, low + 1), found.cause)
    return Explained(number, place, sentence, _ADVICE[number], [], spot)


def _field_spot(file: Optional[File], record: int, field: int) -> Optional[Spot]:
    """A whole field of a file that is of the form."""
    if file is None:
        return None
    low, high = _fields(file.data, record)[field - 1]
    return spot_of(file, low, high, "")


def _balance(case: Case) -> List[Tuple[str, str]]:
    demand, stock = sum(case.demands), sum(case.supplies[2:])
    facts = [("all demands", demand), ("all depot stock", stock), ("so the plants must make", demand - stock)]
    facts += [("the plants can make", sum(case.supplies[:2])), ("the plants' least runs", sum(case.runs))]
    return [(name, grouped(number)) for name, number in facts]


def _explain_size(refusal: Refusal, tariff: File) -> Explained:
    """Refusal 1 or 2 of two files: the counts are those of the tariff's records and fields, no number was read."""
    facts = [("sources", grouped(_records(tariff.data) - 1)), ("terminals", grouped(len(_fields(tariff.data, 1)) - 1))]
    return Explained(refusal.number, refusal.place, str(refusal).split(": ", 1)[1] + ".", _ADVICE[refusal.number], facts, None)


def _no_plan(number: int, case: Case, sentence: str) -> str:
    """Refusal 7 or 8 with its sums, 27 with its cut where the sums of one show it."""
    from .cut import cut_sentence, sums_sentence

    cause = cut_sentence(case) if number == 27 else sums_sentence(case, number)
    return f"{sentence[:-1]}: {cause}." if cause else sentence


def _length_sentence(case: Case, file: File, called: str) -> str:
    """Refusal 6 of a file."""
    return f"the {called} file {file.path} has {counted(_records(file.data), 'entry', 'entries')}, not {grouped(case.supplies[0] + 1)}."


def _entry_sentence(place: int, file: File, called: str) -> str:
    """Refusal 9 of a file."""
    return f"the entry of split {place} (record {place + 1} of the {called} file {file.path}) is above 1,000,000,000."


def explain_case(refusal: Refusal, case: Optional[Case], tariff: Optional[File] = None, production: Optional[File] = None) -> Explained:
    """A refusal of a case, shown in its files where it came from some."""
    if case is None:
        return _explain_size(refusal, tariff)
    number, place = refusal.number, refusal.place
    m, n = len(case.supplies), len(case.demands)
    sentence, facts, spot = str(refusal).split(": ", 1)[1] + ".", [], None
    if number in (1, 2, 3):
        facts = [("sources", grouped(m)), ("terminals", grouped(n)), ("rows of costs", grouped(len(case.costs)))]
    elif number == 4 and place <= m:
        sentence = f"the supply of source {place} is above 4,000."
        facts = [(f"supply of source {place}", grouped(case.supplies[place - 1]))]
        spot = _field_spot(tariff, place, n + 1)
    elif number == 4:
        sentence = f"the demand of terminal {place - m} is above 4,000."
        facts = [(f"demand of terminal {place - m}", grouped(case.demands[place - m - 1]))]
        spot = _field_spot(tariff, m + 1, place - m)
    elif number == 5 or number == 26 and place:
        i, j = (place - 1) // n, (place - 1) % n
        what, most = ("unit cost", "below \u22121,000,000 or above 1,000,000") if number == 5 else ("ceiling", "above 4,000")
        rows = case.costs if number == 5 else case.ceilings
        sentence = f"the {what} from source {i + 1} to terminal {j + 1} is {most}."
        facts = [(what, grouped(rows[i][j]))]
        spot = _field_spot(tariff, i + 1, j + 1) if number == 5 else None
    elif number == 6:
        sentence = _length_sentence(case, production, "production") if production else sentence
        facts = [("entries", grouped(_records(production.data) if production else len(case.table))), ("supply of plant 1", grouped(case.supplies[0]))]
        facts += [("entries wanted", grouped(case.supplies[0] + 1))]
    elif number in (7, 8, 27):
        sentence, facts = _no_plan(number, case, sentence), _balance(case)
    elif number == 9:
        sentence = _entry_sentence(place, production, "production") if production else f"the entry of split {place} is above 1,000,000,000."
        facts = [(f"entry of split {place}", grouped(case.table[place]))]
        spot = _field_spot(production, place + 1, 1)
    elif number == 32:
        sentence = f"the entry of split {place} is above 9,999,999,999, which no file can hold."
        facts = [(f"entry of split {place}", grouped(case.table[place]))]
    elif number == 23:
        sentence = f"the least run of plant {place} is above its supply."
        facts = [("least run", grouped(case.runs[place - 1])), ("supply", grouped(case.supplies[place - 1]))]
    return Explained(number, place, sentence, _ADVICE.get(number, ""), facts, spot)


def explain(refusal: Refusal, case: Optional[Case] = None, tariff: Optional[File] = None, production: Optional[File] = None) -> Explained:
    """What a refusal means, by the case it is about, or by the file that it names."""
    if isinstance(refusal, FileRefusal):
        return _explain_file(refusal)
    return explain_case(refusal, case, tariff, production)


def _explain_high(place: int, low: List[int], high: List[int], file: File) -> Explained:
    """Refusal 28: the high table's length, or an entry of it."""
    name = f"the high file {file.path}"
    if len(high) != len(low):
        sentence = f"{name} has {counted(_records(file.data), 'entry', 'entries')}, the low one {grouped(len(low))}."
        return Explained(28, place, sentence, _HIGH_ADVICE, [], None)
    what = "above 1,000,000,000" if high[place] >= low[place] else f"below the low one, {grouped(low[place])}"
    sentence = f"the entry of split {place} (record {place + 1} of {name}), {grouped(high[place])}, is {what}."
    return Explained(28, place, sentence, _HIGH_ADVICE, [], _field_spot(file, place + 1, 1))


def explain_bounds(refusal: Refusal, case: Optional[Case], high: List[int], tariff: File, low_file: File, high_file: File) -> Explained:
    """A refusal of a tariff with a low and a high table; the low one stands as the case's own."""
    if isinstance(refusal, FileRefusal):
        return _explain_file(refusal, "high" if refusal.file is high_file else "low" if refusal.file is low_file else "")
    if refusal.number == 28:
        return _explain_high(refusal.place, case.table, high, high_file)
    told = explain_case(refusal, case, tariff, low_file)
    if refusal.number == 6:
        return told._replace(sentence=_length_sentence(case, low_file, "low"))
    if refusal.number == 9:
        return told._replace(sentence=_entry_sentence(refusal.place, low_file, "low"))
    return told


def _line_spot(file: File, number: int, cause: str) -> Spot:
    """A whole line of a network's file; the one after the last is empty."""
    data = file.data
    low = sum(len(line) + 1 for line in data.split(b"\n")[: number - 1])
    end = data.find(b"\n", low)
    high = min(len(data) if end < 0 else end, low + 2 * _WIDE)
    return Spot(file, low, number, 1, _name(data, low), cause, _lines(data, low, max(high, low + 1)))


def _network_cut(file: File) -> str:
    from .cut import network_cut
    from .dimacs import read

    return network_cut(read(file.data.split(b"\n")))


def explain_network(refusal: Refusal, file: File, place: int, table: List[int], named: str = "") -> Explained:
    """Refusal 27, 29 or 30 of a network, its named arc and the table; or one of a file. `named` is the text that names the arc."""
    if isinstance(refusal, FileRefusal):
        return _explain_file(refusal, "" if refusal.file is file else "table")
    number, line = refusal.number, refusal.place
    name, spot = f"the network file {file.path}", None
    if number == 29:
        spot = _line_spot(file, line, cause_of_line(file.data, line))
        text = _shown(file.data[spot.offset :].split(b"\n")[0][:_WIDE])
        sentence = f"line {line} of {name} is not of the form: {text}." if text else f"line {line} of {name} is not of the form: it is empty."
    elif number == 30:
        cause = cause_of_limits(file.data, place, table, named)
        sentence = f"{name}, the named arc or the table is outside the limits" + (f": there is {cause}." if cause else ".")
    else:
        plain = cause_of_none(file.data)
        cause = f"there is {plain}" if plain else _network_cut(file)
        sentence = f"no flow of {name} meets the supplies within the ceilings" + (f": {cause}." if cause else ".")
    return Explained(number, line, sentence, _NETWORK_ADVICE[number], [], spot)
