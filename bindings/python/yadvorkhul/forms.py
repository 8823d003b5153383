"""A case in its one form: the two files of W-213, its fingerprint, and JSON.

The fingerprint of a case is the SHA-256 of its tariff and its production table in W-213's form, one after the other, and of its least runs
and ceilings where it has some. Names, title, currency and date are no part of it: two offices that plan the same numbers have the same one.
The fingerprint of a plan is that of what the program `plan` prints. Without runs and ceilings both are what `sha256sum` says of the files.
"""

import hashlib
import json
from typing import Dict, List

from . import MOST_AMOUNT, Case, Plan
from .files import PRODUCTION, TARIFF, File, plan_text, read_case

GROUP, SAID = 4, 4  # letters of a group, groups that are read over the telephone


def _records(rows) -> str:
    return "".join(",".join(map(str, row)) + "\r\n" for row in rows)


def tariff_text(case: Case) -> str:
    """Bare fields, CR LF after each record, the demands with their empty last field."""
    rows = [list(costs) + [supply] for costs, supply in zip(case.costs, case.supplies)]
    return _records(rows + [list(case.demands) + [""]])


def production_text(case: Case) -> str:
    return _records([entry] for entry in case.table)


def read_again(case: Case) -> Case:
    """The case as the reader of the two files has it, with the runs, ceilings and names of the one given; or the reader's refusal."""
    tariff = File(TARIFF, "the tariff as it was written", tariff_text(case).encode())
    found = read_case(tariff, File(PRODUCTION, "the production table as it was written", production_text(case).encode()))
    return case._replace(costs=found.costs, supplies=found.supplies, demands=found.demands, table=found.table)


def limits_text(case: Case) -> str:
    """The least runs and the ceilings; nothing where there are none, by whatever numbers that is said."""
    ceilings = [list(row) for row in case.ceilings or []]
    if not any(case.runs) and all(one == MOST_AMOUNT for row in ceilings for one in row):
        return ""
    return _records([case.runs] + (ceilings or [[MOST_AMOUNT] * len(case.demands) for _ in case.supplies]))


def fingerprint(case: Case) -> str:
    """64 letters that two offices have in common exactly where their cases are the same."""
    return hashlib.sha256((tariff_text(case) + production_text(case) + limits_text(case)).encode()).hexdigest()


def plan_fingerprint(case: Case, plan: Plan) -> str:
    """The same for what the program `plan` prints."""
    return hashlib.sha256(plan_text(case, plan).encode()).hexdigest()


def fingerprints(case: Case, plan: Plan) -> Dict[str, str]:
    """Both, as JSON has them."""
    return {"case_fingerprint": fingerprint(case), "plan_fingerprint": plan_fingerprint(case, plan)}


def spoken(print_: str) -> str:
    """The first letters in groups, as they are read over the telephone; empty where there is none."""
    return " ".join(print_[k * GROUP : (k + 1) * GROUP] for k in range(SAID)).rstrip()


def case_fields(case: Case) -> Dict:
    """The fields of a case that say something, in the order of the schema."""
    told = {name: list(value) if isinstance(value, tuple) else value for name, value in case._asdict().items()}
    order: List[str] = ["title", "currency", "date", "sources", "terminals", "supplies", "demands", "costs", "table", "runs", "ceilings"]
    return {name: told[name] for name in order if told[name] not in ("", None) and (name != "runs" or any(told[name]))}


def case_json(case: Case) -> str:
    """A case as a JSON file, a line for each row of numbers."""
    parts = []
    for name, value in case_fields(case).items():
        rows = isinstance(value, list) and value and isinstance(value[0], list)
        text = "[\n    " + ",\n    ".join(map(json.dumps, value)) + "\n  ]" if rows else json.dumps(value, ensure_ascii=False)
        parts.append(f'  "{name}": {text}')
    return "{\n" + ",\n".join(parts) + "\n}\n"
