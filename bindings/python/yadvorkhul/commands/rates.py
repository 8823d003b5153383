"""Prints a production table of square-root rates."""

import re

import yadvorkhul

from .. import Refusal
from ..console import DONE, REFUSED, WrongUse, emit, say

ORDER = 40
SUMMARY = "print a production table of square-root rates"
NEEDS = ["yadvorkhul_rates"]


def add(parser):
    parser.add_argument("supply", help="the supply of plant 1, at most 4,000")


def run(arguments) -> int:
    # as in the program `rates`: one to four digits
    if not re.fullmatch("[0-9]{1,4}", arguments.supply):
        raise WrongUse("the supply of plant 1 is a whole number from 0 to 4,000, in digits alone")
    try:
        rates = yadvorkhul.rates(int(arguments.supply))
    except Refusal as refusal:
        say(f"Refusal {refusal.number}: the supply of plant 1 is above 4,000.")
        return REFUSED
    emit("".join(f"{rate}\r\n" for rate in rates).encode())
    return DONE
