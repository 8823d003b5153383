"""The total at every split, read off the stops of the freight curve, which is straight between two of them."""

from typing import List, NamedTuple, Optional, Sequence, Tuple

from . import Plan


class Split(NamedTuple):
    split: int  # what plant 1 makes
    production: int
    freight: int
    total: int


class Valley(NamedTuple):
    """Neighbouring splits of one total, of which no neighbour is as cheap: a plan there is one that no small change improves."""

    first: Split
    last: Split
    more: int  # than the least total


class Curve(NamedTuple):
    splits: List[Split]  # every split in use, rising
    given: Split
    valleys: List[Valley]  # every local minimum of the total, rising in split
    ties: List[Split]  # the splits of least total; the first is the one given
    next: Optional[Split]  # the cheapest of the splits that are not given; the smallest of several


def freights(stops: Sequence[Tuple[int, int]]) -> List[int]:
    """The least freight at each split, from the first stop to the last."""
    found = [stops[0][1]]
    for (p, a), (q, b) in zip(stops, stops[1:]):
        slope, rest = divmod(b - a, q - p)
        if rest:
            raise ValueError(f"the freight is not straight from {p} to {q}")
        found += [a + slope * k for k in range(1, q - p + 1)]
    return found


def valleys(splits: List[Split]) -> List[Valley]:
    """The local minima of the total, a run of equal totals as one."""
    least = min(s.total for s in splits)
    found, start = [], 0
    for i in range(1, len(splits) + 1):
        if i < len(splits) and splits[i].total == splits[start].total:
            continue
        falls_before = start == 0 or splits[start - 1].total > splits[start].total
        rises_after = i == len(splits) or splits[i].total > splits[start].total
        if falls_before and rises_after:
            found.append(Valley(splits[start], splits[i - 1], splits[start].total - least))
        start = i
    return found


def within(curve: Curve, thousandths: int = 1) -> List[Tuple[int, int]]:
    """The splits whose total is at most so many thousandths above the least, as stretches from first to last."""
    most = curve.given.total + abs(curve.given.total) * thousandths // 1000
    found: List[Tuple[int, int]] = []
    for s in curve.splits:
        if s.total <= most:
            first = found.pop()[0] if found and found[-1][1] == s.split - 1 else s.split
            found.append((first, s.split))
    return found


def curve_of(plan: Plan, table: Sequence[int]) -> Curve:
    low = plan.stops[0][0]
    splits = [Split(y, table[y], f, f + table[y]) for y, f in enumerate(freights(plan.stops), low)]
    given = splits[plan.split - low]
    others = [s for s in splits if s is not given]
    next_best = min(others, key=lambda s: (s.total, s.split)) if others else None
    ties = [s for s in splits if s.total == given.total]
    if (given.total, given.freight) != (plan.total, plan.freight) or ties[0] is not given or min(splits, key=lambda s: s.total) is not given:
        raise ValueError("the curve and the plan do not agree")
    return Curve(splits, given, valleys(splits), ties, next_best)
