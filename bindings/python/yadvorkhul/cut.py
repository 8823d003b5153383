"""Why no plan exists though the sums are in balance: a cut, found by a largest flow and told in drums. The sums are checked before it is told."""

from typing import List, NamedTuple, Optional, Tuple

from . import Case
from .certificate import _bounded, _cut, _largest_flow, _made
from .dimacs import Network
from .words import grouped

SHOWN = 3  # names of a list


class Cut(NamedTuple):
    """Terminals that can not get what they take: `take` is more than `send` and `carry` together."""

    sources: List[int]  # from 0: those that may send all they have into the terminals
    terminals: List[int]
    take: int
    send: int  # what these sources send at most
    carry: int  # what the lanes from all other sources to the terminals carry


def cut_of(case: Case) -> Optional[Cut]:
    """The cut of a case refused by 27; None where the sums do not show it."""
    case = _bounded(case)
    made, supplies, runs = _made(case), case.supplies, case.runs
    low, high = max(runs[0], made - supplies[1]), min(supplies[0], made - runs[1])
    if low > high:
        return None
    prices = _cut(case, low, high)
    m = len(supplies)
    sources = [i for i in range(m) if prices[i]]
    terminals = [j for j in range(len(case.demands)) if prices[m + j]]
    plants = made if {0, 1} <= set(sources) else high if 0 in sources else made - low if 1 in sources else 0
    send = plants + sum(supplies[i] for i in sources if i > 1)
    ceilings = case.ceilings or []
    carry = sum(ceilings[i][j] for i in range(m) if i not in sources for j in terminals)
    take = sum(case.demands[j] for j in terminals)
    return Cut(sources, terminals, take, send, carry) if take > send + carry else None


def _listed(names: List[str]) -> str:
    if len(names) > SHOWN + 1:
        names = names[:SHOWN] + [f"{len(names) - SHOWN} more"]
    return names[0] if len(names) == 1 else ", ".join(names[:-1]) + " and " + names[-1]


def _names(case: Case) -> Tuple[List[str], List[str]]:
    given = lambda names, k, default: names[k] if names and k < len(names) and names[k] else f"{default} {k + 1}"
    sources = [given(case.sources, i, "Plant" if i < 2 else "Depot") for i in range(len(case.supplies))]
    return sources, [given(case.terminals, j, "Terminal") for j in range(len(case.demands))]


def _by_terminals(case: Case, cut: Cut) -> str:
    sources, terminals = _names(case)
    many = len(cut.terminals) > 1
    told = f"{_listed([terminals[j] for j in cut.terminals])} {'take' if many else 'takes'} {grouped(cut.take)}{' together' if many else ''}; "
    if not cut.sources:
        return told + f"the lanes {'to them' if many else 'to it'} carry {grouped(cut.carry)} together"
    told += f"{_listed([sources[i] for i in cut.sources])} {'send' if len(cut.sources) > 1 else 'sends'} at most {grouped(cut.send)}"
    return told + f", and the lanes from all others carry {grouped(cut.carry)}"


def _by_sources(case: Case, cut: Cut) -> str:
    """The same cut seen from the other side: sources that can not get rid of what they must send."""
    names, rooms = _names(case)
    sources = [i for i in range(len(case.supplies)) if i not in cut.sources]
    others = [j for j in range(len(case.demands)) if j not in cut.terminals]
    must = sum(case.demands) - cut.send
    many = len(sources) > 1
    told = f"{_listed([names[i] for i in sources])} must send {grouped(must)}{' together' if many else ''}; "
    if not others:
        return told + f"{'their' if many else 'its'} lanes carry {grouped(cut.carry)} together"
    taken = sum(case.demands[j] for j in others)
    told += f"{_listed([rooms[j] for j in others])} {'take' if len(others) > 1 else 'takes'} {grouped(taken)}"
    return told + f", and the lanes to all others carry {grouped(cut.carry)}"


def cut_sentence(case: Case) -> str:
    """The cut in words, from the side that names fewer; empty where there is none to tell."""
    cut = cut_of(case)
    if cut is None:
        return ""
    m, n = len(case.supplies), len(case.demands)
    inside = len(cut.sources) + len(cut.terminals)
    return _by_terminals(case, cut) if inside < m + n - inside or len(cut.sources) == m else _by_sources(case, cut)


# networks ----------------------------------------------------------------------------------------------------------------------------


def network_cut(network: Network) -> str:
    """Nodes of a network that cannot get rid of what they send; empty where the sums do not show it."""
    nodes, source, sink = network.nodes, network.nodes, network.nodes + 1
    room = [[0] * (nodes + 2) for _ in range(nodes + 2)]
    for node, supply in network.supplies:
        room[source][node - 1] += max(0, supply)
        room[node - 1][sink] += max(0, -supply)
    for start, end, _, ceiling, _ in network.arcs:
        room[start - 1][end - 1] += ceiling
    reach = [node for node in range(nodes) if node in _largest_flow(room, source, sink)]
    inside = {node + 1 for node in reach}
    over = sum(supply for node, supply in network.supplies if node in inside)
    carry = sum(arc[3] for arc in network.arcs if arc[0] in inside and arc[1] not in inside)
    if over <= carry:
        return ""
    many = len(inside) > 1
    names = f"nodes {_listed([str(node) for node in sorted(inside)])}" if many else f"node {min(inside)}"
    return f"{names} must send {grouped(over)} on; {'their' if many else 'its'} arcs to all others carry {grouped(carry)} together"


def sums_sentence(case: Case, number: int) -> str:
    """The sums of refusal 7 or 8."""
    demand, stock = sum(case.demands), sum(case.supplies[2:])
    if number == 7:
        runs = sum(case.runs)
        more = stock + runs - demand
        return f"the terminals take {grouped(demand)}, the depots hold {grouped(stock)} and the least runs make {grouped(runs)}: {grouped(more)} too many"
    plants = sum(case.supplies[:2])
    more = demand - stock - plants
    return f"the terminals take {grouped(demand)}, the depots hold {grouped(stock)} and the plants can make {grouped(plants)}: {grouped(more)} too few"
