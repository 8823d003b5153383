#!/usr/bin/env python3
"""Checks certificates by whole numbers alone; knows neither the planner nor its package. What it checks, and why that is enough:
1. A certificate holds a case, prices, and a plan or a refusal. That the plan is one of the case, with this split and total, is adding up.
2. Why is no plan cheaper? Say that a drum is worth p_i at source i and q_j at terminal j: any whole numbers will do.
3. Both plants together make d drums, the demand less the depots' stock; at split y they send y and d - y, a depot its stock.
4. So the drums of all plans at y gain the same worth on their way: the sum of q_j b_j (b_j: demand) less the sum of p_i sent_i.
5. On lane i, j a drum gains q_j - p_i and costs c_ij; if that leaves us something, it does so at most k_ij times (the lane's ceiling).
6. Hence every plan at y has freight >= bound(y) = sum of q_j b_j - sum of p_i sent_i + sum of min(0, c_ij + p_i - q_j) k_ij.
7. At unit costs 0 a bound above 0 shows: no plan at y. Else bound + entry must reach the total, and pass it if y < the plan's split.
8. Each y that keeps runs and supplies is looked at. Refusal 7: d is below both runs; 8: above both supplies; 27: no such y has a plan.
9. The one plan: a unit cost becomes c 4001^L + 4001^t (L lanes, t of them after this one); the bound must meet the plan's finer freight.
10. Amounts are below 4,001, so they are digits, together less than 4001^L: money goes first, then fewer drums where plans first differ."""
import json, sys
def need(holds, sentence):
    if not holds: raise ValueError(sentence)
def once(pairs): return need(len(dict(pairs)) == len(pairs), "a name stands twice in one part") or dict(pairs)
def parts(of, what, names):
    need(type(of) is dict and set(of) == set(names.split()), f"{what} must have these parts and no other: {names}")
    return [of[name] for name in names.split()]
def row(v, size, low=-2**63, high=2**63): return type(v) is list and len(v) == size and all(type(x) is int and low <= x <= high for x in v)
def rows(v, m, n, low, high): return type(v) is list and len(v) == m and all(row(cells, n, low, high) for cells in v)
def times(u, v): return sum(x * y for r, s in zip(u, v) for x, y in zip(r, s))
def line(case, costs, p, q):  # the bound at split y is base + rise * y: both are returned
    a, b, k = case["supplies"], case["demands"], case["ceilings"]
    base = times([q], [b]) - p[1] * (sum(b) - sum(a[2:])) - times([p[2:]], [a[2:]])
    return base + times([[min(0, c + u - v) for c, v in zip(r, q)] for r, u in zip(costs, p)], k), p[1] - p[0]
def check_plan(c, a, b, table, runs, k, x, split, total):
    need(rows(x, len(a), len(b), 0, 4000), "the plan is no table of whole drums")
    sent, got = [sum(drums) for drums in x], [sum(drums) for drums in zip(*x)]
    need(all(runs[i] <= sent[i] <= a[i] for i in (0, 1)), "a plant makes less than its least run, or more than its supply")
    need(sent[2:] == a[2:] and got == b, "a depot does not send its stock, or a terminal does not get its demand")
    need(all(v <= most for pair in zip(x, k) for v, most in zip(*pair)), "a lane carries more than its ceiling")
    need(row([split, total], 2) and [split, total] == [sent[0], table[sent[0]] + times(c, x)], "split or total is not the plan's own")
def check_one(case, x, one, m, n):  # the prices' digits add up along a tree of lanes; node i is source i, node m + j terminal j
    p, q, tree = parts(one, "one", "sources terminals tree")
    need(row(p, m) and row(q, n) and type(tree) is list and len(tree) < m + n and rows(tree, len(tree), 2, 0, m + n - 1)
         and all((u < m) != (v < m) for u, v in tree), "the one plan needs a whole price for each node and a tree of lanes")
    top, digit, more = 4001 ** (m * n), [[4001 ** (m * n - 1 - i * n - j) for j in range(n)] for i in range(m)], [0] * (m + n)
    for u, v in tree: more[v] = more[u] + digit[u][v - m] if u < m else more[u] - digit[v][u - m]
    fine, price = [[c * top + t for c, t in zip(*pair)] for pair in zip(case["costs"], digit)], [v * top + t for v, t in zip(p + q, more)]
    base, rise = line(case, fine, price[:m], price[m:])
    need(base + rise * sum(x[0]) >= times(fine, x), "another plan of this split may be due")
def check(cert):  # nothing, or a ValueError that says what is wrong
    form, case, refusal, x, split, total, pieces, one = parts(cert, "a certificate", "form case refusal plan split total pieces one")
    need(form == "yadvorkhul certificate 1" and type(pieces) is list, "its form is not yadvorkhul certificate 1, with a list of pieces")
    c, a, b, table, runs, k = numbers = parts(case, "the case", "costs supplies demands table runs ceilings")
    m, n = (len(v) if type(v) is list else 0 for v in (a, b))
    need(2 <= m <= 32 and 1 <= n <= 64 and row(a, m, 0, 4000) and row(b, n, 0, 4000) and rows(c, m, n, -10**6, 10**6)
         and rows(k, m, n, 0, 4000) and row(runs, 2, 0, 4000) and runs[0] <= a[0] and runs[1] <= a[1]
         and row(table, a[0] + 1, 0, 2**64 - 1), "the case is not of the form, or out of range")
    d, some = sum(b) - sum(a[2:]), x is not None
    number = None if some else 7 if d < sum(runs) else 8 if d > a[0] + a[1] else 27
    need(type(refusal) is type(number) and refusal == number, "it is another refusal, or there is a plan beside it")
    if some: check_plan(*numbers, x, split, total)
    else: need([split, total, one] == [None] * 3, "a refusal has null for split, total and one")
    low, high = max(runs[0], d - a[1]), min(a[0], d - runs[1]); unseen = set(range(low, high + 1))  # the splits to look at
    for piece in pieces:
        first, last, none, p, q = parts(piece, "a piece", "from to none sources terminals")
        need(row(p, m) and row(q, n) and row([first, last], 2) and type(none) is bool, "a piece lacks a price or a proper from, to, none")
        base, rise = line(case, [[0] * n] * m if none else c, p, q)
        for y in range(max(low, first), min(high, last) + 1):
            need(base + rise * y > 0 if none else some, f"split {y} is not shown to have no plan")
            need(none or table[y] <= 10**9 and base + rise * y + table[y] >= total + (y < split), f"a plan at split {y} may be due")
            unseen.discard(y)
    need(not unseen, f"split {min(unseen, default=0)} is not looked at")
    if some: check_one(case, x, one, m, n)
def told(text):  # whether it is right, and a sentence with the case's size and total, for the reader to compare
    try: cert = json.loads(text, object_pairs_hook=once); check(cert)
    except (ValueError, RecursionError) as error: return False, f"NOT RIGHT: {'it is no JSON, ' * hasattr(error, 'lineno')}{error}"
    a, b = cert["case"]["supplies"], cert["case"]["demands"]
    answer = "no plan, refusal {refusal}" if cert["plan"] is None else "plant 1 makes {split:,}, total {total:,}: no plan is cheaper"
    return True, f"right: {len(a)} sources, {len(b)} terminals, {sum(b):,} drums demanded: " + answer.format(**cert)
if __name__ == "__main__":
    status = 0 if sys.argv[1:] else print("usage: check_certificate.py CERTIFICATE.json ...") or 1
    for path in sys.argv[1:]:
        try: right, sentence = told(open(path, encoding="utf-8").read())
        except (OSError, UnicodeError) as error: right, sentence = False, f"NOT RIGHT: it cannot be read ({error})"
        status |= print(f"{path}: {sentence}".encode("utf-8", "backslashreplace").decode()) or not right
    sys.exit(status)
