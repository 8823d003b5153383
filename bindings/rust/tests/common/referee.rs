//! The independent referee: the refusals read off the paper, and the freight curve by cancelling negative cycles.
//!
//! Nothing here is taken from the proved planner. At each split within the supplies and the least runs it asks whether a plan is
//! within the ceilings: drums go along any paths, found breadth first, until all are delivered or no path is left (Ford and
//! Fulkerson). Then it pushes drums around cycles of negative cost, found by Bellman and Ford's method over the lanes and their
//! return arcs, until there is none: the plan is a cheapest one at that split. No shortest path between the plants is looked for
//! and nothing is assumed about the curve or about which splits have a plan. The next split starts from this plan with one drum
//! moved from plant 2 to plant 1.
//!
//! Of the cheapest plans at a split the one that is due is found by prices: each lane in turn is made dearer by less than any
//! difference of freights, negative cycles are cancelled again, and the lane is then held at what it carries.

use super::Lent;

/// d of a case that passes tests 1 to 8, and the first and the last split within the supplies and the least runs.
pub fn splits(lent: &Lent) -> (u64, u64, u64) {
    let demand: u64 = lent.demands.iter().sum();
    let stock: u64 = lent.supplies[2..].iter().sum();
    let d = demand - stock;
    (d, lent.run1.max(d.saturating_sub(lent.supplies[1])), lent.supplies[0].min(d - lent.run2))
}

/// ℓ and u of such a case: the first and the last of these splits that have a plan within the ceilings.
pub fn range(lent: &Lent) -> Option<(u64, u64)> {
    let found = over_splits(lent, |_| 0);
    let least = found.iter().find(|f| f.1.is_some())?.0;
    let greatest = found.iter().rfind(|f| f.1.is_some())?.0;
    Some((least, greatest))
}

/// The first of the tests that the case fails, and its place.
pub fn refusal(lent: &Lent) -> Option<(u64, u64)> {
    let Lent { m, n, .. } = *lent;
    if !(2..=32).contains(&m) {
        return Some((1, 0));
    }
    if !(1..=64).contains(&n) {
        return Some((2, 0));
    }
    if lent.costs.len() != m * n || lent.supplies.len() != m || lent.demands.len() != n {
        return Some((3, 0));
    }
    if let Some(k) = lent.supplies.iter().chain(&lent.demands).position(|&a| a > 4_000) {
        return Some((4, k as u64 + 1));
    }
    if lent.run1 > lent.supplies[0] {
        return Some((23, 1));
    }
    if lent.run2 > lent.supplies[1] {
        return Some((23, 2));
    }
    if let Some(k) = lent.costs.iter().position(|&c| !(-1_000_000..=1_000_000).contains(&c)) {
        return Some((5, k as u64 + 1));
    }
    if lent.ceilings.len() != m * n {
        return Some((26, 0));
    }
    if let Some(k) = lent.ceilings.iter().position(|&u| u > 4_000) {
        return Some((26, k as u64 + 1));
    }
    if lent.table.len() as u64 != lent.supplies[0] + 1 {
        return Some((6, 0));
    }
    let demand: u64 = lent.demands.iter().sum();
    let stock: u64 = lent.supplies[2..].iter().sum();
    if demand < stock + lent.run1 + lent.run2 {
        return Some((7, 0));
    }
    if demand - stock > lent.supplies[0] + lent.supplies[1] {
        return Some((8, 0));
    }
    let Some((l, u)) = range(lent) else { return Some((27, 0)) };
    if let Some(y) = (l..=u).find(|&y| lent.table[y as usize] > 1_000_000_000) {
        return Some((9, y));
    }
    let room = (u - l + 1) as usize;
    if lent.plan_cells < m * n || lent.split_cells < room || lent.freight_cells < room {
        return Some((11, 0));
    }
    None
}

/// Sum of amount times unit cost.
pub fn freight(lent: &Lent, amounts: &[u64]) -> i64 {
    amounts.iter().zip(&lent.costs).map(|(&x, &c)| x as i64 * c).sum()
}

/// What keeps `amounts` from being a plan at split y that respects the least runs and the ceilings.
pub fn faults(lent: &Lent, y: u64, amounts: &[u64]) -> Vec<String> {
    let (d, _, _) = splits(lent);
    let mut faults = Vec::new();
    for i in 0..lent.m {
        let made: u64 = amounts[i * lent.n..(i + 1) * lent.n].iter().sum();
        let due = if i == 0 {
            y
        } else if i == 1 {
            d - y
        } else {
            lent.supplies[i]
        };
        if made != due {
            faults.push(format!("row {i} sums to {made}, not {due}"));
        }
        let run = [lent.run1, lent.run2].get(i).copied().unwrap_or(0);
        if made < run || made > lent.supplies[i] {
            faults.push(format!("row {i} sums to {made}, not {run} to {}", lent.supplies[i]));
        }
    }
    for j in 0..lent.n {
        let taken: u64 = (0..lent.m).map(|i| amounts[i * lent.n + j]).sum();
        if taken != lent.demands[j] {
            faults.push(format!("column {j} sums to {taken}, not {}", lent.demands[j]));
        }
    }
    for (k, (x, u)) in amounts.iter().zip(&lent.ceilings).enumerate() {
        if x > u {
            faults.push(format!("lane {k} carries {x}, not {u} at most"));
        }
    }
    faults
}

/// ℓ, and f at ℓ, ℓ + 1, .., u, of a case that has a plan.
pub fn curve(lent: &Lent) -> (u64, Vec<i64>) {
    let found = over_splits(lent, |network| {
        network.cheapen();
        freight(lent, &network.amounts)
    });
    let least = found.iter().find(|f| f.1.is_some()).expect("a split that has a plan").0;
    let curve: Vec<i64> = found.iter().filter_map(|f| f.1).collect();
    let last = found.iter().rfind(|f| f.1.is_some()).expect("likewise").0;
    assert_eq!(curve.len() as u64, last - least + 1, "no split without a plan lies between two others; {lent:?}");
    (least, curve)
}

/// The amounts that are due at split y, which has a plan.
pub fn foremost(lent: &Lent, y: u64) -> Vec<u64> {
    let mut network = Network::empty(lent, y);
    assert!(network.deliver(), "a split that has a plan; {lent:?}");
    network.cheapen();
    network.settle();
    network.amounts
}

/// Each split within the supplies and the least runs, with what `at` says of a plan there, if there is one.
fn over_splits(lent: &Lent, mut at: impl FnMut(&mut Network) -> i64) -> Vec<(u64, Option<i64>)> {
    let (_, l, u) = splits(lent);
    let mut network = Network::empty(lent, l);
    (l..=u)
        .map(|y| {
            if y > l {
                network.shift_one();
            }
            let whole = network.deliver();
            if whole && (y == l || y == u) {
                assert!(faults(lent, y, &network.amounts).is_empty(), "the referee's own plan");
            }
            (y, whole.then(|| at(&mut network)))
        })
        .collect()
}

/// The smallest split of least total, and that total.
pub fn best(least: u64, curve: &[i64], table: &[u64]) -> (u64, i64) {
    let total = |k: usize| curve[k] + table[least as usize + k] as i64;
    let k = (0..curve.len()).min_by_key(|&k| (total(k), k)).expect("a split");
    (least + k as u64, total(k))
}

/// The ends of the curve, and each split between where the slope changes, with the freight there.
pub fn stops(least: u64, curve: &[i64]) -> Vec<(u64, i64)> {
    let last = curve.len() - 1;
    let bend = |k: usize| k == 0 || k == last || curve[k - 1] + curve[k + 1] != 2 * curve[k];
    (0..=last).filter(|&k| bend(k)).map(|k| (least + k as u64, curve[k])).collect()
}

/// The lanes with their amounts and ceilings, what each source has still to send and each terminal to get, and a label for
/// each node: the sources, then the terminals.
struct Network {
    m: usize,
    n: usize,
    costs: Vec<i64>,
    ceilings: Vec<u64>,
    /// what a lane carries at least
    floors: Vec<u64>,
    amounts: Vec<u64>,
    left: Vec<u64>,
    wanted: Vec<u64>,
    label: Vec<i64>,
    previous: Vec<usize>,
}

const NONE: usize = usize::MAX;

impl Network {
    /// No amounts, with all of split y to be sent.
    fn empty(lent: &Lent, y: u64) -> Network {
        let (m, n) = (lent.m, lent.n);
        let (d, _, _) = splits(lent);
        let mut left = lent.supplies.clone();
        left[0] = y;
        left[1] = d - y;
        Network {
            m,
            n,
            costs: lent.costs.clone(),
            ceilings: lent.ceilings.clone(),
            floors: vec![0; m * n],
            amounts: vec![0; m * n],
            left,
            wanted: lent.demands.clone(),
            label: vec![0; m + n],
            previous: vec![NONE; m + n],
        }
    }

    /// Plant 1 has one drum more to send and plant 2 one less: one not yet sent, or one on its way to some terminal.
    fn shift_one(&mut self) {
        self.left[0] += 1;
        if self.left[1] > 0 {
            self.left[1] -= 1;
            return;
        }
        let j = (0..self.n).find(|&j| self.amounts[self.n + j] > 0).expect("plant 2 makes a drum");
        self.amounts[self.n + j] -= 1;
        self.wanted[j] += 1;
    }

    /// Sends what is left along any paths, as far as they go; answers whether all was sent.
    fn deliver(&mut self) -> bool {
        while let Some(terminal) = self.path_to_room() {
            let arcs = self.arcs_to(self.m + terminal, |v| self.previous[v] == NONE);
            let start = arcs.last().expect("an arc").0;
            let width = self.width(&arcs).min(self.left[start]).min(self.wanted[terminal]);
            self.carry(&arcs, width);
            self.left[start] -= width;
            self.wanted[terminal] -= width;
        }
        self.left.iter().all(|&drums| drums == 0)
    }

    /// A terminal with room that a source with drums has a path to, breadth first; the path is in `previous`.
    fn path_to_room(&mut self) -> Option<usize> {
        let (m, n) = (self.m, self.n);
        let mut queue: Vec<usize> = (0..m).filter(|&i| self.left[i] > 0).collect();
        let mut seen = vec![false; m + n];
        queue.iter().for_each(|&i| seen[i] = true);
        self.previous.fill(NONE);
        let mut next = 0;
        while next < queue.len() {
            let v = queue[next];
            next += 1;
            let others = if v < m { m..m + n } else { 0..m };
            for w in others {
                if seen[w] || self.residual(v, w) == 0 {
                    continue;
                }
                seen[w] = true;
                self.previous[w] = v;
                if w >= m && self.wanted[w - m] > 0 {
                    return Some(w - m);
                }
                queue.push(w);
            }
        }
        None
    }

    /// What the arc from v to w can carry: what a lane has room for, or what it carries above its floor, backwards.
    fn residual(&self, v: usize, w: usize) -> u64 {
        if v < self.m {
            let k = v * self.n + (w - self.m);
            self.ceilings[k] - self.amounts[k]
        } else {
            let k = w * self.n + (v - self.m);
            self.amounts[k] - self.floors[k]
        }
    }

    /// The arcs of previous nodes that lead to `node`, the last one first, until `end` says of the node that they start at.
    fn arcs_to(&self, node: usize, end: impl Fn(usize) -> bool) -> Vec<(usize, usize)> {
        let mut arcs = vec![(self.previous[node], node)];
        while !end(arcs[arcs.len() - 1].0) {
            let v = arcs[arcs.len() - 1].0;
            arcs.push((self.previous[v], v));
        }
        arcs
    }

    fn width(&self, arcs: &[(usize, usize)]) -> u64 {
        arcs.iter().map(|&(v, w)| self.residual(v, w)).min().expect("an arc")
    }

    fn carry(&mut self, arcs: &[(usize, usize)], drums: u64) {
        for &(v, w) in arcs {
            if v < self.m {
                self.amounts[v * self.n + (w - self.m)] += drums;
            } else {
                self.amounts[w * self.n + (v - self.m)] -= drums;
            }
        }
    }

    /// Cancels negative cycles until there is none.
    fn cheapen(&mut self) {
        self.previous.fill(NONE);
        while self.pass() {
            if let Some(node) = self.on_cycle() {
                self.cancel(node);
                self.previous.fill(NONE);
            }
        }
    }

    /// From a cheapest plan to the one of those as cheap that has the smaller amount at the first lane, in row order, where it
    /// differs from another. A cycle's cost is a whole number: doubled, it outweighs 1 on a lane.
    fn settle(&mut self) {
        self.costs.iter_mut().for_each(|c| *c *= 2);
        self.label.iter_mut().for_each(|d| *d *= 2);
        for k in 0..self.amounts.len() {
            if self.amounts[k] > 0 {
                self.costs[k] += 1;
                self.cheapen();
            }
            self.floors[k] = self.amounts[k];
            self.ceilings[k] = self.amounts[k];
        }
    }

    /// Lowers labels along each arc once; answers whether one fell. Where none falls, no cycle is negative.
    fn pass(&mut self) -> bool {
        let (m, n) = (self.m, self.n);
        let mut fell = false;
        for i in 0..m {
            for j in 0..n {
                let k = i * n + j;
                let there = self.label[i] + self.costs[k];
                if self.amounts[k] < self.ceilings[k] && there < self.label[m + j] {
                    self.label[m + j] = there;
                    self.previous[m + j] = i;
                    fell = true;
                }
                let back = self.label[m + j] - self.costs[k];
                if self.amounts[k] > self.floors[k] && back < self.label[i] {
                    self.label[i] = back;
                    self.previous[i] = m + j;
                    fell = true;
                }
            }
        }
        fell
    }

    /// A node on a cycle of previous nodes, if there is one. Such a cycle has negative cost.
    fn on_cycle(&self) -> Option<usize> {
        let nodes = self.m + self.n;
        let mut seen = vec![NONE; nodes];
        for start in 0..nodes {
            let mut v = start;
            while v != NONE && seen[v] == NONE {
                seen[v] = start;
                v = self.previous[v];
            }
            if v != NONE && seen[v] == start {
                return Some(v);
            }
        }
        None
    }

    /// Sends as many drums as fit around the cycle through `node`.
    fn cancel(&mut self, node: usize) {
        let arcs = self.arcs_to(node, |v| v == node);
        let width = self.width(&arcs);
        assert!(width > 0, "a cycle of open arcs");
        self.carry(&arcs, width);
    }
}

/// f at split y by listing every plan within the ceilings, if there is one, and the first plan of that freight in the listing,
/// which rises lane by lane: for tiny cases, to test the referee itself.
pub fn listed(lent: &Lent, y: u64) -> Option<(i64, Vec<u64>)> {
    let (d, _, _) = splits(lent);
    let mut rows = lent.supplies.clone();
    rows[0] = y;
    rows[1] = d - y;
    let mut first = None;
    fill(lent, &rows, &mut lent.demands.clone(), &mut Vec::new(), rows[0], &mut first);
    first
}

/// Lists the amounts of the lanes behind those in `plan`, with `left` still to leave the lane's source.
fn fill(
    lent: &Lent,
    rows: &[u64],
    wanted: &mut [u64],
    plan: &mut Vec<u64>,
    left: u64,
    first: &mut Option<(i64, Vec<u64>)>,
) {
    let k = plan.len();
    let (i, j) = (k / lent.n, k % lent.n);
    if i == lent.m {
        let cost = freight(lent, plan);
        if wanted.iter().all(|&w| w == 0) && first.as_ref().is_none_or(|f| cost < f.0) {
            *first = Some((cost, plan.clone()));
        }
        return;
    }
    let last = j + 1 == lent.n;
    for x in if last { left } else { 0 }..=left {
        if x > wanted[j] || x > lent.ceilings[k] {
            break;
        }
        wanted[j] -= x;
        plan.push(x);
        let next = if last { rows.get(i + 1).copied().unwrap_or(0) } else { left - x };
        fill(lent, rows, wanted, plan, next, first);
        plan.pop();
        wanted[j] += x;
    }
}
