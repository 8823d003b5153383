//! Random cases, repeatable.

use super::{referee, Lent};

/// SplitMix64.
pub struct Random(u64);

impl Random {
    pub fn new(seed: u64) -> Random {
        Random(seed)
    }

    pub fn next(&mut self) -> u64 {
        self.0 = self.0.wrapping_add(0x9E37_79B9_7F4A_7C15);
        let mut z = self.0;
        z = (z ^ (z >> 30)).wrapping_mul(0xBF58_476D_1CE4_E5B9);
        z = (z ^ (z >> 27)).wrapping_mul(0x94D0_49BB_1331_11EB);
        z ^ (z >> 31)
    }

    /// From `low` to `high`, both included.
    pub fn within(&mut self, low: u64, high: u64) -> u64 {
        low + self.next() % (high - low + 1)
    }

    pub fn signed(&mut self, low: i64, high: i64) -> i64 {
        low + self.within(0, (high - low) as u64) as i64
    }

    pub fn size(&mut self, low: usize, high: usize) -> usize {
        self.within(low as u64, high as u64) as usize
    }
}

/// Limits of the cases to be drawn.
#[derive(Clone, Copy)]
pub struct Limits {
    pub sources: (usize, usize),
    pub terminals: (usize, usize),
    pub amount: u64,
}

/// A case that is accepted. With it ℓ and f at each split, by the referee.
pub fn accepted(random: &mut Random, limits: Limits) -> (Lent, u64, Vec<i64>) {
    let m = random.size(limits.sources.0, limits.sources.1);
    let n = random.size(limits.terminals.0, limits.terminals.1);
    let costs = costs(random, m, n);
    let (supplies, demands) = amounts(random, m, n, limits.amount);
    let blank = vec![0; supplies[0] as usize + 1];
    let mut lent = Lent::new(m, n, &costs, &supplies, &demands, &blank);
    (lent.run1, lent.run2) = runs(random, &lent);
    lent.ceilings = ceilings(random, &lent);
    let (least, curve) = referee::curve(&lent);
    lent.table = table(random, &lent, least, &curve);
    lent.plan_cells = m * n + random.size(0, 2);
    lent.split_cells = curve.len() + random.size(0, 2);
    lent.freight_cells = curve.len() + random.size(0, 2);
    (lent, least, curve)
}

/// A case that passes tests 1 to 8, with ceilings that may leave it no plan.
pub fn balanced(random: &mut Random, limits: Limits) -> Lent {
    let (mut lent, _, _) = accepted(random, limits);
    let most = limits.amount.max(1);
    let high = random.within(1, most);
    lent.ceilings.iter_mut().for_each(|u| *u = if random.within(0, 3) == 0 { 0 } else { random.within(0, high) });
    lent.table.fill(0);
    lent.split_cells = lent.table.len();
    lent.freight_cells = lent.table.len();
    lent
}

/// Ceilings of one of seven kinds that leave the case some plan at least: the one that they are drawn around.
fn ceilings(random: &mut Random, lent: &Lent) -> Vec<u64> {
    let kind = random.within(0, 9);
    if kind <= 2 {
        return vec![4_000; lent.costs.len()];
    }
    let plan = any_plan(random, lent);
    let most = *plan.iter().max().expect("a lane");
    let slack = random.within(0, (most / 2).max(1));
    plan.iter()
        .map(|&x| match kind {
            // this plan alone
            3 => x,
            // a drum more or none
            4 => x + random.within(0, 1),
            // some room everywhere
            5 => x + random.within(0, slack),
            // half of the idle lanes closed, the others free
            6 if x == 0 && random.within(0, 1) == 0 => 0,
            6 => 4_000,
            // one lane in four narrow
            7 if random.within(0, 3) == 0 => x + random.within(0, 1),
            7 => 4_000,
            // all as wide as the widest needed
            8 => most,
            // anything
            _ => random.within(x, 4_000),
        })
        .map(|u| u.min(4_000))
        .collect()
}

/// Some plan within the runs: random amounts on lanes in a random order, and then all that is left.
fn any_plan(random: &mut Random, lent: &Lent) -> Vec<u64> {
    let (d, l, u) = referee::splits(lent);
    let y = random.within(l, u);
    let mut left = lent.supplies.clone();
    left[0] = y;
    left[1] = d - y;
    let mut wanted = lent.demands.clone();
    let mut lanes: Vec<usize> = (0..lent.costs.len()).collect();
    for k in (1..lanes.len()).rev() {
        lanes.swap(k, random.size(0, k));
    }
    let mut plan = vec![0; lanes.len()];
    let spread = random.within(0, 2);
    for pass in 0..2 {
        for &k in &lanes {
            let (i, j) = (k / lent.n, k % lent.n);
            let room = left[i].min(wanted[j]);
            let x = if pass == 0 && spread > 0 { random.within(0, room) / spread } else { room };
            plan[k] += x;
            left[i] -= x;
            wanted[j] -= x;
        }
    }
    plan
}

/// Unit costs of one of ten kinds: of all sizes and both signs.
fn costs(random: &mut Random, m: usize, n: usize) -> Vec<i64> {
    let kind = random.within(0, 9);
    let mut each = |low: i64, high: i64| (0..m * n).map(|_| random.signed(low, high)).collect();
    match kind {
        0 => each(-1_000_000, 1_000_000),
        1 => each(-9, 9),
        2 => each(-1, 1),
        3 => each(0, 9),
        4 => each(-1_000_000, -999_980),
        5 => each(999_980, 1_000_000),
        6 => {
            // the two ends of the range
            (0..m * n).map(|_| if random.within(0, 1) == 0 { -1_000_000 } else { 1_000_000 }).collect()
        }
        7 => vec![random.signed(-1_000_000, 1_000_000); m * n],
        8 => {
            // one number a source plus one a terminal: every plan is cheapest
            let source: Vec<i64> = (0..m).map(|_| random.signed(-500_000, 500_000)).collect();
            let terminal: Vec<i64> = (0..n).map(|_| random.signed(-500_000, 500_000)).collect();
            (0..m * n).map(|k| source[k / n] + terminal[k % n]).collect()
        }
        _ => {
            // distances in a plane, and on some lanes a return load that is paid for
            let mut points = |k: usize| -> Vec<(f64, f64)> {
                (0..k).map(|_| (random.within(0, 1000) as f64, random.within(0, 1000) as f64)).collect()
            };
            let (sources, terminals) = (points(m), points(n));
            (0..m * n)
                .map(|k| {
                    let (s, t) = (sources[k / n], terminals[k % n]);
                    let away = (s.0 - t.0).hypot(s.1 - t.1) as i64;
                    away - if random.within(0, 7) == 0 { random.signed(0, 2_000) } else { 0 }
                })
                .collect()
        }
    }
}

/// Supplies and demands that balance for some split, each at most `most`.
fn amounts(random: &mut Random, m: usize, n: usize, most: u64) -> (Vec<u64>, Vec<u64>) {
    // half of the cases: little in the depots and much room between the plants, so that the curve has many splits and stops
    let open = random.within(0, 1) == 0;
    let stock_most = if open { most / 16 } else { most };
    let mut left = n as u64 * most;
    let depots: Vec<u64> = (2..m)
        .map(|_| {
            let stock = random.within(0, stock_most.min(left));
            left -= stock;
            stock
        })
        .collect();
    let d =
        if open { left.min(random.within(most / 2, most + most / 2)) } else { random.within(0, left.min(2 * most)) };
    let least = if open { most - most / 8 } else { 0 };
    let first = random.within(least.max(d.saturating_sub(most)), most);
    let second = random.within(least.max(d.saturating_sub(first)), most);
    let mut demands = vec![0; n];
    let mut rest = depots.iter().sum::<u64>() + d;
    // shares at random, then what is left to the terminals with room
    let share = 2 * rest / n as u64;
    for demand in &mut demands {
        *demand = random.within(0, share.min(rest).min(most));
        rest -= *demand;
    }
    let from = random.size(0, n - 1);
    for k in 0..n {
        let demand = &mut demands[(from + k) % n];
        let more = rest.min(most - *demand);
        *demand += more;
        rest -= more;
    }
    let mut supplies = vec![first, second];
    supplies.extend(depots);
    (supplies, demands)
}

/// Least runs that leave a split: none, any, and at their limits (a plant's whole supply, or d together).
fn runs(random: &mut Random, lent: &Lent) -> (u64, u64) {
    let (d, _, _) = referee::splits(lent);
    let (first, second) = (lent.supplies[0].min(d), lent.supplies[1].min(d));
    let rest = |run: u64, supply: u64| (d - run).min(supply);
    match random.within(0, 9) {
        0..=3 => (0, 0),
        4 => (first, random.within(0, rest(first, second))),
        5 => (random.within(0, rest(second, first)), second),
        // together d: one split
        6 => {
            let run = random.within(d.saturating_sub(second), first);
            (run, d - run)
        }
        7 => (random.within(0, first), 0),
        8 => (0, random.within(0, second)),
        _ => {
            let run = random.within(0, first);
            (run, random.within(0, rest(run, second)))
        }
    }
}

/// A table of one of eight shapes from ℓ to u, and anything outside.
fn table(random: &mut Random, lent: &Lent, least: u64, curve: &[i64]) -> Vec<u64> {
    let mut table: Vec<u64> = (0..=lent.supplies[0]).map(|_| random.next()).collect();
    let entries = entries(random, curve);
    table[least as usize..][..curve.len()].copy_from_slice(&entries);
    table
}

fn entries(random: &mut Random, curve: &[i64]) -> Vec<u64> {
    let splits = curve.len();
    let highest = *curve.iter().max().expect("a split");
    let lowest = *curve.iter().min().expect("a split");
    // the entries that make all totals equal, as far as the limit lets them
    let level = |k: usize| ((highest - curve[k]) as u64).min(1_000_000_000);
    match random.within(0, 7) {
        // the smallest split is due
        0 => (0..splits).map(level).collect(),
        // all totals equal but one or two, which are less by one
        1 => {
            let mut entries: Vec<u64> = (0..splits).map(|k| (level(k) + 2).min(1_000_000_000)).collect();
            for _ in 0..random.within(1, 2) {
                entries[random.size(0, splits - 1)] -= 1;
            }
            entries
        }
        // rounded to tens, so that it misses any slope by a little
        2 => (0..splits).map(|k| level(k) / 10 * 10).collect(),
        // anything, small or large
        3 => (0..splits).map(|_| random.within(0, 9)).collect(),
        4 => (0..splits).map(|_| random.within(0, 1_000_000_000)).collect(),
        // about as much as the freight differs
        5 => {
            let most = (highest - lowest).clamp(1, 1_000_000_000) as u64;
            (0..splits).map(|_| random.within(0, most)).collect()
        }
        // steps, with a charge for each
        6 => {
            let (wide, charge) = (random.size(1, splits), random.within(0, 1_000_000));
            (0..splits).map(|k| ((k / wide) as u64 * charge).min(1_000_000_000)).collect()
        }
        // a fixed charge, and slopes that rise or fall from there
        _ => {
            let charge = random.within(0, 100_000_000);
            let most = 900_000_000 / splits as u64;
            let mut slopes: Vec<u64> = (1..splits).map(|_| random.within(0, most)).collect();
            slopes.sort_unstable();
            if random.within(0, 1) == 0 {
                slopes.reverse();
            }
            let mut entries = vec![0, charge];
            for slope in slopes {
                entries.push(entries[entries.len() - 1] + slope);
            }
            entries.truncate(splits);
            if random.within(0, 1) == 0 {
                entries.reverse();
            }
            entries
        }
    }
}
