//! Every refusal by spoiled cases, their order where a case is spoiled twice, and slices too short by one.

mod common;

use common::random::{accepted, Limits, Random};
use common::{expect_referee, expect_refusal, referee, untouched, untouched_signed, Lent};

const SMALL: Limits = Limits { sources: (2, 6), terminals: (1, 8), amount: 12 };

/// The numbers of the tests, in their order.
const ORDER: [u64; 13] = [1, 2, 3, 4, 23, 5, 26, 6, 7, 8, 27, 9, 11];

/// How often each of `ORDER` was seen, and how many cases were planned.
struct Seen([usize; ORDER.len() + 1]);

impl Seen {
    fn new() -> Seen {
        Seen([0; ORDER.len() + 1])
    }

    fn add(&mut self, number: u64) {
        self.0[ORDER.iter().position(|&k| k == number).map_or(0, |k| k + 1)] += 1;
    }

    /// Prints the counts; each number was seen at least so often.
    fn told(&self, name: &str, at_least: usize) {
        assert!(self.0[1..].iter().all(|&k| k >= at_least), "{name}: {ORDER:?} {:?}", self.0);
        println!("{name}: planned {}, refused by {ORDER:?} {:?}", self.0[0], &self.0[1..]);
    }
}

/// One cell less, one more, or none.
fn resize<T: Default>(slice: &mut Vec<T>, how: usize) {
    match how {
        0 => slice.truncate(slice.len().saturating_sub(1)),
        1 => slice.push(T::default()),
        _ => slice.clear(),
    }
}

/// Spoils the case so that test `number` fails; answers false where this case has no such fault.
fn spoil(random: &mut Random, lent: &mut Lent, number: u64) -> bool {
    let Lent { m, n, .. } = *lent;
    let (d, ..) = referee::splits(lent);
    match number {
        1 => lent.m = [0, 1, 33, 64, usize::MAX, 1 << 63][random.size(0, 5)],
        2 => lent.n = [0, 65, 66, usize::MAX, 1 << 58, 1 << 63][random.size(0, 5)],
        3 => {
            let length = random.size(0, 2);
            match random.within(0, 2) {
                0 => resize(&mut lent.costs, length),
                1 => resize(&mut lent.supplies, length),
                _ => resize(&mut lent.demands, length),
            }
        }
        4 => {
            let k = random.size(0, m + n - 1);
            let amount = [4_001, 1 << 32, u64::MAX][random.size(0, 2)];
            *if k < m { &mut lent.supplies[k] } else { &mut lent.demands[k - m] } = amount;
        }
        23 => {
            let beyond = |random: &mut Random, supply: u64| [supply + 1, 4_001, 1 << 32, u64::MAX][random.size(0, 3)];
            let which = random.within(1, 3);
            if which != 2 {
                lent.run1 = beyond(random, lent.supplies[0]);
            }
            if which != 1 {
                lent.run2 = beyond(random, lent.supplies[1]);
            }
        }
        5 => {
            let k = random.size(0, m * n - 1);
            let beyond = [1_000_001, 1 << 32, i64::MAX, -1_000_001, -(1 << 32), i64::MIN];
            lent.costs[k] = beyond[random.size(0, 5)];
        }
        26 if random.within(0, 1) == 0 => resize(&mut lent.ceilings, random.size(0, 2)),
        26 => {
            let k = random.size(0, m * n - 1);
            lent.ceilings[k] = [4_001, 1 << 32, u64::MAX][random.size(0, 2)];
        }
        6 => resize(&mut lent.table, random.size(0, 2)),
        7 if random.within(0, 1) == 0 => {
            // the last depot gets so much that what is left to the plants is one less than their runs
            let more = d + 1 - lent.run1 - lent.run2;
            if m == 2 || lent.supplies[m - 1] + more > 4_000 {
                return false;
            }
            lent.supplies[m - 1] += more;
        }
        7 => {
            // runs within the supplies, one more than d together
            let (first, second) = (lent.supplies[0], lent.supplies[1]);
            if first + second <= d {
                return false;
            }
            lent.run1 = random.within((d + 1).saturating_sub(second), first.min(d + 1));
            lent.run2 = d + 1 - lent.run1;
        }
        8 => {
            let short = lent.supplies[0] + lent.supplies[1] + 1 - d;
            let Some(demand) = lent.demands.iter_mut().find(|b| **b + short <= 4_000) else { return false };
            *demand += short;
        }
        27 => return squeeze(random, lent),
        9 => {
            let Some((l, u)) = referee::range(lent) else { return false };
            lent.table[random.within(l, u) as usize] = [1_000_000_001, u64::MAX / 2, u64::MAX][random.size(0, 2)];
        }
        _ => {
            let Some((l, u)) = referee::range(lent) else { return false };
            match random.within(0, 2) {
                0 => lent.plan_cells = m * n - 1,
                1 => lent.split_cells = (u - l) as usize,
                _ => lent.freight_cells = (u - l) as usize,
            }
        }
    }
    true
}

/// Narrows the lanes of a terminal, a depot or a plant with a least run until they carry one drum too few.
fn squeeze(random: &mut Random, lent: &mut Lent) -> bool {
    let Lent { m, n, .. } = *lent;
    let (lanes, due): (Vec<usize>, u64) = match random.within(0, 2) {
        0 => {
            let j = random.size(0, n - 1);
            ((0..m).map(|i| i * n + j).collect(), lent.demands[j])
        }
        1 if m > 2 => {
            let i = random.size(2, m - 1);
            ((i * n..(i + 1) * n).collect(), lent.supplies[i])
        }
        _ => {
            let i = random.size(0, 1);
            ((i * n..(i + 1) * n).collect(), [lent.run1, lent.run2][i])
        }
    };
    if due == 0 {
        return false;
    }
    let mut left = due - 1;
    for k in lanes {
        lent.ceilings[k] = lent.ceilings[k].min(left);
        left -= lent.ceilings[k];
    }
    true
}

#[test]
fn each_refusal() {
    let mut random = Random::new(1);
    let mut seen = Seen::new();
    for round in 0..400 * ORDER.len() {
        let number = ORDER[round % ORDER.len()];
        let (mut lent, _, _) = accepted(&mut random, SMALL);
        if spoil(&mut random, &mut lent, number) {
            assert_eq!(expect_referee(&lent), number, "{lent:?}");
            seen.add(number);
        }
    }
    seen.told("one fault", 100);
}

/// Two faults: the earlier test wins, except where the first fault made the second one void.
#[test]
fn order_of_refusals() {
    let mut random = Random::new(2);
    let mut seen = Seen::new();
    let tests = ORDER.len();
    let balance = ORDER.iter().position(|&k| k == 8).unwrap();
    for round in 0..100 * tests * tests {
        let (one, other) = (round % tests, round / tests % tests);
        let (mut lent, _, _) = accepted(&mut random, SMALL);
        // the later first: the faults of earlier tests break what the others are placed by
        spoil(&mut random, &mut lent, ORDER[one.max(other)]);
        // an earlier fault is placed by the form of the case, which faults up to the balance may have broken
        let whole = referee::refusal(&lent).is_none_or(|r| !ORDER[..=balance].contains(&r.0));
        if one != other && whole {
            spoil(&mut random, &mut lent, ORDER[one.min(other)]);
        }
        seen.add(expect_referee(&lent));
    }
    seen.told("two faults", 50);
}

/// Any numbers and any lengths: the referee and the planner agree on each, and nothing else is written.
#[test]
fn anything_at_all() {
    let mut random = Random::new(3);
    let mut seen = Seen::new();
    for _ in 0..10_000 {
        let odd = |random: &mut Random, most: u64| match random.within(0, 9) {
            0 => random.next(),
            1 => most + 1,
            2 => most,
            _ => random.within(0, most.min(6)),
        };
        let m = if random.within(0, 9) == 0 { random.next() as usize } else { random.size(1, 4) };
        let n = if random.within(0, 9) == 0 { random.next() as usize } else { random.size(0, 3) };
        let length =
            |random: &mut Random, due: usize| if random.within(0, 9) == 0 { random.size(0, 9) } else { due.min(99) };
        let list = |random: &mut Random, due: usize, most: u64, mild: bool| -> Vec<u64> {
            let k = length(random, due);
            (0..k).map(|_| if mild { random.within(0, 6) } else { odd(random, most) }).collect()
        };
        let mild = random.within(0, 3) > 0;
        let costs = list(&mut random, m.saturating_mul(n), 1_000_000, mild);
        let costs: Vec<i64> = costs.into_iter().map(|c| (c as i64).wrapping_mul(1 - 2 * random.signed(0, 1))).collect();
        let supplies = list(&mut random, m, 4_000, mild);
        let demands = list(&mut random, n, 4_000, mild);
        let mut ceilings = list(&mut random, m.saturating_mul(n), 4_000, mild);
        if random.within(0, 1) == 0 {
            ceilings.fill(4_000);
        }
        let entries = supplies.first().map_or(0, |a| (*a).min(4_000) as usize + 1);
        let table = list(&mut random, entries, 1_000_000_000, mild);
        let mut lent = Lent { ceilings, ..Lent::new(m, n, &costs, &supplies, &demands, &table) };
        if random.within(0, 1) == 0 {
            lent.run1 = odd(&mut random, 2);
            lent.run2 = odd(&mut random, 2);
        }
        lent.plan_cells = random.size(0, 12);
        lent.split_cells = random.size(0, 12);
        lent.freight_cells = random.size(0, 12);
        seen.add(expect_referee(&lent));
    }
    seen.told("anything", 1);
}

/// A place is the lowest where several fail.
#[test]
fn lowest_place() {
    let mut lent = Lent::a();
    lent.supplies[2] = 5_000;
    lent.demands[0] = 5_000;
    expect_refusal(&lent, 4, 3);
    lent.supplies[2] = 1;
    expect_refusal(&lent, 4, 4);
    let mut lent = Lent::a();
    lent.costs[5] = 1_000_001;
    lent.costs[3] = i64::MIN;
    expect_refusal(&lent, 5, 4);
    lent.costs[1] = i64::MAX;
    expect_refusal(&lent, 5, 2);
    let mut lent = Lent { run1: 4, run2: u64::MAX, ..Lent::a() };
    expect_refusal(&lent, 23, 1);
    lent.run1 = 3;
    expect_refusal(&lent, 23, 2);
    lent.costs[0] = 1_000_001;
    expect_refusal(&lent, 23, 2);
    lent.demands[1] = 4_001;
    expect_refusal(&lent, 4, 5);
    let mut lent = Lent::a();
    lent.ceilings = vec![4_000, 4_000, 4_001, 0, u64::MAX, 0];
    expect_refusal(&lent, 26, 3);
    lent.ceilings.push(0);
    expect_refusal(&lent, 26, 0);
    lent.table.clear();
    expect_refusal(&lent, 26, 0);
    lent.costs[5] = -1_000_001;
    expect_refusal(&lent, 5, 6);
    let mut lent = Lent::a();
    lent.table = vec![u64::MAX, 20, 1_000_000_001, 1_000_000_001];
    expect_refusal(&lent, 9, 2);
}

/// The examples of the paper's table of refusals.
#[test]
fn examples() {
    let a = Lent::a;
    expect_refusal(&Lent { m: 1, ..a() }, 1, 0);
    expect_refusal(&Lent { n: 0, ..a() }, 2, 0);
    expect_refusal(&Lent { costs: vec![2, 6, 5, 3, 1], ..a() }, 3, 0);
    expect_refusal(&Lent { supplies: vec![4_001, 3, 1], ..a() }, 4, 1);
    expect_refusal(&Lent { costs: vec![1_000_001, 6, 5, 3, 1, 4], ..a() }, 5, 1);
    expect_refusal(&Lent { costs: vec![-1_000_001, 6, 5, 3, 1, 4], ..a() }, 5, 1);
    expect_refusal(&Lent { table: vec![99, 20, 24], ..a() }, 6, 0);
    expect_refusal(&Lent { supplies: vec![3, 3, 6], ..a() }, 7, 0);
    expect_refusal(&Lent { run1: 2, run2: 3, ..a() }, 7, 0);
    expect_refusal(&Lent { supplies: vec![1, 2, 1], table: vec![99, 20], ..a() }, 8, 0);
    expect_refusal(&Lent { table: vec![99, 20, 1_000_000_001, 20], ..a() }, 9, 2);
    expect_refusal(&Lent { ceilings: vec![4_000; 5], ..a() }, 26, 0);
    expect_refusal(&Lent { ceilings: vec![4_000, 4_000, 4_000, 4_000, 4_000, 4_001], ..a() }, 26, 6);
    expect_refusal(&Lent { ceilings: vec![4_000, 4_000, 4_000, 4_000, 0, 0], ..a() }, 27, 0);
    expect_refusal(&Lent { plan_cells: 5, ..a() }, 11, 0);
}

/// A report or a worth of fewer than two cells is answered by a number of its own; nothing is written, whatever the case.
#[test]
fn short_report() {
    for (report, worth) in [(0, 2), (1, 2), (2, 0), (2, 1), (0, 0), (1, 1), (0, 5), (5, 1)] {
        for lent in [Lent::a(), Lent { m: 1, ..Lent::a() }, Lent { plan_cells: 5, ..Lent::a() }] {
            let answer = lent.call_with_report(report, worth);
            assert_eq!(answer.number, yadvorkhul::SHORT_REPORT);
            assert_eq!(answer.report, untouched(4, report));
            assert_eq!(answer.worth, untouched_signed(5, worth));
            assert_eq!(answer.plan, untouched(1, lent.plan_cells));
            assert_eq!(answer.splits, untouched(2, lent.split_cells));
            assert_eq!(answer.freights, untouched_signed(3, lent.freight_cells));
        }
    }
    let answer = Lent::a().call_with_report(2, 2);
    assert_eq!((answer.report, answer.worth), (vec![3, 3], vec![33, 13]));
}

/// Each lent slice exactly long enough is accepted; one cell less is refused, and nothing is written.
#[test]
fn short_by_one() {
    let mut random = Random::new(4);
    for _ in 0..500 {
        let (mut lent, least, curve) = accepted(&mut random, SMALL);
        lent.plan_cells = lent.m * lent.n;
        lent.split_cells = curve.len();
        lent.freight_cells = curve.len();
        common::expect_plan(&lent, least, &curve);
        for k in 0..3 {
            let mut short = lent.clone();
            let cells = [&mut short.plan_cells, &mut short.split_cells, &mut short.freight_cells];
            *cells.into_iter().nth(k).unwrap() -= 1;
            expect_refusal(&short, 11, 0);
        }
        let shortened = |change: fn(&mut Lent)| {
            let mut short = lent.clone();
            change(&mut short);
            short
        };
        expect_refusal(&shortened(|lent| resize(&mut lent.costs, 0)), 3, 0);
        expect_refusal(&shortened(|lent| resize(&mut lent.supplies, 0)), 3, 0);
        expect_refusal(&shortened(|lent| resize(&mut lent.demands, 0)), 3, 0);
        expect_refusal(&shortened(|lent| resize(&mut lent.ceilings, 0)), 26, 0);
        expect_refusal(&shortened(|lent| resize(&mut lent.table, 0)), 6, 0);
    }
}
