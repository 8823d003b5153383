//! The planner against the independent referee on random cases of all sizes.
//!
//! YADVORKHUL_CASES multiplies the counts.

mod common;

use common::random::{accepted, balanced, Limits, Random};
use common::{expect_plan, expect_referee, referee, Lent};

fn against_referee(name: &str, seed: u64, count: usize, limits: Limits) {
    let times = std::env::var("YADVORKHUL_CASES").ok().and_then(|t| t.parse().ok()).unwrap_or(1);
    let mut random = Random::new(seed);
    let (mut splits, mut stops, mut lanes) = (0, 0, 0);
    for _ in 0..count * times {
        let (lent, least, curve) = accepted(&mut random, limits);
        expect_plan(&lent, least, &curve);
        splits += curve.len();
        stops += referee::stops(least, &curve).len();
        lanes += lent.m * lent.n;
    }
    println!("{name}: {} cases, {splits} splits, {stops} stops, {lanes} lanes agree", count * times);
}

#[test]
fn tiny() {
    against_referee("tiny", 11, 16_000, Limits { sources: (2, 4), terminals: (1, 4), amount: 6 });
}

#[test]
fn small() {
    against_referee("small", 12, 6_000, Limits { sources: (2, 8), terminals: (1, 12), amount: 40 });
}

#[test]
fn medium() {
    against_referee("medium", 13, 2_000, Limits { sources: (2, 16), terminals: (1, 32), amount: 300 });
}

#[test]
fn any_size() {
    against_referee("any size", 14, 600, Limits { sources: (2, 32), terminals: (1, 64), amount: 4_000 });
}

#[test]
fn largest() {
    against_referee("largest", 15, 60, Limits { sources: (32, 32), terminals: (64, 64), amount: 4_000 });
}

#[test]
fn two_plants_no_depot() {
    against_referee("no depot", 16, 500, Limits { sources: (2, 2), terminals: (1, 64), amount: 200 });
}

#[test]
fn one_terminal() {
    against_referee("one terminal", 17, 500, Limits { sources: (2, 32), terminals: (1, 1), amount: 200 });
}

/// Few unit costs, so that most cases have many cheapest plans.
#[test]
fn ties() {
    let mut random = Random::new(20);
    for round in 0..3_000 {
        let small = Limits { sources: (2, 5), terminals: (1, 6), amount: 9 };
        let large = Limits { sources: (2, 32), terminals: (1, 64), amount: 400 };
        let (mut lent, ..) = accepted(&mut random, if round % 10 > 0 { small } else { large });
        let most = random.signed(0, 2);
        lent.costs.iter_mut().for_each(|c| *c = random.signed(0, most));
        lent.table.fill(random.within(0, 9));
        assert_eq!(expect_referee(&lent), 0);
    }
}

/// Ceilings drawn without a plan in mind: a plan is given or refused as the referee says.
#[test]
fn any_ceilings() {
    let mut random = Random::new(19);
    let mut refused = 0;
    for round in 0..6_000 {
        let small = Limits { sources: (2, 4), terminals: (1, 4), amount: 6 };
        let large = Limits { sources: (2, 12), terminals: (1, 16), amount: 100 };
        let lent = balanced(&mut random, if round % 3 > 0 { small } else { large });
        let number = expect_referee(&lent);
        assert!(number == 0 || number == 27, "{number}; {lent:?}");
        refused += usize::from(number == 27);
    }
    assert!((500..5_500).contains(&refused), "{refused} of 6,000");
    println!("any ceilings: {refused} of 6,000 have no plan");
}

/// The referee itself, against a listing of all plans of tiny cases at each split within the supplies and the least runs.
#[test]
fn referee_against_listing() {
    let mut random = Random::new(18);
    let limits = Limits { sources: (2, 3), terminals: (1, 3), amount: 4 };
    for _ in 0..2_000 {
        let (lent, least, curve) = accepted(&mut random, limits);
        against_listing(&lent, least, &curve);
        let lent = balanced(&mut random, limits);
        match referee::range(&lent) {
            Some((least, _)) => against_listing(&lent, least, &referee::curve(&lent).1),
            None => against_listing(&lent, 0, &[]),
        }
    }
}

fn against_listing(lent: &Lent, least: u64, curve: &[i64]) {
    let (_, l, u) = referee::splits(lent);
    for y in l..=u {
        let f = y.checked_sub(least).and_then(|k| curve.get(k as usize));
        let listed = referee::listed(lent, y);
        assert_eq!(listed.as_ref().map(|l| &l.0), f, "split {y}; {lent:?}");
        if let Some((_, plan)) = listed {
            assert_eq!(referee::foremost(lent, y), plan, "the plan due at split {y}; {lent:?}");
        }
    }
}
