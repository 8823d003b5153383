//! Which splits can be the cheapest, against the referee's freight curve and, where there are few, every table between the bounds.

mod common;

use common::random::{accepted, Limits, Random};
use common::{referee, Lent};
use yadvorkhul::bounds_into;

/// What is answered, with 7 in every lent cell before.
fn call(lent: &Lent, high: &[u64], cells: usize) -> (u64, Vec<u64>, [u64; 3], [i64; 3]) {
    let (mut answers, mut report, mut worth) = (vec![7; cells], [7; 3], [7; 3]);
    let number = bounds_into(
        lent.m,
        lent.n,
        lent.run1,
        lent.run2,
        &lent.costs,
        &lent.supplies,
        &lent.demands,
        &lent.ceilings,
        &lent.table,
        high,
        &mut answers,
        &mut report,
        &mut worth,
    );
    (number, answers, report, worth)
}

fn refused(lent: &Lent, high: &[u64], cells: usize, number: u64, place: u64) {
    assert_eq!(call(lent, high, cells), (number, vec![7; cells], [place, 7, 7], [7; 3]));
}

/// The case with the largest low entry at each split drawn again, so that the high one may be up to 2 above.
fn low_enough(lent: &mut Lent) {
    for entry in &mut lent.table {
        *entry = (*entry).min(999_999_998);
    }
}

/// Every table between the bounds at the splits: which splits are the cheapest with one, and the least totals.
fn by_tables(least: u64, curve: &[i64], low: &[u64], high: &[u64]) -> (Vec<u64>, i64, i64) {
    let at = |k: usize| (least + k as u64) as usize;
    let mut entries: Vec<u64> = (0..curve.len()).map(|k| low[at(k)]).collect();
    let (mut marks, mut smallest, mut largest) = (vec![0; curve.len()], i64::MAX, i64::MIN);
    loop {
        let totals: Vec<i64> = curve.iter().zip(&entries).map(|(f, &e)| f + e as i64).collect();
        let best = *totals.iter().min().unwrap();
        for (mark, &total) in marks.iter_mut().zip(&totals) {
            if total == best {
                *mark = 1;
            }
        }
        (smallest, largest) = (smallest.min(best), largest.max(best));
        match (0..curve.len()).find(|&k| entries[k] < high[at(k)]) {
            None => return (marks, smallest, largest),
            Some(k) => {
                entries[k] += 1;
                for j in 0..k {
                    entries[j] = low[at(j)];
                }
            }
        }
    }
}

fn held(lent: &Lent, high: &[u64], least: u64, marks: &[u64], smallest: i64, largest: i64) {
    let mut cells = marks.to_vec();
    cells.extend([7, 7]);
    let count = marks.len();
    assert_eq!(call(lent, high, count + 2), (0, cells, [least, count as u64, 7], [smallest, largest, 7]));
    refused(lent, high, count - 1, 11, 0);
}

#[test]
fn case_a() {
    let a = Lent::a();
    held(&a, &[99, 20, 24, 21], 1, &[1, 0, 1], 33, 34);
    held(&a, &[0, 20, 24, 20], 1, &[0, 0, 1], 33, 33);
    refused(&a, &[99, 20, 24], 3, 28, 0);
    refused(&a, &[99, 20, 23, 19], 3, 28, 2);
    refused(&a, &[99, 20, 24, 1_000_000_001], 0, 28, 3);
    refused(&Lent { table: vec![99, 20, 1_000_000_001, 20], ..Lent::a() }, &[99, 10, 0, 0], 3, 9, 2);
    refused(&Lent { table: vec![99, 20, 24], ..Lent::a() }, &[99, 10, 24], 3, 6, 0);
}

#[test]
fn all_tables() {
    let mut random = Random::new(209);
    let mut tables = 0;
    for _ in 0..3_000 {
        let (mut lent, least, curve) = accepted(&mut random, Limits { sources: (2, 4), terminals: (1, 4), amount: 6 });
        low_enough(&mut lent);
        let high: Vec<u64> = lent.table.iter().map(|e| e + random.within(0, 2)).collect();
        let (marks, smallest, largest) = by_tables(least, &curve, &lent.table, &high);
        held(&lent, &high, least, &marks, smallest, largest);
        tables += 1;
    }
    println!("{tables} cases agree with all tables");
}

/// One comparison with the least of f + high says the same.
#[test]
fn any_size() {
    let mut random = Random::new(210);
    for _ in 0..300 {
        let (mut lent, least, curve) = accepted(&mut random, Limits { sources: (2, 32), terminals: (1, 64), amount: 4_000 });
        low_enough(&mut lent);
        let width = [0, 2, 1_000, 1_000_000][random.size(0, 3)];
        let high: Vec<u64> = lent.table.iter().map(|&e| (e + random.within(0, width)).min(1_000_000_000)).collect();
        let totals = |table: &[u64]| -> Vec<i64> { (0..curve.len()).map(|k| curve[k] + table[least as usize + k] as i64).collect() };
        let (lows, highs) = (totals(&lent.table), totals(&high));
        let (smallest, largest) = (*lows.iter().min().unwrap(), *highs.iter().min().unwrap());
        let marks: Vec<u64> = lows.iter().map(|&total| (total <= largest) as u64).collect();
        held(&lent, &high, least, &marks, smallest, largest);
    }
    assert_eq!(referee::curve(&Lent::a()), (1, vec![14, 11, 13]));
}
