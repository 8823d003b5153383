//! Shared by the tests: lent cases, random cases, and the independent referee.
#![allow(dead_code)]

pub mod random;
pub mod referee;

/// A case as it is lent: any m and n beside slices of any lengths, and slices to be written of any lengths.
#[derive(Clone, Debug)]
pub struct Lent {
    pub m: usize,
    pub n: usize,
    pub run1: u64,
    pub run2: u64,
    pub costs: Vec<i64>,
    pub supplies: Vec<u64>,
    pub demands: Vec<u64>,
    pub ceilings: Vec<u64>,
    pub table: Vec<u64>,
    pub plan_cells: usize,
    pub split_cells: usize,
    pub freight_cells: usize,
}

/// What a call answered, and all cells that it could have written.
#[derive(Clone, Debug, PartialEq, Eq)]
pub struct Answer {
    pub number: u64,
    pub plan: Vec<u64>,
    pub splits: Vec<u64>,
    pub freights: Vec<i64>,
    pub report: Vec<u64>,
    pub worth: Vec<i64>,
}

/// What each cell of a slice holds before the call: no amount, no split, and another value in each cell.
pub fn untouched(slice: u64, cells: usize) -> Vec<u64> {
    (0..cells as u64).map(|k| 0xA5A5_0000_0000_0000 + (slice << 32) + k).collect()
}

/// The same of a signed slice.
pub fn untouched_signed(slice: u64, cells: usize) -> Vec<i64> {
    untouched(slice, cells).into_iter().map(|k| k as i64).collect()
}

impl Lent {
    /// No least runs, ceilings of 4,000, slices that are just long enough, and stops that fit any case.
    pub fn new(m: usize, n: usize, costs: &[i64], supplies: &[u64], demands: &[u64], table: &[u64]) -> Lent {
        Lent {
            m,
            n,
            run1: 0,
            run2: 0,
            costs: costs.to_vec(),
            supplies: supplies.to_vec(),
            demands: demands.to_vec(),
            ceilings: vec![4_000; costs.len()],
            table: table.to_vec(),
            plan_cells: costs.len() + 2,
            split_cells: table.len() + 2,
            freight_cells: table.len() + 3,
        }
    }

    /// Case A of the paper.
    pub fn a() -> Lent {
        Lent::new(3, 2, &[2, 6, 5, 3, 1, 4], &[3, 3, 1], &[3, 2], &[99, 20, 24, 20])
    }

    /// The report's example (its section 4.2) with a table of zeros.
    pub fn report_example() -> Lent {
        let costs = [12, 1, 3, 4, 4, 9, 6, 2, 2, 6, 2, 10];
        Lent::new(3, 4, &costs, &[200, 200, 150], &[80, 180, 120, 70], &[0; 201])
    }

    pub fn call(&self) -> Answer {
        self.call_with_report(yadvorkhul::REPORT_CELLS + 2, yadvorkhul::WORTH_CELLS + 3)
    }

    pub fn call_with_report(&self, report_cells: usize, worth_cells: usize) -> Answer {
        let mut plan = untouched(1, self.plan_cells);
        let mut splits = untouched(2, self.split_cells);
        let mut freights = untouched_signed(3, self.freight_cells);
        let mut report = untouched(4, report_cells);
        let mut worth = untouched_signed(5, worth_cells);
        let number = yadvorkhul::plan_into(
            self.m,
            self.n,
            self.run1,
            self.run2,
            &self.costs,
            &self.supplies,
            &self.demands,
            &self.ceilings,
            &self.table,
            &mut plan,
            &mut splits,
            &mut freights,
            &mut report,
            &mut worth,
        );
        Answer { number, plan, splits, freights, report, worth }
    }
}

/// `first`, and after it what the rest of the slice held before the call.
fn then_untouched(first: &[u64], slice: u64, cells: usize) -> Vec<u64> {
    let mut all = untouched(slice, cells);
    all[..first.len()].copy_from_slice(first);
    all
}

/// The same of a signed slice.
fn then_untouched_signed(first: &[i64], slice: u64, cells: usize) -> Vec<i64> {
    let mut all = untouched_signed(slice, cells);
    all[..first.len()].copy_from_slice(first);
    all
}

/// The case is refused by `number` at `place`; no lent cell but the report's first changed.
pub fn expect_refusal(lent: &Lent, number: u64, place: u64) {
    let answer = lent.call();
    assert_eq!(answer.number, number, "number; {lent:?}");
    assert_eq!(answer.report, then_untouched(&[place], 4, answer.report.len()), "report; {lent:?}");
    assert_eq!(answer.plan, untouched(1, lent.plan_cells), "plan; {lent:?}");
    assert_eq!(answer.splits, untouched(2, lent.split_cells), "splits; {lent:?}");
    assert_eq!(answer.freights, untouched_signed(3, lent.freight_cells), "freights; {lent:?}");
    assert_eq!(answer.worth, untouched_signed(5, answer.worth.len()), "worth; {lent:?}");
}

/// The case is planned as the referee's freight curve (f at ℓ, ℓ + 1, .., u) says, in each lent cell.
pub fn expect_plan(lent: &Lent, least: u64, curve: &[i64]) {
    let answer = lent.call();
    assert_eq!(answer.number, 0, "number; report {:?}; {lent:?}", answer.report);
    let (split, total) = referee::best(least, curve, &lent.table);
    let freight = curve[(split - least) as usize];
    let stops = referee::stops(least, curve);
    let splits: Vec<u64> = stops.iter().map(|s| s.0).collect();
    let freights: Vec<i64> = stops.iter().map(|s| s.1).collect();
    let report = [split, stops.len() as u64];
    assert_eq!(answer.report, then_untouched(&report, 4, answer.report.len()), "report; {lent:?}");
    assert_eq!(answer.worth, then_untouched_signed(&[total, freight], 5, answer.worth.len()), "worth; {lent:?}");
    assert!((-128_000_000_000..=129_000_000_000).contains(&total), "the bounds of a total; {lent:?}");
    assert_eq!(answer.splits, then_untouched(&splits, 2, lent.split_cells), "splits; {lent:?}");
    assert_eq!(answer.freights, then_untouched_signed(&freights, 3, lent.freight_cells), "freights; {lent:?}");
    let cells = lent.m * lent.n;
    let amounts = &answer.plan[..cells];
    assert_eq!(referee::faults(lent, split, amounts), Vec::<String>::new(), "{lent:?}");
    assert_eq!(referee::freight(lent, amounts), freight, "freight of the amounts; {lent:?}");
    let due = referee::foremost(lent, split);
    assert_eq!(answer.plan, then_untouched(&due, 1, lent.plan_cells), "plan; {lent:?}");
}

/// The answer is what the referee says, be it a plan or a refusal. Answers the refusal's number, or 0.
pub fn expect_referee(lent: &Lent) -> u64 {
    match referee::refusal(lent) {
        Some((number, place)) => {
            expect_refusal(lent, number, place);
            number
        }
        None => {
            let (least, curve) = referee::curve(lent);
            expect_plan(lent, least, &curve);
            0
        }
    }
}
