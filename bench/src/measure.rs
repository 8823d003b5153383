//! The clock, the four contenders, and the comparison of their answers.

use crate::cases::{case, Case, Shape};
use std::ffi::c_void;

/// Mean seconds over the cases.
pub struct Times {
    pub proved: f64,
    pub plain: f64,
    pub one: f64,
    pub all: f64,
    /// mean count of stops
    pub stops: f64,
}

extern "C" {
    fn lemon_new(
        m: usize,
        n: usize,
        costs: *const i64,
        supplies: *const u64,
        demands: *const u64,
        ceilings: *const u64,
    ) -> *mut c_void;
    fn lemon_split(solver: *mut c_void, y: u64) -> i64;
    fn lemon_free(solver: *mut c_void);
    fn clock_gettime(clock: i32, time: *mut [i64; 2]) -> i32;
}

const THREAD_TIME: i32 = 3; // CLOCK_THREAD_CPUTIME_ID of Linux

/// Processor time of this thread, in seconds.
fn now() -> f64 {
    let mut time = [0i64; 2];
    // Safety: `time` has the layout of a timespec of 64-bit Linux.
    assert_eq!(unsafe { clock_gettime(THREAD_TIME, &mut time) }, 0);
    time[0] as f64 + time[1] as f64 * 1e-9
}

fn clocked<T>(work: impl FnOnce() -> T) -> (f64, T) {
    let start = now();
    let value = work();
    (now() - start, value)
}

#[rustfmt::skip]
type Planner = fn(
    usize, usize, u64, u64, &[i64], &[u64], &[u64], &[u64], &[u64],
    &mut [u64], &mut [u64], &mut [i64], &mut [u64], &mut [i64],
) -> u64;

/// The lent slices.
#[derive(PartialEq)]
struct Lent {
    plan: Vec<u64>,
    splits: Vec<u64>,
    freights: Vec<i64>,
    report: [u64; 2],
    worth: [i64; 2],
}

impl Lent {
    fn of(case: &Case) -> Lent {
        let splits = (case.greatest - case.least + 1) as usize;
        Lent {
            plan: vec![0; case.m * case.n],
            splits: vec![0; splits],
            freights: vec![0; splits],
            report: [0; 2],
            worth: [0; 2],
        }
    }

    /// Clears the slices, then plans; the seconds of the planning alone.
    fn plan(&mut self, planner: Planner, c: &Case) -> f64 {
        let Lent { plan, splits, freights, report, worth } = self;
        plan.fill(0);
        splits.fill(0);
        freights.fill(0);
        report.fill(0);
        worth.fill(0);
        let Case { m, n, costs, supplies, demands, ceilings, table, .. } = c;
        let work =
            || planner(*m, *n, 0, 0, costs, supplies, demands, ceilings, table, plan, splits, freights, report, worth);
        let (time, answer) = clocked(work);
        assert_eq!(answer, 0, "the case is planned");
        time
    }
}

/// LEMON's solver of a case.
struct Lemon(*mut c_void);

impl Lemon {
    fn of(c: &Case) -> Lemon {
        let (costs, ceilings) = (c.costs.as_ptr(), c.ceilings.as_ptr());
        // Safety: the slices have the lengths that m and n say, and outlive the call.
        Lemon(unsafe { lemon_new(c.m, c.n, costs, c.supplies.as_ptr(), c.demands.as_ptr(), ceilings) })
    }

    fn split(&self, y: u64) -> i64 {
        // Safety: the solver is freed only when it is dropped.
        unsafe { lemon_split(self.0, y) }
    }
}

impl Drop for Lemon {
    fn drop(&mut self) {
        // Safety: made by `lemon_new`, and dropped once.
        unsafe { lemon_free(self.0) }
    }
}

pub fn times(shape: Shape, cases: u64, repeats: u32) -> Times {
    let mut sum = Times { proved: 0.0, plain: 0.0, one: 0.0, all: 0.0, stops: 0.0 };
    for seed in 0..cases {
        let case = case(shape, seed);
        let (mut proved, mut plain) = (Lent::of(&case), Lent::of(&case));
        let lemon = Lemon::of(&case);
        let (mut least_proved, mut least_plain, mut least_one) = (f64::INFINITY, f64::INFINITY, f64::INFINITY);
        for _ in 0..repeats {
            least_proved = least_proved.min(proved.plan(yadvorkhul::plan_into, &case));
            least_plain = least_plain.min(plain.plan(plain::plan_into, &case));
            let split = proved.report[0];
            let (time, freight) = clocked(|| lemon.split(split));
            least_one = least_one.min(time);
            assert_eq!(freight, proved.worth[1], "LEMON's freight at the split given");
        }
        assert!(proved == plain, "the answers agree in each cell");
        let (all, best) = clocked(|| every_split(&lemon, &case));
        assert_eq!(best, (proved.worth[0], proved.report[0]), "LEMON's least total and its smallest split");
        sum.proved += least_proved;
        sum.plain += least_plain;
        sum.one += least_one;
        sum.all += all;
        sum.stops += proved.report[1] as f64;
    }
    let mean = |time: f64| time / cases as f64;
    Times {
        proved: mean(sum.proved),
        plain: mean(sum.plain),
        one: mean(sum.one),
        all: mean(sum.all),
        stops: mean(sum.stops),
    }
}

/// Plans each case once by the proved planner: for a profiler.
pub fn plan_only(shape: Shape, cases: u64) {
    for seed in 0..cases {
        let case = case(shape, seed);
        Lent::of(&case).plan(yadvorkhul::plan_into, &case);
    }
}

/// The least total and the smallest split that has it, solved split by split.
fn every_split(lemon: &Lemon, case: &Case) -> (i64, u64) {
    let total = |y: u64| lemon.split(y) + case.table[y as usize] as i64;
    (case.least..=case.greatest).map(|y| (total(y), y)).min().expect("a split")
}
