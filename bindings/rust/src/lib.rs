//! The proved two-plant production and freight planner, for Rust.
//!
//! Two plants and any number of depots supply terminals. The planner finds how much plant 1 makes (the *split*), how many
//! drums go along each lane, and the freight curve: see `docs/using.md`.
//!
//! ```
//! use yadvorkhul::Case;
//!
//! let case = Case {
//!     costs: vec![2, 6, 5, 3, 1, 4], // row after row: plant 1, plant 2, the depot
//!     supplies: vec![3, 3, 1],
//!     demands: vec![3, 2],
//!     table: vec![99, 20, 24, 20], // entry y: both plants together, when plant 1 makes y
//!     ..Case::default() // no least runs, no ceilings
//! };
//! let plan = case.plan().unwrap();
//! assert_eq!((plan.split, plan.total, plan.freight), (3, 33, 13));
//! assert_eq!(plan.amounts, [3, 0, 0, 1, 0, 1]);
//! let curve: Vec<_> = plan.stops.iter().map(|s| (s.split, s.freight)).collect();
//! assert_eq!(curve, [(1, 14), (2, 11), (3, 13)]);
//! ```
//!
//! A unit cost below 0 is a rebate; freights and totals are signed too. A plant may have a least run, which every plan makes,
//! and a lane a ceiling, which no plan passes:
//!
//! ```
//! # use yadvorkhul::Case;
//! # let case = Case { costs: vec![2, 6, 5, 3, 1, 4], supplies: vec![3, 3, 1], demands: vec![3, 2], table: vec![99, 20, 24, 20], ..Case::default() };
//! let plan = Case { runs: [2, 2], ..case.clone() }.plan().unwrap();
//! assert_eq!((plan.split, plan.total), (2, 35));
//! let plan = Case { ceilings: Some(vec![1, 9, 9, 9, 9, 9]), ..case }.plan().unwrap();
//! assert_eq!((plan.split, plan.total), (1, 34));
//! ```
//!
//! A case that cannot be planned is refused, with the number and the place of the first test that it fails:
//!
//! ```
//! use yadvorkhul::Case;
//!
//! let case = Case {
//!     costs: vec![2, 6, 5, 3, 1, 4],
//!     supplies: vec![3, 3, 6],
//!     demands: vec![3, 2],
//!     table: vec![99, 20, 24, 20],
//!     ..Case::default()
//! };
//! let refusal = case.plan().unwrap_err();
//! assert_eq!((refusal.number, refusal.place), (7, 0));
//! println!("{refusal}");
//! ```
//!
//! A house without a production table starts from the square-root rates, [`rates`].
//!
//! Where each production entry is known between a low and a high one only, [`Case::bounds`] tells which splits can be the
//! cheapest:
//!
//! ```
//! # use yadvorkhul::Case;
//! # let case = Case { costs: vec![2, 6, 5, 3, 1, 4], supplies: vec![3, 3, 1], demands: vec![3, 2], table: vec![99, 20, 24, 20], ..Case::default() };
//! let bounds = case.bounds(&[99, 20, 24, 21]).unwrap(); // the case's own table is the low one
//! assert_eq!((bounds.smallest, bounds.largest), (33, 34));
//! assert_eq!((bounds.first, bounds.possible), (1, vec![true, false, true]));
//! ```
//!
//! A [`WorkingCase`] takes edits, marks and returns, each call with the [`Role`] of who asks, and is planned as it is then. A network in DIMACS
//! form, one of whose arcs has a table of costs, is planned by [`flow`].
//!
//! What the programs do with files, reading, printing and writing out, is in [`files`], on bytes.
//!
//! What is proved are the functions behind [`plan_into`], [`rates_into`], [`bounds_into`], [`flow_into`] and those of [`work`].
//! `tools/check-declarations` compares their declarations here with the Rattle source; the tests of this crate compare the planner with an independent one on many cases, each
//! rate with its rule, the bounds with all tables between them, random histories of a working case with whole copies, and the flow with all
//! flows and with another method.

pub mod files;
mod flow;
mod rates;
mod refusal;
pub mod work;

pub use flow::{flow, flow_into, Arc, Flow, FlowRefusal, MOST_ARCS, MOST_NODES};
pub use rates::{rates, rates_into};
pub use refusal::Refusal;
pub use work::{Limits, Role, Tariff, WorkingCase};

/// Most sources of a case: two plants and thirty depots.
pub const MOST_SOURCES: usize = 32;
/// Most terminals of a case.
pub const MOST_TERMINALS: usize = 64;
/// Largest supply, demand or ceiling.
pub const MOST_AMOUNT: u64 = 4_000;
/// Largest unit cost, and the largest rebate: the least unit cost is its negative.
pub const MOST_COST: i64 = 1_000_000;
/// Largest entry of the production table at a split in use.
pub const MOST_ENTRY: u64 = 1_000_000_000;
/// Cells of a report: split and count of stops.
pub const REPORT_CELLS: usize = 2;
/// Cells of a worth: total and freight.
pub const WORTH_CELLS: usize = 2;
/// The number that answers a report or a worth of fewer cells. It is outside the numbers of the paper.
pub const SHORT_REPORT: u64 = 34;

extern "C" {
    // Each slice passes as a pointer and then a length.
    fn yadvorkhul_plan(
        m: usize,
        n: usize,
        run1: u64,
        run2: u64,
        costs: *const i64,
        costs_len: usize,
        supplies: *const u64,
        supplies_len: usize,
        demands: *const u64,
        demands_len: usize,
        ceilings: *const u64,
        ceilings_len: usize,
        table: *const u64,
        table_len: usize,
        plan: *mut u64,
        plan_len: usize,
        splits: *mut u64,
        splits_len: usize,
        freights: *mut i64,
        freights_len: usize,
        report: *mut u64,
        report_len: usize,
        worth: *mut i64,
        worth_len: usize,
    ) -> u64;

    fn yadvorkhul_bounds(
        m: usize,
        n: usize,
        run1: u64,
        run2: u64,
        costs: *const i64,
        costs_len: usize,
        supplies: *const u64,
        supplies_len: usize,
        demands: *const u64,
        demands_len: usize,
        ceilings: *const u64,
        ceilings_len: usize,
        low: *const u64,
        low_len: usize,
        high: *const u64,
        high_len: usize,
        answers: *mut u64,
        answers_len: usize,
        report: *mut u64,
        report_len: usize,
        worth: *mut i64,
        worth_len: usize,
    ) -> u64;
}

/// The planner on lent slices, of any numbers and any lengths.
///
/// Answers 0 where the case is planned: then the first two cells of `report` are split and count of stops, those of `worth`
/// total and freight, the first m × n cells of `plan` are the amounts in row order, and the first cells of `splits` and
/// `freights` are the stops. Else it answers the number of the refusal: then the first cell of `report` is its place. A
/// `report` or a `worth` shorter than two cells is answered by [`SHORT_REPORT`], before anything else is looked at. All other
/// cells keep their contents.
///
/// ```
/// let (mut plan, mut splits, mut freights, mut report, mut worth) = ([7; 7], [7; 4], [7; 4], [7; 3], [7; 3]);
/// let answer = yadvorkhul::plan_into(
///     3, 2, 0, 0, &[2, 6, 5, 3, 1, 4], &[3, 3, 1], &[3, 2], &[4_000; 6], &[99, 20, 24, 20],
///     &mut plan, &mut splits, &mut freights, &mut report, &mut worth,
/// );
/// assert_eq!(answer, 0);
/// assert_eq!(report, [3, 3, 7]);
/// assert_eq!(worth, [33, 13, 7]);
/// assert_eq!(plan, [3, 0, 0, 1, 0, 1, 7]);
/// assert_eq!(splits, [1, 2, 3, 7]);
/// assert_eq!(freights, [14, 11, 13, 7]);
/// ```
#[allow(clippy::too_many_arguments)]
pub fn plan_into(
    m: usize,
    n: usize,
    run1: u64,
    run2: u64,
    costs: &[i64],
    supplies: &[u64],
    demands: &[u64],
    ceilings: &[u64],
    table: &[u64],
    plan: &mut [u64],
    splits: &mut [u64],
    freights: &mut [i64],
    report: &mut [u64],
    worth: &mut [i64],
) -> u64 {
    // Safety: the callee has no `requires`. It reads and writes only within the lengths passed beside the pointers, keeps
    // none of them, and the five slices that it writes are borrowed exclusively, so none overlaps another slice.
    unsafe {
        yadvorkhul_plan(
            m,
            n,
            run1,
            run2,
            costs.as_ptr(),
            costs.len(),
            supplies.as_ptr(),
            supplies.len(),
            demands.as_ptr(),
            demands.len(),
            ceilings.as_ptr(),
            ceilings.len(),
            table.as_ptr(),
            table.len(),
            plan.as_mut_ptr(),
            plan.len(),
            splits.as_mut_ptr(),
            splits.len(),
            freights.as_mut_ptr(),
            freights.len(),
            report.as_mut_ptr(),
            report.len(),
            worth.as_mut_ptr(),
            worth.len(),
        )
    }
}

/// Which splits can be the cheapest, on lent slices of any numbers and any lengths.
///
/// Answers 0, or the number of the refusal. Where it is 0 the first cells of `report` are the first split and the count of
/// splits, those of `worth` the smallest and the largest that the least total can be, and those of `answers` 1 or 0 for each
/// split. Else the first cell of `report` is the place. All other cells keep their contents.
///
/// ```
/// let (mut answers, mut report, mut worth) = ([7; 4], [7; 3], [7; 3]);
/// let answer = yadvorkhul::bounds_into(
///     3, 2, 0, 0, &[2, 6, 5, 3, 1, 4], &[3, 3, 1], &[3, 2], &[4_000; 6], &[99, 20, 24, 20], &[99, 20, 24, 21],
///     &mut answers, &mut report, &mut worth,
/// );
/// assert_eq!(answer, 0);
/// assert_eq!((answers, report, worth), ([1, 0, 1, 7], [1, 3, 7], [33, 34, 7]));
/// ```
#[allow(clippy::too_many_arguments)]
pub fn bounds_into(
    m: usize,
    n: usize,
    run1: u64,
    run2: u64,
    costs: &[i64],
    supplies: &[u64],
    demands: &[u64],
    ceilings: &[u64],
    low: &[u64],
    high: &[u64],
    answers: &mut [u64],
    report: &mut [u64],
    worth: &mut [i64],
) -> u64 {
    // Safety: as for `plan_into`; the three slices that are written are borrowed exclusively.
    unsafe {
        yadvorkhul_bounds(
            m,
            n,
            run1,
            run2,
            costs.as_ptr(),
            costs.len(),
            supplies.as_ptr(),
            supplies.len(),
            demands.as_ptr(),
            demands.len(),
            ceilings.as_ptr(),
            ceilings.len(),
            low.as_ptr(),
            low.len(),
            high.as_ptr(),
            high.len(),
            answers.as_mut_ptr(),
            answers.len(),
            report.as_mut_ptr(),
            report.len(),
            worth.as_mut_ptr(),
            worth.len(),
        )
    }
}

/// A planning case. There are as many sources as supplies and as many terminals as demands.
#[derive(Clone, Debug, Default, PartialEq, Eq)]
pub struct Case {
    /// Unit costs, one source's together, row after row: source i's cost to terminal j (both from 0) at i × n + j. A rebate
    /// is a cost below 0.
    pub costs: Vec<i64>,
    /// Of the two plants, the most each can make; then of each depot the stock, which must all leave.
    pub supplies: Vec<u64>,
    /// What each terminal takes, exactly.
    pub demands: Vec<u64>,
    /// Entry y: the cost of both plants together when plant 1 makes y and plant 2 the rest. One entry more than plant 1's
    /// supply; of any shape.
    pub table: Vec<u64>,
    /// The least that each of the two plants must make, at most its supply; 0 for none.
    pub runs: [u64; 2],
    /// The most that each lane carries, in the order of the costs; 0 closes it. Where not given, 4,000 on every lane, which no
    /// plan passes.
    pub ceilings: Option<Vec<u64>>,
}

/// The cheapest plan that is due: of those at the split the one that has the smaller amount at the first lane, in row order, where
/// it differs from another. Equal cases get equal plans.
#[derive(Clone, Debug, PartialEq, Eq)]
pub struct Plan {
    /// What plant 1 makes: the smallest of the splits with the least total.
    pub split: u64,
    /// Freight plus the table's entry at the split.
    pub total: i64,
    /// Sum of amount times unit cost over the lanes: the least of any plan at the split.
    pub freight: i64,
    /// The amount of each lane, in the order of the costs.
    pub amounts: Vec<u64>,
    /// The freight curve: the first and the last split that have a plan, and each one between where the slope changes; no others.
    pub stops: Vec<Stop>,
    terminals: usize,
}

/// A point of the freight curve.
#[derive(Clone, Copy, Debug, PartialEq, Eq)]
pub struct Stop {
    pub split: u64,
    /// The least freight of any plan at that split.
    pub freight: i64,
}

/// What can be the cheapest where each production entry is known between two bounds only.
#[derive(Clone, Debug, PartialEq, Eq)]
pub struct Bounds {
    /// The first split.
    pub first: u64,
    /// For each split from the first up: whether some table between the bounds makes its total no greater than any other's.
    pub possible: Vec<bool>,
    /// The smallest that the least total can be.
    pub smallest: i64,
    /// The largest that the least total can be.
    pub largest: i64,
}

impl Case {
    /// Which splits can be the cheapest with entries from the case's own table up to this one, or the first refusal.
    pub fn bounds(&self, high: &[u64]) -> Result<Bounds, Refusal> {
        let (m, n) = (self.supplies.len(), self.demands.len());
        let wide = vec![MOST_AMOUNT; m.min(MOST_SOURCES) * n.min(MOST_TERMINALS)];
        // Room for any case that is accepted: refusal 11 cannot arise.
        let mut answers = vec![0; MOST_AMOUNT as usize + 1];
        let mut report = [0; REPORT_CELLS];
        let mut worth = [0; WORTH_CELLS];
        let number = bounds_into(
            m,
            n,
            self.runs[0],
            self.runs[1],
            &self.costs,
            &self.supplies,
            &self.demands,
            self.ceilings.as_deref().unwrap_or(&wide),
            &self.table,
            high,
            &mut answers,
            &mut report,
            &mut worth,
        );
        if number != 0 {
            return Err(Refusal { number, place: report[0], sources: m, terminals: n });
        }
        let ([first, count], [smallest, largest]) = (report, worth);
        let possible = answers.iter().take(count as usize).map(|&mark| mark == 1).collect();
        Ok(Bounds { first, possible, smallest, largest })
    }

    /// The plan, or the first refusal.
    pub fn plan(&self) -> Result<Plan, Refusal> {
        let (m, n) = (self.supplies.len(), self.demands.len());
        // Room for any case that is accepted: refusal 11 cannot arise.
        let lanes = m.min(MOST_SOURCES) * n.min(MOST_TERMINALS);
        let wide = vec![MOST_AMOUNT; lanes];
        let mut amounts = vec![0; lanes];
        let mut splits = vec![0; MOST_AMOUNT as usize + 1];
        let mut freights = vec![0; MOST_AMOUNT as usize + 1];
        let mut report = [0; REPORT_CELLS];
        let mut worth = [0; WORTH_CELLS];
        let number = plan_into(
            m,
            n,
            self.runs[0],
            self.runs[1],
            &self.costs,
            &self.supplies,
            &self.demands,
            self.ceilings.as_deref().unwrap_or(&wide),
            &self.table,
            &mut amounts,
            &mut splits,
            &mut freights,
            &mut report,
            &mut worth,
        );
        if number != 0 {
            return Err(Refusal { number, place: report[0], sources: m, terminals: n });
        }
        let ([split, count], [total, freight]) = (report, worth);
        let stops = splits.iter().zip(&freights).take(count as usize);
        let stops = stops.map(|(&split, &freight)| Stop { split, freight }).collect();
        Ok(Plan { split, total, freight, amounts, stops, terminals: n })
    }
}

impl Plan {
    /// Drums from source i to terminal j, both counted from 0. Panics where the case lacks the source or the terminal.
    ///
    /// ```
    /// # let case = yadvorkhul::Case {
    /// #     costs: vec![2, 6, 5, 3, 1, 4], supplies: vec![3, 3, 1], demands: vec![3, 2], table: vec![99, 20, 24, 20],
    /// #     ..Default::default() };
    /// let plan = case.plan().unwrap();
    /// assert_eq!(plan.amount(2, 1), 1);
    /// ```
    pub fn amount(&self, source: usize, terminal: usize) -> u64 {
        assert!(terminal < self.terminals, "terminal {terminal} of {}", self.terminals);
        // not by source × terminals + terminal: of a huge source that product wraps where overflow is not checked
        let row = self.rows().nth(source);
        row.unwrap_or_else(|| panic!("source {source} of {}", self.amounts.len() / self.terminals))[terminal]
    }

    /// The amounts of each source in turn.
    pub fn rows(&self) -> impl Iterator<Item = &[u64]> {
        self.amounts.chunks(self.terminals)
    }
}
