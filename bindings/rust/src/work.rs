//! A working case with marks, and roles: the proved functions on a lent store, and an object that owns its store.
//!
//! Sources, terminals and marks are counted from 1 here, as in refusals, and entries from 0.

use crate::{Case, Plan, Refusal, Stop, MOST_AMOUNT, MOST_SOURCES, MOST_TERMINALS, REPORT_CELLS, WORTH_CELLS};
use std::fmt;

/// Marks are numbered from 1 up to this.
pub const MOST_MARKS: usize = 8;

extern "C" {
    // Each slice passes as a pointer and then a length.
    fn yadvorkhul_store_cells(m: usize, n: usize) -> usize;
    fn yadvorkhul_enter(
        m: usize,
        n: usize,
        run1: u64,
        run2: u64,
        costs: *const i64,
        costs_len: usize,
        supplies: *const u64,
        supplies_len: usize,
        demands: *const u64,
        demands_len: usize,
        ceilings: *const u64,
        ceilings_len: usize,
        table: *const u64,
        table_len: usize,
        store: *mut u64,
        store_len: usize,
        report: *mut u64,
        report_len: usize,
    ) -> u64;
    fn yadvorkhul_edit_demand(
        role: usize,
        terminal: usize,
        value: u64,
        store: *mut u64,
        store_len: usize,
        report: *mut u64,
        report_len: usize,
    ) -> u64;
    fn yadvorkhul_edit_supply(
        role: usize,
        source: usize,
        value: u64,
        store: *mut u64,
        store_len: usize,
        report: *mut u64,
        report_len: usize,
    ) -> u64;
    fn yadvorkhul_edit_cost(
        role: usize,
        source: usize,
        terminal: usize,
        value: i64,
        store: *mut u64,
        store_len: usize,
        report: *mut u64,
        report_len: usize,
    ) -> u64;
    fn yadvorkhul_edit_entry(
        role: usize,
        split: usize,
        value: u64,
        store: *mut u64,
        store_len: usize,
        report: *mut u64,
        report_len: usize,
    ) -> u64;
    fn yadvorkhul_set_mark(
        role: usize,
        mark: usize,
        store: *mut u64,
        store_len: usize,
        report: *mut u64,
        report_len: usize,
    ) -> u64;
    fn yadvorkhul_go_back(
        role: usize,
        mark: usize,
        store: *mut u64,
        store_len: usize,
        report: *mut u64,
        report_len: usize,
    ) -> u64;
    fn yadvorkhul_plan_case(
        role: usize,
        store: *const u64,
        store_len: usize,
        plan: *mut u64,
        plan_len: usize,
        splits: *mut u64,
        splits_len: usize,
        freights: *mut i64,
        freights_len: usize,
        report: *mut u64,
        report_len: usize,
        worth: *mut i64,
        worth_len: usize,
    ) -> u64;
    fn yadvorkhul_see_tariff(
        role: usize,
        store: *const u64,
        store_len: usize,
        costs: *mut i64,
        costs_len: usize,
        supplies: *mut u64,
        supplies_len: usize,
        demands: *mut u64,
        demands_len: usize,
        report: *mut u64,
        report_len: usize,
    ) -> u64;
    fn yadvorkhul_see_table(
        role: usize,
        store: *const u64,
        store_len: usize,
        table: *mut u64,
        table_len: usize,
        report: *mut u64,
        report_len: usize,
    ) -> u64;
    fn yadvorkhul_see_limits(
        role: usize,
        store: *const u64,
        store_len: usize,
        runs: *mut u64,
        runs_len: usize,
        ceilings: *mut u64,
        ceilings_len: usize,
        report: *mut u64,
        report_len: usize,
    ) -> u64;
    fn yadvorkhul_marks_set(
        role: usize,
        store: *const u64,
        store_len: usize,
        marks: *mut u64,
        marks_len: usize,
        report: *mut u64,
        report_len: usize,
    ) -> u64;
    fn yadvorkhul_plan_mark(
        role: usize,
        mark: usize,
        store: *const u64,
        store_len: usize,
        plan: *mut u64,
        plan_len: usize,
        splits: *mut u64,
        splits_len: usize,
        freights: *mut i64,
        freights_len: usize,
        report: *mut u64,
        report_len: usize,
        worth: *mut i64,
        worth_len: usize,
    ) -> u64;
}

// Safety of all calls below: no callee has a `requires`, each holds for any numbers and any slice lengths. It reads and writes only within the
// lengths passed beside the pointers, and keeps none. The slices that it writes are borrowed exclusively, so none overlaps another slice.

/// How many cells a store for m sources and n terminals must have; 0 where no case has that size.
pub fn store_cells(m: usize, n: usize) -> usize {
    unsafe { yadvorkhul_store_cells(m, n) }
}

/// Enters a case into a lent store; no mark is set.
///
/// Like all functions here it answers 0, or the number of the refusal, whose place is then in the first cell of `report`, and
/// [`crate::SHORT_REPORT`] where that has fewer than [`REPORT_CELLS`] cells; a call that is not answered by 0 changes nothing else.
#[allow(clippy::too_many_arguments)]
pub fn enter_into(
    m: usize,
    n: usize,
    run1: u64,
    run2: u64,
    costs: &[i64],
    supplies: &[u64],
    demands: &[u64],
    ceilings: &[u64],
    table: &[u64],
    store: &mut [u64],
    report: &mut [u64],
) -> u64 {
    unsafe {
        yadvorkhul_enter(
            m,
            n,
            run1,
            run2,
            costs.as_ptr(),
            costs.len(),
            supplies.as_ptr(),
            supplies.len(),
            demands.as_ptr(),
            demands.len(),
            ceilings.as_ptr(),
            ceilings.len(),
            table.as_ptr(),
            table.len(),
            store.as_mut_ptr(),
            store.len(),
            report.as_mut_ptr(),
            report.len(),
        )
    }
}

/// Alters a demand in a lent store.
pub fn edit_demand_into(role: usize, terminal: usize, value: u64, store: &mut [u64], report: &mut [u64]) -> u64 {
    unsafe {
        yadvorkhul_edit_demand(
            role,
            terminal,
            value,
            store.as_mut_ptr(),
            store.len(),
            report.as_mut_ptr(),
            report.len(),
        )
    }
}

/// Alters a supply in a lent store; the table follows the first one.
pub fn edit_supply_into(role: usize, source: usize, value: u64, store: &mut [u64], report: &mut [u64]) -> u64 {
    unsafe {
        yadvorkhul_edit_supply(role, source, value, store.as_mut_ptr(), store.len(), report.as_mut_ptr(), report.len())
    }
}

/// Alters a unit cost in a lent store.
pub fn edit_cost_into(
    role: usize,
    source: usize,
    terminal: usize,
    value: i64,
    store: &mut [u64],
    report: &mut [u64],
) -> u64 {
    unsafe {
        yadvorkhul_edit_cost(
            role,
            source,
            terminal,
            value,
            store.as_mut_ptr(),
            store.len(),
            report.as_mut_ptr(),
            report.len(),
        )
    }
}

/// Alters an entry in a lent store.
pub fn edit_entry_into(role: usize, split: usize, value: u64, store: &mut [u64], report: &mut [u64]) -> u64 {
    unsafe {
        yadvorkhul_edit_entry(role, split, value, store.as_mut_ptr(), store.len(), report.as_mut_ptr(), report.len())
    }
}

/// Sets a mark in a lent store.
pub fn set_mark_into(role: usize, mark: usize, store: &mut [u64], report: &mut [u64]) -> u64 {
    unsafe { yadvorkhul_set_mark(role, mark, store.as_mut_ptr(), store.len(), report.as_mut_ptr(), report.len()) }
}

/// Goes back to a mark in a lent store.
pub fn go_back_into(role: usize, mark: usize, store: &mut [u64], report: &mut [u64]) -> u64 {
    unsafe { yadvorkhul_go_back(role, mark, store.as_mut_ptr(), store.len(), report.as_mut_ptr(), report.len()) }
}

/// Plans the working case of a lent store, with the cells of [`crate::plan_into`].
pub fn plan_case_into(
    role: usize,
    store: &[u64],
    plan: &mut [u64],
    splits: &mut [u64],
    freights: &mut [i64],
    report: &mut [u64],
    worth: &mut [i64],
) -> u64 {
    unsafe {
        yadvorkhul_plan_case(
            role,
            store.as_ptr(),
            store.len(),
            plan.as_mut_ptr(),
            plan.len(),
            splits.as_mut_ptr(),
            splits.len(),
            freights.as_mut_ptr(),
            freights.len(),
            report.as_mut_ptr(),
            report.len(),
            worth.as_mut_ptr(),
            worth.len(),
        )
    }
}

/// Copies unit costs, supplies and demands of a lent store; later cells keep their contents.
pub fn see_tariff_into(
    role: usize,
    store: &[u64],
    costs: &mut [i64],
    supplies: &mut [u64],
    demands: &mut [u64],
    report: &mut [u64],
) -> u64 {
    unsafe {
        yadvorkhul_see_tariff(
            role,
            store.as_ptr(),
            store.len(),
            costs.as_mut_ptr(),
            costs.len(),
            supplies.as_mut_ptr(),
            supplies.len(),
            demands.as_mut_ptr(),
            demands.len(),
            report.as_mut_ptr(),
            report.len(),
        )
    }
}

/// Copies the entries of a lent store; later cells keep their contents.
pub fn see_table_into(role: usize, store: &[u64], table: &mut [u64], report: &mut [u64]) -> u64 {
    unsafe {
        yadvorkhul_see_table(
            role,
            store.as_ptr(),
            store.len(),
            table.as_mut_ptr(),
            table.len(),
            report.as_mut_ptr(),
            report.len(),
        )
    }
}

/// Copies the two least runs and the ceilings of a lent store; later cells keep their contents.
pub fn see_limits_into(role: usize, store: &[u64], runs: &mut [u64], ceilings: &mut [u64], report: &mut [u64]) -> u64 {
    unsafe {
        yadvorkhul_see_limits(
            role,
            store.as_ptr(),
            store.len(),
            runs.as_mut_ptr(),
            runs.len(),
            ceilings.as_mut_ptr(),
            ceilings.len(),
            report.as_mut_ptr(),
            report.len(),
        )
    }
}

/// Writes 1 for each mark of a lent store that is set, else 0, into the first [`MOST_MARKS`] cells of `marks`.
pub fn marks_set_into(role: usize, store: &[u64], marks: &mut [u64], report: &mut [u64]) -> u64 {
    unsafe {
        yadvorkhul_marks_set(
            role,
            store.as_ptr(),
            store.len(),
            marks.as_mut_ptr(),
            marks.len(),
            report.as_mut_ptr(),
            report.len(),
        )
    }
}

/// Plans the case that a mark of a lent store holds, without going back, with the cells of [`crate::plan_into`].
#[allow(clippy::too_many_arguments)]
pub fn plan_mark_into(
    role: usize,
    mark: usize,
    store: &[u64],
    plan: &mut [u64],
    splits: &mut [u64],
    freights: &mut [i64],
    report: &mut [u64],
    worth: &mut [i64],
) -> u64 {
    unsafe {
        yadvorkhul_plan_mark(
            role,
            mark,
            store.as_ptr(),
            store.len(),
            plan.as_mut_ptr(),
            plan.len(),
            splits.as_mut_ptr(),
            splits.len(),
            freights.as_mut_ptr(),
            freights.len(),
            report.as_mut_ptr(),
            report.len(),
            worth.as_mut_ptr(),
            worth.len(),
        )
    }
}

/// Who calls.
#[derive(Clone, Copy, Debug, PartialEq, Eq)]
pub enum Role {
    /// May do all.
    Planner = 1,
    /// May edit entries, see the tariff and the table.
    Plant = 2,
    /// May edit demands and supplies, the first supply aside, and see the tariff.
    Depot = 3,
    /// May see the tariff.
    Reader = 4,
}

/// What a working case's tariff is now: unit costs in row order, supplies and demands.
#[derive(Clone, Debug, PartialEq, Eq)]
pub struct Tariff {
    pub costs: Vec<i64>,
    pub supplies: Vec<u64>,
    pub demands: Vec<u64>,
}

/// What no edit of a working case alters: the least runs of plants 1 and 2, and the ceilings in row order. With tariff and table it is all of a case.
#[derive(Clone, Debug, PartialEq, Eq)]
pub struct Limits {
    pub runs: [u64; 2],
    pub ceilings: Vec<u64>,
}

/// A working case that takes edits, marks and returns. It owns its store, which is cleared when the object ends; a role is handed to every
/// call. That it is the role of the person who asks is for the caller to see to.
///
/// ```
/// use yadvorkhul::{Case, Role, WorkingCase};
///
/// let case = Case { costs: vec![2, 6, 5, 3, 1, 4], supplies: vec![3, 3, 1], demands: vec![3, 2], table: vec![99, 20, 24, 20], ..Case::default() };
/// let mut work = WorkingCase::enter(&case).unwrap();
/// work.mark(Role::Planner, 3).unwrap();
/// work.edit_demand(Role::Depot, 2, 3).unwrap(); // terminal 2 takes 3
/// assert_eq!(work.plan(Role::Planner).unwrap().total, 36);
/// work.go_back(Role::Planner, 3).unwrap();
/// assert_eq!(work.plan(Role::Planner).unwrap().total, 33);
/// assert_eq!(work.go_back(Role::Planner, 4).unwrap_err().number, 25); // mark 4 was never set
/// assert_eq!(work.see_table(Role::Depot).unwrap_err().number, 31); // not for a depot
/// assert_eq!(work.see_tariff(Role::Reader).unwrap().demands, [3, 2]);
/// ```
///
/// Threads may share it: planning and seeing only read the store. An edit, a mark or a return wants the object for itself, so it
/// cannot run beside another call; behind a lock such as `RwLock` threads may do that too. This does not compile:
///
/// ```compile_fail,E0596
/// # use yadvorkhul::{Case, Role, WorkingCase};
/// fn edit_what_is_shared(work: &WorkingCase) {
///     work.edit_demand(Role::Depot, 2, 3).unwrap();
/// }
/// ```
#[derive(Clone)]
pub struct WorkingCase {
    store: Vec<u64>,
    sources: usize,
    terminals: usize,
}

/// Clears the store before it is given back: it holds every entry.
impl Drop for WorkingCase {
    fn drop(&mut self) {
        for cell in &mut self.store {
            // Safety: the cell is borrowed exclusively. Written so, it is not left out as a write that nobody reads.
            unsafe { std::ptr::write_volatile(cell, 0) };
        }
        std::sync::atomic::compiler_fence(std::sync::atomic::Ordering::SeqCst);
    }
}

/// Shows no cell: the store holds every entry.
impl fmt::Debug for WorkingCase {
    fn fmt(&self, f: &mut fmt::Formatter<'_>) -> fmt::Result {
        write!(f, "WorkingCase of {} sources and {} terminals", self.sources, self.terminals)
    }
}

impl WorkingCase {
    /// Enters a case: refused by the tests 1 to 6, with 23 and 26. Balance and entries are judged when it is planned. No mark is set.
    pub fn enter(case: &Case) -> Result<WorkingCase, Refusal> {
        let (m, n) = (case.supplies.len(), case.demands.len());
        let wide = vec![MOST_AMOUNT; m.min(MOST_SOURCES) * n.min(MOST_TERMINALS)];
        let mut entered = WorkingCase { store: vec![0; store_cells(m, n)], sources: m, terminals: n };
        let mut report = [0; REPORT_CELLS];
        let number = enter_into(
            m,
            n,
            case.runs[0],
            case.runs[1],
            &case.costs,
            &case.supplies,
            &case.demands,
            case.ceilings.as_deref().unwrap_or(&wide),
            &case.table,
            &mut entered.store,
            &mut report,
        );
        entered.told(number, report)?;
        Ok(entered)
    }

    fn told(&self, number: u64, report: [u64; REPORT_CELLS]) -> Result<(), Refusal> {
        match number {
            0 => Ok(()),
            _ => Err(Refusal { number, place: report[0], sources: self.sources, terminals: self.terminals }),
        }
    }

    /// Makes a call that may change the store.
    fn call(&mut self, make: impl FnOnce(&mut [u64], &mut [u64]) -> u64) -> Result<(), Refusal> {
        let mut report = [0; REPORT_CELLS];
        let number = make(&mut self.store, &mut report);
        self.told(number, report)
    }

    /// Alters the demand of a terminal, from 1.
    pub fn edit_demand(&mut self, role: Role, terminal: usize, value: u64) -> Result<(), Refusal> {
        self.call(|store, report| edit_demand_into(role as usize, terminal, value, store, report))
    }

    /// Alters the supply of a source, from 1. Another first supply lengthens the table with zeros, or cuts it.
    pub fn edit_supply(&mut self, role: Role, source: usize, value: u64) -> Result<(), Refusal> {
        self.call(|store, report| edit_supply_into(role as usize, source, value, store, report))
    }

    /// Alters the unit cost of the lane from a source to a terminal, both from 1.
    pub fn edit_cost(&mut self, role: Role, source: usize, terminal: usize, value: i64) -> Result<(), Refusal> {
        self.call(|store, report| edit_cost_into(role as usize, source, terminal, value, store, report))
    }

    /// Alters the entry at a split, from 0. It may be any number.
    pub fn edit_entry(&mut self, role: Role, split: usize, value: u64) -> Result<(), Refusal> {
        self.call(|store, report| edit_entry_into(role as usize, split, value, store, report))
    }

    /// Sets a mark, 1 to [`MOST_MARKS`]: it holds the whole case as it is now.
    pub fn mark(&mut self, role: Role, mark: usize) -> Result<(), Refusal> {
        self.call(|store, report| set_mark_into(role as usize, mark, store, report))
    }

    /// Makes the case what it was when the mark was last set; all marks keep theirs.
    pub fn go_back(&mut self, role: Role, mark: usize) -> Result<(), Refusal> {
        self.call(|store, report| go_back_into(role as usize, mark, store, report))
    }

    /// Makes a call that plans from the store.
    fn planned(
        &self,
        make: impl FnOnce(&[u64], &mut [u64], &mut [u64], &mut [i64], &mut [u64], &mut [i64]) -> u64,
    ) -> Result<Plan, Refusal> {
        // Room for any case: refusal 11 cannot arise.
        let mut amounts = vec![0; self.sources * self.terminals];
        let mut splits = vec![0; MOST_AMOUNT as usize + 1];
        let mut freights = vec![0; MOST_AMOUNT as usize + 1];
        let (mut report, mut worth) = ([0; REPORT_CELLS], [0; WORTH_CELLS]);
        let number = make(&self.store, &mut amounts, &mut splits, &mut freights, &mut report, &mut worth);
        self.told(number, report)?;
        let ([split, count], [total, freight]) = (report, worth);
        let stops = splits.iter().zip(&freights).take(count as usize);
        let stops = stops.map(|(&split, &freight)| Stop { split, freight }).collect();
        Ok(Plan { split, total, freight, amounts, stops, terminals: self.terminals })
    }

    /// The plan of the case as it is now: what a case entered afresh would get.
    pub fn plan(&self, role: Role) -> Result<Plan, Refusal> {
        self.planned(|store, plan, splits, freights, report, worth| {
            plan_case_into(role as usize, store, plan, splits, freights, report, worth)
        })
    }

    /// The plan of the case that a mark holds, without going back. Refused as going back is. The planner's alone.
    pub fn plan_mark(&self, role: Role, mark: usize) -> Result<Plan, Refusal> {
        self.planned(|store, plan, splits, freights, report, worth| {
            plan_mark_into(role as usize, mark, store, plan, splits, freights, report, worth)
        })
    }

    /// The marks that are set. The planner's alone.
    pub fn marks(&self, role: Role) -> Result<Vec<usize>, Refusal> {
        let mut flags = [0; MOST_MARKS];
        let mut report = [0; REPORT_CELLS];
        let number = marks_set_into(role as usize, &self.store, &mut flags, &mut report);
        self.told(number, report)?;
        Ok((1..=MOST_MARKS).filter(|mark| flags[mark - 1] != 0).collect())
    }

    /// Least runs and ceilings. The planner's alone.
    pub fn see_limits(&self, role: Role) -> Result<Limits, Refusal> {
        let mut limits = Limits { runs: [0; 2], ceilings: vec![0; self.sources * self.terminals] };
        let mut report = [0; REPORT_CELLS];
        let number = see_limits_into(role as usize, &self.store, &mut limits.runs, &mut limits.ceilings, &mut report);
        self.told(number, report)?;
        Ok(limits)
    }

    /// Unit costs, supplies and demands as they are now.
    pub fn see_tariff(&self, role: Role) -> Result<Tariff, Refusal> {
        let (m, n) = (self.sources, self.terminals);
        let mut tariff = Tariff { costs: vec![0; m * n], supplies: vec![0; m], demands: vec![0; n] };
        let mut report = [0; REPORT_CELLS];
        let Tariff { costs, supplies, demands } = &mut tariff;
        let number = see_tariff_into(role as usize, &self.store, costs, supplies, demands, &mut report);
        self.told(number, report)?;
        Ok(tariff)
    }

    /// The entries as they are now, one more than the first supply.
    pub fn see_table(&self, role: Role) -> Result<Vec<u64>, Refusal> {
        let mut table = vec![0; MOST_AMOUNT as usize + 1];
        let mut report = [0; REPORT_CELLS];
        let number = see_table_into(role as usize, &self.store, &mut table, &mut report);
        self.told(number, report)?;
        // Whoever may see the table may see the tariff, which has the table's length.
        table.truncate(self.see_tariff(role)?.supplies[0] as usize + 1);
        Ok(table)
    }
}
