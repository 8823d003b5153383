//! A working case against a plain one that keeps whole copies: random histories, refusals cell by cell, roles, and what depot and reader get.

mod common;

use common::random::{accepted, Limits, Random};
use common::{untouched, untouched_signed, Lent};
use yadvorkhul::work::*;
use yadvorkhul::{Case, Role, WorkingCase, SHORT_REPORT};

const PLANNER: usize = Role::Planner as usize;
const OUTSIDERS: [usize; 2] = [Role::Depot as usize, Role::Reader as usize];

/// A call that is answered by a number and a place.
#[derive(Clone, Copy, Debug)]
enum Call {
    Demand(usize, u64),
    Supply(usize, u64),
    Cost(usize, usize, i64),
    Entry(usize, u64),
    Mark(usize),
    Back(usize),
}

use Call::*;

fn make(call: Call, role: usize, store: &mut [u64], report: &mut [u64]) -> u64 {
    match call {
        Demand(j, v) => edit_demand_into(role, j, v, store, report),
        Supply(i, v) => edit_supply_into(role, i, v, store, report),
        Cost(i, j, v) => edit_cost_into(role, i, j, v, store, report),
        Entry(y, v) => edit_entry_into(role, y, v, store, report),
        Mark(k) => set_mark_into(role, k, store, report),
        Back(k) => go_back_into(role, k, store, report),
    }
}

/// Number and place of an answer; a call that is done leaves the report alone, a refused one all but its first cell.
fn answer(call: Call, role: usize, store: &mut [u64]) -> (u64, u64) {
    let before = store.to_vec();
    let mut report = untouched(4, 3);
    let number = make(call, role, store, &mut report);
    assert_eq!(report[1..], untouched(4, 3)[1..], "{call:?}");
    if number == 0 {
        assert_eq!(report[0], untouched(4, 3)[0], "{call:?}");
        return (0, 0);
    }
    assert!(store == before, "a refused call changed the store; {call:?}");
    (number, report[0])
}

fn enter(lent: &Lent, store: &mut [u64], report: &mut [u64]) -> u64 {
    enter_into(
        lent.m,
        lent.n,
        lent.run1,
        lent.run2,
        &lent.costs,
        &lent.supplies,
        &lent.demands,
        &lent.ceilings,
        &lent.table,
        store,
        report,
    )
}

/// A store with the case entered, whose cells were not cleared before.
fn entered(lent: &Lent) -> Vec<u64> {
    let mut store = untouched(9, store_cells(lent.m, lent.n));
    assert_eq!(enter(lent, &mut store, &mut [7; 2]), 0);
    store
}

/// The plain model: a whole copy of the case, and one for each mark that is set.
struct Model {
    case: Lent,
    marks: [Option<Lent>; 9],
}

impl Model {
    fn new(case: &Lent) -> Model {
        Model { case: case.clone(), marks: Default::default() }
    }

    /// What is told, as the paper has it; a call that is not refused is done.
    fn answer(&mut self, call: Call) -> (u64, u64) {
        let c = &mut self.case;
        let there = |k: usize, n: usize| (1..=n).contains(&k);
        match call {
            Demand(j, _) if !there(j, c.n) => return (24, 0),
            Demand(j, v) if v > 4_000 => return (4, (c.m + j) as u64),
            Demand(j, v) => c.demands[j - 1] = v,
            Supply(i, _) if !there(i, c.m) => return (24, 0),
            Supply(i, v) if v > 4_000 => return (4, i as u64),
            Supply(1, v) if v < c.run1 => return (23, 1),
            Supply(2, v) if v < c.run2 => return (23, 2),
            Supply(i, v) => c.supplies[i - 1] = v,
            Cost(i, j, _) if !there(i, c.m) || !there(j, c.n) => return (24, 0),
            Cost(i, j, v) if v.abs() > 1_000_000 => return (5, ((i - 1) * c.n + j) as u64),
            Cost(i, j, v) => c.costs[(i - 1) * c.n + j - 1] = v,
            Entry(y, _) if y >= c.table.len() => return (24, 0),
            Entry(y, v) => c.table[y] = v,
            Mark(k) | Back(k) if !there(k, 8) => return (24, 0),
            Mark(k) => self.marks[k] = Some(c.clone()),
            Back(k) if self.marks[k].is_none() => return (25, k as u64),
            Back(k) => self.case = self.marks[k].clone().unwrap(),
        }
        self.case.table.resize(self.case.supplies[0] as usize + 1, 0);
        (0, 0)
    }
}

/// A call of any kind, now and then at a place that is not there or with a value out of range.
fn draw(random: &mut Random, case: &Lent) -> Call {
    let odd = random.within(0, 11) == 0;
    let place =
        |random: &mut Random, n: usize| if odd { [0, n + 1, usize::MAX][random.size(0, 2)] } else { random.size(1, n) };
    let wild = random.within(0, 15) == 0;
    let amount = |random: &mut Random| if wild { [4_001, u64::MAX][random.size(0, 1)] } else { random.within(0, 12) };
    match random.within(0, 6) {
        0 => Demand(place(random, case.n), amount(random)),
        1 => Supply(place(random, case.m), amount(random)),
        2 => Supply(1, random.within(0, 14)),
        3 => {
            let value = if wild {
                [-1_000_001, -i64::MAX, 1_000_001, i64::MAX][random.size(0, 3)]
            } else {
                random.signed(-30, 60)
            };
            Cost(place(random, case.m), place(random, case.n), value)
        }
        4 => {
            let y = if odd { case.table.len() + random.size(0, 3) } else { random.size(0, case.table.len() - 1) };
            Entry(y, if wild { u64::MAX } else { random.within(0, 300) })
        }
        5 => Mark(if odd { place(random, 8) } else { random.size(1, 4) }),
        _ => Back(if odd { place(random, 8) } else { random.size(1, 4) }),
    }
}

/// What planning tells, cell by cell.
type Planned = (u64, Vec<u64>, Vec<u64>, Vec<i64>, Vec<u64>, Vec<i64>);

fn planned(role: usize, store: &[u64], cells: usize) -> Planned {
    let (mut plan, mut splits, mut freights) = (untouched(1, cells), untouched(2, 64), untouched_signed(3, 64));
    let (mut report, mut worth) = (untouched(4, 4), untouched_signed(5, 5));
    let number = plan_case_into(role, store, &mut plan, &mut splits, &mut freights, &mut report, &mut worth);
    (number, plan, splits, freights, report, worth)
}

fn planned_mark(role: usize, mark: usize, store: &[u64], cells: usize) -> Planned {
    let (mut plan, mut splits, mut freights) = (untouched(1, cells), untouched(2, 64), untouched_signed(3, 64));
    let (mut report, mut worth) = (untouched(4, 4), untouched_signed(5, 5));
    let number = plan_mark_into(role, mark, store, &mut plan, &mut splits, &mut freights, &mut report, &mut worth);
    (number, plan, splits, freights, report, worth)
}

/// A refusal: nothing is written but its place.
fn refused_plan(number: u64, place: u64, cells: usize) -> Planned {
    let report = [&[place], &untouched(4, 4)[1..]].concat();
    (number, untouched(1, cells), untouched(2, 64), untouched_signed(3, 64), report, untouched_signed(5, 5))
}

fn limits(role: usize, store: &[u64], cells: (usize, usize)) -> (u64, Vec<u64>, Vec<u64>, Vec<u64>) {
    let (mut runs, mut ceilings, mut report) = (untouched(6, cells.0), untouched(7, cells.1), untouched(4, 3));
    let number = see_limits_into(role, store, &mut runs, &mut ceilings, &mut report);
    (number, runs, ceilings, report)
}

fn flags(role: usize, store: &[u64], cells: usize) -> (u64, Vec<u64>, Vec<u64>) {
    let (mut marks, mut report) = (untouched(6, cells), untouched(4, 3));
    let number = marks_set_into(role, store, &mut marks, &mut report);
    (number, marks, report)
}

/// The case of the model, planned afresh.
fn afresh(case: &Lent) -> Planned {
    let a = Lent { plan_cells: case.m * case.n, split_cells: 64, freight_cells: 64, ..case.clone() }.call();
    (a.number, a.plan, a.splits, a.freights, a.report, a.worth)
}

/// What a role sees of the tariff and of the table, cell by cell.
type Seen = (u64, Vec<i64>, Vec<u64>, Vec<u64>, Vec<u64>);

fn tariff(role: usize, store: &[u64], cells: (usize, usize, usize)) -> Seen {
    let (mut costs, mut supplies, mut demands) =
        (untouched_signed(6, cells.0), untouched(7, cells.1), untouched(8, cells.2));
    let mut report = untouched(4, 3);
    let number = see_tariff_into(role, store, &mut costs, &mut supplies, &mut demands, &mut report);
    (number, costs, supplies, demands, report)
}

fn table(role: usize, store: &[u64], cells: usize) -> (u64, Vec<u64>, Vec<u64>) {
    let (mut table, mut report) = (untouched(6, cells), untouched(4, 3));
    let number = see_table_into(role, store, &mut table, &mut report);
    (number, table, report)
}

const SMALL: Limits = Limits { sources: (2, 4), terminals: (1, 4), amount: 9 };

#[test]
fn histories() {
    let mut random = Random::new(204);
    let mut met = [0; 40];
    for _ in 0..1_500 {
        let (case, _, _) = accepted(&mut random, SMALL);
        let mut store = entered(&case);
        let mut model = Model::new(&case);
        for _ in 0..14 {
            let call = draw(&mut random, &model.case);
            let told = answer(call, PLANNER, &mut store);
            assert_eq!(told, model.answer(call), "{call:?} on {:?}", model.case);
            met[told.0 as usize] += 1;
            let c = &model.case;
            let plan = planned(PLANNER, &store, c.m * c.n);
            assert_eq!(plan, afresh(c), "planned; {c:?}");
            met[plan.0 as usize] += 1;
            let seen = tariff(PLANNER, &store, (c.m * c.n, c.m, c.n));
            assert_eq!(seen, (0, c.costs.clone(), c.supplies.clone(), c.demands.clone(), untouched(4, 3)), "tariff");
            assert_eq!(table(PLANNER, &store, c.table.len()), (0, c.table.clone(), untouched(4, 3)), "table");
            assert_eq!(
                limits(PLANNER, &store, (2, c.m * c.n)),
                (0, vec![c.run1, c.run2], c.ceilings.clone(), untouched(4, 3)),
                "limits"
            );
            let set = (1..9).map(|k| model.marks[k].is_some() as u64).collect();
            assert_eq!(flags(PLANNER, &store, 8), (0, set, untouched(4, 3)), "marks");
            let mark = random.size(0, 9);
            let told = match model.marks.get(mark).filter(|_| mark > 0) {
                None => refused_plan(24, 0, c.m * c.n),
                Some(None) => refused_plan(25, mark as u64, c.m * c.n),
                Some(Some(held)) => afresh(held),
            };
            assert_eq!(planned_mark(PLANNER, mark, &store, c.m * c.n), told, "mark {mark}; {c:?}");
        }
    }
    for number in [0, 4, 5, 7, 8, 9, 23, 24, 25] {
        assert!(met[number] > 50, "{number} was met {} times", met[number]);
    }
}

#[test]
fn largest() {
    let mut random = Random::new(2_048);
    let (case, _, _) = accepted(&mut random, Limits { sources: (32, 32), terminals: (64, 64), amount: 40 });
    let mut work = WorkingCase::enter(&as_case(&case)).unwrap();
    let first = work.plan(Role::Planner).unwrap();
    for k in 1..=8 {
        work.mark(Role::Planner, k).unwrap();
        work.edit_demand(Role::Depot, 64, 4_000).unwrap();
        work.edit_supply(Role::Planner, 1, 4_000 - k as u64).unwrap();
        assert_eq!(work.see_table(Role::Plant).unwrap().len(), 4_001 - k);
    }
    work.go_back(Role::Planner, 1).unwrap();
    assert_eq!(work.plan(Role::Planner).unwrap(), first);
    assert_eq!(work.see_table(Role::Planner).unwrap(), case.table);
}

fn as_case(lent: &Lent) -> Case {
    Case {
        costs: lent.costs.clone(),
        supplies: lent.supplies.clone(),
        demands: lent.demands.clone(),
        table: lent.table.clone(),
        runs: [lent.run1, lent.run2],
        ceilings: Some(lent.ceilings.clone()),
    }
}

#[test]
fn marks() {
    let mut store = entered(&Lent::a());
    assert_eq!(answer(Back(1), PLANNER, &mut store), (25, 1));
    for (call, told) in
        [(Mark(0), 24), (Mark(9), 24), (Back(0), 24), (Back(9), 24), (Mark(usize::MAX), 24), (Mark(8), 0)]
    {
        assert_eq!(answer(call, PLANNER, &mut store), (told, 0), "{call:?}");
    }
    assert_eq!(answer(Demand(1, 4), PLANNER, &mut store), (0, 0));
    assert_eq!(answer(Mark(1), PLANNER, &mut store), (0, 0));
    assert_eq!(answer(Back(8), PLANNER, &mut store), (0, 0));
    assert_eq!(tariff(PLANNER, &store, (6, 3, 2)).3, [3, 2]);
    assert_eq!(answer(Back(1), PLANNER, &mut store), (0, 0));
    assert_eq!(tariff(PLANNER, &store, (6, 3, 2)).3, [4, 2]);
}

#[test]
fn marks_of_the_object() {
    let case = as_case(&Lent::a());
    let mut work = WorkingCase::enter(&case).unwrap();
    assert_eq!(work.marks(Role::Planner).unwrap(), []);
    work.mark(Role::Planner, 3).unwrap();
    work.edit_demand(Role::Depot, 2, 3).unwrap();
    work.mark(Role::Planner, 8).unwrap();
    assert_eq!(work.marks(Role::Planner).unwrap(), [3, 8]);
    assert_eq!(work.plan_mark(Role::Planner, 3).unwrap().total, 33);
    assert_eq!(work.plan_mark(Role::Planner, 8).unwrap(), work.plan(Role::Planner).unwrap());
    assert_eq!(work.plan_mark(Role::Planner, 4).unwrap_err().number, 25);
    let limits = work.see_limits(Role::Planner).unwrap();
    assert_eq!((limits.runs, Some(limits.ceilings)), (case.runs, case.ceilings));
    assert_eq!(work.see_limits(Role::Reader).unwrap_err().number, 31);
    assert_eq!(work.marks(Role::Plant).unwrap_err().number, 31);
}

#[test]
fn tables_follow_the_first_supply() {
    let mut work = WorkingCase::enter(&as_case(&Lent::a())).unwrap();
    work.edit_supply(Role::Planner, 1, 1).unwrap();
    assert_eq!(work.see_table(Role::Plant).unwrap(), [99, 20]);
    work.edit_supply(Role::Planner, 1, 4).unwrap();
    assert_eq!(work.see_table(Role::Plant).unwrap(), [99, 20, 0, 0, 0]);
    assert_eq!(work.edit_entry(Role::Plant, 5, 1).unwrap_err().number, 24);
    work.edit_entry(Role::Plant, 4, u64::MAX).unwrap();
    let refusal = work.plan(Role::Planner).unwrap_err();
    assert_eq!((refusal.number, refusal.place), (9, 4));
    assert_eq!(format!("{work:?}"), "WorkingCase of 3 sources and 2 terminals");
}

#[test]
fn entering() {
    let a = Lent::a();
    let cells = 9 * (6 + 3 + 2 + 4_020) + 9 * 6;
    assert_eq!(store_cells(3, 2), cells);
    assert_eq!(store_cells(32, 64), 9 * (2_048 + 96 + 4_020) + 9 * 2_048);
    for (m, n) in [(1, 2), (33, 2), (3, 0), (3, 65), (0, 0), (usize::MAX, usize::MAX)] {
        assert_eq!(store_cells(m, n), 0);
    }
    let refused = |lent: &Lent, cells: usize, number: u64, place: u64| {
        let (mut store, mut report) = (untouched(9, cells), untouched(4, 2));
        assert_eq!(enter(lent, &mut store, &mut report), number);
        assert_eq!((store, report), (untouched(9, cells), vec![place, untouched(4, 2)[1]]));
    };
    refused(&a, cells - 1, 11, 0);
    refused(&a, 0, 11, 0);
    refused(&Lent { m: 33, ..a.clone() }, 0, 1, 0);
    refused(&Lent { n: 65, ..a.clone() }, 0, 2, 0);
    refused(&Lent { costs: vec![0; 5], ..a.clone() }, cells, 3, 0);
    refused(&Lent { demands: vec![3, 4_001], ..a.clone() }, cells, 4, 5);
    refused(&Lent { run2: 4, ..a.clone() }, cells, 23, 2);
    refused(&Lent { costs: vec![0, 0, 0, 0, 0, -1_000_001], ..a.clone() }, cells, 5, 6);
    refused(&Lent { ceilings: vec![0, 0, 0, 0, 4_001, 0], ..a.clone() }, cells, 26, 5);
    refused(&Lent { table: vec![0; 5], ..a.clone() }, cells, 6, 0);
    // Balance and entries are judged when it is planned.
    let store = entered(&Lent { demands: vec![30, 2], ..a.clone() });
    assert_eq!(planned(PLANNER, &store, 6).0, 8);
    let refusal = WorkingCase::enter(&Case { supplies: vec![1], ..as_case(&a) }).unwrap_err();
    assert_eq!(refusal.number, 1);
    // Entering again clears the marks.
    let mut store = entered(&a);
    assert_eq!(answer(Mark(2), PLANNER, &mut store), (0, 0));
    assert_eq!(enter(&a, &mut store, &mut [7; 2]), 0);
    assert_eq!(answer(Back(2), PLANNER, &mut store), (25, 2));
}

#[test]
fn stores_that_hold_no_case() {
    let calls = [Demand(1, 1), Supply(1, 1), Cost(1, 1, 1), Entry(0, 1), Mark(1), Back(1)];
    let mut unsigned = entered(&Lent::a());
    unsigned[10] -= 1;
    let short = entered(&Lent::a())[..36_000].to_vec();
    for mut store in [vec![], vec![7; 9], vec![0; 40_000], vec![7; 80_000], vec![33; 80_000], unsigned, short] {
        for call in calls {
            assert_eq!(answer(call, PLANNER, &mut store), (11, 0));
            assert_eq!(answer(call, OUTSIDERS[1], &mut store), (31, 0));
        }
        assert_eq!(planned(PLANNER, &store, 6).0, 11);
        assert_eq!(tariff(PLANNER, &store, (6, 3, 2)).0, 11);
        assert_eq!(table(PLANNER, &store, 4_001).0, 11);
        assert_eq!(limits(PLANNER, &store, (2, 6)).0, 11);
        assert_eq!(flags(PLANNER, &store, 8).0, 11);
        assert_eq!(planned_mark(PLANNER, 1, &store, 6).0, 11);
    }
}

#[test]
fn short_slices() {
    let mut store = entered(&Lent::a());
    let refused = |seen: Seen, c: usize, s: usize, d: usize, number: u64| {
        let place = if number == SHORT_REPORT { untouched(4, 3)[0] } else { 0 };
        let report = [&[place], &untouched(4, 3)[1..]].concat();
        assert_eq!(seen, (number, untouched_signed(6, c), untouched(7, s), untouched(8, d), report));
    };
    for (c, s, d) in [(5, 3, 2), (6, 2, 2), (6, 3, 1), (0, 0, 0)] {
        refused(tariff(PLANNER, &store, (c, s, d)), c, s, d, 11);
        refused(tariff(0, &store, (c, s, d)), c, s, d, 31);
    }
    assert_eq!(table(PLANNER, &store, 3), (11, untouched(6, 3), [&[0], &untouched(4, 3)[1..]].concat()));
    let seen = tariff(PLANNER, &store, (8, 4, 5));
    assert_eq!(
        (&seen.1[6..], &seen.2[3..], &seen.3[2..]),
        (&untouched_signed(6, 8)[6..], &untouched(7, 4)[3..], &untouched(8, 5)[2..])
    );
    assert_eq!(table(PLANNER, &store, 6).1[4..], untouched(6, 6)[4..]);
    assert_eq!(planned(PLANNER, &store, 5).0, 11);
    let eleven = || [&[0], &untouched(4, 3)[1..]].concat();
    for (r, c) in [(1, 6), (2, 5), (0, 0)] {
        assert_eq!(limits(PLANNER, &store, (r, c)), (11, untouched(6, r), untouched(7, c), eleven()));
    }
    assert_eq!(flags(PLANNER, &store, 7), (11, untouched(6, 7), eleven()));
    let seen = limits(PLANNER, &store, (3, 8));
    assert_eq!((&seen.1[2..], &seen.2[6..]), (&untouched(6, 3)[2..], &untouched(7, 8)[6..]));
    assert_eq!(flags(PLANNER, &store, 9).1[8..], untouched(6, 9)[8..]);
    assert_eq!(see_limits_into(PLANNER, &store, &mut [7; 2], &mut [7; 6], &mut [7]), SHORT_REPORT);
    assert_eq!(marks_set_into(PLANNER, &store, &mut [7; 8], &mut [7]), SHORT_REPORT);
    // A report or a worth of fewer than two cells: nothing is done.
    let before = store.clone();
    for call in [Demand(1, 1), Supply(1, 1), Cost(1, 1, 1), Entry(0, 1), Mark(1), Back(1)] {
        for cells in [0, 1] {
            let mut report = untouched(4, cells);
            assert_eq!(make(call, PLANNER, &mut store, &mut report), SHORT_REPORT);
            assert_eq!(report, untouched(4, cells));
        }
    }
    assert_eq!(enter(&Lent::report_example(), &mut store, &mut [7]), SHORT_REPORT);
    assert!(store == before);
    assert_eq!(see_tariff_into(PLANNER, &store, &mut [7; 6], &mut [7; 3], &mut [7; 2], &mut [7]), SHORT_REPORT);
    assert_eq!(see_table_into(PLANNER, &store, &mut [7; 4], &mut [7]), SHORT_REPORT);
    for (report, worth) in [(1, 2), (2, 1), (0, 0)] {
        let (mut r, mut w) = (untouched(4, report), untouched_signed(5, worth));
        assert_eq!(
            plan_case_into(PLANNER, &store, &mut [7; 6], &mut [7; 4], &mut [7; 4], &mut r, &mut w),
            SHORT_REPORT
        );
        assert_eq!((r, w), (untouched(4, report), untouched_signed(5, worth)));
    }
}

/// Who may do what, in the paper's words.
#[test]
fn roles() {
    // edit demand or supply, edit lane cost, edit entry, see tariff, see table, plan, set mark, go back
    let allowed = |role: usize, deed: usize| match role {
        1 => true,
        2 => [3, 4, 5].contains(&deed),
        3 => [1, 4].contains(&deed),
        4 => deed == 4,
        _ => false,
    };
    for role in [0, 1, 2, 3, 4, 5, usize::MAX] {
        let mut store = entered(&Lent::a());
        assert_eq!(answer(Mark(1), PLANNER, &mut store), (0, 0));
        let calls =
            [(1, Demand(1, 3)), (1, Supply(2, 3)), (2, Cost(1, 1, 2)), (3, Entry(0, 99)), (7, Mark(2)), (8, Back(1))];
        for (deed, call) in calls {
            let told = if allowed(role, deed) { 0 } else { 31 };
            assert_eq!(answer(call, role, &mut store), (told, 0), "role {role}, {call:?}");
        }
        // 31 is tested first of all.
        let wrong =
            [(1, Demand(9, 3)), (1, Supply(9, 3)), (2, Cost(9, 1, 2)), (3, Entry(9, 99)), (7, Mark(9)), (8, Back(9))];
        for (deed, call) in wrong {
            let told = if allowed(role, deed) { 24 } else { 31 };
            assert_eq!(answer(call, role, &mut store), (told, 0), "role {role}, {call:?}");
        }
        // The exception: a_1 is the planner's.
        let told = if role == PLANNER { 0 } else { 31 };
        assert_eq!(answer(Supply(1, 3), role, &mut store), (told, 0), "role {role}, a_1");
        assert_eq!(tariff(role, &store, (6, 3, 2)).0, if allowed(role, 4) { 0 } else { 31 });
        assert_eq!(table(role, &store, 4).0, if allowed(role, 5) { 0 } else { 31 });
        assert_eq!(planned(role, &store, 6).0, if allowed(role, 6) { 0 } else { 31 });
        // Three operations count as planning.
        assert_eq!(limits(role, &store, (2, 6)).0, if allowed(role, 6) { 0 } else { 31 });
        assert_eq!(flags(role, &store, 8).0, if allowed(role, 6) { 0 } else { 31 });
        assert_eq!(planned_mark(role, 1, &store, 6).0, if allowed(role, 6) { 0 } else { 31 });
        assert_eq!(planned_mark(role, 9, &store, 6).0, if allowed(role, 6) { 24 } else { 31 });
    }
}

/// Depot and reader on two stores alike but for entries, in the case and its marks: all that they get is the same.
#[test]
fn outsiders() {
    let mut random = Random::new(212);
    let mut met = [0; 40];
    for _ in 0..1_000 {
        let (case, _, _) = accepted(&mut random, SMALL);
        let (mut a, mut b) = (entered(&case), entered(&case));
        for k in 1..=3 {
            for y in 0..case.table.len() {
                assert_eq!(answer(Entry(y, random.next()), PLANNER, &mut a), (0, 0));
                assert_eq!(answer(Entry(y, random.within(0, 1_000)), PLANNER, &mut b), (0, 0));
            }
            assert_eq!((answer(Mark(k), PLANNER, &mut a), answer(Mark(k), PLANNER, &mut b)), ((0, 0), (0, 0)));
        }
        assert!(table(PLANNER, &a, 4_001) != table(PLANNER, &b, 4_001));
        for _ in 0..14 {
            let role = OUTSIDERS[random.size(0, 3) / 3]; // more often the depot, which may do more
            match random.within(0, 8) {
                0 => {
                    let cells = (random.size(0, 16), random.size(0, 4), random.size(0, 4));
                    let seen = tariff(role, &a, cells);
                    met[seen.0 as usize] += 1;
                    assert_eq!(seen, tariff(role, &b, cells));
                }
                1 => assert_eq!(table(role, &a, 20), table(role, &b, 20)),
                2 => assert_eq!(planned(role, &a, 16), planned(role, &b, 16)),
                _ => {
                    let call = draw(&mut random, &case);
                    let told = answer(call, role, &mut a);
                    met[told.0 as usize] += 1;
                    assert_eq!(told, answer(call, role, &mut b), "{call:?}");
                }
            }
        }
        let all = (case.m * case.n, case.m, case.n);
        assert_eq!(tariff(OUTSIDERS[1], &a, all), tariff(OUTSIDERS[1], &b, all));
    }
    for number in [0, 4, 11, 23, 24, 31] {
        assert!(met[number] > 20, "{number} was met {} times", met[number]);
    }
}
