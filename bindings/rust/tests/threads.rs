//! A working case under threads. Rust's own rules make it sound: planning and seeing take `&self` and only read the store, an edit, a mark
//! and a return take `&mut self`, so none of them can run beside another call (see the example of `WorkingCase` that must not compile).

use std::sync::RwLock;
use std::thread;
use yadvorkhul::{Case, Role, WorkingCase};

fn case_a() -> Case {
    Case {
        costs: vec![2, 6, 5, 3, 1, 4],
        supplies: vec![3, 3, 1],
        demands: vec![3, 2],
        table: vec![99, 20, 24, 20],
        ..Case::default()
    }
}

/// Compiles only where the working case may be handed to, and shared with, other threads.
#[test]
fn may_go_to_threads() {
    fn sound<T: Send + Sync>() {}
    sound::<WorkingCase>();
}

/// Planners whose case is refused by 9 at entry 2, and depots that may not see the table: each is told its own place.
#[test]
fn readers_beside_each_other() {
    let mut work = WorkingCase::enter(&case_a()).unwrap();
    work.edit_entry(Role::Plant, 2, 1_000_000_001).unwrap();
    let work = &work;
    thread::scope(|scope| {
        for k in 0..4 {
            scope.spawn(move || {
                for _ in 0..20_000 {
                    let refusal = match k % 2 {
                        0 => work.plan(Role::Planner).unwrap_err(),
                        _ => work.see_table(Role::Depot).unwrap_err(),
                    };
                    assert_eq!((refusal.number, refusal.place), if k % 2 == 0 { (9, 2) } else { (31, 0) });
                }
            });
        }
    });
}

/// Planners and editors, behind the lock that sharing what is changed needs: each plan belongs to one of the two states.
#[test]
fn editors_behind_a_lock() {
    let work = RwLock::new(WorkingCase::enter(&case_a()).unwrap());
    thread::scope(|scope| {
        for k in 0..4 {
            let work = &work;
            scope.spawn(move || {
                for round in 0..5_000 {
                    if k % 2 == 0 {
                        work.write().unwrap().edit_demand(Role::Depot, 2, 2 + round % 2).unwrap();
                    } else {
                        let plan = work.read().unwrap().plan(Role::Planner).unwrap();
                        assert!([(3, 33, 13), (3, 36, 16)].contains(&(plan.split, plan.total, plan.freight)));
                    }
                }
            });
        }
    });
}
