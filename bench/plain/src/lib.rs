//! The planner in plain Rust with path searches alone, in step 1 and from split to split: what the proved planner falls back to where
//! a check of the simplex or of its tree fails. The same functions, arrays and widths, with Rust's own checks in place of the proofs.
//! It answers as the proved one does, in the same cells.

mod canon;
mod engine;

use self::engine::{begin, sweep, Cells, Curve};

/// As `yadvorkhul::plan_into`.
#[allow(clippy::too_many_arguments)]
pub fn plan_into(
    m: usize,
    n: usize,
    run1: u64,
    run2: u64,
    costs: &[i64],
    supplies: &[u64],
    demands: &[u64],
    ceilings: &[u64],
    table: &[u64],
    plan: &mut [u64],
    splits: &mut [u64],
    freights: &mut [i64],
    report: &mut [u64],
    worth: &mut [i64],
) -> u64 {
    if report.len() < 2 || worth.len() < 2 {
        return 34;
    }
    let answer = checked(m, n, run1, run2, costs, supplies, demands, ceilings, table).and_then(|made| {
        planned(m, n, run1, run2, costs, supplies, demands, ceilings, table, made, plan, splits, freights)
    });
    match answer {
        Err((number, place)) => {
            report[0] = place;
            number
        }
        Ok(best) => {
            report[..2].copy_from_slice(&[best.split, best.stops as u64]);
            worth[..2].copy_from_slice(&[best.total, best.freight]);
            0
        }
    }
}

/// A refusal's number and place.
type Refusal = (u64, u64);

fn first_above(s: &[u64], limit: u64) -> Option<usize> {
    s.iter().position(|&a| limit < a)
}

/// The tests up to 8: what the plants make together, or the refusal.
#[allow(clippy::too_many_arguments)]
fn checked(
    m: usize,
    n: usize,
    run1: u64,
    run2: u64,
    costs: &[i64],
    supplies: &[u64],
    demands: &[u64],
    ceilings: &[u64],
    table: &[u64],
) -> Result<u64, Refusal> {
    if !(2..=32).contains(&m) {
        return Err((1, 0));
    }
    if !(1..=64).contains(&n) {
        return Err((2, 0));
    }
    if costs.len() != m * n || supplies.len() != m || demands.len() != n {
        return Err((3, 0));
    }
    if let Some(k) = first_above(supplies, 4_000) {
        return Err((4, k as u64 + 1));
    }
    if let Some(k) = first_above(demands, 4_000) {
        return Err((4, (m + k) as u64 + 1));
    }
    if supplies[0] < run1 {
        return Err((23, 1));
    }
    if supplies[1] < run2 {
        return Err((23, 2));
    }
    if let Some(k) = costs.iter().position(|&c| !(-1_000_000..=1_000_000).contains(&c)) {
        return Err((5, k as u64 + 1));
    }
    if ceilings.len() != m * n {
        return Err((26, 0));
    }
    if let Some(k) = first_above(ceilings, 4_000) {
        return Err((26, k as u64 + 1));
    }
    if table.len() as u64 != supplies[0] + 1 {
        return Err((6, 0));
    }
    let all: u64 = demands.iter().sum();
    let stock: u64 = supplies[2..].iter().sum();
    if all < stock + run1 + run2 {
        return Err((7, 0));
    }
    let made = all - stock;
    if supplies[0] + supplies[1] < made {
        return Err((8, 0));
    }
    Ok(made)
}

struct Best {
    split: u64,
    total: i64,
    freight: i64,
    stops: usize,
}

/// The working arrays from the lent slices with costs raised by 1,000,000, the first and the last split, the tests 27, 9 and 11,
/// the sweep, the plan into its slice, and what each drum was raised by taken off freights and total again.
#[allow(clippy::too_many_arguments)]
fn planned(
    m: usize,
    n: usize,
    run1: u64,
    run2: u64,
    costs: &[i64],
    supplies: &[u64],
    demands: &[u64],
    ceilings: &[u64],
    table: &[u64],
    made: u64,
    plan: &mut [u64],
    splits: &mut [u64],
    freights: &mut [i64],
) -> Result<Best, Refusal> {
    let cost = by_row(m, n, costs, |c| (c + 1_000_000) as u32);
    let cap = by_row(m, n, ceilings, |u| u as u32);
    let mut supply = [0u32; 32];
    narrow(supplies, &mut supply[..m]);
    let mut demand = [0u32; 96];
    narrow(demands, &mut demand[32..32 + n]);
    let added = 1_000_000 * demands.iter().sum::<u64>() as i64;
    let (mut x, mut serves, mut pot) = ([0u32; 2048], [0u32; 64], [0u32; 96]);
    let (made, run1, run2) = (made as u32, run1 as u32, run2 as u32);
    let range = begin(m, n, &cost, &cap, &supply, &demand, run1, run2, made, &mut x, &mut serves, &mut pot);
    let (lo, hi) = range.ok_or((27, 0))?;
    let part = &table[lo as usize..=hi as usize];
    if let Some(k) = first_above(part, 1_000_000_000) {
        return Err((9, lo + k as u64));
    }
    if plan.len() < m * n || splits.len() < part.len() || freights.len() < part.len() {
        return Err((11, 0));
    }
    let mut kept = [0u32; 2048];
    let mut raised = [0u64; 4001];
    let Curve { split, total, freight, stops } =
        sweep(m, n, &cost, &cap, &demand, lo, hi, table, splits, &mut raised, &mut x, &mut serves, &mut pot, &mut kept);
    for i in 0..m {
        for (amount, &k) in plan[i * n..(i + 1) * n].iter_mut().zip(&kept[i * 64..]) {
            *amount = u64::from(k);
        }
    }
    for (freight, &raised) in freights.iter_mut().zip(&raised[..stops]) {
        *freight = raised as i64 - added;
    }
    Ok(Best { split, total: total as i64 - added, freight: freight as i64 - added, stops })
}

/// m rows of n numbers into rows of 64 working cells.
fn by_row<T: Copy>(m: usize, n: usize, numbers: &[T], cell_of: impl Fn(T) -> u32) -> Cells {
    let mut cells = [0u32; 2048];
    for i in 0..m {
        for (cell, &number) in cells[i * 64..].iter_mut().zip(&numbers[i * n..(i + 1) * n]) {
            *cell = cell_of(number);
        }
    }
    cells
}

/// Numbers that fit, into narrower cells.
fn narrow(numbers: &[u64], cells: &mut [u32]) {
    for (cell, &number) in cells.iter_mut().zip(numbers) {
        *cell = number as u32;
    }
}
