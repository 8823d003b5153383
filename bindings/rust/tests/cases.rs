//! The cases of the paper: P1 to P10, the report's example, and those at the limits.

mod common;

use common::{expect_plan, expect_referee, expect_refusal, referee, Lent};
use yadvorkhul::{Case, Stop};

fn with_table(table: &[u64]) -> Lent {
    Lent { table: table.to_vec(), ..Lent::a() }
}

/// Planned with this split, total and freight curve, and as the referee says in each cell.
fn planned(lent: &Lent, split: u64, total: i64, least: u64, curve: &[i64]) {
    assert_eq!(referee::curve(lent), (least, curve.to_vec()));
    assert_eq!(referee::best(least, curve, &lent.table), (split, total));
    expect_plan(lent, least, curve);
}

#[test]
fn p1() {
    planned(&Lent::a(), 3, 33, 1, &[14, 11, 13]);
}

#[test]
fn p2() {
    planned(&with_table(&[99, 20, 24, 22]), 1, 34, 1, &[14, 11, 13]);
}

#[test]
fn p3_tie() {
    planned(&with_table(&[99, 20, 24, 21]), 1, 34, 1, &[14, 11, 13]);
}

#[test]
fn p4_between() {
    planned(&with_table(&[99, 20, 20, 20]), 2, 31, 1, &[14, 11, 13]);
}

#[test]
fn p5_refusal_7() {
    expect_refusal(&Lent { supplies: vec![3, 3, 6], ..Lent::a() }, 7, 0);
}

#[test]
fn p6_refusal_8() {
    expect_refusal(&Lent { supplies: vec![1, 2, 1], table: vec![99, 20], ..Lent::a() }, 8, 0);
}

/// Once refused: a table that is not concave.
#[test]
fn p7_any_table() {
    planned(&with_table(&[99, 20, 20, 22]), 2, 31, 1, &[14, 11, 13]);
}

#[test]
fn p8_refusal_4() {
    expect_refusal(&Lent { supplies: vec![4001, 3, 1], ..Lent::a() }, 4, 1);
}

#[test]
fn p9_nothing_made() {
    planned(&Lent { supplies: vec![3, 3, 5], ..Lent::a() }, 0, 110, 0, &[11]);
}

#[test]
fn p10_one_split() {
    planned(&Lent { supplies: vec![3, 1, 1], ..Lent::a() }, 3, 33, 3, &[13]);
}

/// Least runs 2 and 1 leave case A its split; 2 and 2 do not. At their limits: a plant's supply, d together, one more.
#[test]
fn least_runs() {
    let with = |run1: u64, run2: u64| Lent { run1, run2, ..Lent::a() };
    planned(&with(2, 1), 3, 33, 2, &[11, 13]);
    planned(&with(2, 2), 2, 35, 2, &[11]);
    planned(&with(0, 2), 1, 34, 1, &[14, 11]);
    planned(&with(3, 0), 3, 33, 3, &[13]);
    planned(&with(3, 1), 3, 33, 3, &[13]);
    planned(&with(0, 3), 1, 34, 1, &[14]);
    planned(&with(1, 3), 1, 34, 1, &[14]);
    expect_refusal(&with(2, 3), 7, 0);
    expect_refusal(&with(4, 0), 23, 1);
    expect_refusal(&with(0, 4), 23, 2);
    expect_refusal(&with(4, 4), 23, 1);
    // nothing to make, and nothing that must be made
    planned(&Lent { supplies: vec![3, 3, 5], ..with(0, 0) }, 0, 110, 0, &[11]);
    expect_refusal(&Lent { supplies: vec![3, 3, 5], ..with(0, 1) }, 7, 0);
}

/// Ceiling 1 from plant 1 to terminal 1 moves case A's split; ceilings can move ℓ, u and both, and stand against a run.
#[test]
fn ceilings() {
    let with = |ceilings: [u64; 6]| Lent { ceilings: ceilings.to_vec(), ..Lent::a() };
    planned(&with([1, 4_000, 4_000, 4_000, 4_000, 4_000]), 1, 34, 1, &[14, 17, 20]);
    planned(&with([4_000; 6]), 3, 33, 1, &[14, 11, 13]);
    planned(&with([3; 6]), 3, 33, 1, &[14, 11, 13]);
    // plant 2 has one lane, to terminal 2: ℓ is 2
    planned(&with([4_000, 4_000, 0, 4_000, 4_000, 4_000]), 3, 33, 2, &[11, 13]);
    // plant 1 carries 2 at most: u is 2
    planned(&with([1, 1, 4_000, 4_000, 4_000, 4_000]), 1, 34, 1, &[14, 17]);
    // both
    planned(&with([2, 0, 0, 4_000, 4_000, 4_000]), 2, 35, 2, &[11]);
    expect_refusal(&Lent { run1: 3, ..with([2, 0, 0, 4_000, 4_000, 4_000]) }, 27, 0);
    expect_refusal(&Lent { run2: 3, ..with([2, 0, 0, 4_000, 4_000, 4_000]) }, 27, 0);
    expect_refusal(&with([0; 6]), 27, 0);
    // no drum is made or sent: closed lanes do not matter
    let idle = Lent { supplies: vec![3, 3, 0], demands: vec![0, 0], ..with([0; 6]) };
    planned(&idle, 0, 99, 0, &[0]);
    // an entry beyond u does not matter, nor the room for its split
    let narrow = Lent { table: vec![99, 20, 24, u64::MAX], ..with([1, 1, 4_000, 4_000, 4_000, 4_000]) };
    planned(&Lent { split_cells: 2, freight_cells: 2, ..narrow.clone() }, 1, 34, 1, &[14, 17]);
    expect_refusal(&Lent { split_cells: 1, ..narrow.clone() }, 11, 0);
    expect_refusal(&Lent { table: vec![99, 20, 1_000_000_001, 0], ..narrow }, 9, 2);
}

/// All lanes cost the same: of the many cheapest plans the one that has the smaller amount at the first lane where it differs.
#[test]
fn one_plan_for_everybody() {
    let with = |costs: [i64; 6], table: [u64; 4]| Lent { costs: costs.to_vec(), table: table.to_vec(), ..Lent::a() };
    let plan = |lent: &Lent| lent.call().plan[..6].to_vec();
    // split 1, 2 and 3: plant 1 sends to terminal 2 what that takes, then plant 2 likewise
    assert_eq!(plan(&with([5; 6], [9, 0, 9, 9])), [0, 1, 2, 1, 1, 0]);
    assert_eq!(plan(&with([5; 6], [9, 9, 0, 9])), [0, 2, 2, 0, 1, 0]);
    assert_eq!(plan(&with([5; 6], [9, 9, 9, 0])), [1, 2, 1, 0, 1, 0]);
    // the depot costs the same everywhere, the plants do not
    assert_eq!(plan(&with([1, 2, 1, 2, 7, 7], [9, 9, 0, 9])), [1, 1, 2, 0, 0, 1]);
    assert_eq!(plan(&with([1, 2, 2, 1, 7, 7], [9, 9, 0, 9])), [2, 0, 0, 2, 1, 0]);
    // a ceiling turns one drum another way
    let narrow = Lent { ceilings: vec![4_000, 1, 4_000, 4_000, 4_000, 4_000], ..with([5; 6], [9, 9, 0, 9]) };
    assert_eq!(plan(&narrow), [1, 1, 1, 1, 1, 0]);
    for lent in [narrow, with([5; 6], [9, 0, 9, 9]), with([1, 2, 1, 2, 7, 7], [9, 9, 0, 9])] {
        assert_eq!(expect_referee(&lent), 0);
    }
}

/// Rebates: a curve that is negative throughout, and one that passes 0.
#[test]
fn rebates() {
    let rebate = |costs: &[i64]| Lent { costs: costs.to_vec(), ..Lent::a() };
    planned(&rebate(&[2, 6, 5, 3, 1, -40]), 3, -11, 1, &[-25, -28, -31]);
    planned(&rebate(&[-2, -6, -5, -3, -1, -4]), 1, -5, 1, &[-25, -23, -20]);
    planned(&rebate(&[-2, 6, -5, 3, -1, 4]), 1, 15, 1, &[-5, -2, 1]);
}

/// Less is more negative, not smaller in size: a total of -30 goes before one of -1 and of 1.
#[test]
fn signed_order_of_totals() {
    let costs = vec![-10, -10, 0, 0, 0, 0];
    let lent = |table: &[u64]| Lent { costs: costs.clone(), table: table.to_vec(), ..Lent::a() };
    planned(&lent(&[99, 11, 11, 0]), 3, -30, 1, &[-10, -20, -30]);
    planned(&lent(&[99, 0, 11, 22]), 1, -10, 1, &[-10, -20, -30]);
    planned(&lent(&[99, 5, 15, 25]), 1, -5, 1, &[-10, -20, -30]);
}

#[test]
fn report_example() {
    let lent = Lent::report_example();
    let (least, curve) = referee::curve(&lent);
    let stops = [(100, 1430), (150, 1030), (180, 820), (200, 800)];
    assert_eq!(referee::stops(least, &curve), stops);
    planned(&lent, 200, 800, 100, &curve);
}

/// The least total lies between two stops: the report's example with an entry that dips at 140, a charge for more than 120, and
/// a charge for less than 130.
#[test]
fn between_two_stops() {
    let with = |entry: fn(u64) -> u64| Lent { table: (0..=200).map(entry).collect(), ..Lent::report_example() };
    let (_, curve) = referee::curve(&Lent::report_example());
    planned(&with(|y| if y == 140 { 0 } else { 9_000 }), 140, 1_110, 100, &curve);
    planned(&with(|y| if y <= 120 { 0 } else { 5_000 }), 120, 1_270, 100, &curve);
    planned(&with(|y| if y < 130 { 5_000 } else { 10 * y }), 130, 2_490, 100, &curve);
}

/// The report's own table, 100 times the square root of y, in hundredths: the least total is at 180.
#[test]
fn report_example_with_its_table() {
    let mut lent = Lent::report_example();
    lent.costs.iter_mut().for_each(|c| *c *= 10_000);
    lent.table = (0..=200u64).map(|y| (1_000_000.0 * (y as f64).sqrt()).round() as u64).collect();
    let (least, curve) = referee::curve(&lent);
    assert_eq!(referee::best(least, &curve, &lent.table).0, 180);
    expect_plan(&lent, least, &curve);
}

#[test]
fn owned_types() {
    let a = Lent::a();
    let case = Case { costs: a.costs, supplies: a.supplies, demands: a.demands, table: a.table, ..Case::default() };
    let plan = case.plan().unwrap();
    assert_eq!((plan.split, plan.total, plan.freight), (3, 33, 13));
    assert_eq!(plan.rows().collect::<Vec<_>>(), [[3, 0], [0, 1], [0, 1]]);
    let stop = |split, freight| Stop { split, freight };
    assert_eq!(plan.stops, [stop(1, 14), stop(2, 11), stop(3, 13)]);
    let plan = Case { runs: [2, 2], ..case.clone() }.plan().unwrap();
    assert_eq!((plan.split, plan.total, plan.stops), (2, 35, vec![stop(2, 11)]));
    let plan = Case { ceilings: Some(vec![1, 9, 9, 9, 9, 9]), ..case.clone() }.plan().unwrap();
    assert_eq!((plan.split, plan.total, plan.stops), (1, 34, vec![stop(1, 14), stop(3, 20)]));
    let wide = Case { ceilings: Some(vec![4_000; 6]), ..case.clone() };
    assert_eq!(wide.plan(), case.plan());
}

#[test]
fn refusals_are_readable() {
    let a = Lent::a();
    let case = Case { costs: a.costs, supplies: a.supplies, demands: a.demands, table: a.table, ..Case::default() };
    let text = |case: Case| case.plan().unwrap_err().to_string();
    for beyond in [1_000_001, -1_000_001] {
        let costs = vec![2, 6, 5, 3, 1, beyond];
        assert_eq!(
            text(Case { costs, ..case.clone() }),
            "refusal 5 at place 6: a unit cost is below -1,000,000 or above 1,000,000; \
             look at the cost from source 3 to terminal 2"
        );
    }
    assert_eq!(
        text(Case { table: vec![99, 20, 1_000_000_001, 22], ..case.clone() }),
        "refusal 9 at place 2: a table entry at a split in use is above 1,000,000,000; look at table entry 2"
    );
    assert_eq!(
        text(Case { runs: [0, 4], ..case.clone() }),
        "refusal 23 at place 2: a least run is above its plant's supply; look at the least run of plant 2"
    );
    assert_eq!(
        text(Case { runs: [2, 3], ..case.clone() }),
        "refusal 7: the terminals take less than the depots hold and the least runs make; \
         compare the sum of demands with the supplies from the third on and the least runs"
    );
    assert_eq!(
        text(Case { ceilings: Some(vec![9, 9, 9, 4_001, 9, 9]), ..case.clone() }),
        "refusal 26 at place 4: the ceilings are not one for each lane, or a ceiling is above 4,000; \
         look at the ceiling from source 2 to terminal 2"
    );
    assert_eq!(
        text(Case { ceilings: Some(vec![9; 5]), ..case.clone() }),
        "refusal 26: the ceilings are not one for each lane, or a ceiling is above 4,000; \
         3 sources and 2 terminals need 6 ceilings"
    );
    assert_eq!(
        text(Case { ceilings: Some(vec![0; 6]), ..case.clone() }),
        "refusal 27: no plan is within both the ceilings and the least runs; \
         look for closed or narrow lanes of a depot, a terminal or a plant that has a least run"
    );
    assert_eq!(
        text(Case { supplies: vec![3], ..case.clone() }),
        "refusal 1: the count of sources is not 2 to 32; there are 1 supplies"
    );
    assert_eq!(
        text(Case { costs: vec![1; 5], ..case }),
        "refusal 3: the costs are not one for each source and terminal; 3 sources and 2 terminals need 6 costs"
    );
}

/// m = 32 and 33, n = 64 and 65, amounts 4,000 and 4,001, unit costs 1,000,000 and 1,000,001 of both signs, stop slices of
/// u - ℓ + 1 and one less.
#[test]
fn limits() {
    let square = |m: usize, n: usize, amount: u64, cost: i64| {
        let mut lent =
            Lent::new(m, n, &vec![cost; m * n], &vec![amount; m], &vec![0; n], &vec![0; amount as usize + 1]);
        let mut rest = (m as u64 - 1) * amount;
        for demand in lent.demands.iter_mut() {
            *demand = rest.min(amount);
            rest -= *demand;
        }
        lent
    };
    let largest = square(32, 64, 4_000, 1_000_000);
    assert_eq!(expect_referee(&largest), 0);
    expect_refusal(&square(33, 64, 4_000, 1_000_000), 1, 0);
    expect_refusal(&square(32, 65, 4_000, 1_000_000), 2, 0);
    expect_refusal(&square(32, 64, 4_001, 1_000_000), 4, 1);
    expect_refusal(&square(32, 64, 4_000, 1_000_001), 5, 1);
    assert_eq!(expect_referee(&square(32, 64, 4_000, -1_000_000)), 0);
    expect_refusal(&square(32, 64, 4_000, -1_000_001), 5, 1);
    let exact = Lent { plan_cells: 2_048, split_cells: 4_001, freight_cells: 4_001, ..largest.clone() };
    assert_eq!(expect_referee(&exact), 0);
    expect_refusal(&Lent { plan_cells: 2_047, ..exact.clone() }, 11, 0);
    expect_refusal(&Lent { split_cells: 4_000, ..exact.clone() }, 11, 0);
    expect_refusal(&Lent { freight_cells: 4_000, ..exact }, 11, 0);
}

/// The highest and the lowest total that can be: 128,000 drums leave the sources, all at one end of the range.
#[test]
fn bounds_of_totals() {
    let full = |cost: i64, entry: u64| {
        let demands: Vec<u64> = (0..64).map(|j| if j % 2 == 0 { 4_000 } else { 0 }).collect();
        Lent::new(32, 64, &[cost; 2_048], &[4_000; 32], &demands, &[entry; 4_001])
    };
    planned(&full(1_000_000, 1_000_000_000), 4_000, 129_000_000_000, 4_000, &[128_000_000_000]);
    planned(&full(-1_000_000, 0), 4_000, -128_000_000_000, 4_000, &[-128_000_000_000]);
}

/// A huge source must not be taken for another one, in release neither: its row's first cell by a product would wrap to 0.
#[test]
#[should_panic(expected = "source 9223372036854775808 of 3")]
fn amount_of_a_huge_source() {
    let case = Case { costs: vec![2, 6, 5, 3, 1, 4], supplies: vec![3, 3, 1], demands: vec![3, 2], table: vec![99, 20, 24, 20], ..Case::default() };
    case.plan().unwrap().amount(1 << 63, 1);
}
