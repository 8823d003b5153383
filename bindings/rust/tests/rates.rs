//! The square-root rates: each by the rule, the cells that are kept, and the report's example planned with them.

use yadvorkhul::{rates, rates_into, Case, MOST_AMOUNT};

/// Is r the greatest number whose square is at most 10,000 × y?
fn right(y: u64, r: u64) -> bool {
    r * r <= 10_000 * y && 10_000 * y < (r + 1) * (r + 1)
}

#[test]
fn every_rate() {
    let table = rates(MOST_AMOUNT).unwrap();
    assert_eq!(table.len(), 4_001);
    assert!(table.iter().enumerate().all(|(y, &r)| right(y as u64, r)));
    assert!(table.windows(2).all(|pair| pair[0] <= pair[1]));
}

#[test]
fn every_length() {
    let whole = rates(MOST_AMOUNT).unwrap();
    for most in 0..=MOST_AMOUNT {
        let count = most as usize + 1;
        let mut cells = vec![7; count + 2];
        assert_eq!(rates_into(most, &mut cells), 0);
        assert_eq!(cells[..count], whole[..count]);
        assert_eq!(cells[count..], [7, 7]);
    }
}

#[test]
fn refused() {
    let mut cells = vec![7; 4_002];
    for most in [4_001, u64::MAX] {
        assert_eq!(rates_into(most, &mut cells), 4);
        assert_eq!(rates(most), None);
    }
    assert_eq!(rates_into(4_000, &mut cells[..4_000]), 11);
    assert_eq!(rates_into(0, &mut []), 11);
    assert!(cells.iter().all(|&cell| cell == 7));
}

#[test]
fn report_example() {
    let case = Case {
        costs: vec![12, 1, 3, 4, 4, 9, 6, 2, 2, 6, 2, 10],
        supplies: vec![200, 200, 150],
        demands: vec![80, 180, 120, 70],
        table: rates(200).unwrap(),
        ..Case::default()
    };
    let plan = case.plan().unwrap();
    assert_eq!((plan.split, plan.total, plan.freight), (180, 2_161, 820));
}
