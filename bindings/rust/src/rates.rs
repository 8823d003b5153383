//! The square-root rates: a production table for a house that has none.

use crate::MOST_AMOUNT;

extern "C" {
    // The slice passes as a pointer and then a length.
    fn yadvorkhul_rates(most: u64, to: *mut u64, to_len: usize) -> u64;
}

/// Writes 100 times the square root of y, rounded down, for each y from 0 to `most`, into the first cells of a slice.
///
/// Answers 0; or 4 where `most` is above [`MOST_AMOUNT`], or 11 where the slice has fewer than `most` + 1 cells, and then
/// writes nothing. Later cells keep their contents.
///
/// ```
/// let mut cells = [7; 5];
/// assert_eq!(yadvorkhul::rates_into(3, &mut cells), 0);
/// assert_eq!(cells, [0, 100, 141, 173, 7]);
/// assert_eq!(yadvorkhul::rates_into(5, &mut cells), 11);
/// ```
pub fn rates_into(most: u64, to: &mut [u64]) -> u64 {
    // Safety: the callee has no `requires`. It writes only within the length passed beside the pointer, and keeps neither.
    unsafe { yadvorkhul_rates(most, to.as_mut_ptr(), to.len()) }
}

/// A production table for a plant 1 of this supply: 100 times the square root of its output. None above [`MOST_AMOUNT`].
///
/// ```
/// assert_eq!(yadvorkhul::rates(3), Some(vec![0, 100, 141, 173]));
/// assert_eq!(yadvorkhul::rates(4_001), None);
/// ```
pub fn rates(supply: u64) -> Option<Vec<u64>> {
    if supply > MOST_AMOUNT {
        return None;
    }
    let mut table = vec![0; supply as usize + 1];
    (rates_into(supply, &mut table) == 0).then_some(table)
}
