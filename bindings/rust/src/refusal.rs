//! What a refusal's number means, and where to look.

use std::error::Error;
use std::fmt;

/// The first test that a case fails.
///
/// ```
/// let case = yadvorkhul::Case {
///     costs: vec![2, 6, 5, 3, 1, 4],
///     supplies: vec![3, 3, 1],
///     demands: vec![3, 4001],
///     table: vec![99, 20, 24, 20],
///     ..Default::default()
/// };
/// let refusal = case.plan().unwrap_err();
/// assert_eq!(refusal.to_string(), "refusal 4 at place 5: a supply or demand is above 4,000; look at the demand of terminal 2");
/// ```
#[derive(Clone, Copy, Debug, PartialEq, Eq)]
pub struct Refusal {
    /// 1 to 9, 11, 23, 26 or 27; of bounds 28 too; of a working case also 24, 25 and 31.
    pub number: u64,
    /// Where the test fails, as the number has it; 0 where it names no place.
    pub place: u64,
    pub(crate) sources: usize,
    pub(crate) terminals: usize,
}

impl Refusal {
    /// What the number says.
    pub fn meaning(&self) -> &'static str {
        match self.number {
            1 => "the count of sources is not 2 to 32",
            2 => "the count of terminals is not 1 to 64",
            3 => "the costs are not one for each source and terminal",
            4 => "a supply or demand is above 4,000",
            5 => "a unit cost is below -1,000,000 or above 1,000,000",
            6 => "the table has not one entry more than plant 1's supply",
            7 => "the terminals take less than the depots hold and the least runs make",
            8 => "the terminals take more than depots and plants can give",
            9 => "a table entry at a split in use is above 1,000,000,000",
            11 => "a lent slice is too short for the plan or the stops",
            23 => "a least run is above its plant's supply",
            24 => "a mark outside 1 to 8, or an edit at a source, terminal, lane or entry that the case lacks",
            25 => "going back to a mark that was never set",
            26 => "the ceilings are not one for each lane, or a ceiling is above 4,000",
            27 => "no plan is within both the ceilings and the least runs",
            28 => {
                "the high table is not as long as the low one, or an entry is below its low one or above 1,000,000,000"
            }
            31 => "the role may not do this",
            _ => "a number that this wrapper does not know",
        }
    }

    /// The lane that the place names, by its source and terminal.
    fn lane(&self) -> String {
        let (k, n) = (self.place.saturating_sub(1), (self.terminals as u64).max(1));
        format!("from source {} to terminal {}", k / n + 1, k % n + 1)
    }

    /// Where to look, with sources and terminals counted from 1 and table entries from 0, as in the paper.
    pub fn whereabouts(&self) -> String {
        let (m, n, place) = (self.sources as u64, self.terminals as u64, self.place);
        match self.number {
            1 => format!("there are {m} supplies"),
            2 => format!("there are {n} demands"),
            3 => format!("{m} sources and {n} terminals need {} costs", m * n),
            4 if place <= m => format!("look at the supply of source {place}"),
            4 => format!("look at the demand of terminal {}", place - m),
            5 => format!("look at the cost {}", self.lane()),
            6 => "look at the table's length and the first supply".to_string(),
            7 => "compare the sum of demands with the supplies from the third on and the least runs".to_string(),
            8 => "compare the sum of all supplies with the sum of demands".to_string(),
            9 => format!("look at table entry {place}"),
            11 => "lend m × n cells for the plan and one for each split for the stops".to_string(),
            23 => format!("look at the least run of plant {place}"),
            24 => format!(
                "there are {m} sources and {n} terminals, counted from 1, and entries from 0 to plant 1's supply"
            ),
            25 => format!("set mark {place} first"),
            26 if place == 0 => format!("{m} sources and {n} terminals need {} ceilings", m * n),
            26 => format!("look at the ceiling {}", self.lane()),
            27 => "look for closed or narrow lanes of a depot, a terminal or a plant that has a least run".to_string(),
            28 => format!("look at the high table's length, then at its entry {place}"),
            31 => "ask somebody whose role may".to_string(),
            _ => "no place is named".to_string(),
        }
    }
}

impl fmt::Display for Refusal {
    fn fmt(&self, f: &mut fmt::Formatter<'_>) -> fmt::Result {
        write!(f, "refusal {}", self.number)?;
        if self.place != 0 || self.number == 9 || self.number == 28 {
            write!(f, " at place {}", self.place)?;
        }
        write!(f, ": {}; {}", self.meaning(), self.whereabouts())
    }
}

impl Error for Refusal {}
