//! The least-cost flow of a network in DIMACS form.

use std::error::Error;
use std::fmt;

/// Most nodes of a network.
pub const MOST_NODES: usize = 32;
/// Most arcs of a network.
pub const MOST_ARCS: usize = 64;

extern "C" {
    // Each slice passes as a pointer and then a length.
    fn yadvorkhul_flow(
        bytes: *const u8,
        bytes_len: usize,
        place: usize,
        table: *const u64,
        table_len: usize,
        flow: *mut u64,
        flow_len: usize,
        starts: *mut u64,
        starts_len: usize,
        ends: *mut u64,
        ends_len: usize,
        ceilings: *mut u64,
        ceilings_len: usize,
        costs: *mut i64,
        costs_len: usize,
        report: *mut u64,
        report_len: usize,
        worth: *mut i64,
        worth_len: usize,
    ) -> u64;
}

/// The least-cost flow on lent slices, of any bytes, numbers and lengths.
///
/// Answers 0 where there is one: then the first cell of `report` is the count of arcs, that of `worth` the total, and the first
/// cells of the five slices before them are the flow and the arcs in file order. Else it answers the number of the refusal: then
/// the first cell of `report` is its place. An empty `report` or `worth` is answered by [`SHORT_REPORT`](crate::SHORT_REPORT),
/// before anything else is looked at. All other cells keep their contents.
///
/// ```
/// let file = b"p min 2 2\nn 1 3\nn 2 -3\na 1 2 0 2 5\na 1 2 0 3 1\n";
/// let (mut flow, mut starts, mut ends, mut ceilings, mut costs) = ([7; 3], [7; 3], [7; 3], [7; 3], [7; 3]);
/// let (mut report, mut worth) = ([7; 2], [7; 2]);
/// let answer = yadvorkhul::flow_into(
///     file, 2, &[0, 4, 6, 20], &mut flow, &mut starts, &mut ends, &mut ceilings, &mut costs, &mut report, &mut worth,
/// );
/// assert_eq!((answer, report, worth), (0, [2, 7], [11, 7]));
/// assert_eq!((flow, starts, ends), ([1, 2, 7], [1, 1, 7], [2, 2, 7]));
/// assert_eq!((ceilings, costs), ([2, 3, 7], [5, 1, 7]));
/// ```
#[allow(clippy::too_many_arguments)]
pub fn flow_into(
    bytes: &[u8],
    place: usize,
    table: &[u64],
    flow: &mut [u64],
    starts: &mut [u64],
    ends: &mut [u64],
    ceilings: &mut [u64],
    costs: &mut [i64],
    report: &mut [u64],
    worth: &mut [i64],
) -> u64 {
    // Safety: the callee has no `requires`. It reads and writes only within the lengths passed beside the pointers, keeps none of
    // them, and the seven slices that it writes are borrowed exclusively.
    unsafe {
        yadvorkhul_flow(
            bytes.as_ptr(),
            bytes.len(),
            place,
            table.as_ptr(),
            table.len(),
            flow.as_mut_ptr(),
            flow.len(),
            starts.as_mut_ptr(),
            starts.len(),
            ends.as_mut_ptr(),
            ends.len(),
            ceilings.as_mut_ptr(),
            ceilings.len(),
            costs.as_mut_ptr(),
            costs.len(),
            report.as_mut_ptr(),
            report.len(),
            worth.as_mut_ptr(),
            worth.len(),
        )
    }
}

/// An arc as its line says it, and the flow on it.
#[derive(Clone, Copy, Debug, PartialEq, Eq)]
pub struct Arc {
    /// Node numbers, from 1.
    pub start: u64,
    pub end: u64,
    pub ceiling: u64,
    /// The cost of a unit; of the named arc it is replaced by the table.
    pub cost: i64,
    pub flow: u64,
}

/// A flow of the least total; of these, one with the smallest flow on the named arc.
#[derive(Clone, Debug, PartialEq, Eq)]
pub struct Flow {
    /// Cost times flow over all arcs but the named one, and the table's entry at that one's flow.
    pub total: i64,
    /// In file order.
    pub arcs: Vec<Arc>,
}

/// Why a network has no answer.
///
/// ```
/// let refusal = yadvorkhul::flow(b"p min 2 1\nn 1 1\na 1 2 1 1 0\n", 1, &[0, 1]).unwrap_err();
/// assert_eq!(refusal.to_string(), "refusal 30: a number, the named arc or the table is outside the limits");
/// ```
#[derive(Clone, Copy, Debug, PartialEq, Eq)]
pub struct FlowRefusal {
    /// 27, 29 or 30.
    pub number: u64,
    /// Of 29 the line, from 1; else 0.
    pub place: u64,
}

impl FlowRefusal {
    /// What the number says.
    pub fn meaning(&self) -> &'static str {
        match self.number {
            27 => "no flow meets the supplies within the ceilings",
            29 => "a line is not of the form, or is missing",
            30 => "a number, the named arc or the table is outside the limits",
            _ => "a number that this wrapper does not know",
        }
    }
}

impl fmt::Display for FlowRefusal {
    fn fmt(&self, f: &mut fmt::Formatter<'_>) -> fmt::Result {
        write!(f, "refusal {}", self.number)?;
        if self.place != 0 {
            write!(f, " at line {}", self.place)?;
        }
        write!(f, ": {}", self.meaning())
    }
}

impl Error for FlowRefusal {}

/// The least-cost flow of the network in a DIMACS file, where the table replaces the cost of the arc named by its place from 1; or
/// the first refusal.
///
/// ```
/// let file = b"p min 2 2\nn 1 3\nn 2 -3\na 1 2 0 2 5\na 1 2 0 3 1\n";
/// let found = yadvorkhul::flow(file, 2, &[0, 4, 6, 20]).unwrap();
/// assert_eq!(found.total, 11);
/// assert_eq!(found.arcs.iter().map(|arc| arc.flow).collect::<Vec<_>>(), [1, 2]);
/// ```
pub fn flow(file: &[u8], place: usize, table: &[u64]) -> Result<Flow, FlowRefusal> {
    // Room for any network that is accepted.
    let (mut flow, mut starts, mut ends, mut ceilings) =
        ([0; MOST_ARCS], [0; MOST_ARCS], [0; MOST_ARCS], [0; MOST_ARCS]);
    let (mut costs, mut report, mut worth) = ([0; MOST_ARCS], [0], [0]);
    let number = flow_into(
        file,
        place,
        table,
        &mut flow,
        &mut starts,
        &mut ends,
        &mut ceilings,
        &mut costs,
        &mut report,
        &mut worth,
    );
    if number != 0 {
        return Err(FlowRefusal { number, place: report[0] });
    }
    let arc = |k: usize| Arc { start: starts[k], end: ends[k], ceiling: ceilings[k], cost: costs[k], flow: flow[k] };
    Ok(Flow { total: worth[0], arcs: (0..report[0] as usize).map(arc).collect() })
}
