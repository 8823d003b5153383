//! The proved functions on the bytes of files: reading, planning, printing and writing out, as the programs do.
//!
//! ```
//! use yadvorkhul::files::{plan_files, read_case, tidy_files};
//!
//! let (tariff, production) = (b"2,6,3\r\n5,3,3\r\n1,4,1\r\n3,2,", b"99\r\n20\r\n24\r\n20");
//! let case = read_case(tariff, production).unwrap();
//! assert_eq!((case.supplies, case.demands), (vec![3, 3, 1], vec![3, 2]));
//! let printed = plan_files(tariff, production);
//! assert_eq!(printed.number, 0);
//! assert!(printed.text.starts_with(b"source,terminal,amount,cost\r\n0,0,3,20\r\n"));
//! let (again, _) = tidy_files(tariff, production).unwrap();
//! assert_eq!(again, b"2,6,3\r\n5,3,3\r\n1,4,1\r\n3,2,\r\n");
//! ```

use crate::{Case, MOST_SOURCES, MOST_TERMINALS, REPORT_CELLS};
use std::error::Error;
use std::fmt;

/// Bytes of the longest file that is read, and of the longest that is written.
pub const LONGEST_FILE: usize = 65_536;
/// Entries of a production file that are stored: one more than any case that is planned has.
pub const STORED_ENTRIES: usize = 4_002;
/// Cells of the report of [`read_case`]'s function: m, n and the count of entries.
pub const READ_CELLS: usize = 3;
/// Bytes of the longest plan, bounds and flow that are printed.
pub const PLAN_TEXT: usize = 174_265;
pub const BOUNDS_TEXT: usize = 172_286;
pub const FLOW_TEXT: usize = 5_662;

extern "C" {
    // Each slice passes as a pointer and then a length.
    fn yadvorkhul_version() -> u64;

    fn yadvorkhul_read_case(
        tariff: *const u8,
        tariff_len: usize,
        production: *const u8,
        production_len: usize,
        costs: *mut i64,
        costs_len: usize,
        supplies: *mut u64,
        supplies_len: usize,
        demands: *mut u64,
        demands_len: usize,
        table: *mut u64,
        table_len: usize,
        report: *mut u64,
        report_len: usize,
    ) -> u64;

    fn yadvorkhul_read_table(
        production: *const u8,
        production_len: usize,
        table: *mut u64,
        table_len: usize,
        report: *mut u64,
        report_len: usize,
    ) -> u64;

    fn yadvorkhul_plan_files(
        tariff: *const u8,
        tariff_len: usize,
        production: *const u8,
        production_len: usize,
        text: *mut u8,
        text_len: usize,
        report: *mut u64,
        report_len: usize,
    ) -> u64;

    fn yadvorkhul_bounds_files(
        tariff: *const u8,
        tariff_len: usize,
        low: *const u8,
        low_len: usize,
        high: *const u8,
        high_len: usize,
        text: *mut u8,
        text_len: usize,
        report: *mut u64,
        report_len: usize,
    ) -> u64;

    fn yadvorkhul_flow_files(
        network: *const u8,
        network_len: usize,
        arc: *const u8,
        arc_len: usize,
        table: *const u8,
        table_len: usize,
        text: *mut u8,
        text_len: usize,
        report: *mut u64,
        report_len: usize,
    ) -> u64;

    fn yadvorkhul_write_case(
        m: usize,
        n: usize,
        costs: *const i64,
        costs_len: usize,
        supplies: *const u64,
        supplies_len: usize,
        demands: *const u64,
        demands_len: usize,
        table: *const u64,
        table_len: usize,
        tariff: *mut u8,
        tariff_len: usize,
        production: *mut u8,
        production_len: usize,
        report: *mut u64,
        report_len: usize,
    ) -> u64;

    fn yadvorkhul_tidy_files(
        tariff: *const u8,
        tariff_len: usize,
        production: *const u8,
        production_len: usize,
        new_tariff: *mut u8,
        new_tariff_len: usize,
        new_production: *mut u8,
        new_production_len: usize,
        report: *mut u64,
        report_len: usize,
    ) -> u64;
}

// Safety, of every call below: the callee has no `requires`. It reads and writes only within the lengths passed beside the pointers,
// keeps none of them, and what it writes is borrowed exclusively.

/// The version of the archive: major, minor, patch.
pub fn version() -> (u64, u64, u64) {
    let number = unsafe { yadvorkhul_version() };
    (number / 10_000, number / 100 % 100, number % 100)
}

/// Which file a refusal is about.
#[derive(Clone, Copy, Debug, PartialEq, Eq)]
pub enum Faulty {
    Tariff,
    Production,
    /// The files are of the form; the case that they are is refused.
    Neither,
}

/// A refusal by the bytes of files: its number, its place, and the file where it is about one.
#[derive(Clone, Copy, Debug, PartialEq, Eq)]
pub struct FileRefusal {
    /// 20 to 22 of a file; 1 to 9, 11, 32 or 33 of the case.
    pub number: u64,
    /// Of 21 the offset of the byte, of 22 the record from 1; else as the number has it.
    pub place: u64,
    pub file: Faulty,
}

impl fmt::Display for FileRefusal {
    fn fmt(&self, f: &mut fmt::Formatter<'_>) -> fmt::Result {
        let file = match self.file {
            Faulty::Tariff => " of the tariff file",
            Faulty::Production => " of the production file",
            Faulty::Neither => "",
        };
        write!(f, "refusal {} at place {}{}", self.number, self.place, file)
    }
}

impl Error for FileRefusal {}

/// The case of a tariff's and a production file's bytes, read into lent slices of any lengths. Answers 0: then the first cells of
/// `report` are m, n and the count of entries. Or the number of the refusal: then they are its place and the file, 1 or 2, or 0 for
/// neither, and no number is stored. All other cells keep their contents.
pub fn read_case_into(
    tariff: &[u8],
    production: &[u8],
    costs: &mut [i64],
    supplies: &mut [u64],
    demands: &mut [u64],
    table: &mut [u64],
    report: &mut [u64],
) -> u64 {
    unsafe {
        yadvorkhul_read_case(
            tariff.as_ptr(),
            tariff.len(),
            production.as_ptr(),
            production.len(),
            costs.as_mut_ptr(),
            costs.len(),
            supplies.as_mut_ptr(),
            supplies.len(),
            demands.as_mut_ptr(),
            demands.len(),
            table.as_mut_ptr(),
            table.len(),
            report.as_mut_ptr(),
            report.len(),
        )
    }
}

/// The case of two files. Of the entries [`STORED_ENTRIES`] at most are kept, which no case that is planned has.
pub fn read_case(tariff: &[u8], production: &[u8]) -> Result<Case, FileRefusal> {
    let mut costs = vec![0; MOST_SOURCES * MOST_TERMINALS];
    let mut supplies = vec![0; MOST_SOURCES];
    let mut demands = vec![0; MOST_TERMINALS];
    let mut table = vec![0; STORED_ENTRIES];
    let mut report = [0; READ_CELLS];
    let number = read_case_into(tariff, production, &mut costs, &mut supplies, &mut demands, &mut table, &mut report);
    if number != 0 {
        let file = [Faulty::Neither, Faulty::Tariff, Faulty::Production][report[1] as usize];
        return Err(FileRefusal { number, place: report[0], file });
    }
    let [m, n, entries] = report.map(|count| count as usize);
    costs.truncate(m * n);
    supplies.truncate(m);
    demands.truncate(n);
    table.truncate(entries);
    Ok(Case { costs, supplies, demands, table, ..Case::default() })
}

/// The entries of a production file, [`STORED_ENTRIES`] at most.
///
/// ```
/// assert_eq!(yadvorkhul::files::read_table(b"99\r\n20"), Ok(vec![99, 20]));
/// assert_eq!(yadvorkhul::files::read_table(b"99;20").unwrap_err().place, 2);
/// ```
pub fn read_table(production: &[u8]) -> Result<Vec<u64>, FileRefusal> {
    let mut table = vec![0; STORED_ENTRIES];
    let mut report = [0; REPORT_CELLS];
    let number = read_table_into(production, &mut table, &mut report);
    if number != 0 {
        return Err(FileRefusal { number, place: report[0], file: Faulty::Production });
    }
    table.truncate(report[0] as usize);
    Ok(table)
}

/// The entries of a production file, read into a lent slice of any length; the answer and the report as for [`read_case_into`].
pub fn read_table_into(production: &[u8], table: &mut [u64], report: &mut [u64]) -> u64 {
    unsafe {
        yadvorkhul_read_table(
            production.as_ptr(),
            production.len(),
            table.as_mut_ptr(),
            table.len(),
            report.as_mut_ptr(),
            report.len(),
        )
    }
}

/// What a program prints.
#[derive(Clone, Debug, PartialEq, Eq)]
pub struct Printed {
    /// 0, or that of the refusal.
    pub number: u64,
    /// The refusal's place, 0 where there is none.
    pub place: u64,
    pub text: Vec<u8>,
}

impl Printed {
    fn new(number: u64, mut text: Vec<u8>, report: [u64; REPORT_CELLS]) -> Self {
        text.truncate(report[0] as usize);
        Printed { number, place: report[1], text }
    }
}

/// The plan of two files, or the refusal, as the program `plan` prints it.
pub fn plan_files(tariff: &[u8], production: &[u8]) -> Printed {
    let (mut text, mut report) = (vec![0; PLAN_TEXT], [0; REPORT_CELLS]);
    let number = plan_files_into(tariff, production, &mut text, &mut report);
    Printed::new(number, text, report)
}

/// The same into a lent slice, as far as there is room; the first cells of `report` are the text's whole length and the place.
pub fn plan_files_into(tariff: &[u8], production: &[u8], text: &mut [u8], report: &mut [u64]) -> u64 {
    unsafe {
        yadvorkhul_plan_files(
            tariff.as_ptr(),
            tariff.len(),
            production.as_ptr(),
            production.len(),
            text.as_mut_ptr(),
            text.len(),
            report.as_mut_ptr(),
            report.len(),
        )
    }
}

/// Which splits can be the cheapest, of a tariff and the files of the low and the high entries, as the program `bounds` prints it.
pub fn bounds_files(tariff: &[u8], low: &[u8], high: &[u8]) -> Printed {
    let (mut text, mut report) = (vec![0; BOUNDS_TEXT], [0; REPORT_CELLS]);
    let number = unsafe {
        yadvorkhul_bounds_files(
            tariff.as_ptr(),
            tariff.len(),
            low.as_ptr(),
            low.len(),
            high.as_ptr(),
            high.len(),
            text.as_mut_ptr(),
            text.len(),
            report.as_mut_ptr(),
            report.len(),
        )
    };
    Printed::new(number, text, report)
}

/// The least-cost flow of a network file, with the text that names an arc and the file of its table, as the program `flow` prints it.
pub fn flow_files(network: &[u8], arc: &[u8], table: &[u8]) -> Printed {
    let (mut text, mut report) = (vec![0; FLOW_TEXT], [0; REPORT_CELLS]);
    let number = unsafe {
        yadvorkhul_flow_files(
            network.as_ptr(),
            network.len(),
            arc.as_ptr(),
            arc.len(),
            table.as_ptr(),
            table.len(),
            text.as_mut_ptr(),
            text.len(),
            report.as_mut_ptr(),
            report.len(),
        )
    };
    Printed::new(number, text, report)
}

/// Both texts by their lengths, or the refusal.
fn texts(
    number: u64,
    mut tariff: Vec<u8>,
    mut production: Vec<u8>,
    report: [u64; REPORT_CELLS],
) -> Result<(Vec<u8>, Vec<u8>), FileRefusal> {
    if number != 0 {
        return Err(FileRefusal { number, place: report[0], file: Faulty::Neither });
    }
    tariff.truncate(report[0] as usize);
    production.truncate(report[1] as usize);
    Ok((tariff, production))
}

/// The tariff and the production file of a case, without its least runs and ceilings, which no file holds.
pub fn write_case(case: &Case) -> Result<(Vec<u8>, Vec<u8>), FileRefusal> {
    let (mut tariff, mut production, mut report) = (vec![0; LONGEST_FILE], vec![0; LONGEST_FILE], [0; REPORT_CELLS]);
    let number = unsafe {
        yadvorkhul_write_case(
            case.supplies.len(),
            case.demands.len(),
            case.costs.as_ptr(),
            case.costs.len(),
            case.supplies.as_ptr(),
            case.supplies.len(),
            case.demands.as_ptr(),
            case.demands.len(),
            case.table.as_ptr(),
            case.table.len(),
            tariff.as_mut_ptr(),
            tariff.len(),
            production.as_mut_ptr(),
            production.len(),
            report.as_mut_ptr(),
            report.len(),
        )
    };
    texts(number, tariff, production, report)
}

/// Two files in the one form of their case, as the program `tidy` writes them. A refusal by 20 to 22 does not say which file it is about:
/// [`read_case`] does.
pub fn tidy_files(tariff: &[u8], production: &[u8]) -> Result<(Vec<u8>, Vec<u8>), FileRefusal> {
    let (mut new_tariff, mut new_production, mut report) =
        (vec![0; LONGEST_FILE], vec![0; LONGEST_FILE], [0; REPORT_CELLS]);
    let number = unsafe {
        yadvorkhul_tidy_files(
            tariff.as_ptr(),
            tariff.len(),
            production.as_ptr(),
            production.len(),
            new_tariff.as_mut_ptr(),
            new_tariff.len(),
            new_production.as_mut_ptr(),
            new_production.len(),
            report.as_mut_ptr(),
            report.len(),
        )
    };
    texts(number, new_tariff, new_production, report)
}
