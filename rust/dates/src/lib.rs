//! Dates as dates, for people. A workbook keeps a date as a number, and only the number format of its cell says that it is one. This crate reads the number
//! formats of a workbook's globals and writes such numbers by ISO 8601.
//!
//! Nothing here is proved, and nothing of the proved library depends on it: it never refuses a workbook, and where a record that it needs is damaged or
//! missing, numbers stay numbers. Each choice stands in `docs/DECISIONS.md` under "Dates".
//!
//! ```
//! # let stream = include_bytes!("../tests/data/from_1900.bin");
//! let formats = dates::Formats::read(stream);
//! let workbook = station::check(stream)?;
//! for sheet in workbook.sheets() {
//!     for cell in sheet.cells() {
//!         if let Some(date) = formats.show_cell(&cell) {
//!             println!("{} {} {date}", cell.row(), cell.column());
//!         }
//!     }
//! }
//! # Ok::<(), station::Refusal>(())
//! ```

mod format;
mod globals;
mod serial;

use format::Shows;
use station::{Cell, FormulaResult, Value};

/// What the number format of a cell makes of a number.
#[derive(Clone, Copy, Debug, PartialEq, Eq)]
pub enum Kind {
    /// A day: `2004-02-29`.
    Date,
    /// A time of day: `13:05:00`, or `13:05:00.250` where it isn't a whole second.
    Time,
    /// Both: `2004-02-29T13:05:00`.
    DateTime,
    /// How long something took, `[h]:mm`: `PT36H5M0S`.
    Elapsed,
}

/// The day from which a workbook counts its days.
#[derive(Clone, Copy, Debug, PartialEq, Eq)]
pub enum System {
    /// Day 1 is 1900-01-01, and day 60 is 1900-02-29, a day that never was.
    From1900,
    /// Day 0 is 1904-01-01.
    From1904,
}

/// The number formats of a workbook.
#[derive(Clone, Debug)]
pub struct Formats {
    system: Option<System>,
    /// For each XF record, in stream order.
    shows: Vec<Shows>,
}

impl Formats {
    /// Reads the globals of a stream that has passed the check. It has an answer for any other bytes too, but that answer means nothing.
    pub fn read(stream: &[u8]) -> Self {
        globals::read(stream, None)
    }

    /// The same, but a workbook that has no DATEMODE record at all counts its days by this system. Without it the numbers of such a workbook stay numbers.
    pub fn read_or(stream: &[u8], system: System) -> Self {
        globals::read(stream, Some(system))
    }

    /// From which day the workbook counts, where it says so. Where it doesn't, no format is a date.
    pub fn system(&self) -> Option<System> {
        self.system
    }

    /// What the format of this index (`Cell::format`) makes of positive numbers; `None` where they stay numbers.
    pub fn kind(&self, format: u16) -> Option<Kind> {
        self.system?;
        self.shows(format).positive
    }

    /// A number of a cell in this format as a date, a time or both by ISO 8601. `None` where it stays a number: where the format is none of dates, and where
    /// the number is negative, no finite number, or after the year 9999.
    pub fn show(&self, format: u16, serial: f64) -> Option<String> {
        let shows = self.shows(format);
        let kind = if serial == 0.0 {
            shows.zero
        } else {
            shows.positive
        };
        serial::show(kind?, self.system?, serial)
    }

    /// The number of a cell, a plain one or a formula's result, as `show` gives it; `None` for every other value.
    pub fn show_cell(&self, cell: &Cell) -> Option<String> {
        match cell.value() {
            Value::Number(bits) | Value::Formula(FormulaResult::Number(bits)) => {
                self.show(cell.format(), f64::from_bits(bits))
            }
            _ => None,
        }
    }

    fn shows(&self, format: u16) -> Shows {
        let shows = self.shows.get(usize::from(format));
        shows.copied().unwrap_or(Shows::NUMBERS)
    }
}
