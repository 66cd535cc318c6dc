//! Reads one BIFF8 workbook stream held in memory: checks it, lists its sheets,
//! cells and shared strings, judges formula bytes and corrects single cells.
//!
//! It is written to be compared with another reader of the same rules, so every
//! refusal carries the number and the offset that the rules give, and nothing
//! else decides what is accepted.
//!
//! The work is done in two steps. A survey walks the whole stream once and
//! judges all of it; what it keeps is where things stand (sheets, substreams,
//! string table). Everything that is handed out afterwards is read again from
//! the places it kept.

#![forbid(unsafe_code)]
#![warn(missing_docs)]

mod cells;
mod compact;
mod compare;
mod correction;
mod formula;
mod functions;
mod journal;
mod jumps;
mod pair;
mod places;
mod print;
mod records;
mod refusal;
mod rk;
mod session;
mod sheets;
mod strings;
mod survey;
mod text_results;
mod trailing;

pub use cells::{Cell, FormulaResult, Value};
pub use compact::{compact, compact_session, Compacted};
pub use compare::{compare, Address, Difference, RefusedSide, Side};
pub use correction::{correct, NewValue};
pub use formula::judge;
pub use journal::{
    correct_journalled, pair_correct_journalled, pair_replay, pair_start_journal, replay,
    start_journal, Direction, PairUnreplayed, Unreplayed,
};
pub use pair::{
    pair_cells, pair_check, pair_correct, pair_fetch, pair_fill, pair_sheet, pair_sheet_name,
    pair_text, PairRefusal, PairSheet, Whose,
};
pub use places::{fetch_through, fill};
pub use print::{lines, print};
pub use refusal::Refusal;
pub use rk::{decode as decode_rk, pack as pack_rk};
pub use session::{cadence, profile, Between};
pub use sheets::SheetType;

use std::ops::Range;
use survey::Survey;

/// What a stream that passes the check holds, by count.
#[derive(Clone, Copy, Debug, PartialEq, Eq)]
pub struct Passed {
    /// Sheets named by the globals.
    pub sheets: u64,
    /// Unique shared strings.
    pub strings: u64,
    /// Listed cells over all sheets.
    pub cells: u64,
}

/// The whole reading of a stream.
#[derive(Clone, Debug, PartialEq, Eq)]
pub struct Reading {
    /// The sheets in the order of their BOUNDSHEET records.
    pub sheets: Vec<Sheet>,
    /// The units of each shared string.
    pub strings: Vec<Vec<u16>>,
}

/// One sheet and everything listed of it.
#[derive(Clone, Debug, PartialEq, Eq)]
pub struct Sheet {
    /// Where the name's bytes stand in the stream.
    pub name: Range<usize>,
    /// Whether the name takes two bytes a character.
    pub wide: bool,
    /// Worksheet, macro sheet or chart.
    pub sheet_type: SheetType,
    /// The highest listed row plus one, or 0. Up to 65,536, so not a `u16`.
    pub rows: u32,
    /// The cells in stream order; empty for macro sheets and charts.
    pub cells: Vec<Cell>,
    /// The units of each formula's text result, in the order of their cells.
    pub texts: Vec<Vec<u16>>,
}

/// Checks a stream, and counts what it holds.
pub fn check(stream: &[u8]) -> Result<Passed, Refusal> {
    Ok(Survey::of(stream)?.passed())
}

/// Reads the whole stream.
pub fn read(stream: &[u8]) -> Result<Reading, Refusal> {
    let survey = Survey::of(stream)?;
    let mut sheets = Vec::with_capacity(survey.sheets.len());
    for (number, entry) in survey.sheets.iter().enumerate() {
        let mut cells = Vec::new();
        survey.list(number, |cell| cells.push(cell.clone()))?;
        let mut texts = Vec::new();
        for cell in &cells {
            if let Some(text) = survey.text(cell)? {
                texts.push(text.units()?);
            }
        }
        sheets.push(Sheet {
            name: entry.name.clone(),
            wide: entry.wide,
            sheet_type: entry.sheet_type,
            rows: survey.substream(number)?.rows,
            cells,
            texts,
        });
    }
    let strings = survey.strings.all()?;
    Ok(Reading { sheets, strings })
}

/// Checks the whole stream, then hands each cell of one sheet to `take`, in
/// stream order. Nothing is handed over where the stream or the sheet number
/// is refused, and nothing is allocated for a cell.
pub fn list_cells<F: FnMut(&Cell)>(stream: &[u8], sheet: usize, take: F) -> Result<(), Refusal> {
    Survey::of(stream)?.list(sheet, take)
}

/// Checks the whole stream, then writes one shared string's units at the start
/// of the buffer and gives their number. Later units stay as they were.
pub fn fetch(stream: &[u8], index: u32, buffer: &mut [u16]) -> Result<usize, Refusal> {
    Survey::of(stream)?.strings.fetch(index, buffer)
}

/// Checks the whole stream, then writes the units of the text that a cell's
/// formula has for its result at the start of the buffer and gives their number.
/// Of several cells at one address the first listed is meant. Later units stay
/// as they were.
pub fn text(
    stream: &[u8],
    sheet: u32,
    row: u32,
    column: u32,
    buffer: &mut [u16],
) -> Result<usize, Refusal> {
    Survey::of(stream)?.fetch_text((sheet, row, column), buffer)
}
