//! The proved library for Rust: a thin safe layer over its C functions. What each function answers is proved, for every argument; this layer only
//! turns plain numbers into names.
//!
//! ```
//! use station::{NewValue, Value};
//!
//! let mut stream = std::fs::read("../../cases/cells.in").expect("a workbook stream");
//!
//! let workbook = station::check(&stream)?;
//! let sheet = workbook.sheets().next().expect("a sheet");
//! assert!(sheet.name_units().eq("Sheet1".encode_utf16()));
//! let cell = sheet.cells().find(|cell| (cell.row(), cell.column()) == (0, 1));
//! let pi = Value::Number(std::f64::consts::PI.to_bits());
//! assert_eq!(cell.map(|cell| cell.value()), Some(pi));
//!
//! station::correct(&mut stream, 0, 0, 1, NewValue::Number(2.5))?;
//! let cell = station::cells(&stream, 0)?.find(|cell| (cell.row(), cell.column()) == (0, 1));
//! assert_eq!(cell.map(|cell| cell.value()), Some(Value::Number(2.5f64.to_bits())));
//!
//! let refused = station::judge(&[0x1E, 0x01], &[]).expect_err("a cut token");
//! assert_eq!((refused.number, refused.offset), (13, 0));
//! # Ok::<(), station::Refusal>(())
//! ```
//!
//! Many sessions may share the sheets and strings of one template: [`mod@pair`] has the questions over both.
//! [`journal`] keeps what was corrected, and makes it again or takes it back.
//! [`compact`] leaves out the shared strings that no cell uses.
//!
//! - A stream has at most [`LONGEST_STREAM`] bytes; a longer one is refused with number 1.
//! - After a refusal all lent memory holds what it held.
//! - The library has no state, allocates nothing and takes no lock: any number of threads may ask at the same time, about one stream or many.
//!   Of this layer [`Strings`] has a buffer on the heap, of [`LONGEST_STRING`] units, [`StringPlaces`] a table of two numbers for each string,
//!   [`Differences`] one of up to a million words, and [`compacted`] gives a new stream.
//! - No question needs more than 64 KB of stack, whatever the stream; a [`Cells`], which holds a batch of them, is 4 KB large itself.

#![warn(missing_docs)]

mod compaction;
mod comparison;
pub mod journal;
pub mod pair;
mod raw;

pub use compaction::{compact, compacted, Compacted};
pub use comparison::{
    compare, compare_from, Difference, DifferenceKind, Differences, Listed, Side, SideRefused,
};

use std::fmt;
use std::iter::FusedIterator;
use std::ops::Range;

/// A refusal: its number in the table, and the offset at which it was given. Shown, it says what it means: `refused 5 at 20: the workbook is encrypted`.
#[derive(Clone, Copy, Debug, PartialEq, Eq)]
pub struct Refusal {
    /// Its number in the table.
    pub number: u8,
    /// Where it was given: a record's or a token's offset, the end, or 0.
    pub offset: usize,
}

impl Refusal {
    /// The bare line, for machines: `refused 5 at 20`.
    pub fn line(&self) -> String {
        format!("refused {} at {}", self.number, self.offset)
    }

    /// What its number means.
    pub fn meaning(&self) -> &'static str {
        let known = meanings().find(|(number, _)| *number == self.number);
        known.map_or(
            "a refusal that this version has no words for",
            |(_, meaning)| meaning,
        )
    }
}

impl fmt::Display for Refusal {
    fn fmt(&self, f: &mut fmt::Formatter<'_>) -> fmt::Result {
        write!(f, "{}: {}", self.line(), self.meaning())
    }
}

impl std::error::Error for Refusal {}

/// What the refusals mean.
const MEANINGS: [(u8, &str); 21] = [
    (
        1,
        "the stream, or the new one that is asked for, is longer than 16,777,216 bytes",
    ),
    (
        2,
        "a record's header or body passes the end of the stream, or its body is over 8,224 bytes",
    ),
    (
        3,
        "the stream is empty, or its first record is not the BOF of the globals",
    ),
    (
        4,
        "the rules of how substreams start, nest, follow each other and end are broken",
    ),
    (5, "the workbook is encrypted"),
    (6, "a record has a wrong size or field"),
    (7, "a CONTINUE record has no parent to continue"),
    (8, "the shared string table is broken"),
    (
        9,
        "a text cell's index is not below the number of shared strings",
    ),
    (10, "the sheet list and the substreams disagree"),
    (11, "the sheet, string or cell asked for is absent"),
    (
        12,
        "the buffer has fewer units than the string or fewer bytes than the new stream, the table under two numbers for each string, or the journal no room",
    ),
    (
        13,
        "the formula has an unknown, cut or misplaced token, or a bad length",
    ),
    (
        14,
        "the formula's stack runs short, or does not end with one operand",
    ),
    (15, "the formula has no such function, or uses it wrongly"),
    (16, "two or more cells have the address"),
    (
        17,
        "the cell's kind does not take this kind of value, or the sheet is the template's",
    ),
    (18, "the value does not fit the cell"),
    (
        19,
        "the cell does not hold what the journal's entry says",
    ),
    (
        20,
        "the stream is outside the profile of a sensor's session",
    ),
    (
        21,
        "the journal is cut or malformed, or it is another stream's",
    ),
];

/// The number of each refusal, with its meaning.
pub fn meanings() -> impl Iterator<Item = (u8, &'static str)> {
    MEANINGS.into_iter()
}

/// The number 0 says that there is no refusal.
fn settled(number: u8, offset: usize) -> Result<(), Refusal> {
    match number {
        0 => Ok(()),
        _ => Err(Refusal { number, offset }),
    }
}

/// A stream that has passed the check: from here on it is read without another.
#[derive(Clone, Copy, Debug)]
pub struct Workbook<'a> {
    stream: &'a [u8],
    /// How many sheets it has.
    pub sheets: usize,
    /// How many shared strings it has.
    pub strings: u32,
    first_sheet: usize,
    first_string: StringPlace,
}

/// Checks a stream: how many sheets and strings it has, or the first fault.
pub fn check(stream: &[u8]) -> Result<Workbook<'_>, Refusal> {
    // SAFETY: the slice is valid for its length.
    let answer = unsafe { raw::station_check(stream.as_ptr(), stream.len()) };
    settled(answer.number, answer.offset)?;
    Ok(Workbook {
        stream,
        sheets: answer.sheets,
        strings: answer.strings,
        first_sheet: answer.sheet,
        first_string: StringPlace {
            segment: answer.segment,
            at: answer.at,
            end: answer.end,
        },
    })
}

impl<'a> Workbook<'a> {
    /// Its bytes.
    pub fn stream(&self) -> &'a [u8] {
        self.stream
    }

    /// Its sheets, in BOUNDSHEET order.
    pub fn sheets(&self) -> Sheets<'a> {
        Sheets {
            stream: self.stream,
            place: self.first_sheet,
        }
    }

    /// Puts the units of the text that one of its listed cells has for its formula's result at the front of the buffer, without another check. It is refused as
    /// absent where the cell has none.
    pub fn text(&self, cell: &Cell, buffer: &mut [u16]) -> Result<usize, Refusal> {
        // SAFETY: both slices are valid for their lengths, and the buffer is lent to this call alone.
        let answer = unsafe {
            raw::station_text_at(
                self.stream.as_ptr(),
                self.stream.len(),
                cell.field(),
                buffer.as_mut_ptr(),
                buffer.len(),
            )
        };
        settled(answer.number, answer.offset)?;
        Ok(answer.units)
    }

    /// The units of each shared string, in order.
    pub fn strings(&self) -> Strings<'a> {
        Strings {
            stream: self.stream,
            place: self.first_string,
            left: self.strings,
            buffer: vec![0; LONGEST_STRING],
        }
    }

    /// The places of its shared strings, for fetching them in any order. It takes one more check and a pass over the string table.
    pub fn string_places(&self) -> StringPlaces {
        let mut table = vec![0; 2 * self.strings as usize];
        fill(self.stream, &mut table).expect("a stream that passes, and two numbers a string");
        StringPlaces { table }
    }
}

/// Judges a formula: its tokens, and the bytes after them. An offset in the latter is counted on from the tokens' end.
pub fn judge(tokens: &[u8], trailing: &[u8]) -> Result<(), Refusal> {
    // SAFETY: both slices are valid for their lengths.
    let answer = unsafe {
        raw::station_judge(
            tokens.as_ptr(),
            tokens.len(),
            trailing.as_ptr(),
            trailing.len(),
        )
    };
    settled(answer.number, answer.offset)
}

/// Puts the units of a shared string at the front of the buffer and says how many they are.
pub fn fetch(stream: &[u8], index: u32, buffer: &mut [u16]) -> Result<usize, Refusal> {
    // SAFETY: both slices are valid for their lengths, and the buffer is lent to this call alone.
    let answer = unsafe {
        raw::station_fetch(
            stream.as_ptr(),
            stream.len(),
            index,
            buffer.as_mut_ptr(),
            buffer.len(),
        )
    };
    settled(answer.number, answer.offset)?;
    Ok(answer.units)
}

/// Puts the units of a formula's text at the front of the buffer and says how many they are: of the text that the first listed cell of an address has for its
/// result. It is refused as absent where there is none.
pub fn text(
    stream: &[u8],
    sheet: u32,
    row: u32,
    column: u32,
    buffer: &mut [u16],
) -> Result<usize, Refusal> {
    // SAFETY: both slices are valid for their lengths, and the buffer is lent to this call alone.
    let answer = unsafe {
        raw::station_text(
            stream.as_ptr(),
            stream.len(),
            sheet,
            row,
            column,
            buffer.as_mut_ptr(),
            buffer.len(),
        )
    };
    settled(answer.number, answer.offset)?;
    Ok(answer.units)
}

/// No stream may have more bytes.
pub const LONGEST_STREAM: usize = 16_777_216;

/// No shared string and no formula's text has more units: its length is 16 bits.
pub const LONGEST_STRING: usize = 65_535;

/// A place in the string table.
#[derive(Clone, Copy, Debug)]
struct StringPlace {
    segment: usize,
    at: usize,
    end: usize,
}

/// The units of a stream's shared strings, in order.
pub struct Strings<'a> {
    stream: &'a [u8],
    place: StringPlace,
    left: u32,
    buffer: Vec<u16>,
}

impl Strings<'_> {
    /// The next string's units, in a buffer that the one after it uses anew.
    pub fn next_units(&mut self) -> Option<&[u16]> {
        if self.left == 0 {
            return None;
        }
        self.left -= 1;
        let StringPlace { segment, at, end } = self.place;
        // SAFETY: both slices are valid for their lengths, and the buffer is lent to this call alone.
        let string = unsafe {
            raw::station_next_string(
                self.stream.as_ptr(),
                self.stream.len(),
                segment,
                at,
                end,
                self.buffer.as_mut_ptr(),
                self.buffer.len(),
            )
        };
        assert!(
            !string.ended && string.number == 0,
            "a stream that passes has as many whole strings as it says"
        );
        self.place = StringPlace {
            segment: string.segment,
            at: string.at,
            end: string.end,
        };
        Some(&self.buffer[..string.units])
    }
}

impl Iterator for Strings<'_> {
    type Item = Vec<u16>;

    fn next(&mut self) -> Option<Vec<u16>> {
        self.next_units().map(<[u16]>::to_vec)
    }
}

/// Puts the places of all shared strings into a lent table and says how many strings there are: two numbers for each, the offset of its head and that of the header
/// of the record it stands in. All further numbers become 4,294,967,295. After the check's refusals, 12 where the table has under two numbers for each string;
/// no number changes then. [`StringPlaces`] is a table of the right size.
pub fn fill(stream: &[u8], table: &mut [u32]) -> Result<u32, Refusal> {
    // SAFETY: both slices are valid for their lengths, and the table is lent to this call alone.
    let answer = unsafe {
        raw::station_fill(
            stream.as_ptr(),
            stream.len(),
            table.as_mut_ptr(),
            table.len(),
        )
    };
    settled(answer.number, answer.offset)?;
    Ok(answer.strings)
}

/// Puts the units of the string that has this entry in a table at the front of the buffer and says how many they are, without a check. Through a table that was filled
/// for this stream it answers as [`fetch`] does; through any other, or over other bytes, it gives what reads as a string at the entry's place, or 11.
pub fn fetch_through(
    stream: &[u8],
    table: &[u32],
    index: u32,
    buffer: &mut [u16],
) -> Result<usize, Refusal> {
    // SAFETY: the slices are valid for their lengths, and the buffer is lent to this call alone.
    let answer = unsafe {
        raw::station_fetch_through(
            stream.as_ptr(),
            stream.len(),
            table.as_ptr(),
            table.len(),
            index,
            buffer.as_mut_ptr(),
            buffer.len(),
        )
    };
    settled(answer.number, answer.offset)?;
    Ok(answer.units)
}

/// The places of a stream's shared strings: filled once, from [`Workbook::string_places`], then each string is fetched by one look at the table. It doesn't borrow
/// the stream, and a granted correction leaves it good.
///
/// ```
/// use station::NewValue;
///
/// let mut stream = std::fs::read("../../cases/cells.in").expect("a workbook stream");
/// let places = station::check(&stream)?.string_places();
/// assert_eq!(places.len(), 3);
///
/// let mut buffer = vec![0; station::LONGEST_STRING];
/// let units = places.fetch(&stream, 1, &mut buffer)?;
/// assert!(buffer[..units].iter().copied().eq("zwei".encode_utf16()));
///
/// station::correct(&mut stream, 0, 0, 1, NewValue::Number(2.5))?;
/// assert_eq!(places.fetch(&stream, 1, &mut buffer), Ok(4));
/// let absent = places.fetch(&stream, 3, &mut buffer).expect_err("three strings");
/// assert_eq!((absent.number, absent.offset), (11, 0));
/// # Ok::<(), station::Refusal>(())
/// ```
#[derive(Clone, Debug, PartialEq, Eq)]
pub struct StringPlaces {
    table: Vec<u32>,
}

impl StringPlaces {
    /// How many strings it has the places of.
    pub fn len(&self) -> usize {
        self.table.len() / 2
    }

    /// Whether there is no string.
    pub fn is_empty(&self) -> bool {
        self.table.is_empty()
    }

    /// The table itself, two numbers for each string.
    pub fn table(&self) -> &[u32] {
        &self.table
    }

    /// As [`fetch_through`] this table. The stream is the one that it was filled for, corrected or not; of another it gives what stands there.
    pub fn fetch(&self, stream: &[u8], index: u32, buffer: &mut [u16]) -> Result<usize, Refusal> {
        fetch_through(stream, &self.table, index, buffer)
    }
}

/// A place in a listing.
#[derive(Clone, Copy, Debug)]
struct Place {
    at: usize,
    part: u16,
    level: u8,
}

/// A sheet of a stream. Its name is a part of the stream.
#[derive(Clone, Copy, Debug)]
pub struct Sheet<'a> {
    stream: &'a [u8],
    /// The name's bytes.
    pub name: &'a [u8],
    /// Bytes a character of the name: 1 or 2.
    pub width: usize,
    /// What it is. Only worksheets list cells.
    pub kind: SheetKind,
    first: Place,
}

/// The type of a sheet.
#[derive(Clone, Copy, Debug, PartialEq, Eq)]
pub enum SheetKind {
    /// A worksheet.
    Worksheet,
    /// A macro sheet.
    Macro,
    /// A chart sheet.
    Chart,
}

impl SheetKind {
    fn from_byte(kind: u8) -> Self {
        match kind {
            0 => SheetKind::Worksheet,
            1 => SheetKind::Macro,
            _ => SheetKind::Chart,
        }
    }
}

impl<'a> Sheet<'a> {
    /// The characters of the name.
    pub fn name_units(&self) -> impl Iterator<Item = u16> + 'a {
        let unit = |bytes: &[u8]| {
            bytes
                .iter()
                .rev()
                .fold(0, |unit, &byte| unit << 8 | u16::from(byte))
        };
        self.name.chunks(self.width.max(1)).map(unit)
    }

    /// The highest listed row plus one, or 0.
    pub fn rows(&self) -> u32 {
        let Place { at, part, level } = self.first;
        // SAFETY: the slice is valid for its length.
        unsafe { raw::station_rows(self.stream.as_ptr(), self.stream.len(), at, part, level) }
    }

    /// Its cells, in stream order.
    pub fn cells(&self) -> Cells<'a> {
        Cells::from(self.stream, self.first)
    }
}

/// The sheets of a stream, in BOUNDSHEET order.
pub struct Sheets<'a> {
    stream: &'a [u8],
    place: usize,
}

impl<'a> Iterator for Sheets<'a> {
    type Item = Sheet<'a>;

    fn next(&mut self) -> Option<Sheet<'a>> {
        let stream = self.stream;
        // SAFETY: the slice is valid for its length.
        let sheet = unsafe { raw::station_next_sheet(stream.as_ptr(), stream.len(), self.place) };
        if sheet.ended {
            return None;
        }
        self.place = sheet.next;
        let start = sheet.header + 12;
        Some(Sheet {
            stream,
            name: stream.get(start..start + sheet.size).unwrap_or(&[]),
            width: sheet.width,
            kind: SheetKind::from_byte(sheet.kind),
            first: Place {
                at: sheet.at,
                part: sheet.part,
                level: sheet.level,
            },
        })
    }
}

/// A formula's stored result. A number is its 64 bits.
#[derive(Clone, Copy, Debug, PartialEq, Eq)]
pub enum FormulaResult {
    /// A number, infinities and NaN patterns included.
    Number(u64),
    /// A text, which [`Workbook::text`] and [`text`] give.
    Text,
    /// 0 or 1.
    Truth(u8),
    /// An error code.
    Error(u8),
    /// An empty result.
    Empty,
}

/// A cell's value. A number is its 64 bits.
#[derive(Clone, Copy, Debug, PartialEq, Eq)]
pub enum Value {
    /// No value, only a format.
    Blank,
    /// A number, infinities and NaN patterns included.
    Number(u64),
    /// The index of a shared string.
    Text(u32),
    /// 0 or 1.
    Truth(u8),
    /// An error code.
    Error(u8),
    /// What a formula came to when it was last reckoned.
    Formula(FormulaResult),
}

/// As the program prints it: `number 400921FB54442D18`, `text`, `truth 1`, `error 2A` or `empty`.
impl fmt::Display for FormulaResult {
    fn fmt(&self, f: &mut fmt::Formatter<'_>) -> fmt::Result {
        match self {
            FormulaResult::Number(bits) => write!(f, "number {bits:016X}"),
            FormulaResult::Text => f.write_str("text"),
            FormulaResult::Truth(truth) => write!(f, "truth {truth}"),
            FormulaResult::Error(code) => write!(f, "error {code:02X}"),
            FormulaResult::Empty => f.write_str("empty"),
        }
    }
}

/// As the program prints it: `blank`, `number 400921FB54442D18`, `text 3`, `truth 1`, `error 2A`, or `formula` and its result.
impl fmt::Display for Value {
    fn fmt(&self, f: &mut fmt::Formatter<'_>) -> fmt::Result {
        match self {
            Value::Blank => f.write_str("blank"),
            Value::Number(bits) => write!(f, "number {bits:016X}"),
            Value::Text(index) => write!(f, "text {index}"),
            Value::Truth(truth) => write!(f, "truth {truth}"),
            Value::Error(code) => write!(f, "error {code:02X}"),
            Value::Formula(result) => write!(f, "formula {result}"),
        }
    }
}

/// A cell, in the four words that the library gives for it.
#[derive(Clone, Copy, PartialEq, Eq)]
pub struct Cell([u64; 4]);

impl Cell {
    /// The four words, as `station.h` describes them.
    pub fn words(&self) -> [u64; 4] {
        self.0
    }

    /// Its row, from 0.
    pub fn row(&self) -> u16 {
        self.0[0] as u16
    }

    /// Its column, from 0 to 255.
    pub fn column(&self) -> u16 {
        (self.0[0] >> 16) as u16
    }

    /// The index of its format, as it stands in the record: it is judged against nothing.
    pub fn format(&self) -> u16 {
        (self.0[0] >> 32) as u16
    }

    /// Whether it has no value.
    pub fn is_blank(&self) -> bool {
        self.0[0] >> 48 == 0
    }

    /// What its value holds, whatever its kind: a number's 64 bits, a text's index, a truth, an error code; else 0.
    pub fn bits(&self) -> u64 {
        self.0[1]
    }

    /// Its value.
    pub fn value(&self) -> Value {
        let bits = self.bits();
        match self.0[0] >> 48 {
            0 => Value::Blank,
            1 => Value::Number(bits),
            2 => Value::Text(bits as u32),
            3 => Value::Truth(bits as u8),
            4 => Value::Error(bits as u8),
            5 => Value::Formula(FormulaResult::Number(bits)),
            6 => Value::Formula(FormulaResult::Text),
            7 => Value::Formula(FormulaResult::Truth(bits as u8)),
            8 => Value::Formula(FormulaResult::Error(bits as u8)),
            _ => Value::Formula(FormulaResult::Empty),
        }
    }

    /// Its place: the offset in the stream at which its value field starts; for a blank, its format. A correction leaves the format and the place of every cell as
    /// they were.
    pub fn field(&self) -> usize {
        self.0[2] as usize
    }

    /// Where a formula's tokens stand; empty for other cells.
    pub fn tokens(&self) -> Range<usize> {
        let start = self.field() + 16;
        start..start + usize::from(self.0[3] as u16)
    }

    /// Where the bytes after a formula's tokens stand, to the end of its record; empty for other cells.
    pub fn trailing(&self) -> Range<usize> {
        let start = self.tokens().end;
        start..start + usize::from((self.0[3] >> 16) as u16)
    }
}

/// As the program prints it: row, column and value.
impl fmt::Display for Cell {
    fn fmt(&self, f: &mut fmt::Formatter<'_>) -> fmt::Result {
        write!(f, "{} {} {}", self.row(), self.column(), self.value())
    }
}

impl fmt::Debug for Cell {
    fn fmt(&self, f: &mut fmt::Formatter<'_>) -> fmt::Result {
        f.debug_struct("Cell")
            .field("row", &self.row())
            .field("column", &self.column())
            .field("format", &self.format())
            .field("value", &self.value())
            .field("field", &self.field())
            .field("tokens", &self.tokens())
            .field("trailing", &self.trailing())
            .finish()
    }
}

/// How many cells are taken from the library at a time.
pub const BATCH: usize = 128;

/// The cells of a sheet, in stream order, taken from the library a batch at a time.
pub struct Cells<'a> {
    stream: &'a [u8],
    place: Place,
    words: [[u64; 4]; BATCH],
    next: usize,
    filled: usize,
    ended: bool,
}

/// Checks the stream, then lists sheet n.
pub fn cells(stream: &[u8], sheet: u32) -> Result<Cells<'_>, Refusal> {
    // SAFETY: the slice is valid for its length.
    let answer = unsafe { raw::station_cells(stream.as_ptr(), stream.len(), sheet) };
    settled(answer.number, answer.offset)?;
    let place = Place {
        at: answer.at,
        part: answer.part,
        level: answer.level,
    };
    Ok(Cells::from(stream, place))
}

impl<'a> Cells<'a> {
    fn from(stream: &'a [u8], place: Place) -> Self {
        Cells {
            stream,
            place,
            words: [[0; 4]; BATCH],
            next: 0,
            filled: 0,
            ended: false,
        }
    }

    fn fill(&mut self) {
        let Place { at, part, level } = self.place;
        let words = self.words.as_flattened_mut();
        // SAFETY: both slices are valid for their lengths, and the words are lent to this call alone.
        let filled = unsafe {
            raw::station_next_cells(
                self.stream.as_ptr(),
                self.stream.len(),
                at,
                part,
                level,
                words.as_mut_ptr(),
                words.len(),
            )
        };
        self.place = Place {
            at: filled.at,
            part: filled.part,
            level: filled.level,
        };
        self.next = 0;
        self.filled = filled.cells;
        self.ended = filled.ended;
    }
}

impl Iterator for Cells<'_> {
    type Item = Cell;

    fn next(&mut self) -> Option<Cell> {
        while self.next == self.filled {
            if self.ended {
                return None;
            }
            self.fill();
        }
        let words = self.words[self.next];
        self.next += 1;
        Some(Cell(words))
    }

    /// A batch at a time: this is how `for_each`, `count` and `collect` go through a sheet.
    fn fold<B, F: FnMut(B, Cell) -> B>(mut self, first: B, mut with: F) -> B {
        let mut folded = first;
        loop {
            for &words in &self.words[self.next..self.filled] {
                folded = with(folded, Cell(words));
            }
            if self.ended {
                return folded;
            }
            self.fill();
        }
    }
}

/// What a correction writes.
#[derive(Clone, Copy, Debug, PartialEq)]
pub enum NewValue {
    /// A number, for a cell that holds one; packed cells take what an undivided RK word means.
    Number(f64),
    /// The index of a shared string, for a text cell.
    Text(u32),
    /// 0 or 1, for a cell that holds a truth or an error.
    Truth(u8),
    /// An error code, for a cell that holds a truth or an error.
    Error(u8),
}

impl NewValue {
    /// As C has it: its kind, and the number, index or byte that goes with that.
    fn parts(self) -> (u8, f64, u32, u8) {
        match self {
            NewValue::Number(number) => (0, number, 0, 0),
            NewValue::Text(index) => (1, 0.0, index, 0),
            NewValue::Truth(byte) => (2, 0.0, 0, byte),
            NewValue::Error(byte) => (3, 0.0, 0, byte),
        }
    }
}

/// Writes one cell's value field, or leaves the stream as it is.
pub fn correct(
    stream: &mut [u8],
    sheet: u32,
    row: u32,
    column: u32,
    value: NewValue,
) -> Result<(), Refusal> {
    let (kind, number, index, byte) = value.parts();
    // SAFETY: the slice is valid for its length and lent to this call alone.
    let answer = unsafe {
        raw::station_correct(
            stream.as_mut_ptr(),
            stream.len(),
            sheet,
            row,
            column,
            kind,
            number,
            index,
            byte,
        )
    };
    settled(answer.number, answer.offset)
}

/// What a stream is that sensors write: one worksheet with rows from 0 on without a gap, event ticks in column 0, turns in column 1 and, in all rows or
/// in none, the host's seconds in column 2.
#[derive(Clone, Copy, Debug, PartialEq, Eq)]
pub struct Profile {
    /// How many rows it has.
    pub rows: u32,
    /// How many columns: 2, or 3 with the host's seconds.
    pub columns: u32,
}

/// Checks a stream, then whether it is a sensor's session; 20 where it is none.
pub fn profile(stream: &[u8]) -> Result<Profile, Refusal> {
    // SAFETY: the slice is valid for its length.
    let answer = unsafe { raw::station_profile(stream.as_ptr(), stream.len()) };
    settled(answer.number, answer.offset)?;
    Ok(Profile {
        rows: answer.rows,
        columns: answer.columns,
    })
}

/// What lies between a row of a session and the next.
#[derive(Clone, Copy, Debug, PartialEq, Eq)]
pub enum Pair {
    /// A pause: by the host's seconds 64 or more went by, so the counters don't tell how much.
    Pause,
    /// What went by on the counters.
    Elapsed {
        /// Event ticks, 1,024 a second.
        ticks: u16,
        /// Turns.
        turns: u16,
        /// Turns a minute, rounded down; none where no tick went by.
        cadence: Option<u32>,
    },
}

impl Pair {
    /// None where there is no pair.
    fn of(kind: u8, ticks: u16, turns: u16, cadence: u32) -> Option<Self> {
        let cadence = match kind {
            0 => return None,
            1 => return Some(Pair::Pause),
            2 => None,
            _ => Some(cadence),
        };
        Some(Pair::Elapsed {
            ticks,
            turns,
            cadence,
        })
    }
}

/// What lies between this row of a session and the next; 11 where either is missing.
pub fn cadence(stream: &[u8], row: u32) -> Result<Pair, Refusal> {
    // SAFETY: the slice is valid for its length.
    let answer = unsafe { raw::station_cadence(stream.as_ptr(), stream.len(), row) };
    settled(answer.number, answer.offset)?;
    let pair = Pair::of(answer.kind, answer.ticks, answer.turns, answer.cadence);
    Ok(pair.expect("an answer that is no refusal has a pair"))
}

/// What lies between the rows of a session, one pair after the other: the first is that of rows 0 and 1.
#[derive(Clone, Debug)]
pub struct Pairs<'a> {
    stream: &'a [u8],
    columns: u32,
    /// The row that the next pair starts from.
    ticks: u16,
    turns: u16,
    seconds: u32,
    /// Where the cells after that row start.
    place: Place,
}

/// Checks a stream, then gives all its pairs without another check; 20 where it is no session.
///
/// ```
/// use station::Pair;
///
/// let ride = std::fs::read("../../cases/ride.in").expect("a session");
/// let mut pairs = station::pairs(&ride)?;
/// let first = Pair::Elapsed { ticks: 1024, turns: 1, cadence: Some(60) };
/// assert_eq!(pairs.next(), Some(first));
/// assert_eq!(pairs.filter(|pair| *pair == Pair::Pause).count(), 1);
/// # Ok::<(), station::Refusal>(())
/// ```
pub fn pairs(stream: &[u8]) -> Result<Pairs<'_>, Refusal> {
    // SAFETY: the slice is valid for its length.
    let start = unsafe { raw::station_pairs(stream.as_ptr(), stream.len()) };
    settled(start.number, start.offset)?;
    Ok(Pairs {
        stream,
        columns: start.columns,
        ticks: start.ticks,
        turns: start.turns,
        seconds: start.seconds,
        place: Place {
            at: start.at,
            part: start.part,
            level: start.level,
        },
    })
}

impl Pairs<'_> {
    /// The host's seconds in the row that the next pair starts from, where the session has them: what they have gone on by after a pause is how long
    /// it was.
    pub fn seconds(&self) -> Option<u32> {
        (self.columns == 3).then_some(self.seconds)
    }
}

impl Iterator for Pairs<'_> {
    type Item = Pair;

    fn next(&mut self) -> Option<Pair> {
        let Place { at, part, level } = self.place;
        // SAFETY: the slice is valid for its length.
        let step = unsafe {
            raw::station_next_pair(
                self.stream.as_ptr(),
                self.stream.len(),
                self.ticks,
                self.turns,
                self.seconds,
                at,
                part,
                level,
                self.columns,
            )
        };
        // Where they have ended nothing moves, so that they have ended the next time too.
        let pair = Pair::of(step.kind, step.elapsed, step.turned, step.cadence)?;
        self.ticks = step.ticks;
        self.turns = step.turns;
        self.seconds = step.seconds;
        self.place = Place {
            at: step.at,
            part: step.part,
            level: step.level,
        };
        Some(pair)
    }
}

impl FusedIterator for Pairs<'_> {}

/// The version of the library: major · 1,000,000 + minor · 1,000 + patch.
pub fn version() -> u32 {
    // SAFETY: it takes nothing.
    unsafe { raw::station_version() }
}
