//! The journal of granted corrections: starting one, correcting with it, and
//! replaying it, forwards on the original or backwards on the final stream.
//!
//! A session may lean on a template. Of that only two numbers count here, which
//! the inner functions take; for a stream by itself both are 0.

use crate::cells::{is_error_code, is_truth, Cell, Value};
use crate::correction::{field_bytes, Field, NewValue};
use crate::pair::{Pair, PairRefusal};
use crate::survey::Survey;
use crate::{rk, Refusal};
use std::collections::{BTreeSet, HashMap};

const HEADER_SIZE: usize = 16;
const ENTRY_SIZE: usize = 28;

/// Which way a journal is replayed.
#[derive(Clone, Copy, Debug, PartialEq, Eq)]
pub enum Direction {
    /// From the first entry to the last, writing the new values.
    Forwards,
    /// From the last entry to the first, writing the old bytes.
    Backwards,
}

/// Why a replay didn't come to its end.
#[derive(Clone, Copy, Debug, PartialEq, Eq)]
pub enum Unreplayed {
    /// The stream or the journal is refused, and nothing was replayed.
    Refused(Refusal),
    /// An entry is refused. Those replayed before it stay made.
    Stopped {
        /// The number of the refusal.
        number: u8,
        /// The number of the entry, from 0 in the journal's order.
        entry: u32,
    },
}

/// Checks a stream and starts its journal: writes the header of one without
/// entries. Later bytes stay, and what the lent bytes held is not looked at.
pub fn start_journal(stream: &[u8], journal: &mut [u8]) -> Result<(), Refusal> {
    start_over(Template::NONE, stream, journal)
}

/// Corrects one cell and writes the journal's entry for it. Where it refuses,
/// neither a byte of the stream nor one of the journal changes.
pub fn correct_journalled(
    stream: &mut [u8],
    journal: &mut [u8],
    sheet: u32,
    row: u32,
    column: u32,
    value: NewValue,
) -> Result<(), Refusal> {
    correct_over(Template::NONE, stream, journal, (sheet, row, column), value)
}

/// Replays a journal up to the first entry that is refused, and gives the
/// number of entries where none is.
pub fn replay(stream: &mut [u8], journal: &[u8], direction: Direction) -> Result<u32, Unreplayed> {
    replay_over(Template::NONE, stream, journal, direction)
}

/// Why a replay over a pair didn't come to its end.
#[derive(Clone, Copy, Debug, PartialEq, Eq)]
pub enum PairUnreplayed {
    /// A stream or the journal is refused, and nothing was replayed.
    Refused(PairRefusal),
    /// An entry is refused, as in [`Unreplayed`].
    Stopped {
        /// The number of the refusal.
        number: u8,
        /// The number of the entry.
        entry: u32,
    },
}

/// Checks both streams and starts the session's journal, as `start_journal`.
pub fn pair_start_journal(
    template: &[u8],
    session: &[u8],
    journal: &mut [u8],
) -> Result<(), PairRefusal> {
    let lent = Template::of(template, session)?;
    start_over(lent, session, journal).map_err(PairRefusal::Question)
}

/// Corrects one cell of the session, with its entry, as `correct_journalled`.
pub fn pair_correct_journalled(
    template: &[u8],
    session: &mut [u8],
    journal: &mut [u8],
    sheet: u32,
    row: u32,
    column: u32,
    value: NewValue,
) -> Result<(), PairRefusal> {
    let lent = Template::of(template, session)?;
    correct_over(lent, session, journal, (sheet, row, column), value).map_err(PairRefusal::Question)
}

/// Replays a journal on the session, as `replay`.
pub fn pair_replay(
    template: &[u8],
    session: &mut [u8],
    journal: &[u8],
    direction: Direction,
) -> Result<u32, PairUnreplayed> {
    let lent = Template::of(template, session).map_err(PairUnreplayed::Refused)?;
    replay_over(lent, session, journal, direction).map_err(|unreplayed| match unreplayed {
        Unreplayed::Refused(refusal) => PairUnreplayed::Refused(PairRefusal::Question(refusal)),
        Unreplayed::Stopped { number, entry } => PairUnreplayed::Stopped { number, entry },
    })
}

/// What counts of the template that a session leans on.
#[derive(Clone, Copy)]
struct Template {
    /// The number of its strings: a session without a string table has these.
    unique: u32,
    /// The number of its sheets: those that a session hasn't are the template's.
    sheets: u32,
}

impl Template {
    const NONE: Template = Template {
        unique: 0,
        sheets: 0,
    };

    /// Once both streams pass: after this only the question is refused.
    fn of(template: &[u8], session: &[u8]) -> Result<Self, PairRefusal> {
        let (unique, sheets) = Pair::of(template, session)?.lent();
        Ok(Template { unique, sheets })
    }
}

fn start_over(template: Template, stream: &[u8], journal: &mut [u8]) -> Result<(), Refusal> {
    let unique = Survey::with_lent(stream, template.unique)?.indices;
    let lent = journal.first_chunk_mut().ok_or(Refusal::of_question(12))?;
    *lent = header(0, stream.len(), unique);
    Ok(())
}

fn correct_over(
    template: Template,
    stream: &mut [u8],
    journal: &mut [u8],
    address: Address,
    value: NewValue,
) -> Result<(), Refusal> {
    let survey = Survey::with_lent(stream, template.unique)?;
    let unique = survey.indices;
    let refuse = Refusal::of_question;
    let entries = read_entries(journal, stream.len(), unique).ok_or(refuse(21))?;
    let found = &find(&survey, template.sheets, &[address])?[&address];
    found.is_there().map_err(refuse)?;
    let count = entries.len();
    let one_more = u32::try_from(count + 1).map_err(|_| refuse(12))?;
    let room = journal[HEADER_SIZE..].as_chunks_mut::<ENTRY_SIZE>().0;
    let free = room.get_mut(count).ok_or(refuse(12))?;
    let cell = found.only().map_err(refuse)?;
    let new = field_bytes(cell, value, unique).map_err(refuse)?;
    let field = &mut stream[cell.value_field.clone()];
    let old = Field::of(field).expect("a field that takes a value");
    *free = Entry {
        address,
        old,
        new: value,
    }
    .to_bytes();
    field.copy_from_slice(new.as_slice());
    journal[..4].copy_from_slice(&one_more.to_le_bytes());
    Ok(())
}

fn replay_over(
    template: Template,
    stream: &mut [u8],
    journal: &[u8],
    direction: Direction,
) -> Result<u32, Unreplayed> {
    let survey = Survey::with_lent(stream, template.unique).map_err(Unreplayed::Refused)?;
    let unique = survey.indices;
    let malformed = Unreplayed::Refused(Refusal::of_question(21));
    let entries = read_entries(journal, stream.len(), unique).ok_or(malformed)?;
    // No correction moves a cell, changes the kinds of value it takes or the
    // number of strings: what is found now holds for all entries.
    let addresses: Vec<Address> = entries.iter().map(|entry| entry.address).collect();
    let found = find(&survey, template.sheets, &addresses).map_err(Unreplayed::Refused)?;
    let count = entries.len();
    for step in 0..count {
        let number = match direction {
            Direction::Forwards => step,
            Direction::Backwards => count - 1 - step,
        };
        let entry = &entries[number];
        replay_entry(stream, entry, &found[&entry.address], unique, direction).map_err(
            |refused| Unreplayed::Stopped {
                number: refused,
                entry: number as u32,
            },
        )?;
    }
    Ok(count as u32)
}

/// Replays one entry at what stands at its address, or refuses it.
fn replay_entry(
    stream: &mut [u8],
    entry: &Entry,
    found: &Found,
    unique: u32,
    direction: Direction,
) -> Result<(), u8> {
    let cell = found.only()?;
    let field = &mut stream[cell.value_field.clone()];
    let bytes = match direction {
        Direction::Forwards => bytes_forwards(entry, cell, field, unique)?,
        Direction::Backwards => bytes_backwards(entry, cell, field, unique)?,
    };
    field.copy_from_slice(bytes.as_slice());
    Ok(())
}

/// What an entry replayed forwards writes to a field: 17, then 19 for old bytes
/// that aren't the field's, then 18.
fn bytes_forwards(entry: &Entry, cell: &Cell, field: &[u8], unique: u32) -> Result<Field, u8> {
    let new = field_bytes(cell, entry.new, unique);
    match new {
        Err(17) => Err(17),
        _ if entry.old.as_slice() != field => Err(19),
        new => new,
    }
}

/// What an entry replayed backwards writes to a field: 17, then 19 for an old
/// byte count that isn't the field's, a new value that doesn't fit, or a field
/// that doesn't hold what it writes, then 18 for old bytes that mean nothing.
fn bytes_backwards(entry: &Entry, cell: &Cell, field: &[u8], unique: u32) -> Result<Field, u8> {
    let new = field_bytes(cell, entry.new, unique);
    let new = new.map_err(|number| if number == 17 { 17 } else { 19 })?;
    if entry.old.as_slice().len() != field.len() || new.as_slice() != field {
        return Err(19);
    }
    if passes(cell, entry.old, unique) {
        Ok(entry.old)
    } else {
        Err(18)
    }
}

/// Whether the check would pass these bytes in a cell's value field.
fn passes(cell: &Cell, bytes: Field, unique: u32) -> bool {
    match (cell.value, bytes) {
        (Value::Number(_), Field::Eight(_)) => true,
        (Value::Number(_), Field::Four(word)) => rk::decode(u32::from_le_bytes(word)).is_some(),
        (Value::Text(_), Field::Four(index)) => u32::from_le_bytes(index) < unique,
        (Value::Truth(_) | Value::Error(_), Field::Two([truth, 0])) => is_truth(truth),
        (Value::Truth(_) | Value::Error(_), Field::Two([code, 1])) => is_error_code(code),
        _ => false,
    }
}

/// Sheet, row and column as asked for: maybe out of range.
type Address = (u32, u32, u32);

/// What stands at an address.
enum Found {
    /// The session hasn't the sheet, but its template has.
    InTemplate,
    Nothing,
    One(Cell),
    More,
}

impl Found {
    fn take(&mut self, cell: &Cell) {
        *self = match self {
            Found::Nothing => Found::One(cell.clone()),
            _ => Found::More,
        };
    }

    /// Refuses where there is no cell.
    fn is_there(&self) -> Result<(), u8> {
        match self {
            Found::InTemplate => Err(17),
            Found::Nothing => Err(11),
            Found::One(_) | Found::More => Ok(()),
        }
    }

    /// The cell, where it is there and the only one.
    fn only(&self) -> Result<&Cell, u8> {
        self.is_there()?;
        match self {
            Found::One(cell) => Ok(cell),
            _ => Err(16),
        }
    }
}

/// What stands at each of these addresses, in one pass over each of the sheets
/// they name.
fn find(
    survey: &Survey<'_>,
    template_sheets: u32,
    addresses: &[Address],
) -> Result<HashMap<Address, Found>, Refusal> {
    let own = |sheet: u32| (sheet as usize) < survey.sheets.len();
    let nothing_yet = |&address: &Address| {
        let in_template = !own(address.0) && address.0 < template_sheets;
        let found = if in_template {
            Found::InTemplate
        } else {
            Found::Nothing
        };
        (address, found)
    };
    let mut found: HashMap<_, _> = addresses.iter().map(nothing_yet).collect();
    let sheets: BTreeSet<u32> = addresses.iter().map(|address| address.0).collect();
    for sheet in sheets.into_iter().take_while(|&sheet| own(sheet)) {
        survey.list(sheet as usize, |cell| {
            let address = (sheet, cell.row.into(), cell.column.into());
            if let Some(found) = found.get_mut(&address) {
                found.take(cell);
            }
        })?;
    }
    Ok(found)
}

/// The header of a journal: how many entries it has and where they start, how
/// long its stream is and how many strings the stream's text indices may name.
fn header(count: u32, stream_length: usize, unique: u32) -> [u8; HEADER_SIZE] {
    let fields = [count, HEADER_SIZE as u32, stream_length as u32, unique];
    let mut bytes = [0; HEADER_SIZE];
    for (field, lent) in fields.iter().zip(bytes.as_chunks_mut().0) {
        *lent = field.to_le_bytes();
    }
    bytes
}

/// The entries of a journal for this stream, or none where it is cut,
/// malformed or another stream's. Bytes after the last entry are not judged.
fn read_entries(journal: &[u8], stream_length: usize, unique: u32) -> Option<Vec<Entry>> {
    let (start, rest) = journal.split_first_chunk::<HEADER_SIZE>()?;
    let count = u32::from_le_bytes([start[0], start[1], start[2], start[3]]);
    if *start != header(count, stream_length, unique) {
        return None;
    }
    let room = rest.as_chunks::<ENTRY_SIZE>().0;
    let entries = room.get(..count as usize)?;
    entries.iter().map(Entry::read).collect()
}

/// One granted correction.
struct Entry {
    /// Row and column are at most 65,535, since a granted one has a cell.
    address: Address,
    /// The value field as it was.
    old: Field,
    /// The value as it was asked for.
    new: NewValue,
}

impl Entry {
    /// None where it is malformed: by its kind, by an old byte count that no
    /// field for such a value has, or by bytes that should be zero.
    fn read(bytes: &[u8; ENTRY_SIZE]) -> Option<Self> {
        let word = |at: usize| u16::from_le_bytes([bytes[at], bytes[at + 1]]);
        let (sheet, _) = bytes.split_first_chunk()?;
        let old = Field::of(padded(&bytes[12..20], word(10).into())?)?;
        let new = read_value(word(8), &bytes[20..])?;
        let matching = match new {
            NewValue::Number(_) => matches!(old, Field::Four(_) | Field::Eight(_)),
            NewValue::Text(_) => matches!(old, Field::Four(_)),
            NewValue::Truth(_) | NewValue::Error(_) => matches!(old, Field::Two(_)),
        };
        let sheet = u32::from_le_bytes(*sheet);
        matching.then_some(Entry {
            address: (sheet, word(4).into(), word(6).into()),
            old,
            new,
        })
    }

    fn to_bytes(&self) -> [u8; ENTRY_SIZE] {
        let (sheet, row, column) = self.address;
        let old = self.old.as_slice();
        let mut bytes = [0; ENTRY_SIZE];
        bytes[..4].copy_from_slice(&sheet.to_le_bytes());
        bytes[4..6].copy_from_slice(&(row as u16).to_le_bytes());
        bytes[6..8].copy_from_slice(&(column as u16).to_le_bytes());
        bytes[10..12].copy_from_slice(&(old.len() as u16).to_le_bytes());
        bytes[12..12 + old.len()].copy_from_slice(old);
        let (kind, new) = value_bytes(self.new);
        bytes[8..10].copy_from_slice(&kind.to_le_bytes());
        bytes[20..].copy_from_slice(&new);
        bytes
    }
}

/// The first bytes of a field, if all after them are zero.
fn padded(field: &[u8], size: usize) -> Option<&[u8]> {
    let (used, after) = field.split_at_checked(size)?;
    after.iter().all(|&byte| byte == 0).then_some(used)
}

/// A value of a kind, in eight bytes.
fn read_value(kind: u16, field: &[u8]) -> Option<NewValue> {
    match kind {
        0 => Some(NewValue::Number(f64::from_le_bytes(field.try_into().ok()?))),
        1 => Some(NewValue::Text(u32::from_le_bytes(
            padded(field, 4)?.try_into().ok()?,
        ))),
        2 => Some(NewValue::Truth(padded(field, 1)?[0])),
        3 => Some(NewValue::Error(padded(field, 1)?[0])),
        _ => None,
    }
}

/// The kind of a value, and the value in eight bytes.
fn value_bytes(value: NewValue) -> (u16, [u8; 8]) {
    match value {
        NewValue::Number(number) => (0, number.to_le_bytes()),
        NewValue::Text(index) => (1, u64::from(index).to_le_bytes()),
        NewValue::Truth(truth) => (2, u64::from(truth).to_le_bytes()),
        NewValue::Error(code) => (3, u64::from(code).to_le_bytes()),
    }
}

/// Sessions that lean on a template, by its two numbers.
#[cfg(test)]
mod tests {
    use super::*;

    /// One worksheet with a text cell of index 1 in row 0, column 0. Gives the
    /// stream and where the cell's record stands.
    fn session(string_table: &[u8]) -> (Vec<u8>, usize) {
        let bof = |kind| {
            [
                0x09, 0x08, 16, 0, 0, 6, kind, 0, 0, 0, 0, 0, 0, 0, 0, 0, 0, 0, 0, 0,
            ]
        };
        let eof = [0x0A, 0, 0, 0];
        let sheet_at = 20 + 13 + string_table.len() + 4;
        let mut stream = bof(0x05).to_vec();
        stream.extend([0x85, 0, 9, 0, sheet_at as u8, 0, 0, 0, 0, 0, 1, 0, b'a']);
        stream.extend(string_table);
        stream.extend(eof);
        stream.extend(bof(0x10));
        let cell_at = stream.len();
        stream.extend([0xFD, 0, 10, 0, 0, 0, 0, 0, 3, 0, 1, 0, 0, 0]);
        stream.extend(eof);
        (stream, cell_at)
    }

    /// An SST of no strings, and one of three empty ones.
    const NO_STRINGS: [u8; 12] = [0xFC, 0, 8, 0, 0, 0, 0, 0, 0, 0, 0, 0];
    const THREE_STRINGS: [u8; 21] = [
        0xFC, 0, 17, 0, 0, 0, 0, 0, 3, 0, 0, 0, 0, 0, 0, 0, 0, 0, 0, 0, 0,
    ];
    /// Two strings, and the sheets 0 to 2.
    const LENT: Template = Template {
        unique: 2,
        sheets: 3,
    };

    /// A text entry: sheet, old index and new index, in row 0 and column 0.
    fn text_entry(sheet: u8, old: u8, new: u8) -> [u8; ENTRY_SIZE] {
        [
            sheet, 0, 0, 0, 0, 0, 0, 0, 1, 0, 4, 0, old, 0, 0, 0, 0, 0, 0, 0, new, 0, 0, 0, 0, 0,
            0, 0,
        ]
    }

    /// A journal of the session without a string table, which has 75 bytes.
    fn journal(unique: u8, entries: &[[u8; ENTRY_SIZE]]) -> Vec<u8> {
        let count = entries.len() as u8;
        let header = [count, 0, 0, 0, 16, 0, 0, 0, 75, 0, 0, 0, unique, 0, 0, 0];
        [&header[..], &entries.concat()].concat()
    }

    fn refused<T>(number: u8) -> Result<T, Refusal> {
        Err(Refusal::of_question(number))
    }

    #[test]
    fn j12_the_table_that_the_indices_resolve_in() {
        let mut lent = [0xEE; HEADER_SIZE];
        let (stream, cell_at) = session(&[]);
        assert_eq!(stream.len(), 75);
        assert_eq!(start_over(LENT, &stream, &mut lent), Ok(()));
        assert_eq!(lent[..], journal(2, &[]));
        // Alone, or with too few strings lent, its index is refused.
        for unique in [0, 1] {
            let template = Template { unique, ..LENT };
            let answer = start_over(template, &stream, &mut lent);
            assert_eq!(answer, Err(Refusal::new(9, cell_at)));
        }
        // A table of its own counts, even without strings.
        let (stream, _) = session(&THREE_STRINGS);
        assert_eq!(start_over(LENT, &stream, &mut lent), Ok(()));
        assert_eq!(lent[8..], [96, 0, 0, 0, 3, 0, 0, 0]);
        let (stream, cell_at) = session(&NO_STRINGS);
        let answer = start_over(LENT, &stream, &mut lent);
        assert_eq!(answer, Err(Refusal::new(9, cell_at)));
    }

    #[test]
    fn j12_another_template() {
        let (stream, _) = session(&[]);
        let whole = journal(2, &[text_entry(0, 1, 0)]);
        // Of another count it is noticed, of the same count not.
        for (unique, sheets, noticed) in [(3, 3, true), (2, 3, false), (2, 0, false)] {
            let template = Template { unique, sheets };
            let mut copy = stream.clone();
            let answer = replay_over(template, &mut copy, &whole, Direction::Forwards);
            let malformed = Err(Unreplayed::Refused(Refusal::new(21, 0)));
            assert_eq!(answer, if noticed { malformed } else { Ok(1) });
        }
    }

    #[test]
    fn j12_indices_below_the_lent_count() {
        let (original, cell_at) = session(&[]);
        let mut stream = original.clone();
        let mut lent = journal(2, &[[0xEE; ENTRY_SIZE]]);
        lent[0] = 0;
        let too_high = correct_over(LENT, &mut stream, &mut lent, (0, 0, 0), NewValue::Text(2));
        assert_eq!(too_high, refused(18));
        assert_eq!(stream, original);
        let granted = correct_over(LENT, &mut stream, &mut lent, (0, 0, 0), NewValue::Text(0));
        assert_eq!(granted, Ok(()));
        assert_eq!(stream[cell_at + 10], 0);
        assert_eq!(lent, journal(2, &[text_entry(0, 1, 0)]));
        let mut copy = original.clone();
        let forwards = replay_over(LENT, &mut copy, &lent, Direction::Forwards);
        assert_eq!((forwards, &copy), (Ok(1), &stream));
        let backwards = replay_over(LENT, &mut copy, &lent, Direction::Backwards);
        assert_eq!((backwards, &copy), (Ok(1), &original));
        // Backwards an old index is judged against the lent count too.
        let forged = journal(2, &[text_entry(0, 2, 1)]);
        let answer = replay_over(LENT, &mut copy, &forged, Direction::Backwards);
        let (number, entry) = (18, 0);
        assert_eq!(answer, Err(Unreplayed::Stopped { number, entry }));
        assert_eq!(copy, original);
    }

    #[test]
    fn j13_21_then_the_templates_17_then_11_and_12() {
        let (original, _) = session(&[]);
        let mut stream = original.clone();
        let mut correct = |lent: &mut [u8], address, value| {
            let answer = correct_over(LENT, &mut stream, lent, address, value);
            assert_eq!(stream, original);
            answer
        };
        let number = NewValue::Number(f64::NAN);
        // Without room for an entry: 17 for the template's sheets, whatever the
        // address and value, and 11 for one that neither has.
        let mut full = journal(2, &[]);
        for address in [(1, 0, 0), (2, 9, 9), (2, 70_000, 300)] {
            assert_eq!(correct(&mut full, address, number), refused(17));
            assert_eq!(correct(&mut full, address, NewValue::Text(0)), refused(17));
            assert_eq!(correct(&mut full[..15], address, number), refused(21));
        }
        assert_eq!(correct(&mut full, (3, 0, 0), number), refused(11));
        // A sheet that both have is the session's.
        assert_eq!(correct(&mut full, (0, 0, 1), number), refused(11));
        assert_eq!(correct(&mut full, (0, 0, 0), number), refused(12));
    }

    #[test]
    fn j13_the_templates_17_in_replay() {
        let (original, _) = session(&[]);
        for (sheet, number) in [(1, 17), (2, 17), (3, 11)] {
            let entries = [
                text_entry(0, 1, 1),
                text_entry(sheet, 1, 1),
                text_entry(0, 1, 1),
            ];
            let lent = journal(2, &entries);
            for direction in [Direction::Forwards, Direction::Backwards] {
                let mut copy = original.clone();
                let answer = replay_over(LENT, &mut copy, &lent, direction);
                assert_eq!(answer, Err(Unreplayed::Stopped { number, entry: 1 }));
                assert_eq!(copy, original);
            }
        }
    }
}
