//! The journal of granted corrections, and its replay: forwards on the stream as it was before them, or backwards on the stream as they left it.
//!
//! ```
//! use station::journal::{Direction, Journal, Old};
//! use station::NewValue;
//!
//! let original = std::fs::read("../../cases/cells.in").expect("a workbook stream");
//! let mut stream = original.clone();
//! let mut journal = Journal::started(&stream)?;
//! journal.make_room();
//! journal.correct(&mut stream, 0, 0, 1, NewValue::Number(2.5))?;
//! journal.make_room();
//! journal.correct(&mut stream, 0, 1, 0, NewValue::Text(2))?;
//!
//! let first = journal.entries().next().expect("two entries");
//! assert_eq!((first.sheet(), first.row(), first.column()), (0, 0, 1));
//! assert_eq!(first.old_value(), Some(Old::Number(std::f64::consts::PI.to_bits())));
//! assert_eq!(first.new_value(), Some(NewValue::Number(2.5)));
//!
//! let mut copy = original.clone();
//! assert_eq!(journal.replay(&mut copy, Direction::Forwards), Ok(2));
//! assert_eq!(copy, stream);
//! assert_eq!(journal.replay(&mut copy, Direction::Backwards), Ok(2));
//! assert_eq!(copy, original);
//!
//! // Once more: the first entry's old bytes are no longer there.
//! let stopped = journal.replay(&mut stream, Direction::Forwards).expect_err("another value");
//! assert_eq!(stopped.line(), "refused 19 at 0");
//! # Ok::<(), station::Refusal>(())
//! ```
//!
//! The bytes of a journal are the caller's, owned or lent. Whether they are a journal of a stream is judged by the library, each time: 21 where they are cut or
//! malformed, or name another stream's length or number of strings.

use crate::pair::{self, Refused};
use crate::{raw, settled, NewValue, Refusal};
use std::fmt;

/// The bytes of a header: the number of entries, where they start (16), the stream's length, and the number of strings that its text indices may mean, 32 bits each.
pub const HEADER: usize = 16;

/// The bytes of an entry: sheet (32 bits), row, column, the new value's kind and the number of old bytes (16 bits each), then eight bytes for the old ones and eight for the
/// new value.
pub const ENTRY: usize = 28;

/// Which way a journal is replayed.
#[derive(Clone, Copy, Debug, PartialEq, Eq, Hash)]
pub enum Direction {
    /// From the first entry to the last, writing the new values.
    Forwards,
    /// From the last entry to the first, writing the old bytes.
    Backwards,
}

/// Why a replay didn't come to its end.
#[derive(Clone, Copy, Debug, PartialEq, Eq)]
pub enum Unreplayed<R = Refusal> {
    /// The stream or the journal is refused, and no byte was changed.
    Refused(R),
    /// An entry is refused. Those that were replayed before it stay made.
    Stopped {
        /// The number of the refusal: 11, 16, 17, 18 or 19.
        number: u8,
        /// The number of the entry, from 0 in the journal's order, whichever way it is replayed.
        entry: u32,
    },
}

impl<R: Line> Unreplayed<R> {
    /// The bare line, for machines: `refused 21 at 0`; where an entry is refused, its number stands in the place of an offset.
    pub fn line(&self) -> String {
        match self {
            Unreplayed::Refused(refused) => refused.line(),
            Unreplayed::Stopped { number, entry } => format!("refused {number} at {entry}"),
        }
    }
}

/// A refusal of one stream, or over a pair.
pub trait Line: fmt::Display {
    /// The bare line, for machines.
    fn line(&self) -> String;
}

impl Line for Refusal {
    fn line(&self) -> String {
        Refusal::line(self)
    }
}

impl Line for Refused {
    fn line(&self) -> String {
        Refused::line(self)
    }
}

/// What it means, for people: `refused 19 at entry 3: …`.
impl<R: fmt::Display> fmt::Display for Unreplayed<R> {
    fn fmt(&self, f: &mut fmt::Formatter<'_>) -> fmt::Result {
        match *self {
            Unreplayed::Refused(ref refused) => refused.fmt(f),
            Unreplayed::Stopped { number, entry } => {
                let meaning = Refusal { number, offset: 0 }.meaning();
                write!(f, "refused {number} at entry {entry}: {meaning}")
            }
        }
    }
}

impl<R: fmt::Debug + fmt::Display> std::error::Error for Unreplayed<R> {}

/// A replay's answer; an entry that stopped it has no offset.
fn replayed<R>(
    refused: Result<(), R>,
    number: u8,
    stopped: bool,
    entries: u32,
) -> Result<u32, Unreplayed<R>> {
    match (stopped, refused) {
        (true, _) => Err(Unreplayed::Stopped {
            number,
            entry: entries,
        }),
        (false, Err(refused)) => Err(Unreplayed::Refused(refused)),
        (false, Ok(())) => Ok(entries),
    }
}

/// The bytes of a journal, owned (`Vec<u8>`) or lent (`&[u8]`, `&mut [u8]`). Bytes after its last entry are room for more.
#[derive(Clone, Debug, PartialEq, Eq)]
pub struct Journal<B> {
    bytes: B,
}

impl Journal<Vec<u8>> {
    /// Checks a stream and starts a journal for it, without entries and without room for any.
    pub fn started(stream: &[u8]) -> Result<Self, Refusal> {
        Journal::start(vec![0; HEADER], stream)
    }

    /// The same for a session over its template.
    pub fn started_over(template: &[u8], session: &[u8]) -> Result<Self, Refused> {
        Journal::start_over(vec![0; HEADER], template, session)
    }

    /// Sees to it that there is room for one more entry.
    pub fn make_room(&mut self) {
        let after = self.end().saturating_add(ENTRY);
        if self.is_whole() && after > self.bytes.len() {
            self.bytes.resize(after, 0);
        }
    }
}

impl<B: AsRef<[u8]>> Journal<B> {
    /// A journal of these bytes, whatever they are.
    pub fn over(bytes: B) -> Self {
        Journal { bytes }
    }

    /// Its bytes.
    pub fn bytes(&self) -> &[u8] {
        self.bytes.as_ref()
    }

    /// Its bytes.
    pub fn into_bytes(self) -> B {
        self.bytes
    }

    /// A number of the header, from 0 to 3.
    fn field(&self, number: usize) -> Option<u32> {
        let fields = self.bytes().first_chunk::<HEADER>()?.as_chunks::<4>().0;
        fields.get(number).copied().map(u32::from_le_bytes)
    }

    /// How many entries its header counts; 0 where it has no header.
    pub fn count(&self) -> u32 {
        self.field(0).unwrap_or(0)
    }

    /// How long the stream is that its header names.
    pub fn stream_length(&self) -> Option<u32> {
        self.field(2)
    }

    /// How many strings that stream's text indices may mean, by the header.
    pub fn strings(&self) -> Option<u32> {
        self.field(3)
    }

    /// Where the last counted entry ends.
    fn end(&self) -> usize {
        HEADER.saturating_add((self.count() as usize).saturating_mul(ENTRY))
    }

    /// The entries that its header counts, as far as they are there.
    pub fn entries(&self) -> Entries<'_> {
        let bytes = self.bytes().get(HEADER..).unwrap_or_default();
        let whole = bytes.as_chunks().0;
        let count = whole.len().min(self.count() as usize);
        Entries {
            entries: whole[..count].iter(),
        }
    }

    /// Whether these are the bytes of a journal, of whatever stream: neither cut nor malformed. Where the stream is at hand the library judges it, and that the journal
    /// is the stream's.
    pub fn is_whole(&self) -> bool {
        self.field(1) == Some(HEADER as u32)
            && self.end() <= self.bytes().len()
            && self.entries().all(|entry| entry.is_right())
    }

    /// Replays it on a stream up to the first entry that is refused, and gives the number of entries where none is. Forwards on the stream that it was started for it
    /// makes all its corrections again; backwards on the stream that they left it takes them back.
    pub fn replay(&self, stream: &mut [u8], direction: Direction) -> Result<u32, Unreplayed> {
        replay(stream, self.bytes(), direction)
    }

    /// The same on a session over its template.
    pub fn replay_over(
        &self,
        template: &[u8],
        session: &mut [u8],
        direction: Direction,
    ) -> Result<u32, Unreplayed<Refused>> {
        replay_over(template, session, self.bytes(), direction)
    }
}

impl<B: AsRef<[u8]> + AsMut<[u8]>> Journal<B> {
    /// Checks a stream and starts a journal for it in these bytes, as [`start`].
    pub fn start(mut bytes: B, stream: &[u8]) -> Result<Self, Refusal> {
        start(stream, bytes.as_mut())?;
        Ok(Journal { bytes })
    }

    /// The same for a session over its template.
    pub fn start_over(mut bytes: B, template: &[u8], session: &[u8]) -> Result<Self, Refused> {
        start_over(template, session, bytes.as_mut())?;
        Ok(Journal { bytes })
    }

    /// Corrects one cell and writes the entry for it, as [`correct`].
    pub fn correct(
        &mut self,
        stream: &mut [u8],
        sheet: u32,
        row: u32,
        column: u32,
        value: NewValue,
    ) -> Result<(), Refusal> {
        correct(stream, self.bytes.as_mut(), sheet, row, column, value)
    }

    /// The same in a session over its template.
    pub fn correct_over(
        &mut self,
        template: &[u8],
        session: &mut [u8],
        sheet: u32,
        row: u32,
        column: u32,
        value: NewValue,
    ) -> Result<(), Refused> {
        let journal = self.bytes.as_mut();
        correct_over(template, session, journal, sheet, row, column, value)
    }
}

/// The entries of a journal, in its order.
#[derive(Clone, Debug)]
pub struct Entries<'a> {
    entries: std::slice::Iter<'a, [u8; ENTRY]>,
}

impl<'a> Iterator for Entries<'a> {
    type Item = Entry<'a>;

    fn next(&mut self) -> Option<Entry<'a>> {
        self.entries.next().map(Entry)
    }

    fn size_hint(&self) -> (usize, Option<usize>) {
        self.entries.size_hint()
    }
}

impl ExactSizeIterator for Entries<'_> {}
impl std::iter::FusedIterator for Entries<'_> {}

/// What a cell held before a correction, by the old bytes and the kind of the new value alone.
#[derive(Clone, Copy, Debug, PartialEq, Eq)]
pub enum Old {
    /// The 64 bits of a NUMBER.
    Number(u64),
    /// The RK word of a packed number, as it stands.
    Packed(u32),
    /// The index of a shared string.
    Text(u32),
    /// A truth, in range or not.
    Truth(u8),
    /// An error code, known or not.
    Error(u8),
}

/// One entry of a journal: a granted correction, or what was made to look like one.
#[derive(Clone, Copy, Debug, PartialEq, Eq)]
pub struct Entry<'a>(&'a [u8; ENTRY]);

impl<'a> Entry<'a> {
    fn word(&self, at: usize) -> u16 {
        u16::from_le_bytes([self.0[at], self.0[at + 1]])
    }

    /// All its bytes.
    pub fn bytes(&self) -> &'a [u8; ENTRY] {
        self.0
    }

    /// The sheet's number.
    pub fn sheet(&self) -> u32 {
        let [a, b, c, d, ..] = *self.0;
        u32::from_le_bytes([a, b, c, d])
    }

    /// The cell's row, from 0.
    pub fn row(&self) -> u16 {
        self.word(4)
    }

    /// The cell's column, from 0.
    pub fn column(&self) -> u16 {
        self.word(6)
    }

    /// The new value's kind: 0 a number, 1 the index of a text, 2 a truth, 3 an error code.
    pub fn kind(&self) -> u16 {
        self.word(8)
    }

    /// The value field as it was: as many bytes as the entry counts, eight at most.
    pub fn old(&self) -> &'a [u8] {
        let count = usize::from(self.word(10)).min(8);
        &self.0[12..12 + count]
    }

    /// What the old bytes say; none where the entry is malformed.
    pub fn old_value(&self) -> Option<Old> {
        match (self.kind(), self.old()) {
            (0, &[a, b, c, d, e, f, g, h]) => {
                Some(Old::Number(u64::from_le_bytes([a, b, c, d, e, f, g, h])))
            }
            (0, &[a, b, c, d]) => Some(Old::Packed(u32::from_le_bytes([a, b, c, d]))),
            (1, &[a, b, c, d]) => Some(Old::Text(u32::from_le_bytes([a, b, c, d]))),
            (2 | 3, &[truth, 0]) => Some(Old::Truth(truth)),
            (2 | 3, &[code, _]) => Some(Old::Error(code)),
            _ => None,
        }
    }

    /// The value that was asked for; none where there is no such kind.
    pub fn new_value(&self) -> Option<NewValue> {
        let [.., a, b, c, d, e, f, g, h] = *self.0;
        match self.kind() {
            0 => Some(NewValue::Number(f64::from_le_bytes([
                a, b, c, d, e, f, g, h,
            ]))),
            1 => Some(NewValue::Text(u32::from_le_bytes([a, b, c, d]))),
            2 => Some(NewValue::Truth(a)),
            3 => Some(NewValue::Error(a)),
            _ => None,
        }
    }

    /// Whether its kind, its count of old bytes and the zeros after both values are as they must be.
    fn is_right(&self) -> bool {
        let count = usize::from(self.word(10));
        let (counts, new): (&[usize], usize) = match self.kind() {
            0 => (&[4, 8], 8),
            1 => (&[4], 4),
            2 | 3 => (&[2], 1),
            _ => return false,
        };
        let zeros = |bytes: &[u8]| bytes.iter().all(|&byte| byte == 0);
        counts.contains(&count) && zeros(&self.0[12 + count..20]) && zeros(&self.0[20 + new..])
    }
}

/// Checks a stream and starts its journal: writes the header of one without entries. 12 where under 16 bytes are lent. What they held is not looked at, and the bytes
/// after them stay.
pub fn start(stream: &[u8], journal: &mut [u8]) -> Result<(), Refusal> {
    // SAFETY: both slices are valid for their lengths, and the journal is lent to this call alone.
    let answer = unsafe {
        raw::station_journal_start(
            stream.as_ptr(),
            stream.len(),
            journal.as_mut_ptr(),
            journal.len(),
        )
    };
    settled(answer.number, answer.offset)
}

/// Writes one cell's value field and the journal's entry for it; or leaves both as they are. After the check's refusals 21 where the bytes are no journal of this stream; 12,
/// after 11, where they have no room for another entry.
pub fn correct(
    stream: &mut [u8],
    journal: &mut [u8],
    sheet: u32,
    row: u32,
    column: u32,
    value: NewValue,
) -> Result<(), Refusal> {
    let (kind, number, index, byte) = value.parts();
    // SAFETY: both slices are valid for their lengths and lent to this call alone.
    let answer = unsafe {
        raw::station_journal_correct(
            stream.as_mut_ptr(),
            stream.len(),
            journal.as_mut_ptr(),
            journal.len(),
            sheet,
            row,
            column,
            kind,
            number,
            index,
            byte,
        )
    };
    settled(answer.number, answer.offset)
}

/// Replays a journal, as [`Journal::replay`]. The journal isn't written.
pub fn replay(stream: &mut [u8], journal: &[u8], direction: Direction) -> Result<u32, Unreplayed> {
    // SAFETY: both slices are valid for their lengths, and the stream is lent to this call alone.
    let answer = unsafe {
        raw::station_replay(
            stream.as_mut_ptr(),
            stream.len(),
            journal.as_ptr(),
            journal.len(),
            direction == Direction::Backwards,
        )
    };
    let refused = settled(answer.number, answer.offset);
    replayed(refused, answer.number, answer.stopped, answer.entries)
}

/// Checks a template, then a session over it, and starts the session's journal: it names the session's length, and the number of strings of the table that the session's
/// text indices mean.
pub fn start_over(template: &[u8], session: &[u8], journal: &mut [u8]) -> Result<(), Refused> {
    // SAFETY: the slices are valid for their lengths, and the journal is lent to this call alone.
    let answer = unsafe {
        raw::station_pair_journal_start(
            template.as_ptr(),
            template.len(),
            session.as_ptr(),
            session.len(),
            journal.as_mut_ptr(),
            journal.len(),
        )
    };
    pair::passed(answer.whose, answer.number, answer.offset)
}

/// Writes the value field of one cell of the session and the entry for it, as [`correct`] and [`pair::correct`].
pub fn correct_over(
    template: &[u8],
    session: &mut [u8],
    journal: &mut [u8],
    sheet: u32,
    row: u32,
    column: u32,
    value: NewValue,
) -> Result<(), Refused> {
    let (kind, number, index, byte) = value.parts();
    // SAFETY: the slices are valid for their lengths, and session and journal are lent to this call alone.
    let answer = unsafe {
        raw::station_pair_journal_correct(
            template.as_ptr(),
            template.len(),
            session.as_mut_ptr(),
            session.len(),
            journal.as_mut_ptr(),
            journal.len(),
            sheet,
            row,
            column,
            kind,
            number,
            index,
            byte,
        )
    };
    pair::passed(answer.whose, answer.number, answer.offset)
}

/// Replays a journal on a session over its template. An entry at a sheet that only the template has is refused with 17.
pub fn replay_over(
    template: &[u8],
    session: &mut [u8],
    journal: &[u8],
    direction: Direction,
) -> Result<u32, Unreplayed<Refused>> {
    // SAFETY: the slices are valid for their lengths, and the session is lent to this call alone.
    let answer = unsafe {
        raw::station_pair_replay(
            template.as_ptr(),
            template.len(),
            session.as_mut_ptr(),
            session.len(),
            journal.as_ptr(),
            journal.len(),
            direction == Direction::Backwards,
        )
    };
    let refused = pair::passed(answer.whose, answer.number, answer.offset);
    replayed(refused, answer.number, answer.stopped, answer.entries)
}
