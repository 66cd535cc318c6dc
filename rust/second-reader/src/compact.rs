//! Leaving out the strings that no cell uses: a new stream in a lent buffer.
//!
//! The whole new stream is made first, since a refusal for its length may not
//! change a byte of the buffer. Indices keep their places, so they are set in a
//! copy of the old stream. Then the records are taken over one by one, the
//! string table is laid out anew, and at the end, when it is known where the
//! sheets stand, their positions are set.

use crate::pair::Pair;
use crate::records::{kind, Record, Records, HEADER_SIZE, LONGEST_BODY};
use crate::strings::{WholeString, RUN_SIZE};
use crate::survey::{Survey, LONGEST_STREAM};
use crate::{PairRefusal, Refusal, Value};

/// Two types that are passed over and point into what moves: an EXTSST at the
/// strings, an INDEX at the rows.
const EXTSST: u16 = 0x00FF;
const INDEX: u16 = 0x020B;

/// What became of a stream without its unused strings.
#[derive(Clone, Copy, Debug, PartialEq, Eq)]
pub struct Compacted {
    /// How many bytes at the buffer's start the new stream takes.
    pub written: usize,
    /// The old length less the new; below 0 where the stream grew.
    pub freed: i64,
}

/// Checks the stream, then writes it without the strings that no text cell uses
/// to the start of the buffer. Later bytes stay as they were, and so do all of
/// them where it refuses.
pub fn compact(stream: &[u8], buffer: &mut [u8]) -> Result<Compacted, Refusal> {
    let survey = Survey::of(stream)?;
    write(stream, &survey, buffer)
}

/// Checks a template and a session that stands on it, then writes the session
/// as `compact` does. One without an SST gets none and keeps its indices, which
/// resolve in the template.
pub fn compact_session(
    template: &[u8],
    session: &[u8],
    buffer: &mut [u8],
) -> Result<Compacted, PairRefusal> {
    let pair = Pair::of(template, session)?;
    write(session, &pair.session, buffer).map_err(PairRefusal::Question)
}

fn write(stream: &[u8], survey: &Survey<'_>, buffer: &mut [u8]) -> Result<Compacted, Refusal> {
    let new = new_stream(stream, survey)?;
    if new.len() > LONGEST_STREAM {
        return Err(Refusal::of_question(1));
    }
    buffer
        .get_mut(..new.len())
        .ok_or(Refusal::of_question(12))?
        .copy_from_slice(&new);
    Ok(Compacted {
        written: new.len(),
        freed: stream.len() as i64 - new.len() as i64,
    })
}

fn new_stream(stream: &[u8], survey: &Survey<'_>) -> Result<Vec<u8>, Refusal> {
    if !survey.strings.is_there() {
        return NewStream::of(stream, &[]);
    }
    let uses = Uses::of(survey)?;
    let table = new_table(survey, &uses)?;
    NewStream::of(&uses.renumbered(stream), &table)
}

/// How a stream's text cells use its strings.
struct Uses {
    /// For each text cell where its index stands, and the index.
    cells: Vec<(usize, u32)>,
    /// For each string whether a cell uses it.
    used: Vec<bool>,
}

impl Uses {
    /// Only listed cells count; a LABELSST that is passed over is not even known
    /// to have an index in the table.
    fn of(survey: &Survey<'_>) -> Result<Self, Refusal> {
        let mut uses = Uses {
            cells: Vec::new(),
            used: vec![false; survey.strings.unique() as usize],
        };
        for sheet in 0..survey.sheets.len() {
            survey.list(sheet, |cell| {
                if let Value::Text(index) = cell.value {
                    uses.cells.push((cell.value_field.start, index));
                    uses.used[index as usize] = true;
                }
            })?;
        }
        Ok(uses)
    }

    /// The number of strings that are used.
    fn unique(&self) -> u32 {
        self.used.iter().map(|&used| u32::from(used)).sum()
    }

    /// The stream with new indices in its text cells: for each string the number
    /// of used ones before it.
    fn renumbered(&self, stream: &[u8]) -> Vec<u8> {
        let mut next = 0;
        let mut new_indices = Vec::with_capacity(self.used.len());
        for &used in &self.used {
            new_indices.push(next);
            next += u32::from(used);
        }
        let mut stream = stream.to_vec();
        for &(at, index) in &self.cells {
            set(&mut stream, at, new_indices[index as usize]);
        }
        stream
    }
}

/// Sets the u32 at a place.
fn set(bytes: &mut [u8], at: usize, number: u32) {
    bytes[at..at + 4].copy_from_slice(&number.to_le_bytes());
}

/// A stream that takes over the records of another.
#[derive(Default)]
struct NewStream {
    bytes: Vec<u8>,
    /// Where each BOUNDSHEET's position stands.
    positions: Vec<usize>,
    /// For each sheet's BOF where it stood and where it stands now, in order.
    moved: Vec<(usize, usize)>,
}

impl NewStream {
    /// The new stream for an old one that passed the check, with this table in
    /// place of its own.
    fn of(old: &[u8], table: &[u8]) -> Result<Vec<u8>, Refusal> {
        let mut new = NewStream::default();
        let mut records = Records::from(old, 0);
        new.take_globals(&mut records, table)?;
        while records.rest().iter().any(|&byte| byte != 0) {
            new.take_sheet(&mut records)?;
        }
        new.bytes.extend(records.rest());
        new.set_positions();
        Ok(new.bytes)
    }

    fn take(&mut self, record: &Record<'_>) {
        append_header(&mut self.bytes, record.kind, record.body.len());
        self.bytes.extend(record.body);
    }

    fn take_globals(&mut self, records: &mut Records<'_>, table: &[u8]) -> Result<(), Refusal> {
        loop {
            let record = records.next_inside()?;
            match record.kind {
                kind::SST => {
                    leave_continues(records)?;
                    self.bytes.extend(table);
                    continue;
                }
                EXTSST => {
                    leave_continues(records)?;
                    continue;
                }
                kind::BOUNDSHEET => self.positions.push(self.bytes.len() + HEADER_SIZE),
                _ => {}
            }
            self.take(&record);
            if record.kind == kind::EOF {
                return Ok(());
            }
        }
    }

    /// Takes over a sheet of any type from its BOF to its EOF, with the charts
    /// inside it.
    fn take_sheet(&mut self, records: &mut Records<'_>) -> Result<(), Refusal> {
        self.moved.push((records.at(), self.bytes.len()));
        let mut depth = 0;
        loop {
            let record = records.next_inside()?;
            match record.kind {
                kind::BOF => depth += 1,
                kind::EOF => depth -= 1,
                INDEX if depth == 1 => {
                    leave_continues(records)?;
                    continue;
                }
                _ => {}
            }
            self.take(&record);
            if depth == 0 {
                return Ok(());
            }
        }
    }

    /// Lets each BOUNDSHEET name the place where its BOF stands now.
    fn set_positions(&mut self) {
        for &at in &self.positions {
            let field = self.bytes[at..at + 4].try_into().expect("four bytes");
            let old = u32::from_le_bytes(field) as usize;
            let sheet = self.moved.binary_search_by_key(&old, |&(old, _)| old);
            let (_, new) = self.moved[sheet.expect("a sheet's BOF, by the check")];
            set(&mut self.bytes, at, new as u32);
        }
    }
}

/// Leaves out all CONTINUEs up to the next other record.
fn leave_continues(records: &mut Records<'_>) -> Result<(), Refusal> {
    while records.next_kind() == Some(kind::CONTINUE) {
        records.next()?;
    }
    Ok(())
}

fn append_header(bytes: &mut Vec<u8>, kind: u16, size: usize) {
    bytes.extend(kind.to_le_bytes());
    bytes.extend((size as u16).to_le_bytes());
}

/// The SST with the strings that are used, and its CONTINUEs.
fn new_table(survey: &Survey<'_>, uses: &Uses) -> Result<Vec<u8>, Refusal> {
    let mut segments = Segments::new();
    segments.append(&(uses.cells.len() as u32).to_le_bytes());
    segments.append(&uses.unique().to_le_bytes());
    survey
        .strings
        .each_marked(&uses.used, |string| segments.append_string(&string))?;
    Ok(segments.finish())
}

/// A string table that is being written, each segment filled as far as it goes.
struct Segments {
    bytes: Vec<u8>,
    /// Where the body of the last segment starts.
    body_at: usize,
}

impl Segments {
    fn new() -> Self {
        let mut bytes = Vec::new();
        append_header(&mut bytes, kind::SST, 0);
        Segments {
            body_at: bytes.len(),
            bytes,
        }
    }

    /// The size of the last segment's body so far.
    fn size(&self) -> usize {
        self.bytes.len() - self.body_at
    }

    fn room(&self) -> usize {
        LONGEST_BODY - self.size()
    }

    /// Writes into the last segment, which must have the room.
    fn append(&mut self, bytes: &[u8]) {
        debug_assert!(bytes.len() <= self.room());
        self.bytes.extend(bytes);
    }

    /// Starts a CONTINUE, into which something is about to go.
    fn next_segment(&mut self) {
        self.set_size();
        append_header(&mut self.bytes, kind::CONTINUE, 0);
        self.body_at = self.bytes.len();
    }

    /// The last segment's header gets the size that its body has now.
    fn set_size(&mut self) {
        let size = (self.size() as u16).to_le_bytes();
        self.bytes[self.body_at - size.len()..self.body_at].copy_from_slice(&size);
    }

    fn finish(mut self) -> Vec<u8> {
        self.set_size();
        self.bytes
    }

    fn append_string(&mut self, string: &WholeString) {
        let wide = string.units.iter().any(|&unit| unit > 0xFF);
        let width = if wide { 2 } else { 1 };
        let head = head(string, wide);
        let first_character = if string.units.is_empty() { 0 } else { width };
        if self.room() < head.len() + first_character {
            self.next_segment();
        }
        self.append(&head);
        self.append_fields(&characters(string, wide), width, &[u8::from(wide)]);
        self.append_fields(&string.run_bytes, RUN_SIZE, &[]);
        self.append_fields(&string.phonetic_bytes, 1, &[]);
    }

    /// Writes fields of one width, as many in each segment as go into it whole.
    /// Each segment that they run on into starts with `start`.
    fn append_fields(&mut self, fields: &[u8], width: usize, start: &[u8]) {
        let mut left = fields;
        while !left.is_empty() {
            let size = left.len().min(self.room() / width * width);
            let (now, later) = left.split_at(size);
            self.append(now);
            left = later;
            if !left.is_empty() {
                self.next_segment();
                self.append(start);
            }
        }
    }
}

/// What stands before a string's characters.
fn head(string: &WholeString, wide: bool) -> Vec<u8> {
    let (phonetic, rich) = (u8::from(string.phonetic), u8::from(string.rich));
    let mut head = Vec::with_capacity(9);
    head.extend((string.units.len() as u16).to_le_bytes());
    head.push(u8::from(wide) | phonetic << 2 | rich << 3);
    if string.rich {
        let runs = string.run_bytes.len() / RUN_SIZE;
        head.extend((runs as u16).to_le_bytes());
    }
    if string.phonetic {
        head.extend((string.phonetic_bytes.len() as u32).to_le_bytes());
    }
    head
}

/// A string's characters in one width throughout.
fn characters(string: &WholeString, wide: bool) -> Vec<u8> {
    let units = string.units.iter();
    if wide {
        units.flat_map(|unit| unit.to_le_bytes()).collect()
    } else {
        units.map(|&unit| unit as u8).collect()
    }
}
