//! The shared string table: an SST record and the CONTINUEs right after it. The
//! text of a formula's result is split in the same way: a STRING record and the
//! CONTINUEs right after it.

use crate::records::{kind, Record, Records};
use crate::Refusal;

const COUNTS_SIZE: usize = 8;
pub(crate) const RUN_SIZE: usize = 4;

/// Where a string table stands and how many strings it has.
#[derive(Clone, Debug, Default)]
pub(crate) struct StringTable<'a> {
    /// None where the globals have no SST.
    first: Option<Segments<'a>>,
    unique: u32,
}

impl<'a> StringTable<'a> {
    /// Judges the table that starts with this SST record, and moves `records`
    /// past its CONTINUEs.
    pub fn read(sst: &Record<'a>, records: &mut Records<'a>) -> Result<Self, Refusal> {
        let mut segments = Segments::new(Holds::Table, sst, records.clone());
        let counts = segments.piece(COUNTS_SIZE)?;
        // The total in the first four bytes is not judged.
        let unique = u32::from_le_bytes([counts[4], counts[5], counts[6], counts[7]]);
        let first = segments.clone();
        for _ in 0..unique {
            string(&mut segments, |_| ())?;
        }
        segments.finish()?;
        *records = segments.records;
        Ok(StringTable {
            first: Some(first),
            unique,
        })
    }

    /// Whether the globals have an SST, be it one of no strings.
    pub fn is_there(&self) -> bool {
        self.first.is_some()
    }

    /// The number of strings; 0 where there is no table.
    #[inline]
    pub fn unique(&self) -> u32 {
        self.unique
    }

    /// The number of strings; a lent one where there is no table.
    pub fn unique_or(&self, lent: u32) -> u32 {
        match self.first {
            Some(_) => self.unique,
            None => lent,
        }
    }

    /// The units of all strings.
    pub fn all(&self) -> Result<Vec<Vec<u16>>, Refusal> {
        let Some(mut segments) = self.first.clone() else {
            return Ok(Vec::new());
        };
        let mut strings = Vec::new();
        for _ in 0..self.unique {
            let mut units = Vec::new();
            string(&mut segments, |part| part.append_to(&mut units))?;
            strings.push(units);
        }
        Ok(strings)
    }

    /// Hands over the strings that are marked, each as a whole and in order.
    pub fn each_marked<F>(&self, marked: &[bool], mut take: F) -> Result<(), Refusal>
    where
        F: FnMut(WholeString),
    {
        let Some(mut segments) = self.first.clone() else {
            return Ok(());
        };
        for &marked in marked {
            if marked {
                take(WholeString::read(&mut segments)?);
            } else {
                string(&mut segments, |_| ())?;
            }
        }
        Ok(())
    }

    /// Writes one string's units at the start of the buffer.
    pub fn fetch(&self, index: u32, buffer: &mut [u16]) -> Result<usize, Refusal> {
        let absent = Refusal::of_question(11);
        let mut segments = self.first.clone().ok_or(absent)?;
        if index >= self.unique {
            return Err(absent);
        }
        for _ in 0..index {
            string(&mut segments, |_| ())?;
        }
        write_next(segments, buffer)
    }

    /// Hands over where each string's head stands, and where the header of the
    /// record does that holds the head.
    pub fn each_place<F: FnMut(usize, usize)>(&self, mut take: F) -> Result<(), Refusal> {
        let Some(mut segments) = self.first.clone() else {
            return Ok(());
        };
        for _ in 0..self.unique {
            // A head that would start where a segment ends stands in the next.
            segments.advance_if_spent()?;
            take(segments.next_at(), segments.at);
            string(&mut segments, |_| ())?;
        }
        Ok(())
    }
}

/// The text of one formula's result.
#[derive(Clone, Debug)]
pub(crate) struct ResultText<'a> {
    first: Segments<'a>,
}

impl<'a> ResultText<'a> {
    /// Judges the text that starts with this STRING record, and moves `records`
    /// past its CONTINUEs. Its head stands in the STRING itself.
    pub fn read(text: &Record<'a>, records: &mut Records<'a>) -> Result<Self, Refusal> {
        let first = Segments::new(Holds::Result, text, records.clone());
        let mut segments = first.clone();
        let head = Head::read(&mut segments)?;
        characters(&mut segments, &head, |_| ())?;
        segments.finish()?;
        *records = segments.records;
        Ok(ResultText { first })
    }

    /// Its units.
    pub fn units(&self) -> Result<Vec<u16>, Refusal> {
        let mut units = Vec::new();
        string(&mut self.first.clone(), |part| part.append_to(&mut units))?;
        Ok(units)
    }

    /// Writes its units at the start of the buffer.
    pub fn fetch(self, buffer: &mut [u16]) -> Result<usize, Refusal> {
        write_next(self.first, buffer)
    }
}

/// Writes the units of the string whose head is said to stand at `head`, in the
/// record whose header is said to stand at `segment`. Nothing is known of the
/// stream, so the string is read to its end before a unit is written; whatever
/// is wrong with it makes it absent.
pub(crate) fn fetch_at(
    stream: &[u8],
    head: usize,
    segment: usize,
    buffer: &mut [u16],
) -> Result<usize, Refusal> {
    let absent = Refusal::of_question(11);
    let segments = Segments::from_head(stream, head, segment).ok_or(absent)?;
    string(&mut segments.clone(), |_| ()).map_err(|_| absent)?;
    write_next(segments, buffer)
}

/// A part of a string's characters that stands in one segment.
#[derive(Clone, Copy)]
enum Characters<'a> {
    Narrow(&'a [u8]),
    Wide(&'a [[u8; 2]]),
}

impl Characters<'_> {
    fn append_to(self, units: &mut Vec<u16>) {
        match self {
            Characters::Narrow(bytes) => units.extend(bytes.iter().map(|&byte| u16::from(byte))),
            Characters::Wide(pairs) => units.extend(pairs.iter().copied().map(u16::from_le_bytes)),
        }
    }

    fn write_to<'u>(self, free: &mut impl Iterator<Item = &'u mut u16>) {
        // The characters come first: a unit taken before them would be lost
        // where they end.
        match self {
            Characters::Narrow(bytes) => {
                for (&byte, unit) in bytes.iter().zip(free) {
                    *unit = u16::from(byte);
                }
            }
            Characters::Wide(pairs) => {
                for (&pair, unit) in pairs.iter().zip(free) {
                    *unit = u16::from_le_bytes(pair);
                }
            }
        }
    }
}

/// What some segments hold.
#[derive(Clone, Copy, Debug)]
enum Holds {
    /// The shared string table.
    Table,
    /// One formula's text. Only bit 0 of its flags counts.
    Result,
}

impl Holds {
    /// The refusal where they are broken.
    fn refusal(self, at: usize) -> Refusal {
        let number = match self {
            Holds::Table => 8,
            Holds::Result => 6,
        };
        Refusal::new(number, at)
    }

    /// Whether a string may have runs and phonetic bytes.
    #[inline]
    fn more_than_characters(self) -> bool {
        matches!(self, Holds::Table)
    }
}

/// The part of a table or text that is still unread: the rest of the segment
/// being read, and the records after that segment.
#[derive(Clone, Debug)]
struct Segments<'a> {
    holds: Holds,
    /// Where the header of the segment being read stands.
    at: usize,
    rest: &'a [u8],
    records: Records<'a>,
}

impl<'a> Segments<'a> {
    fn new(holds: Holds, segment: &Record<'a>, records: Records<'a>) -> Self {
        Segments {
            holds,
            at: segment.at,
            rest: segment.body,
            records,
        }
    }

    /// From a head on, which must stand in the body of an SST or CONTINUE whose
    /// header is at `segment`. The counts at an SST's start are part of its body.
    fn from_head(stream: &'a [u8], head: usize, segment: usize) -> Option<Self> {
        if segment > stream.len() {
            return None;
        }
        let mut records = Records::from(stream, segment);
        let record = records.next().ok()??;
        if !matches!(record.kind, kind::SST | kind::CONTINUE) {
            return None;
        }
        let before = head.checked_sub(record.body_at())?;
        let segments = Segments {
            holds: Holds::Table,
            at: record.at,
            rest: record.body.get(before..)?,
            records,
        };
        (!segments.is_spent()).then_some(segments)
    }

    /// Where the next byte of the segment being read stands.
    fn next_at(&self) -> usize {
        self.records.at() - self.rest.len()
    }

    fn broken(&self) -> Refusal {
        self.holds.refusal(self.at)
    }

    #[inline]
    fn is_spent(&self) -> bool {
        self.rest.is_empty()
    }

    /// Moves on to the next segment, where one is needed.
    fn advance(&mut self) -> Result<(), Refusal> {
        if self.records.next_kind() != Some(kind::CONTINUE) {
            return Err(self.broken());
        }
        let segment = self.records.next()?.ok_or(self.broken())?;
        self.at = segment.at;
        self.rest = segment.body;
        if self.is_spent() {
            return Err(self.broken());
        }
        Ok(())
    }

    /// Moves on where the segment being read has nothing left.
    #[inline]
    fn advance_if_spent(&mut self) -> Result<(), Refusal> {
        if self.is_spent() {
            self.advance()?;
        }
        Ok(())
    }

    /// The next bytes, which may not leave the segment.
    #[inline]
    fn piece(&mut self, size: usize) -> Result<&'a [u8], Refusal> {
        let (piece, rest) = self.rest.split_at_checked(size).ok_or(self.broken())?;
        self.rest = rest;
        Ok(piece)
    }

    /// The next fields of one width: as many as the segment still holds whole,
    /// at least one, at most `most`.
    #[inline]
    fn fields(&mut self, width: usize, most: usize) -> Result<(usize, &'a [u8]), Refusal> {
        let count = most.min(self.rest.len() / width);
        if count == 0 {
            return Err(self.broken());
        }
        Ok((count, self.piece(count * width)?))
    }

    /// The table or text must end with the segment being read, and no CONTINUE
    /// may follow it.
    fn finish(&mut self) -> Result<(), Refusal> {
        if !self.is_spent() {
            return Err(self.broken());
        }
        if self.records.next_kind() == Some(kind::CONTINUE) {
            // One that is cut is refused as such, as any record would be.
            let at = self.records.at();
            self.records.next()?;
            return Err(self.holds.refusal(at));
        }
        Ok(())
    }
}

/// What stands before a string's characters.
struct Head {
    length: usize,
    wide: bool,
    runs: usize,
    phonetic: usize,
}

impl Head {
    #[inline]
    fn read(segments: &mut Segments<'_>) -> Result<Self, Refusal> {
        let start = segments.piece(3)?;
        let flags = start[2];
        let more = segments.holds.more_than_characters();
        let (phonetic, rich) = (more && flags & 4 != 0, more && flags & 8 != 0);
        let runs = if rich {
            let count = segments.piece(2)?;
            usize::from(u16::from_le_bytes([count[0], count[1]]))
        } else {
            0
        };
        let phonetic = if phonetic {
            let size = segments.piece(4)?;
            u32::from_le_bytes([size[0], size[1], size[2], size[3]]) as usize
        } else {
            0
        };
        Ok(Head {
            length: usize::from(u16::from_le_bytes([start[0], start[1]])),
            wide: flags & 1 != 0,
            runs,
            phonetic,
        })
    }
}

/// Reads one string, handing over its characters segment by segment.
#[inline]
fn string<'a, F: FnMut(Characters<'a>)>(
    segments: &mut Segments<'a>,
    take: F,
) -> Result<(), Refusal> {
    segments.advance_if_spent()?;
    let head = Head::read(segments)?;
    characters(segments, &head, take)?;
    after_characters(segments, RUN_SIZE, head.runs, |_| ())?;
    after_characters(segments, 1, head.phonetic, |_| ())
}

/// Writes the next string's units at the start of the buffer. The length is
/// known before the first unit, so that a short buffer is refused before
/// anything is written.
fn write_next(mut segments: Segments<'_>, buffer: &mut [u16]) -> Result<usize, Refusal> {
    let length = next_length(segments.clone())?;
    let mut free = buffer
        .get_mut(..length)
        .ok_or(Refusal::of_question(12))?
        .iter_mut();
    string(&mut segments, |part| part.write_to(&mut free))?;
    Ok(length)
}

/// The length of the next string.
fn next_length(mut segments: Segments<'_>) -> Result<usize, Refusal> {
    segments.advance_if_spent()?;
    Ok(Head::read(&mut segments)?.length)
}

/// The first character stands in the head's segment, and every later segment
/// has a flags byte with a width of its own before at least one character.
#[inline]
fn characters<'a, F: FnMut(Characters<'a>)>(
    segments: &mut Segments<'a>,
    head: &Head,
    mut take: F,
) -> Result<(), Refusal> {
    let mut left = head.length;
    let mut wide = head.wide;
    while left > 0 {
        let (count, bytes) = segments.fields(if wide { 2 } else { 1 }, left)?;
        take(if wide {
            Characters::Wide(bytes.as_chunks().0)
        } else {
            Characters::Narrow(bytes)
        });
        left -= count;
        if left > 0 {
            if !segments.is_spent() {
                // Half a character is left.
                return Err(segments.broken());
            }
            segments.advance()?;
            wide = segments.piece(1)?[0] & 1 != 0;
        }
    }
    Ok(())
}

/// The runs of a string, or its phonetic bytes as fields of one byte: they go on
/// in the next segment without a flags byte, and no field may be cut.
#[inline]
fn after_characters<'a, F: FnMut(&'a [u8])>(
    segments: &mut Segments<'a>,
    width: usize,
    count: usize,
    mut take: F,
) -> Result<(), Refusal> {
    let mut left = count;
    while left > 0 {
        segments.advance_if_spent()?;
        let (count, bytes) = segments.fields(width, left)?;
        take(bytes);
        left -= count;
    }
    Ok(())
}

/// One string with all that belongs to it, whatever segments it stands in.
pub(crate) struct WholeString {
    /// Whether its head has a run count, be it 0.
    pub rich: bool,
    /// Whether its head has a phonetic size, be it 0.
    pub phonetic: bool,
    pub units: Vec<u16>,
    pub run_bytes: Vec<u8>,
    pub phonetic_bytes: Vec<u8>,
}

impl WholeString {
    fn read(segments: &mut Segments<'_>) -> Result<Self, Refusal> {
        segments.advance_if_spent()?;
        let flags = segments.clone().piece(3)?[2];
        let head = Head::read(segments)?;
        let mut whole = WholeString {
            rich: flags & 8 != 0,
            phonetic: flags & 4 != 0,
            units: Vec::with_capacity(head.length),
            run_bytes: Vec::new(),
            phonetic_bytes: Vec::new(),
        };
        characters(segments, &head, |part| part.append_to(&mut whole.units))?;
        after_characters(segments, RUN_SIZE, head.runs, |runs| {
            whole.run_bytes.extend(runs);
        })?;
        after_characters(segments, 1, head.phonetic, |bytes| {
            whole.phonetic_bytes.extend(bytes);
        })?;
        Ok(whole)
    }
}
