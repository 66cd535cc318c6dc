//! Large valid streams to measure with.

use crate::record::{append_header, bof, kind, ERROR_CODES, HEADER_SIZE, LONGEST_BODY};
use crate::rng::Rng;

/// What a large stream is made of.
#[derive(Clone, Copy, Debug, PartialEq, Eq, Hash)]
pub enum Big {
    /// A fifth of strings, the rest cells of all kinds in one worksheet.
    Mixed,
    /// NUMBER cells.
    Numbers,
    /// RK cells.
    Rks,
    /// MULRK records, of 1 to 256 cells.
    MulRks,
    /// LABELSST cells.
    Texts,
    /// FORMULA cells with short formulas.
    Formulas,
    /// FORMULA cells with texts of 1 to 40 characters for their results.
    TextResults,
    /// Records of no bytes that are passed over.
    Tiny,
    /// Shared strings of no characters.
    EmptyStrings,
    /// As many sheets as there is room for, named in reverse.
    Reversed,
}

impl Big {
    /// All of them.
    pub const ALL: [Big; 10] = [
        Big::Mixed,
        Big::Numbers,
        Big::Rks,
        Big::MulRks,
        Big::Texts,
        Big::Formulas,
        Big::TextResults,
        Big::Tiny,
        Big::EmptyStrings,
        Big::Reversed,
    ];
}

const BOF_SIZE: usize = HEADER_SIZE + 16;
pub(crate) const EOF_SIZE: usize = HEADER_SIZE;
pub(crate) const TEXT_SIZE: usize = HEADER_SIZE + 10;
const BOUNDSHEET_SIZE: usize = HEADER_SIZE + 9;

/// A valid stream of exactly so many bytes, at least 200; what has no room for
/// another record is filled with zeros at the end.
pub(crate) fn make(big: Big, bytes: usize) -> Vec<u8> {
    if big == Big::Reversed {
        return reversed(bytes);
    }
    let mut stream = one_sheet(
        &mut Rng::new(big as u64 + 1),
        bytes,
        |rng, stream| append_table(rng, stream, big, bytes),
        |rng, stream, unique| append_cells(rng, stream, big, unique, bytes - EOF_SIZE),
    );
    stream.resize(bytes, 0);
    stream
}

/// A workbook of one worksheet, of about so many bytes: its string table, which
/// `append_table` makes and counts, and its cells.
pub(crate) fn one_sheet(
    rng: &mut Rng,
    bytes: usize,
    append_table: impl FnOnce(&mut Rng, &mut Vec<u8>) -> u32,
    append_cells: impl FnOnce(&mut Rng, &mut Vec<u8>, u32),
) -> Vec<u8> {
    let mut stream = Vec::with_capacity(bytes);
    append_bof(&mut stream, bof::GLOBALS);
    append_boundsheet(&mut stream, 0);
    let unique = append_table(rng, &mut stream);
    append_header(&mut stream, kind::EOF, 0);
    let position = (stream.len() as u32).to_le_bytes();
    stream[BOF_SIZE + HEADER_SIZE..][..4].copy_from_slice(&position);
    append_bof(&mut stream, bof::WORKSHEET);
    append_cells(rng, &mut stream, unique);
    append_header(&mut stream, kind::EOF, 0);
    stream
}

/// Text cells at these places, row after row, each with the next index.
pub(crate) fn append_texts(
    stream: &mut Vec<u8>,
    places: impl IntoIterator<Item = usize>,
    mut index: impl FnMut() -> u32,
) {
    for place in places {
        append_start(stream, kind::LABELSST, place, TEXT_SIZE - HEADER_SIZE);
        stream.extend(index().to_le_bytes());
    }
}

/// Header, row, column and format of a cell, 256 to a row.
pub(crate) fn append_start(stream: &mut Vec<u8>, kind: u16, place: usize, size: usize) {
    append_header(stream, kind, size);
    stream.extend(((place / 256) as u16).to_le_bytes());
    stream.extend([(place % 256) as u8, 0, 15, 0]);
}

fn append_bof(stream: &mut Vec<u8>, kind: u16) {
    append_header(stream, kind::BOF, 16);
    stream.extend(0x0600u16.to_le_bytes());
    stream.extend(kind.to_le_bytes());
    stream.extend([0; 12]);
}

fn append_boundsheet(stream: &mut Vec<u8>, position: usize) {
    append_header(stream, kind::BOUNDSHEET, 9);
    stream.extend((position as u32).to_le_bytes());
    stream.extend([0, 0, 1, 0, b'a']);
}

/// Sheets with nothing in them; the first BOUNDSHEET names the last one.
fn reversed(bytes: usize) -> Vec<u8> {
    let fixed = BOF_SIZE + EOF_SIZE;
    let sheets = (bytes - fixed) / (BOUNDSHEET_SIZE + BOF_SIZE + EOF_SIZE);
    let first = fixed + sheets * BOUNDSHEET_SIZE;
    let mut stream = Vec::with_capacity(bytes);
    append_bof(&mut stream, bof::GLOBALS);
    for number in (0..sheets).rev() {
        append_boundsheet(&mut stream, first + number * (BOF_SIZE + EOF_SIZE));
    }
    append_header(&mut stream, kind::EOF, 0);
    for _ in 0..sheets {
        append_bof(&mut stream, bof::WORKSHEET);
        append_header(&mut stream, kind::EOF, 0);
    }
    stream.resize(bytes, 0);
    stream
}

/// A string table as this kind of stream needs it; gives the number of strings.
fn append_table(rng: &mut Rng, stream: &mut Vec<u8>, big: Big, bytes: usize) -> u32 {
    let room = match big {
        Big::Mixed => bytes / 5,
        Big::Texts => bytes / 100,
        Big::EmptyStrings => bytes - 2 * (BOF_SIZE + EOF_SIZE) - BOUNDSHEET_SIZE,
        _ => return 0,
    };
    let mut table = TableWriter::start(stream);
    // At least one string, for the text cells to point to; a string with the
    // header of a new segment takes less than the room that is left.
    loop {
        match big {
            Big::EmptyStrings => table.whole_string(&[0, 0, 0]),
            _ => table.random_string(rng, 40),
        }
        if table.stream.len() + 120 > BOF_SIZE + BOUNDSHEET_SIZE + room {
            break;
        }
    }
    table.finish()
}

/// Writes strings into segments that are as full as can be.
pub(crate) struct TableWriter<'s> {
    stream: &'s mut Vec<u8>,
    /// Where the header of the segment being written stands.
    segment: usize,
    counts: usize,
    unique: u32,
}

impl<'s> TableWriter<'s> {
    pub fn start(stream: &'s mut Vec<u8>) -> Self {
        let segment = stream.len();
        append_header(stream, kind::SST, 0);
        let counts = stream.len();
        stream.extend([0; 8]);
        TableWriter {
            stream,
            segment,
            counts,
            unique: 0,
        }
    }

    fn room(&self) -> usize {
        LONGEST_BODY - (self.stream.len() - self.segment - HEADER_SIZE)
    }

    fn close_segment(&mut self) {
        let size = (self.stream.len() - self.segment - HEADER_SIZE) as u16;
        self.stream[self.segment + 2..][..2].copy_from_slice(&size.to_le_bytes());
    }

    fn next_segment(&mut self) {
        self.close_segment();
        self.segment = self.stream.len();
        append_header(self.stream, kind::CONTINUE, 0);
    }

    /// A string that is not split.
    pub fn whole_string(&mut self, bytes: &[u8]) {
        if self.room() < bytes.len() {
            self.next_segment();
        }
        self.stream.extend(bytes);
        self.unique += 1;
    }

    /// A string of one byte a character, split where a segment ends.
    pub fn narrow_string(&mut self, characters: &[u8]) {
        self.split_string(characters, false, LONGEST_BODY);
    }

    /// A string of one byte a character, with a segment for each.
    pub fn shredded_string(&mut self, characters: &[u8]) {
        self.split_string(characters, false, 1);
    }

    /// A string of one byte or of two a character, with at most so many of them in a segment.
    pub fn split_string(&mut self, characters: &[u8], wide: bool, most: usize) {
        let width = 1 + usize::from(wide);
        if self.room() < 3 + width {
            self.next_segment();
        }
        self.stream.extend((characters.len() as u16).to_le_bytes());
        self.stream.push(u8::from(wide));
        let mut left = characters;
        loop {
            let count = left.len().min(self.room() / width).min(most);
            let (part, rest) = left.split_at(count);
            for &character in part {
                self.stream.extend(&[character, 0][..width]);
            }
            left = rest;
            if left.is_empty() {
                break;
            }
            self.next_segment();
            self.stream.push(u8::from(wide));
        }
        self.unique += 1;
    }

    /// A string of one character or more, split where a segment ends.
    pub fn random_string(&mut self, rng: &mut Rng, longest: usize) {
        let length = rng.between(1, longest);
        let wide = rng.percent(25);
        let width = 1 + usize::from(wide);
        if self.room() < 3 + width {
            self.next_segment();
        }
        self.stream.extend((length as u16).to_le_bytes());
        self.stream.push(u8::from(wide));
        let mut left = length;
        while left > 0 {
            let count = left.min(self.room() / width);
            rng.append(self.stream, count * width);
            left -= count;
            if left > 0 {
                self.next_segment();
                self.stream.push(u8::from(wide));
            }
        }
        self.unique += 1;
    }

    pub fn finish(mut self) -> u32 {
        self.close_segment();
        let unique = self.unique.to_le_bytes();
        self.stream[self.counts..][..4].copy_from_slice(&unique);
        self.stream[self.counts + 4..][..4].copy_from_slice(&unique);
        self.unique
    }
}

/// Where the next cell stands: row after row.
struct Address {
    next: usize,
}

impl Address {
    /// Appends row and column of a record with so many cells, and gives the
    /// first column.
    fn append(&mut self, body: &mut Vec<u8>, count: usize) -> usize {
        if self.next % 256 + count > 256 {
            self.next += 256 - self.next % 256;
        }
        let (row, column) = (self.next / 256 % 65_536, self.next % 256);
        self.next += count;
        body.extend((row as u16).to_le_bytes());
        body.extend((column as u16).to_le_bytes());
        column
    }
}

/// Fills the sheet with records up to a limit.
fn append_cells(rng: &mut Rng, stream: &mut Vec<u8>, big: Big, unique: u32, limit: usize) {
    let mut address = Address { next: 0 };
    let mut body = Vec::with_capacity(2_000);
    let mut after = Vec::new();
    loop {
        body.clear();
        after.clear();
        let kind = match big {
            Big::Mixed => rng.pick(&kind::CELLS),
            Big::Numbers => kind::NUMBER,
            Big::Rks => kind::RK,
            Big::MulRks => kind::MULRK,
            Big::Texts => kind::LABELSST,
            Big::Formulas | Big::TextResults => kind::FORMULA,
            Big::EmptyStrings => return,
            Big::Tiny | Big::Reversed => 0x0031,
        };
        cell_body(rng, &mut body, &mut address, kind, unique);
        if big == Big::TextResults {
            body[6..14].copy_from_slice(&[0, 0, 0, 0, 0, 0, 0xFF, 0xFF]);
            append_text(rng, &mut after);
        }
        if stream.len() + HEADER_SIZE + body.len() + after.len() > limit {
            return;
        }
        append_header(stream, kind, body.len());
        stream.extend(&body);
        stream.extend(&after);
    }
}

/// A formula's text in one STRING, narrow or wide; now and then a record stands
/// before it.
fn append_text(rng: &mut Rng, after: &mut Vec<u8>) {
    if rng.percent(3) {
        append_header(after, kind::SHRFMLA, 13);
        rng.append(after, 13);
    }
    let length = rng.between(1, 40);
    let wide = rng.percent(25);
    let size = length * (1 + usize::from(wide));
    append_header(after, kind::STRING, 3 + size);
    after.extend([length as u8, 0, u8::from(wide)]);
    rng.append(after, size);
}

fn cell_body(rng: &mut Rng, body: &mut Vec<u8>, address: &mut Address, kind: u16, unique: u32) {
    match kind {
        kind::MULRK | kind::MULBLANK => return multiple_body(rng, body, address, kind),
        0x0031 => return,
        _ => {}
    }
    address.append(body, 1);
    body.extend((rng.below(60) as u16).to_le_bytes());
    match kind {
        kind::NUMBER => body.extend((rng.below(1 << 40) as f64 / 64.0).to_le_bytes()),
        kind::RK => body.extend(plain_word(rng).to_le_bytes()),
        kind::LABELSST => body.extend((rng.below(unique as usize) as u32).to_le_bytes()),
        kind::BOOLERR if rng.percent(50) => body.extend([rng.below(2) as u8, 0]),
        kind::BOOLERR => body.extend([rng.pick(&ERROR_CODES), 1]),
        kind::FORMULA => {
            let formula = crate::formula::small(rng);
            body.extend((rng.below(1 << 40) as f64 / 64.0).to_le_bytes());
            body.extend([0; 6]);
            body.extend((formula.tokens.len() as u16).to_le_bytes());
            body.extend(formula.tokens);
            body.extend(formula.trailing);
            body.truncate(LONGEST_BODY);
        }
        _ => {}
    }
}

/// An RK word as a sheet of plain figures has them: whole numbers, hundredths,
/// and floats of no extreme size.
fn plain_word(rng: &mut Rng) -> u32 {
    let figure = (rng.mostly_small(0, 1 << 24) as u32) << 2;
    match rng.below(10) {
        0..=4 => figure | 2,
        5..=7 => figure | 3,
        _ => (0x3FC0_0000 + rng.below(0x0080_0000) as u32) & !3,
    }
}

fn multiple_body(rng: &mut Rng, body: &mut Vec<u8>, address: &mut Address, kind: u16) {
    let count = rng.mostly_small(1, 256);
    let first = address.append(body, count);
    for _ in 0..count {
        body.extend((rng.below(60) as u16).to_le_bytes());
        if kind == kind::MULRK {
            body.extend(plain_word(rng).to_le_bytes());
        }
    }
    body.extend(((first + count - 1) as u16).to_le_bytes());
}
