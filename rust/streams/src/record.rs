//! Records, and a workbook as a list of them.

use crate::rng::Rng;

/// The record types that a reader tells apart.
pub(crate) mod kind {
    pub const FORMULA: u16 = 0x0006;
    pub const EOF: u16 = 0x000A;
    pub const FILEPASS: u16 = 0x002F;
    pub const CONTINUE: u16 = 0x003C;
    pub const BOUNDSHEET: u16 = 0x0085;
    pub const MULRK: u16 = 0x00BD;
    pub const MULBLANK: u16 = 0x00BE;
    pub const SST: u16 = 0x00FC;
    pub const LABELSST: u16 = 0x00FD;
    pub const DIMENSIONS: u16 = 0x0200;
    pub const BLANK: u16 = 0x0201;
    pub const NUMBER: u16 = 0x0203;
    pub const BOOLERR: u16 = 0x0205;
    pub const STRING: u16 = 0x0207;
    pub const ARRAY: u16 = 0x0221;
    pub const TABLE: u16 = 0x0236;
    pub const RK: u16 = 0x027E;
    pub const SHRFMLA: u16 = 0x04BC;
    pub const BOF: u16 = 0x0809;

    /// All of them.
    pub const ALL: [u16; 19] = [
        FORMULA, EOF, FILEPASS, CONTINUE, BOUNDSHEET, MULRK, MULBLANK, SST, LABELSST, DIMENSIONS,
        BLANK, NUMBER, BOOLERR, STRING, ARRAY, TABLE, RK, SHRFMLA, BOF,
    ];

    /// Those that hold cells.
    pub const CELLS: [u16; 8] = [
        FORMULA, MULRK, MULBLANK, LABELSST, BLANK, NUMBER, BOOLERR, RK,
    ];

    /// Those that may stand between a formula and its text.
    pub const BETWEEN: [u16; 3] = [SHRFMLA, ARRAY, TABLE];
}

/// The kinds of substream, as a BOF names them.
pub(crate) mod bof {
    pub const GLOBALS: u16 = 0x0005;
    pub const WORKSHEET: u16 = 0x0010;
    pub const CHART: u16 = 0x0020;
    pub const MACRO: u16 = 0x0040;
}

pub(crate) const HEADER_SIZE: usize = 4;
pub(crate) const LONGEST_BODY: usize = 8_224;
pub(crate) const ERROR_CODES: [u8; 7] = [0x00, 0x07, 0x0F, 0x17, 0x1D, 0x24, 0x2A];

/// What ties a BOUNDSHEET to the BOF that it names.
#[derive(Clone, Copy, Debug, PartialEq, Eq)]
pub(crate) enum Tie {
    None,
    /// This BOF starts the sheet of this number in stream order.
    Starts(usize),
    /// This BOUNDSHEET names the sheet of this number in stream order.
    Names(usize),
}

#[derive(Clone, Debug)]
pub(crate) struct Record {
    pub kind: u16,
    pub body: Vec<u8>,
    pub tie: Tie,
}

impl Record {
    pub fn new(kind: u16, body: Vec<u8>) -> Self {
        Record {
            kind,
            body,
            tie: Tie::None,
        }
    }

    pub fn tied(kind: u16, body: Vec<u8>, tie: Tie) -> Self {
        Record { kind, body, tie }
    }

    /// A BOF with random bytes where nothing is judged.
    pub fn bof(rng: &mut Rng, kind: u16, tie: Tie) -> Self {
        let mut body = Vec::with_capacity(16);
        body.extend(0x0600u16.to_le_bytes());
        body.extend(kind.to_le_bytes());
        rng.append(&mut body, 12);
        Record::tied(kind::BOF, body, tie)
    }

    pub fn eof() -> Self {
        Record::new(kind::EOF, Vec::new())
    }

    /// Whether it is a formula whose stored result is a text.
    pub fn has_text_result(&self) -> bool {
        self.kind == kind::FORMULA && is_text_result(&self.body)
    }
}

/// A workbook before it is written out.
#[derive(Clone, Debug, Default)]
pub(crate) struct Book {
    pub records: Vec<Record>,
    /// What stands after the last record.
    pub tail: Vec<u8>,
}

impl Book {
    pub fn push(&mut self, record: Record) {
        self.records.push(record);
    }

    /// Sets each tied BOUNDSHEET's position to where its BOF stands now.
    pub fn name_sheets(&mut self) {
        let starts = self.starts();
        for record in &mut self.records {
            let Tie::Names(sheet) = record.tie else {
                continue;
            };
            let start = starts.iter().find(|&&(number, _)| number == sheet);
            if let (Some(&(_, at)), Some(field)) = (start, record.body.first_chunk_mut::<4>()) {
                *field = (at as u32).to_le_bytes();
            }
        }
    }

    /// Each sheet's number and where its BOF stands.
    fn starts(&self) -> Vec<(usize, usize)> {
        let mut starts = Vec::new();
        let mut at = 0;
        for record in &self.records {
            if let Tie::Starts(sheet) = record.tie {
                starts.push((sheet, at));
            }
            at += HEADER_SIZE + record.body.len();
        }
        starts
    }

    /// The bytes as they stand, whatever they are.
    pub fn write(&self) -> Vec<u8> {
        let bodies: usize = self.records.iter().map(|record| record.body.len()).sum();
        let size = bodies + self.records.len() * HEADER_SIZE + self.tail.len();
        let mut stream = Vec::with_capacity(size);
        for record in &self.records {
            append_header(&mut stream, record.kind, record.body.len());
            stream.extend(&record.body);
        }
        stream.extend(&self.tail);
        stream
    }
}

/// Whether a FORMULA's body has a text for its stored result.
pub(crate) fn is_text_result(body: &[u8]) -> bool {
    matches!(body.get(6..14), Some([0, .., 0xFF, 0xFF]))
}

/// Appends a header; a size that has no room in it is cut down.
pub(crate) fn append_header(stream: &mut Vec<u8>, kind: u16, size: usize) {
    stream.extend(kind.to_le_bytes());
    stream.extend((size as u16).to_le_bytes());
}

/// Where each header stands, as far as the bytes can be walked.
pub(crate) fn headers(stream: &[u8]) -> Vec<usize> {
    let mut places = Vec::new();
    let mut at = 0;
    while let Some(header) = stream.get(at..at + HEADER_SIZE) {
        places.push(at);
        at += HEADER_SIZE + usize::from(u16::from_le_bytes([header[2], header[3]]));
    }
    places
}

pub(crate) fn word_at(bytes: &[u8], at: usize) -> Option<u16> {
    let field = bytes.get(at..at + 2)?;
    Some(u16::from_le_bytes([field[0], field[1]]))
}

pub(crate) fn long_at(bytes: &[u8], at: usize) -> Option<u32> {
    let field = bytes.get(at..at + 4)?;
    Some(u32::from_le_bytes([field[0], field[1], field[2], field[3]]))
}
