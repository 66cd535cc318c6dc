//! A small maker of streams, record by record.
#![allow(dead_code)]

use second_reader::{check, judge, Refusal};

pub const FORMULA: u16 = 0x0006;
pub const EOF: u16 = 0x000A;
pub const FILEPASS: u16 = 0x002F;
pub const CONTINUE: u16 = 0x003C;
pub const BOUNDSHEET: u16 = 0x0085;
pub const MULRK: u16 = 0x00BD;
pub const MULBLANK: u16 = 0x00BE;
pub const SST: u16 = 0x00FC;
pub const LABELSST: u16 = 0x00FD;
pub const DIMENSIONS: u16 = 0x0200;
pub const BLANK: u16 = 0x0201;
pub const NUMBER: u16 = 0x0203;
pub const BOOLERR: u16 = 0x0205;
pub const STRING: u16 = 0x0207;
pub const ARRAY: u16 = 0x0221;
pub const TABLE: u16 = 0x0236;
pub const RK: u16 = 0x027E;
pub const SHRFMLA: u16 = 0x04BC;
pub const BOF: u16 = 0x0809;
pub const OTHER: u16 = 0x0031;

pub const GLOBALS: u16 = 0x0005;
pub const WORKSHEET: u16 = 0x0010;
pub const CHART: u16 = 0x0020;
pub const MACRO: u16 = 0x0040;

/// A stream in the making.
#[derive(Clone, Default)]
pub struct Book {
    pub bytes: Vec<u8>,
}

impl Book {
    pub fn new() -> Self {
        Self::default()
    }

    /// Started with the globals' BOF.
    pub fn globals() -> Self {
        let mut book = Self::new();
        book.bof(GLOBALS);
        book
    }

    pub fn len(&self) -> usize {
        self.bytes.len()
    }

    pub fn header(&mut self, kind: u16, size: u16) -> usize {
        let at = self.len();
        self.bytes.extend(kind.to_le_bytes());
        self.bytes.extend(size.to_le_bytes());
        at
    }

    pub fn record(&mut self, kind: u16, body: &[u8]) -> usize {
        let at = self.header(kind, body.len() as u16);
        self.bytes.extend(body);
        at
    }

    pub fn bof(&mut self, kind: u16) -> usize {
        self.record(BOF, &bof_body(0x0600, kind))
    }

    pub fn eof(&mut self) -> usize {
        self.record(EOF, &[])
    }

    /// So many BOFs of charts, each inside the last.
    pub fn charts(&mut self, count: usize) {
        for _ in 0..count {
            self.bof(CHART);
        }
    }

    pub fn empty(&mut self, kind: u16) -> usize {
        let at = self.bof(kind);
        self.eof();
        at
    }

    pub fn boundsheet(&mut self, sheet_type: u8) -> usize {
        self.record(BOUNDSHEET, &[0, 0, 0, 0, 0, sheet_type, 1, 0, b'a'])
    }

    /// Lets a BOUNDSHEET name a BOF.
    pub fn name(&mut self, boundsheet: usize, bof: usize) {
        self.bytes[boundsheet + 4..boundsheet + 8].copy_from_slice(&(bof as u32).to_le_bytes());
    }

    pub fn raw(&mut self, bytes: &[u8]) -> usize {
        let at = self.len();
        self.bytes.extend(bytes);
        at
    }
}

pub fn bof_body(version: u16, kind: u16) -> [u8; 16] {
    let mut body = [0xEE; 16];
    body[..2].copy_from_slice(&version.to_le_bytes());
    body[2..4].copy_from_slice(&kind.to_le_bytes());
    body
}

/// A stream with one sheet of this kind, and where its BOF, its first inner
/// record and its EOF stand. `fill` writes what stands between BOF and EOF.
pub struct OneSheet {
    pub bytes: Vec<u8>,
    pub bof: usize,
    pub first: usize,
}

/// One sheet, with a string table of so many strings `a`, or none for 0.
pub fn one_sheet(kind: u16, strings: u32, fill: impl FnOnce(&mut Book)) -> OneSheet {
    let mut book = Book::globals();
    let boundsheet = book.boundsheet(match kind {
        WORKSHEET => 0,
        MACRO => 1,
        _ => 2,
    });
    if strings > 0 {
        book.record(SST, &table_of(strings));
    }
    book.eof();
    let bof = book.bof(kind);
    book.name(boundsheet, bof);
    let first = book.len();
    fill(&mut book);
    book.eof();
    OneSheet {
        bytes: book.bytes,
        bof,
        first,
    }
}

/// A worksheet with one record, and where that record stands.
pub fn sheet_with(strings: u32, kind: u16, body: &[u8]) -> OneSheet {
    one_sheet(WORKSHEET, strings, |book| {
        book.record(kind, body);
    })
}

/// The refusal of a worksheet with one record, its offset counted from that
/// record.
pub fn refused_record(strings: u32, kind: u16, body: &[u8]) -> Option<(u8, isize)> {
    let sheet = sheet_with(strings, kind, body);
    let refusal = check(&sheet.bytes).err()?;
    Some((
        refusal.number,
        refusal.offset as isize - sheet.first as isize,
    ))
}

/// An SST body with so many strings `a`.
pub fn table_of(strings: u32) -> Vec<u8> {
    let mut body = counts(strings).to_vec();
    for _ in 0..strings {
        body.extend([1, 0, 0, b'a']);
    }
    body
}

/// The counts at the start of an SST body; the total is not judged.
pub fn counts(unique: u32) -> [u8; 8] {
    let mut counts = [0x77; 8];
    counts[4..].copy_from_slice(&unique.to_le_bytes());
    counts
}

/// Globals with a string table in these segments, and where each stands.
pub fn table(segments: &[&[u8]]) -> (Vec<u8>, Vec<usize>) {
    let mut book = Book::globals();
    let mut places = Vec::new();
    for (number, segment) in segments.iter().enumerate() {
        let kind = if number == 0 { SST } else { CONTINUE };
        places.push(book.record(kind, segment));
    }
    book.eof();
    (book.bytes, places)
}

/// The refusal of a string table: its number, and the number of the segment
/// that it stands at.
pub fn refused_table(segments: &[&[u8]]) -> Option<(u8, usize)> {
    let (bytes, places) = table(segments);
    let refusal = check(&bytes).err()?;
    let segment = places.iter().position(|&at| at == refusal.offset);
    Some((refusal.number, segment.expect("at a segment")))
}

/// The counts and what follows them, as one body.
pub fn sst(unique: u32, strings: &[u8]) -> Vec<u8> {
    [&counts(unique)[..], strings].concat()
}

/// The answer to tokens with nothing after them.
pub fn judge_tokens(tokens: &[u8]) -> Result<(), Refusal> {
    judge(tokens, &[])
}

#[track_caller]
pub fn assert_refused(stream: &[u8], number: u8, offset: usize) {
    assert_eq!(check(stream), Err(Refusal { number, offset }));
}

#[track_caller]
pub fn assert_accepted(stream: &[u8]) {
    assert!(check(stream).is_ok(), "{:?}", check(stream));
}

/// A FORMULA body at row 1, column 2 with format 3.
pub fn formula_body(result: [u8; 8], tokens: &[u8], after: &[u8]) -> Vec<u8> {
    let mut body = vec![1, 0, 2, 0, 3, 0];
    body.extend(result);
    body.extend([0xAA; 6]);
    body.extend((tokens.len() as u16).to_le_bytes());
    body.extend(tokens);
    body.extend(after);
    body
}

/// The stored result of a formula that waits for its text.
pub const TEXT_RESULT: [u8; 8] = [0, 9, 9, 9, 9, 9, 0xFF, 0xFF];

/// The body of a formula with a text result at row 1, column 2.
pub fn text_formula() -> Vec<u8> {
    formula_body(TEXT_RESULT, &[0x1E, 7, 0], &[])
}

/// An RK body at row 1, column 2 with format 3.
pub fn rk_body(word: u32) -> Vec<u8> {
    [&[1, 0, 2, 0, 3, 0][..], &word.to_le_bytes()].concat()
}

/// A LABELSST body at row 1, column 2 with format 3.
pub fn labelsst_body(index: u32) -> Vec<u8> {
    rk_body(index)
}

/// A NUMBER body at row 1, column 2 with format 3.
pub fn number_body(bits: u64) -> Vec<u8> {
    [&[1, 0, 2, 0, 3, 0][..], &bits.to_le_bytes()].concat()
}

/// A MULRK body at row 1 from a first column on, with format 3 for all.
pub fn mulrk_body(first: u16, words: &[u32], last: u16) -> Vec<u8> {
    let mut body = vec![1, 0];
    body.extend(first.to_le_bytes());
    for word in words {
        body.extend([3, 0]);
        body.extend(word.to_le_bytes());
    }
    body.extend(last.to_le_bytes());
    body
}
