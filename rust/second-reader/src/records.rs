//! Cutting the stream into records.

use crate::Refusal;

pub(crate) const HEADER_SIZE: usize = 4;
pub(crate) const LONGEST_BODY: usize = 8_224;

/// The record types that are told apart; all others are passed over.
pub(crate) mod kind {
    pub const FORMULA: u16 = 0x0006;
    pub const EOF: u16 = 0x000A;
    pub const FILEPASS: u16 = 0x002F;
    pub const CONTINUE: u16 = 0x003C;
    pub const BOUNDSHEET: u16 = 0x0085;
    pub const MULRK: u16 = 0x00BD;
    pub const MULBLANK: u16 = 0x00BE;
    pub const SST: u16 = 0x00FC;
    pub const LABELSST: u16 = 0x00FD;
    pub const DIMENSIONS: u16 = 0x0200;
    pub const BLANK: u16 = 0x0201;
    pub const NUMBER: u16 = 0x0203;
    pub const BOOLERR: u16 = 0x0205;
    pub const STRING: u16 = 0x0207;
    pub const ARRAY: u16 = 0x0221;
    pub const TABLE: u16 = 0x0236;
    pub const RK: u16 = 0x027E;
    pub const SHRFMLA: u16 = 0x04BC;
    pub const BOF: u16 = 0x0809;
}

/// One whole record.
#[derive(Clone, Copy, Debug)]
pub(crate) struct Record<'a> {
    /// Where its header stands.
    pub at: usize,
    pub kind: u16,
    pub body: &'a [u8],
}

impl Record<'_> {
    #[inline]
    pub fn refuse(&self, number: u8) -> Refusal {
        Refusal::new(number, self.at)
    }

    /// Where its body stands.
    #[inline]
    pub fn body_at(&self) -> usize {
        self.at + HEADER_SIZE
    }
}

/// The records of a stream from some place on.
#[derive(Clone, Debug)]
pub(crate) struct Records<'a> {
    length: usize,
    rest: &'a [u8],
}

impl<'a> Records<'a> {
    pub fn from(stream: &'a [u8], at: usize) -> Self {
        Records {
            length: stream.len(),
            rest: &stream[at..],
        }
    }

    /// Where the next record's header stands.
    #[inline]
    pub fn at(&self) -> usize {
        self.length - self.rest.len()
    }

    /// The bytes not yet cut into records.
    pub fn rest(&self) -> &'a [u8] {
        self.rest
    }

    /// The next record's type, if its header is whole.
    pub fn next_kind(&self) -> Option<u16> {
        let header = self.rest.first_chunk::<HEADER_SIZE>()?;
        Some(u16::from_le_bytes([header[0], header[1]]))
    }

    /// The next record, or none where the stream simply ends.
    #[inline]
    pub fn next(&mut self) -> Result<Option<Record<'a>>, Refusal> {
        if self.rest.is_empty() {
            return Ok(None);
        }
        let at = self.at();
        let record = self.cut().ok_or(Refusal::new(2, at))?;
        Ok(Some(record))
    }

    /// The next record where a substream is still open: an end here is a fault
    /// of the substream, at the stream's length.
    #[inline]
    pub fn next_inside(&mut self) -> Result<Record<'a>, Refusal> {
        self.next()?.ok_or(Refusal::new(4, self.length))
    }

    #[inline]
    fn cut(&mut self) -> Option<Record<'a>> {
        let at = self.at();
        let (header, rest) = self.rest.split_first_chunk::<HEADER_SIZE>()?;
        let [kind0, kind1, size0, size1] = *header;
        let size = usize::from(u16::from_le_bytes([size0, size1]));
        if size > LONGEST_BODY {
            return None;
        }
        let (body, rest) = rest.split_at_checked(size)?;
        self.rest = rest;
        Some(Record {
            at,
            kind: u16::from_le_bytes([kind0, kind1]),
            body,
        })
    }
}
