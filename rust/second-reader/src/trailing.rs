//! The bytes after a formula's tokens: the elements of array constants and the
//! areas of memory tokens, one after the other in token order.

use crate::cells::{is_error_code, is_truth};

/// What a token has in the bytes after the tokens.
#[derive(Clone, Copy, Debug, PartialEq, Eq)]
pub(crate) enum Data {
    /// Array sizes and elements.
    Array,
    /// A list of areas.
    Areas,
}

impl Data {
    /// What the token with this first byte has, in any class.
    #[inline]
    pub fn of_token(first: u8) -> Option<Self> {
        match first {
            0x20 | 0x40 | 0x60 => Some(Data::Array),
            0x26 | 0x46 | 0x66 => Some(Data::Areas),
            _ => None,
        }
    }

    /// What is left after this data, or none where it is cut or bad.
    fn skip(self, bytes: &[u8]) -> Option<&[u8]> {
        match self {
            Data::Array => skip_array(bytes),
            Data::Areas => skip_areas(bytes),
        }
    }
}

/// Judges the trailing bytes, all of which must be used. The error is where the
/// data at fault starts, or what is left over.
pub(crate) fn judge(wanted: &[Data], trailing: &[u8]) -> Result<(), usize> {
    let mut rest = trailing;
    for data in wanted {
        let at = trailing.len() - rest.len();
        rest = data.skip(rest).ok_or(at)?;
    }
    if rest.is_empty() {
        Ok(())
    } else {
        Err(trailing.len() - rest.len())
    }
}

/// One less than the number of columns, one less than the number of rows, and
/// the elements.
fn skip_array(bytes: &[u8]) -> Option<&[u8]> {
    let (&[columns, rows0, rows1], mut rest) = bytes.split_first_chunk()?;
    let columns = u32::from(columns) + 1;
    let rows = u32::from(u16::from_le_bytes([rows0, rows1])) + 1;
    // The product may be large, but each element takes bytes.
    for _ in 0..columns * rows {
        rest = skip_element(rest)?;
    }
    Some(rest)
}

/// The first byte of an element says what it is.
fn skip_element(bytes: &[u8]) -> Option<&[u8]> {
    let (&which, rest) = bytes.split_first()?;
    match which {
        0x00 | 0x01 => rest.get(8..),
        0x02 => skip_text(rest),
        0x04 => skip_judged(rest, is_truth),
        0x10 => skip_judged(rest, is_error_code),
        _ => None,
    }
}

/// A truth or an error code, with seven bytes after it that mean nothing.
fn skip_judged(bytes: &[u8], is_good: fn(u8) -> bool) -> Option<&[u8]> {
    let (field, rest) = bytes.split_first_chunk::<8>()?;
    is_good(field[0]).then_some(rest)
}

/// A length, flags of which only the width counts, and characters.
fn skip_text(bytes: &[u8]) -> Option<&[u8]> {
    let (&[length0, length1, flags], rest) = bytes.split_first_chunk()?;
    let length = usize::from(u16::from_le_bytes([length0, length1]));
    let wide = flags & 1 != 0;
    rest.get(if wide { 2 * length } else { length }..)
}

/// A count, and eight bytes for each area.
fn skip_areas(bytes: &[u8]) -> Option<&[u8]> {
    let (&[count0, count1], rest) = bytes.split_first_chunk()?;
    let count = usize::from(u16::from_le_bytes([count0, count1]));
    rest.get(8 * count..)
}
