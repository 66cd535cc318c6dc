//! A stream without the shared strings that no cell uses.

use crate::{raw, settled, Refusal, LONGEST_STREAM};

/// What became of a stream without its unused strings.
#[derive(Clone, Copy, Debug, PartialEq, Eq)]
pub struct Compacted {
    /// How many bytes at the front of the buffer the new stream takes.
    pub written: usize,
    /// How many bytes it has less than the old one; below 0 where it has more.
    pub freed: i64,
}

impl Compacted {
    /// A new stream of so many bytes in the place of an old one.
    pub(crate) fn of(old: &[u8], written: usize) -> Self {
        Compacted {
            written,
            freed: old.len() as i64 - written as i64,
        }
    }
}

/// Puts the stream without the shared strings that no text cell uses at the front of the buffer; later bytes stay. The strings that are left keep their order, and the
/// text cells get new indices for them. What points into what has moved (EXTSST, INDEX) is left out; all other bytes stay in their order. The new stream
/// reads as the old one does, and made anew it is the same.
///
/// It may be longer than the old one: a string whose characters were narrow in one part and wide in another is written in one width throughout. After the check's
/// refusals 1 where the new stream would have more than [`LONGEST_STREAM`] bytes; then 12 where the buffer has fewer bytes than it. No byte changes then.
/// [`compacted`] gives it as a vector.
///
/// ```
/// let stream = std::fs::read("../../cases/unused-strings.in").expect("a workbook stream");
/// let mut buffer = vec![0; stream.len()];
/// let done = station::compact(&stream, &mut buffer)?;
/// assert_eq!(done.freed, (stream.len() - done.written) as i64);
///
/// let new = &buffer[..done.written];
/// assert_eq!(station::check(&stream)?.strings, 5);
/// assert_eq!(station::check(new)?.strings, 2);
/// let mut differences = station::compare(&stream, new).expect("streams that pass");
/// assert!(differences.next().is_none());
///
/// assert_eq!(station::compacted(&stream)?, new);
/// assert_eq!(station::compacted(new)?, new);
/// let mut little = vec![0; done.written - 1];
/// let refused = station::compact(&stream, &mut little).expect_err("a byte short");
/// assert_eq!((refused.number, refused.offset), (12, 0));
/// # Ok::<(), station::Refusal>(())
/// ```
pub fn compact(stream: &[u8], buffer: &mut [u8]) -> Result<Compacted, Refusal> {
    // SAFETY: both slices are valid for their lengths, and the buffer is lent to this call alone.
    let answer = unsafe {
        raw::station_compact(
            stream.as_ptr(),
            stream.len(),
            buffer.as_mut_ptr(),
            buffer.len(),
        )
    };
    settled(answer.number, answer.offset)?;
    Ok(Compacted::of(stream, answer.written))
}

/// The stream without its unused strings, as [`compact`] writes it. Never refused with 12.
pub fn compacted(stream: &[u8]) -> Result<Vec<u8>, Refusal> {
    made(|buffer| compact(stream, buffer))
}

/// What is written into a buffer that is long enough for any stream. Its bytes take no memory before they are written.
pub(crate) fn made<R>(write: impl FnOnce(&mut [u8]) -> Result<Compacted, R>) -> Result<Vec<u8>, R> {
    let mut new = vec![0; LONGEST_STREAM];
    let done = write(&mut new)?;
    new.truncate(done.written);
    new.shrink_to_fit();
    Ok(new)
}
