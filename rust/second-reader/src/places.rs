//! A lent table of where each shared string stands, and fetching through it.

use crate::strings::{fetch_at, StringTable};
use crate::survey::Survey;
use crate::Refusal;

/// What stands in the table past the strings. No stream that passes the check
/// reaches so far, so nothing is ever found there.
const NO_PLACE: u32 = u32::MAX;

/// Checks the whole stream, then sets two numbers for each string, the offset
/// of its head and that of the header of the record it stands in, and all
/// further numbers to 4,294,967,295. Gives the number of strings. A table with
/// too few numbers is refused and stays as it was.
pub fn fill(stream: &[u8], table: &mut [u32]) -> Result<u32, Refusal> {
    let strings = Survey::of(stream)?.strings;
    if !has_room(&strings, table) {
        return Err(Refusal::of_question(12));
    }
    set_places(&strings, table)?;
    Ok(strings.unique())
}

/// Writes one string's units at the start of the buffer, as they read at the
/// place that the table has for this index, and gives their number. The stream
/// is not checked again, and neither it nor the table is trusted: what doesn't
/// read there is absent.
pub fn fetch_through(
    stream: &[u8],
    table: &[u32],
    index: u32,
    buffer: &mut [u16],
) -> Result<usize, Refusal> {
    let (entries, _odd) = table.as_chunks::<2>();
    let &[head, segment] = entries
        .get(index as usize)
        .ok_or(Refusal::of_question(11))?;
    fetch_at(stream, head as usize, segment as usize, buffer)
}

/// Whether a table has two numbers for each string.
pub(crate) fn has_room(strings: &StringTable<'_>, table: &[u32]) -> bool {
    table.as_chunks::<2>().0.len() >= strings.unique() as usize
}

/// Fills a table that has room.
pub(crate) fn set_places(strings: &StringTable<'_>, table: &mut [u32]) -> Result<(), Refusal> {
    table.fill(NO_PLACE);
    let mut entries = table.as_chunks_mut::<2>().0.iter_mut();
    strings.each_place(|head, segment| {
        // A stream that passes is shorter than 32 bits can count.
        if let Some(entry) = entries.next() {
            *entry = [head as u32, segment as u32];
        }
    })
}
