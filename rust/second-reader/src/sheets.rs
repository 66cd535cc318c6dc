//! BOUNDSHEET records, and which substream each of them names.

use crate::records::Record;
use crate::survey::Substream;
use crate::Refusal;
use std::ops::Range;

const LONGEST_NAME: u8 = 31;

/// The three types of sheet, by their number in BOUNDSHEET.
#[derive(Clone, Copy, Debug, PartialEq, Eq, Hash)]
pub enum SheetType {
    /// Lists cells.
    Worksheet = 0,
    /// Lists none.
    Macro = 1,
    /// Lists none.
    Chart = 2,
}

impl SheetType {
    fn of_boundsheet(number: u8) -> Option<Self> {
        match number {
            0 => Some(SheetType::Worksheet),
            1 => Some(SheetType::Macro),
            2 => Some(SheetType::Chart),
            _ => None,
        }
    }

    /// The type of sheet that a top-level BOF of this kind starts.
    pub(crate) fn of_bof(kind: u16) -> Option<Self> {
        match kind {
            0x0010 => Some(SheetType::Worksheet),
            0x0040 => Some(SheetType::Macro),
            0x0020 => Some(SheetType::Chart),
            _ => None,
        }
    }
}

/// What a BOUNDSHEET record says.
#[derive(Clone, Debug)]
pub(crate) struct SheetEntry {
    /// Where the record's header stands.
    pub at: usize,
    /// Where it says that the sheet's BOF stands.
    pub position: u32,
    pub sheet_type: SheetType,
    pub wide: bool,
    pub name: Range<usize>,
}

impl SheetEntry {
    /// Reads a BOUNDSHEET; a position is only judged once all BOFs are known.
    pub fn read(record: &Record<'_>) -> Result<Self, Refusal> {
        Self::fields(record).ok_or(record.refuse(6))
    }

    fn fields(record: &Record<'_>) -> Option<Self> {
        let (head, name) = record.body.split_first_chunk::<8>()?;
        let [at0, at1, at2, at3, _state, sheet_type, length, flags] = *head;
        let wide = flags & 1 != 0;
        let width = if wide { 2 } else { 1 };
        let named = (1..=LONGEST_NAME).contains(&length);
        if !named || name.len() != usize::from(length) * width {
            return None;
        }
        let name_at = record.body_at() + head.len();
        Some(SheetEntry {
            at: record.at,
            position: u32::from_le_bytes([at0, at1, at2, at3]),
            sheet_type: SheetType::of_boundsheet(sheet_type)?,
            wide,
            name: name_at..name_at + name.len(),
        })
    }
}

/// For each entry the number of the substream it names.
pub(crate) fn match_up(
    entries: &[SheetEntry],
    substreams: &[Substream],
) -> Result<Vec<usize>, Refusal> {
    let mut named = vec![false; substreams.len()];
    let mut matches = Vec::with_capacity(entries.len());
    let mut last = usize::MAX;
    for entry in entries {
        last = starting_at(substreams, entry.position as usize, last)
            .filter(|&number| substreams[number].sheet_type == entry.sheet_type)
            .filter(|&number| !named[number])
            .ok_or(Refusal::new(10, entry.at))?;
        named[last] = true;
        matches.push(last);
    }
    match named.iter().position(|named| !named) {
        Some(unclaimed) => Err(Refusal::new(10, substreams[unclaimed].at)),
        None => Ok(matches),
    }
}

/// The number of the substream that starts at a position. Lists mostly follow
/// the stream or run against it, so the neighbours of the one found last are
/// tried before halving the whole, which is in stream order.
fn starting_at(substreams: &[Substream], position: usize, last: usize) -> Option<usize> {
    let starts_there = |&number: &usize| {
        substreams
            .get(number)
            .is_some_and(|substream| substream.at == position)
    };
    [last.wrapping_add(1), last.wrapping_sub(1)]
        .into_iter()
        .find(starts_there)
        .or_else(|| {
            substreams
                .binary_search_by_key(&position, |substream| substream.at)
                .ok()
        })
}
