//! Tables of string places: how many numbers a lent one has, and made-up ones to
//! fetch through.

use crate::questions::{unique_strings, units};
use crate::record::{append_header, headers, kind, long_at, word_at, HEADER_SIZE};
use crate::rng::Rng;
use crate::LONGEST;

/// What stands for no place.
const NO_PLACE: u32 = u32::MAX;

/// A fetch through a table to ask for.
#[derive(Clone, Debug, PartialEq, Eq)]
pub struct Through {
    /// The stream, at times another than the table was filled for.
    pub stream: Vec<u8>,
    /// The table, right or made up.
    pub table: Vec<u32>,
    /// Which entry is asked for.
    pub index: u32,
    /// How many units the buffer has.
    pub units: usize,
}

/// How many numbers a table to be filled has: as many as are needed, a few more
/// or less, an odd number, none.
pub(crate) fn numbers(rng: &mut Rng, stream: &[u8]) -> usize {
    let needed = 2 * unique_strings(stream).min(30_000) as usize;
    match rng.below(10) {
        0..=2 => needed,
        3 => needed + 1,
        4 => needed + rng.between(2, 9),
        5 => needed.saturating_sub(1),
        6 => needed.saturating_sub(2),
        7 => needed / 2,
        8 => rng.below(needed + 1),
        _ => 0,
    }
}

/// A fetch through a table that `filled` is the beginning of: what filling gave
/// for this stream, or nothing where that was refused.
pub(crate) fn through(rng: &mut Rng, stream: &[u8], filled: &[u32]) -> Through {
    let mut stream = stream.to_vec();
    let mut table = filled.to_vec();
    if table.len() < 2 || rng.percent(10) {
        for _ in 0..rng.mostly_small(1, 6) {
            let entry = somewhere(rng, &stream);
            table.extend(entry);
        }
    }
    let entries = table.len() / 2;
    let place = 2 * rng.below(entries);
    if rng.percent(6) {
        let entry = plant(rng, &mut stream);
        table[place..place + 2].copy_from_slice(&entry);
    } else if rng.percent(60) {
        forge(rng, &stream, &mut table, place);
    }
    if rng.percent(35) {
        let entry = [table[place], table[place + 1]];
        alter(rng, &mut stream, entry);
    }
    match rng.below(24) {
        // The entry has gone, or half of it.
        0 => table.truncate(place),
        1 => table.truncate(place + 1),
        // A last number of its own.
        2 => table.push(rng.below(stream.len() + 1) as u32),
        3 => table.extend([NO_PLACE; 3]),
        _ => {}
    }
    Through {
        stream,
        table,
        index: index(rng, place / 2, entries),
        units: units(rng),
    }
}

/// Mostly the entry that was meant; at times one after the last, or one that
/// would be there in thirty-one or sixteen bits.
fn index(rng: &mut Rng, meant: usize, entries: usize) -> u32 {
    let meant = meant as u32;
    match rng.below(20) {
        0 => rng.pick(&[entries as u32, entries as u32 + 1, u32::MAX]),
        1 => meant + 0x8000_0000,
        2 => meant + 0x1_0000,
        _ => meant,
    }
}

/// The records, and among them the segments of the string table and what looks
/// like them, wherever they stand. Of a longer stream its beginning is enough.
fn records_and_segments(stream: &[u8]) -> (Vec<usize>, Vec<usize>) {
    let records = headers(&stream[..stream.len().min(LONGEST)]);
    let holds = |&at: &usize| matches!(word_at(stream, at), Some(kind::SST | kind::CONTINUE));
    let segments = records.iter().copied().filter(holds).collect();
    (records, segments)
}

/// The bytes of a record's body; those that the stream has.
fn body_size(stream: &[u8], header: usize) -> usize {
    word_at(stream, header + 2).map_or(0, usize::from)
}

/// A head and a segment that may well be a string's.
fn somewhere(rng: &mut Rng, stream: &[u8]) -> [u32; 2] {
    let (records, mut segments) = records_and_segments(stream);
    if segments.is_empty() || rng.percent(10) {
        segments = records;
    }
    if segments.is_empty() {
        return [rng.below(20) as u32, rng.below(20) as u32];
    }
    let segment = rng.pick(&segments);
    [head_in(rng, stream, segment) as u32, segment as u32]
}

/// Where strings seem to start in a record, by their lengths, as far as it has
/// whole ones.
fn heads(stream: &[u8], segment: usize) -> Vec<usize> {
    let counts = match word_at(stream, segment) {
        Some(kind::SST) => 8,
        _ => 0,
    };
    let mut at = segment + HEADER_SIZE + counts;
    let end = segment + HEADER_SIZE + body_size(stream, segment);
    let mut heads = Vec::new();
    while let (true, Some(units), Some(&flags)) =
        (at < end, word_at(stream, at), stream.get(at + 2))
    {
        heads.push(at);
        let mut next = at + 3;
        let mut rest = usize::from(units) << (flags & 1);
        if flags & 8 != 0 {
            rest += 4 * word_at(stream, next).map_or(0, usize::from);
            next += 2;
        }
        if flags & 4 != 0 {
            rest += long_at(stream, next).unwrap_or(0) as usize;
            next += 4;
        }
        at = next + rest;
    }
    heads
}

/// Where a head may stand in a record: where strings seem to start, at its
/// edges, after an SST's counts, in the middle.
fn head_in(rng: &mut Rng, stream: &[u8], segment: usize) -> usize {
    let body = segment + HEADER_SIZE;
    let size = body_size(stream, segment);
    match rng.below(16) {
        0 => body,
        1 => body + 8,
        2..=8 => match heads(stream, segment) {
            heads if heads.is_empty() => body + 8,
            heads => rng.pick(&heads),
        },
        9 => segment + rng.below(HEADER_SIZE),
        10 => body + size,
        11 => body + size.saturating_sub(rng.between(1, 4)),
        12 => body + rng.below(8),
        _ => body + rng.below(size + 1),
    }
}

/// Makes another entry of the one at this place in the table.
fn forge(rng: &mut Rng, stream: &[u8], table: &mut [u32], place: usize) {
    let other = 2 * rng.below(table.len() / 2);
    let end = stream.len() as u32;
    let near = |rng: &mut Rng, number: u32| match rng.percent(50) {
        true => number.wrapping_add(rng.between(1, 4) as u32),
        false => number.wrapping_sub(rng.between(1, 4) as u32),
    };
    let [head, segment] = [table[place], table[place + 1]];
    let entry = match rng.below(16) {
        0 => [near(rng, head), segment],
        1 => [head, near(rng, segment)],
        2 => [segment, head],
        3 => [table[other], segment],
        4 => [head, table[other + 1]],
        5 => [table[other], table[other + 1]],
        6..=7 => somewhere(rng, stream),
        8 => [head_in(rng, stream, segment as usize) as u32, segment],
        9 => [head, somewhere(rng, stream)[1]],
        10 => [end - rng.below(5).min(stream.len()) as u32, segment],
        11 => [head, end - rng.below(6).min(stream.len()) as u32],
        12 => [NO_PLACE, segment],
        13 => [head, NO_PLACE - rng.below(5) as u32],
        14 => [NO_PLACE, NO_PLACE],
        _ => [
            rng.below(stream.len() + 1) as u32,
            rng.below(stream.len() + 1) as u32,
        ],
    };
    table[place..place + 2].copy_from_slice(&entry);
}

/// Changes the stream where the entry leads to.
fn alter(rng: &mut Rng, stream: &mut Vec<u8>, [head, segment]: [u32; 2]) {
    let (head, segment) = (head as usize, segment as usize);
    let mut put = |at: usize, byte: u8| {
        if let Some(old) = stream.get_mut(at) {
            *old = byte;
        }
    };
    match rng.below(8) {
        // Length, flags, counts.
        0 => put(head + rng.below(2), rng.byte()),
        1 => put(head + 2, rng.pick(&[0, 1, 4, 5, 8, 9, 12, 13, 0xF2])),
        2 => put(head + rng.between(3, 8), rng.byte()),
        // Type and size of the record.
        3 => put(segment + rng.below(2), rng.pick(&[0xFC, 0x3C, 0, 1])),
        4 => {
            put(segment + 2, rng.byte());
            put(segment + 3, rng.pick(&[0, 1, 0x20, 0x21]));
        }
        5 => put(head + rng.below(60), rng.byte()),
        6 => {
            let size = head.saturating_add(rng.mostly_small(0, 60));
            stream.truncate(size);
        }
        _ => {
            let end = (segment.min(stream.len()) + HEADER_SIZE).saturating_add(rng.below(40));
            stream.truncate(end);
        }
    }
}

/// Writes a record with a string over whatever stands somewhere, and gives the
/// string's entry: a segment need not be a record of the walk.
fn plant(rng: &mut Rng, stream: &mut [u8]) -> [u32; 2] {
    let segment = rng.below(stream.len() + 1);
    let (before, count) = (rng.below(12), rng.below(6));
    let mut record = Vec::new();
    let kind = rng.pick(&[kind::SST, kind::CONTINUE, kind::STRING]);
    append_header(&mut record, kind, before + 3 + count + rng.below(2));
    rng.append(&mut record, before);
    record.extend([count as u8, 0, 0]);
    rng.append(&mut record, count + 1);
    for (old, byte) in stream[segment..].iter_mut().zip(record) {
        *old = byte;
    }
    [(segment + HEADER_SIZE + before) as u32, segment as u32]
}
