//! Large valid streams that make a comparison dear: where the cells don't stand
//! in the order in which they are to be told, or where their texts are far to
//! find or long to compare.

use crate::big::{append_start, append_texts, one_sheet, TableWriter, EOF_SIZE, TEXT_SIZE};
use crate::record::{append_header, kind, HEADER_SIZE};
use crate::rng::Rng;

/// What such a stream is made of, all in one worksheet.
#[derive(Clone, Copy, Debug, PartialEq, Eq, Hash)]
pub enum Hostile {
    /// NUMBER cells in any order, row after row without a gap.
    AnyOrder,
    /// NUMBER cells in any order, anywhere in the sheet.
    Anywhere,
    /// NUMBER cells in any order, in clusters that lie far apart.
    Clusters,
    /// MULBLANK records of 256 cells, the last row first.
    RowsReversed,
    /// Text cells that all show one of two equal strings of 65,535 characters.
    LongStrings,
    /// The same, one of them with one byte a character and one with two.
    TwoWidths,
    /// Text cells that each show one of 300 equal long strings.
    ManyLongStrings,
    /// Text cells that each show one of 300 equal strings, with a segment for
    /// each character.
    ShortSegments,
    /// The same with 4,096 of them.
    ManyShortSegments,
    /// The same, and the cells in any order.
    TextsAnyOrder,
    /// As with 300 of them, but they differ, in their last characters alone.
    LastCharacters,
    /// As many such strings as make two for each even part of the table, over
    /// nearly the whole stream; they are the same in both, and the cells that
    /// there is room for show the last.
    Unshown,
    /// 600 equal strings with a segment for each character, and after them a
    /// great many of no characters. The text cells show the later ones of the 600.
    Crowded,
    /// Half of strings of one character, half of text cells, each with any one.
    /// The first string is another in each stream.
    ManyStrings,
    /// Half of strings of no characters, half of text cells, each with one that
    /// lies just before an even part of the table.
    LaterStrings,
}

impl Hostile {
    /// All of them.
    pub const ALL: [Hostile; 15] = [
        Hostile::AnyOrder,
        Hostile::Anywhere,
        Hostile::Clusters,
        Hostile::RowsReversed,
        Hostile::LongStrings,
        Hostile::TwoWidths,
        Hostile::ManyLongStrings,
        Hostile::ShortSegments,
        Hostile::ManyShortSegments,
        Hostile::TextsAnyOrder,
        Hostile::LastCharacters,
        Hostile::Unshown,
        Hostile::Crowded,
        Hostile::ManyStrings,
        Hostile::LaterStrings,
    ];
}

const NUMBER_SIZE: usize = HEADER_SIZE + 14;
const BLANKS_SIZE: usize = HEADER_SIZE + 6 + 2 * 256;
const MOST_ROWS: usize = 65_536;
const ADDRESSES: usize = MOST_ROWS * 256;
const CLUSTER: usize = 3_700;
const LONGEST: usize = 65_535;
const LONG_STRINGS: usize = 300;
const MANY_STRINGS: usize = 4_096;
const CROWD: usize = 600;
const PARTS: usize = 1_055;
const UNSHOWN: usize = 2_112;

/// A valid stream of about so many bytes, of as many where there are rows for
/// it. `turn` is 0 or 1, of one pair of streams; both have the same cells.
pub(crate) fn make(hostile: Hostile, bytes: usize, turn: u32) -> Vec<u8> {
    one_sheet(
        &mut Rng::new(hostile as u64 + 100),
        bytes,
        |_, stream| append_table(stream, hostile, bytes, turn),
        |rng, stream, unique| {
            let room = bytes.saturating_sub(stream.len() + EOF_SIZE);
            append_cells(rng, stream, hostile, room, turn, unique as usize);
        },
    )
}

fn append_cells(
    rng: &mut Rng,
    stream: &mut Vec<u8>,
    hostile: Hostile,
    room: usize,
    turn: u32,
    unique: usize,
) {
    let numbers = room / NUMBER_SIZE;
    let texts = 0..room / TEXT_SIZE;
    // Another one in each stream, for each cell.
    let mut unlike = Rng::new(turn.into());
    let any = || unlike.below(unique) as u32;
    match hostile {
        Hostile::AnyOrder => append_numbers(rng, stream, (0..numbers).collect()),
        Hostile::Anywhere => append_numbers(rng, stream, spread(numbers, 1)),
        Hostile::Clusters => append_numbers(rng, stream, spread(numbers, CLUSTER)),
        Hostile::RowsReversed => {
            let rows = (room / BLANKS_SIZE).min(MOST_ROWS);
            (0..rows).rev().for_each(|row| append_blanks(stream, row));
        }
        Hostile::LongStrings | Hostile::TwoWidths => append_texts(stream, texts, || turn),
        Hostile::Unshown => append_texts(stream, texts, || unique as u32 - 1),
        Hostile::Crowded => append_texts(stream, texts, || {
            rng.between(CROWD / 2, CROWD - 1) as u32 - turn
        }),
        Hostile::ManyLongStrings
        | Hostile::ShortSegments
        | Hostile::ManyShortSegments
        | Hostile::LastCharacters => append_texts(stream, texts, any),
        Hostile::TextsAnyOrder => {
            let mut places: Vec<_> = texts.collect();
            rng.shuffle(&mut places);
            append_texts(stream, places, any);
        }
        Hostile::LaterStrings => {
            let part = (unique / PARTS).max(1);
            append_texts(stream, texts, || {
                let after = rng.between(1, PARTS) * part;
                (after - 1).saturating_sub(rng.below(8)) as u32
            });
        }
        Hostile::ManyStrings => {
            append_texts(stream, texts, || rng.between(1, unique - 1) as u32);
        }
    }
}

/// So many strings.
fn append_table(stream: &mut Vec<u8>, hostile: Hostile, bytes: usize, turn: u32) -> u32 {
    // As many bytes as the cells have.
    let long = (bytes / 2 / LONG_STRINGS).clamp(1, LONGEST);
    match hostile {
        Hostile::AnyOrder | Hostile::Anywhere | Hostile::Clusters | Hostile::RowsReversed => 0,
        Hostile::LongStrings => append_strings(stream, 2, |table| {
            table.narrow_string(&[b'a'; LONGEST]);
        }),
        Hostile::TwoWidths => {
            let mut wide = false;
            append_strings(stream, 2, |table| {
                table.split_string(&[b'a'; LONGEST], wide, LONGEST);
                wide = true;
            })
        }
        Hostile::ManyLongStrings => append_strings(stream, LONG_STRINGS, |table| {
            table.narrow_string(&vec![b'a'; long]);
        }),
        Hostile::ShortSegments => append_strings(stream, LONG_STRINGS, |table| {
            // A header, the width and the character.
            table.shredded_string(&vec![b'a'; (long / 6).max(1)]);
        }),
        Hostile::ManyShortSegments | Hostile::TextsAnyOrder => {
            let characters = vec![b'a'; (bytes / 2 / MANY_STRINGS / 6).max(1)];
            append_strings(stream, MANY_STRINGS, |table| {
                table.shredded_string(&characters);
            })
        }
        Hostile::LastCharacters => append_numbered(stream, LONG_STRINGS, long / 6, turn),
        Hostile::Unshown => {
            let room = bytes.saturating_sub(UNSHOWN * 8 + 200);
            append_numbered(stream, UNSHOWN, room / UNSHOWN / 6, 0)
        }
        Hostile::Crowded => {
            let empty = (bytes / 16).max(1);
            let characters = vec![b'a'; (bytes / 16 * 5 / CROWD / 6).max(1)];
            let mut number = 0;
            append_strings(stream, CROWD + empty, |table| {
                if number < CROWD {
                    table.shredded_string(&characters);
                } else {
                    table.whole_string(&[0, 0, 0]);
                }
                number += 1;
            })
        }
        Hostile::ManyStrings => append_unlike(stream, bytes / 8, &[1, 0, 0, b'a'], turn),
        Hostile::LaterStrings => append_unlike(stream, bytes / 6, &[0, 0, 0], turn),
    }
}

/// So many strings, all but the first the same, which is another in each stream.
fn append_unlike(stream: &mut Vec<u8>, count: usize, string: &[u8], turn: u32) -> u32 {
    let mut next = vec![1, 0, 0, b'0' + turn as u8];
    append_strings(stream, count.max(2), |table| {
        table.whole_string(&next);
        next = string.to_vec();
    })
}

fn append_strings(
    stream: &mut Vec<u8>,
    count: usize,
    mut append: impl FnMut(&mut TableWriter),
) -> u32 {
    let mut table = TableWriter::start(stream);
    (0..count).for_each(|_| append(&mut table));
    table.finish()
}

/// So many strings with a segment for each character, which end in numbers from
/// `first` on, each two more than the one before.
fn append_numbered(stream: &mut Vec<u8>, count: usize, length: usize, first: u32) -> u32 {
    let mut characters = vec![b'a'; length.saturating_sub(2)];
    let mut number = first as u16;
    append_strings(stream, count, |table| {
        characters.truncate(length.saturating_sub(2));
        characters.extend(number.to_be_bytes());
        number += 2;
        table.shredded_string(&characters);
    })
}

/// So many places over the whole sheet, in clusters of so many neighbours.
fn spread(count: usize, cluster: usize) -> Vec<usize> {
    let clusters = count.div_ceil(cluster).max(1);
    (0..count)
        .map(|cell| cell / cluster * (ADDRESSES / clusters) + cell % cluster)
        .collect()
}

/// Each place once.
fn append_numbers(rng: &mut Rng, stream: &mut Vec<u8>, mut places: Vec<usize>) {
    rng.shuffle(&mut places);
    for place in places {
        append_start(stream, kind::NUMBER, place, 14);
        stream.extend((place as f64).to_le_bytes());
    }
}

fn append_blanks(stream: &mut Vec<u8>, row: usize) {
    append_header(stream, kind::MULBLANK, BLANKS_SIZE - HEADER_SIZE);
    stream.extend((row as u16).to_le_bytes());
    stream.extend([0; 2 + 2 * 256]);
    stream.extend(255u16.to_le_bytes());
}
