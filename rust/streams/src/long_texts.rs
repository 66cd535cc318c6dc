//! Pairs of streams with long strings in their tables, many of them alike: the
//! same in both, in another width or in other segments, or with one character
//! changed; and cells that show any of them, in order or not.

use crate::big::{append_texts, one_sheet, TableWriter};
use crate::record::LONGEST_BODY;
use crate::rng::Rng;

/// What the strings of both tables are made from.
fn originals(rng: &mut Rng) -> Vec<Vec<u8>> {
    (0..rng.between(1, 6))
        .map(|_| {
            let length = match rng.below(4) {
                0 => rng.between(1, 40),
                1 => rng.between(500, 520),
                _ => rng.between(400, 3_000),
            };
            vec![b'a' + rng.below(3) as u8; length]
        })
        .collect()
}

/// One of them, as it is or with one character changed, added or missing.
fn varied(rng: &mut Rng, originals: &[Vec<u8>]) -> Vec<u8> {
    let mut characters = originals[rng.below(originals.len())].clone();
    let last = characters.len() - 1;
    match rng.below(6) {
        0 => characters[last] = b'z',
        1 => characters[0] = b'z',
        2 => characters.push(b'a'),
        3 => drop(characters.pop()),
        _ => {}
    }
    characters
}

fn append_table(rng: &mut Rng, stream: &mut Vec<u8>, originals: &[Vec<u8>]) -> u32 {
    let mut table = TableWriter::start(stream);
    for _ in 0..rng.between(1, 40) {
        if rng.percent(30) {
            // As many as make marks on a string for each few of them.
            (0..rng.mostly_small(1, 400)).for_each(|_| table.whole_string(&[0, 0, 0]));
        } else {
            let characters = varied(rng, originals);
            let most = rng.pick(&[1, 2, 9, 300, LONGEST_BODY]);
            table.split_string(&characters, rng.percent(30), most);
        }
    }
    table.finish()
}

fn stream(rng: &mut Rng, originals: &[Vec<u8>], places: &[usize]) -> Vec<u8> {
    one_sheet(
        rng,
        0,
        |rng, stream| append_table(rng, stream, originals),
        |rng, stream, unique| {
            let any = || rng.below(unique as usize) as u32;
            append_texts(stream, places.iter().copied(), any);
        },
    )
}

pub(crate) fn make(rng: &mut Rng) -> (Vec<u8>, Vec<u8>) {
    let originals = originals(rng);
    let mut places: Vec<_> = (0..rng.between(1, 300)).collect();
    let first = stream(rng, &originals, &places);
    if rng.percent(30) {
        rng.shuffle(&mut places);
    }
    (first, stream(rng, &originals, &places))
}
