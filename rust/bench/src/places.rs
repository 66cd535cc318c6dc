//! A million look-ups of shared strings in random order: through the proved library's table, and through a plain vector of places in safe Rust; in turn,
//! each fiftieth of them the best of many, so that other work on the machine counts little. The streams are as long as one may be: one with a fifth of
//! strings, and one of nothing but strings, all empty.

use crate::time;
use streams::Big;

const BYTES: usize = 16_777_216;
const LOOKUPS: usize = 1_000_000;
const PARTS: usize = 50;
const TURNS: usize = 25;
const CONTINUE: usize = 0x003C;

/// Where a string's head stands, and the header of its record.
#[derive(Clone, Copy)]
struct Place {
    head: usize,
    segment: usize,
}

fn word(stream: &[u8], at: usize) -> Option<usize> {
    let bytes = stream.get(at..at + 2)?;
    Some(usize::from(u16::from_le_bytes([bytes[0], bytes[1]])))
}

/// The string at a place, into a buffer: what a program would do that has checked the stream and trusts its own places.
fn fetch(stream: &[u8], Place { head, segment }: Place, buffer: &mut [u16]) -> Option<usize> {
    let mut end = segment + 4 + word(stream, segment + 2)?;
    let units = buffer.get_mut(..word(stream, head)?)?;
    let flags = *stream.get(head + 2)?;
    let runs = if flags & 8 == 0 { 0 } else { 2 };
    let phonetic = if flags & 4 == 0 { 0 } else { 4 };
    let mut at = head + 3 + runs + phonetic;
    let mut wide = flags & 1 == 1;
    let mut done = 0;
    loop {
        let width = if wide { 2 } else { 1 };
        let here = (units.len() - done).min(end.checked_sub(at)? / width);
        let bytes = stream.get(at..at + here * width)?;
        let next = &mut units[done..done + here];
        if wide {
            for (unit, pair) in next.iter_mut().zip(bytes.chunks_exact(2)) {
                *unit = u16::from_le_bytes([pair[0], pair[1]]);
            }
        } else {
            for (unit, byte) in next.iter_mut().zip(bytes) {
                *unit = u16::from(*byte);
            }
        }
        done += here;
        if done == units.len() {
            return Some(done);
        }
        if word(stream, end)? != CONTINUE {
            return None;
        }
        let size = word(stream, end + 2)?;
        wide = *stream.get(end + 4)? & 1 == 1;
        at = end + 5;
        end += 4 + size;
    }
}

/// So many indices below a limit, in no order.
fn indices(count: usize, below: u32) -> Vec<u32> {
    let mut state = 1u64;
    let next = |_| {
        state = state.wrapping_mul(6_364_136_223_846_793_005);
        state = state.wrapping_add(1_442_695_040_888_963_407);
        (((state >> 32) * u64::from(below)) >> 32) as u32
    };
    (0..count).map(next).collect()
}

/// What all look-ups come to: the length, the first and the last unit of each string.
fn look_up(indices: &[u32], mut fetch: impl FnMut(u32, &mut [u16]) -> Option<usize>) -> u64 {
    let mut buffer = vec![0; station::LONGEST_STRING];
    let mut sum = 0u64;
    for &index in indices {
        let units = fetch(index, &mut buffer).map_or(&[][..], |count| &buffer[..count]);
        let first = units.first().map_or(0, |&unit| u64::from(unit));
        let last = units.last().map_or(0, |&unit| u64::from(unit));
        sum = sum.rotate_left(5) ^ (units.len() as u64) << 32 ^ first << 16 ^ last;
    }
    sum
}

fn measure(kind: Big) -> bool {
    let stream = streams::big(kind, BYTES);
    let strings = station::check(&stream).map_or(0, |passed| passed.strings);
    let mut table = vec![0; 2 * strings as usize];
    let mut table_too = table.clone();
    let [mut check, mut fill, mut fill_too] = [f64::INFINITY; 3];
    let mut same = true;
    for _ in 0..TURNS {
        time(&mut check, || station::check(&stream).is_ok());
        let filled = time(&mut fill, || station::fill(&stream, &mut table));
        let filled_too = time(&mut fill_too, || {
            second_reader::fill(&stream, &mut table_too)
        });
        same &= filled.ok() == filled_too.ok() && table == table_too;
    }
    let places: Vec<_> = table
        .chunks_exact(2)
        .map(|entry| Place {
            head: entry[0] as usize,
            segment: entry[1] as usize,
        })
        .collect();
    let indices = indices(LOOKUPS, strings);
    let parts: Vec<_> = indices.chunks(LOOKUPS / PARTS).collect();
    let mut best = [[f64::INFINITY; PARTS]; 2];
    let mut sums = [[0; PARTS]; 2];
    for turn in 0..TURNS * PARTS {
        // One goes half a round behind the other: else it would find in the cache what the other has just read.
        let (one, other) = (turn % PARTS, (turn + PARTS / 2) % PARTS);
        sums[0][one] = time(&mut best[0][one], || {
            look_up(parts[one], |index, buffer| {
                station::fetch_through(&stream, &table, index, buffer).ok()
            })
        });
        sums[1][other] = time(&mut best[1][other], || {
            look_up(parts[other], |index, buffer| {
                fetch(&stream, *places.get(index as usize)?, buffer)
            })
        });
    }
    same &= sums[0] == sums[1];
    let [ours, plain] = best.map(|parts| parts.iter().sum::<f64>() * 1e6 / LOOKUPS as f64);
    println!(
        "{kind:?}, {strings} strings: filling {fill:.2} ms (a check alone {check:.2}) against {fill_too:.2} ms, ratio {:.2}; a look-up {ours:.1} ns against {plain:.1} ns, ratio {:.2}{}",
        fill / fill_too,
        ours / plain,
        if same { "" } else { ": THE ANSWERS DIFFER" },
    );
    same
}

/// Whether all answers were the same.
pub fn run() -> bool {
    let mixed = measure(Big::Mixed);
    measure(Big::EmptyStrings) && mixed
}
