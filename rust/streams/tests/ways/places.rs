//! K8: tables of string places, as they are lent to be filled and to be fetched
//! through.

use crate::{Ways, SEEDS};
use second_reader::{check, fetch_through, fill};
use streams::Through;

const SST: u16 = 0x00FC;
const CONTINUE: u16 = 0x003C;
const NO_PLACE: u32 = 4_294_967_295;

fn word(stream: &[u8], at: usize) -> Option<u16> {
    let bytes = stream.get(at..at + 2)?;
    Some(u16::from_le_bytes([bytes[0], bytes[1]]))
}

/// Whether a header stands there when records are walked from the start.
fn is_walked(stream: &[u8], header: usize) -> bool {
    let mut at = 0;
    while at < header {
        let Some(size) = word(stream, at + 2) else {
            return false;
        };
        at += 4 + usize::from(size);
    }
    at == header
}

#[test]
fn tables_to_fill() {
    let mut ways = Ways::new(&[
        "as many numbers as are needed, filled",
        "one number more, filled",
        "more numbers, filled",
        "no strings and no numbers, filled",
        "no strings and some numbers, filled",
        "a number short, 12",
        "an entry short, 12",
        "more than an entry short, 12",
        "no numbers, 12",
        "the check's refusal",
    ]);
    for seed in 0..SEEDS / 4 {
        let stream = streams::stream(seed);
        let mut table = vec![0; streams::numbers(seed, &stream)];
        let numbers = table.len();
        let answer = fill(&stream, &mut table);
        let Ok(passed) = check(&stream) else {
            ways.meet("the check's refusal");
            continue;
        };
        let needed = 2 * passed.strings as usize;
        ways.meet(match (answer.is_ok(), needed, numbers) {
            (true, 0, 0) => "no strings and no numbers, filled",
            (true, 0, _) => "no strings and some numbers, filled",
            (true, needed, numbers) => match numbers - needed {
                0 => "as many numbers as are needed, filled",
                1 => "one number more, filled",
                _ => "more numbers, filled",
            },
            (false, _, 0) => "no numbers, 12",
            (false, needed, numbers) => match needed - numbers {
                1 => "a number short, 12",
                2 => "an entry short, 12",
                _ => "more than an entry short, 12",
            },
        });
    }
    ways.assert_met();
}

#[test]
fn tables_to_fetch_through() {
    let mut ways = Ways::new(&[
        "read as it was filled",
        "read in an SST",
        "read in a CONTINUE",
        "read in the counts of an SST",
        "read at a record that is none of the walk",
        "read where the check refuses the stream",
        "no such entry, 11",
        "half an entry, 11",
        "an entry that would be there in thirty-one bits, 11",
        "4,294,967,295 for a segment, 11",
        "4,294,967,295 for a head, 11",
        "the stream's end for a segment, 11",
        "another record for a segment, 11",
        "a segment of over 8,224 bytes, 11",
        "a segment that passes the end, 11",
        "a head before its segment, 11",
        "a head in the header, 11",
        "a head at the body's end, 11",
        "a head after it, 11",
        "a broken string, 11",
        "a short buffer, 12",
    ]);
    for seed in 0..SEEDS / 4 {
        let stream = streams::stream(seed);
        let strings = check(&stream).map_or(0, |passed| passed.strings as usize);
        let mut filled = vec![0; 2 * strings];
        if fill(&stream, &mut filled).is_err() {
            filled.clear();
        }
        let ask = streams::through(seed, &stream, &filled);
        let mut buffer = vec![0; ask.units];
        let answer = fetch_through(&ask.stream, &ask.table, ask.index, &mut buffer);
        match answer {
            Ok(_) => meet_read(&mut ways, &ask, ask.stream == stream && ask.table == filled),
            Err(refusal) => {
                assert_eq!(refusal.offset, 0);
                ways.meet(refused(&ask, refusal.number));
            }
        }
    }
    ways.assert_met();
}

fn meet_read(ways: &mut Ways, ask: &Through, as_filled: bool) {
    let (stream, place) = (&ask.stream[..], 2 * ask.index as usize);
    let (head, segment) = (ask.table[place] as usize, ask.table[place + 1] as usize);
    if as_filled {
        ways.meet("read as it was filled");
    }
    match word(stream, segment) {
        Some(SST) if head < segment + 12 => ways.meet("read in the counts of an SST"),
        Some(SST) => ways.meet("read in an SST"),
        _ => ways.meet("read in a CONTINUE"),
    }
    if !is_walked(stream, segment) {
        ways.meet("read at a record that is none of the walk");
    }
    if check(stream).is_err() {
        ways.meet("read where the check refuses the stream");
    }
}

fn refused(ask: &Through, number: u8) -> &'static str {
    let (table, place) = (&ask.table, 2 * ask.index as usize);
    let Some(&segment) = table.get(place + 1) else {
        let cut_down = place & 0xFFFF_FFFF;
        return match place {
            _ if place < table.len() => "half an entry, 11",
            _ if cut_down != place && cut_down + 1 < table.len() => {
                "an entry that would be there in thirty-one bits, 11"
            }
            _ => "no such entry, 11",
        };
    };
    let (stream, head) = (&ask.stream[..], table[place]);
    let (at, body) = (segment as usize, segment as usize + 4);
    let (Some(kind), Some(size)) = (word(stream, at), word(stream, at + 2)) else {
        return match segment {
            NO_PLACE => "4,294,967,295 for a segment, 11",
            _ => "the stream's end for a segment, 11",
        };
    };
    let end = body + usize::from(size);
    match head as usize {
        _ if kind != SST && kind != CONTINUE => "another record for a segment, 11",
        _ if size > 8_224 => "a segment of over 8,224 bytes, 11",
        _ if end > stream.len() => "a segment that passes the end, 11",
        _ if head == NO_PLACE => "4,294,967,295 for a head, 11",
        head if head < at => "a head before its segment, 11",
        head if head < body => "a head in the header, 11",
        head if head == end => "a head at the body's end, 11",
        head if head > end => "a head after it, 11",
        _ if number == 11 => "a broken string, 11",
        _ => "a short buffer, 12",
    }
}
