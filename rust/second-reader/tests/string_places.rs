//! K8: a lent table of where each string stands, and fetching through it.

mod common;

use common::*;
use second_reader::{correct, fetch, fetch_through, fill, NewValue, Refusal};

const NONE: u32 = u32::MAX;
/// What stands in numbers and units before a question.
const OLD: u32 = 0x5555_5555;
const UNIT: u16 = 0x5555;

fn refusal<T>(number: u8, offset: usize) -> Result<T, Refusal> {
    Err(Refusal { number, offset })
}

/// Fills a table of so many numbers, and gives it.
#[track_caller]
fn filled(stream: &[u8], numbers: usize, strings: u32) -> Vec<u32> {
    let mut table = vec![OLD; numbers];
    assert_eq!(fill(stream, &mut table), Ok(strings));
    table
}

/// A table that is too short or a stream that is refused: no number changes.
#[track_caller]
fn assert_unfilled(stream: &[u8], numbers: usize, expected: (u8, usize)) {
    let mut table = vec![OLD; numbers];
    assert_eq!(fill(stream, &mut table), refusal(expected.0, expected.1));
    assert!(table.iter().all(|&number| number == OLD));
}

/// The units that a table's entry gives, the later ones of the buffer staying,
/// or the number of the refusal, which changes no unit and stands at 0.
#[track_caller]
fn units(stream: &[u8], table: &[u32], index: u32) -> Result<Vec<u16>, u8> {
    let mut buffer = [UNIT; 100];
    match fetch_through(stream, table, index, &mut buffer) {
        Ok(length) => {
            assert!(buffer[length..].iter().all(|&unit| unit == UNIT));
            assert_short(stream, table, index, length);
            Ok(buffer[..length].to_vec())
        }
        Err(refusal) => {
            assert_eq!(buffer, [UNIT; 100]);
            assert_eq!(refusal.offset, 0);
            Err(refusal.number)
        }
    }
}

/// A buffer of exactly the length does, one with a unit less doesn't.
#[track_caller]
fn assert_short(stream: &[u8], table: &[u32], index: u32, length: usize) {
    let mut buffer = vec![UNIT; length];
    assert_eq!(fetch_through(stream, table, index, &mut buffer), Ok(length));
    if let Some(less) = length.checked_sub(1) {
        let mut buffer = vec![UNIT; less];
        let answer = fetch_through(stream, table, index, &mut buffer);
        assert_eq!(answer, refusal(12, 0));
        assert!(buffer.iter().all(|&unit| unit == UNIT));
    }
}

/// What a made-up entry gives.
#[track_caller]
fn at(stream: &[u8], head: usize, segment: usize) -> Result<Vec<u16>, u8> {
    units(stream, &[head as u32, segment as u32], 0)
}

/// Three strings: `AB`; one that starts in the SST at 20 and goes on wide in the
/// CONTINUE at 41; one of no characters in the CONTINUE at 50. Its 61 bytes hold
/// no other pair of bytes that looks like either type.
fn three() -> Vec<u8> {
    let (stream, places) = table(&[
        &sst(3, &[2, 0, 0, b'A', b'B', 3, 0, 0, b'C']),
        &[1, 0xA9, 0x03, 0xB1, 0x03],
        &[0, 0, 0],
    ]);
    assert_eq!(places, [20, 41, 50]);
    stream
}

const THREE: [u32; 6] = [32, 20, 37, 20, 54, 50];

fn three_units() -> [Vec<u16>; 3] {
    [vec![0x41, 0x42], vec![0x43, 0x03A9, 0x03B1], vec![]]
}

// Filling.

#[test]
fn t1_two_numbers_a_string_and_no_place_after() {
    let stream = three();
    assert_eq!(filled(&stream, 6, 3), THREE);
    let one_more = [&THREE[..], &[NONE]].concat();
    assert_eq!(filled(&stream, 7, 3), one_more);
    let many_more = [&THREE[..], &[NONE; 5]].concat();
    assert_eq!(filled(&stream, 11, 3), many_more);
}

#[test]
fn t2_too_few_numbers() {
    let stream = three();
    for numbers in 0..6 {
        assert_unfilled(&stream, numbers, (12, 0));
    }
    // No strings need no numbers.
    let (none, _) = table(&[]);
    let (empty, _) = table(&[&sst(0, &[])]);
    for stream in [none, empty] {
        assert_eq!(filled(&stream, 0, 0), []);
        assert_eq!(filled(&stream, 1, 0), [NONE]);
        assert_eq!(filled(&stream, 4, 0), [NONE; 4]);
    }
    // The check's refusals come before it.
    assert_unfilled(&[], 0, (3, 0));
    let (broken, places) = table(&[&sst(3, &[0, 0, 0])]);
    assert_unfilled(&broken, 0, (8, places[0]));
    assert_unfilled(&broken, 8, (8, places[0]));
    let nine = sheet_with(1, LABELSST, &labelsst_body(1));
    assert_unfilled(&nine.bytes, 1, (9, nine.first));
    assert_unfilled(&nine.bytes, 2, (9, nine.first));
    assert_unfilled(&vec![0; 16_777_217], 1, (1, 0));
    // And 10, which is found last.
    let mut book = Book::globals();
    let boundsheet = book.boundsheet(0);
    book.record(SST, &table_of(1));
    book.eof();
    assert_unfilled(&book.bytes, 1, (10, boundsheet));
    assert_unfilled(&book.bytes, 2, (10, boundsheet));
}

#[test]
fn t3_a_head_where_a_segment_ends() {
    // All strings after the counts stand in the CONTINUEs.
    let (stream, _) = table(&[
        &sst(3, &[]),
        &[1, 0, 0, b'a'],
        &[1, 0, 1, 0x22, 0x11, 0, 0, 0],
    ]);
    // The SST is at 20 with 8 bytes, the CONTINUEs at 32 and 40.
    assert_eq!(filled(&stream, 6, 3), [36, 32, 44, 40, 49, 40]);
    // After runs and phonetic bytes too.
    let (stream, _) = table(&[
        &sst(3, &[0, 0, 8, 1, 0, 9, 9, 9, 9]),
        &[0, 0, 4, 1, 0, 0, 0, 9],
        &[0, 0, 0],
    ]);
    // The SST is at 20 with 17 bytes, the CONTINUEs at 41 and 53.
    assert_eq!(filled(&stream, 6, 3), [32, 20, 45, 41, 57, 53]);
}

#[test]
fn places_of_a_table_after_other_records() {
    let mut book = Book::globals();
    book.record(OTHER, &[1, 2, 3]);
    book.record(SST, &table_of(2));
    book.record(OTHER, &[4]);
    book.eof();
    // The SST is at 27, its first string at 39, its second at 43.
    assert_eq!(filled(&book.bytes, 5, 2), [39, 27, 43, 27, NONE]);
}

// Fetching through a filled table.

#[test]
fn as_plain_fetching_does() {
    let stream = three();
    for numbers in [6, 7, 8, 30] {
        let table = filled(&stream, numbers, 3);
        for index in 0..20u32 {
            let expected = three_units().get(index as usize).cloned().ok_or(11);
            assert_eq!(units(&stream, &table, index), expected);
        }
        for index in 0..20 {
            for length in 0..5 {
                let mut plain = vec![UNIT; length];
                let mut through = plain.clone();
                assert_eq!(
                    fetch_through(&stream, &table, index, &mut through),
                    fetch(&stream, index, &mut plain)
                );
                assert_eq!(through, plain);
            }
        }
    }
}

#[test]
fn a_table_outlives_a_correction() {
    let mut sheet = sheet_with(2, LABELSST, &labelsst_body(1));
    let table = filled(&sheet.bytes, 4, 2);
    correct(&mut sheet.bytes, 0, 1, 2, NewValue::Text(0)).unwrap();
    assert_eq!(filled(&sheet.bytes, 4, 2), table);
    assert_eq!(units(&sheet.bytes, &table, 1), Ok(vec![0x61]));
}

#[test]
fn t4_no_such_entry() {
    let stream = three();
    // Both numbers must be there.
    for numbers in 0..=6 {
        let table = &THREE[..numbers];
        for index in 0..4 {
            let expected = three_units()
                .get(index as usize)
                .filter(|_| 2 * index as usize + 1 < numbers)
                .cloned()
                .ok_or(11);
            assert_eq!(units(&stream, table, index), expected);
        }
    }
    // Twice these indices are 0, 2 and 2^32 - 2 where 32 bits run over.
    for index in [0x8000_0000, 0x8000_0001, 0x7FFF_FFFF, 0xFFFF_FFFF] {
        assert_eq!(units(&stream, &THREE, index), Err(11));
    }
    // Further entries of a filled table.
    assert_eq!(units(&stream, &filled(&stream, 9, 3), 3), Err(11));
    assert_eq!(units(&stream, &[NONE, NONE], 0), Err(11));
    assert_eq!(units(&stream, &[32, NONE], 0), Err(11));
    assert_eq!(units(&stream, &[NONE, 20], 0), Err(11));
    // 11 before 12.
    assert_eq!(fetch_through(&stream, &THREE, 3, &mut []), refusal(11, 0));
    assert_eq!(fetch_through(&stream, &THREE, 0, &mut []), refusal(12, 0));
    assert_eq!(fetch_through(&stream, &THREE, 2, &mut []), Ok(0));
}

// Any other table or stream.

#[test]
fn t4b_a_short_buffer_after_what_is_absent() {
    // Two characters and a run that is cut.
    let (mut stream, _) = table(&[&sst(1, &[2, 0, 8, 1, 0, b'x', b'y', 9, 9, 9])]);
    for length in 0..4 {
        let mut buffer = vec![UNIT; length];
        let answer = fetch_through(&stream, &[32, 20], 0, &mut buffer);
        assert_eq!(answer, refusal(11, 0));
        assert_eq!(buffer, vec![UNIT; length]);
    }
    // Without runs it reads, and a short buffer is 12 though the check refuses
    // the bytes left over.
    stream[34] = 0;
    assert_refused(&stream, 8, 20);
    let mut buffer = [UNIT; 1];
    let answer = fetch_through(&stream, &[32, 20], 0, &mut buffer);
    assert_eq!(answer, refusal(12, 0));
    assert_eq!(buffer, [UNIT]);
    assert_eq!(at(&stream, 32, 20), Ok(vec![0x01, 0x00]));
}

/// Every entry that can be made up for a small stream.
#[test]
fn t5_every_head_and_segment() {
    let stream = three();
    // Of the SST's bytes 77 77 77 77 03 00 00 00 02 00 00 41 42 03 00 00 43 from
    // 24 on, and of the CONTINUEs', these start with a string.
    let reads = |head: usize, segment: usize| match (segment, head) {
        // 03 00, 00, then 00 02 00: within the counts and over their end.
        (20, 28) => Ok(vec![0, 2, 0]),
        // 00 00 and a flags byte without bits 2 and 3.
        (20, 29 | 30 | 33 | 38) => Ok(vec![]),
        (20, 32) => Ok(vec![0x41, 0x42]),
        (20, 37) => Ok(vec![0x43, 0x03A9, 0x03B1]),
        (50, 54) => Ok(vec![]),
        _ => Err(11),
    };
    for segment in 0..70 {
        for head in 0..70 {
            let expected = reads(head, segment);
            assert_eq!(at(&stream, head, segment), expected, "{head} {segment}");
        }
    }
}

#[test]
fn t5_the_head_in_the_body() {
    // A head in an SST's counts is read: one narrow character.
    let (stream, _) = table(&[&[1, 0, 0, b'A', 0, 0, 0, 0]]);
    assert_eq!(at(&stream, 24, 20), Ok(vec![0x41]));
    // At the body's end, also where a CONTINUE with a string follows, and in
    // that CONTINUE's header or body.
    let (stream, places) = table(&[&sst(1, &[]), &[1, 0, 0, b'a']]);
    assert_eq!(places, [20, 32]);
    assert_eq!(at(&stream, 31, 20), Err(11));
    assert_eq!(at(&stream, 32, 20), Err(11));
    assert_eq!(at(&stream, 36, 20), Err(11));
    assert_eq!(at(&stream, 36, 32), Ok(vec![0x61]));
    // In the segment's own header, or before it: 3C 00 04 00 would be a head.
    for head in 30..36 {
        assert_eq!(at(&stream, head, 32), Err(11));
    }
    // In a record of another type.
    let mut book = Book::globals();
    let place = book.record(OTHER, &[1, 0, 0, b'a']);
    assert_eq!(at(&book.bytes, place + 4, place), Err(11));
    let place = book.record(0x01FC, &[1, 0, 0, b'a']);
    assert_eq!(at(&book.bytes, place + 4, place), Err(11));
    let place = book.record(0x013C, &[1, 0, 0, b'a']);
    assert_eq!(at(&book.bytes, place + 4, place), Err(11));
    let place = book.record(CONTINUE, &[1, 0, 0, b'a']);
    assert_eq!(at(&book.bytes, place + 4, place), Ok(vec![0x61]));
    // A head that the body's end cuts, though a CONTINUE follows.
    for cut in [
        &[0][..],
        &[0, 0],
        &[0, 0, 8],
        &[0, 0, 8, 0],
        &[0, 0, 4, 0, 0, 0],
    ] {
        let (stream, _) = table(&[cut, &[0, 0, 0, 0]]);
        assert_eq!(at(&stream, 24, 20), Err(11));
    }
    // And a head without its first character.
    let (stream, _) = table(&[&[1, 0, 0], &[0, b'a']]);
    assert_eq!(at(&stream, 24, 20), Err(11));
    let (stream, _) = table(&[&[1, 0, 1, b'a'], &[0, b'a']]);
    assert_eq!(at(&stream, 24, 20), Err(11));
}

#[test]
fn t6_no_other_rule_of_the_table() {
    // An SST body under 8 bytes.
    let (stream, places) = table(&[&[1, 0, 0, b'a']]);
    assert_refused(&stream, 8, places[0]);
    assert_eq!(at(&stream, 24, 20), Ok(vec![0x61]));
    // A second SST, and one in a worksheet.
    let mut book = Book::globals();
    book.record(SST, &table_of(1));
    let second = book.record(SST, &sst(1, &[1, 0, 0, b'b']));
    book.eof();
    assert_refused(&book.bytes, 8, second);
    assert_eq!(at(&book.bytes, second + 12, second), Ok(vec![0x62]));
    let sheet = sheet_with(0, SST, &sst(9, &[1, 0, 0, b'c']));
    assert_accepted(&sheet.bytes);
    let first = sheet.first;
    assert_eq!(at(&sheet.bytes, first + 12, first), Ok(vec![0x63]));
    // A header inside another record's body, and a CONTINUE right after it.
    let mut book = Book::globals();
    let place = book.record(
        OTHER,
        &[
            7, 0xFC, 0, 4, 0, 2, 0, 0, b'x', 0x3C, 0, 3, 0, 1, b'y', b'z',
        ],
    );
    book.eof();
    assert_accepted(&book.bytes);
    assert_eq!(
        at(&book.bytes, place + 9, place + 5),
        Ok(vec![0x78, 0x7A79])
    );
    // No stream at all but these bytes.
    assert_eq!(at(&[0x3C, 0, 3, 0, 0, 0, 0], 4, 0), Ok(vec![]));
    assert_eq!(at(&[0x3C, 0, 2, 0, 0, 0], 4, 0), Err(11));
    assert_eq!(at(&[], 0, 0), Err(11));
    assert_eq!(at(&[], 4, 0), Err(11));
}

/// A string with two runs and three phonetic bytes over three segments.
const RICH: [&[u8]; 3] = [
    &[2, 0, 0x0C, 2, 0, 3, 0, 0, 0, b'A', b'B', 9, 9, 9, 9],
    &[9, 9, 9, 9, 8],
    &[8, 8],
];

#[test]
fn t7_the_whole_string() {
    let (stream, places) = table(&RICH);
    // The SST is at 20 with 15 bytes, the CONTINUEs at 39 and 48.
    assert_eq!(places, [20, 39, 48]);
    let units = vec![0x41, 0x42];
    assert_eq!(at(&stream, 24, 20), Ok(units.clone()));
    let broken = |segments: &[&[u8]]| at(&table(segments).0, 24, 20);
    // A phonetic byte less, a CONTINUE less, an empty one, a run that is cut.
    assert_eq!(broken(&[RICH[0], RICH[1], &[8]]), Err(11));
    assert_eq!(broken(&RICH[..2]), Err(11));
    assert_eq!(broken(&RICH[..1]), Err(11));
    assert_eq!(broken(&[RICH[0], RICH[1], &[], RICH[2]]), Err(11));
    assert_eq!(broken(&[RICH[0], &[9, 9, 9], &[9, 8, 8, 8]]), Err(11));
    // Not looked at: bytes left over, an extra CONTINUE, even an empty one.
    assert_eq!(broken(&[RICH[0], RICH[1], &[8, 8, 7]]), Ok(units.clone()));
    assert_eq!(broken(&[RICH[0], RICH[1], RICH[2], &[]]), Ok(units.clone()));
    // Nor the rest of the stream: it may be cut right after the string, or go
    // on with anything.
    assert_eq!(at(&stream[..54], 24, 20), Ok(units.clone()));
    let torn = [&stream[..54], &[0x3C]].concat();
    assert_eq!(at(&torn, 24, 20), Ok(units.clone()));
    let torn = [&stream[..54], &[0x3C, 0, 0xFF, 0xFF]].concat();
    assert_eq!(at(&torn, 24, 20), Ok(units));
}

#[test]
fn t7_characters_over_segments() {
    // Narrow, wide, narrow again; ignored flag bits don't count.
    let (stream, _) = table(&[&[4, 0, 0xF2, b'a'], &[0xFF, 1, 2], &[0xFE, b'b', b'c']]);
    assert_eq!(at(&stream, 24, 20), Ok(vec![0x61, 0x0201, 0x62, 0x63]));
    // A flags byte alone, and half a character.
    let (stream, _) = table(&[&[2, 0, 0, b'a'], &[0], &[0, b'b']]);
    assert_eq!(at(&stream, 24, 20), Err(11));
    let (stream, _) = table(&[&[3, 0, 0, b'a'], &[1, 1, 2, 3], &[0, b'b']]);
    assert_eq!(at(&stream, 24, 20), Err(11));
    // Another record between.
    let mut book = Book::globals();
    book.record(SST, &[2, 0, 0, b'a']);
    book.record(OTHER, &[]);
    book.record(CONTINUE, &[0, b'b']);
    assert_eq!(at(&book.bytes, 24, 20), Err(11));
}

#[test]
fn t8_the_segments_own_record() {
    let (stream, _) = table(&[&sst(1, &[1, 0, 0, b'a'])]);
    assert_eq!(at(&stream[..36], 32, 20), Ok(vec![0x61]));
    // A size one over what is there: the string is, but the record isn't whole.
    let mut longer = stream[..36].to_vec();
    longer[22] += 1;
    assert_eq!(at(&longer, 32, 20), Err(11));
    // A header that is cut.
    for length in 20..24 {
        assert_eq!(at(&stream[..length], 24, 20), Err(11));
    }
    // A body of 8,224 bytes is read, one of 8,225 isn't.
    for (size, expected) in [(8_224, Ok(vec![0x61])), (8_225, Err(11))] {
        let mut body = vec![0; size];
        body[..4].copy_from_slice(&[1, 0, 0, b'a']);
        let (stream, _) = table(&[&body]);
        assert_eq!(at(&stream, 24, 20), expected);
        // The same for the CONTINUE that the string needs.
        let mut body = vec![0; size];
        body[..2].copy_from_slice(&[0, b'a']);
        let (stream, _) = table(&[&[2, 0, 0, b'a'], &body]);
        let expected = expected.map(|_| vec![0x61, 0x61]);
        assert_eq!(at(&stream, 24, 20), expected);
    }
    // A needed CONTINUE whose body passes the end.
    let cut = [0xFC, 0, 4, 0, 2, 0, 0, b'a', 0x3C, 0, 3, 0, 0, b'b'];
    assert_eq!(at(&cut, 4, 0), Err(11));
}

#[test]
fn t8b_no_check_at_a_fetch() {
    // Longer than any stream that passes, and the string past that length.
    let mut long = vec![0; 16_777_220];
    long.extend([0x3C, 0, 4, 0, 1, 0, 0, b'a']);
    assert_refused(&long, 1, 0);
    assert_eq!(at(&long, 16_777_224, 16_777_220), Ok(vec![0x61]));
    // Refused for its first record, or for a cell.
    let mut stream = three();
    stream[0] = 0;
    assert_refused(&stream, 3, 0);
    for (index, expected) in (0..).zip(three_units()) {
        assert_eq!(units(&stream, &THREE, index), Ok(expected));
    }
    let nine = sheet_with(1, LABELSST, &labelsst_body(1));
    assert_refused(&nine.bytes, 9, nine.first);
    // BOF 20, BOUNDSHEET 13: the SST is at 33, its string at 45.
    assert_eq!(at(&nine.bytes, 45, 33), Ok(vec![0x61]));
}
