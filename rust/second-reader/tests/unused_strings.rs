//! K13: a new stream without the strings that no text cell uses.

mod common;

use common::*;
use second_reader::*;
use std::collections::BTreeSet;

const EXTSST: u16 = 0x00FF;
const INDEX: u16 = 0x020B;
const DBCELL: u16 = 0x00D7;
const STRING: u16 = 0x0207;
const LONGEST_BODY: usize = 8_224;
const LONGEST_STREAM: usize = 16_777_216;
/// What stands in a buffer before a question.
const OLD: u8 = 0x55;
const TOO_SHORT: Refusal = Refusal {
    number: 12,
    offset: 0,
};

fn refusal<T>(number: u8, offset: usize) -> Result<T, Refusal> {
    Err(Refusal { number, offset })
}

/// The new stream: at the start of a buffer whose later bytes stay, and also in
/// a buffer of exactly its length; one with a byte less is refused with 12 and
/// stays as it is.
#[track_caller]
fn compacted(stream: &[u8]) -> Vec<u8> {
    written(stream, |buffer| compact(stream, buffer), Err(TOO_SHORT))
}

#[track_caller]
fn written<E: PartialEq + std::fmt::Debug>(
    stream: &[u8],
    ask: impl Fn(&mut [u8]) -> Result<Compacted, E>,
    short: Result<Compacted, E>,
) -> Vec<u8> {
    let mut buffer = vec![OLD; stream.len() * 2 + 100];
    let answer = ask(&mut buffer).unwrap();
    let length = answer.written;
    assert_eq!(answer.freed, stream.len() as i64 - length as i64);
    assert!(buffer[length..].iter().all(|&byte| byte == OLD));
    buffer.truncate(length);

    let mut exact = vec![OLD; length];
    assert_eq!(ask(&mut exact).as_ref(), Ok(&answer));
    assert!(exact == buffer);

    let mut less = vec![OLD; length - 1];
    assert_eq!(ask(&mut less), short);
    assert!(less.iter().all(|&byte| byte == OLD));
    buffer
}

/// A refusal changes no byte of the buffer.
#[track_caller]
fn assert_uncompacted(stream: &[u8], buffer_size: usize, number: u8, offset: usize) {
    let mut buffer = vec![OLD; buffer_size];
    assert_eq!(compact(stream, &mut buffer), refusal(number, offset));
    assert!(buffer.iter().all(|&byte| byte == OLD));
}

/// A LABELSST body in column 0 with format 3.
fn label(row: u8, index: u32) -> Vec<u8> {
    [&[row, 0, 0, 0, 3, 0][..], &index.to_le_bytes()].concat()
}

/// Both counts at the start of an SST's body, and what follows them.
fn table_body(total: u32, unique: u32, strings: &[u8]) -> Vec<u8> {
    [&total.to_le_bytes()[..], &unique.to_le_bytes(), strings].concat()
}

/// One worksheet whose text cells have these indices, and a table in these
/// segments.
fn texts(segments: &[Vec<u8>], indices: &[u32]) -> Vec<u8> {
    let mut book = Book::globals();
    let boundsheet = book.boundsheet(0);
    for (number, segment) in segments.iter().enumerate() {
        book.record(if number == 0 { SST } else { CONTINUE }, segment);
    }
    book.eof();
    let bof = book.bof(WORKSHEET);
    book.name(boundsheet, bof);
    for (row, &index) in indices.iter().enumerate() {
        book.record(LABELSST, &label(row as u8, index));
    }
    book.eof();
    book.bytes
}

/// A table in these old segments, used by cells with these indices, becomes one
/// in these new segments, and the cells get these new indices.
#[track_caller]
fn assert_tables(old: (&[Vec<u8>], &[u32]), new: (&[Vec<u8>], &[u32])) {
    let answer = compacted(&texts(old.0, old.1));
    let expected = texts(new.0, new.1);
    assert!(
        answer == expected,
        "{}",
        first_difference(&answer, &expected)
    );
    assert!(compacted(&expected) == expected, "a second time");
}

fn first_difference(answer: &[u8], expected: &[u8]) -> String {
    let same = answer.iter().zip(expected).take_while(|(a, b)| a == b);
    let lengths = (answer.len(), expected.len());
    format!("differ at {}, lengths {lengths:?}", same.count())
}

/// The same with all strings used, once each and in order.
#[track_caller]
fn assert_relaid(unique: u32, old: &[Vec<u8>], new: &[Vec<u8>]) {
    let indices: Vec<u32> = (0..unique).collect();
    assert_tables((old, &indices), (new, &indices));
}

/// A string whose head and `count` narrow letters `a` take 3 + `count` bytes.
fn letters(count: usize) -> Vec<u8> {
    [&(count as u16).to_le_bytes()[..], &[0], &vec![b'a'; count]].concat()
}

/// Old segments: a first string of `count` letters in two segments, then each
/// of these in a segment of its own.
fn spread(unique: u32, count: usize, others: &[&[u8]]) -> Vec<Vec<u8>> {
    let string = letters(count);
    let (first, second) = string.split_at(3 + count / 2);
    let mut segments = vec![table_body(9, unique, first), [&[0], second].concat()];
    segments.extend(others.iter().map(|segment| segment.to_vec()));
    segments
}

/// The new first segment up to the end of a first string of `count` letters.
fn filled(unique: u32, count: usize) -> Vec<u8> {
    table_body(unique, unique, &letters(count))
}

/// So many letters in the first string leave `room` bytes of the SST free.
fn leaving(room: usize) -> usize {
    LONGEST_BODY - 8 - 3 - room
}

/// F1: the check's refusals come first, then 1, then 12, both at 0.
#[test]
fn refusals_of_the_check_come_first() {
    let bad_index = sheet_with(1, LABELSST, &labelsst_body(1));
    assert_uncompacted(&bad_index.bytes, 0, 9, bad_index.first);
    assert_uncompacted(&bad_index.bytes, 1_000, 9, bad_index.first);
    assert_uncompacted(&[], 10, 3, 0);
    assert_uncompacted(&vec![0; LONGEST_STREAM + 1], 0, 1, 0);
    let good = sheet_with(1, LABELSST, &labelsst_body(0));
    assert_uncompacted(&good.bytes, 0, 12, 0);
    // A sheet list at fault is refused after the walk, and before 12.
    let mut book = Book::globals();
    let boundsheet = book.boundsheet(0);
    book.eof();
    assert_uncompacted(&book.bytes, 0, 10, boundsheet);
}

/// F1 over the pair: the template's, the session's, then 1 and 12.
#[test]
fn refusals_over_the_pair() {
    let template = texts(&[table_body(0, 1, &letters(1))], &[]);
    let good = sheet_with(0, LABELSST, &labelsst_body(0));
    let bad = sheet_with(0, LABELSST, &labelsst_body(1));
    let ask = |template: &[u8], session: &[u8]| {
        let mut buffer = [OLD; 10];
        let answer = compact_session(template, session, &mut buffer);
        assert_eq!(buffer, [OLD; 10]);
        answer
    };
    let of = |number, offset| Refusal { number, offset };
    let in_template = Err(PairRefusal::Stream(Whose::Template, of(2, 0)));
    let in_session = Err(PairRefusal::Stream(Whose::Session, of(9, bad.first)));
    let too_short = Err(PairRefusal::Question(TOO_SHORT));
    assert_eq!(ask(&[9], &bad.bytes), in_template);
    assert_eq!(ask(&template, &bad.bytes), in_session);
    assert_eq!(ask(&template, &good.bytes), too_short);
    let too_long = Err(PairRefusal::Question(of(1, 0)));
    assert_eq!(ask(&template, &growing_by_one(LONGEST_STREAM)), too_long);
}

/// F2: a LABELSST in the globals, in a macro sheet, in a chart sheet or in a
/// chart inside a worksheet uses no string, isn't counted and stays.
#[test]
fn only_listed_cells_use_strings() {
    let make = |strings: &[u8], counts: [u32; 2], index: u32| {
        let mut book = Book::globals();
        let sheets = [0, 1, 2].map(|sheet_type| book.boundsheet(sheet_type));
        book.record(LABELSST, &label(0, 0));
        book.record(SST, &table_body(counts[0], counts[1], strings));
        book.eof();
        let worksheet = book.bof(WORKSHEET);
        book.bof(CHART);
        book.record(LABELSST, &label(1, 1));
        book.eof();
        book.record(LABELSST, &label(2, index));
        book.eof();
        let macro_sheet = book.bof(MACRO);
        book.record(LABELSST, &label(3, 0));
        book.record(LABELSST, &label(4, 77));
        // Too short to be one that is read.
        book.record(LABELSST, &[1, 2, 3]);
        book.eof();
        let chart = book.bof(CHART);
        book.record(LABELSST, &label(5, 1));
        book.eof();
        for (sheet, bof) in sheets.into_iter().zip([worksheet, macro_sheet, chart]) {
            book.name(sheet, bof);
        }
        book.bytes
    };
    let old = make(&[1, 0, 0, b'x', 1, 0, 0, b'y', 1, 0, 0, b'z'], [50, 3], 2);
    let new = make(&[1, 0, 0, b'z'], [1, 1], 0);
    assert_eq!(compacted(&old), new);
}

/// F3: the table, the indices of cells and the positions of sheets change, the
/// EXTSST and the INDEX vanish, and every other byte stays, the formula with its
/// text and the zeros at the end among them.
#[test]
fn what_changes_and_what_stays() {
    let text_result = formula_body([0, 9, 9, 9, 9, 9, 0xFF, 0xFF], &[0x1E, 1, 0], &[7, 7]);
    let mut old = Book::globals();
    old.record(OTHER, &[1, 2, 3]);
    old.record(CONTINUE, &[4]);
    let old_second = old.record(BOUNDSHEET, &[0, 0, 0, 0, 0xAB, 0, 1, 0xFE, b'p']);
    let old_first = old.record(BOUNDSHEET, &[0, 0, 0, 0, 2, 0, 1, 1, b'q', 3]);
    old.record(SST, &sst(4, &[1, 0, 0, b'k', 2, 0, 0, b'l']));
    old.record(CONTINUE, &[0, b'm', 1, 0, 1, 0xA9, 3, 1, 0, 0, b'n']);
    old.record(EXTSST, &[8, 0, 1, 2, 3, 4, 5, 6, 7, 8]);
    old.record(OTHER, &[]);
    old.eof();
    let bof = old.bof(WORKSHEET);
    old.name(old_first, bof);
    old.record(INDEX, &[0; 16]);
    old.record(0x0200, &[0; 14]);
    old.record(CONTINUE, &[6, 6]);
    old.record(LABELSST, &[1, 1, 2, 0, 0x34, 0x12, 3, 0, 0, 0]);
    old.record(RK, &rk_body(0x3FF0_0000));
    old.record(LABELSST, &[1, 1, 3, 0, 0x78, 0x56, 1, 0, 0, 0]);
    old.record(FORMULA, &text_result);
    old.record(STRING, &[2, 0, 0, b'r']);
    old.record(CONTINUE, &[0, b's']);
    old.record(DBCELL, &[0x40, 0, 0, 0, 9, 9]);
    old.eof();
    let bof = old.bof(WORKSHEET);
    old.name(old_second, bof);
    old.record(LABELSST, &[1, 1, 2, 0, 1, 0, 3, 0, 0, 0]);
    old.eof();
    old.raw(&[0; 5]);

    let mut new = Book::globals();
    new.record(OTHER, &[1, 2, 3]);
    new.record(CONTINUE, &[4]);
    let new_second = new.record(BOUNDSHEET, &[0, 0, 0, 0, 0xAB, 0, 1, 0xFE, b'p']);
    let new_first = new.record(BOUNDSHEET, &[0, 0, 0, 0, 2, 0, 1, 1, b'q', 3]);
    // Three text cells use the second string and the fourth.
    let strings = [2, 0, 0, b'l', b'm', 1, 0, 0, b'n'];
    new.record(SST, &table_body(3, 2, &strings));
    new.record(OTHER, &[]);
    new.eof();
    let bof = new.bof(WORKSHEET);
    new.name(new_first, bof);
    new.record(0x0200, &[0; 14]);
    new.record(CONTINUE, &[6, 6]);
    new.record(LABELSST, &[1, 1, 2, 0, 0x34, 0x12, 1, 0, 0, 0]);
    new.record(RK, &rk_body(0x3FF0_0000));
    new.record(LABELSST, &[1, 1, 3, 0, 0x78, 0x56, 0, 0, 0, 0]);
    new.record(FORMULA, &text_result);
    new.record(STRING, &[2, 0, 0, b'r']);
    new.record(CONTINUE, &[0, b's']);
    new.record(DBCELL, &[0x40, 0, 0, 0, 9, 9]);
    new.eof();
    let bof = new.bof(WORKSHEET);
    new.name(new_second, bof);
    new.record(LABELSST, &[1, 1, 2, 0, 1, 0, 1, 0, 0, 0]);
    new.eof();
    new.raw(&[0; 5]);

    assert_eq!(compacted(&old.bytes), new.bytes);
    // The table's records took 20 and 15 bytes and take 21; the EXTSST took 14,
    // the INDEX 20.
    let freed = 20 + 15 - 21 + 14 + 20;
    assert_eq!(old.len() - new.len(), freed);
}

/// F4: every EXTSST in the globals goes, wherever it stands, with the CONTINUEs
/// right after it; elsewhere it stays. An INDEX goes where it stands directly in
/// a sheet of any type, and stays in the globals and in a chart inside.
#[test]
fn which_records_are_left_out() {
    let make = |all: bool| {
        let leave_out = |book: &mut Book, kind, continues: &[u8]| {
            if all {
                book.record(kind, &[0xEE; 6]);
                for &body in continues {
                    book.record(CONTINUE, &[body]);
                }
            }
        };
        let stay = |book: &mut Book, kind| {
            book.record(kind, &[0xDD; 6]);
            book.record(CONTINUE, &[0xCC]);
            book.record(CONTINUE, &[]);
        };
        let mut book = Book::globals();
        leave_out(&mut book, EXTSST, &[1, 2]);
        let sheets = [0, 1, 2].map(|sheet_type| book.boundsheet(sheet_type));
        leave_out(&mut book, EXTSST, &[3]);
        stay(&mut book, INDEX);
        book.record(SST, &table_body(0, 0, &[]));
        leave_out(&mut book, EXTSST, &[4, 5, 6]);
        leave_out(&mut book, EXTSST, &[]);
        stay(&mut book, OTHER);
        book.eof();
        for (sheet, kind) in sheets.into_iter().zip([WORKSHEET, MACRO, CHART]) {
            let bof = book.bof(kind);
            book.name(sheet, bof);
            leave_out(&mut book, INDEX, &[7]);
            if kind == WORKSHEET {
                book.record(BLANK, &[0; 6]);
                leave_out(&mut book, INDEX, &[8, 9]);
            }
            if kind != MACRO {
                book.bof(CHART);
                stay(&mut book, INDEX);
                book.bof(CHART);
                stay(&mut book, INDEX);
                book.eof();
                stay(&mut book, INDEX);
                book.eof();
                leave_out(&mut book, INDEX, &[10]);
            }
            stay(&mut book, EXTSST);
            leave_out(&mut book, INDEX, &[]);
            leave_out(&mut book, INDEX, &[11]);
            book.eof();
        }
        book.bytes
    };
    assert_eq!(compacted(&make(true)), make(false));
    assert_eq!(compacted(&make(false)), make(false));
}

/// F5: the total is the number of text cells and the unique count that of the
/// strings they use; a string's new index is the number of used ones before it.
#[test]
fn counts_and_new_indices() {
    let strings = |letters: &[u8]| -> Vec<u8> {
        let strings = letters.iter().map(|&letter| [1, 0, 0, letter]);
        strings.collect::<Vec<_>>().concat()
    };
    assert_tables(
        (&[sst(6, &strings(b"abcdef"))], &[4, 1, 4, 4, 5, 1]),
        (&[table_body(6, 3, &strings(b"bef"))], &[1, 0, 1, 1, 2, 0]),
    );
    // Equal texts aren't merged.
    assert_tables(
        (&[sst(4, &strings(b"aaaa"))], &[3, 0, 2]),
        (&[table_body(3, 3, &strings(b"aaa"))], &[2, 0, 1]),
    );
    // No cell uses any.
    assert_tables(
        (&[sst(2, &strings(b"ab"))], &[]),
        (&[table_body(0, 0, &[])], &[]),
    );
    // All are used: only the total changes.
    assert_tables(
        (&[sst(2, &strings(b"ab"))], &[1, 0, 1]),
        (&[table_body(3, 2, &strings(b"ab"))], &[1, 0, 1]),
    );
}

/// F6: a head keeps its bits 2 and 3, also with counts of 0, and the ignored
/// bits are cleared; the width is that of the widest character.
#[test]
fn heads_and_widths() {
    let one = |old: &[u8], new: &[u8]| {
        assert_relaid(1, &[sst(1, old)], &[table_body(1, 1, new)]);
    };
    // Ignored bits, in a narrow string and in a wide one.
    one(&[1, 0, 0xF2, b'a'], &[1, 0, 0, b'a']);
    one(&[1, 0, 0xF3, 0, 1], &[1, 0, 1, 0, 1]);
    // 255 is narrow, 256 is not, and one wide character makes all wide.
    one(&[1, 0, 1, 0xFF, 0], &[1, 0, 0, 0xFF]);
    one(&[2, 0, 1, b'a', 0, 0, 1], &[2, 0, 1, b'a', 0, 0, 1]);
    // An empty string is narrow.
    one(&[0, 0, 1], &[0, 0, 0]);
    one(
        &[0, 0, 0xFF, 0, 0, 0, 0, 0, 0],
        &[0, 0, 0x0C, 0, 0, 0, 0, 0, 0],
    );
    // A run count and a phonetic size of 0 stay.
    one(&[1, 0, 8, 0, 0, b'a'], &[1, 0, 8, 0, 0, b'a']);
    one(&[1, 0, 4, 0, 0, 0, 0, b'a'], &[1, 0, 4, 0, 0, 0, 0, b'a']);
    // Runs and phonetic bytes, all of them.
    let head = [2, 0, 0xFD, 2, 0, 3, 0, 0, 0];
    let after = [1, 2, 3, 4, 5, 6, 7, 8, 9, 10, 11];
    let old = [&head[..], &[b'a', 0, b'b', 0], &after].concat();
    let head = [2, 0, 0x0C, 2, 0, 3, 0, 0, 0];
    let new = [&head[..], b"ab", &after].concat();
    one(&old, &new);
}

/// F6: parts of one string in either width, each with ignored flag bits, become
/// one; runs and phonetic bytes are joined from their segments.
#[test]
fn parts_are_joined() {
    assert_relaid(
        2,
        &[
            sst(2, &[5, 0, 0xF1, b'a', 0]),
            vec![0xFE, b'b', b'c'],
            vec![0xFF, b'd', 0],
            vec![0x00, b'e'],
            vec![3, 0, 0x0C, 2, 0, 3, 0, 0, 0, b'f'],
            vec![1, 0xA9, 3],
            vec![0, 0xE9],
            vec![11, 12, 13, 14],
            vec![15, 16, 17, 18, 21],
            vec![22],
            vec![23],
        ],
        &[[
            &table_body(2, 2, &[5, 0, 0])[..],
            b"abcde",
            &[3, 0, 0x0D, 2, 0, 3, 0, 0, 0],
            &[b'f', 0, 0xA9, 3, 0xE9, 0],
            &[11, 12, 13, 14, 15, 16, 17, 18, 21, 22, 23],
        ]
        .concat()],
    );
    // Unused strings around go with all that is theirs.
    assert_tables(
        (
            &[
                sst(3, &[1, 0, 0x0C, 1, 0, 2, 0, 0, 0, b'x']),
                vec![1, 2, 3, 4, 5],
                vec![6, 1, 0, 0, b'y', 2, 0, 0x0C, 1, 0, 1, 0, 0, 0, b'z'],
                vec![1, b'z', 1, 7, 7, 7, 7],
                vec![8],
            ],
            &[1],
        ),
        (&[table_body(1, 1, &[1, 0, 0, b'y'])], &[0]),
    );
}

/// F7: a head stands with its first character where both have room, else in the
/// next CONTINUE.
#[test]
fn heads_move_with_their_first_character() {
    // Each of these and how many bytes its head and first character need.
    let cases: [(&[u8], usize); 6] = [
        (&[1, 0, 0, b'b'], 4),
        (&[1, 0, 1, 0xA9, 3], 5),
        (&[0, 0, 0], 3),
        (&[0, 0, 0x0C, 0, 0, 0, 0, 0, 0], 9),
        (&[1, 0, 8, 0, 0, b'b'], 6),
        (&[1, 0, 0x0D, 0, 0, 0, 0, 0, 0, 0xA9, 3], 11),
    ];
    for (string, needed) in cases {
        // Just enough room.
        let count = leaving(needed);
        let whole = [&filled(2, count)[..], string].concat();
        assert_eq!(whole.len(), LONGEST_BODY);
        assert_relaid(2, &spread(2, count, &[string]), &[whole]);
        // One byte too few, and none at all.
        for room in [needed - 1, 0] {
            let count = leaving(room);
            assert_relaid(
                2,
                &spread(2, count, &[string]),
                &[filled(2, count), string.to_vec()],
            );
        }
    }
}

/// F7: characters fill a segment as far as whole ones go, and the next starts
/// with a flags byte.
#[test]
fn characters_fill_segments() {
    // A narrow string: one character in the SST, the others in the CONTINUE.
    let count = leaving(4);
    assert_relaid(
        2,
        &spread(2, count, &[&[3, 0, 0, b'b', b'c', b'd']]),
        &[
            [&filled(2, count)[..], &[3, 0, 0, b'b']].concat(),
            vec![0, b'c', b'd'],
        ],
    );
    // A wide string with room for one character or two leaves one byte free in
    // every other case.
    let wide = [3, 0, 1, 1, 3, 2, 3, 3, 3];
    for (room, characters) in [(5, 1), (6, 1), (7, 2), (8, 2)] {
        let count = leaving(room);
        let (here, there) = wide.split_at(3 + 2 * characters);
        assert_relaid(
            2,
            &spread(2, count, &[&wide]),
            &[
                [&filled(2, count)[..], here].concat(),
                [&[1], there].concat(),
            ],
        );
    }
    // 20,000 narrow characters: 8,213 in the SST, 8,223 and 3,564 after it.
    let [first, last] = [vec![b'a'; 8_213], vec![b'a'; 3_564]];
    let head = [0x20, 0x4E, 0];
    let old = [
        [&sst(1, &head)[..], &vec![b'a'; 8_000]].concat(),
        [&[0][..], &vec![b'a'; 4_000]].concat(),
        [&[0][..], &vec![b'a'; 8_000]].concat(),
    ];
    let new = [
        [&table_body(1, 1, &head)[..], &first].concat(),
        [&[0][..], &vec![b'a'; 8_223]].concat(),
        [&[0][..], &last].concat(),
    ];
    assert_relaid(1, &old, &new);
    // 10,000 wide ones: 4,106 in the SST, 4,111 and 1,783 after it.
    let wide = |count: usize| [0xA9, 3].repeat(count);
    let old = [
        [&sst(1, &[0x10, 0x27, 1])[..], &wide(2_000)].concat(),
        [&[1][..], &wide(4_000)].concat(),
        [&[1][..], &wide(4_000)].concat(),
    ];
    let new = [
        [&table_body(1, 1, &[0x10, 0x27, 1])[..], &wide(4_106)].concat(),
        [&[1][..], &wide(4_111)].concat(),
        [&[1][..], &wide(1_783)].concat(),
    ];
    assert_eq!([new[0].len(), new[1].len()], [8_223, 8_223]);
    assert_relaid(1, &old, &new);
}

/// F7: no run is cut, so up to three bytes stay free; no flags byte comes before
/// the runs that go on.
#[test]
fn runs_fill_segments() {
    let string = [1, 0, 8, 2, 0, b'b', 11, 12, 13, 14, 15, 16, 17, 18];
    for room in 6..=14 {
        let runs_here = (room - 6) / 4;
        let (here, there) = string.split_at(6 + 4 * runs_here);
        let count = leaving(room);
        let mut new = vec![[&filled(2, count)[..], here].concat()];
        if !there.is_empty() {
            new.push(there.to_vec());
        }
        assert_relaid(2, &spread(2, count, &[&string]), &new);
    }
}

/// F7: phonetic bytes go to a segment's last byte, also right after runs that
/// moved on, and the next string follows them.
#[test]
fn phonetic_bytes_fill_segments() {
    let string = [1, 0, 4, 3, 0, 0, 0, b'b', 21, 22, 23];
    let next = [1, 0, 0, b'c'];
    for room in 8..=10 {
        let (here, there) = string.split_at(room);
        let count = leaving(room);
        assert_relaid(
            3,
            &spread(3, count, &[&string, &next]),
            &[
                [&filled(3, count)[..], here].concat(),
                [there, &next].concat(),
            ],
        );
    }
    // The run has no room, so the two bytes left stay free, and the phonetic
    // bytes come after it.
    let string = [0, 0, 0x0C, 1, 0, 2, 0, 0, 0, 11, 12, 13, 14, 21, 22];
    let count = leaving(11);
    assert_relaid(
        2,
        &spread(2, count, &[&string]),
        &[
            [&filled(2, count)[..], &string[..9]].concat(),
            string[9..].to_vec(),
        ],
    );
    // More than a segment of them.
    let head = [0, 0, 4, 0x40, 0x1F, 0, 0];
    let half = [7; 4_000];
    assert_relaid(
        2,
        &[
            sst(2, &letters(1_000)),
            [&head[..], &half].concat(),
            half.to_vec(),
        ],
        &[
            [&filled(2, 1_000)[..], &head, &[7; 7_206]].concat(),
            vec![7; 794],
        ],
    );
}

/// F7: a table that ends where a segment is full has no empty CONTINUE.
#[test]
fn no_empty_segment() {
    let count = leaving(0);
    assert_relaid(1, &spread(1, count, &[]), &[filled(1, count)]);
    let two = count + LONGEST_BODY - 1;
    let string = letters(two);
    let (here, there) = string.split_at(LONGEST_BODY - 8);
    assert_relaid(
        1,
        &[
            sst(1, &string[..100]),
            [&[0], &string[100..8_300]].concat(),
            [&[0], &string[8_300..]].concat(),
        ],
        &[table_body(1, 1, here), [&[0], there].concat()],
    );
}

/// A stream of so many bytes, most of them zeros at its end, whose new stream is
/// longer by one: six narrow characters and a wide one in a CONTINUE take
/// 3 + 6 and 4 + 1 + 2 bytes, and seven wide ones 3 + 14.
fn growing_by_one(length: usize) -> Vec<u8> {
    let first = sst(1, &[7, 0, 0, b'a', b'b', b'c', b'd', b'e', b'f']);
    let mut stream = texts(&[first, vec![1, 0xA9, 3]], &[0]);
    stream.resize(length, 0);
    stream
}

/// F8: a new stream may be longer than the old, and then it may be too long.
#[test]
fn a_longer_result() {
    let stream = growing_by_one(1_000);
    let mut buffer = [OLD; 1_001];
    let answer = compact(&stream, &mut buffer);
    let written = 1_001;
    assert_eq!(answer, Ok(Compacted { written, freed: -1 }));
    let wide = [
        7, 0, 1, b'a', 0, b'b', 0, b'c', 0, b'd', 0, b'e', 0, b'f', 0, 0xA9, 3,
    ];
    let mut expected = texts(&[table_body(1, 1, &wide)], &[0]);
    expected.resize(1_001, 0);
    assert_eq!(buffer[..], expected);

    // Of the greatest length exactly, and over it by one byte, whatever the
    // buffer is.
    let mut buffer = vec![OLD; LONGEST_STREAM];
    let answer = compact(&growing_by_one(LONGEST_STREAM - 1), &mut buffer);
    let written = LONGEST_STREAM;
    assert_eq!(answer, Ok(Compacted { written, freed: -1 }));
    assert_uncompacted(&growing_by_one(LONGEST_STREAM), LONGEST_STREAM + 1, 1, 0);
    assert_uncompacted(&growing_by_one(LONGEST_STREAM), 0, 1, 0);
    assert_uncompacted(
        &growing_by_one(LONGEST_STREAM - 1),
        LONGEST_STREAM - 1,
        12,
        0,
    );
}

/// F9: the least stream there is; it is its own result.
#[test]
fn the_least_buffer() {
    let mut book = Book::globals();
    book.eof();
    assert_eq!(compacted(&book.bytes), book.bytes);
    assert_uncompacted(&book.bytes, 0, 12, 0);
    assert_uncompacted(&book.bytes, 23, 12, 0);
}

/// F10: without an SST none is written, but EXTSST and INDEX go and positions
/// move. An SST of no strings stays as one.
#[test]
fn a_stream_without_a_table() {
    let make = |all: bool, table: Option<Vec<u8>>| {
        let mut book = Book::globals();
        if all {
            book.record(EXTSST, &[1; 12]);
        }
        let boundsheet = book.boundsheet(0);
        if let Some(table) = table {
            book.record(SST, &table);
        }
        book.eof();
        let bof = book.bof(WORKSHEET);
        book.name(boundsheet, bof);
        if all {
            book.record(INDEX, &[2; 20]);
        }
        // Passed over here, and no table of this stream.
        book.record(SST, &[3; 3]);
        book.eof();
        book.bytes
    };
    assert_eq!(compacted(&make(true, None)), make(false, None));
    let [old, new] = [[0x77; 8], [0; 8]].map(|mut counts| {
        counts[4..].fill(0);
        Some(counts.to_vec())
    });
    assert_eq!(compacted(&make(true, old)), make(false, new));
}

/// F10 over the pair: a session without an SST keeps its indices, also where
/// they are the template's last; one with an SST gets a new one.
#[test]
fn sessions() {
    let strings = [1, 0, 0, b'a', 1, 0, 0, b'b', 1, 0, 0, b'c'];
    let template = texts(&[sst(3, &strings)], &[1]);
    let make = |all: bool, table: Option<Vec<u8>>, index: u32| {
        let mut book = Book::globals();
        let boundsheet = book.boundsheet(0);
        if let Some(table) = table {
            book.record(SST, &table);
        }
        if all {
            book.record(EXTSST, &[1; 12]);
            book.record(CONTINUE, &[1; 2]);
        }
        book.eof();
        let bof = book.bof(WORKSHEET);
        book.name(boundsheet, bof);
        if all {
            book.record(INDEX, &[2; 20]);
        }
        book.record(LABELSST, &label(0, index));
        book.eof();
        book.bytes
    };
    let over_pair = |session: &[u8]| {
        let ask = |buffer: &mut [u8]| compact_session(&template, session, buffer);
        let new = written(session, ask, Err(PairRefusal::Question(TOO_SHORT)));
        assert!(pair_check(&template, &new).is_ok());
        new
    };
    let old = make(true, None, 2);
    assert_eq!(over_pair(&old), make(false, None, 2));
    assert_eq!(over_pair(&make(false, None, 2)), make(false, None, 2));
    // Alone its index is refused.
    assert_eq!(compact(&old, &mut [OLD; 500]).unwrap_err().number, 9);

    let old = make(true, Some(sst(3, &strings)), 2);
    let new = make(false, Some(table_body(1, 1, &strings[8..])), 0);
    assert_eq!(over_pair(&old), new);
    assert_eq!(compacted(&old), new);
    // Its own table counts, even where the template has more strings.
    let beyond = make(false, Some(sst(1, &strings[..4])), 1);
    let answer = compact_session(&template, &beyond, &mut []);
    let Err(PairRefusal::Stream(Whose::Session, refusal)) = answer else {
        panic!("{answer:?}");
    };
    assert_eq!(refusal.number, 9);
}

/// F11: a DBCELL is not adjusted, not even where an INDEX stood among the rows
/// that it counts back over.
#[test]
fn other_pointers_stay() {
    let make = |all: bool| {
        one_sheet(WORKSHEET, 0, |book| {
            book.record(0x0208, &[0; 16]);
            book.record(BLANK, &[0; 6]);
            if all {
                book.record(INDEX, &[5; 16]);
            }
            book.record(BLANK, &[0; 6]);
            book.record(DBCELL, &[0x3C, 0, 0, 0, 0, 0]);
        })
        .bytes
    };
    assert_eq!(compacted(&make(true)), make(false));
}

fn word(stream: &[u8], at: usize) -> u16 {
    u16::from_le_bytes([stream[at], stream[at + 1]])
}

/// A stream's records as they should stay: without its table, EXTSST and INDEX,
/// with zeros for positions and for cells' indices, and the zeros at the end.
fn staying(stream: &[u8]) -> (Vec<(u16, Vec<u8>)>, &[u8]) {
    let mut records = Vec::new();
    let (mut at, mut depth, mut tops, mut sheet_kind) = (0, 0, 0, 0);
    let mut leaving_out = false;
    let word = |at| word(stream, at);
    while depth > 0 || stream[at..].iter().any(|&byte| byte != 0) {
        let (kind, size) = (word(at), usize::from(word(at + 2)));
        let mut body = stream[at + 4..at + 4 + size].to_vec();
        if kind == BOF {
            depth += 1;
            if depth == 1 {
                tops += 1;
                sheet_kind = word(at + 6);
            }
        }
        let globals = tops == 1;
        let goes = match kind {
            CONTINUE => leaving_out,
            SST | EXTSST => globals,
            INDEX => !globals && depth == 1,
            _ => false,
        };
        leaving_out = goes;
        match kind {
            BOUNDSHEET if globals => body[..4].fill(0),
            LABELSST if depth == 1 && sheet_kind == WORKSHEET => body[6..].fill(0),
            EOF => depth -= 1,
            _ => {}
        }
        if !goes {
            records.push((kind, body));
        }
        at += 4 + size;
    }
    (records, &stream[at..])
}

/// What holds of every stream that passes and of its new one.
#[track_caller]
fn assert_same_but_smaller(old: &[u8], new: &[u8]) {
    let counts = [check(old).unwrap(), check(new).unwrap()];
    assert_eq!(counts[0].sheets, counts[1].sheets);
    assert_eq!(counts[0].cells, counts[1].cells);
    assert!(staying(old) == staying(new));
    let [was, is] = [read(old).unwrap(), read(new).unwrap()];
    let mut used = BTreeSet::new();
    for (was_sheet, is_sheet) in was.sheets.iter().zip(&is.sheets) {
        assert_eq!(was_sheet.cells.len(), is_sheet.cells.len());
        for (before, after) in was_sheet.cells.iter().zip(&is_sheet.cells) {
            assert_eq!((before.row, before.column), (after.row, after.column));
            assert_eq!(before.format, after.format);
            match (before.value, after.value) {
                (Value::Text(before), Value::Text(after)) => {
                    let texts = (&was.strings[before as usize], &is.strings[after as usize]);
                    assert_eq!(texts.0, texts.1);
                    used.insert(before);
                }
                (before, after) => assert_eq!(before, after),
            }
        }
    }
    let kept = used.iter().map(|&index| &was.strings[index as usize]);
    assert!(kept.eq(&is.strings));
    // Where an address is there twice, the two can't be compared.
    match compare(old, old) {
        Ok(_) => assert_eq!(compare(old, new), Ok(Vec::new())),
        Err(refused) => assert_eq!(refused.refusal.number, 16),
    }
}

#[test]
fn made_streams_keep_what_they_show() {
    for seed in 0..3_000 {
        let old = streams::valid(seed);
        let new = compacted(&old);
        assert_same_but_smaller(&old, &new);
        assert!(compacted(&new) == new, "seed {seed} a second time");
    }
}

/// A stream as a session on itself: its own table is no longer one that is read,
/// so all its indices resolve in the template.
#[test]
fn made_sessions_keep_their_indices() {
    let mut texts = 0;
    for seed in 0..1_000 {
        let template = streams::valid(seed);
        let mut session = template.clone();
        hide_table(&mut session);
        let ask = |buffer: &mut [u8]| compact_session(&template, &session, buffer);
        let new = written(&session, ask, Err(PairRefusal::Question(TOO_SHORT)));
        assert!(staying(&session) == staying(&new));
        for sheet in 0..pair_check(&template, &session).unwrap() as u32 {
            let old_values = values(&template, &session, sheet);
            assert_eq!(old_values, values(&template, &new, sheet));
            let text = |value: &&Value| matches!(value, Value::Text(_));
            texts += old_values.iter().filter(text).count();
        }
    }
    assert!(texts > 1_000, "{texts}");
}

/// Makes the SST in the globals a record that is passed over.
fn hide_table(stream: &mut [u8]) {
    let mut at = 0;
    loop {
        let [kind, size] = [0, 2].map(|field| word(stream, at + field));
        match kind {
            SST => return stream[at..at + 2].copy_from_slice(&OTHER.to_le_bytes()),
            EOF => return,
            _ => at += 4 + usize::from(size),
        }
    }
}

/// The values of a sheet's cells, which must be the session's.
fn values(template: &[u8], session: &[u8], sheet: u32) -> Vec<Value> {
    let mut values = Vec::new();
    let whose = pair_cells(template, session, sheet, |cell| values.push(cell.value));
    assert_eq!(whose, Ok(Whose::Session));
    values
}

#[test]
fn made_streams_are_refused_as_by_the_check() {
    let mut refused = 0;
    for seed in 0..3_000 {
        let stream = streams::stream(seed);
        let mut buffer = [OLD; 16];
        let answer = compact(&stream, &mut buffer);
        let expected = check(&stream).err().unwrap_or(TOO_SHORT);
        assert_eq!(answer, Err(expected), "seed {seed}");
        assert_eq!(buffer, [OLD; 16]);
        refused += u32::from(expected.number != 12);
    }
    assert!((1_000..2_000).contains(&refused), "{refused}");
}

#[test]
fn large_streams_keep_what_they_show() {
    use streams::Big;
    for big in [Big::Mixed, Big::Texts, Big::EmptyStrings, Big::Reversed] {
        let old = streams::big(big, 300_000);
        let new = compacted(&old);
        assert_same_but_smaller(&old, &new);
        assert!(compacted(&new) == new);
    }
}

/// The stored stream, and what it is without its unused strings, put together by
/// hand after K13: alone, and as a session over a template.
#[test]
fn the_stored_stream() {
    let old = include_bytes!("../../../cases/unused-strings.in");
    let new = include_bytes!("../../../cases/used-strings.in");
    let template = include_bytes!("../../../cases/template.in");
    assert_eq!(compacted(old), new);
    assert_eq!(compacted(new), new);
    let ask = |buffer: &mut [u8]| compact_session(template, old, buffer);
    let session = written(old, ask, Err(PairRefusal::Question(TOO_SHORT)));
    assert_eq!(session, new);
}

/// Streams and sessions that are made for it: records that go and that stay, strings
/// of all widths and splits, used or not.
#[test]
fn made_for_it() {
    let mut grown = 0;
    for seed in 0..3_000 {
        let old = streams::valid_with_unused(seed);
        let new = compacted(&old);
        assert_same_but_smaller(&old, &new);
        assert!(compacted(&new) == new, "seed {seed} a second time");
        grown += u32::from(new.len() > old.len());
    }
    assert!(grown > 5, "{grown}");
    let mut own = 0;
    for seed in 0..3_000 {
        let streams::Pair { template, session } = streams::pair_with_unused(seed);
        if pair_check(&template, &session).is_err() {
            continue;
        }
        let ask = |buffer: &mut [u8]| compact_session(&template, &session, buffer);
        let new = written(&session, ask, Err(PairRefusal::Question(TOO_SHORT)));
        assert!(staying(&session) == staying(&new), "seed {seed}");
        let ask = |buffer: &mut [u8]| compact_session(&template, &new, buffer);
        let again = written(&new, ask, Err(PairRefusal::Question(TOO_SHORT)));
        assert!(again == new, "seed {seed} a second time");
        if check(&session).is_ok() {
            // It has strings of its own, or no text cell: then it is as alone.
            assert!(compacted(&session) == new, "seed {seed}");
            own += 1;
        }
    }
    assert!(own > 500, "{own}");
}
