//! K11: the journal of granted corrections, and its replay in both directions.

mod common;

use common::*;
use second_reader::{
    check, correct, correct_journalled, replay, start_journal, Direction, NewValue, Refusal,
    Unreplayed,
};
use Direction::{Backwards, Forwards};
use NewValue::{Error, Number, Text, Truth};

const STRINGS: u32 = 3;
const TWO: [u8; 8] = [0, 0, 0, 0, 0, 0, 0, 0x40];
const NAN: [u8; 8] = [0, 0, 0, 0, 0, 0, 0xF8, 0x7F];

/// A workbook with every kind of cell: sheet 0 is a worksheet, sheet 1 a chart,
/// sheet 2 a worksheet with one number.
#[derive(Clone)]
struct Workbook {
    bytes: Vec<u8>,
    /// 1.0 in row 0, column 0.
    number: usize,
    /// 0x3FF00000, which is 1, in row 0, column 1.
    packed: usize,
    /// Index 1 in row 0, column 2.
    text: usize,
    /// True in row 0, column 3.
    truth: usize,
    /// The code 0x2A in row 0, column 4.
    error: usize,
    /// 2 in the whole-number form, 0x3FF00001 and 0 in row 1, columns 2 to 4.
    packed_ones: usize,
    /// 0.0 in row 0, column 0 of sheet 2.
    other: usize,
}

/// The places are those of the value fields. A blank stands in row 0, column 5,
/// a formula in column 6; row 2, column 0 has two cells.
fn workbook() -> Workbook {
    let mut book = Book::globals();
    let sheets = [0, 2, 0].map(|sheet_type| book.boundsheet(sheet_type));
    book.record(SST, &table_of(STRINGS));
    book.eof();
    let bof = book.bof(WORKSHEET);
    book.name(sheets[0], bof);
    let number = book.record(NUMBER, &[0, 0, 0, 0, 3, 0, 0, 0, 0, 0, 0, 0, 0xF0, 0x3F]);
    let packed = book.record(RK, &[0, 0, 1, 0, 3, 0, 0, 0, 0xF0, 0x3F]);
    let text = book.record(LABELSST, &[0, 0, 2, 0, 3, 0, 1, 0, 0, 0]);
    let truth = book.record(BOOLERR, &[0, 0, 3, 0, 3, 0, 1, 0]);
    let error = book.record(BOOLERR, &[0, 0, 4, 0, 3, 0, 0x2A, 1]);
    book.record(BLANK, &[0, 0, 5, 0, 3, 0]);
    let mut formula = vec![0, 0, 6, 0, 3, 0];
    formula.extend([0; 16]);
    book.record(FORMULA, &formula);
    let packed_ones = book.record(
        MULRK,
        &[
            1, 0, 2, 0, 3, 0, 10, 0, 0, 0, 3, 0, 1, 0, 0xF0, 0x3F, 3, 0, 0, 0, 0, 0, 4, 0,
        ],
    );
    book.record(NUMBER, &[2, 0, 0, 0, 3, 0, 0, 0, 0, 0, 0, 0, 0, 0]);
    book.record(BLANK, &[2, 0, 0, 0, 3, 0]);
    book.eof();
    let bof = book.empty(CHART);
    book.name(sheets[1], bof);
    let bof = book.bof(WORKSHEET);
    book.name(sheets[2], bof);
    let other = book.record(NUMBER, &[0, 0, 0, 0, 3, 0, 0, 0, 0, 0, 0, 0, 0, 0]);
    book.eof();
    Workbook {
        bytes: book.bytes,
        number: number + 10,
        packed: packed + 10,
        text: text + 10,
        truth: truth + 10,
        error: error + 10,
        packed_ones: packed_ones + 10,
        other: other + 10,
    }
}

fn refusal(number: u8, offset: usize) -> Refusal {
    Refusal { number, offset }
}

/// An entry with zeros after old bytes and new value.
fn entry(sheet: u32, row: u16, column: u16, kind: u16, old: &[u8], new: &[u8]) -> Vec<u8> {
    let mut bytes = sheet.to_le_bytes().to_vec();
    for word in [row, column, kind, old.len() as u16] {
        bytes.extend(word.to_le_bytes());
    }
    for field in [old, new] {
        bytes.extend(field);
        bytes.extend(vec![0; 8 - field.len()]);
    }
    assert_eq!(bytes.len(), 28);
    bytes
}

/// A journal for a stream of the workbook's length.
fn journal(entries: &[Vec<u8>]) -> Vec<u8> {
    let mut bytes = (entries.len() as u32).to_le_bytes().to_vec();
    bytes.extend([16, 0, 0, 0]);
    bytes.extend((workbook().bytes.len() as u32).to_le_bytes());
    bytes.extend([3, 0, 0, 0]);
    bytes.extend(entries.concat());
    bytes
}

/// The stream with other bytes in one place.
fn with(stream: &[u8], at: usize, bytes: &[u8]) -> Vec<u8> {
    let mut stream = stream.to_vec();
    stream[at..at + bytes.len()].copy_from_slice(bytes);
    stream
}

/// What a journalled correction answers, and that a refused one changes
/// nothing.
#[track_caller]
fn corrected(
    stream: &mut [u8],
    journal: &mut [u8],
    (sheet, row, column): (u32, u32, u32),
    value: NewValue,
) -> Result<(), Refusal> {
    let before = (stream.to_vec(), journal.to_vec());
    let answer = correct_journalled(stream, journal, sheet, row, column, value);
    if answer.is_err() {
        assert_eq!((stream.to_vec(), journal.to_vec()), before);
    }
    answer
}

/// What a replay answers, and the stream it leaves.
fn replayed(
    stream: &[u8],
    journal: &[u8],
    direction: Direction,
) -> (Result<u32, Unreplayed>, Vec<u8>) {
    let mut stream = stream.to_vec();
    let answer = replay(&mut stream, journal, direction);
    (answer, stream)
}

/// The number that one entry is refused with; 0 where it isn't. A refused one
/// changes nothing.
#[track_caller]
fn refused_entry(stream: &[u8], one: Vec<u8>, direction: Direction) -> u8 {
    let (answer, left) = replayed(stream, &journal(&[one]), direction);
    match answer {
        Ok(count) => {
            assert_eq!(count, 1);
            0
        }
        Err(Unreplayed::Stopped { number, entry }) => {
            assert_eq!(entry, 0);
            assert_eq!(left, stream);
            number
        }
        Err(Unreplayed::Refused(refusal)) => panic!("{refusal}"),
    }
}

/// What all three questions say to a journal that should get 21.
#[track_caller]
fn assert_malformed(stream: &[u8], journal: &[u8]) {
    let malformed = refusal(21, 0);
    for direction in [Forwards, Backwards] {
        let (answer, left) = replayed(stream, journal, direction);
        assert_eq!(answer, Err(Unreplayed::Refused(malformed)));
        assert_eq!(left, stream);
    }
    // Even where the correction would be refused for other reasons.
    for address in [(0, 0, 0), (7, 0, 0), (0, 2, 0), (0, 0, 5)] {
        let mut journal = journal.to_vec();
        let answer = corrected(&mut stream.to_vec(), &mut journal, address, Number(2.0));
        assert_eq!(answer, Err(malformed));
    }
}

#[test]
fn j1_starting() {
    let book = workbook();
    let length = (book.bytes.len() as u32).to_le_bytes();
    let expected = [&[0, 0, 0, 0, 16, 0, 0, 0][..], &length, &[3, 0, 0, 0]].concat();
    // Bytes after the header stay, and what was there is not looked at.
    for size in [16, 17, 44, 100] {
        let mut lent = vec![0xEE; size];
        assert_eq!(start_journal(&book.bytes, &mut lent), Ok(()));
        assert_eq!(lent[..16], expected);
        assert_eq!(lent[16..], vec![0xEE; size - 16]);
    }
    // A journal is started anew over an older one.
    let mut lent = journal(&[entry(0, 0, 0, 0, &[0; 8], &TWO)]);
    let rest = lent[16..].to_vec();
    assert_eq!(start_journal(&book.bytes, &mut lent), Ok(()));
    assert_eq!(lent, [expected, rest].concat());
}

#[test]
fn j1_refusals_of_starting() {
    let book = workbook();
    for size in [0, 1, 15] {
        let mut lent = vec![0xEE; size];
        assert_eq!(start_journal(&book.bytes, &mut lent), Err(refusal(12, 0)));
        assert_eq!(lent, vec![0xEE; size]);
    }
    // The check's come first.
    for size in [0, 15, 16, 44] {
        let mut lent = vec![0xEE; size];
        let cut = &book.bytes[..book.bytes.len() - 1];
        let offset = book.bytes.len() - 4;
        assert_eq!(start_journal(cut, &mut lent), Err(refusal(2, offset)));
        assert_eq!(start_journal(&[], &mut lent), Err(refusal(3, 0)));
        assert_eq!(lent, vec![0xEE; size]);
    }
}

#[test]
fn j1_the_unique_count() {
    // No SST, and one of no strings.
    let without = one_sheet(WORKSHEET, 0, |_| ()).bytes;
    let (empty, _) = table(&[&counts(0)]);
    let (five, _) = table(&[&table_of(5)]);
    for (stream, unique) in [(without, 0u8), (empty, 0), (five, 5)] {
        let mut lent = [0xEE; 16];
        assert_eq!(start_journal(&stream, &mut lent), Ok(()));
        assert_eq!(lent[12..], [unique, 0, 0, 0]);
    }
}

/// A correction (sheet, row and column, value), the entry it writes, and where
/// and what it writes to the stream.
type Correction = ((u32, u32, u32), NewValue, Vec<u8>, usize, Vec<u8>);

/// Nine corrections, to be made in this order.
fn corrections(book: &Workbook) -> Vec<Correction> {
    let one = [0, 0, 0, 0, 0, 0, 0xF0, 0x3F];
    let minus_one = [0, 0, 0, 0, 0, 0, 0xF0, 0xBF];
    vec![
        (
            (0, 0, 0),
            Number(2.0),
            entry(0, 0, 0, 0, &one, &TWO),
            book.number,
            TWO.to_vec(),
        ),
        // An f64 for a packed cell too.
        (
            (0, 0, 1),
            Number(2.0),
            entry(0, 0, 1, 0, &[0, 0, 0xF0, 0x3F], &TWO),
            book.packed,
            vec![0, 0, 0, 0x40],
        ),
        (
            (0, 0, 2),
            Text(2),
            entry(0, 0, 2, 1, &[1, 0, 0, 0], &[2]),
            book.text,
            vec![2, 0, 0, 0],
        ),
        // The kind as asked, whatever the cell holds.
        (
            (0, 0, 3),
            Error(0x07),
            entry(0, 0, 3, 3, &[1, 0], &[7]),
            book.truth,
            vec![7, 1],
        ),
        (
            (0, 0, 4),
            Truth(1),
            entry(0, 0, 4, 2, &[0x2A, 1], &[1]),
            book.error,
            vec![1, 0],
        ),
        (
            (0, 1, 3),
            Number(-1.0),
            entry(0, 1, 3, 0, &[1, 0, 0xF0, 0x3F], &minus_one),
            book.packed_ones + 6,
            vec![0, 0, 0xF0, 0xBF],
        ),
        (
            (2, 0, 0),
            Number(2.0),
            entry(2, 0, 0, 0, &[0; 8], &TWO),
            book.other,
            TWO.to_vec(),
        ),
        // A second correction of one cell.
        (
            (0, 0, 0),
            Number(-1.0),
            entry(0, 0, 0, 0, &TWO, &minus_one),
            book.number,
            minus_one.to_vec(),
        ),
        // One in the whole-number form: 536,870,911 is 0x41BFFFFFFF000000.
        (
            (0, 1, 2),
            Number(536_870_911.0),
            entry(
                0,
                1,
                2,
                0,
                &[10, 0, 0, 0],
                &[0, 0, 0, 0xFF, 0xFF, 0xFF, 0xBF, 0x41],
            ),
            book.packed_ones,
            vec![0xFE, 0xFF, 0xFF, 0x7F],
        ),
    ]
}

#[test]
fn j2_the_entries() {
    let book = workbook();
    let mut stream = book.bytes.clone();
    let mut lent = vec![0xEE; 16 + 28 * 9 + 5];
    start_journal(&stream, &mut lent).unwrap();
    let mut expected_stream = stream.clone();
    let mut entries = Vec::new();
    for (address, value, entry, at, bytes) in corrections(&book) {
        assert_eq!(
            corrected(&mut stream, &mut lent, address, value),
            Ok(()),
            "{address:?}"
        );
        entries.push(entry);
        expected_stream = with(&expected_stream, at, &bytes);
        assert_eq!(stream, expected_stream, "{address:?}");
        // All other journal bytes stay.
        let mut expected = journal(&entries);
        expected.resize(lent.len(), 0xEE);
        assert_eq!(lent, expected, "{address:?}");
    }
    assert!(check(&stream).is_ok());
}

#[test]
fn j3_no_room() {
    let book = workbook();
    for (room, entries) in [(0, 0), (27, 0), (28, 1), (55, 1), (56, 2)] {
        let mut stream = book.bytes.clone();
        let mut lent = vec![0xEE; 16 + room];
        start_journal(&stream, &mut lent).unwrap();
        for number in 0..3 {
            let answer = corrected(&mut stream, &mut lent, (0, 0, 0), Number(2.0));
            let expected = if number < entries {
                Ok(())
            } else {
                Err(refusal(12, 0))
            };
            assert_eq!(answer, expected, "{room} {number}");
        }
        assert_eq!(lent[..4], [entries as u8, 0, 0, 0]);
    }
}

#[test]
fn j3_12_stands_after_11_and_before_16() {
    let book = workbook();
    let answer = |room: usize, address, value| {
        let mut lent = vec![0xEE; 16 + room];
        start_journal(&book.bytes, &mut lent).unwrap();
        let answer = corrected(&mut book.bytes.clone(), &mut lent, address, value);
        answer.unwrap_err()
    };
    let absent = [
        (3, 0, 0),
        (1, 0, 0),
        (u32::MAX, 0, 0),
        (0, 3, 0),
        (0, 0, 7),
        (0, 65_536, 0),
        (0, 0, 65_536),
        (0, 0, 256),
        (2, 0, 1),
    ];
    for address in absent {
        assert_eq!(answer(27, address, Number(2.0)), refusal(11, 0));
        assert_eq!(answer(28, address, Number(2.0)), refusal(11, 0));
    }
    let refused = [
        ((0, 2, 0), Number(2.0), 16),
        ((0, 2, 0), Text(9), 16),
        ((0, 0, 0), Text(0), 17),
        ((0, 0, 1), Truth(9), 17),
        ((0, 0, 2), Number(f64::NAN), 17),
        ((0, 0, 3), Text(0), 17),
        ((0, 0, 5), Number(2.0), 17),
        ((0, 0, 6), Number(2.0), 17),
        ((0, 0, 0), Number(f64::INFINITY), 18),
        ((0, 0, 1), Number(0.1), 18),
        ((0, 0, 2), Text(3), 18),
        ((0, 0, 3), Truth(2), 18),
        ((0, 0, 3), Error(1), 18),
    ];
    for (address, value, number) in refused {
        assert_eq!(answer(27, address, value), refusal(12, 0), "{address:?}");
        assert_eq!(
            answer(28, address, value),
            refusal(number, 0),
            "{address:?}"
        );
    }
}

#[test]
fn j4_the_check_and_then_21() {
    let book = workbook();
    let empty_entries = journal(&[]);
    // A stream that the check refuses, with a journal that is cut.
    let mut bad = with(&book.bytes, book.error, &[1, 1]);
    let at = book.error - 10;
    let answer = corrected(&mut bad, &mut [], (0, 0, 0), Number(2.0));
    assert_eq!(answer, Err(refusal(6, at)));
    for direction in [Forwards, Backwards] {
        for lent in [&[][..], &empty_entries] {
            let (answer, left) = replayed(&bad, lent, direction);
            assert_eq!(answer, Err(Unreplayed::Refused(refusal(6, at))));
            assert_eq!(left, bad);
        }
    }
    // 21 before 11, 12, 16 and 17.
    assert_malformed(&book.bytes, &empty_entries[..15]);
}

#[test]
fn j5_cut_or_another_stream() {
    let book = workbook();
    let whole = journal(&[
        entry(0, 0, 0, 0, &[0; 8], &TWO),
        entry(0, 0, 1, 0, &[0; 4], &TWO),
    ]);
    for size in [0, 1, 15, 16, 43, 44, 71] {
        assert_malformed(&book.bytes, &whole[..size]);
    }
    // A count over what is there is 21 and never 12.
    for count in [3, 4, 1 << 31, u32::MAX, u32::MAX / 28 + 2] {
        assert_malformed(&book.bytes, &with(&whole, 0, &count.to_le_bytes()));
    }
    let none = journal(&[]);
    for (at, bytes) in [
        (4, [0, 0, 0, 0]),
        (4, [17, 0, 0, 0]),
        (4, [16, 0, 0, 1]),
        (12, [2, 0, 0, 0]),
        (12, [4, 0, 0, 0]),
        (12, [3, 0, 1, 0]),
    ] {
        assert_malformed(&book.bytes, &with(&none, at, &bytes));
        assert_malformed(&book.bytes, &with(&whole, at, &bytes));
    }
    // Another length, by one and in the upper half.
    let length = book.bytes.len() as u32;
    for other in [0, length - 1, length + 1, length | 1 << 16] {
        assert_malformed(&book.bytes, &with(&none, 8, &other.to_le_bytes()));
    }
    // The stream grew by zeros after its last substream.
    let longer = [&book.bytes[..], &[0]].concat();
    assert!(check(&longer).is_ok());
    assert_malformed(&longer, &none);
}

#[test]
fn j5_malformed_entries() {
    let book = workbook();
    let one = [0, 0, 0, 0, 0, 0, 0xF0, 0x3F];
    let good = entry(0, 0, 0, 0, &one, &TWO);
    let mut bad = Vec::new();
    for kind in [4u16, 5, 0x0100, 0xFFFF] {
        bad.push(entry(0, 0, 0, kind, &one, &[]));
        bad.push(entry(0, 0, 0, kind, &[1, 0], &[]));
    }
    for kind in 0..4u16 {
        let counts: &[u16] = match kind {
            0 => &[4, 8],
            1 => &[4],
            _ => &[2],
        };
        for count in (0..=9).chain([12, 16, 0x0104, 0x0200, 0xFFFF]) {
            let made = with(
                &entry(0, 0, 0, kind, &[], &[]),
                10,
                &u16::to_le_bytes(count),
            );
            if !counts.contains(&count) {
                bad.push(made);
                continue;
            }
            // Well-formed with zeros; each byte after the old ones counts, and
            // each after the new value.
            let new_size = [8, 4, 1, 1][usize::from(kind)];
            let after_old = 12 + usize::from(count)..20;
            for at in after_old.chain(20 + new_size..28) {
                bad.push(with(&made, at, &[1]));
            }
        }
    }
    for bad in bad {
        assert_malformed(&book.bytes, &journal(std::slice::from_ref(&bad)));
        // Judged before anything is replayed, wherever it stands.
        assert_malformed(&book.bytes, &journal(&[good.clone(), bad.clone()]));
        assert_malformed(&book.bytes, &journal(&[bad, good.clone()]));
    }
}

#[test]
fn j6_bytes_after_the_last_entry() {
    let book = workbook();
    let old = [0, 0, 0, 0, 0, 0, 0xF0, 0x3F];
    let whole = journal(&[entry(0, 0, 0, 0, &old, &TWO)]);
    let expected = with(&book.bytes, book.number, &TWO);
    for more in [1, 27, 28, 60] {
        let mut longer = whole.clone();
        longer.resize(whole.len() + more, 0xEE);
        let (answer, left) = replayed(&book.bytes, &longer, Forwards);
        assert_eq!((answer, &left), (Ok(1), &expected));
    }
    // An entry left over from an older journal isn't looked at.
    let mut older = with(&whole, 0, &[0]);
    let (answer, left) = replayed(&book.bytes, &older, Forwards);
    assert_eq!((answer, &left), (Ok(0), &book.bytes));
    older[24] = 0xFF;
    let mut stream = book.bytes.clone();
    let answer = corrected(&mut stream, &mut older, (0, 0, 0), Number(2.0));
    assert_eq!(answer, Ok(()));
    assert_eq!((stream, older), (expected, whole));
}

#[test]
fn j7_what_is_not_malformed() {
    let book = workbook();
    let old = [0, 0, 0, 0, 0, 0, 0xF0, 0x3F];
    let truth = [1, 0];
    // A column over 255, a sheet that isn't there, a truth of 7, an unknown
    // code, not-a-number, infinity.
    let entries = [
        (entry(0, 0, 256, 0, &old, &TWO), 11, 11),
        (entry(0, 0, 65_535, 0, &old, &TWO), 11, 11),
        (entry(3, 0, 0, 0, &old, &TWO), 11, 11),
        (entry(u32::MAX, 0, 0, 0, &old, &TWO), 11, 11),
        (entry(0, 0, 3, 2, &truth, &[7]), 18, 19),
        (entry(0, 0, 3, 3, &truth, &[8]), 18, 19),
        (entry(0, 0, 0, 0, &old, &NAN), 18, 19),
        (
            entry(0, 0, 0, 0, &old, &[1, 0, 0, 0, 0, 0, 0xF0, 0xFF]),
            18,
            19,
        ),
        (
            entry(0, 0, 0, 0, &old, &[0, 0, 0, 0, 0, 0, 0xF0, 0x7F]),
            18,
            19,
        ),
    ];
    for (entry, forwards, backwards) in entries {
        let refused = |direction| refused_entry(&book.bytes, entry.clone(), direction);
        assert_eq!(refused(Forwards), forwards, "{entry:?}");
        assert_eq!(refused(Backwards), backwards, "{entry:?}");
        // A correction goes on behind such an entry.
        let mut lent = journal(std::slice::from_ref(&entry));
        lent.resize(16 + 56, 0);
        let answer = corrected(&mut book.bytes.clone(), &mut lent, (0, 0, 0), Number(2.0));
        assert_eq!(answer, Ok(()));
    }
}

#[test]
fn j8_the_order_forwards() {
    let book = workbook();
    let one = [0, 0, 0, 0, 0, 0, 0xF0, 0x3F];
    let word = [0, 0, 0xF0, 0x3F];
    let tenth = 0.1f64.to_le_bytes();
    let cases = [
        // Sheets and cells that aren't there; a chart has none.
        (entry(1, 0, 0, 0, &one, &TWO), 11),
        (entry(0, 3, 0, 0, &one, &TWO), 11),
        (entry(2, 0, 1, 2, &[9, 9], &[9]), 11),
        // 16 before 17.
        (entry(0, 2, 0, 0, &[0; 8], &TWO), 16),
        (entry(0, 2, 0, 1, &[0; 4], &[0]), 16),
        // 17 before 19 and 18.
        (entry(0, 0, 0, 1, &[9; 4], &[9]), 17),
        (entry(0, 0, 2, 0, &[1, 0, 0, 0], &NAN), 17),
        (entry(0, 0, 2, 2, &[9, 9], &[9]), 17),
        (entry(0, 0, 3, 0, &[9; 8], &NAN), 17),
        (entry(0, 0, 5, 2, &[3, 0], &[1]), 17),
        (entry(0, 0, 5, 0, &[9; 8], &TWO), 17),
        (entry(0, 0, 6, 0, &[0; 8], &TWO), 17),
        // 19 before 18: an old byte count that isn't the field's.
        (entry(0, 0, 0, 0, &word, &TWO), 19),
        (entry(0, 0, 0, 0, &one[..4], &TWO), 19),
        (entry(0, 0, 1, 0, &one, &TWO), 19),
        (entry(0, 0, 1, 0, &[0, 0, 0xF0, 0x3F, 0, 0, 0, 0], &TWO), 19),
        (entry(0, 1, 4, 0, &[0; 8], &TWO), 19),
        // Old bytes that differ, in the first byte or the last.
        (entry(0, 0, 0, 0, &[1, 0, 0, 0, 0, 0, 0xF0, 0x3F], &TWO), 19),
        (entry(0, 0, 0, 0, &[0, 0, 0, 0, 0, 0, 0xF0, 0xBF], &NAN), 19),
        (entry(0, 0, 1, 0, &[4, 0, 0xF0, 0x3F], &tenth), 19),
        (entry(0, 0, 2, 1, &[2, 0, 0, 0], &[3]), 19),
        (entry(0, 0, 3, 2, &[0, 0], &[2]), 19),
        (entry(0, 0, 3, 2, &[1, 1], &[1]), 19),
        (entry(0, 0, 4, 3, &[0x2A, 0], &[1]), 19),
        // Bytes and not values: 2 stands here in the whole-number form.
        (entry(0, 1, 2, 0, &[0, 0, 0, 0x40], &TWO), 19),
        // 18.
        (entry(0, 0, 0, 0, &one, &NAN), 18),
        (entry(0, 0, 1, 0, &word, &tenth), 18),
        (entry(0, 0, 2, 1, &[1, 0, 0, 0], &[3]), 18),
        (entry(0, 0, 3, 2, &[1, 0], &[2]), 18),
        (entry(0, 0, 4, 3, &[0x2A, 1], &[1]), 18),
    ];
    for (entry, number) in cases {
        let refused = refused_entry(&book.bytes, entry.clone(), Forwards);
        assert_eq!(refused, number, "{entry:?}");
    }
    // Old bytes of a divided word, which no correction writes, are fine.
    let divided = entry(0, 1, 3, 0, &[1, 0, 0xF0, 0x3F], &TWO);
    assert_eq!(refused_entry(&book.bytes, divided, Forwards), 0);
}

#[test]
fn j8_earlier_entries_stay_made() {
    let book = workbook();
    let one = [0, 0, 0, 0, 0, 0, 0xF0, 0x3F];
    let entries = [
        entry(0, 0, 0, 0, &one, &TWO),
        entry(0, 0, 2, 1, &[1, 0, 0, 0], &[0]),
        // What stood there before entry 0.
        entry(0, 0, 0, 0, &one, &TWO),
        entry(2, 0, 0, 0, &[0; 8], &TWO),
    ];
    let (answer, left) = replayed(&book.bytes, &journal(&entries), Forwards);
    let stopped = Unreplayed::Stopped {
        number: 19,
        entry: 2,
    };
    assert_eq!(answer, Err(stopped));
    let expected = with(&book.bytes, book.number, &TWO);
    assert_eq!(left, with(&expected, book.text, &[0, 0, 0, 0]));
}

#[test]
fn j9_the_order_backwards() {
    let book = workbook();
    let one = [0, 0, 0, 0, 0, 0, 0xF0, 0x3F];
    let old = [9, 9, 9, 9, 9, 9, 9, 9];
    let word = [0, 0, 0xF0, 0x3F];
    // These bytes mean nothing in a packed cell.
    let nothing = [0, 0, 0xF0, 0x7F];
    let cases = [
        (entry(1, 0, 0, 0, &old, &one), 11),
        (entry(0, 3, 0, 0, &old, &NAN), 11),
        (entry(0, 2, 0, 0, &old, &[0; 8]), 16),
        (entry(0, 2, 0, 1, &old[..4], &[0]), 16),
        (entry(0, 0, 0, 1, &old[..4], &[0]), 17),
        (entry(0, 0, 2, 2, &[9, 9], &[9]), 17),
        (entry(0, 0, 5, 2, &[9, 9], &[9]), 17),
        (entry(0, 0, 6, 0, &[0; 8], &[0; 8]), 17),
        // The old byte count.
        (entry(0, 0, 0, 0, &word, &one), 19),
        (entry(0, 0, 1, 0, &one, &one), 19),
        (entry(0, 0, 1, 0, &[0; 8], &one), 19),
        // A new value that doesn't fit.
        (entry(0, 0, 0, 0, &one, &NAN), 19),
        (entry(0, 0, 1, 0, &word, &0.1f64.to_le_bytes()), 19),
        (entry(0, 0, 2, 1, &[1, 0, 0, 0], &[3]), 19),
        (entry(0, 0, 3, 2, &[1, 0], &[2]), 19),
        (entry(0, 0, 4, 3, &[0x2A, 1], &[1]), 19),
        // The field isn't what the new value writes.
        (entry(0, 0, 0, 0, &one, &TWO), 19),
        (entry(0, 0, 1, 0, &nothing, &TWO), 19),
        (entry(0, 0, 2, 1, &[9, 0, 0, 0], &[2]), 19),
        (entry(0, 0, 3, 2, &[9, 9], &[0]), 19),
        // A truth of 1 and an error's code are other bytes.
        (entry(0, 0, 3, 3, &[1, 0], &[0]), 19),
        (entry(0, 0, 4, 2, &[0x2A, 1], &[1]), 19),
        // 2 in the whole-number form, where the float form would be written.
        (entry(0, 1, 2, 0, &[10, 0, 0, 0], &TWO), 19),
        // A divided word, which no new value writes.
        (
            entry(0, 1, 3, 0, &[1, 0, 0xF0, 0x3F], &0.01f64.to_le_bytes()),
            19,
        ),
        // Old bytes that the check wouldn't pass.
        (entry(0, 0, 1, 0, &nothing, &one), 18),
        (entry(0, 0, 1, 0, &[1, 0, 0xF0, 0xFF], &one), 18),
        (entry(0, 0, 2, 1, &[3, 0, 0, 0], &[1]), 18),
        (entry(0, 0, 2, 1, &[0xFF; 4], &[1]), 18),
        (entry(0, 0, 3, 2, &[2, 0], &[1]), 18),
        (entry(0, 0, 3, 2, &[1, 1], &[1]), 18),
        (entry(0, 0, 3, 2, &[0, 2], &[1]), 18),
        (entry(0, 0, 4, 3, &[0x2A, 0], &[0x2A]), 18),
    ];
    for (entry, number) in cases {
        let refused = refused_entry(&book.bytes, entry.clone(), Backwards);
        assert_eq!(refused, number, "{entry:?}");
    }
}

#[test]
fn j9_what_is_written_backwards() {
    let book = workbook();
    let one = [0, 0, 0, 0, 0, 0, 0xF0, 0x3F];
    let cases: [(Vec<u8>, usize, &[u8]); 9] = [
        // Any bits go to a NUMBER, not-a-number included.
        (entry(0, 0, 0, 0, &NAN, &one), book.number, &NAN),
        (entry(0, 0, 0, 0, &[9; 8], &one), book.number, &[9; 8]),
        // Any word that means something: divided, whole.
        (
            entry(0, 0, 1, 0, &[1, 0, 0xF0, 0x3F], &one),
            book.packed,
            &[1, 0, 0xF0, 0x3F],
        ),
        (
            entry(0, 0, 1, 0, &[2, 0, 0xF0, 0x7F], &one),
            book.packed,
            &[2, 0, 0xF0, 0x7F],
        ),
        (
            entry(0, 1, 4, 0, &[10, 0, 0, 0], &[0; 8]),
            book.packed_ones + 12,
            &[10, 0, 0, 0],
        ),
        (
            entry(0, 0, 2, 1, &[2, 0, 0, 0], &[1]),
            book.text,
            &[2, 0, 0, 0],
        ),
        // Old bytes of the other kind.
        (entry(0, 0, 3, 2, &[0x2A, 1], &[1]), book.truth, &[0x2A, 1]),
        (entry(0, 0, 4, 3, &[0, 0], &[0x2A]), book.error, &[0, 0]),
        (entry(0, 0, 4, 3, &[0, 1], &[0x2A]), book.error, &[0, 1]),
    ];
    for (entry, at, bytes) in cases {
        let (answer, left) = replayed(&book.bytes, &journal(&[entry]), Backwards);
        assert_eq!(answer, Ok(1));
        assert_eq!(left, with(&book.bytes, at, bytes));
        assert!(check(&left).is_ok());
    }
}

#[test]
fn j10_the_number_counts_in_the_journals_order() {
    let book = workbook();
    let one = [0, 0, 0, 0, 0, 0, 0xF0, 0x3F];
    let entries = [
        entry(0, 0, 2, 1, &[0, 0, 0, 0], &[1]),
        // Doesn't hold.
        entry(0, 0, 3, 2, &[1, 0], &[0]),
        entry(0, 0, 0, 0, &TWO, &one),
        entry(2, 0, 0, 0, &one, &[0; 8]),
    ];
    let (answer, left) = replayed(&book.bytes, &journal(&entries), Backwards);
    let stopped = Unreplayed::Stopped {
        number: 19,
        entry: 1,
    };
    assert_eq!(answer, Err(stopped));
    // The entries after it stay undone, the one before it isn't touched.
    let expected = with(&book.bytes, book.other, &one);
    assert_eq!(left, with(&expected, book.number, &TWO));
    // The last entry is the first to be refused.
    let both = [entry(9, 0, 0, 0, &one, &TWO), entry(9, 0, 0, 0, &one, &TWO)];
    for (direction, entry) in [(Forwards, 0), (Backwards, 1)] {
        let (answer, left) = replayed(&book.bytes, &journal(&both), direction);
        let number = 11;
        assert_eq!(answer, Err(Unreplayed::Stopped { number, entry }));
        assert_eq!(left, book.bytes);
    }
}

#[test]
fn j11_a_correction_that_changes_no_byte() {
    let book = workbook();
    let one = [0, 0, 0, 0, 0, 0, 0xF0, 0x3F];
    let mut stream = book.bytes.clone();
    let mut lent = vec![0xEE; 16 + 56];
    start_journal(&stream, &mut lent).unwrap();
    let same = [((0, 0, 0), Number(1.0)), ((0, 0, 2), Text(1))];
    for (address, value) in same {
        assert_eq!(corrected(&mut stream, &mut lent, address, value), Ok(()));
    }
    assert_eq!(stream, book.bytes);
    let entries = [
        entry(0, 0, 0, 0, &one, &one),
        entry(0, 0, 2, 1, &[1, 0, 0, 0], &[1]),
    ];
    assert_eq!(lent, journal(&entries));
    for direction in [Forwards, Backwards] {
        let (answer, left) = replayed(&stream, &lent, direction);
        assert_eq!((answer, &left), (Ok(2), &stream));
    }
}

#[test]
fn j14_a_journal_of_no_entries() {
    let book = workbook();
    let none = journal(&[]);
    for direction in [Forwards, Backwards] {
        let (answer, left) = replayed(&book.bytes, &none, direction);
        assert_eq!((answer, &left), (Ok(0), &book.bytes));
    }
    // Of a stream without sheets too.
    let mut stream = Book::globals();
    stream.eof();
    let mut lent = [0xEE; 16];
    assert_eq!(start_journal(&stream.bytes, &mut lent), Ok(()));
    let expected = [0, 0, 0, 0, 16, 0, 0, 0, 24, 0, 0, 0, 0, 0, 0, 0];
    assert_eq!(lent, expected);
    assert_eq!(replay(&mut stream.bytes, &lent, Forwards), Ok(0));
}

/// That 1 to 10 and 21 change nothing stands under J4 and J5; that earlier
/// entries stay, under J8 and J10. A stop at the first entry changes nothing.
#[test]
fn j15_a_stop_at_the_first_entry() {
    let book = workbook();
    let one = [0, 0, 0, 0, 0, 0, 0xF0, 0x3F];
    let good = entry(0, 0, 0, 0, &one, &one);
    let bad = entry(0, 0, 0, 0, &one, &NAN);
    for (entries, direction, number) in [
        ([bad.clone(), good.clone()], Forwards, 18),
        ([good, bad], Backwards, 19),
    ] {
        let (answer, left) = replayed(&book.bytes, &journal(&entries), direction);
        let entry = u32::from(direction == Backwards);
        assert_eq!(answer, Err(Unreplayed::Stopped { number, entry }));
        assert_eq!(left, book.bytes);
    }
}

#[test]
fn j16_there_and_back() {
    let book = workbook();
    let mut stream = book.bytes.clone();
    let mut plain = book.bytes.clone();
    let mut lent = vec![0xEE; 16 + 28 * 9];
    start_journal(&stream, &mut lent).unwrap();
    for (number, (address, value, ..)) in corrections(&book).into_iter().enumerate() {
        // Refused ones in between leave no entry.
        let answer = corrected(&mut stream, &mut lent, (0, 0, 5), Truth(1));
        assert_eq!(answer, Err(refusal(17, 0)));
        assert_eq!(corrected(&mut stream, &mut lent, address, value), Ok(()));
        // The stream is what a correction without a journal leaves.
        let (sheet, row, column) = address;
        correct(&mut plain, sheet, row, column, value).unwrap();
        assert_eq!(stream, plain);
        let count = number as u32 + 1;
        let (answer, left) = replayed(&book.bytes, &lent, Forwards);
        assert_eq!((answer, &left), (Ok(count), &stream));
        let (answer, left) = replayed(&stream, &lent, Backwards);
        assert_eq!((answer, &left), (Ok(count), &book.bytes));
    }
    // On the wrong end the first entry that matters stops it: forwards entry 0
    // finds its new value, backwards entry 8 its old bytes.
    let stopped = |entry| Err(Unreplayed::Stopped { number: 19, entry });
    assert_eq!(replayed(&stream, &lent, Forwards).0, stopped(0));
    assert_eq!(replayed(&book.bytes, &lent, Backwards).0, stopped(8));
}

/// Many entries over many cells cost one pass over the cells.
#[test]
fn many_entries_on_many_cells() {
    let rows = 20_000u16;
    let sheet = one_sheet(WORKSHEET, 0, |book| {
        for row in 0..rows {
            let [low, high] = row.to_le_bytes();
            book.record(RK, &[low, high, 0, 0, 3, 0, 0, 0, 0, 0]);
        }
    });
    let mut lent = vec![0; 16];
    start_journal(&sheet.bytes, &mut lent).unwrap();
    lent[..4].copy_from_slice(&u32::from(rows).to_le_bytes());
    for row in 0..rows {
        lent.extend(entry(0, row, 0, 0, &[0; 4], &TWO));
    }
    let (answer, left) = replayed(&sheet.bytes, &lent, Forwards);
    assert_eq!(answer, Ok(u32::from(rows)));
    let (answer, back) = replayed(&left, &lent, Backwards);
    assert_eq!(answer, Ok(u32::from(rows)));
    assert!(left != sheet.bytes && back == sheet.bytes);
}
