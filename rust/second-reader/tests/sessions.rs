//! K12: the profile of a session, and the cadence between two rows.

mod common;

use common::*;
use second_reader::{cadence, profile, Between, Refusal};

fn refusal<T>(number: u8, offset: usize) -> Result<T, Refusal> {
    Err(Refusal { number, offset })
}

fn elapsed(ticks: u32, turns: u32, cadence: Option<u32>) -> Result<Between, Refusal> {
    Ok(Between::Elapsed {
        ticks,
        turns,
        cadence,
    })
}

/// The start of a cell record: row, column and a format.
fn start(row: u16, column: u16) -> Vec<u8> {
    [row.to_le_bytes(), column.to_le_bytes(), [3, 0]].concat()
}

fn number(book: &mut Book, row: u16, column: u16, number: f64) -> usize {
    let body = [&start(row, column)[..], &number.to_le_bytes()].concat();
    book.record(NUMBER, &body)
}

fn packed(book: &mut Book, row: u16, column: u16, word: u32) -> usize {
    let body = [&start(row, column)[..], &word.to_le_bytes()].concat();
    book.record(RK, &body)
}

/// A MULRK record.
fn packed_ones(book: &mut Book, row: u16, first: u16, words: &[u32]) -> usize {
    let mut body = [row.to_le_bytes(), first.to_le_bytes()].concat();
    for word in words {
        body.extend([3, 0]);
        body.extend(word.to_le_bytes());
    }
    body.extend((first + words.len() as u16 - 1).to_le_bytes());
    book.record(MULRK, &body)
}

/// The word of a whole number, undivided.
fn whole(number: u32) -> u32 {
    number << 2 | 2
}

/// A session whose records are made one by one; gives the stream and what the
/// maker gives.
fn made<A>(fill: impl FnOnce(&mut Book) -> A) -> (Vec<u8>, A) {
    let mut given = None;
    let sheet = one_sheet(WORKSHEET, 2, |book| given = Some(fill(book)));
    (sheet.bytes, given.expect("what the maker gives"))
}

/// A session of these rows in NUMBER records.
fn rows(rows: &[&[u32]]) -> Vec<u8> {
    let fill = |book: &mut Book| {
        for (row, numbers) in rows.iter().enumerate() {
            for (column, &value) in numbers.iter().enumerate() {
                number(book, row as u16, column as u16, f64::from(value));
            }
        }
    };
    made(fill).0
}

#[test]
fn e1_a_worksheet_without_cells() {
    let empty = rows(&[]);
    assert_eq!(profile(&empty), Ok(()));
    for row in [0, 1, 65_535] {
        assert_eq!(cadence(&empty, row), refusal(11, 0));
    }
}

#[test]
fn e2_two_columns_and_three() {
    assert_eq!(profile(&rows(&[&[1, 2]])), Ok(()));
    assert_eq!(profile(&rows(&[&[1, 2], &[3, 4], &[5, 6]])), Ok(()));
    assert_eq!(profile(&rows(&[&[1, 2, 3]])), Ok(()));
    assert_eq!(profile(&rows(&[&[1, 2, 3], &[4, 5, 6]])), Ok(()));
}

/// NUMBER cells of these addresses, and the number of the one at fault.
fn at_fault(addresses: &[(u16, u16)]) -> Option<usize> {
    let (stream, places) = made(|book| {
        let cell = |&(row, column): &(u16, u16)| number(book, row, column, 1.0);
        addresses.iter().map(cell).collect::<Vec<_>>()
    });
    let refusal = profile(&stream).err()?;
    assert_eq!(refusal.number, 20);
    let found = places.iter().position(|&at| at == refusal.offset);
    Some(found.expect("at a cell"))
}

#[test]
fn e2_the_first_cell_that_is_not_where_it_should_be() {
    assert_eq!(at_fault(&[(0, 0), (0, 1), (1, 0), (1, 1)]), None);
    // Not from row 0, not from column 0.
    assert_eq!(at_fault(&[(1, 0), (1, 1)]), Some(0));
    assert_eq!(at_fault(&[(0, 1), (0, 0)]), Some(0));
    // A gap between rows.
    assert_eq!(at_fault(&[(0, 0), (0, 1), (2, 0), (2, 1)]), Some(2));
    // Column 1 missing: at the cell after it.
    assert_eq!(at_fault(&[(0, 0), (1, 0), (1, 1)]), Some(1));
    assert_eq!(at_fault(&[(0, 0), (0, 1), (1, 0), (2, 0)]), Some(3));
    // Column 0 missing.
    assert_eq!(at_fault(&[(0, 0), (0, 1), (1, 1)]), Some(2));
    // By column and then by row.
    assert_eq!(at_fault(&[(0, 0), (1, 0), (0, 1), (1, 1)]), Some(1));
    // An address twice: the second.
    assert_eq!(at_fault(&[(0, 0), (0, 0), (0, 1)]), Some(1));
    assert_eq!(at_fault(&[(0, 0), (0, 1), (0, 1), (1, 0)]), Some(2));
    assert_eq!(at_fault(&[(0, 0), (0, 1), (1, 0), (1, 1), (0, 0)]), Some(4));
    // Column 3 and up.
    assert_eq!(at_fault(&[(0, 0), (0, 1), (0, 3)]), Some(2));
    assert_eq!(at_fault(&[(0, 0), (0, 1), (0, 2), (0, 3)]), Some(3));
    assert_eq!(at_fault(&[(0, 0), (0, 1), (0, 255)]), Some(2));
}

#[test]
fn e2_column_2_in_all_rows_or_in_none() {
    let three = [(0, 0), (0, 1), (0, 2), (1, 0), (1, 1), (1, 2)];
    assert_eq!(at_fault(&three), None);
    // In row 0, but not in row 1: at the cell after.
    let missing = [(0, 0), (0, 1), (0, 2), (1, 0), (1, 1), (2, 0), (2, 1)];
    assert_eq!(at_fault(&missing), Some(5));
    // Not in row 0, but in row 1.
    let more = [(0, 0), (0, 1), (1, 0), (1, 1), (1, 2)];
    assert_eq!(at_fault(&more), Some(4));
    // The other columns stay wanted.
    let none = [(0, 0), (0, 1), (0, 2), (1, 0), (1, 2)];
    assert_eq!(at_fault(&none), Some(4));
    assert_eq!(at_fault(&[(0, 0), (0, 2), (0, 1)]), Some(1));
}

#[test]
fn e2_at_the_header_of_the_record() {
    // Of a multiple record, whichever of its cells is at fault.
    for words in [[whole(1), whole(65_536)], [whole(65_536), whole(1)]] {
        let (stream, at) = made(|book| {
            packed_ones(book, 0, 0, &[whole(1), whole(1)]);
            packed_ones(book, 1, 0, &words)
        });
        assert_eq!(profile(&stream), refusal(20, at));
    }
    let (stream, at) = made(|book| packed_ones(book, 0, 0, &[whole(1); 4]));
    assert_eq!(profile(&stream), refusal(20, at));
    let (stream, at) = made(|book| {
        packed_ones(book, 0, 0, &[whole(1); 2]);
        packed_ones(book, 1, 0, &[whole(1); 3])
    });
    assert_eq!(profile(&stream), refusal(20, at));
    // Cells of one row in several records.
    let (stream, ()) = made(|book| {
        packed_ones(book, 0, 0, &[whole(1); 2]);
        packed(book, 0, 2, whole(9));
        number(book, 1, 0, 1.0);
        packed_ones(book, 1, 1, &[whole(1), whole(9)]);
    });
    assert_eq!(profile(&stream), Ok(()));
}

#[test]
fn e2_other_records() {
    let others: [(u16, Vec<u8>); 7] = [
        (BLANK, start(1, 0)),
        (MULBLANK, vec![1, 0, 0, 0, 3, 0, 3, 0, 1, 0]),
        (LABELSST, [&start(1, 0)[..], &[1, 0, 0, 0]].concat()),
        (BOOLERR, [&start(1, 0)[..], &[1, 0]].concat()),
        (BOOLERR, [&start(1, 0)[..], &[0x2A, 1]].concat()),
        (
            FORMULA,
            [&start(1, 0)[..], &1f64.to_le_bytes(), &[0; 8]].concat(),
        ),
        (
            FORMULA,
            [&start(1, 0)[..], &[3, 0, 0, 0, 0, 0, 0xFF, 0xFF], &[0; 8]].concat(),
        ),
    ];
    for (kind, body) in others {
        let (stream, at) = made(|book| {
            packed_ones(book, 0, 0, &[whole(1); 2]);
            let at = book.record(kind, &body);
            number(book, 1, 1, 1.0);
            at
        });
        assert_eq!(profile(&stream), refusal(20, at), "{kind:04X}");
    }
    // Also as the third cell, where it would open a third column.
    let (stream, at) = made(|book| {
        packed_ones(book, 0, 0, &[whole(1); 2]);
        book.record(BLANK, &start(0, 2))
    });
    assert_eq!(profile(&stream), refusal(20, at));
}

#[test]
fn e3_a_column_missing_in_the_last_row() {
    assert_eq!(profile(&rows(&[&[1]])), refusal(20, 0));
    assert_eq!(profile(&rows(&[&[1, 2], &[3]])), refusal(20, 0));
    assert_eq!(profile(&rows(&[&[1, 2, 3], &[4]])), refusal(20, 0));
    assert_eq!(profile(&rows(&[&[1, 2, 3], &[4, 5]])), refusal(20, 0));
}

#[test]
fn e4_sheets_first() {
    // No sheet.
    let mut book = Book::globals();
    book.eof();
    assert_eq!(profile(&book.bytes), refusal(20, 0));
    // Two sheets, whatever is in them.
    for second in [WORKSHEET, MACRO, CHART] {
        let mut book = Book::globals();
        let type_of = |kind| match kind {
            WORKSHEET => 0,
            MACRO => 1,
            _ => 2,
        };
        let entries = [book.boundsheet(0), book.boundsheet(type_of(second))];
        book.eof();
        let first_bof = book.bof(WORKSHEET);
        number(&mut book, 5, 5, 0.5);
        book.eof();
        let second_bof = book.empty(second);
        book.name(entries[0], first_bof);
        book.name(entries[1], second_bof);
        assert_eq!(profile(&book.bytes), refusal(20, 0));
    }
    // One that is no worksheet; its cells are not listed.
    for kind in [MACRO, CHART] {
        let sheet = one_sheet(kind, 0, |book| {
            number(book, 0, 0, 1.0);
        });
        assert_eq!(profile(&sheet.bytes), refusal(20, 0));
    }
}

#[test]
fn e4_what_is_not_judged() {
    let (mut stream, ()) = made(|book| {
        book.record(DIMENSIONS, &[0; 14]);
        book.record(OTHER, &[1, 2, 3]);
        book.record(CONTINUE, &[]);
        number(book, 0, 0, 1.0);
        // An inner chart is no sheet, and its cells are none.
        book.charts(2);
        number(book, 9, 9, 0.5);
        book.eof();
        book.eof();
        number(book, 0, 1, 2.0);
    });
    assert_eq!(profile(&stream), Ok(()));
    // The state and the name of the sheet: the BOUNDSHEET is the second record.
    stream[20 + 4 + 4] = 2;
    stream[20 + 4 + 8] = 0xFF;
    assert_eq!(profile(&stream), Ok(()));
    // Zeros after the last substream.
    stream.extend([0; 5]);
    assert_eq!(profile(&stream), Ok(()));
}

/// The answer to a session whose one row has these 64 bits in a column.
fn with_bits(column: u16, bits: u64) -> bool {
    let (stream, at) = made(|book| {
        let mut at = 0;
        for other in 0..3 {
            let value = f64::from_bits(if other == column { bits } else { 0 });
            let place = number(book, 0, other, value);
            if other == column {
                at = place;
            }
        }
        at
    });
    let answer = profile(&stream);
    assert!(answer == Ok(()) || answer == refusal(20, at));
    answer.is_ok()
}

#[test]
fn e5_whole_numbers_in_range() {
    for column in 0..3 {
        let with = |number: f64| with_bits(column, number.to_bits());
        for number in [0.0, 1.0, 255.0, 65_534.0, 65_535.0] {
            assert!(with(number));
        }
        for number in [
            -0.0,
            -1.0,
            0.5,
            65_534.5,
            1e-300,
            1e300,
            -1e300,
            4_294_967_296.0,
        ] {
            assert!(!with(number), "{number}");
        }
        for bits in [
            f64::INFINITY.to_bits(),
            f64::NEG_INFINITY.to_bits(),
            0x7FF8_0000_0000_0000,
            0xFFFF_FFFF_FFFF_FFFF,
            1,
        ] {
            assert!(!with_bits(column, bits), "{bits:016X}");
        }
        // Seconds go further.
        for number in [65_536.0, 4_294_967_295.0] {
            assert_eq!(with(number), column == 2);
        }
        assert!(!with(4_294_967_295.5));
    }
}

/// The answer to a session of one row with this RK word in column 0, in an RK
/// record and in a MULRK record.
fn with_word(word: u32) -> bool {
    let (single, at) = made(|book| {
        let at = packed(book, 0, 0, word);
        packed(book, 0, 1, whole(1));
        at
    });
    let (multiple, multiple_at) = made(|book| packed_ones(book, 0, 0, &[word, whole(1)]));
    let answer = profile(&single);
    assert!(answer == Ok(()) || answer == refusal(20, at));
    let wanted = answer.map_err(|_| Refusal {
        number: 20,
        offset: multiple_at,
    });
    assert_eq!(profile(&multiple), wanted);
    answer.is_ok()
}

#[test]
fn e5_packed_numbers_by_what_they_mean() {
    // Whole and undivided: 0, 1, 65,535, 65,536, -1.
    assert!(with_word(0x0000_0002));
    assert!(with_word(0x0000_0006));
    assert!(with_word(whole(65_535)));
    assert!(!with_word(whole(65_536)));
    assert!(!with_word(0xFFFF_FFFE));
    // Whole and divided: 100 means 1, 150 means 1.5, 6,553,500 means 65,535.
    assert!(with_word(100 << 2 | 3));
    assert!(!with_word(150 << 2 | 3));
    assert!(!with_word(1 << 2 | 3));
    assert!(with_word(6_553_500 << 2 | 3));
    assert!(!with_word(6_553_600 << 2 | 3));
    // Floats: 1, 0, minus zero, 0.5; 100 divided, 1 divided, minus zero divided.
    assert!(with_word(0x3FF0_0000));
    assert!(with_word(0x0000_0000));
    assert!(!with_word(0x8000_0000));
    assert!(!with_word(0x3FE0_0000));
    assert!(with_word(0x4059_0001));
    assert!(!with_word(0x3FF0_0001));
    assert!(!with_word(0x8000_0001));
    assert!(with_word(0x0000_0001));
}

#[test]
fn e6_the_check_first_then_20_then_11() {
    // A text index past the table is 9 before the cell is 20.
    let (stream, at) = made(|book| {
        number(book, 5, 5, 0.5);
        book.record(LABELSST, &[&start(0, 0)[..], &[2, 0, 0, 0]].concat())
    });
    assert_eq!(profile(&stream), refusal(9, at));
    assert_eq!(cadence(&stream, 0), refusal(9, at));
    assert_eq!(profile(&[]), refusal(3, 0));
    assert_eq!(cadence(&[], 9), refusal(3, 0));
    // 20 comes before 11.
    let (outside, at) = made(|book| number(book, 5, 5, 0.5));
    assert_eq!(profile(&outside), refusal(20, at));
    assert_eq!(cadence(&outside, 70_000), refusal(20, at));
    // Two rows have one pair.
    let two = rows(&[&[1, 2], &[3, 4]]);
    assert_eq!(cadence(&two, 0), elapsed(2, 2, Some(61_440)));
    for row in [1, 2, 65_534, 65_535, 65_536, u32::MAX] {
        assert_eq!(cadence(&two, row), refusal(11, 0), "{row}");
    }
    assert_eq!(cadence(&rows(&[&[1, 2]]), 0), refusal(11, 0));
}

#[test]
fn e6_as_many_rows_as_there_are() {
    let (stream, ()) = made(|book| {
        for row in 0..=65_535u16 {
            packed_ones(book, row, 0, &[whole(u32::from(row)), whole(7)]);
        }
    });
    assert_eq!(profile(&stream), Ok(()));
    assert_eq!(cadence(&stream, 65_534), elapsed(1, 0, Some(0)));
    assert_eq!(cadence(&stream, 65_535), refusal(11, 0));
    assert_eq!(cadence(&stream, 65_536), refusal(11, 0));
    // A cell after the last row of all has nowhere to be.
    let (stream, at) = made(|book| {
        for row in 0..=65_535u16 {
            packed_ones(book, row, 0, &[whole(u32::from(row)), whole(7)]);
        }
        number(book, 0, 0, 1.0)
    });
    assert_eq!(profile(&stream), refusal(20, at));
}

/// What lies between two rows of ticks and turns.
fn pair(earlier: [u32; 2], later: [u32; 2]) -> Result<Between, Refusal> {
    cadence(&rows(&[&earlier, &later]), 0)
}

#[test]
fn e7_elapsed_ticks_and_turns() {
    assert_eq!(pair([10, 20], [1_034, 21]), elapsed(1_024, 1, Some(60)));
    // Over the end of the counters.
    assert_eq!(pair([65_535, 65_535], [0, 0]), elapsed(1, 1, Some(61_440)));
    assert_eq!(pair([1, 2], [0, 1]), elapsed(65_535, 65_535, Some(61_440)));
    assert_eq!(pair([65_000, 7], [464, 8]), elapsed(1_000, 1, Some(61)));
    // Equal counts are 0, not 65,536.
    assert_eq!(pair([5, 5], [5, 5]), elapsed(0, 0, None));
    assert_eq!(pair([5, 5], [5, 9]), elapsed(0, 4, None));
    assert_eq!(pair([5, 5], [9, 5]), elapsed(4, 0, Some(0)));
}

#[test]
fn e7_cadence_is_rounded_down() {
    // 61,440 / 7 = 8,777 and 1 over; 61,440 / 61,441 is under 1.
    assert_eq!(pair([0, 0], [7, 1]), elapsed(7, 1, Some(8_777)));
    assert_eq!(pair([0, 0], [61_440, 1]), elapsed(61_440, 1, Some(1)));
    assert_eq!(pair([0, 0], [61_441, 1]), elapsed(61_441, 1, Some(0)));
    // 2 * 61,440 / 61,441 = 1 and 61,439 over.
    assert_eq!(pair([0, 0], [61_441, 2]), elapsed(61_441, 2, Some(1)));
    // The greatest, within 32 bits.
    let greatest = elapsed(1, 65_535, Some(4_026_470_400));
    assert_eq!(pair([0, 0], [1, 65_535]), greatest);
    assert_eq!(
        pair([0, 0], [65_535, 65_535]),
        elapsed(65_535, 65_535, Some(61_440))
    );
}

/// What lies between two rows with these seconds.
fn with_seconds(earlier: u32, later: u32) -> Result<Between, Refusal> {
    cadence(&rows(&[&[0, 0, earlier], &[1_024, 1, later]]), 0)
}

#[test]
fn e7_a_pause() {
    let no_pause = elapsed(1_024, 1, Some(60));
    for (earlier, later) in [
        (0, 0),
        (0, 63),
        (7, 7),
        (100, 163),
        (4_294_967_232, u32::MAX),
    ] {
        assert_eq!(with_seconds(earlier, later), no_pause, "{earlier} {later}");
    }
    for (earlier, later) in [
        (0, 64),
        (100, 164),
        (4_294_967_231, u32::MAX),
        (0, u32::MAX),
    ] {
        let answer = with_seconds(earlier, later);
        assert_eq!(answer, Ok(Between::Pause), "{earlier} {later}");
    }
    // The answer is the pause alone, also where no tick went by.
    let still = rows(&[&[5, 5, 0], &[5, 5, 64]]);
    assert_eq!(cadence(&still, 0), Ok(Between::Pause));
    // Each pair by its own seconds.
    let three = rows(&[&[0, 0, 0], &[1, 1, 64], &[2, 2, 65]]);
    assert_eq!(cadence(&three, 0), Ok(Between::Pause));
    assert_eq!(cadence(&three, 1), elapsed(1, 1, Some(61_440)));
}

#[test]
fn e7_seconds_that_fall() {
    let (stream, at) = made(|book| {
        packed_ones(book, 0, 0, &[whole(0), whole(0), whole(100)]);
        packed_ones(book, 1, 0, &[whole(0), whole(0), whole(100)]);
        packed_ones(book, 2, 0, &[whole(0), whole(0)]);
        number(book, 2, 2, 99.0)
    });
    assert_eq!(profile(&stream), refusal(20, at));
    assert_eq!(cadence(&stream, 0), refusal(20, at));
    // Over the end of no counter.
    assert_eq!(
        with_seconds(u32::MAX, 0).map_err(|refusal| refusal.number),
        Err(20)
    );
    // Ticks and turns may fall.
    assert_eq!(profile(&rows(&[&[9, 9, 1], &[8, 8, 1]])), Ok(()));
}

#[test]
fn e8_one_stream_alone() {
    // Without a string table its text cells are 9 before 20.
    let sheet = one_sheet(WORKSHEET, 0, |book| {
        book.record(LABELSST, &[&start(0, 0)[..], &[0; 4]].concat());
    });
    assert_eq!(profile(&sheet.bytes), refusal(9, sheet.first));
}
