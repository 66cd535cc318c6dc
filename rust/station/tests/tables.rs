//! String places kept in a table: filled once, fetched through in any order.

use station::{check, correct, fetch, fetch_through, fill, NewValue, Refusal};

/// Its SST is at 20; its three strings are `one`, `zwei` and one of no characters.
const CELLS: &[u8] = include_bytes!("../../../cases/cells.in");
const PLACES: [u32; 6] = [32, 20, 38, 20, 49, 20];
const NUMBER: u32 = 0x5555_5555;
const UNIT: u16 = 0x5555;
const NO_PLACE: u32 = 4_294_967_295;

fn refused<A>(number: u8, offset: usize) -> Result<A, Refusal> {
    Err(Refusal { number, offset })
}

/// The answer for a table of so many numbers, and the table after it.
fn filled(stream: &[u8], numbers: usize) -> (Result<u32, Refusal>, Vec<u32>) {
    let mut table = vec![NUMBER; numbers];
    let answer = fill(stream, &mut table);
    (answer, table)
}

#[test]
fn filling() {
    assert_eq!(filled(CELLS, 6), (Ok(3), PLACES.to_vec()));
    let longer = [&PLACES[..], &[NO_PLACE; 3]].concat();
    assert_eq!(filled(CELLS, 9), (Ok(3), longer));
    for short in 0..6 {
        assert_eq!(filled(CELLS, short), (refused(12, 0), vec![NUMBER; short]));
    }
    assert_eq!(filled(&[], 2), (refused(3, 0), vec![NUMBER; 2]));
    let table = check(CELLS).expect("a stream that passes").string_places();
    assert_eq!((table.table(), table.len()), (&PLACES[..], 3));
    assert!(!table.is_empty());
}

#[test]
fn no_strings() {
    let stream = include_bytes!("../../../cases/globals-alone.in");
    let table = check(stream).expect("a stream that passes").string_places();
    assert!(table.is_empty());
    assert_eq!(table.fetch(stream, 0, &mut [0; 4]), refused(11, 0));
    assert_eq!(filled(stream, 0), (Ok(0), vec![]));
    assert_eq!(filled(stream, 3), (Ok(0), vec![NO_PLACE; 3]));
}

#[test]
fn any_table() {
    let through = |table: &[u32], index| {
        let mut buffer = [UNIT; 5];
        (fetch_through(CELLS, table, index, &mut buffer), buffer)
    };
    let absent = (refused(11, 0), [UNIT; 5]);
    let zwei = (Ok(4), [0x7A, 0x77, 0x65, 0x69, UNIT]);
    assert_eq!(through(&PLACES, 1), zwei);
    assert_eq!(through(&PLACES, 3), absent);
    assert_eq!(through(&PLACES[..3], 1), absent);
    assert_eq!(through(&PLACES, 0x8000_0001), absent);
    for entry in [[NO_PLACE; 2], [20, 38], [38, 0], [52, 20], [23, 20]] {
        assert_eq!(through(&entry, 0), absent, "{entry:?}");
    }
    let mut short = [UNIT; 3];
    assert_eq!(fetch_through(CELLS, &PLACES, 1, &mut short), refused(12, 0));
    assert_eq!(short, [UNIT; 3]);
}

/// All strings of made streams, by their places in reverse order, as they are fetched one by one; after a correction too.
#[test]
fn of_made_streams() {
    let (mut seen, mut corrected) = (0, 0);
    let mut room = vec![0; station::LONGEST_STRING];
    let mut plain = room.clone();
    for seed in 0..400 {
        let mut stream = streams::valid(seed);
        let places = check(&stream).expect("a valid stream").string_places();
        let ask = streams::correction(seed, &stream);
        if let streams::NewValue::Number(number) = ask.value {
            let value = NewValue::Number(number);
            let granted = correct(&mut stream, ask.sheet, ask.row, ask.column, value);
            corrected += u32::from(granted.is_ok());
        }
        let after = check(&stream).expect("a valid stream").string_places();
        assert_eq!(places, after);
        for index in (0..places.len() as u32).rev().take(50) {
            let count = places.fetch(&stream, index, &mut room);
            assert_eq!(count, fetch(&stream, index, &mut plain));
            let count = count.expect("a string");
            assert_eq!(room[..count], plain[..count]);
            seen += 1;
        }
    }
    assert!(seen > 1_000 && corrected > 20, "{seen} {corrected}");
}
