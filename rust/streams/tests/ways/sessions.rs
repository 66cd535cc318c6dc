//! K12: the profile of a session, and the cadence between two rows.

use crate::Ways;
use second_reader::{cadence, profile, read, Between, Cell, Refusal, SheetType, Value};

/// Fewer than there are formulas: a session has more to read.
const SESSIONS: u64 = 60_000;

#[test]
fn sessions() {
    let mut ways = Ways::new(&[
        "no rows, taken",
        "one row, taken",
        "two columns, taken",
        "three columns, taken",
        "a NUMBER record, taken",
        "an RK record, a float, taken",
        "an RK record, a float divided, taken",
        "an RK record, a whole number, taken",
        "an RK record, a whole number divided, taken",
        "a MULRK record, taken",
        "a pause",
        "a pause of 64 seconds",
        "63 seconds and no pause",
        "no cadence",
        "a cadence of 0",
        "a cadence",
        "a cadence over 65,535",
        "ticks over the end",
        "turns over the end",
        "a row that is missing, 11",
        "the last row, 11",
        "a row over 65,535 that would be there in sixteen bits, 11",
        "no sheet, 20",
        "two sheets, 20",
        "a sheet of another type, 20",
        "a column missing in the last row, 20",
        "a gap between rows, 20",
        "a column missing, 20",
        "an address twice, 20",
        "column 2 where row 0 has none, 20",
        "column 3 and up, 20",
        "another order, 20",
        "another record, 20",
        "minus zero, 20",
        "a negative number, 20",
        "a fraction, 20",
        "a number over its greatest, 20",
        "no number, 20",
        "seconds that fall, 20",
        "a MULRK record, 20",
        "the check's refusal",
    ]);
    for seed in 0..SESSIONS {
        let stream = streams::session(seed);
        match profile(&stream) {
            Ok(()) => {
                meet_session(&mut ways, &stream);
                meet_pair(&mut ways, &stream, streams::session_row(seed, &stream));
            }
            Err(refusal) if refusal.number == 20 => meet_outside(&mut ways, &stream, refusal),
            Err(_) => ways.meet("the check's refusal"),
        }
    }
    ways.assert_met();
}

/// The cells of the one sheet.
fn cells(stream: &[u8]) -> Vec<Cell> {
    read(stream).expect("read").sheets.remove(0).cells
}

/// How many columns there are.
fn columns(cells: &[Cell]) -> usize {
    match cells.get(2) {
        Some(cell) if (cell.row, cell.column) == (0, 2) => 3,
        _ => 2,
    }
}

fn meet_session(ways: &mut Ways, stream: &[u8]) {
    let cells = cells(stream);
    match cells.len() / columns(&cells) {
        0 => ways.meet("no rows, taken"),
        1 => ways.meet("one row, taken"),
        _ => {}
    }
    if !cells.is_empty() {
        ways.meet(match columns(&cells) {
            2 => "two columns, taken",
            _ => "three columns, taken",
        });
    }
    for cell in &cells {
        let field = &stream[cell.value_field.clone()];
        let header = &stream[cell.value_field.start - 10..];
        ways.meet(match (field.len(), field[0] & 3) {
            (8, _) => "a NUMBER record, taken",
            _ if header[..4] != [0x7E, 0x02, 10, 0] => "a MULRK record, taken",
            (_, 0) => "an RK record, a float, taken",
            (_, 1) => "an RK record, a float divided, taken",
            (_, 2) => "an RK record, a whole number, taken",
            _ => "an RK record, a whole number divided, taken",
        });
    }
}

fn number(cell: &Cell) -> f64 {
    match cell.value {
        Value::Number(bits) => f64::from_bits(bits),
        _ => f64::NAN,
    }
}

fn meet_pair(ways: &mut Ways, stream: &[u8], row: u32) {
    let cells = cells(stream);
    let columns = columns(&cells);
    let rows = cells.len() / columns;
    let between = match cadence(stream, row) {
        Ok(between) => between,
        Err(refusal) => {
            assert_eq!(refusal, refused(11));
            let next = row as usize + 1;
            assert!(next >= rows);
            return ways.meet(match row {
                _ if next == rows => "the last row, 11",
                65_536.. if next % 65_536 < rows => {
                    "a row over 65,535 that would be there in sixteen bits, 11"
                }
                _ => "a row that is missing, 11",
            });
        }
    };
    let at = |row: u32, column: usize| number(&cells[row as usize * columns + column]);
    let more = |column| at(row + 1, column) - at(row, column);
    match between {
        Between::Pause => {
            assert!(more(2) >= 64.0);
            ways.meet("a pause");
            if more(2) == 64.0 {
                ways.meet("a pause of 64 seconds");
            }
        }
        Between::Elapsed { cadence, .. } => {
            if columns == 3 && more(2) == 63.0 {
                ways.meet("63 seconds and no pause");
            }
            if more(0) < 0.0 {
                ways.meet("ticks over the end");
            }
            if more(1) < 0.0 {
                ways.meet("turns over the end");
            }
            ways.meet(match cadence {
                None => "no cadence",
                Some(0) => "a cadence of 0",
                Some(0..=65_535) => "a cadence",
                Some(_) => "a cadence over 65,535",
            });
        }
    }
}

fn refused(number: u8) -> Refusal {
    Refusal { number, offset: 0 }
}

fn meet_outside(ways: &mut Ways, stream: &[u8], refusal: Refusal) {
    let sheets = read(stream).expect("read").sheets;
    let cells = match &sheets[..] {
        [] => {
            assert_eq!(refusal, refused(20));
            return ways.meet("no sheet, 20");
        }
        [only] if only.sheet_type == SheetType::Worksheet => &only.cells,
        [_] => {
            assert_eq!(refusal, refused(20));
            return ways.meet("a sheet of another type, 20");
        }
        _ => {
            assert_eq!(refusal, refused(20));
            return ways.meet("two sheets, 20");
        }
    };
    let columns = columns(cells);
    let at_fault =
        (0..cells.len()).find_map(|number| Some((number, fault(cells, number, columns)?)));
    let Some((number, name)) = at_fault else {
        assert_eq!(refusal, refused(20));
        return ways.meet("a column missing in the last row, 20");
    };
    ways.meet(name);
    // The cell stands in the record at the offset.
    let header = &stream[refusal.offset..refusal.offset + 4];
    let size = usize::from(u16::from_le_bytes([header[2], header[3]]));
    let body = refusal.offset + 4..refusal.offset + 4 + size;
    assert!(body.contains(&cells[number].value_field.start), "{name}");
    if header[..2] == [0xBD, 0x00] {
        ways.meet("a MULRK record, 20");
    }
}

/// What a cell breaks first, if anything.
fn fault(cells: &[Cell], number: usize, columns: usize) -> Option<&'static str> {
    let cell = &cells[number];
    let address = |cell: &Cell| (usize::from(cell.row), usize::from(cell.column));
    let (row, column) = address(cell);
    let wanted = (number / columns, number % columns);
    if (row, column) != wanted {
        let twice = cells[..number]
            .iter()
            .any(|other| address(other) == (row, column));
        return Some(match (row, column) {
            _ if twice => "an address twice, 20",
            (_, 3..) => "column 3 and up, 20",
            (_, 2) if columns == 2 && row + 1 == wanted.0 => "column 2 where row 0 has none, 20",
            (_, 0) if row > wanted.0 && wanted.1 == 0 => "a gap between rows, 20",
            (_, 0) if row > wanted.0 => "a column missing, 20",
            _ => "another order, 20",
        });
    }
    let value = match cell.value {
        Value::Number(bits) => f64::from_bits(bits),
        _ => return Some("another record, 20"),
    };
    let greatest = if column == 2 {
        4_294_967_295.0
    } else {
        65_535.0
    };
    match value {
        _ if !value.is_finite() => Some("no number, 20"),
        _ if value == 0.0 && value.is_sign_negative() => Some("minus zero, 20"),
        _ if value < 0.0 => Some("a negative number, 20"),
        _ if value.fract() != 0.0 => Some("a fraction, 20"),
        _ if value > greatest => Some("a number over its greatest, 20"),
        _ if column == 2 && row > 0 && value < self::number(&cells[number - 3]) => {
            Some("seconds that fall, 20")
        }
        _ => None,
    }
}
