//! Sessions as sensors write them: ticks, turns and perhaps seconds, row by row,
//! and sessions that break one of their rules.

use crate::cells::CellMaker;
use crate::damage;
use crate::record::{kind, Record};
use crate::rng::Rng;
use crate::workbook;

const COUNTER: usize = 65_536;

/// A cell before it is put into a record.
#[derive(Clone, Copy, Debug)]
struct Cell {
    row: u16,
    column: u16,
    value: Value,
}

#[derive(Clone, Copy, Debug)]
enum Value {
    Number(f64),
    /// In a record that no number stands in.
    Other,
}

/// A session of any sort: right, damaged as a session, or as a stream.
pub(crate) fn any(rng: &mut Rng) -> Vec<u8> {
    match rng.below(100) {
        0..=44 => right(rng),
        45..=91 => broken(rng),
        _ => {
            let cells = cells(rng);
            let records = records(rng, &cells);
            let book = workbook::around(rng, &[0], records);
            damage::damaged(rng, book)
        }
    }
}

/// A session that breaks no rule.
pub(crate) fn right(rng: &mut Rng) -> Vec<u8> {
    let cells = cells(rng);
    let records = records(rng, &cells);
    workbook::around(rng, &[0], records).write()
}

/// A session with one or two rules broken.
fn broken(rng: &mut Rng) -> Vec<u8> {
    let mut cells = cells(rng);
    let sheets: &[u8] = match rng.below(24) {
        0 => rng.pick(&[&[][..], &[1], &[2]]),
        1 => rng.pick(&[&[0, 0][..], &[0, 1], &[0, 2], &[2, 0]]),
        _ => &[0],
    };
    if sheets == [0] || rng.percent(30) {
        for _ in 0..rng.pick(&[1, 1, 1, 2]) {
            break_rule(rng, &mut cells);
        }
    }
    let records = records(rng, &cells);
    workbook::around(rng, sheets, records).write()
}

/// The cells of a right session.
fn cells(rng: &mut Rng) -> Vec<Cell> {
    let rows = match rng.below(10) {
        0 => rng.below(2),
        _ => rng.mostly_small(2, 40),
    };
    let columns = rng.pick(&[2, 3]);
    let mut counts = [rng.below(COUNTER), rng.below(COUNTER)];
    let mut seconds = match rng.below(8) {
        0 => u32::MAX as usize - rng.below(200),
        _ => rng.mostly_small(0, 1 << 31),
    };
    let mut cells = Vec::new();
    for row in 0..rows {
        for (column, &count) in (0..).zip(&counts) {
            cells.push(Cell {
                row: row as u16,
                column,
                value: Value::Number(count as f64),
            });
        }
        if columns == 3 {
            cells.push(Cell {
                row: row as u16,
                column: 2,
                value: Value::Number(seconds as f64),
            });
        }
        for count in &mut counts {
            *count = next_count(rng, *count);
        }
        seconds = next_seconds(rng, seconds);
    }
    cells
}

/// A counter goes on by a little, not at all, or anywhere, over its end too.
fn next_count(rng: &mut Rng, count: usize) -> usize {
    let more = match rng.below(8) {
        0 => 0,
        1 => rng.below(COUNTER),
        2 => rng.pick(&[1, 65_535, 61_440, 61_441]),
        _ => rng.mostly_small(0, 3_000),
    };
    (count + more) % COUNTER
}

/// Seconds don't fall; 64 of them are a pause.
fn next_seconds(rng: &mut Rng, seconds: usize) -> usize {
    let more = match rng.below(6) {
        0 => 0,
        1 => rng.pick(&[62, 63, 64, 65]),
        2 => rng.mostly_small(0, 1 << 30),
        _ => rng.below(10),
    };
    (seconds + more).min(u32::MAX as usize)
}

/// Numbers that are not whole, or not in range.
const BAD_NUMBERS: [f64; 12] = [
    -0.0,
    -1.0,
    0.5,
    0.01,
    65_535.5,
    65_536.0,
    4_294_967_295.5,
    4_294_967_296.0,
    1e300,
    f64::INFINITY,
    f64::NEG_INFINITY,
    f64::NAN,
];

fn break_rule(rng: &mut Rng, cells: &mut Vec<Cell>) {
    if cells.is_empty() {
        let cell = Cell {
            row: rng.below(2) as u16,
            column: rng.below(3) as u16,
            value: Value::Number(1.0),
        };
        return cells.push(cell);
    }
    let place = rng.below(cells.len());
    let row = cells[place].row;
    match rng.below(14) {
        0 => drop(cells.remove(place)),
        1 => drop(cells.pop()),
        2 => cells.insert(place + 1, cells[place]),
        3 => {
            let next = (place + 1) % cells.len();
            cells.swap(place, next);
        }
        4 => cells.retain(|cell| cell.row != row),
        5 => cells[place].row = cells[place].row.wrapping_add(rng.pick(&[1, 2, 0xFFFF])),
        6 => cells[place].column += rng.pick(&[1, 2, 3, 200]),
        7 => cells[place].value = Value::Other,
        8 => {
            // One more column in one row, or one less.
            let last = cells.iter().rposition(|cell| cell.row == row);
            let column = cells.iter().filter(|cell| cell.row == row).count() as u16;
            let number = rng.below(COUNTER) as f64;
            let more = Cell {
                row,
                column,
                value: Value::Number(number),
            };
            cells.insert(last.map_or(0, |last| last + 1), more);
        }
        9 => cells.retain(|cell| cell.row != row || cell.column != 2),
        10 => cells.sort_by_key(|cell| (cell.column, cell.row)),
        11 => {
            // Seconds that fall, where there are some.
            let seconds = cells.iter_mut().rev().find(|cell| cell.column == 2);
            if let Some(Cell {
                value: Value::Number(number),
                ..
            }) = seconds
            {
                *number = (*number - rng.pick(&[1.0, 70.0, 1e9])).max(0.0);
            }
        }
        _ => cells[place].value = Value::Number(rng.pick(&BAD_NUMBERS)),
    }
}

/// The RK words that mean a number, in each of the four forms.
fn words(number: f64) -> Vec<u32> {
    let mut words = Vec::new();
    for (meant, divided) in [(number, 0), (number * 100.0, 1)] {
        if divided == 1 && (meant / 100.0).to_bits() != number.to_bits() {
            continue;
        }
        let bits = meant.to_bits();
        // The lower 34 bits are clear.
        if meant.is_finite() && bits << 30 == 0 {
            words.push((bits >> 32) as u32 | divided);
        }
        let whole = meant as i32;
        // Thirty bits are enough.
        if f64::from(whole).to_bits() == bits && whole << 2 >> 2 == whole {
            words.push((whole as u32) << 2 | 2 | divided);
        }
    }
    words
}

/// The cells in records of any kind that they may stand in.
fn records(rng: &mut Rng, cells: &[Cell]) -> Vec<Record> {
    let joined_percent = rng.pick(&[0, 30, 90]);
    let mut records: Vec<Record> = Vec::new();
    for cell in cells {
        let column = cell.column;
        let start = [cell.row.to_le_bytes(), column.to_le_bytes()].concat();
        let format = rng.word().to_le_bytes();
        let words = match cell.value {
            Value::Number(number) => words(number),
            Value::Other => {
                records.push(other(rng, &start));
                continue;
            }
        };
        if words.is_empty() || rng.percent(20) {
            let Value::Number(number) = cell.value else {
                continue;
            };
            let body = [&start[..], &format, &number.to_le_bytes()].concat();
            records.push(Record::new(kind::NUMBER, body));
            continue;
        }
        let word = rng.pick(&words).to_le_bytes();
        if rng.percent(joined_percent) && joins(records.last(), cell) {
            let body = &mut records.last_mut().expect("the one it joins").body;
            body.truncate(body.len() - 2);
            body.extend([&format[..], &word, &column.to_le_bytes()].concat());
        } else if rng.percent(joined_percent) {
            let body = [&start[..], &format, &word, &column.to_le_bytes()].concat();
            records.push(Record::new(kind::MULRK, body));
        } else {
            let body = [&start[..], &format, &word].concat();
            records.push(Record::new(kind::RK, body));
        }
    }
    records
}

/// Whether a cell is the next one of a multiple record.
fn joins(last: Option<&Record>, cell: &Cell) -> bool {
    last.is_some_and(|record| {
        let body = &record.body;
        record.kind == kind::MULRK
            && body[..2] == cell.row.to_le_bytes()
            && body[body.len() - 2..] == cell.column.wrapping_sub(1).to_le_bytes()
    })
}

/// A record of another kind with this row and column.
fn other(rng: &mut Rng, start: &[u8]) -> Record {
    loop {
        let mut records = CellMaker::new(rng, 0, false).records(rng, 0);
        let single = [kind::BLANK, kind::BOOLERR, kind::FORMULA];
        if let [record] = &mut records[..] {
            if single.contains(&record.kind) {
                record.body[..4].copy_from_slice(start);
                return records.remove(0);
            }
        }
    }
}
