//! A revision written down: of all the ways to write the same thing one at
//! random.

use super::revision::{Cell, Revision, Sheet, Stored, Value};
use crate::formula;
use crate::record::{bof, kind, Book, Record, Tie, LONGEST_BODY};
use crate::rng::Rng;
use crate::text_results;
use std::collections::HashMap;

/// In which order a sheet's cells are written.
#[derive(Clone, Copy, Debug, PartialEq, Eq)]
pub(super) enum Order {
    Ascending,
    RowsReversed,
    Any,
}

pub(super) fn write(rng: &mut Rng, revision: &Revision, order: Order) -> Book {
    let mut book = Book::default();
    book.push(Record::bof(rng, bof::GLOBALS, Tie::None));
    let table = Table::of(rng, revision);
    let table_after = rng.below(revision.sheets.len() + 1);
    // For each sheet its place in the stream.
    let mut places: Vec<usize> = (0..revision.sheets.len()).collect();
    if rng.percent(30) {
        rng.shuffle(&mut places);
    }
    let (before, after) = revision.sheets.split_at(table_after);
    let mut named = places.iter();
    for (sheet, place) in before.iter().zip(named.by_ref()) {
        book.push(boundsheet(rng, sheet, *place));
    }
    table.push_to(&mut book);
    for (sheet, place) in after.iter().zip(named) {
        book.push(boundsheet(rng, sheet, *place));
    }
    book.push(Record::eof());
    for place in 0..places.len() {
        let number = places.iter().position(|&its| its == place);
        if let Some(sheet) = number.map(|number| &revision.sheets[number]) {
            push_sheet(rng, &mut book, sheet, place, &table, order);
        }
    }
    if rng.percent(20) {
        book.tail = vec![0; rng.below(9)];
    }
    book.name_sheets();
    book
}

fn is_narrow(units: &[u16]) -> bool {
    units.iter().all(|&unit| unit < 256)
}

fn append_units(bytes: &mut Vec<u8>, units: &[u16], wide: bool) {
    for unit in units {
        let [low, high] = unit.to_le_bytes();
        bytes.push(low);
        if wide {
            bytes.push(high);
        }
    }
}

fn boundsheet(rng: &mut Rng, sheet: &Sheet, place: usize) -> Record {
    let wide = !is_narrow(&sheet.name) || rng.percent(40);
    let flags = rng.byte() & !1 | u8::from(wide);
    let length = sheet.name.len() as u8;
    let mut body = vec![0, 0, 0, 0, rng.byte(), sheet.sheet_type, length, flags];
    append_units(&mut body, &sheet.name, wide);
    Record::tied(kind::BOUNDSHEET, body, Tie::Names(place))
}

/// The body of a record and of the CONTINUEs after it.
struct Segments {
    bodies: Vec<Vec<u8>>,
    break_percent: usize,
}

impl Segments {
    fn start(rng: &mut Rng, body: Vec<u8>) -> Self {
        Segments {
            bodies: vec![body],
            break_percent: rng.pick(&[0, 0, 5, 30]),
        }
    }

    fn body(&mut self) -> &mut Vec<u8> {
        self.bodies.last_mut().expect("the record itself")
    }

    fn room(&mut self) -> usize {
        LONGEST_BODY - self.body().len()
    }

    fn make_room(&mut self, rng: &mut Rng, size: usize) {
        let ends = self.room() < size || rng.percent(self.break_percent);
        if ends && !self.body().is_empty() {
            self.bodies.push(Vec::new());
        }
    }

    /// A string: length, flags, what else its head has, and its characters, in
    /// parts that are narrow or wide each for itself.
    fn append_string(&mut self, rng: &mut Rng, units: &[u16], flags: u8, counts: &[u8]) {
        let (mut part, mut rest) = self.part(rng, units);
        let mut wide = is_wide(rng, part);
        let [low, high] = (units.len() as u16).to_le_bytes();
        let body = self.body();
        body.extend([low, high, flags & !1 | u8::from(wide)]);
        body.extend(counts);
        loop {
            append_units(self.body(), part, wide);
            if rest.is_empty() {
                return;
            }
            (part, rest) = self.part(rng, rest);
            wide = is_wide(rng, part);
            let flags = rng.byte() & !1 | u8::from(wide);
            self.bodies.push(vec![flags]);
        }
    }

    /// So many of the units as stand in one segment.
    fn part<'u>(&self, rng: &mut Rng, units: &'u [u16]) -> (&'u [u16], &'u [u16]) {
        let breaks = units.len() > 1 && rng.percent(self.break_percent);
        let count = match breaks {
            true => rng.between(1, units.len() - 1),
            false => units.len(),
        };
        units.split_at(count)
    }
}

fn is_wide(rng: &mut Rng, units: &[u16]) -> bool {
    !is_narrow(units) || rng.percent(25)
}

/// The longest string takes no more, with its head.
const ROOM_FOR_STRING: usize = 900;

/// A string table that has all texts, each at least once, in any order, among
/// others that no cell shows.
struct Table {
    segments: Vec<Vec<u8>>,
    indices: HashMap<Vec<u16>, Vec<u32>>,
}

impl Table {
    fn of(rng: &mut Rng, revision: &Revision) -> Self {
        let mut texts = Vec::new();
        for cell in revision.sheets.iter().flat_map(|sheet| &sheet.cells) {
            if let Value::Text(units) = &cell.value {
                texts.push(units.clone());
            }
        }
        if texts.is_empty() && rng.percent(50) {
            return Table {
                segments: Vec::new(),
                indices: HashMap::new(),
            };
        }
        if rng.percent(70) {
            texts.sort();
            texts.dedup();
        }
        for _ in 0..rng.mostly_small(0, 5) {
            texts.push(vec![0x75; rng.below(4)]);
        }
        if rng.percent(60) {
            rng.shuffle(&mut texts);
        }
        let mut counts = rng.bytes(4);
        counts.extend((texts.len() as u32).to_le_bytes());
        let mut segments = Segments::start(rng, counts);
        let mut indices: HashMap<Vec<u16>, Vec<u32>> = HashMap::new();
        for (index, text) in (0..).zip(texts) {
            append_shared(rng, &mut segments, &text);
            indices.entry(text).or_default().push(index);
        }
        Table {
            segments: segments.bodies,
            indices,
        }
    }

    fn push_to(&self, book: &mut Book) {
        for (number, body) in self.segments.iter().enumerate() {
            let kind = [kind::SST, kind::CONTINUE][number.min(1)];
            book.push(Record::new(kind, body.clone()));
        }
    }

    fn index(&self, rng: &mut Rng, units: &[u16]) -> u32 {
        rng.pick(&self.indices[units])
    }
}

/// A shared string, with runs and phonetic bytes at times.
fn append_shared(rng: &mut Rng, segments: &mut Segments, units: &[u16]) {
    let runs = rng.percent(15).then(|| rng.below(4));
    let phonetic = rng.percent(15).then(|| rng.below(9));
    let mut flags = rng.byte() & 0xF2;
    let mut counts = Vec::new();
    if let Some(runs) = runs {
        flags |= 8;
        counts.extend((runs as u16).to_le_bytes());
    }
    if let Some(size) = phonetic {
        flags |= 4;
        counts.extend((size as u32).to_le_bytes());
    }
    segments.make_room(rng, ROOM_FOR_STRING);
    segments.append_string(rng, units, flags, &counts);
    for _ in 0..runs.unwrap_or(0) {
        segments.make_room(rng, 4);
        rng.append(segments.body(), 4);
    }
    for _ in 0..phonetic.unwrap_or(0) {
        segments.make_room(rng, 1);
        rng.append(segments.body(), 1);
    }
}

fn push_sheet(
    rng: &mut Rng,
    book: &mut Book,
    sheet: &Sheet,
    place: usize,
    table: &Table,
    order: Order,
) {
    let bof_kind = [bof::WORKSHEET, bof::MACRO, bof::CHART][usize::from(sheet.sheet_type)];
    book.push(Record::bof(rng, bof_kind, Tie::Starts(place)));
    let mut rest = sheet.listed();
    let mut groups = Vec::new();
    while !rest.is_empty() {
        let (records, count) = next_records(rng, rest, table);
        groups.push((rest[0].row, records));
        rest = &rest[count..];
    }
    match order {
        Order::Ascending => {}
        Order::RowsReversed => groups.sort_by_key(|(row, _)| u16::MAX - row),
        Order::Any => rng.shuffle(&mut groups),
    }
    for (_, records) in groups {
        if rng.percent(4) {
            book.push(crate::workbook::dimensions(rng));
        }
        records.into_iter().for_each(|record| book.push(record));
    }
    book.push(Record::eof());
}

/// The records of the next cell, or of some, and how many they are.
fn next_records(rng: &mut Rng, cells: &[Cell], table: &Table) -> (Vec<Record>, usize) {
    let cell = &cells[0];
    let mut body = Vec::new();
    body.extend(cell.row.to_le_bytes());
    body.extend(cell.column.to_le_bytes());
    let (kind, field) = match &cell.value {
        Value::Blank | Value::Number(_) if rng.percent(60) => {
            if let Some((record, count)) = multiple(rng, cells, &body) {
                return (vec![record], count);
            }
            single(rng, &cell.value)
        }
        Value::Text(units) => {
            let index = table.index(rng, units);
            (kind::LABELSST, index.to_le_bytes().to_vec())
        }
        Value::Formula(stored) => {
            body.extend(rng.word().to_le_bytes());
            return (formula_records(rng, body, stored), 1);
        }
        value => single(rng, value),
    };
    body.extend(rng.word().to_le_bytes());
    body.extend(field);
    (vec![Record::new(kind, body)], 1)
}

/// Type and value field of a cell that stands alone.
fn single(rng: &mut Rng, value: &Value) -> (u16, Vec<u8>) {
    match *value {
        Value::Number(bits) => match packed(rng, bits) {
            Some(word) if rng.percent(50) => (kind::RK, word.to_le_bytes().to_vec()),
            _ => (kind::NUMBER, bits.to_le_bytes().to_vec()),
        },
        Value::Truth(truth) => (kind::BOOLERR, vec![truth, 0]),
        Value::Error(code) => (kind::BOOLERR, vec![code, 1]),
        _ => (kind::BLANK, Vec::new()),
    }
}

/// A multiple record of the cells that go on from the first one in its row.
fn multiple(rng: &mut Rng, cells: &[Cell], start: &[u8]) -> Option<(Record, usize)> {
    let most = rng.mostly_small(1, 9);
    let blank = cells[0].value == Value::Blank;
    let mut body = start.to_vec();
    let mut count = 0;
    for (cell, column) in cells.iter().zip(cells[0].column..).take(most) {
        if (cell.row, cell.column) != (cells[0].row, column) {
            break;
        }
        let word = match cell.value {
            Value::Blank if blank => None,
            Value::Number(bits) if !blank => match packed(rng, bits) {
                None => break,
                word => word,
            },
            _ => break,
        };
        body.extend(rng.word().to_le_bytes());
        body.extend(word.iter().flat_map(|word| word.to_le_bytes()));
        count += 1;
    }
    let last = cells[0].column + u16::try_from(count).ok()?.checked_sub(1)?;
    body.extend(last.to_le_bytes());
    let kind = if blank { kind::MULBLANK } else { kind::MULRK };
    Some((Record::new(kind, body), count))
}

/// One of the RK words that mean a number, if there is any.
fn packed(rng: &mut Rng, bits: u64) -> Option<u32> {
    let mut words = Vec::new();
    let is_finite = f64::from_bits(bits).is_finite();
    if bits.trailing_zeros() >= 34 && is_finite {
        words.push((bits >> 32) as u32);
    }
    for (divisor, mark) in [(1.0, 2), (100.0, 3)] {
        let whole = (f64::from_bits(bits) * divisor).round();
        let fits = (-536_870_912.0..536_870_912.0).contains(&whole);
        if fits && (f64::from(whole as i32) / divisor).to_bits() == bits {
            words.push((whole as i32 as u32) << 2 | mark);
        }
    }
    (!words.is_empty()).then(|| rng.pick(&words))
}

/// A formula, and its text where that is its result.
fn formula_records(rng: &mut Rng, mut body: Vec<u8>, stored: &Stored) -> Vec<Record> {
    let mut result = rng.next().to_le_bytes();
    result[6..].copy_from_slice(&[0xFF, 0xFF]);
    match *stored {
        Stored::Number(bits) => result = bits.to_le_bytes(),
        Stored::Text(_) => result = text_results::result(rng),
        Stored::Truth(truth) => (result[0], result[2]) = (1, truth),
        Stored::Error(code) => (result[0], result[2]) = (2, code),
        Stored::Empty => result[0] = 3,
    }
    let formula = formula::small(rng);
    body.extend(result);
    rng.append(&mut body, 6);
    body.extend((formula.tokens.len() as u16).to_le_bytes());
    body.extend(&formula.tokens);
    body.extend(formula.trailing.iter().take(100));
    let mut records = vec![Record::new(kind::FORMULA, body)];
    let Stored::Text(units) = stored else {
        return records;
    };
    if rng.percent(30) {
        records.push(text_results::between(rng));
    }
    let mut segments = Segments::start(rng, Vec::new());
    let flags = rng.byte();
    segments.append_string(rng, units, flags, &[]);
    for (number, segment) in segments.bodies.into_iter().enumerate() {
        let kind = [kind::STRING, kind::CONTINUE][number.min(1)];
        records.push(Record::new(kind, segment));
    }
    records
}
