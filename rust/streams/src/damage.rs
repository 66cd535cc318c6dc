//! Damage to workbooks. It is mostly small, so that what comes after it is
//! still reached, and mostly aimed at a rule, so that each rule is broken.

use crate::cells::CellMaker;
use crate::record::{append_header, bof, headers, kind, word_at, Book, Record, Tie, HEADER_SIZE};
use crate::rng::Rng;
use crate::text_results;

/// A stream from a damaged workbook.
pub(crate) fn damaged(rng: &mut Rng, mut book: Book) -> Vec<u8> {
    let rounds = rng.pick(&[1, 1, 1, 1, 2, 2, 3]);
    let on_records = (0..rounds).filter(|_| rng.percent(65)).count();
    for _ in 0..on_records {
        damage_records(rng, &mut book);
    }
    // Most of the time the positions follow, or they would nearly always be
    // what is refused in the end.
    if on_records > 0 && rng.percent(75) {
        let spoilt = rng.percent(12);
        book.name_sheets();
        if spoilt {
            spoil_sheet_list(rng, &mut book);
        }
    }
    let mut stream = book.write();
    for _ in on_records..rounds {
        damage_bytes(rng, &mut stream);
    }
    stream
}

fn damage_records(rng: &mut Rng, book: &mut Book) {
    if book.records.len() < 2 {
        // Too little is left to damage further.
        return;
    }
    match rng.below(44) {
        0 => drop_record(rng, book),
        1 => duplicate_record(rng, book),
        2 => move_record(rng, book),
        3 => swap_neighbours(rng, book),
        4..=5 => insert_record(rng, book),
        6..=8 => insert_continue(rng, book),
        9 => change_kind(rng, book),
        10..=11 => resize_body(rng, book),
        12..=18 => change_field(rng, book),
        19 => insert_filepass(rng, book),
        20..=21 => nest_charts(rng, book),
        22..=29 => damage_table(rng, book),
        30..=31 => change_index(rng, book),
        32..=41 => text_results::damage(rng, book),
        _ => spoil_sheet_list(rng, book),
    }
}

pub(crate) fn place_of(
    rng: &mut Rng,
    book: &Book,
    wanted: impl Fn(&Record) -> bool,
) -> Option<usize> {
    let places: Vec<usize> = (0..book.records.len())
        .filter(|&place| wanted(&book.records[place]))
        .collect();
    if places.is_empty() {
        return None;
    }
    Some(rng.pick(&places))
}

/// A place between two records, mostly after the first.
fn any_gap(rng: &mut Rng, book: &Book) -> usize {
    if rng.percent(3) {
        return 0;
    }
    rng.between(1.min(book.records.len()), book.records.len())
}

fn drop_record(rng: &mut Rng, book: &mut Book) {
    let place = rng.below(book.records.len());
    if place > 0 || rng.percent(20) {
        book.records.remove(place);
    }
}

fn duplicate_record(rng: &mut Rng, book: &mut Book) {
    let mut record = book.records[rng.below(book.records.len())].clone();
    if let Tie::Starts(_) = record.tie {
        record.tie = Tie::None;
    }
    let gap = any_gap(rng, book);
    book.records.insert(gap, record);
}

fn move_record(rng: &mut Rng, book: &mut Book) {
    let place = rng.below(book.records.len());
    let record = book.records.remove(place);
    let gap = any_gap(rng, book);
    book.records.insert(gap, record);
}

fn swap_neighbours(rng: &mut Rng, book: &mut Book) {
    let place = rng.below(book.records.len() - 1);
    book.records.swap(place, place + 1);
}

fn insert_record(rng: &mut Rng, book: &mut Book) {
    let record = any_record(rng);
    let gap = any_gap(rng, book);
    book.records.insert(gap, record);
}

/// A record with no thought for where it will stand.
pub(crate) fn any_record(rng: &mut Rng) -> Record {
    match rng.below(8) {
        0 => Record::eof(),
        1 => {
            let kind = rng.pick(&[
                bof::GLOBALS,
                bof::WORKSHEET,
                bof::CHART,
                bof::CHART,
                bof::MACRO,
                0x0100,
            ]);
            Record::bof(rng, kind, Tie::None)
        }
        2..=4 => {
            let unique = rng.pick(&[0, 1, 3]);
            CellMaker::new(rng, unique, false).records(rng, 0).remove(0)
        }
        5 => crate::workbook::dimensions(rng),
        _ => {
            let kind = rng.pick(&kind::ALL);
            let size = rng.mostly_small(0, 40);
            Record::new(kind, rng.bytes(size))
        }
    }
}

/// A CONTINUE, mostly where it has no parent.
fn insert_continue(rng: &mut Rng, book: &mut Book) {
    let parentless = |record: &Record| {
        matches!(record.kind, kind::BOF | kind::BOUNDSHEET) || kind::CELLS.contains(&record.kind)
    };
    let aimed = rng.percent(75);
    let place = place_of(rng, book, |record| !aimed || parentless(record));
    let size = rng.mostly_small(0, 20);
    let record = Record::new(kind::CONTINUE, rng.bytes(size));
    if let Some(place) = place {
        book.records.insert(place + 1, record);
    }
}

fn change_kind(rng: &mut Rng, book: &mut Book) {
    let place = rng.below(book.records.len());
    book.records[place].kind = match rng.below(3) {
        0 => rng.word(),
        1 => book.records[place].kind ^ 1 << rng.below(16),
        _ => rng.pick(&kind::ALL),
    };
}

/// A body with bytes more or less than it should have.
fn resize_body(rng: &mut Rng, book: &mut Book) {
    let place = rng.below(book.records.len());
    let body = &mut book.records[place].body;
    match rng.below(5) {
        0 => body.clear(),
        1 => body.truncate(body.len().saturating_sub(1)),
        2 => {
            let less = rng.mostly_small(1, 8);
            body.truncate(body.len().saturating_sub(less));
        }
        3 if rng.percent(20) => {
            let size = rng.pick(&[8_223, 8_224, 8_225, 8_226]);
            body.resize(size, 0);
        }
        _ => {
            let more = rng.mostly_small(1, 8);
            rng.append(body, more);
        }
    }
}

/// The fields of a record that are judged: where and how wide.
fn fields(rng: &mut Rng, record: &Record) -> Vec<(usize, usize)> {
    let size = record.body.len();
    match record.kind {
        kind::BOF => vec![(0, 2), (2, 2), (2, 2)],
        kind::BOUNDSHEET => vec![(0, 4), (5, 1), (6, 1), (7, 1)],
        kind::DIMENSIONS => vec![(0, 4), (4, 4), (8, 2), (10, 2)],
        kind::NUMBER => vec![(2, 2), (6, 8)],
        kind::RK | kind::LABELSST => vec![(2, 2), (6, 4), (6, 4)],
        kind::BOOLERR => vec![(2, 2), (6, 1), (7, 1)],
        kind::MULRK => {
            let cell = rng.below(size / 6 + 1);
            vec![(2, 2), (size.saturating_sub(2), 2), (6 + 6 * cell, 4)]
        }
        kind::MULBLANK => vec![(2, 2), (size.saturating_sub(2), 2)],
        kind::FORMULA => vec![(2, 2), (6, 1), (8, 1), (12, 2), (20, 2)],
        kind::SST => vec![(4, 4), (8, 2), (10, 1)],
        kind::STRING => vec![(0, 2), (2, 1)],
        _ => vec![(0, 1), (0, 2), (2, 2)],
    }
}

const BYTES: [u8; 12] = [0, 1, 2, 3, 4, 7, 0x1F, 0x20, 0x2A, 0x7F, 0x80, 0xFF];
const WORDS: [u16; 12] = [
    0, 1, 0x0F, 0xFF, 0x100, 0x101, 0x500, 0x600, 0x7FFF, 0x8000, 0xFFFE, 0xFFFF,
];
const LONGS: [u32; 12] = [
    0,
    1,
    0xFFFF,
    0x1_0000,
    0x1_0001,
    0x7FF0_0000,
    0x7FF0_0001,
    0x7FFF_FFFF,
    0x8000_0000,
    0xFFF0_0000,
    0xFFFF_FFFC,
    0xFFFF_FFFF,
];

/// A field of one record changed to a value at some limit.
fn change_field(rng: &mut Rng, book: &mut Book) {
    let aimed = rng.percent(80);
    let known = |record: &Record| kind::ALL.contains(&record.kind);
    let Some(place) = place_of(rng, book, |record| !aimed || known(record)) else {
        return;
    };
    let fields = fields(rng, &book.records[place]);
    let (at, width) = rng.pick(&fields);
    if let Some(field) = book.records[place].body.get_mut(at..at + width) {
        set_to_limit(rng, field);
    }
}

fn set_to_limit(rng: &mut Rng, field: &mut [u8]) {
    if rng.percent(30) {
        return step_by_one(rng, field);
    }
    let value = match field.len() {
        1 => u64::from(rng.pick(&BYTES)),
        2 => u64::from(rng.pick(&WORDS)),
        4 => u64::from(rng.pick(&LONGS)),
        _ => crate::cells::number_bits(rng),
    };
    let width = field.len();
    field.copy_from_slice(&value.to_le_bytes()[..width]);
}

/// One more or one less, carried through the field.
pub(crate) fn step_by_one(rng: &mut Rng, field: &mut [u8]) {
    let mut wide = [0; 8];
    wide[..field.len()].copy_from_slice(field);
    let value = u64::from_le_bytes(wide);
    let stepped = if rng.percent(50) {
        value.wrapping_add(1)
    } else {
        value.wrapping_sub(1)
    };
    let width = field.len();
    field.copy_from_slice(&stepped.to_le_bytes()[..width]);
}

fn insert_filepass(rng: &mut Rng, book: &mut Book) {
    let end = book
        .records
        .iter()
        .position(|record| record.kind == kind::EOF);
    let last = end.unwrap_or(book.records.len()).max(1);
    let place = if rng.percent(80) {
        rng.between(1.min(book.records.len()), last)
    } else {
        any_gap(rng, book)
    };
    let size = rng.pick(&[0, 1, 6, 54, 54]);
    let record = Record::new(kind::FILEPASS, rng.bytes(size));
    book.records.insert(place.min(book.records.len()), record);
}

/// Charts put into a sheet, deep enough to be too deep at times.
fn nest_charts(rng: &mut Rng, book: &mut Book) {
    let globals_end = book
        .records
        .iter()
        .position(|record| record.kind == kind::EOF);
    let least = globals_end.map_or(0, |place| place + 2);
    if least > book.records.len() {
        return;
    }
    let gap = rng.between(least, book.records.len());
    let depth = rng.between(1, 5);
    let mut nested: Vec<Record> = Vec::new();
    for _ in 0..depth {
        nested.push(Record::bof(rng, bof::CHART, Tie::None));
        if rng.percent(30) {
            nested.push(Record::new(rng.pick(&[0x1001, 0x1002]), rng.bytes(2)));
        }
    }
    nested.extend((0..depth).map(|_| Record::eof()));
    book.records.splice(gap..gap, nested);
}

/// A text cell's index at or over the number of strings.
fn change_index(rng: &mut Rng, book: &mut Book) {
    let unique = book
        .records
        .iter()
        .find(|record| record.kind == kind::SST)
        .and_then(|table| table.body.get(4..8))
        .map_or(0, |field| {
            u32::from_le_bytes([field[0], field[1], field[2], field[3]])
        });
    put_index(rng, book, |rng| match rng.below(4) {
        0 => unique.wrapping_sub(1),
        1 => rng.pick(&LONGS),
        2 => unique.wrapping_add(1),
        _ => unique,
    });
}

/// Gives a text cell another index; one is put in where there is none.
pub(crate) fn put_index(rng: &mut Rng, book: &mut Book, index: impl FnOnce(&mut Rng) -> u32) {
    let place = place_of(rng, book, |record| record.kind == kind::LABELSST);
    let index = index(rng);
    match place.and_then(|place| book.records[place].body.get_mut(6..10)) {
        Some(field) => field.copy_from_slice(&index.to_le_bytes()),
        None => insert_text_cell(rng, book, index),
    }
}

fn insert_text_cell(rng: &mut Rng, book: &mut Book, index: u32) {
    let is_worksheet = |record: &Record| {
        record.kind == kind::BOF && word_at(&record.body, 2) == Some(bof::WORKSHEET)
    };
    let Some(place) = place_of(rng, book, is_worksheet) else {
        return;
    };
    let mut body = vec![rng.byte(), 0, rng.byte(), 0, 0, 0];
    body.extend(index.to_le_bytes());
    book.records
        .insert(place + 1, Record::new(kind::LABELSST, body));
}

/// The records of the string table.
fn table_of(book: &Book) -> Option<std::ops::Range<usize>> {
    let first = book
        .records
        .iter()
        .position(|record| record.kind == kind::SST)?;
    let continues = book.records[first + 1..]
        .iter()
        .take_while(|record| record.kind == kind::CONTINUE)
        .count();
    Some(first..first + 1 + continues)
}

fn damage_table(rng: &mut Rng, book: &mut Book) {
    let Some(table) = table_of(book) else {
        let size = rng.mostly_small(0, 12);
        let record = Record::new(kind::SST, rng.bytes(size));
        let gap = any_gap(rng, book);
        return book.records.insert(gap, record);
    };
    let place = rng.between(table.start, table.end - 1);
    let records = &mut book.records;
    match rng.below(14) {
        0 => {
            if let Some(field) = records[table.start].body.get_mut(4..8) {
                step_by_one(rng, field);
            }
        }
        1..=3 => split_segment(rng, records, place),
        4 => join_segments(records, place, table.end),
        5 => records.insert(place + 1, Record::new(kind::CONTINUE, Vec::new())),
        6 => {
            let size = rng.between(1, 5);
            records.insert(table.end, Record::new(kind::CONTINUE, rng.bytes(size)));
        }
        7 => drop(records.remove(table.end - 1)),
        8 => {
            let again = records[table.start].clone();
            let gap = rng.between(table.end, records.len());
            records.insert(gap, again);
        }
        9 => {
            let body = &mut records[place].body;
            body.truncate(body.len().saturating_sub(1));
        }
        10 => records[place].body.push(rng.byte()),
        11 => records.insert(table.end - 1, any_record(rng)),
        _ => change_table_byte(rng, &mut records[place], place == table.start),
    }
}

/// One segment made two at any place, most of which may not be cut.
pub(crate) fn split_segment(rng: &mut Rng, records: &mut Vec<Record>, place: usize) {
    let body = &mut records[place].body;
    let at = rng.below(body.len() + 1);
    let rest = body.split_off(at);
    records.insert(place + 1, Record::new(kind::CONTINUE, rest));
}

pub(crate) fn join_segments(records: &mut Vec<Record>, place: usize, end: usize) {
    if place + 1 < end {
        let next = records.remove(place + 1);
        records[place].body.extend(next.body);
    }
}

fn change_table_byte(rng: &mut Rng, record: &mut Record, is_first: bool) {
    let from = if is_first { 8 } else { 0 };
    if record.body.len() <= from {
        return;
    }
    let at = if rng.percent(50) {
        // Near the start, where a head or a flags byte stands.
        (from + rng.below(4)).min(record.body.len() - 1)
    } else {
        rng.between(from, record.body.len() - 1)
    };
    record.body[at] = match rng.below(3) {
        0 => rng.pick(&BYTES),
        1 => record.body[at] ^ 1 << rng.below(4),
        _ => record.body[at].wrapping_add(1),
    };
}

/// The list of sheets made to disagree with the substreams.
fn spoil_sheet_list(rng: &mut Rng, book: &mut Book) {
    let is_entry = |record: &Record| record.kind == kind::BOUNDSHEET && record.body.len() >= 8;
    let Some(place) = place_of(rng, book, is_entry) else {
        return;
    };
    match rng.below(6) {
        0 => drop(book.records.remove(place)),
        1 => {
            // Two that name one sheet, whatever follows.
            let other = place_of(rng, book, is_entry).unwrap_or(place);
            let position: [u8; 4] = book.records[other].body[..4]
                .try_into()
                .expect("four bytes");
            book.records[place].body[..4].copy_from_slice(&position);
            book.records[place].tie = book.records[other].tie;
        }
        2 => {
            book.records[place].body[5] = rng.below(3) as u8;
        }
        3 => {
            let again = book.records[place].clone();
            book.records.insert(place + 1, again);
            if rng.percent(50) {
                book.name_sheets();
            }
        }
        4 => {
            step_by_one(rng, &mut book.records[place].body[..4]);
            book.records[place].tie = Tie::None;
        }
        _ => {
            let position = rng.pick(&[0, 20, 24, 44, u32::MAX]);
            book.records[place].body[..4].copy_from_slice(&position.to_le_bytes());
            book.records[place].tie = Tie::None;
        }
    }
}

/// Damage with no regard for records.
fn damage_bytes(rng: &mut Rng, stream: &mut Vec<u8>) {
    if stream.is_empty() {
        return;
    }
    match rng.below(16) {
        0..=3 => {
            let at = rng.below(stream.len());
            stream[at] = rng.byte();
        }
        4 => {
            let at = rng.below(stream.len());
            stream[at] ^= 1 << rng.below(8);
        }
        5..=7 => change_header(rng, stream),
        8..=9 => cut(rng, stream),
        10..=12 => append_tail(rng, stream),
        13 => {
            let at = rng.below(stream.len() + 1);
            let mut header = Vec::new();
            append_header(
                &mut header,
                rng.pick(&kind::ALL),
                rng.mostly_small(0, 9_000),
            );
            stream.splice(at..at, header);
        }
        14 => {
            let at = rng.below(stream.len());
            stream.remove(at);
        }
        _ => {
            let at = rng.below(stream.len() + 1);
            stream.insert(at, rng.byte());
        }
    }
}

fn change_header(rng: &mut Rng, stream: &mut [u8]) {
    let places = headers(stream);
    if places.is_empty() {
        return;
    }
    let at = rng.pick(&places);
    let Some(size) = stream.get_mut(at + 2..at + HEADER_SIZE) else {
        return;
    };
    if rng.percent(50) {
        step_by_one(rng, size);
    } else {
        let value: u16 = rng.pick(&[0, 1, 4, 16, 255, 8_223, 8_224, 8_225, 0xFFFF]);
        size.copy_from_slice(&value.to_le_bytes());
    }
}

/// A cut, most often at a record's start or inside a header.
fn cut(rng: &mut Rng, stream: &mut Vec<u8>) {
    let places = headers(stream);
    let at = if places.is_empty() || rng.percent(40) {
        rng.below(stream.len() + 1)
    } else {
        rng.pick(&places) + rng.below(5)
    };
    stream.truncate(at);
}

/// A tail that is not all zeros, or a new sheet that nothing names.
fn append_tail(rng: &mut Rng, stream: &mut Vec<u8>) {
    match rng.below(5) {
        0 => {
            let count = rng.mostly_small(1, 12);
            rng.append(stream, count);
        }
        1 => {
            let zeros = rng.mostly_small(0, 20);
            stream.resize(stream.len() + zeros, 0);
            stream.push(rng.byte());
        }
        2 => {
            let record = any_record(rng);
            append_header(stream, record.kind, record.body.len());
            stream.extend(record.body);
        }
        3 => {
            let kind = rng.pick(&[bof::WORKSHEET, bof::CHART, bof::MACRO]);
            let record = Record::bof(rng, kind, Tie::None);
            append_header(stream, record.kind, record.body.len());
            stream.extend(record.body);
            append_header(stream, kind::EOF, 0);
        }
        _ => {
            let zeros = rng.mostly_small(0, 600);
            stream.resize(stream.len() + zeros, 0);
        }
    }
}
