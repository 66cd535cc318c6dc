//! The text of a formula's result, right and damaged.

use crate::cells::CellMaker;
use crate::damage::{any_record, join_segments, place_of, split_segment, step_by_one};
use crate::record::{append_header, bof, kind, word_at, Book, Record, LONGEST_BODY};
use crate::rng::Rng;
use crate::table::Table;
use std::ops::Range;

/// The eight bytes of a result that is a text, random where none is judged.
pub(crate) fn result(rng: &mut Rng) -> [u8; 8] {
    let mut result = rng.next().to_le_bytes();
    result[0] = 0;
    result[6..].copy_from_slice(&[0xFF, 0xFF]);
    result
}

/// A record that may stand between a formula and its text.
pub(crate) fn between(rng: &mut Rng) -> Record {
    let size = rng.mostly_small(0, 30);
    Record::new(rng.pick(&kind::BETWEEN), rng.bytes(size))
}

/// Appends a STRING with its CONTINUEs, and gives the units.
pub(crate) fn append(rng: &mut Rng, records: &mut Vec<Record>, budget: usize) -> Vec<u16> {
    let (segments, units) = Table::of_result(rng, budget);
    for (number, segment) in segments.into_iter().enumerate() {
        let kind = if number == 0 {
            kind::STRING
        } else {
            kind::CONTINUE
        };
        records.push(Record::new(kind, segment));
    }
    units
}

/// A text result with everything that belongs to it, mostly with a CONTINUE.
fn whole(rng: &mut Rng) -> Vec<Record> {
    let mut records = vec![CellMaker::new(rng, 0, false).text_formula(rng)];
    if rng.percent(40) {
        records.push(between(rng));
    }
    let before = records.len();
    for _ in 0..rng.pick(&[1, 8, 8, 8]) {
        records.truncate(before);
        append(rng, &mut records, 120);
        if records.len() > before + 1 {
            break;
        }
    }
    records
}

/// A text result of a workbook damaged, or one put where it may not stand.
pub(crate) fn damage(rng: &mut Rng, book: &mut Book) {
    if rng.percent(15) {
        return stray(rng, book);
    }
    let there = if rng.percent(40) {
        place_of(rng, book, Record::has_text_result)
    } else {
        None
    };
    let Some(place) = there.or_else(|| insert(rng, book)) else {
        return;
    };
    match text_of(&book.records, place) {
        Some(segments) if rng.percent(70) => damage_text(rng, book, segments),
        _ => damage_group(rng, book, place),
    }
}

/// A worksheet's BOF.
fn is_worksheet(record: &Record) -> bool {
    record.kind == kind::BOF && word_at(&record.body, 2) == Some(bof::WORKSHEET)
}

/// Puts a text result into a worksheet, and gives its place.
fn insert(rng: &mut Rng, book: &mut Book) -> Option<usize> {
    let place = place_of(rng, book, is_worksheet)? + 1;
    let records = whole(rng);
    book.records.splice(place..place, records);
    Some(place)
}

/// The records of the text that belongs to the formula at a place.
fn text_of(records: &[Record], formula: usize) -> Option<Range<usize>> {
    let mut first = formula + 1;
    if is_between(records.get(first)) {
        first += 1;
    }
    if records.get(first)?.kind != kind::STRING {
        return None;
    }
    let continues = records[first + 1..]
        .iter()
        .take_while(|record| record.kind == kind::CONTINUE)
        .count();
    Some(first..first + 1 + continues)
}

/// A STRING in a worksheet where no formula waits for one.
fn stray(rng: &mut Rng, book: &mut Book) {
    let which = rng.below(10);
    if which < 3 {
        // Another result where the text stays.
        let formula = place_of(rng, book, Record::has_text_result);
        if let Some(formula) = formula.and_then(|place| book.records.get_mut(place)) {
            formula.body[6] = rng.pick(&[1, 2, 3, 3]);
            formula.body[8] = 0;
        }
        return;
    }
    let wanted = |record: &Record| {
        let is_between = kind::BETWEEN.contains(&record.kind);
        match which {
            3..=5 => is_between,
            6 => record.kind == kind::STRING,
            _ => is_worksheet(record) || kind::CELLS.contains(&record.kind),
        }
    };
    if let Some(place) = place_of(rng, book, wanted) {
        let mut text = Vec::new();
        append(rng, &mut text, 40);
        book.records.splice(place + 1..place + 1, text);
    }
}

fn is_between(record: Option<&Record>) -> bool {
    record.is_some_and(|record| kind::BETWEEN.contains(&record.kind))
}

/// What stands between a formula and its text changed, or the text left out.
fn damage_group(rng: &mut Rng, book: &mut Book, formula: usize) {
    let after = formula + 1;
    let records = &mut book.records;
    if !is_between(records.get(after)) && rng.percent(40) {
        records.insert(after, between(rng));
    }
    let end = after + usize::from(is_between(records.get(after)));
    match rng.below(10) {
        0 => records.insert(end, between(rng)),
        1 => {
            let size = rng.mostly_small(0, 12);
            records.insert(end, Record::new(kind::CONTINUE, rng.bytes(size)));
        }
        2 => records.insert(end, any_record(rng)),
        3 => {
            if let Some(text) = text_of(records, formula) {
                records.drain(text);
            }
        }
        4 => {
            if let Some(record) = records.get_mut(after) {
                record.body.resize(LONGEST_BODY + 1, 0);
            }
        }
        5 => {
            let mut record = between(rng);
            record.body.push(0);
            records.insert(after, record);
            cut_in(rng, book, after);
        }
        _ => stop(rng, book, end),
    }
}

/// A stream that ends before a record of the group, or in that record's header.
fn stop(rng: &mut Rng, book: &mut Book, place: usize) {
    let next = book.records.get(place).map_or(kind::STRING, |it| it.kind);
    book.records.truncate(place);
    let [low, high] = next.to_le_bytes();
    let cut = [low, high, rng.byte()];
    book.tail = cut[..rng.pick(&[0, 0, 1, 2, 3])].to_vec();
}

/// A stream that ends in a record's body, if it has one.
fn cut_in(rng: &mut Rng, book: &mut Book, place: usize) {
    let record = book.records[place].clone();
    if record.body.is_empty() {
        return;
    }
    book.records.truncate(place);
    book.tail.clear();
    append_header(&mut book.tail, record.kind, record.body.len());
    let kept = rng.below(record.body.len());
    book.tail.extend(&record.body[..kept]);
}

/// The text itself changed, at one of its segments.
fn damage_text(rng: &mut Rng, book: &mut Book, text: Range<usize>) {
    let last = text.end - 1;
    let place = if rng.percent(50) {
        last
    } else {
        rng.between(text.start, last)
    };
    let size = rng.mostly_small(0, 4);
    let records = &mut book.records;
    match rng.below(21) {
        0..=2 => split_segment(rng, records, place),
        3 => join_segments(records, place, text.end),
        4 => records.insert(place + 1, Record::new(kind::CONTINUE, Vec::new())),
        5 => records.insert(text.end, Record::new(kind::CONTINUE, rng.bytes(size))),
        6 => drop(records.remove(last)),
        7..=8 => {
            let body = &mut records[place].body;
            body.truncate(body.len().saturating_sub(1));
        }
        9 => records[place].body.push(rng.byte()),
        10..=11 => {
            if let Some(length) = records[text.start].body.get_mut(..2) {
                step_by_one(rng, length);
            }
        }
        12 => {
            // Another width.
            let at = if place == text.start { 2 } else { 0 };
            if let Some(flags) = records[place].body.get_mut(at) {
                *flags ^= 1;
            }
        }
        13 => records[place].body.truncate(size),
        14..=15 => records[place].body.resize(LONGEST_BODY + 1, 0),
        16 => {
            let again = records[text.start].clone();
            records.insert(text.end, again);
        }
        17..=18 => cut_in(rng, book, place),
        _ => records.insert(place + 1, any_record(rng)),
    }
}
