//! K6: the text of a formula's result, in the STRING record after it.

use crate::{Ways, SEEDS};
use second_reader::{check, read, Reading, Refusal};

const FORMULA: u16 = 0x0006;
const EOF: u16 = 0x000A;
const CONTINUE: u16 = 0x003C;
const STRING: u16 = 0x0207;
const BOF: u16 = 0x0809;
const BETWEEN: [u16; 3] = [0x04BC, 0x0221, 0x0236];

/// A record as the bytes have it; its body is cut where the stream ends.
#[derive(Clone, Copy)]
struct Record<'a> {
    at: usize,
    kind: u16,
    size: usize,
    body: &'a [u8],
}

impl Record<'_> {
    fn waits(&self) -> bool {
        self.kind == FORMULA && matches!(self.body.get(6..14), Some([0, .., 0xFF, 0xFF]))
    }

    fn is_between(&self) -> bool {
        BETWEEN.contains(&self.kind)
    }

    fn is_cut(&self) -> bool {
        self.body.len() < self.size
    }

    fn is_large(&self) -> bool {
        self.size > 8_224
    }
}

fn record(stream: &[u8], at: usize) -> Option<Record<'_>> {
    let header = stream.get(at..at + 4)?;
    let size = usize::from(u16::from_le_bytes([header[2], header[3]]));
    let rest = &stream[at + 4..];
    Some(Record {
        at,
        kind: u16::from_le_bytes([header[0], header[1]]),
        size,
        body: &rest[..size.min(rest.len())],
    })
}

/// The records with whole headers, as far as they can be walked.
fn records(stream: &[u8]) -> Vec<Record<'_>> {
    let mut records = Vec::new();
    let mut at = 0;
    while let Some(record) = record(stream, at) {
        at += 4 + record.size;
        records.push(record);
    }
    records
}

#[test]
fn text_results() {
    let mut ways = Ways::new(&[
        "no record between, taken",
        "a ShrFmla between, taken",
        "an Array between, taken",
        "a Table between, taken",
        "no characters, taken",
        "a narrow text, taken",
        "a wide text, taken",
        "narrow and then narrow, taken",
        "narrow and then wide, taken",
        "wide and then narrow, taken",
        "wide and then wide, taken",
        "three segments and more, taken",
        "a full STRING, taken",
        "bits 2 and 3 of the flags, taken",
        "other bits of a later flags byte, taken",
        "a record between after another result, taken",
        "a STRING in the globals, taken",
        "a STRING in a chart sheet, taken",
        "a STRING in a macro sheet, taken",
        "a STRING in a chart inside a worksheet, taken",
        "a text formula without a text in a chart sheet, taken",
        "a text formula without a text in a macro sheet, taken",
        "a text formula without a text in a chart inside a worksheet, taken",
        "the stream's end, 6 at the formula",
        "a cut header, 6 at the formula",
        "a CONTINUE, 6 at the formula",
        "another record, 6 at the formula",
        "the stream's end after the record between, 6 at the formula",
        "a cut header after the record between, 6 at the formula",
        "a CONTINUE after the record between, 6 at the formula",
        "another record after the record between, 6 at the formula",
        "two records between, 6 at the formula",
        "a cut record between, 6 at the formula",
        "a large record between, 6 at the formula",
        "a cut STRING, 2",
        "a large STRING, 2",
        "a cut head, 6",
        "no first character, 6",
        "a cut character in the STRING, 6",
        "bytes left over in the STRING, 6",
        "no CONTINUE after the STRING, 6",
        "no CONTINUE after a CONTINUE, 6",
        "an empty CONTINUE, 6",
        "a flags byte alone, 6",
        "a cut character in a CONTINUE, 6",
        "bytes left over in a CONTINUE, 6",
        "a CONTINUE too many, 6",
        "an empty CONTINUE too many, 6",
        "a cut CONTINUE, 2",
        "a large CONTINUE, 2",
        "a STRING after a cell, 6",
        "a STRING after another result, 6",
        "a STRING after another result and a record, 6",
        "a STRING after a whole text, 6",
        "a STRING after something else, 6",
        "fetched by its cell",
        "the first of several at an address fetched",
        "a sheet that is missing, 11",
        "a cell that is missing, 11",
        "another cell, 11",
        "another result, 11",
        "another cell before a text at its address, 11",
        "a short buffer, 12",
        "the check's refusal",
    ]);
    for seed in 0..SEEDS {
        let stream = streams::stream(seed);
        match check(&stream) {
            Ok(_) => {
                meet_taken(&mut ways, &stream);
                meet_question(&mut ways, &stream, streams::text(seed, &stream));
            }
            Err(refusal) => {
                ways.meet("the check's refusal");
                meet_refused(&mut ways, &stream, refusal);
            }
        }
    }
    ways.assert_met();
}

/// Which substream a record stands in.
#[derive(Clone, Copy, PartialEq)]
enum Place {
    Globals,
    Worksheet,
    InWorksheet,
    Chart,
    Macro,
}

/// The place after a BOF or EOF, where `depth` substreams are open.
fn next_place(place: Place, depth: usize, bof: &[u8]) -> Place {
    match (depth, bof[2]) {
        (0, 0x05) => Place::Globals,
        (0, 0x10) => Place::Worksheet,
        (0, 0x40) => Place::Macro,
        (0, _) => Place::Chart,
        _ if place == Place::Worksheet => Place::InWorksheet,
        _ => place,
    }
}

fn meet_taken(ways: &mut Ways, stream: &[u8]) {
    let records = records(stream);
    let mut place = Place::Globals;
    let mut depth = 0;
    for (number, record) in records.iter().enumerate() {
        match record.kind {
            BOF => {
                place = next_place(place, depth, record.body);
                depth += 1;
            }
            EOF => {
                depth -= 1;
                if depth == 1 && place == Place::InWorksheet {
                    place = Place::Worksheet;
                }
            }
            STRING if place != Place::Worksheet => ways.meet(match place {
                Place::Globals => "a STRING in the globals, taken",
                Place::Chart => "a STRING in a chart sheet, taken",
                Place::Macro => "a STRING in a macro sheet, taken",
                _ => "a STRING in a chart inside a worksheet, taken",
            }),
            FORMULA if record.waits() => {
                let after = &records[number + 1..];
                if place == Place::Worksheet {
                    meet_text(ways, after);
                } else if after.first().is_none_or(|record| record.kind != STRING) {
                    meet_unread(ways, place);
                }
            }
            _ if place == Place::Worksheet && record.is_between() => {
                let before = records[number - 1];
                if before.kind == FORMULA && !before.waits() {
                    ways.meet("a record between after another result, taken");
                }
            }
            _ => {}
        }
    }
}

fn meet_unread(ways: &mut Ways, place: Place) {
    match place {
        Place::Chart => ways.meet("a text formula without a text in a chart sheet, taken"),
        Place::Macro => ways.meet("a text formula without a text in a macro sheet, taken"),
        Place::InWorksheet => {
            ways.meet("a text formula without a text in a chart inside a worksheet, taken")
        }
        _ => {}
    }
}

/// The records after a formula in a stream that passes.
fn meet_text(ways: &mut Ways, after: &[Record]) {
    let between = after[0].is_between();
    ways.meet(match after[0].kind {
        0x04BC => "a ShrFmla between, taken",
        0x0221 => "an Array between, taken",
        0x0236 => "a Table between, taken",
        _ => "no record between, taken",
    });
    let text = &after[usize::from(between)..];
    let body = text[0].body;
    if body.len() == 8_224 || (body.len() == 8_223 && body[2] & 1 == 1) {
        ways.meet("a full STRING, taken");
    }
    if body[2] & 0x0C == 0x0C {
        ways.meet("bits 2 and 3 of the flags, taken");
    }
    let flags = text[1..]
        .iter()
        .take_while(|record| record.kind == CONTINUE)
        .map(|record| record.body[0]);
    let widths: Vec<u8> = [body[2] & 1]
        .into_iter()
        .chain(flags.clone().map(|flags| flags & 1))
        .collect();
    if flags.clone().any(|flags| flags > 1) {
        ways.meet("other bits of a later flags byte, taken");
    }
    if widths.len() > 2 {
        ways.meet("three segments and more, taken");
    }
    ways.meet(match widths[..] {
        _ if body[..2] == [0, 0] => "no characters, taken",
        [0] => "a narrow text, taken",
        [1] => "a wide text, taken",
        [0, 0, ..] => "narrow and then narrow, taken",
        [0, ..] => "narrow and then wide, taken",
        [_, 0, ..] => "wide and then narrow, taken",
        _ => "wide and then wide, taken",
    });
}

fn meet_question(ways: &mut Ways, stream: &[u8], ask: streams::Text) {
    let reading: Reading = read(stream).expect("a stream that passes");
    let mut buffer = vec![0; ask.units];
    let answer = second_reader::text(stream, ask.sheet, ask.row, ask.column, &mut buffer);
    let Some(sheet) = reading.sheets.get(ask.sheet as usize) else {
        return ways.meet("a sheet that is missing, 11");
    };
    let there: Vec<_> = sheet
        .cells
        .iter()
        .filter(|cell| (u32::from(cell.row), u32::from(cell.column)) == (ask.row, ask.column))
        .collect();
    let later_text = there.iter().skip(1).any(|cell| cell.has_text_result());
    match (answer, there.first()) {
        (Ok(_), _) if later_text => ways.meet("the first of several at an address fetched"),
        (Ok(_), _) => ways.meet("fetched by its cell"),
        (Err(refusal), _) if refusal.number == 12 => ways.meet("a short buffer, 12"),
        (Err(_), None) => ways.meet("a cell that is missing, 11"),
        (Err(_), Some(_)) if later_text => {
            ways.meet("another cell before a text at its address, 11")
        }
        (Err(_), Some(cell)) if cell.tokens.start > 0 => ways.meet("another result, 11"),
        (Err(_), Some(_)) => ways.meet("another cell, 11"),
    }
}

fn meet_refused(ways: &mut Ways, stream: &[u8], refusal: Refusal) {
    let records = records(stream);
    let Some(number) = records
        .iter()
        .position(|record| record.at == refusal.offset)
    else {
        return;
    };
    let record = records[number];
    match (refusal.number, record.kind) {
        (6, FORMULA) if is_sound(&record) => meet_missing(ways, stream, &record),
        (6, STRING) if waiting(&records[..number]) => meet_broken(ways, &record),
        (6, STRING) => meet_stray(ways, &records[..number]),
        (2, STRING) if waiting(&records[..number]) => ways.meet(match record.is_large() {
            true => "a large STRING, 2",
            false => "a cut STRING, 2",
        }),
        (2, CONTINUE) if in_text(&records[..number]) => ways.meet(match record.is_large() {
            true => "a large CONTINUE, 2",
            false => "a cut CONTINUE, 2",
        }),
        (6, CONTINUE) => meet_broken_later(ways, &records, number),
        _ => {}
    }
}

/// Whether a formula waits for a text and has no fault of its own.
fn is_sound(formula: &Record) -> bool {
    let body = formula.body;
    formula.waits()
        && body.len() >= 22
        && body[3] == 0
        && body.len() >= 22 + usize::from(u16::from_le_bytes([body[20], body[21]]))
}

/// Whether the records before a STRING are a formula that waits for it.
fn waiting(before: &[Record]) -> bool {
    match before {
        [.., last] if last.waits() => true,
        [.., formula, last] => formula.waits() && last.is_between(),
        _ => false,
    }
}

/// Whether the records before a CONTINUE are a text.
fn in_text(before: &[Record]) -> bool {
    let text = before.iter().rposition(|record| record.kind != CONTINUE);
    text.is_some_and(|text| before[text].kind == STRING && waiting(&before[..text]))
}

fn meet_missing(ways: &mut Ways, stream: &[u8], formula: &Record) {
    let after = formula.at + 4 + formula.size;
    let Some(first) = record(stream, after) else {
        return ways.meet(match stream.len() - after {
            0 => "the stream's end, 6 at the formula",
            _ => "a cut header, 6 at the formula",
        });
    };
    if first.is_between() && first.is_large() {
        return ways.meet("a large record between, 6 at the formula");
    }
    if first.is_between() && first.is_cut() {
        return ways.meet("a cut record between, 6 at the formula");
    }
    if !first.is_between() {
        return ways.meet(match first.kind {
            CONTINUE => "a CONTINUE, 6 at the formula",
            _ => "another record, 6 at the formula",
        });
    }
    let after = after + 4 + first.size;
    ways.meet(match record(stream, after) {
        None if stream.len() == after => {
            "the stream's end after the record between, 6 at the formula"
        }
        None => "a cut header after the record between, 6 at the formula",
        Some(second) if second.is_between() => "two records between, 6 at the formula",
        Some(second) if second.kind == CONTINUE => {
            "a CONTINUE after the record between, 6 at the formula"
        }
        Some(_) => "another record after the record between, 6 at the formula",
    });
}

/// A STRING that is at fault itself.
fn meet_broken(ways: &mut Ways, text: &Record) {
    let Some((head, characters)) = text.body.split_first_chunk::<3>() else {
        return ways.meet("a cut head, 6");
    };
    let length = usize::from(u16::from_le_bytes([head[0], head[1]]));
    let width = 1 + usize::from(head[2] & 1);
    ways.meet(match characters.len() {
        size if size > length * width => "bytes left over in the STRING, 6",
        size if size < width => "no first character, 6",
        size if size % width != 0 => "a cut character in the STRING, 6",
        _ => "no CONTINUE after the STRING, 6",
    });
}

/// A CONTINUE that is at fault: the characters of its text are counted up to it.
fn meet_broken_later(ways: &mut Ways, records: &[Record], number: usize) {
    let first = records[..number]
        .iter()
        .rposition(|record| record.kind != CONTINUE)
        .expect("a STRING");
    let body = records[first].body;
    let length = usize::from(u16::from_le_bytes([body[0], body[1]]));
    let mut left = length - (body.len() - 3) / (1 + usize::from(body[2] & 1));
    for record in &records[first + 1..number] {
        left -= (record.body.len() - 1) / (1 + usize::from(record.body[0] & 1));
    }
    let body = records[number].body;
    let Some((&flags, characters)) = body.split_first() else {
        return ways.meet(match left {
            0 => "an empty CONTINUE too many, 6",
            _ => "an empty CONTINUE, 6",
        });
    };
    let width = 1 + usize::from(flags & 1);
    ways.meet(match characters.len() {
        _ if left == 0 => "a CONTINUE too many, 6",
        0 => "a flags byte alone, 6",
        size if size > left * width => "bytes left over in a CONTINUE, 6",
        size if size % width != 0 => "a cut character in a CONTINUE, 6",
        _ => "no CONTINUE after a CONTINUE, 6",
    });
}

/// A STRING that no formula waits for.
fn meet_stray(ways: &mut Ways, before: &[Record]) {
    let last = before.last().expect("a BOF");
    let formula_before = matches!(before, [.., formula, _] if formula.kind == FORMULA);
    let is_cell = [0x00BD, 0x00BE, 0x00FD, 0x0201, 0x0203, 0x0205, 0x027E].contains(&last.kind);
    ways.meet(match last.kind {
        FORMULA => "a STRING after another result, 6",
        STRING => "a STRING after a whole text, 6",
        CONTINUE if in_text(before) => "a STRING after a whole text, 6",
        _ if is_cell => "a STRING after a cell, 6",
        _ if last.is_between() && formula_before => "a STRING after another result and a record, 6",
        _ => "a STRING after something else, 6",
    });
}
