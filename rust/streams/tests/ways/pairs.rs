//! K5: templates and sessions, and what is asked of them; K14: two corrections of
//! one stream.

use crate::{Ways, SEEDS};
use second_reader::{
    check, correct, pair_check, pair_correct, pair_fetch, pair_sheet, pair_text, read, PairRefusal,
    SheetType, Value, Whose,
};
use streams::{Correction, NewValue, Pair};

/// The records of the globals, as far as they go: type and body.
fn globals(stream: &[u8]) -> Vec<(u16, &[u8])> {
    let mut records = Vec::new();
    let mut rest = stream;
    while let [a, b, c, d, after @ ..] = rest {
        let (kind, size) = (u16::from_le_bytes([*a, *b]), u16::from_le_bytes([*c, *d]));
        let Some(body) = after.get(..usize::from(size)) else {
            break;
        };
        if kind == 0x000A {
            break;
        }
        records.push((kind, body));
        rest = &after[body.len()..];
    }
    records
}

/// How many strings its own table has, where it has one.
fn own(stream: &[u8]) -> Option<u32> {
    let records = globals(stream);
    let (_, body) = records.iter().find(|(kind, _)| *kind == 0x00FC)?;
    let count = body.get(4..8)?;
    Some(u32::from_le_bytes(count.try_into().ok()?))
}

fn sheets(stream: &[u8]) -> usize {
    let records = globals(stream);
    records.iter().filter(|(kind, _)| *kind == 0x0085).count()
}

/// The index of the text cell whose record stands there.
fn index_at(stream: &[u8], record: usize) -> Option<u32> {
    let field = stream.get(record + 10..record + 14)?;
    Some(u32::from_le_bytes(field.try_into().ok()?))
}

#[test]
fn templates_and_sessions() {
    let mut ways = Ways::new(&[
        "a session without a table, over a template with strings",
        "a session without a table, over one without strings",
        "a session with an empty table, over a template with strings",
        "a session with strings of its own, fewer than the template",
        "a session with strings of its own, more than the template",
        "a session that is refused alone",
        "more sheets in the session",
        "more sheets in the template",
        "as many sheets in both",
        "no sheet in either",
        "both are refused alone, and the template is told",
        "the template alone is refused",
        "the session alone is refused",
        "9 at the template's count",
        "9 at its own count, where the template has more",
        "9 in the template",
    ]);
    for seed in 0..SEEDS / 4 {
        let pair = streams::pair(seed);
        let Pair { template, session } = &pair;
        match pair_check(template, session) {
            Err(PairRefusal::Stream(Whose::Template, refusal)) => {
                ways.meet(match check(session) {
                    Err(other) if other.number != 9 => {
                        "both are refused alone, and the template is told"
                    }
                    _ => "the template alone is refused",
                });
                if refusal.number == 9 {
                    ways.meet("9 in the template");
                }
            }
            Err(PairRefusal::Stream(Whose::Session, refusal)) => {
                ways.meet("the session alone is refused");
                let lent = own(template).unwrap_or(0);
                let index = index_at(session, refusal.offset);
                match own(session) {
                    _ if refusal.number != 9 => {}
                    None if index == Some(lent) => ways.meet("9 at the template's count"),
                    Some(own) if index == Some(own) && own < lent => {
                        ways.meet("9 at its own count, where the template has more");
                    }
                    _ => {}
                }
            }
            Err(PairRefusal::Question(refusal)) => panic!("seed {seed}: {refusal}"),
            Ok(count) => {
                let counts = (sheets(session), sheets(template));
                assert_eq!(count as usize, counts.0.max(counts.1));
                meet_passed(&mut ways, &pair, counts);
            }
        }
    }
    ways.assert_met();
}

fn meet_passed(ways: &mut Ways, Pair { template, session }: &Pair, counts: (usize, usize)) {
    let lent = own(template).unwrap_or(0);
    match own(session) {
        None if lent > 0 => ways.meet("a session without a table, over a template with strings"),
        None => ways.meet("a session without a table, over one without strings"),
        Some(0) if lent > 0 => {
            ways.meet("a session with an empty table, over a template with strings");
        }
        Some(0) => {}
        Some(own) if own < lent => {
            ways.meet("a session with strings of its own, fewer than the template");
        }
        Some(_) => ways.meet("a session with strings of its own, more than the template"),
    }
    if check(session).is_err() {
        ways.meet("a session that is refused alone");
    }
    ways.meet(match counts {
        (0, 0) => "no sheet in either",
        (own, other) if own > other => "more sheets in the session",
        (own, other) if own < other => "more sheets in the template",
        _ => "as many sheets in both",
    });
}

#[test]
fn questions_over_both() {
    let mut ways = Ways::new(&[
        "a sheet of the session, and none of the template",
        "a sheet of the session that hides one of the template",
        "a sheet of the template",
        "a sheet of neither, 11",
        "the session's index, in its own table",
        "the session's index, in the template's table",
        "the session's index past its own table, where the template has it, 11",
        "the session's index past the template's table, 11",
        "the template's index, where the session has a table",
        "the template's index past its table, where the session has it, 11",
        "a short buffer, 12",
        "a text of the session",
        "a text of the template",
        "a text that the session's sheet hides, 11",
    ]);
    for seed in 0..SEEDS / 4 {
        let pair = streams::pair(seed);
        let Pair { template, session } = &pair;
        if pair_check(template, session).is_err() {
            continue;
        }
        let number = streams::pair_sheet(seed, &pair);
        ways.meet(match pair_sheet(template, session, number) {
            Err(_) => "a sheet of neither, 11",
            Ok(sheet) if sheet.whose == Whose::Template => "a sheet of the template",
            Ok(_) if (number as usize) < sheets(template) => {
                "a sheet of the session that hides one of the template"
            }
            Ok(_) => "a sheet of the session, and none of the template",
        });
        meet_fetch(&mut ways, seed, &pair);
        meet_text(&mut ways, seed, &pair);
    }
    ways.assert_met();
}

fn meet_fetch(ways: &mut Ways, seed: u64, pair: &Pair) {
    let Pair { template, session } = pair;
    let ask = streams::pair_fetch(seed, pair);
    let asked = match ask.of_template {
        true => Whose::Template,
        false => Whose::Session,
    };
    let mut buffer = vec![0; ask.units];
    let answer = pair_fetch(template, session, asked, ask.index, &mut buffer);
    let (lent, kept) = (own(template).unwrap_or(0), own(session));
    match (answer, asked) {
        (Ok((Whose::Session, _)), _) => ways.meet("the session's index, in its own table"),
        (Ok(_), Whose::Session) => ways.meet("the session's index, in the template's table"),
        (Ok(_), Whose::Template) if kept.is_some() => {
            ways.meet("the template's index, where the session has a table");
        }
        (Ok(_), Whose::Template) => {}
        (Err(PairRefusal::Question(refusal)), _) if refusal.number == 12 => {
            ways.meet("a short buffer, 12");
        }
        (Err(_), Whose::Session) if kept.is_some() && ask.index < lent => {
            ways.meet("the session's index past its own table, where the template has it, 11");
        }
        (Err(_), Whose::Session) if kept.is_none() => {
            ways.meet("the session's index past the template's table, 11");
        }
        (Err(_), Whose::Template) if kept.is_some_and(|kept| ask.index < kept) => {
            ways.meet("the template's index past its table, where the session has it, 11");
        }
        (Err(_), _) => {}
    }
}

fn meet_text(ways: &mut Ways, seed: u64, pair: &Pair) {
    let Pair { template, session } = pair;
    let ask = streams::pair_text(seed, pair);
    let mut buffer = vec![0; ask.units];
    let (sheet, row, column) = (ask.sheet, ask.row, ask.column);
    match pair_text(template, session, sheet, row, column, &mut buffer) {
        Ok((Whose::Session, _)) => ways.meet("a text of the session"),
        Ok((Whose::Template, _)) => ways.meet("a text of the template"),
        Err(_) => {
            let hidden = second_reader::text(template, sheet, row, column, &mut buffer).is_ok();
            if hidden && (sheet as usize) < sheets(session) {
                ways.meet("a text that the session's sheet hides, 11");
            }
        }
    }
}

#[test]
fn corrections_over_both() {
    let mut ways = Ways::new(&[
        "granted",
        "granted, an index in the template's table",
        "an index at the template's count, 18",
        "an index that the template has and its own table hasn't, 18",
        "aimed at a cell of the template, 17",
        "aimed at no cell of the template, 17",
        "aimed at a chart or macro sheet of the template, 17",
        "another kind of value, 17",
        "no such cell in the session, where the template's sheet has it, 11",
        "a sheet of neither, 11",
        "an address twice, 16",
    ]);
    for seed in 0..SEEDS / 8 {
        let pair = streams::pair(seed);
        if pair_check(&pair.template, &pair.session).is_err() {
            continue;
        }
        for turn in 4 * seed..4 * seed + 4 {
            meet_correction(&mut ways, turn, &pair);
        }
    }
    ways.assert_met();
}

fn meet_correction(ways: &mut Ways, seed: u64, pair: &Pair) {
    let Pair { template, session } = pair;
    let ask = streams::pair_correction(seed, pair);
    let mut changed = session.clone();
    let (sheet, row, column) = (ask.sheet, ask.row, ask.column);
    let value = value_of(ask.value);
    let answer = pair_correct(template, &mut changed, sheet, row, column, value);
    let (lent, kept) = (own(template).unwrap_or(0), own(session));
    let text = match ask.value {
        NewValue::Text(index) => Some(index),
        _ => None,
    };
    let number = match answer {
        Ok(()) => 0,
        Err(PairRefusal::Question(refusal)) => refusal.number,
        Err(refused) => panic!("seed {seed}: {refused:?}"),
    };
    let whose = pair_sheet(template, session, sheet).map(|told| told.whose);
    match (number, whose) {
        (0, _) => {
            ways.meet("granted");
            if text.is_some() && kept.is_none() {
                ways.meet("granted, an index in the template's table");
            }
        }
        (18, _) if kept.is_none() && text == Some(lent) => {
            ways.meet("an index at the template's count, 18");
        }
        (18, _) if kept.is_some() && text.is_some_and(|text| text < lent) => {
            ways.meet("an index that the template has and its own table hasn't, 18");
        }
        (17, Ok(Whose::Template)) => ways.meet(aimed(template, ask)),
        (17, _) => ways.meet("another kind of value, 17"),
        (16, _) => ways.meet("an address twice, 16"),
        (11, Err(_)) => ways.meet("a sheet of neither, 11"),
        (11, Ok(_)) if has_cell(template, ask) => {
            ways.meet("no such cell in the session, where the template's sheet has it, 11");
        }
        _ => {}
    }
}

fn value_of(value: NewValue) -> second_reader::NewValue {
    match value {
        NewValue::Number(number) => second_reader::NewValue::Number(number),
        NewValue::Text(index) => second_reader::NewValue::Text(index),
        NewValue::Truth(truth) => second_reader::NewValue::Truth(truth),
        NewValue::Error(code) => second_reader::NewValue::Error(code),
    }
}

fn has_cell(stream: &[u8], ask: Correction) -> bool {
    let mut found = false;
    let listed = second_reader::list_cells(stream, ask.sheet as usize, |cell| {
        found |= (u32::from(cell.row), u32::from(cell.column)) == (ask.row, ask.column);
    });
    listed.is_ok() && found
}

fn aimed(template: &[u8], ask: Correction) -> &'static str {
    let reading = read(template).expect("a template that passes");
    match reading.sheets[ask.sheet as usize].sheet_type {
        SheetType::Worksheet if has_cell(template, ask) => "aimed at a cell of the template, 17",
        SheetType::Worksheet => "aimed at no cell of the template, 17",
        _ => "aimed at a chart or macro sheet of the template, 17",
    }
}

/// The kind of record that a cell stands in, as far as its value tells.
fn field_size(stream: &[u8], ask: Correction) -> Option<usize> {
    let mut size = None;
    let listed = second_reader::list_cells(stream, ask.sheet as usize, |cell| {
        let here = (u32::from(cell.row), u32::from(cell.column)) == (ask.row, ask.column);
        if here && matches!(cell.value, Value::Number(_)) {
            size = Some(cell.value_field.len());
        }
    });
    listed.ok().and(size)
}

#[test]
fn two_corrections() {
    let mut ways = Ways::new(&[
        "one cell, both granted",
        "one cell, both granted with unequal bytes",
        "one cell, only the first granted",
        "one cell, only the second granted",
        "two cells, both granted",
        "two packed neighbours, both granted",
        "two cells, one granted",
        "two sheets, both granted",
    ]);
    for seed in 0..SEEDS / 4 {
        let stream = streams::valid(seed);
        let [first, second] = streams::corrections(seed, &stream);
        let alone = |ask: Correction| {
            let mut changed = stream.clone();
            let value = value_of(ask.value);
            let answer = correct(&mut changed, ask.sheet, ask.row, ask.column, value);
            (answer.is_ok(), changed)
        };
        let ((one, bytes), (other, others)) = (alone(first), alone(second));
        let address = |ask: Correction| (ask.sheet, ask.row, ask.column);
        let same = address(first) == address(second);
        match (same, one, other) {
            (true, true, true) => {
                ways.meet("one cell, both granted");
                if bytes != others {
                    ways.meet("one cell, both granted with unequal bytes");
                }
            }
            (true, true, false) => ways.meet("one cell, only the first granted"),
            (true, false, true) => ways.meet("one cell, only the second granted"),
            (false, true, true) => {
                ways.meet("two cells, both granted");
                if first.sheet != second.sheet {
                    ways.meet("two sheets, both granted");
                }
                let near = first.row == second.row && first.column + 1 == second.column;
                let packed = [first, second].map(|ask| field_size(&stream, ask) == Some(4));
                if near && first.sheet == second.sheet && packed == [true, true] {
                    ways.meet("two packed neighbours, both granted");
                }
            }
            (false, true, false) | (false, false, true) => ways.meet("two cells, one granted"),
            (_, false, false) => {}
        }
    }
    ways.assert_met();
}
