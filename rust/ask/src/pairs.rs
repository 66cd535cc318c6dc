//! The questions over a template and a session.

use crate::questions::{new_stream, numbers_of, units, LARGEST_TABLE};
use crate::words::{bits, byte, bytes, code, number};
use station::pair::{self, Refused, Whose};
use station::{NewValue, LONGEST_STRING};
use std::fmt::{Display, Write};

/// `pair T S`, and a question of words with single blanks between.
pub fn pair(words: &[&[u8]]) -> Option<String> {
    let [template, session, question] = words else {
        return None;
    };
    let (template, session) = (bytes(template)?, bytes(session)?);
    let words: Vec<&[u8]> = question.split(|&byte| byte == b' ').collect();
    let (&name, words) = words.split_first()?;
    match name {
        b"check" => check(&template, &session, words),
        b"sheets" => sheets(&template, &session, words),
        b"sheet" => sheet(&template, &session, words),
        b"cells" => cells(&template, &session, words),
        b"fetch" => fetch(&template, &session, words),
        b"text" => text(&template, &session, words),
        b"correct" => correct(&template, session, words),
        _ => None,
    }
}

/// The answer, or the refusal with whose it is.
fn told<A: Display>(answer: Result<A, Refused>) -> String {
    answer.map_or_else(|refused| refused.line(), |answer| answer.to_string())
}

fn check(template: &[u8], session: &[u8], words: &[&[u8]]) -> Option<String> {
    let [] = words else { return None };
    Some(told(pair::check(template, session).map(|_| "ok")))
}

fn sheets(template: &[u8], session: &[u8], words: &[&[u8]]) -> Option<String> {
    let [] = words else { return None };
    let pair = pair::check(template, session);
    Some(told(pair.map(|pair| pair.sheet_count())))
}

/// The type as a BOUNDSHEET has it, 0, 1 or 2.
fn sheet(template: &[u8], session: &[u8], words: &[&[u8]]) -> Option<String> {
    let [wanted] = words else { return None };
    let sheet = pair::sheet(template, session, number(wanted)?);
    Some(told(sheet.map(|sheet| {
        format!(
            "{} type {} width {} rows {} name at {} bytes {}",
            sheet.whose,
            sheet.kind as u8,
            sheet.width,
            sheet.rows,
            sheet.name_at,
            sheet.name.len()
        )
    })))
}

fn cells(template: &[u8], session: &[u8], words: &[&[u8]]) -> Option<String> {
    let [sheet] = words else { return None };
    let listed = pair::cells(template, session, number(sheet)?);
    Some(told(listed.map(|(whose, cells)| {
        let mut line = whose.to_string();
        for cell in cells {
            // Writing to a string never fails.
            let _ = write!(line, " ; {cell}");
        }
        line
    })))
}

fn whose(word: &[u8]) -> Option<Whose> {
    match word {
        b"session" => Some(Whose::Session),
        b"template" => Some(Whose::Template),
        _ => None,
    }
}

fn fetch(template: &[u8], session: &[u8], words: &[&[u8]]) -> Option<String> {
    let [asked, index, room] = words else {
        return None;
    };
    let (asked, index) = (whose(asked)?, number(index)?);
    fetched(room, |buffer| {
        pair::fetch(template, session, asked, index, buffer)
    })
}

fn text(template: &[u8], session: &[u8], words: &[&[u8]]) -> Option<String> {
    let [sheet, row, column, room] = words else {
        return None;
    };
    let (sheet, row, column) = (number(sheet)?, number(row)?, number(column)?);
    fetched(room, |buffer| {
        pair::text(template, session, sheet, row, column, buffer)
    })
}

/// What a fetch gives for a buffer of so many units, with whose string it is.
fn fetched(
    room: &[u8],
    fetch: impl FnOnce(&mut [u16]) -> Result<(Whose, usize), Refused>,
) -> Option<String> {
    // A larger buffer answers the same.
    let mut buffer = vec![0; (number(room)? as usize).min(LONGEST_STRING)];
    let answer = fetch(&mut buffer);
    Some(told(answer.map(|(whose, count)| {
        format!("{whose} {}", units(&buffer[..count]))
    })))
}

fn correct(template: &[u8], mut session: Vec<u8>, words: &[&[u8]]) -> Option<String> {
    let [sheet, row, column, kind, value] = words else {
        return None;
    };
    let (sheet, row, column) = (number(sheet)?, number(row)?, number(column)?);
    let value = new_value(kind, value)?;
    let before = session.clone();
    let answer = pair::correct(template, &mut session, sheet, row, column, value);
    Some(told(
        answer.map(|()| format!("granted {}", changed(&before, &session))),
    ))
}

pub fn new_value(kind: &[u8], value: &[u8]) -> Option<NewValue> {
    match kind {
        b"number" => Some(NewValue::Number(f64::from_bits(bits(value)?))),
        b"text" => Some(NewValue::Text(number(value)?)),
        b"truth" => Some(NewValue::Truth(byte(value)?)),
        b"error" => Some(NewValue::Error(code(value)?)),
        _ => None,
    }
}

/// The runs of bytes that are others now, each with its offset; `-` where there is none.
pub fn changed(before: &[u8], after: &[u8]) -> String {
    let mut line = String::new();
    let mut last = None;
    for (at, (old, new)) in before.iter().zip(after).enumerate() {
        if old == new {
            continue;
        }
        if last.is_none_or(|last| last + 1 != at) {
            let between = if line.is_empty() { "" } else { "," };
            // Writing to a string never fails.
            let _ = write!(line, "{between}{at}=");
        }
        let _ = write!(line, "{new:02X}");
        last = Some(at);
    }
    if line.is_empty() {
        line.push('-');
    }
    line
}

pub fn fill(words: &[&[u8]]) -> Option<String> {
    let [template, session, first, second] = words else {
        return None;
    };
    let (template, session) = (bytes(template)?, bytes(session)?);
    let sizes = [number(first)?, number(second)?];
    if sizes.iter().any(|&size| size > LARGEST_TABLE) {
        return None;
    }
    let [mut first, mut second] = sizes.map(|size| vec![0; size as usize]);
    let filled = pair::fill(&template, &session, &mut first, &mut second);
    Some(told(filled.map(|_| {
        format!("filled {} / {}", numbers_of(&first), numbers_of(&second))
    })))
}

/// `compact-session T S ROOM`.
pub fn compact(words: &[&[u8]]) -> Option<String> {
    let [template, session, room] = words else {
        return None;
    };
    let (template, session) = (bytes(template)?, bytes(session)?);
    new_stream(room, |buffer| pair::compact(&template, &session, buffer)).map(told)
}
