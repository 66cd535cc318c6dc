//! The questions, and how each is answered.

use crate::journals;
use crate::pairs;
use crate::words::{bytes, number, numbers};
use station::{Cell, Compacted, Difference, Pair, Refusal, LONGEST_STREAM, LONGEST_STRING};
use std::fmt::Write;

/// A question: its name, the words after it, what it asks, and the answer to such words; none where they are not what it takes.
struct Question {
    name: &'static str,
    words: &'static str,
    asks: &'static str,
    answer: fn(&[&[u8]]) -> Option<String>,
}

/// All of them.
const QUESTIONS: [Question; 14] = [
    Question {
        name: "check",
        words: "S",
        asks: "whether the stream passes",
        answer: check,
    },
    Question {
        name: "judge",
        words: "TOKENS TRAILING",
        asks: "whether a formula's tokens, and the bytes after them, are right",
        answer: judge,
    },
    Question {
        name: "cells",
        words: "S SHEET",
        asks: "the cells of a sheet, with format and place",
        answer: cells,
    },
    Question {
        name: "text",
        words: "S SHEET ROW COLUMN UNITS",
        asks: "the text of a formula's result, for a buffer of UNITS units",
        answer: text,
    },
    Question {
        name: "fill",
        words: "S NUMBERS",
        asks: "the places of the shared strings, for a table of NUMBERS numbers (up to 16777216)",
        answer: fill,
    },
    Question {
        name: "fetch-through",
        words: "S TABLE INDEX UNITS",
        asks: "a string by its place in a table of numbers joined by commas, for a buffer of UNITS units",
        answer: fetch_through,
    },
    Question {
        name: "pair",
        words: "T S QUESTION",
        asks: "a question over a template (T) and a session, its words with single blanks between: check; sheets; sheet N; cells N; \
               fetch session|template INDEX UNITS; text SHEET ROW COLUMN UNITS; correct SHEET ROW COLUMN KIND VALUE, where KIND is number \
               (VALUE the 64 bits in hex), text, truth or error (VALUE in hex)",
        answer: pairs::pair,
    },
    Question {
        name: "pair-fill",
        words: "T S NUMBERS NUMBERS",
        asks: "the places of the strings of both, for a table of NUMBERS numbers for the template and one for the session",
        answer: pairs::fill,
    },
    Question {
        name: "journal",
        words: "T S J QUESTION",
        asks: "a question on a journal (J) of the stream's corrections, over a template where T isn't -: start; correct SHEET ROW COLUMN KIND VALUE; \
               forwards; backwards. After the answer, with tabs between, the changed bytes of the stream and of the journal",
        answer: journals::journal,
    },
    Question {
        name: "compare",
        words: "A B",
        asks: "where two streams differ, by sheet, row and column",
        answer: compare,
    },
    Question {
        name: "compact",
        words: "S ROOM",
        asks: "the stream without its unused strings, for a buffer of ROOM bytes: after the answer and a tab the new stream",
        answer: compact,
    },
    Question {
        name: "compact-session",
        words: "T S ROOM",
        asks: "the same for a session over a template (T)",
        answer: pairs::compact,
    },
    Question {
        name: "profile",
        words: "S",
        asks: "whether the stream is a sensor's session",
        answer: profile,
    },
    Question {
        name: "cadence",
        words: "S ROW",
        asks: "what lies between a row of a session and the next",
        answer: cadence,
    },
];

/// The answer to a line, without its end; none where it is no question.
pub fn answer(line: &[u8]) -> Option<String> {
    let words: Vec<&[u8]> = line.split(|&byte| byte == b'\t').collect();
    let (name, words) = words.split_first()?;
    let question = QUESTIONS
        .iter()
        .find(|question| question.name.as_bytes() == *name)?;
    (question.answer)(words)
}

/// What is asked and how, a line each.
pub fn help() -> String {
    let mut help = String::from(
        "ask: answers questions about workbook streams, one a line from standard input, words separated by tabs, with one line each.\n\
         Streams (S, A, B) and formula bytes are in hex, - is none, numbers are decimal. A line that is no question gets 'wrong question'.\n\n",
    );
    for question in &QUESTIONS {
        let usage = format!("{} {}", question.name, question.words);
        // Writing to a string never fails.
        let _ = writeln!(help, "  {usage:36}{}", question.asks);
    }
    help
}

/// `ok`, or the refusal.
fn settled(answer: Result<(), Refusal>) -> String {
    match answer {
        Ok(()) => "ok".to_string(),
        Err(refusal) => refusal.line(),
    }
}

fn check(words: &[&[u8]]) -> Option<String> {
    let [stream] = words else { return None };
    Some(settled(station::check(&bytes(stream)?).map(|_| ())))
}

fn judge(words: &[&[u8]]) -> Option<String> {
    let [tokens, trailing] = words else {
        return None;
    };
    Some(settled(station::judge(&bytes(tokens)?, &bytes(trailing)?)))
}

fn cells(words: &[&[u8]]) -> Option<String> {
    let [stream, sheet] = words else { return None };
    let (stream, sheet) = (bytes(stream)?, number(sheet)?);
    Some(match station::cells(&stream, sheet) {
        Ok(cells) => joined(cells),
        Err(refusal) => refusal.line(),
    })
}

/// The cells one after another, each as the program prints it, with its format and the place of its value field; `-` where there is none.
fn joined(cells: impl Iterator<Item = Cell>) -> String {
    let mut line = String::new();
    for cell in cells {
        let between = if line.is_empty() { "" } else { " ; " };
        let (format, place) = (cell.format(), cell.field());
        // Writing to a string never fails.
        let _ = write!(line, "{between}{cell} format {format} place {place}");
    }
    if line.is_empty() {
        line.push('-');
    }
    line
}

fn text(words: &[&[u8]]) -> Option<String> {
    let [stream, sheet, row, column, room] = words else {
        return None;
    };
    let stream = bytes(stream)?;
    let (sheet, row, column) = (number(sheet)?, number(row)?, number(column)?);
    fetched(room, |buffer| {
        station::text(&stream, sheet, row, column, buffer)
    })
}

/// What a fetch gives for a buffer of so many units.
fn fetched(
    room: &[u8],
    fetch: impl FnOnce(&mut [u16]) -> Result<usize, Refusal>,
) -> Option<String> {
    // A larger buffer answers the same.
    let room = (number(room)? as usize).min(LONGEST_STRING);
    let mut buffer = vec![0; room];
    let answer = fetch(&mut buffer);
    Some(answer.map_or_else(|refusal| refusal.line(), |count| units(&buffer[..count])))
}

/// How many units there are, and the units as one run of hex; `-` for none.
pub fn units(units: &[u16]) -> String {
    let mut line = format!("units {} ", units.len());
    for unit in units {
        // Writing to a string never fails.
        let _ = write!(line, "{unit:04X}");
    }
    if units.is_empty() {
        line.push('-');
    }
    line
}

/// No stream has strings for more numbers, and every number of a table is answered: a line has its limits.
pub const LARGEST_TABLE: u32 = 16_777_216;

fn fill(words: &[&[u8]]) -> Option<String> {
    let [stream, size] = words else { return None };
    let (stream, size) = (bytes(stream)?, number(size)?);
    if size > LARGEST_TABLE {
        return None;
    }
    let mut table = vec![0; size as usize];
    Some(match station::fill(&stream, &mut table) {
        Ok(_) => format!("filled {}", numbers_of(&table)),
        Err(refusal) => refusal.line(),
    })
}

/// Every number of a table; `-` where it has none.
pub fn numbers_of(table: &[u32]) -> String {
    let mut line = String::new();
    for (place, number) in table.iter().enumerate() {
        let between = if place == 0 { "" } else { "," };
        // Writing to a string never fails.
        let _ = write!(line, "{between}{number}");
    }
    if table.is_empty() {
        line.push('-');
    }
    line
}

fn fetch_through(words: &[&[u8]]) -> Option<String> {
    let [stream, table, index, room] = words else {
        return None;
    };
    let (stream, table, index) = (bytes(stream)?, numbers(table)?, number(index)?);
    fetched(room, |buffer| {
        station::fetch_through(&stream, &table, index, buffer)
    })
}

fn compare(words: &[&[u8]]) -> Option<String> {
    let [first, second] = words else { return None };
    let (first, second) = (bytes(first)?, bytes(second)?);
    Some(match station::compare(&first, &second) {
        Ok(differences) => apart(differences),
        Err(refused) => refused.line(),
    })
}

/// The differences one after another; `same` where there is none.
fn apart(differences: impl Iterator<Item = Difference>) -> String {
    let mut line = String::new();
    for difference in differences {
        let between = if line.is_empty() { "" } else { " ; " };
        // Writing to a string never fails.
        let _ = write!(line, "{between}{difference}");
    }
    if line.is_empty() {
        line.push_str("same");
    }
    line
}

fn compact(words: &[&[u8]]) -> Option<String> {
    let [stream, room] = words else { return None };
    let stream = bytes(stream)?;
    let written = new_stream(room, |buffer| station::compact(&stream, buffer))?;
    Some(written.unwrap_or_else(|refusal| refusal.line()))
}

/// How many bytes a new stream has in a buffer of so many, how many are freed, and after a tab the new stream; or why there is none.
pub fn new_stream<R>(
    room: &[u8],
    write: impl FnOnce(&mut [u8]) -> Result<Compacted, R>,
) -> Option<Result<String, R>> {
    // A larger buffer answers the same.
    let room = (number(room)? as usize).min(LONGEST_STREAM);
    let mut buffer = vec![0; room];
    Some(write(&mut buffer).map(|Compacted { written, freed }| {
        let mut line = format!("written {written} freed {freed}\t");
        line.reserve(2 * written);
        for byte in &buffer[..written] {
            // Writing to a string never fails.
            let _ = write!(line, "{byte:02X}");
        }
        line
    }))
}

fn profile(words: &[&[u8]]) -> Option<String> {
    let [stream] = words else { return None };
    Some(settled(station::profile(&bytes(stream)?).map(|_| ())))
}

fn cadence(words: &[&[u8]]) -> Option<String> {
    let [stream, row] = words else { return None };
    let answer = station::cadence(&bytes(stream)?, number(row)?);
    Some(answer.map_or_else(|refusal| refusal.line(), between))
}

/// `pause`, or `elapsed` with ticks, turns and cadence, where `none` is no cadence.
fn between(pair: Pair) -> String {
    match pair {
        Pair::Pause => "pause".to_string(),
        Pair::Elapsed {
            ticks,
            turns,
            cadence,
        } => {
            let cadence = cadence.map_or("none".to_string(), |cadence| cadence.to_string());
            format!("elapsed {ticks} {turns} {cadence}")
        }
    }
}
