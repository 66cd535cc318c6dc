//! The three kinds of record of the globals that dates hang on: DATEMODE, FORMAT and XF.

use crate::format::{self, Shows};
use crate::{Formats, System};
use std::collections::HashMap;

const EOF: u16 = 0x000A;
const DATEMODE: u16 = 0x0022;
const XF: u16 = 0x00E0;
const FORMAT: u16 = 0x041E;

const XF_SIZE: usize = 20;
/// No format string has more characters.
const LONGEST_FORMAT: usize = 255;
/// A cell names its XF record by 16 bits.
const MOST_XFS: usize = 65_536;

/// The system is taken where the stream says nothing about it.
pub fn read(stream: &[u8], unsaid: Option<System>) -> Formats {
    let mut said = None;
    let mut formats = HashMap::new();
    let mut xfs = Vec::new();
    for (kind, body) in (Records { rest: stream }) {
        match kind {
            DATEMODE => said = Some(agreed(said, system(body))),
            FORMAT => formats.extend(number_format(body)),
            XF if xfs.len() < MOST_XFS => xfs.push(number_format_index(body)),
            _ => {}
        }
    }
    let shows = |index: u16| match formats.get(&index) {
        Some(&shows) => shows,
        None => format::built_in(index),
    };
    Formats {
        system: said.unwrap_or(unsaid),
        shows: xfs
            .into_iter()
            .map(|index| index.map_or(Shows::NUMBERS, shows))
            .collect(),
    }
}

/// The records of the globals, each with its type and its body: up to the first EOF, since nothing sits inside the globals, or up to what is cut.
struct Records<'a> {
    rest: &'a [u8],
}

impl<'a> Iterator for Records<'a> {
    type Item = (u16, &'a [u8]);

    fn next(&mut self) -> Option<Self::Item> {
        let kind = u16_at(self.rest, 0)?;
        let size = usize::from(u16_at(self.rest, 2)?);
        let (body, rest) = self.rest.get(4..)?.split_at_checked(size)?;
        self.rest = rest;
        (kind != EOF).then_some((kind, body))
    }
}

fn u16_at(bytes: &[u8], at: usize) -> Option<u16> {
    let bytes = bytes.get(at..at + 2)?;
    Some(u16::from_le_bytes([bytes[0], bytes[1]]))
}

/// What a DATEMODE record says; `None` for a damaged one.
fn system(body: &[u8]) -> Option<System> {
    match body {
        [0, 0] => Some(System::From1900),
        [1, 0] => Some(System::From1904),
        _ => None,
    }
}

/// What all DATEMODE records up to this one say. One is enough to leave it open: four years hang on it.
fn agreed(before: Option<Option<System>>, this: Option<System>) -> Option<System> {
    match before {
        None => this,
        Some(before) => before.filter(|_| before == this),
    }
}

/// The index of an XF record's number format. A damaged record has none, but counts: cells name the records by their order.
fn number_format_index(body: &[u8]) -> Option<u16> {
    if body.len() == XF_SIZE {
        u16_at(body, 2)
    } else {
        None
    }
}

/// The index of a FORMAT record, and how its format shows numbers; `None` for a damaged one.
fn number_format(body: &[u8]) -> Option<(u16, Shows)> {
    let index = u16_at(body, 0)?;
    let length = usize::from(u16_at(body, 2)?);
    let wide = body.get(4)? & 1 == 1;
    let characters = body.get(5..)?;
    let size = if wide { 2 * length } else { length };
    if length == 0 || length > LONGEST_FORMAT || characters.len() != size {
        return None;
    }
    let shows = if wide {
        format::shows(&ascii(characters))
    } else {
        format::shows(characters)
    };
    Some((index, shows))
}

/// Two-byte characters as bytes. Only ASCII characters mean anything in a format string: all others become one byte that means nothing either.
fn ascii(characters: &[u8]) -> Vec<u8> {
    let byte = |character: &[u8]| match *character {
        [low, 0] => low,
        _ => 0xFF,
    };
    characters.chunks_exact(2).map(byte).collect()
}
