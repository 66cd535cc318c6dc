//! A sheet as it is named on the command line: by its number, or by its name.

use crate::arguments::whole;
use crate::nearest::nearest;
use crate::outcome::Failure;
use crate::source::Checked;
use crate::text::Word;
use std::ffi::OsStr;

/// Stands before a name that could be taken for a number.
const PREFIX: &str = "name:";

/// The number of no sheet, for the library to refuse: no stream has as many.
const ABSENT: u32 = u32::MAX;

pub enum Wanted {
    Number(u32),
    Name(String),
}

impl Wanted {
    /// Digits are a number, always: which sheet is meant never depends on the names in the file.
    pub fn read(what: &str, word: &OsStr) -> Result<Self, Failure> {
        match word.to_str() {
            Some(text) if text.bytes().all(|byte| byte.is_ascii_digit()) => {
                whole(what, word).map(Wanted::Number)
            }
            Some(text) => {
                let name = text.strip_prefix(PREFIX).unwrap_or(text);
                Ok(Wanted::Name(name.to_string()))
            }
            None => Err(Failure::usage(format!(
                "{what} is a number or a name in UTF-8, not '{}'",
                Word(word)
            ))),
        }
    }

    /// The number of the sheet: the first of that name, or one that no sheet has.
    pub fn number(&self, checked: &Checked<'_>) -> u32 {
        match self {
            Wanted::Number(number) => *number,
            Wanted::Name(name) => place_of(name, checked).unwrap_or(ABSENT),
        }
    }

    /// What there is to say where there is no such sheet.
    pub fn note(&self, checked: &Checked<'_>) -> Option<String> {
        let sheets = checked.sheet_count();
        match self {
            Wanted::Number(number) if (*number as usize) < sheets => None,
            Wanted::Number(number) => {
                let named = match place_of(&number.to_string(), checked) {
                    Some(place) => {
                        format!("; the name {number} is that of sheet {place}: {PREFIX}{number}")
                    }
                    None => String::new(),
                };
                Some(format!("there are {sheets} sheets, counted from 0{named}"))
            }
            Wanted::Name(name) if place_of(name, checked).is_some() => None,
            Wanted::Name(name) => {
                let names: Vec<_> = names(checked)
                    .map(|name| String::from_utf16_lossy(&name))
                    .collect();
                let meant = match nearest(name.as_ref(), names.iter().map(String::as_str)) {
                    Some(near) => format!("; did you mean '{}'?", Word(near.as_ref())),
                    None => String::new(),
                };
                let name = Word(name.as_ref());
                Some(format!("no sheet is named '{name}'{meant}"))
            }
        }
    }
}

fn names<'w>(checked: &Checked<'w>) -> impl Iterator<Item = Vec<u16>> + 'w {
    checked
        .sheets()
        .map(|(_, sheet)| sheet.name_units().collect())
}

/// The first sheet with exactly this name.
fn place_of(name: &str, checked: &Checked<'_>) -> Option<u32> {
    let units: Vec<u16> = name.encode_utf16().collect();
    let place = names(checked).position(|name| name == units)?;
    u32::try_from(place).ok()
}
