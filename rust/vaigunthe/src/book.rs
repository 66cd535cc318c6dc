//! A workbook with its strings at hand, and what its cells show.

mod number;
mod strings;

pub use number::Number;

use crate::errors;
use crate::source::{Checked, Source};
use crate::wanted::Wanted;
use dates::{Formats, System};
use station::pair::{Refused, Whose};
use station::{Cell, FormulaResult, Sheet, SheetKind, Value, LONGEST_STRING};
use std::borrow::Cow;
use std::cell::RefCell;
use strings::SharedStrings;

pub struct Book<'a> {
    checked: Checked<'a>,
    strings: SharedStrings<'a>,
    /// Room for the text of any formula.
    text: RefCell<Vec<u16>>,
    /// The one sheet that is asked for, where not all are.
    only: Option<usize>,
    /// The number formats of each stream, where dates are asked for.
    dates: Option<StreamFormats>,
}

/// A sheet, its number, and the stream that has it.
pub struct BookSheet<'a> {
    pub number: usize,
    pub whose: Whose,
    pub sheet: Sheet<'a>,
}

/// The number formats of the session, or of the one stream that there is, and of the template.
struct StreamFormats {
    session: Formats,
    template: Option<Formats>,
}

impl StreamFormats {
    fn of(&self, whose: Whose) -> &Formats {
        match (whose, &self.template) {
            (Whose::Template, Some(template)) => template,
            _ => &self.session,
        }
    }
}

/// What a cell shows.
pub enum Shown<'a> {
    /// A blank.
    Nothing,
    Number(u64),
    /// A number by ISO 8601, and the number.
    Date(String, u64),
    Text(Cow<'a, [u16]>),
    Truth(bool),
    Error(&'static str),
}

impl<'a> Book<'a> {
    pub fn read(source: &'a Source<'_>, only: Option<&Wanted>) -> Result<Self, Refused> {
        let checked = source.check()?;
        let only = match only {
            Some(wanted) => {
                let number = wanted.number(&checked);
                source.has_sheet(number)?;
                Some(number as usize)
            }
            None => None,
        };
        Ok(Book::of(checked, only))
    }

    /// Of what has passed the check, all sheets or one.
    pub fn of(checked: Checked<'a>, only: Option<usize>) -> Self {
        let strings = match (&checked, only) {
            // One sheet of several shows a part of the strings.
            (Checked::Alone(workbook), Some(_)) if workbook.sheets > 1 => {
                SharedStrings::each(workbook)
            }
            (Checked::Alone(workbook), _) => SharedStrings::all(workbook),
            (Checked::Over(pair), _) => SharedStrings::of_pair(pair),
        };
        Book {
            checked,
            strings,
            text: RefCell::new(vec![0; LONGEST_STRING]),
            only,
            dates: None,
        }
    }

    /// Whether it is of a session and its template.
    pub fn is_pair(&self) -> bool {
        matches!(self.checked, Checked::Over(_))
    }

    /// The streams that it is of.
    pub fn streams(&self) -> &'static [Whose] {
        match self.checked {
            Checked::Alone(_) => &[Whose::Session],
            Checked::Over(_) => &[Whose::Session, Whose::Template],
        }
    }

    /// The sheets that are asked for, with their numbers.
    pub fn sheets(&self) -> impl Iterator<Item = BookSheet<'a>> + 'a {
        let only = self.only;
        let asked = move |number: usize| only.is_none_or(|only| only == number);
        let sheets = self.checked.sheets().enumerate();
        let asked = sheets.filter(move |(number, _)| asked(*number));
        asked.map(|(number, (whose, sheet))| BookSheet {
            number,
            whose,
            sheet,
        })
    }

    /// Those that may have cells.
    pub fn worksheets(&self) -> impl Iterator<Item = BookSheet<'a>> + 'a {
        self.sheets()
            .filter(|page| page.sheet.kind == SheetKind::Worksheet)
    }

    /// Where no sheet is asked for, it is the one worksheet; says why that can't be.
    pub fn one_worksheet(&mut self) -> Result<(), String> {
        if self.only.is_some() {
            return Ok(());
        }
        let numbers: Vec<_> = self.worksheets().map(|page| page.number).collect();
        match numbers[..] {
            [number] => {
                self.only = Some(number);
                Ok(())
            }
            [] => Err("there is no worksheet".into()),
            _ => Err(format!(
                "there are {} worksheets: name one with --sheet, or have a file for each with --output-dir",
                numbers.len()
            )),
        }
    }

    /// From here on numbers are dates where their formats are. A workbook that doesn't say from which day it counts does so from 1900.
    pub fn show_dates(&mut self) {
        let of = |whose| Formats::read_or(self.checked.stream(whose), System::From1900);
        self.dates = Some(StreamFormats {
            session: of(Whose::Session),
            template: self.is_pair().then(|| of(Whose::Template)),
        });
    }

    pub fn shows_dates(&self) -> bool {
        self.dates.is_some()
    }

    /// The kind of a cell, and what it shows.
    pub fn shown(&self, whose: Whose, cell: &Cell) -> (&'static str, Shown<'_>) {
        let format = (whose, cell.format());
        match cell.value() {
            Value::Blank => ("blank", Shown::Nothing),
            Value::Number(bits) => ("number", self.number(format, bits)),
            Value::Text(index) => ("text", Shown::Text(self.strings.get(whose, index))),
            Value::Truth(truth) => ("truth", Shown::Truth(truth != 0)),
            Value::Error(code) => ("error", Shown::Error(errors::name(code))),
            Value::Formula(FormulaResult::Number(bits)) => {
                ("formula number", self.number(format, bits))
            }
            Value::Formula(FormulaResult::Text) => ("formula text", self.text(whose, cell)),
            Value::Formula(FormulaResult::Truth(truth)) => {
                ("formula truth", Shown::Truth(truth != 0))
            }
            Value::Formula(FormulaResult::Error(code)) => {
                ("formula error", Shown::Error(errors::name(code)))
            }
            Value::Formula(FormulaResult::Empty) => ("formula empty", Shown::Text([][..].into())),
        }
    }

    fn number(&self, (whose, format): (Whose, u16), bits: u64) -> Shown<'_> {
        let serial = f64::from_bits(bits);
        let dates = self.dates.as_ref();
        let date = dates.and_then(|dates| dates.of(whose).show(format, serial));
        match date {
            Some(date) => Shown::Date(date, bits),
            None => Shown::Number(bits),
        }
    }

    /// The text that a cell's formula has for its result.
    fn text(&self, whose: Whose, cell: &Cell) -> Shown<'_> {
        let mut room = self.text.borrow_mut();
        let count = self.checked.text(whose, cell, &mut room);
        let count = count.expect("a stream that passes has the text of each text result");
        Shown::Text(room[..count].to_vec().into())
    }

    /// The token bytes of a formula cell.
    pub fn tokens(&self, whose: Whose, cell: &Cell) -> Option<&'a [u8]> {
        match cell.value() {
            Value::Formula(_) => self.checked.stream(whose).get(cell.tokens()),
            _ => None,
        }
    }

    /// What there is to say where dates hang on a day that a stream doesn't name, and where there are none for want of it.
    pub fn about_dates(&self, whose: Whose) -> Option<&'static str> {
        let dates = self.dates.as_ref()?.of(whose);
        let sheets = self.sheets().filter(|page| page.whose == whose);
        let mut cells = sheets.flat_map(|page| page.sheet.cells());
        match (Formats::read(self.checked.stream(whose)).system(), dates.system()) {
            (None, None) => Some(
                "the DATEMODE record is damaged, or there are two that disagree: no number is shown as a date",
            ),
            (None, Some(_)) if cells.any(|cell| dates.show_cell(&cell).is_some()) => {
                Some("there is no DATEMODE record: days are counted from 1900")
            }
            _ => None,
        }
    }
}
