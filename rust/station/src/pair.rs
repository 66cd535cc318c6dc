//! One template, many sessions: the questions over a template and a session that stands on it.
//!
//! A sheet comes whole from the session, or from the template where the session has no sheet of that number. The session's text indices mean strings
//! of its own table if it has one, else of the template's; the template's own mean the template's, always. Each answer says whose it is, and so does a
//! refusal of one of the streams. The template's refusals come before the session's.
//!
//! ```
//! use station::pair::{self, Whose};
//! use station::NewValue;
//!
//! let template = std::fs::read("../../cases/template.in").expect("a template");
//! let mut session = std::fs::read("../../cases/day.in").expect("a session");
//! // Alone it is refused: it has no strings of its own.
//! assert_eq!(station::check(&session).expect_err("no strings").number, 9);
//!
//! let pair = pair::check(&template, &session)?;
//! let whose: Vec<Whose> = pair.sheets().map(|(whose, _)| whose).collect();
//! assert_eq!(whose, [Whose::Session, Whose::Template]);
//! assert_eq!(pair.table_of(Whose::Session), Whose::Template);
//!
//! let mut buffer = vec![0; station::LONGEST_STRING];
//! let places = pair.string_places();
//! let units = places.of(Whose::Template).fetch(&template, 1, &mut buffer)?;
//! assert!(buffer[..units].iter().copied().eq("pulse".encode_utf16()));
//!
//! pair::correct(&template, &mut session, 0, 1, 1, NewValue::Number(72.5))?;
//! let aimed_at_the_template = pair::correct(&template, &mut session, 1, 0, 0, NewValue::Text(0));
//! let refused = aimed_at_the_template.expect_err("a sheet of the template");
//! assert_eq!((refused.whose, refused.refusal.number), (None, 17));
//! # Ok::<(), pair::Refused>(())
//! ```
//!
//! A [`Pair`] has made both checks, and reads on without another; each of the functions beside it makes them anew.

use crate::{
    compaction, raw, settled, Cell, Cells, Compacted, NewValue, Place, Refusal, Sheet, SheetKind,
    StringPlace, StringPlaces, Strings, Workbook,
};
use std::fmt;

/// One of the two streams.
#[derive(Clone, Copy, Debug, PartialEq, Eq, Hash)]
pub enum Whose {
    /// The session.
    Session,
    /// The template.
    Template,
}

impl Whose {
    /// None where neither is meant.
    fn of(number: u8) -> Option<Self> {
        match number {
            1 => Some(Whose::Template),
            2 => Some(Whose::Session),
            _ => None,
        }
    }

    /// Of an answer that is no refusal.
    fn answered(number: u8) -> Self {
        Whose::of(number).expect("an answer says whose it is")
    }

    fn number(self) -> u8 {
        match self {
            Whose::Template => 1,
            Whose::Session => 2,
        }
    }
}

/// `session` or `template`.
impl fmt::Display for Whose {
    fn fmt(&self, f: &mut fmt::Formatter<'_>) -> fmt::Result {
        f.write_str(match self {
            Whose::Session => "session",
            Whose::Template => "template",
        })
    }
}

/// A refusal over a pair: of one of the streams by its check, at an offset in that stream; or of the question (11, 12, 16, 17, 18; 1 for a new stream), which is no stream's fault.
/// Shown, it says whose: `refused 5 at 20 of template: the workbook is encrypted`.
#[derive(Clone, Copy, Debug, PartialEq, Eq)]
pub struct Refused {
    /// The stream that is refused.
    pub whose: Option<Whose>,
    /// Its number and offset.
    pub refusal: Refusal,
}

impl Refused {
    /// The bare line, for machines: `refused 5 at 20 of template`.
    pub fn line(&self) -> String {
        let line = self.refusal.line();
        match self.whose {
            Some(whose) => format!("{line} of {whose}"),
            None => line,
        }
    }
}

/// A refusal that names no stream.
impl From<Refusal> for Refused {
    fn from(refusal: Refusal) -> Self {
        Refused {
            whose: None,
            refusal,
        }
    }
}

impl fmt::Display for Refused {
    fn fmt(&self, f: &mut fmt::Formatter<'_>) -> fmt::Result {
        write!(f, "{}: {}", self.line(), self.refusal.meaning())
    }
}

impl std::error::Error for Refused {}

/// The number 0 says that there is no refusal.
pub(crate) fn passed(whose: u8, number: u8, offset: usize) -> Result<(), Refused> {
    settled(number, offset).map_err(|refusal| Refused {
        whose: Whose::of(whose),
        refusal,
    })
}

/// A template and a session that have passed the check: from here on both are read without another.
#[derive(Clone, Copy, Debug)]
pub struct Pair<'a> {
    template: Workbook<'a>,
    /// It passes over the template, not always alone.
    session: Workbook<'a>,
    table: Whose,
}

/// Checks the template, then the session over it.
pub fn check<'a>(template: &'a [u8], session: &'a [u8]) -> Result<Pair<'a>, Refused> {
    // SAFETY: both slices are valid for their lengths.
    let answer = unsafe {
        raw::station_pair_check(
            template.as_ptr(),
            template.len(),
            session.as_ptr(),
            session.len(),
        )
    };
    passed(answer.whose, answer.number, answer.offset)?;
    Ok(Pair {
        template: Workbook {
            stream: template,
            sheets: answer.template_sheets,
            strings: answer.template_strings,
            first_sheet: answer.sheet,
            first_string: StringPlace {
                segment: answer.template_segment,
                at: answer.template_at,
                end: answer.template_end,
            },
        },
        session: Workbook {
            stream: session,
            sheets: answer.session_sheets,
            strings: answer.session_strings,
            first_sheet: answer.sheet,
            first_string: StringPlace {
                segment: answer.session_segment,
                at: answer.session_at,
                end: answer.session_end,
            },
        },
        table: Whose::answered(answer.table),
    })
}

impl<'a> Pair<'a> {
    fn workbook(&self, whose: Whose) -> &Workbook<'a> {
        match whose {
            Whose::Session => &self.session,
            Whose::Template => &self.template,
        }
    }

    /// One of the two streams.
    pub fn stream(&self, whose: Whose) -> &'a [u8] {
        self.workbook(whose).stream
    }

    /// How many sheets there are: as many as the stream with more of them has.
    pub fn sheet_count(&self) -> usize {
        self.session.sheets.max(self.template.sheets)
    }

    /// How many sheets one of the streams has itself.
    pub fn sheets_of(&self, whose: Whose) -> usize {
        self.workbook(whose).sheets
    }

    /// The sheets in the order of their numbers, each with the stream that it comes from: the session's, then those of the template that the session has none in
    /// the place of.
    pub fn sheets(&self) -> impl Iterator<Item = (Whose, Sheet<'a>)> + 'a {
        let own = self.session.sheets();
        let rest = self.template.sheets().skip(self.session.sheets);
        own.map(|sheet| (Whose::Session, sheet))
            .chain(rest.map(|sheet| (Whose::Template, sheet)))
    }

    /// Whose strings the text indices of a stream mean: the session's mean its own if it has a table, even an empty one, else the template's.
    pub fn table_of(&self, whose: Whose) -> Whose {
        match whose {
            Whose::Session => self.table,
            Whose::Template => Whose::Template,
        }
    }

    /// How many shared strings one of the streams has itself.
    pub fn string_count(&self, whose: Whose) -> u32 {
        self.workbook(whose).strings
    }

    /// The units of each shared string that one of the streams has itself, in order.
    pub fn strings(&self, whose: Whose) -> Strings<'a> {
        self.workbook(whose).strings()
    }

    /// Puts the units of the text that a listed cell of one of the streams has for its formula's result at the front of the buffer, as [`Workbook::text`].
    pub fn text(&self, whose: Whose, cell: &Cell, buffer: &mut [u16]) -> Result<usize, Refusal> {
        self.workbook(whose).text(cell, buffer)
    }

    /// The places of the shared strings of both streams, for fetching them in any order. It takes one more check and a pass over each table.
    pub fn string_places(&self) -> Places {
        let room = |whose| vec![0; 2 * self.string_count(whose) as usize];
        let (mut template, mut session) = (room(Whose::Template), room(Whose::Session));
        let [first, second] = [Whose::Template, Whose::Session].map(|whose| self.stream(whose));
        fill(first, second, &mut template, &mut session)
            .expect("streams that pass, and two numbers a string");
        Places {
            template: StringPlaces { table: template },
            session: StringPlaces { table: session },
            table: self.table,
        }
    }
}

/// The places of the shared strings of a template and of a session. It borrows neither, and a granted correction leaves it good.
#[derive(Clone, Debug, PartialEq, Eq)]
pub struct Places {
    template: StringPlaces,
    session: StringPlaces,
    table: Whose,
}

impl Places {
    /// Those of one stream: none for a session without a string table.
    pub fn of(&self, whose: Whose) -> &StringPlaces {
        match whose {
            Whose::Session => &self.session,
            Whose::Template => &self.template,
        }
    }

    /// Puts the units of the string that an index of a stream's cells means at the front of the buffer, and says how many they are and in whose table the string
    /// stands: one look, without a check.
    pub fn fetch(
        &self,
        template: &[u8],
        session: &[u8],
        asked: Whose,
        index: u32,
        buffer: &mut [u16],
    ) -> Result<(Whose, usize), Refusal> {
        let (whose, stream) = match (asked, self.table) {
            (Whose::Session, Whose::Session) => (Whose::Session, session),
            _ => (Whose::Template, template),
        };
        let units = self.of(whose).fetch(stream, index, buffer)?;
        Ok((whose, units))
    }
}

/// What is told of one sheet of a pair.
#[derive(Clone, Copy, Debug, PartialEq, Eq)]
pub struct Told<'a> {
    /// The stream that it comes from.
    pub whose: Whose,
    /// Its name's bytes, a part of that stream.
    pub name: &'a [u8],
    /// Where they stand there.
    pub name_at: usize,
    /// Bytes a character of the name: 1 or 2.
    pub width: usize,
    /// What it is.
    pub kind: SheetKind,
    /// The highest listed row plus one, or 0.
    pub rows: u32,
}

/// Checks both, then tells of one sheet.
pub fn sheet<'a>(template: &'a [u8], session: &'a [u8], number: u32) -> Result<Told<'a>, Refused> {
    // SAFETY: both slices are valid for their lengths.
    let answer = unsafe {
        raw::station_pair_sheet(
            template.as_ptr(),
            template.len(),
            session.as_ptr(),
            session.len(),
            number,
        )
    };
    passed(answer.whose, answer.number, answer.offset)?;
    let whose = Whose::answered(answer.whose);
    let stream = match whose {
        Whose::Session => session,
        Whose::Template => template,
    };
    let name_at = answer.header + 12;
    Ok(Told {
        whose,
        name: stream.get(name_at..name_at + answer.size).unwrap_or(&[]),
        name_at,
        width: answer.width,
        kind: SheetKind::from_byte(answer.kind),
        rows: answer.rows,
    })
}

/// Checks both, then lists the cells of one sheet, with the stream that they come from.
pub fn cells<'a>(
    template: &'a [u8],
    session: &'a [u8],
    sheet: u32,
) -> Result<(Whose, Cells<'a>), Refused> {
    // SAFETY: both slices are valid for their lengths.
    let answer = unsafe {
        raw::station_pair_cells(
            template.as_ptr(),
            template.len(),
            session.as_ptr(),
            session.len(),
            sheet,
        )
    };
    passed(answer.whose, answer.number, answer.offset)?;
    let whose = Whose::answered(answer.whose);
    let stream = match whose {
        Whose::Session => session,
        Whose::Template => template,
    };
    let place = Place {
        at: answer.at,
        part: answer.part,
        level: answer.level,
    };
    Ok((whose, Cells::from(stream, place)))
}

/// Checks both, then puts the units of the string that an index of the session or of the template means at the front of the buffer. Says in whose table it
/// stands, and how many units it has. [`Pair::string_places`] is for many of them.
pub fn fetch(
    template: &[u8],
    session: &[u8],
    asked: Whose,
    index: u32,
    buffer: &mut [u16],
) -> Result<(Whose, usize), Refused> {
    // SAFETY: the slices are valid for their lengths, and the buffer is lent to this call alone.
    let answer = unsafe {
        raw::station_pair_fetch(
            template.as_ptr(),
            template.len(),
            session.as_ptr(),
            session.len(),
            asked.number(),
            index,
            buffer.as_mut_ptr(),
            buffer.len(),
        )
    };
    passed(answer.whose, answer.number, answer.offset)?;
    Ok((Whose::answered(answer.whose), answer.units))
}

/// Checks both, then puts the units of a formula's text at the front of the buffer, as [`crate::text`] does for one stream. Says which stream has the sheet, and how
/// many units there are.
pub fn text(
    template: &[u8],
    session: &[u8],
    sheet: u32,
    row: u32,
    column: u32,
    buffer: &mut [u16],
) -> Result<(Whose, usize), Refused> {
    // SAFETY: the slices are valid for their lengths, and the buffer is lent to this call alone.
    let answer = unsafe {
        raw::station_pair_text(
            template.as_ptr(),
            template.len(),
            session.as_ptr(),
            session.len(),
            sheet,
            row,
            column,
            buffer.as_mut_ptr(),
            buffer.len(),
        )
    };
    passed(answer.whose, answer.number, answer.offset)?;
    Ok((Whose::answered(answer.whose), answer.units))
}

/// Checks both, then writes the value field of one cell of the session, or leaves the session as it is. A sheet that only the template has takes no correction: 17.
pub fn correct(
    template: &[u8],
    session: &mut [u8],
    sheet: u32,
    row: u32,
    column: u32,
    value: NewValue,
) -> Result<(), Refused> {
    let (kind, number, index, byte) = value.parts();
    // SAFETY: both slices are valid for their lengths, and the session is lent to this call alone.
    let answer = unsafe {
        raw::station_pair_correct(
            template.as_ptr(),
            template.len(),
            session.as_mut_ptr(),
            session.len(),
            sheet,
            row,
            column,
            kind,
            number,
            index,
            byte,
        )
    };
    passed(answer.whose, answer.number, answer.offset)
}

/// Checks both, then puts the places of the shared strings of each stream into its own lent table, as [`crate::fill`] does for one. Gives how many strings the template
/// and the session have. 12 where either table is too short, and then neither changes.
pub fn fill(
    template: &[u8],
    session: &[u8],
    template_table: &mut [u32],
    session_table: &mut [u32],
) -> Result<(u32, u32), Refused> {
    // SAFETY: the slices are valid for their lengths, and the tables are lent to this call alone.
    let answer = unsafe {
        raw::station_pair_fill(
            template.as_ptr(),
            template.len(),
            session.as_ptr(),
            session.len(),
            template_table.as_mut_ptr(),
            template_table.len(),
            session_table.as_mut_ptr(),
            session_table.len(),
        )
    };
    passed(answer.whose, answer.number, answer.offset)?;
    Ok((answer.template_strings, answer.session_strings))
}

/// Checks both, then puts the session without the strings of its own table that it doesn't use at the front of the buffer, as [`crate::compact`] does for one
/// stream. A session without a table gets none, and its indices stay: they mean the template's strings. 1 for the new stream and 12 are the question's.
///
/// ```
/// use station::pair;
///
/// let template = std::fs::read("../../cases/template.in").expect("a template");
/// let session = std::fs::read("../../cases/day.in").expect("a session");
/// let new = pair::compacted(&template, &session)?;
/// let cells = |session| pair::cells(&template, session, 0).map(|(_, cells)| cells.map(|cell| cell.value()));
/// assert!(cells(&new)?.eq(cells(&session)?));
///
/// let refused = pair::compact(&template, &session, &mut []).expect_err("no room");
/// assert_eq!((refused.whose, refused.refusal.number), (None, 12));
/// # Ok::<(), pair::Refused>(())
/// ```
pub fn compact(template: &[u8], session: &[u8], buffer: &mut [u8]) -> Result<Compacted, Refused> {
    // SAFETY: the slices are valid for their lengths, and the buffer is lent to this call alone.
    let answer = unsafe {
        raw::station_pair_compact(
            template.as_ptr(),
            template.len(),
            session.as_ptr(),
            session.len(),
            buffer.as_mut_ptr(),
            buffer.len(),
        )
    };
    passed(answer.whose, answer.number, answer.offset)?;
    Ok(Compacted::of(session, answer.written))
}

/// The session without its unused strings, as [`compact`] writes it. Never refused with 12.
pub fn compacted(template: &[u8], session: &[u8]) -> Result<Vec<u8>, Refused> {
    compaction::made(|buffer| compact(template, session, buffer))
}
