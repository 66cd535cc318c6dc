//! One template and a session that stands on it: the same questions over both.
//!
//! A sheet comes whole from the session, or from the template where the session
//! has none of that number. The session's text indices resolve in its own table
//! if it has an SST, else in the template's. All that a session needs of the
//! template to be judged is its number of strings and of sheets.

use crate::correction::grant;
use crate::places::{has_room, set_places};
use crate::sheets::SheetEntry;
use crate::survey::Survey;
use crate::{Cell, NewValue, Refusal, SheetType};

/// One stream of the pair.
#[derive(Clone, Copy, Debug, PartialEq, Eq, Hash)]
pub enum Whose {
    /// The session's.
    Session,
    /// The template's.
    Template,
}

/// Why a question over the pair is refused.
#[derive(Clone, Copy, Debug, PartialEq, Eq, Hash)]
pub enum PairRefusal {
    /// The check refuses this stream, at an offset in it.
    Stream(Whose, Refusal),
    /// The question is refused, with 11, 12, 16, 17, 18 or 21 at 0, or with 1 for
    /// a result that is too long; that is no stream's fault.
    Question(Refusal),
}

impl PairRefusal {
    const fn of_question(number: u8) -> Self {
        PairRefusal::Question(Refusal::of_question(number))
    }
}

/// A sheet of the pair.
#[derive(Clone, Copy, Debug, PartialEq, Eq)]
pub struct PairSheet {
    /// The stream that it comes from.
    pub whose: Whose,
    /// Worksheet, macro sheet or chart.
    pub sheet_type: SheetType,
    /// Whether its name takes two bytes a character.
    pub wide: bool,
    /// The highest listed row plus one, or 0.
    pub rows: u32,
}

/// Checks both streams, and gives the number of sheets.
pub fn pair_check(template: &[u8], session: &[u8]) -> Result<u64, PairRefusal> {
    let pair = Pair::of(template, session)?;
    let sheets = pair.template.sheets.len().max(pair.session.sheets.len());
    Ok(sheets as u64)
}

/// Checks both streams, then tells of one sheet.
pub fn pair_sheet(template: &[u8], session: &[u8], sheet: u32) -> Result<PairSheet, PairRefusal> {
    let pair = Pair::of(template, session)?;
    let (whose, survey, entry) = pair.sheet(sheet)?;
    let substream = survey
        .substream(sheet as usize)
        .map_err(PairRefusal::Question)?;
    Ok(PairSheet {
        whose,
        sheet_type: entry.sheet_type,
        wide: entry.wide,
        rows: substream.rows,
    })
}

/// A sheet's name as a part of the one stream or the other, and which. An empty
/// part of neither where `pair_sheet` refuses.
pub fn pair_sheet_name<'a>(
    template: &'a [u8],
    session: &'a [u8],
    sheet: u32,
) -> (Option<Whose>, &'a [u8]) {
    let pair = Pair::of(template, session);
    match pair.as_ref().map(|pair| pair.sheet(sheet)) {
        Ok(Ok((whose, survey, entry))) => (Some(whose), survey.name(entry)),
        _ => (None, &[]),
    }
}

/// Checks both streams, then hands each cell of one sheet to `take`, in stream
/// order. Gives the stream that they come from and that their places count in.
pub fn pair_cells<F: FnMut(&Cell)>(
    template: &[u8],
    session: &[u8],
    sheet: u32,
    take: F,
) -> Result<Whose, PairRefusal> {
    let pair = Pair::of(template, session)?;
    let (whose, survey, _) = pair.sheet(sheet)?;
    survey
        .list(sheet as usize, take)
        .map_err(PairRefusal::Question)?;
    Ok(whose)
}

/// Checks both streams, then writes the units of the string that an index of
/// the session or of the template means. Gives whose table it stands in, and
/// the number of units; later units stay as they were.
pub fn pair_fetch(
    template: &[u8],
    session: &[u8],
    whose: Whose,
    index: u32,
    buffer: &mut [u16],
) -> Result<(Whose, usize), PairRefusal> {
    let pair = Pair::of(template, session)?;
    let (table_of, strings) = match whose {
        Whose::Session if pair.session.strings.is_there() => {
            (Whose::Session, &pair.session.strings)
        }
        _ => (Whose::Template, &pair.template.strings),
    };
    let length = strings
        .fetch(index, buffer)
        .map_err(PairRefusal::Question)?;
    Ok((table_of, length))
}

/// Checks both streams, then writes the units of the text that a cell's formula
/// has for its result, as `text` does for one stream. Gives the stream that the
/// sheet comes from, and the number of units.
pub fn pair_text(
    template: &[u8],
    session: &[u8],
    sheet: u32,
    row: u32,
    column: u32,
    buffer: &mut [u16],
) -> Result<(Whose, usize), PairRefusal> {
    let pair = Pair::of(template, session)?;
    let (whose, survey, _) = pair.sheet(sheet)?;
    let length = survey
        .fetch_text((sheet, row, column), buffer)
        .map_err(PairRefusal::Question)?;
    Ok((whose, length))
}

/// Corrects one cell of the session, changing no byte but its value field, and
/// none at all where it refuses. A sheet that only the template has takes no
/// correction, whatever is asked for in it.
pub fn pair_correct(
    template: &[u8],
    session: &mut [u8],
    sheet: u32,
    row: u32,
    column: u32,
    value: NewValue,
) -> Result<(), PairRefusal> {
    let pair = Pair::of(template, session)?;
    let (whose, survey, _) = pair.sheet(sheet)?;
    if whose == Whose::Template {
        return Err(PairRefusal::of_question(17));
    }
    let granted = grant(survey, sheet, row, column, value).map_err(PairRefusal::Question)?;
    granted.write_to(session);
    Ok(())
}

/// Checks both streams, then fills a table of string places for each, as `fill`
/// does for one. Where either has too few numbers neither changes. Gives the
/// number of the template's own strings and of the session's own.
pub fn pair_fill(
    template: &[u8],
    session: &[u8],
    template_table: &mut [u32],
    session_table: &mut [u32],
) -> Result<(u32, u32), PairRefusal> {
    let Pair { template, session } = Pair::of(template, session)?;
    let (template, session) = (template.strings, session.strings);
    if !has_room(&template, template_table) || !has_room(&session, session_table) {
        return Err(PairRefusal::of_question(12));
    }
    set_places(&template, template_table).map_err(PairRefusal::Question)?;
    set_places(&session, session_table).map_err(PairRefusal::Question)?;
    Ok((template.unique(), session.unique()))
}

/// Both streams, once they pass.
pub(crate) struct Pair<'a> {
    template: Survey<'a>,
    pub session: Survey<'a>,
}

impl<'a> Pair<'a> {
    /// All of the template's refusals come before the session's.
    pub fn of(template: &'a [u8], session: &'a [u8]) -> Result<Self, PairRefusal> {
        let template = Survey::of(template)
            .map_err(|refusal| PairRefusal::Stream(Whose::Template, refusal))?;
        let session = Survey::with_lent(session, template.strings.unique())
            .map_err(|refusal| PairRefusal::Stream(Whose::Session, refusal))?;
        Ok(Pair { template, session })
    }

    /// How many strings and how many sheets the template has.
    pub fn lent(&self) -> (u32, u32) {
        let Survey {
            strings, sheets, ..
        } = &self.template;
        (strings.unique(), sheets.len() as u32)
    }

    /// The stream that a sheet comes from, and its entry there: by number alone,
    /// whatever the sheets hold.
    fn sheet(&self, sheet: u32) -> Result<(Whose, &Survey<'a>, &SheetEntry), PairRefusal> {
        let number = sheet as usize;
        if let Some(entry) = self.session.sheets.get(number) {
            return Ok((Whose::Session, &self.session, entry));
        }
        match self.template.sheets.get(number) {
            Some(entry) => Ok((Whose::Template, &self.template, entry)),
            None => Err(PairRefusal::of_question(11)),
        }
    }
}
