//! What a command reads: a stream alone, or a session over its template.

use crate::arguments::{Arguments, Setting};
use crate::input::{Stream, STANDARD};
use crate::outcome::{Failure, Status};
use crate::replace::{Place, Written};
use station::journal::{Direction, Journal, Unreplayed};
use station::pair::{self, Pair, Refused, Whose};
use station::{Cell, NewValue, Refusal, Sheet, Workbook};
use std::ffi::OsString;
use std::fmt::Display;
use std::io::{self, Write};
use std::path::Path;

/// The option of all commands that read a session over its template.
pub const TEMPLATE: Setting = Setting::with(
    "--template",
    "T",
    "read FILE as a session over the template T: sheets that it hasn't come from T, and so do its strings where it has no string table; answers say whether they are of the session or of the template",
);

/// The streams that a command was given.
pub struct Source<'n> {
    template: Option<Stream<'n>>,
    session: Stream<'n>,
}

/// The template that was asked for, where standard input is left for at most one of all files.
pub fn template<'n>(
    arguments: &'n Arguments,
    files: &[OsString],
) -> Result<Option<Stream<'n>>, Failure> {
    let name = arguments.option(TEMPLATE.name);
    let read = files.iter().map(OsString::as_os_str).chain(name);
    if read.filter(|file| *file == STANDARD).count() > 1 {
        return Err(Failure::usage("standard input can be read only once"));
    }
    name.map(Stream::read).transpose()
}

impl<'n> Source<'n> {
    /// The first operand, and the template where one is given.
    pub fn read(arguments: &'n Arguments) -> Result<Self, Failure> {
        let template = template(arguments, &arguments.operands()[..1])?;
        let session = Stream::read(arguments.operand(0))?;
        Ok(Source { template, session })
    }

    /// The same where the stream is another operand, and all of them are read.
    pub fn read_operand(arguments: &'n Arguments, place: usize) -> Result<Self, Failure> {
        let template = template(arguments, arguments.operands())?;
        let session = Stream::read(arguments.operand(place))?;
        Ok(Source { template, session })
    }

    /// The stream that is read, or the session.
    pub fn session(&self) -> &Stream<'n> {
        &self.session
    }

    /// The bytes of the template, where there is one.
    fn lent(&self) -> Option<&[u8]> {
        self.template.as_ref().map(|template| &template.bytes[..])
    }

    pub fn check(&self) -> Result<Checked<'_>, Refused> {
        Checked::of(self.lent(), &self.session.bytes)
    }

    /// Whether there is a sheet of this number, as the library has it.
    pub fn has_sheet(&self, number: u32) -> Result<(), Refused> {
        let session = &self.session.bytes;
        match self.lent() {
            None => station::cells(session, number).map(|_| ())?,
            Some(template) => pair::cells(template, session, number).map(|_| ())?,
        }
        Ok(())
    }

    /// The string of an index, with the stream in whose table it stands where there is a template.
    pub fn fetch(
        &self,
        asked: Whose,
        index: u32,
        buffer: &mut [u16],
    ) -> Result<(Option<Whose>, usize), Refused> {
        let session = &self.session.bytes;
        match self.lent() {
            None => Ok((None, station::fetch(session, index, buffer)?)),
            Some(template) => {
                let (whose, units) = pair::fetch(template, session, asked, index, buffer)?;
                Ok((Some(whose), units))
            }
        }
    }

    /// The text of a cell's formula, with the stream that has its sheet where there is a template.
    pub fn text(
        &self,
        (sheet, row, column): (u32, u32, u32),
        buffer: &mut [u16],
    ) -> Result<(Option<Whose>, usize), Refused> {
        let session = &self.session.bytes;
        match self.lent() {
            None => Ok((None, station::text(session, sheet, row, column, buffer)?)),
            Some(template) => {
                let (whose, units) = pair::text(template, session, sheet, row, column, buffer)?;
                Ok((Some(whose), units))
            }
        }
    }

    pub fn correct(
        &mut self,
        (sheet, row, column): (u32, u32, u32),
        value: NewValue,
    ) -> Result<(), Refused> {
        let session = &mut self.session.bytes;
        match &self.template {
            None => Ok(station::correct(session, sheet, row, column, value)?),
            Some(template) => pair::correct(&template.bytes, session, sheet, row, column, value),
        }
    }

    /// The stream, or the session, without its unused strings.
    pub fn compacted(&self) -> Result<Vec<u8>, Refused> {
        let session = &self.session.bytes;
        match self.lent() {
            None => Ok(station::compacted(session)?),
            Some(template) => pair::compacted(template, session),
        }
    }

    /// Starts a journal of the corrections.
    pub fn start_journal(&self) -> Result<Journal<Vec<u8>>, Refused> {
        let session = &self.session.bytes;
        match self.lent() {
            None => Ok(Journal::started(session)?),
            Some(template) => Journal::started_over(template, session),
        }
    }

    /// Corrects a cell, with an entry in a journal.
    pub fn correct_in(
        &mut self,
        journal: &mut Journal<Vec<u8>>,
        (sheet, row, column): (u32, u32, u32),
        value: NewValue,
    ) -> Result<(), Refused> {
        let session = &mut self.session.bytes;
        match &self.template {
            None => Ok(journal.correct(session, sheet, row, column, value)?),
            Some(template) => {
                journal.correct_over(&template.bytes, session, sheet, row, column, value)
            }
        }
    }

    /// Replays a journal.
    pub fn replay(
        &mut self,
        journal: &Journal<impl AsRef<[u8]>>,
        direction: Direction,
    ) -> Result<u32, Unreplayed<Refused>> {
        let template = self.template.as_ref();
        let template = template.map(|template| &template.bytes[..]);
        replay(template, &mut self.session.bytes, journal, direction)
    }

    /// Whether a journal can be replayed; nothing changes.
    pub fn replays(&self, journal: &Journal<impl AsRef<[u8]>>, direction: Direction) -> bool {
        let mut copy = self.session.bytes.clone();
        replay(self.lent(), &mut copy, journal, direction).is_ok()
    }

    /// One of the streams.
    pub fn stream(&self, whose: Whose) -> &Stream<'n> {
        match (whose, &self.template) {
            (Whose::Template, Some(template)) => template,
            _ => &self.session,
        }
    }

    /// The stream that a refusal is about.
    fn refused(&self, refused: &Refused) -> &Stream<'n> {
        self.stream(refused.whose.unwrap_or(Whose::Session))
    }

    /// Gives a refusal as the answer: its bare line for machines, and what it means for people.
    pub fn refuse(&self, refused: Refused, out: &mut impl Write) -> Result<Status, Failure> {
        self.refused(&refused).refuse(refused, out)
    }

    /// Says what a refusal means, on standard error alone.
    pub fn explain(&self, refused: Refused) -> Status {
        self.refused(&refused).explain(refused)
    }

    /// Says something of what is read on standard error.
    pub fn note(&self, note: impl Display) {
        self.session.note(note);
    }

    /// A template is never written over.
    pub fn spare_template(&self, place: &Place) -> Result<(), Failure> {
        match &self.template {
            Some(template) if template.is_replaced_at(place) => {
                Err(template.failure("this is the template: it is not written over"))
            }
            _ => Ok(()),
        }
    }

    /// Puts what is written into a file; never into one that is read.
    pub fn put_beside(
        &self,
        path: &Path,
        place: io::Result<Place>,
        write: impl FnOnce(&mut Written<'_>) -> io::Result<()>,
    ) -> Result<(), Failure> {
        if let Ok(place) = &place {
            self.spare_template(place)?;
        }
        self.session.put_beside(path, place, write)
    }
}

/// Replays a journal on a stream alone, or on a session over its template.
pub fn replay(
    template: Option<&[u8]>,
    session: &mut [u8],
    journal: &Journal<impl AsRef<[u8]>>,
    direction: Direction,
) -> Result<u32, Unreplayed<Refused>> {
    match template {
        None => journal
            .replay(session, direction)
            .map_err(|unreplayed| match unreplayed {
                Unreplayed::Refused(refusal) => Unreplayed::Refused(refusal.into()),
                Unreplayed::Stopped { number, entry } => Unreplayed::Stopped { number, entry },
            }),
        Some(template) => journal.replay_over(template, session, direction),
    }
}

/// What has passed the check.
#[derive(Clone, Copy)]
pub enum Checked<'a> {
    Alone(Workbook<'a>),
    Over(Pair<'a>),
}

impl<'a> Checked<'a> {
    /// Of a stream alone, or of a session over its template.
    pub fn of(template: Option<&'a [u8]>, session: &'a [u8]) -> Result<Self, Refused> {
        match template {
            None => Ok(Checked::Alone(station::check(session)?)),
            Some(template) => Ok(Checked::Over(pair::check(template, session)?)),
        }
    }

    /// The stream that an answer names: none where there is only one.
    pub fn named(&self, whose: Whose) -> Option<Whose> {
        match self {
            Checked::Alone(_) => None,
            Checked::Over(_) => Some(whose),
        }
    }

    pub fn stream(&self, whose: Whose) -> &'a [u8] {
        match self {
            Checked::Alone(workbook) => workbook.stream(),
            Checked::Over(pair) => pair.stream(whose),
        }
    }

    pub fn sheet_count(&self) -> usize {
        match self {
            Checked::Alone(workbook) => workbook.sheets,
            Checked::Over(pair) => pair.sheet_count(),
        }
    }

    /// The sheets in the order of their numbers. Those of a stream alone count as the session's.
    pub fn sheets(&self) -> Box<dyn Iterator<Item = (Whose, Sheet<'a>)> + 'a> {
        match self {
            Checked::Alone(workbook) => {
                Box::new(workbook.sheets().map(|sheet| (Whose::Session, sheet)))
            }
            Checked::Over(pair) => Box::new(pair.sheets()),
        }
    }

    /// Whether only the template has a sheet of this number.
    pub fn is_templates(&self, number: u32) -> bool {
        let Checked::Over(pair) = self else {
            return false;
        };
        let own = pair.sheets_of(Whose::Session);
        (own..pair.sheet_count()).contains(&(number as usize))
    }

    /// Whose strings the session's text indices mean.
    pub fn table(&self) -> Whose {
        match self {
            Checked::Alone(_) => Whose::Session,
            Checked::Over(pair) => pair.table_of(Whose::Session),
        }
    }

    /// How many strings a stream has itself.
    pub fn string_count(&self, whose: Whose) -> u32 {
        match self {
            Checked::Alone(workbook) => workbook.strings,
            Checked::Over(pair) => pair.string_count(whose),
        }
    }

    pub fn strings(&self, whose: Whose) -> station::Strings<'a> {
        match self {
            Checked::Alone(workbook) => workbook.strings(),
            Checked::Over(pair) => pair.strings(whose),
        }
    }

    /// The text of a listed cell's formula.
    pub fn text(&self, whose: Whose, cell: &Cell, buffer: &mut [u16]) -> Result<usize, Refusal> {
        match self {
            Checked::Alone(workbook) => workbook.text(cell, buffer),
            Checked::Over(pair) => pair.text(whose, cell, buffer),
        }
    }

    /// The cells of all sheets.
    pub fn count_cells(&self) -> usize {
        self.sheets().map(|(_, sheet)| sheet.cells().count()).sum()
    }
}
