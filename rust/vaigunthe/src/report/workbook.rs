//! What a page says of one workbook.

use super::beside::{digest, Beside};
use super::document::length;
use super::grid::Grid;
use super::limits::Limits;
use super::marks::Shown;
use super::{refusal, session};
use crate::book::{Book, BookSheet};
use crate::figures::{counted, grouped};
use crate::hint;
use crate::input::Stream;
use crate::lines::type_name;
use crate::outcome::{Failure, Status};
use crate::profile::{explained, OUTSIDE};
use crate::source::Checked;
use crate::text::{InPage, WordsInPage};
use station::pair::{Refused, Whose};
use station::{Profile, Refusal, SheetKind};
use std::ffi::OsStr;
use std::io::{self, ErrorKind, Write};

/// What a file turned out to be.
pub enum Found {
    Passed(Counts),
    Refused(usize, Refused),
    /// It can't be read.
    Nothing,
}

impl Found {
    pub fn status(&self) -> Status {
        match self {
            Found::Passed(_) => Status::Answered,
            Found::Refused(..) => Status::Refused,
            Found::Nothing => Status::Failed,
        }
    }
}

pub struct Counts {
    pub bytes: usize,
    pub sheets: usize,
    pub strings: u32,
    pub cells: usize,
}

/// The part of a page on one workbook.
pub struct Section {
    /// The file, as it was given.
    pub name: String,
    /// Without its folder.
    pub title: String,
    pub found: Found,
    pub html: Vec<u8>,
    /// What is said on standard error.
    pub notes: Vec<String>,
}

/// Where a part stands: its number on the page, from 1, and the level of its heading.
#[derive(Clone, Copy)]
pub struct Place {
    pub number: usize,
    pub level: u8,
}

impl Section {
    pub fn of(file: &OsStr, place: Place, limits: &Limits, beside: &Beside<'_>) -> Self {
        match Stream::read(file) {
            Ok(stream) => Self::of_stream(&stream, place, limits, beside),
            Err(failure) => Self::unread(file, place, &failure),
        }
    }

    fn of_stream(stream: &Stream<'_>, place: Place, limits: &Limits, beside: &Beside<'_>) -> Self {
        let mut notes = Vec::new();
        let (name, title) = (stream.called().to_string(), stream.title());
        let part = Part {
            stream,
            name: &name,
            title: &title,
            place,
            beside,
        };
        let (found, html) = match part.written(limits) {
            Ok(written) => written,
            Err(_) => {
                notes.push(stream.message("too much for --full: shown in parts"));
                let written = part.written(&Limits::PARTS);
                written.expect("what is written to memory, and small")
            }
        };
        match found {
            // That is said once, whatever is read over it.
            Found::Refused(_, refused) if refused.whose == Some(Whose::Template) => {}
            Found::Refused(_, refused) => {
                notes.push(stream.message(refused));
                notes.extend(hint::of(&stream.bytes).map(|hint| stream.message(hint)));
            }
            Found::Passed(_) | Found::Nothing => {}
        }
        Section {
            name,
            title,
            found,
            html,
            notes,
        }
    }

    /// Says so on the page, too: nobody shall think that a file was not asked for.
    fn unread(file: &OsStr, place: Place, failure: &Failure) -> Self {
        let name = crate::text::Name(file).to_string();
        let note = match failure {
            Failure::File(message) => message.clone(),
            _ => format!("{name}: can't be read"),
        };
        let Place { number, level } = place;
        let (shown, said) = (WordsInPage(&name), WordsInPage(&note));
        let html = format!(
            "<article aria-labelledby=w{number}>\n<h{level} id=w{number}>{shown}</h{level}>\n\
             <p class=refused>This file can't be read: {said}.</p>\n</article>\n"
        );
        Section {
            title: name.clone(),
            name,
            found: Found::Nothing,
            html: html.into(),
            notes: vec![note],
        }
    }
}

/// Takes no more bytes than it may.
struct Bounded {
    bytes: Vec<u8>,
    most: usize,
}

impl Write for Bounded {
    fn write(&mut self, bytes: &[u8]) -> io::Result<usize> {
        if self.bytes.len() + bytes.len() > self.most {
            return Err(ErrorKind::FileTooLarge.into());
        }
        self.bytes.extend_from_slice(bytes);
        Ok(bytes.len())
    }

    fn flush(&mut self) -> io::Result<()> {
        Ok(())
    }
}

struct Part<'p> {
    stream: &'p Stream<'p>,
    name: &'p str,
    title: &'p str,
    place: Place,
    beside: &'p Beside<'p>,
}

impl Part<'_> {
    fn written(&self, limits: &Limits) -> io::Result<(Found, Vec<u8>)> {
        let mut out = Bounded {
            bytes: Vec::new(),
            most: limits.bytes,
        };
        let Place { number, level } = self.place;
        let title = WordsInPage(self.title);
        writeln!(
            out,
            "<article aria-labelledby=w{number}>\n<h{level} id=w{number}>{title}</h{level}>"
        )?;
        let found = match Checked::of(self.beside.lent(), &self.stream.bytes) {
            Ok(checked) => self.write_book(checked, limits, &mut out)?,
            Err(refused) => self.write_refusal(refused, &mut out)?,
        };
        writeln!(out, "</article>")?;
        Ok((found, out.bytes))
    }

    fn write_refusal(&self, refused: Refused, out: &mut Bounded) -> io::Result<Found> {
        let session = &self.stream.bytes[..];
        let bytes = match (refused.whose, self.beside.lent()) {
            (Some(Whose::Template), Some(template)) => template,
            _ => session,
        };
        write_facts(&self.facts(), out)?;
        refusal::write(bytes, refused, self.place.level + 1, out)?;
        if let Some(hint) = hint::of(bytes) {
            writeln!(out, "<pre class=note>{}</pre>", WordsInPage(&hint))?;
        }
        Ok(Found::Refused(session.len(), refused))
    }

    fn write_book(
        &self,
        checked: Checked<'_>,
        limits: &Limits,
        out: &mut Bounded,
    ) -> io::Result<Found> {
        let mut book = Book::of(checked, None);
        book.show_dates();
        let stream = &self.stream.bytes;
        let mut sheets: Vec<_> = book.sheets().map(Listed::of).collect();
        let counts = Counts {
            bytes: stream.len(),
            sheets: sheets.len(),
            strings: checked.string_count(checked.table()),
            cells: sheets.iter().map(|listed| listed.cells).sum(),
        };
        let profile = station::profile(stream);
        let mut facts = self.facts();
        facts.extend(counted_facts(&counts, &checked, &sheets));
        facts.push(("Sensor's session", self.session(&profile)));
        write_facts(&facts, out)?;
        write_about_dates(&book, &checked, out)?;
        let level = self.place.level + 1;
        if let Ok(profile) = &profile {
            session::write(stream, profile, (self.title, level), out)?;
            if let Some(sheet) = sheets.first_mut() {
                sheet.is_session = true;
            }
        }
        let on_page = sheets.len().min(limits.sheets);
        let ids: Vec<_> = (0..on_page).map(|number| self.id(number)).collect();
        let shown = Shown {
            level,
            limits,
            sheets: &ids,
        };
        self.beside.marks.write(&shown, out)?;
        self.write_sheets(&book, &sheets, limits, out)?;
        Ok(Found::Passed(counts))
    }

    /// What there is to say of every stream, and of the files beside it.
    fn facts(&self) -> Vec<(&'static str, String)> {
        let bytes = &self.stream.bytes;
        let mut facts = vec![
            ("File", self.name.to_string()),
            ("Length", format!("{} bytes", length(bytes.len()))),
            ("SHA-256", digest(bytes)),
        ];
        facts.extend(self.beside.facts.iter().cloned());
        facts
    }

    /// That is asked of the session alone, also where there is a template.
    fn session(&self, profile: &Result<Profile, Refusal>) -> String {
        match profile {
            Ok(Profile { rows, columns }) => {
                let rows = counted(*rows as usize, "row", "rows");
                format!("yes, {rows}, {columns} columns")
            }
            Err(refusal) => {
                let alone = match refusal.number {
                    OUTSIDE => "",
                    _ => "without its template it is ",
                };
                format!("no; {alone}{}", explained(&self.stream.bytes, *refusal))
            }
        }
    }

    fn write_sheets(
        &self,
        book: &Book<'_>,
        sheets: &[Listed<'_>],
        limits: &Limits,
        out: &mut Bounded,
    ) -> io::Result<()> {
        let shown = &sheets[..sheets.len().min(limits.sheets)];
        let level = self.place.level + 1;
        writeln!(out, "<h{level}>Sheets</h{level}>")?;
        if sheets.is_empty() {
            return writeln!(out, "<p>The workbook has no sheet.</p>");
        }
        if sheets.iter().any(Listed::is_lent) {
            writeln!(
                out,
                "<p>Sheets that the session hasn't are the template's; they have a double line at their side.</p>"
            )?;
        }
        self.write_list(shown, book.is_pair(), out)?;
        if sheets.len() > shown.len() {
            let rest = counted(sheets.len() - shown.len(), "sheet is", "sheets are");
            writeln!(
                out,
                "<p class=note>{rest} not shown; <code>--full</code> shows all.</p>"
            )?;
        }
        let mut left = limits.cost;
        for listed in shown {
            left = self.write_sheet(book, listed, (left, limits), out)?;
        }
        Ok(())
    }

    /// Writes as much of a sheet as the cost allows, and says what it has left.
    fn write_sheet(
        &self,
        book: &Book<'_>,
        listed: &Listed<'_>,
        (mut left, limits): (usize, &Limits),
        out: &mut Bounded,
    ) -> io::Result<usize> {
        let (page, level) = (&listed.page, self.place.level + 1);
        let (number, marks) = (page.number, &self.beside.marks);
        // Whatever a forged journal says, no cell of the template was corrected.
        let marked = marks.of_sheet(number).filter(|_| !listed.is_lent());
        let grid = Grid::of(book, page, marked, limits);
        let (id, name) = (self.id(number), InPage(&listed.name));
        let class = match (listed.is_lent(), grid.class(listed.is_session)) {
            (false, None) => String::new(),
            (false, Some(class)) => format!(" class={class}"),
            (true, None) => " class=lent".to_string(),
            (true, Some(class)) => format!(" class=\"lent {class}\""),
        };
        let of = match book.is_pair() {
            true => format!(" of the {}", page.whose),
            false => String::new(),
        };
        writeln!(
            out,
            "<section{class} aria-labelledby={id}>\n<h{level} id={id}>Sheet {number}{of}: <bdi>{name}</bdi></h{level}>"
        )?;
        marks.write_name(number, out)?;
        let is_worksheet = page.sheet.kind == SheetKind::Worksheet;
        if !is_worksheet {
            let kind = type_name(page.sheet.kind);
            writeln!(out, "<p>A {kind} sheet, which lists no cells.</p>")?;
        }
        // Marks may stand where an old revision had cells.
        if is_worksheet || grid.has_rows() {
            left = grid.write(&id, left, out)?;
        }
        writeln!(out, "</section>")?;
        Ok(left)
    }

    fn id(&self, sheet: usize) -> String {
        format!("w{}-s{sheet}", self.place.number)
    }

    fn write_list(
        &self,
        sheets: &[Listed<'_>],
        is_pair: bool,
        out: &mut Bounded,
    ) -> io::Result<()> {
        out.write_all(b"<div class=scroll role=region aria-label=Sheets tabindex=0><table class=list>\n<thead><tr><th scope=col>Number")?;
        let whose = is_pair.then_some("Stream");
        let titles = ["Name", "Type", "Rows", "Cells"];
        for title in whose.into_iter().chain(titles) {
            write!(out, "<th scope=col>{title}")?;
        }
        out.write_all(b"</thead>\n<tbody>\n")?;
        for listed in sheets {
            let page = &listed.page;
            write!(out, "<tr><td>{}", page.number)?;
            if is_pair {
                write!(out, "<td class=t>{}", page.whose)?;
            }
            writeln!(
                out,
                "<th scope=row class=t><a href=#{}><bdi>{}</bdi></a><td class=t>{}<td>{}<td>{}",
                self.id(page.number),
                InPage(&listed.name),
                type_name(page.sheet.kind),
                grouped(f64::from(page.sheet.rows()), 0),
                grouped(listed.cells as f64, 0),
            )?;
        }
        out.write_all(b"</tbody></table></div>\n")
    }
}

/// A sheet with what is said of it more than once.
struct Listed<'a> {
    page: BookSheet<'a>,
    name: Vec<u16>,
    cells: usize,
    /// Whether it is the one sheet of a sensor's session.
    is_session: bool,
}

impl<'a> Listed<'a> {
    fn of(page: BookSheet<'a>) -> Self {
        Listed {
            name: page.sheet.name_units().collect(),
            cells: page.sheet.cells().count(),
            is_session: false,
            page,
        }
    }

    fn is_lent(&self) -> bool {
        self.page.whose == Whose::Template
    }
}

/// What there is in a workbook, and whose it is where there is a template.
fn counted_facts(
    counts: &Counts,
    checked: &Checked<'_>,
    sheets: &[Listed<'_>],
) -> [(&'static str, String); 3] {
    let [mut number, mut strings, cells] = [counts.sheets, counts.strings as usize, counts.cells]
        .map(|count| grouped(count as f64, 0));
    if let Checked::Over(_) = checked {
        let lent = sheets.iter().filter(|listed| listed.is_lent()).count();
        let own = sheets.len() - lent;
        number += &format!(" ({own} of the session, {lent} of the template)");
        strings += &format!(" (of the {})", checked.table());
    }
    [
        ("Sheets", number),
        ("Shared strings", strings),
        ("Cells", cells),
    ]
}

/// What there is to say of the dates of each stream.
fn write_about_dates(book: &Book<'_>, checked: &Checked<'_>, out: &mut Bounded) -> io::Result<()> {
    for whose in book.streams() {
        let Some(note) = book.about_dates(*whose) else {
            continue;
        };
        match checked.named(*whose) {
            Some(whose) => writeln!(out, "<p class=note>Dates of the {whose}: {note}.</p>")?,
            None => writeln!(out, "<p class=note>Dates: {note}.</p>")?,
        }
    }
    Ok(())
}

fn write_facts(facts: &[(&str, String)], out: &mut Bounded) -> io::Result<()> {
    out.write_all(b"<table class=facts>\n<tbody>\n")?;
    for (title, fact) in facts {
        let class = match title.starts_with("SHA-256") {
            true => " class=digest",
            false => "",
        };
        let (title, fact) = (WordsInPage(title), WordsInPage(fact));
        writeln!(out, "<tr><th scope=row>{title}<td{class}>{fact}")?;
    }
    out.write_all(b"</tbody></table>\n")
}

#[cfg(test)]
mod tests {
    use super::*;

    /// What is too large with --full is shown in parts, and that is said.
    #[test]
    fn too_much() {
        let bytes = streams::big(streams::Big::Numbers, 1_000_000);
        let stream = Stream::read_from("x".as_ref(), &bytes[..]).expect("memory");
        let place = Place {
            number: 1,
            level: 1,
        };
        let section =
            |limits: &Limits| Section::of_stream(&stream, place, limits, &Beside::default());
        let (parts, full) = (section(&Limits::PARTS), section(&Limits::FULL));
        assert!(parts.html.len() < full.html.len() && full.notes.is_empty());
        for (bytes, enough) in [(full.html.len(), true), (full.html.len() - 1, false)] {
            let limits = Limits {
                bytes,
                ..Limits::FULL
            };
            let limited = section(&limits);
            let wanted = if enough { &full } else { &parts };
            assert!(limited.html == wanted.html, "{bytes} bytes");
            assert_eq!(limited.notes.len(), usize::from(!enough));
        }
    }
}
