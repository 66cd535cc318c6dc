//! report: pages for people, on one workbook or many, to be looked at in a browser or printed.

mod beside;
mod document;
mod grid;
mod limits;
mod marks;
mod refusal;
mod session;
mod tracks;
mod value;
mod workbook;

use crate::arguments::{Arguments, Operands, Setting};
use crate::commands::Command;
use crate::files::several;
use crate::folder;
use crate::outcome::{complain, Failure, Output, Status};
use crate::progress::Progress;
use crate::replace::{self, Identity, Written};
use crate::source::TEMPLATE;
use crate::target::Target;
use crate::threads;
use beside::Beside;
use document::Contents;
use limits::Limits;
pub use marks::{Mark, Marked, Reason};
use std::collections::HashSet;
use std::ffi::{OsStr, OsString};
use std::fs;
use std::io::{self, Write};
use std::path::Path;
use workbook::{Place, Section};

pub const REPORT: Command = Command {
    name: "report",
    about: "make a page for browsers and print of each workbook",
    usage: &[
        "FILE... [--template T] [--output OUT] [--full]",
        "FILE... [--template T] --output-dir DIR [--full]",
        "FILE --journal J [--template T] [--output OUT] [--full]",
        "FILE --against OLD [--journal J] [--output OUT] [--full]",
    ],
    operands: Operands::Several("FILE"),
    words: &[],
    options: &[
        Setting::with(
            "--output",
            "OUT",
            "write one page on all files to this file, whole or not at all; - is standard output",
        ),
        Setting::with(
            "--output-dir",
            "DIR",
            "write a page for each file in this folder, which is made where it isn't there, and index.html, which lists them",
        ),
        Setting::alone(
            "--full",
            "all sheets, rows and texts; without it the first 100 sheets, the first 100 rows with cells of each, and the first 1,000 characters of a text",
        ),
        Setting::with(
            "--journal",
            "J",
            "mark the corrections that the journal J of the one FILE keeps: a table of them, and a frame around each corrected cell with what it held",
        ),
        Setting::with(
            "--against",
            "OLD",
            "mark where the one FILE differs from the old revision OLD: a table of the differences, and a frame around each such cell with what it held; values are written as compare has them",
        ),
        TEMPLATE,
    ],
    examples: &[
        (
            "vaigunthe report session.bin --output report.html",
            "a page on one workbook",
        ),
        (
            "vaigunthe report session.bin ride.bin --output report.html",
            "a page on two, with a table of contents",
        ),
        (
            "vaigunthe report ride.bin session.bin --output-dir report --full",
            "a page for each, with all rows",
        ),
        (
            "vaigunthe report session.bin --journal session.j --output report.html",
            "a page that shows what was corrected",
        ),
        (
            "vaigunthe report corrected.bin --against session.bin --output report.html",
            "a page that shows what differs from another revision",
        ),
        (
            "vaigunthe report day.bin --template template.bin --output report.html",
            "a page on a session over its template",
        ),
    ],
    details: "\
Of each workbook the page has its name, length and SHA-256, and those of what is
read with it, its sheets, strings and cells, and each sheet as a grid: numbers,
texts, truths, errors, blanks, the results of formulas with their kinds, and
dates as dates, with their numbers under the pointer. Of a session as sensors
write it (vaigunthe help profile) come its totals in words and its cadence over
time as a picture. Of a stream that is refused it has the refusal in words and
the bytes around its offset.

With a journal the page says whether the workbook holds what the corrections
wrote, with an old revision which sheets only one of them has. A journal or an
old revision that is refused makes no page. With a template each sheet says
whose it is, the session's or the template's, and so does a refusal; whether it
is a sensor's session is asked of the session alone. Two streams are compared
each by itself, so --against doesn't go with --template.

A page is one file. Nothing on it is fetched or run: it opens offline, with
scripts switched off, in a light or dark scheme, and prints. All text from files
is escaped. The same files give the same page, byte for byte.

Without --full a workbook's grids have about a million characters at most; what
is left out is counted. With it a workbook that would take over 268,435,456
bytes is shown as without it.

The pages in DIR are named after their files, with a number in front. What is
read is never written over. The status is 1 where a file is refused, and 2 where
one can't be read; the others are reported all the same. Where none can be read,
nothing is written. On a terminal a line shows how far it has come.
",
    run,
};

fn run(arguments: &Arguments, out: &mut Output) -> Result<Status, Failure> {
    let files = several(arguments)?;
    let limits = match arguments.has("--full") {
        true => &Limits::FULL,
        false => &Limits::PARTS,
    };
    let target = Target::of(arguments)?;
    let Some(beside) = &Beside::read(arguments, files)? else {
        return Ok(Status::Refused);
    };
    let inputs = || {
        let beside = Beside::OPTIONS.iter();
        let beside = beside.filter_map(|name| arguments.option(name));
        Inputs::of(files.iter().map(OsString::as_os_str).chain(beside))
    };
    match target {
        Target::Output => one_page(files, limits, beside, |sections| {
            Ok(document::write_sections(sections, out)?)
        }),
        Target::File(name) => {
            let path = Path::new(name);
            let place = inputs().spare(path, replace::Place::of(path))?;
            one_page(files, limits, beside, |sections| {
                put(path, &place, |out| document::write_sections(sections, out))
            })
        }
        Target::Folder(name) => pages(files, limits, beside, (name, inputs())),
    }
}

/// Has all parts made, and says on standard error what there is to say.
fn one_page(
    files: &[OsString],
    limits: &Limits,
    beside: &Beside<'_>,
    write: impl FnOnce(Vec<Section>) -> Result<(), Failure>,
) -> Result<Status, Failure> {
    let level = if files.len() == 1 { 1 } else { 2 };
    let mut progress = Progress::on_standard_error("reporting", files.len());
    let work = |place: usize, file: &OsString| {
        let number = place + 1;
        Section::of(file, Place { number, level }, limits, beside)
    };
    let sections = threads::map(files, work, |done| progress.show(done));
    progress.clear();
    sections
        .iter()
        .flat_map(|section| &section.notes)
        .for_each(complain);
    let status = worst(sections.iter().map(|section| section.found.status()));
    let any = sections
        .iter()
        .any(|section| section.found.status() < Status::Failed);
    if any {
        write(sections)?;
    }
    Ok(status)
}

fn worst(statuses: impl Iterator<Item = Status>) -> Status {
    statuses.max().unwrap_or(Status::Answered)
}

/// So many pages are made before they are written: while a file is written there is no other thread, as signals need it.
const BATCH: usize = 256;

/// The page that lists the others.
const INDEX: &str = "index.html";

/// A page for each file, and one that lists them.
fn pages(
    files: &[OsString],
    limits: &Limits,
    beside: &Beside<'_>,
    (name, inputs): (&OsStr, Inputs),
) -> Result<Status, Failure> {
    let folder = Path::new(name);
    let mut progress = Progress::on_standard_error("reporting", files.len());
    let mut lines = Vec::new();
    for batch in files.chunks(BATCH) {
        let before = lines.len();
        let place = Place {
            number: 1,
            level: 1,
        };
        let work = |_, file: &OsString| Section::of(file, place, limits, beside);
        let sections = threads::map(batch, work, |done| progress.show(before + done));
        progress.clear();
        for (number, section) in (before + 1..).zip(sections) {
            section.notes.iter().for_each(complain);
            let page = page_name(number, files.len(), &section.title);
            let page = (section.found.status() < Status::Failed).then_some(page);
            let title = section.title.clone();
            let (line, html) = section.split();
            if let Some(page) = &page {
                folder::make(name)?;
                inputs.put_within(folder, page, |out| write_page(&title, &html, out))?;
            }
            lines.push((line, page));
        }
    }
    if lines.iter().any(|(_, page)| page.is_some()) {
        inputs.put_within(folder, INDEX, |out| write_index(&lines, out))?;
    }
    Ok(worst(lines.iter().map(|(line, _)| line.found.status())))
}

fn write_page(title: &str, html: &[u8], out: &mut Written<'_>) -> io::Result<()> {
    let body = |out: &mut Written<'_>| {
        writeln!(out, "<p><a href={INDEX}>All workbooks</a></p>")?;
        out.write_all(html)
    };
    document::write(title, body, out)
}

fn write_index(lines: &[(Contents, Option<String>)], out: &mut Written<'_>) -> io::Result<()> {
    let title = document::title(lines.len());
    let body = |out: &mut Written<'_>| {
        writeln!(out, "<h1>{title}</h1>")?;
        let linked = lines
            .iter()
            .map(|(line, page)| (line, page.as_deref().map(link)));
        document::write_contents(linked, out)
    };
    document::write(&title, body, out)
}

/// No name of a page is longer, in bytes and without its number and ending: 255 are the most that systems take.
const LONGEST_NAME: usize = 200;

/// The number keeps pages apart, and in the order of the files.
fn page_name(number: usize, count: usize, title: &str) -> String {
    let mut name = folder::plain(title.chars().map(Some));
    while name.len() > LONGEST_NAME {
        name.pop();
    }
    let digits = count.to_string().len();
    format!("{number:0digits$}-{name}.html")
}

/// The name of a page in a link: all but letters, digits and a few signs by their bytes.
fn link(page: &str) -> String {
    let mut link = String::new();
    for byte in page.bytes() {
        match byte {
            b'a'..=b'z' | b'A'..=b'Z' | b'0'..=b'9' | b'-' | b'_' | b'.' => {
                link.push(char::from(byte));
            }
            other => link += &format!("%{other:02X}"),
        }
    }
    link
}

/// The files that are read: none of them is written over.
struct Inputs(HashSet<Identity>);

impl Inputs {
    fn of<'f>(files: impl Iterator<Item = &'f OsStr>) -> Self {
        let found = files.filter_map(|file| fs::metadata(file).ok());
        Inputs(found.map(|found| replace::identity(&found)).collect())
    }

    /// The place, unless a file is there that is read.
    fn spare(
        &self,
        path: &Path,
        place: io::Result<replace::Place>,
    ) -> Result<replace::Place, Failure> {
        let place = place.map_err(|error| Failure::of_file(path.as_os_str(), &error))?;
        match place.replaced() {
            Some(old) if self.0.contains(&old) => {
                let error = io::Error::other("this is what is read: it is not written over");
                Err(Failure::of_file(path.as_os_str(), &error))
            }
            _ => Ok(place),
        }
    }

    fn put_within(
        &self,
        folder: &Path,
        name: &str,
        write: impl FnOnce(&mut Written<'_>) -> io::Result<()>,
    ) -> Result<(), Failure> {
        let path = folder.join(name);
        let place = self.spare(&path, replace::Place::within(folder, name))?;
        put(&path, &place, write)
    }
}

fn put(
    path: &Path,
    place: &replace::Place,
    write: impl FnOnce(&mut Written<'_>) -> io::Result<()>,
) -> Result<(), Failure> {
    let put = place.put(false, write);
    put.map_err(|error| Failure::of_file(path.as_os_str(), &error))
}
