//! What is read beside the workbooks of a report: a template for all of them, and for one of them its journal or an old revision.

use super::document::length;
use super::marks::{Marked, Marks};
use crate::arguments::Arguments;
use crate::input::{Stream, STANDARD};
use crate::outcome::{complain, Failure};
use crate::source::{self, Checked, TEMPLATE};
use crate::text::Name;
use crate::{compare, journal, sha256};
use station::journal::{Direction, Journal, Unreplayed};
use station::pair::{Refused, Whose};
use station::{Refusal, LONGEST_STREAM};
use std::ffi::{OsStr, OsString};

/// The options by which cells of the one workbook are marked.
const MARKING: [&str; 2] = ["--journal", "--against"];

#[derive(Default)]
pub struct Beside<'n> {
    pub template: Option<Stream<'n>>,
    pub marks: Marks,
    /// What a page says of these files: a title and words for each, the words escaped when they are written.
    pub facts: Vec<(&'static str, String)>,
}

impl<'n> Beside<'n> {
    /// The options that name a file.
    pub const OPTIONS: [&'static str; 3] = [TEMPLATE.name, "--journal", "--against"];

    /// None where a journal or an old revision is refused, which is told: a page without its marks would say that there is nothing to mark. A template or a workbook that is
    /// refused stands on the page.
    pub fn read(arguments: &'n Arguments, files: &[OsString]) -> Result<Option<Self>, Failure> {
        let marked = marked_file(arguments, files)?;
        let mut beside = Beside {
            template: source::template(arguments, files)?,
            ..Beside::default()
        };
        beside.tell_of_template();
        let Some(file) = marked else {
            return Ok(Some(beside));
        };
        let stream = Stream::read(file)?;
        let old = arguments.option("--against").map(Stream::read);
        let old = old.transpose()?;
        let name = arguments.option("--journal");
        let journal = name.map(|name| journal::read(name).map(|bytes| (name, bytes)));
        let journal = journal.transpose()?;
        if let Some((name, bytes)) = &journal {
            beside.add(["Journal", "SHA-256 of the journal"], called(name), bytes);
        }
        if let Some(old) = &old {
            let titles = ["Old revision", "SHA-256 of the old revision"];
            beside.add(titles, old.called().to_string(), &old.bytes);
        }
        let checked = Checked::of(beside.lent(), &stream.bytes);
        let Ok(checked) = checked else {
            return Ok(Some(beside));
        };
        let mut marks = Vec::new();
        if let Some((name, bytes)) = &journal {
            match corrected(beside.lent(), &checked, name, bytes) {
                Some(marked) => marks.push(marked),
                None => return Ok(None),
            }
        }
        if let Some(old) = &old {
            match differing(&stream, old) {
                Some(marked) => marks.push(marked),
                None => return Ok(None),
            }
        }
        beside.marks = Marks::of(marks);
        Ok(Some(beside))
    }

    /// The bytes of the template, where there is one.
    pub fn lent(&self) -> Option<&[u8]> {
        self.template.as_ref().map(|template| &template.bytes[..])
    }

    /// Says it once where the template is refused, and not for each session over it.
    fn tell_of_template(&mut self) {
        let Some(template) = self.template.take() else {
            return;
        };
        if let Err(refusal) = station::check(&template.bytes) {
            template.explain(Refused {
                whose: Some(Whose::Template),
                refusal,
            });
        }
        let titles = ["Template", "SHA-256 of the template"];
        self.add(titles, template.called().to_string(), &template.bytes);
        self.template = Some(template);
    }

    fn add(&mut self, [title, digest_title]: [&'static str; 2], name: String, bytes: &[u8]) {
        let length = length(bytes.len());
        self.facts.push((title, format!("{name}, {length} bytes")));
        self.facts.push((digest_title, digest(bytes)));
    }
}

/// Of a stream that is too long only the start was read.
pub fn digest(bytes: &[u8]) -> String {
    match bytes.len() > LONGEST_STREAM {
        true => "not taken of so long a file".to_string(),
        false => sha256::hex(bytes),
    }
}

fn called(name: &OsStr) -> String {
    match name == STANDARD {
        true => "standard input".to_string(),
        false => Name(name).to_string(),
    }
}

/// The one file whose cells are to be marked, where any are.
fn marked_file<'f>(
    arguments: &Arguments,
    files: &'f [OsString],
) -> Result<Option<&'f OsStr>, Failure> {
    let given = Beside::OPTIONS.map(|name| arguments.option(name));
    let read = files.iter().map(OsString::as_os_str);
    let standard = read.chain(given.into_iter().flatten());
    let standard = standard.filter(|name| *name == STANDARD).count();
    let marking = MARKING.iter().find(|name| arguments.has(name));
    match (marking, files) {
        (Some(name), [] | [_, _, ..]) => Err(goes_with_one(name)),
        (Some(name), [file]) if file == STANDARD => Err(goes_with_one(name)),
        _ if standard > 1 => Err(Failure::usage("standard input can be read only once")),
        (Some(_), _) if arguments.has("--against") && arguments.has(TEMPLATE.name) => {
            Err(Failure::usage(
                "--against doesn't go with --template: two streams are compared, each by itself",
            ))
        }
        (Some(_), [file]) => Ok(Some(file)),
        (None, _) => Ok(None),
    }
}

fn goes_with_one(name: &str) -> Failure {
    Failure::usage(format!(
        "{name} goes with one file, which isn't standard input"
    ))
}

/// The marks of where a workbook differs from an old revision.
fn differing(stream: &Stream<'_>, old: &Stream<'_>) -> Option<Marked> {
    match station::compare(&old.bytes, &stream.bytes) {
        Ok(differences) => Some(compare::marks(differences, [old, stream])),
        Err(refused) => {
            compare::explain(refused, [old, stream]);
            None
        }
    }
}

/// The marks of a workbook's corrections, and whether it holds them.
fn corrected(
    template: Option<&[u8]>,
    checked: &Checked<'_>,
    name: &OsStr,
    bytes: &[u8],
) -> Option<Marked> {
    let kept = Journal::over(bytes);
    let replayed = |direction| {
        let mut copy = checked.stream(Whose::Session).to_vec();
        source::replay(template, &mut copy, &kept, direction)
    };
    let said = match (kept.count(), replayed(Direction::Backwards)) {
        // The workbook has passed: it is the journal's own.
        (_, Err(Unreplayed::Refused(refused))) => {
            complain(format_args!("{}: {}", Name(name), refused.refusal));
            return None;
        }
        (0, Ok(_)) => None,
        (_, Ok(_)) => Some("The workbook holds what they wrote.".to_string()),
        (_, Err(Unreplayed::Stopped { number, entry })) => {
            Some(match replayed(Direction::Forwards) {
                Ok(_) => "The workbook is as it was before them.".to_string(),
                Err(_) => format!(
                    "The workbook is neither as they left it nor as it was before them: taken back from the last to the first, entry {entry} is refused {number}: {}.",
                    Refusal { number, offset: 0 }.meaning()
                ),
            })
        }
    };
    let mut marked = journal::marks(&kept, &journal::Names::of(checked));
    marked.said = said;
    journal::tell_unsettled(name);
    Some(marked)
}
