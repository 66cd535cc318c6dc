//! Workbook streams from files and from standard input.

use crate::hint;
use crate::outcome::{complain, Failure, Status};
use crate::replace::{Place, Written};
use crate::text::Name;
use station::pair::Refused;
use std::ffi::OsStr;
use std::fmt::Display;
use std::fs::File;
use std::io::{self, Read, Write};
use std::path::Path;

/// The word for standard input, and for standard output where something is written.
pub const STANDARD: &str = "-";

/// One byte more than a stream may have: enough for the library to refuse it, however long the file is.
const ENOUGH: u64 = station::LONGEST_STREAM as u64 + 1;

/// The bytes of a stream, and the name they go by.
pub struct Stream<'n> {
    name: &'n OsStr,
    pub bytes: Vec<u8>,
}

impl<'n> Stream<'n> {
    pub fn read(name: &'n OsStr) -> Result<Self, Failure> {
        if name == STANDARD {
            return Self::read_from(name, io::stdin().lock());
        }
        match File::open(name) {
            Ok(file) => Self::read_from(name, file),
            Err(error) => Err(Failure::of_file(name, &error)),
        }
    }

    pub fn read_from(name: &'n OsStr, source: impl Read) -> Result<Self, Failure> {
        let mut bytes = Vec::new();
        match source.take(ENOUGH).read_to_end(&mut bytes) {
            Ok(_) => Ok(Stream { name, bytes }),
            Err(error) => Err(Failure::of_file(name, &error)),
        }
    }

    /// Gives a refusal as the answer: its bare line for machines, and what it means for people.
    pub fn refuse(&self, refused: Refused, out: &mut impl Write) -> Result<Status, Failure> {
        writeln!(out, "{}", refused.line())?;
        out.flush()?;
        Ok(self.explain(refused))
    }

    /// Says what a refusal means, on standard error alone: where data is asked for, standard output has nothing else.
    pub fn explain(&self, refused: Refused) -> Status {
        self.note(refused);
        self.hint();
        Status::Refused
    }

    /// The path that it was read from.
    pub fn path(&self) -> Option<&'n Path> {
        (self.name != STANDARD).then_some(Path::new(self.name))
    }

    /// The name of the file without its folder, as it stands in a line.
    pub fn title(&self) -> String {
        let name = self.path().and_then(Path::file_name);
        name.map_or(self.called(), Name).to_string()
    }

    /// Puts what is written into a file; never into the one that is read.
    pub fn put_beside(
        &self,
        path: &Path,
        place: io::Result<Place>,
        write: impl FnOnce(&mut Written<'_>) -> io::Result<()>,
    ) -> Result<(), Failure> {
        let failed = |error: io::Error| Failure::of_file(path.as_os_str(), &error);
        let place = place.map_err(failed)?;
        if self.is_replaced_at(&place) {
            return Err(self.failure("this is what is read: it is not written over"));
        }
        place.put(false, write).map_err(failed)
    }

    /// Whether it was read from the file that would be replaced there.
    pub fn is_replaced_at(&self, place: &Place) -> bool {
        self.path().is_some_and(|read| place.replaces(read))
    }

    /// Why it can't be done with this stream.
    pub fn failure(&self, message: impl Display) -> Failure {
        Failure::File(self.message(message))
    }

    /// Says something of this stream on standard error.
    pub fn note(&self, note: impl Display) {
        complain(self.message(note));
    }

    /// What is said of this stream, with its name.
    pub fn message(&self, note: impl Display) -> String {
        format!("{}: {note}", self.called())
    }

    /// What a refusal can't say: what kind of file this is, and how to come from it to a stream.
    pub fn hint(&self) {
        if let Some(hint) = hint::of(&self.bytes) {
            self.note(hint);
        }
    }

    /// What the stream is called in messages.
    pub fn called(&self) -> Name<'n> {
        Name(match self.name == STANDARD {
            true => "standard input".as_ref(),
            false => self.name,
        })
    }
}
