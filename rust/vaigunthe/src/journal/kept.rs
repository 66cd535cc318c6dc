//! A journal that a correction is kept in: stream and journal are both replaced, or neither is.
//!
//! The new journal is first written whole beside the old one and synced; then the stream is replaced; then the new journal takes the old one's name. A run that
//! was killed after the first step leaves the new journal beside the old one, and the next correction with it settles it by the stream: where the last entry is
//! made there, the journal is put in its place, and else it is removed.

use crate::input::STANDARD;
use crate::outcome::{complain, Failure};
use crate::replace::{next_of, Beside};
use crate::source::Source;
use crate::text::Name;
use station::journal::{Direction, Journal, HEADER};
use station::pair::Refused;
use station::NewValue;
use std::ffi::OsStr;
use std::fs;
use std::io::{self, ErrorKind, Read};
use std::path::Path;

/// The bytes of a journal that is there.
pub fn read(name: &OsStr) -> Result<Vec<u8>, Failure> {
    let bytes = match name == STANDARD {
        true => {
            let mut bytes = Vec::new();
            io::stdin().lock().read_to_end(&mut bytes).map(|_| bytes)
        }
        false => fs::read(name),
    };
    bytes.map_err(|error| Failure::of_file(name, &error))
}

/// Says where a run that was ended has left an entry that isn't settled.
pub fn tell_unsettled(name: &OsStr) {
    let left = fs::metadata(next_of(Path::new(name)));
    if name != STANDARD && left.is_ok_and(|left| left.len() > 0) {
        let name = Name(name);
        complain(format_args!(
            "{name}: a run that was ended, or is still under way, has left one more entry beside it; the next correction with this journal settles it"
        ));
    }
}

/// A journal that is held by this run alone.
pub struct Kept<'n> {
    name: &'n OsStr,
    beside: Beside,
    journal: Journal<Vec<u8>>,
    is_new: bool,
}

impl<'n> Kept<'n> {
    /// Takes hold of a journal for corrections of a stream, and settles what a run that was ended has left.
    pub fn take(name: &'n OsStr, source: &Source<'_>) -> Result<Self, Failure> {
        let failed = |error: io::Error| Failure::of_file(name, &error);
        if name == STANDARD {
            return Err(Failure::usage("--journal takes a file"));
        }
        let (mut beside, left) = Beside::take(Path::new(name)).map_err(failed)?;
        match Left::of(&left, source) {
            Left::Nothing => {}
            Left::Made => {
                beside.settle().map_err(failed)?;
                complain(format_args!(
                    "{}: the entry of a run that was ended is put in its place",
                    Name(name)
                ));
                beside = Beside::take(Path::new(name)).map_err(failed)?.0;
            }
            Left::Unclear => {
                beside.keep();
                return Err(failed(io::Error::other(
                    "a run that was ended has left an entry beside it, and this stream is neither as before nor as after that correction",
                )));
            }
        }
        let (bytes, is_new) = match fs::read(name) {
            Ok(bytes) => (bytes, false),
            Err(error) if error.kind() == ErrorKind::NotFound => (Vec::new(), true),
            Err(error) => return Err(failed(error)),
        };
        Ok(Kept {
            name,
            beside,
            journal: Journal::over(bytes),
            is_new,
        })
    }

    /// Corrects a cell in memory, with an entry; a journal that isn't there yet is started.
    pub fn correct(
        &mut self,
        source: &mut Source<'_>,
        address: (u32, u32, u32),
        value: NewValue,
    ) -> Result<(), Refused> {
        if self.is_new {
            self.journal = source.start_journal()?;
        }
        self.journal.make_room();
        source.correct_in(&mut self.journal, address, value)
    }

    /// Replaces the stream by what `put` does, and then the journal.
    pub fn put(mut self, put: impl FnOnce() -> Result<(), Failure>) -> Result<(), Failure> {
        let failed = |error: io::Error| Failure::of_file(self.name, &error);
        self.beside.write(self.journal.bytes()).map_err(failed)?;
        put()?;
        self.beside.settle().map_err(|error| {
            let name = Name(self.name);
            Failure::File(format!(
                "{name}: {error}; the stream is replaced, and its entry is left beside the journal: the next correction with it settles that"
            ))
        })
    }
}

/// What a run that was ended has left beside a journal.
enum Left {
    /// Nothing, or the entry of a correction that the stream doesn't have. What is cut is of a run that hadn't come to the stream: the new journal is whole before.
    Nothing,
    /// The entry of a correction that the stream has.
    Made,
    /// The entry of a correction of another stream.
    Unclear,
}

impl Left {
    /// Whether the last entry is made in the stream is told by a replay of it alone: backwards it can be taken back, forwards made.
    fn of(left: &[u8], source: &Source<'_>) -> Self {
        let journal = Journal::over(left);
        let last = match journal.entries().last() {
            Some(last) if journal.is_whole() => last,
            _ => return Left::Nothing,
        };
        let mut one = left[..HEADER].to_vec();
        one[..4].copy_from_slice(&1u32.to_le_bytes());
        one.extend(last.bytes());
        let one = Journal::over(one);
        if source.replays(&one, Direction::Backwards) {
            Left::Made
        } else if source.replays(&one, Direction::Forwards) {
            Left::Nothing
        } else {
            Left::Unclear
        }
    }
}
