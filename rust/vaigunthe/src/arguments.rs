//! The words after a command's name, read as the command's entry in the table says.

use crate::commands::Command;
use crate::nearest::nearest;
use crate::outcome::Failure;
use crate::text::Word;
use std::ffi::{OsStr, OsString};
use std::os::unix::ffi::OsStrExt;

/// The operands that a command takes.
pub enum Operands {
    /// Each of these, once.
    Each(&'static [&'static str]),
    /// One or more of this.
    Several(&'static str),
    /// These, and what the command itself reads after them.
    AtLeast(&'static [&'static str]),
}

impl Operands {
    fn names(&self) -> &[&'static str] {
        match self {
            Operands::Each(names) | Operands::AtLeast(names) => names,
            Operands::Several(name) => std::slice::from_ref(name),
        }
    }
}

/// An option that a command takes.
pub struct Setting {
    pub name: &'static str,
    /// What its value is called; empty for an option that stands alone, and in brackets for one that may, `[=WHEN]`.
    pub value: &'static str,
    pub about: &'static str,
}

impl Setting {
    /// An option that stands alone.
    pub const fn alone(name: &'static str, about: &'static str) -> Self {
        Setting::with(name, "", about)
    }

    /// An option with a value.
    pub const fn with(name: &'static str, value: &'static str, about: &'static str) -> Self {
        Setting { name, value, about }
    }

    /// An option with a value that may be left out, and is joined to it by `=` where it isn't.
    pub const fn joined(name: &'static str, value: &'static str, about: &'static str) -> Self {
        Setting::with(name, value, about)
    }

    fn may_stand_alone(&self) -> bool {
        self.value.starts_with('[')
    }

    pub fn needs_value(&self) -> bool {
        !self.value.is_empty() && !self.may_stand_alone()
    }

    /// The option with its value, as help shows it.
    pub fn label(&self) -> String {
        let between = if self.needs_value() { " " } else { "" };
        format!("{}{between}{}", self.name, self.value)
    }
}

/// Words that ask for help instead of an answer.
pub const HELP: [&str; 2] = ["--help", "-h"];

/// The operands and options of one call, as many as the command takes.
pub struct Arguments {
    command: &'static Command,
    operands: Vec<OsString>,
    options: Vec<(&'static str, OsString)>,
}

/// What the words ask for.
pub enum Asked {
    Help,
    Answer(Arguments),
}

impl Asked {
    pub fn read(command: &'static Command, words: &[OsString]) -> Result<Self, Failure> {
        let mut given = Arguments {
            command,
            operands: Vec::new(),
            options: Vec::new(),
        };
        let mut words = words.iter();
        while let Some(word) = words.next() {
            if word == "--" {
                given.operands.extend(words.by_ref().cloned());
            } else if !is_option(word) {
                given.operands.push(word.clone());
            } else if HELP.iter().any(|help| word == help) {
                return Ok(Asked::Help);
            } else {
                given.take_option(word, &mut words)?;
            }
        }
        given.count_operands()?;
        Ok(Asked::Answer(given))
    }
}

/// A lone hyphen is standard input, and one before a figure is a sign.
fn is_option(word: &OsStr) -> bool {
    match word.as_bytes() {
        [b'-', next, ..] => !next.is_ascii_digit() && *next != b'.',
        _ => false,
    }
}

/// An option's name, and the value that `=` joins to it.
fn split(word: &OsStr) -> (&OsStr, Option<&OsStr>) {
    let bytes = word.as_bytes();
    match bytes.iter().position(|&byte| byte == b'=') {
        Some(at) => (
            OsStr::from_bytes(&bytes[..at]),
            Some(OsStr::from_bytes(&bytes[at + 1..])),
        ),
        None => (word, None),
    }
}

/// A whole number, in digits and nothing else.
pub fn whole(what: &str, word: &OsStr) -> Result<u32, Failure> {
    let digits = word
        .to_str()
        .filter(|text| text.bytes().all(|byte| byte.is_ascii_digit()));
    digits
        .and_then(|digits| digits.parse().ok())
        .ok_or_else(|| {
            let (most, word) = (u32::MAX, Word(word));
            Failure::usage(format!(
                "{what} is a whole number from 0 to {most}, not '{word}'"
            ))
        })
}

pub fn missing(name: &str) -> Failure {
    Failure::usage(format!("{name} is missing"))
}

pub fn too_many(word: &OsStr) -> Failure {
    Failure::usage(format!("'{}' is one too many", Word(word)))
}

impl Arguments {
    /// Takes an option, with its value from the words after it where none is joined to it.
    fn take_option<'w>(
        &mut self,
        word: &OsStr,
        words: &mut impl Iterator<Item = &'w OsString>,
    ) -> Result<(), Failure> {
        let (name, joined) = split(word);
        let Some(setting) = self.command.options.iter().find(|known| name == known.name) else {
            return Err(self.unknown(name));
        };
        let name = setting.name;
        let value = match (setting.value, joined) {
            ("", None) => OsString::new(),
            ("", Some(_)) => return Err(Failure::usage(format!("{name} takes no value"))),
            (_, Some(value)) => value.to_os_string(),
            (_, None) if setting.may_stand_alone() => OsString::new(),
            (_, None) => match words.next() {
                Some(value) => value.clone(),
                None => return Err(Failure::usage(format!("{name} needs a value"))),
            },
        };
        if self.has(name) {
            return Err(Failure::usage(format!("{name} is given twice")));
        }
        self.options.push((name, value));
        Ok(())
    }

    fn unknown(&self, name: &OsStr) -> Failure {
        let known = self.command.options.iter().map(|known| known.name);
        let meant = match nearest(name, known) {
            Some(near) => format!("; did you mean {near}?"),
            None => String::new(),
        };
        Failure::usage(format!("unknown option '{}'{meant}", Word(name)))
    }

    fn count_operands(&self) -> Result<(), Failure> {
        let wanted = self.command.operands.names();
        if let Some(name) = wanted.get(self.operands.len()) {
            return Err(missing(name));
        }
        match (&self.command.operands, self.operands.get(wanted.len())) {
            (Operands::Each(_), Some(extra)) => Err(too_many(extra)),
            _ => Ok(()),
        }
    }

    pub fn operands(&self) -> &[OsString] {
        &self.operands
    }

    pub fn operand(&self, place: usize) -> &OsStr {
        &self.operands[place]
    }

    /// The value of an option, empty for one that stands alone; none where it wasn't given.
    pub fn option(&self, name: &str) -> Option<&OsStr> {
        self.options
            .iter()
            .find(|(given, _)| *given == name)
            .map(|(_, value)| value.as_os_str())
    }

    pub fn has(&self, name: &str) -> bool {
        self.option(name).is_some()
    }

    pub fn number_option(&self, name: &str) -> Result<Option<u32>, Failure> {
        self.option(name).map(|word| whole(name, word)).transpose()
    }
}
