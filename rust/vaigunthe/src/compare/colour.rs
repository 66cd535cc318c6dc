//! Colours, where they are asked for or where somebody looks.

use crate::arguments::Arguments;
use crate::outcome::{Failure, Output};
use crate::text::Word;
use std::fmt::{self, Display, Formatter};
use std::io::IsTerminal;

/// The sequences by which a value is coloured; none where there is no colour.
#[derive(Clone, Copy)]
pub struct Colour {
    on: bool,
}

const OLD: &str = "\x1b[31m";
const NEW: &str = "\x1b[32m";
const PLAIN: &str = "\x1b[m";

impl Colour {
    /// By `--color`, as other tools have it: alone it is always.
    pub fn of(arguments: &Arguments, out: &Output) -> Result<Self, Failure> {
        let on = match arguments.option("--color") {
            None => wanted(out),
            Some(when) => match when.to_str() {
                Some("always" | "") => true,
                Some("never") => false,
                Some("auto") => wanted(out),
                _ => {
                    let when = Word(when);
                    return Err(Failure::usage(format!(
                        "--color is always, auto or never, not '{when}'"
                    )));
                }
            },
        };
        Ok(Colour { on })
    }

    pub fn in_old<D: Display>(self, value: D) -> Coloured<D> {
        self.with(OLD, value)
    }

    pub fn in_new<D: Display>(self, value: D) -> Coloured<D> {
        self.with(NEW, value)
    }

    fn with<D: Display>(self, sequence: &'static str, value: D) -> Coloured<D> {
        Coloured {
            sequence: self.on.then_some(sequence),
            value,
        }
    }
}

/// On a terminal that knows the sequences, and where nobody has said that they want none.
fn wanted(out: &Output) -> bool {
    let set = |name: &str| std::env::var_os(name).filter(|value| !value.is_empty());
    let dumb = set("TERM").is_none_or(|term| term == "dumb");
    set("NO_COLOR").is_none() && !dumb && out.get_ref().is_terminal()
}

pub struct Coloured<D> {
    sequence: Option<&'static str>,
    value: D,
}

impl<D: Display> Display for Coloured<D> {
    fn fmt(&self, f: &mut Formatter<'_>) -> fmt::Result {
        match self.sequence {
            Some(sequence) => write!(f, "{sequence}{}{PLAIN}", self.value),
            None => self.value.fmt(f),
        }
    }
}
