//! cadence: what lies between the rows of a session, in lines, as CSV or JSON, or as a picture.

use crate::arguments::{Arguments, Operands, Setting};
use crate::commands::Command;
use crate::figures::{seconds, TICKS_PER_SECOND};
use crate::input::{Stream, STANDARD};
use crate::outcome::{Failure, Output, Status};
use crate::picture::{self, Stretch};
use crate::profile::explained;
use crate::replace::Place;
use station::{Pair, Pairs};
use std::ffi::OsStr;
use std::io::{self, Write};
use std::path::Path;

pub const CADENCE: Command = Command {
    name: "cadence",
    about: "give the cadence of a session, from row to row, or draw it",
    usage: &["FILE [--csv|--json]", "FILE --svg OUT"],
    operands: Operands::Each(&["FILE"]),
    words: &[],
    options: &[
        Setting::alone(
            "--csv",
            "a CSV with a line for each pair of rows, after a header: row,kind,seconds,ticks,turns,cadence",
        ),
        Setting::alone(
            "--json",
            "an object with the pairs, each with row, kind, seconds, ticks, turns and cadence",
        ),
        Setting::with(
            "--svg",
            "OUT",
            "draw cadence over time into this file, for browsers and print; whole or not at all; - is standard output",
        ),
    ],
    examples: &[
        ("vaigunthe cadence ride.bin", "a line for each pair of rows"),
        (
            "vaigunthe cadence ride.bin --csv > ride.csv",
            "the same for a spreadsheet",
        ),
        (
            "vaigunthe cadence ride.bin --svg ride.svg",
            "a picture of it",
        ),
    ],
    details: "\
FILE is a session as sensors write it (vaigunthe help profile); another is
refused with 20. For each row but the last there is what lies between it and the
next, with tabs between:
  ROW TICKS TURNS CADENCE        what the counters went on by, over their end
                                 too, and turns a minute, rounded down
  ROW TICKS TURNS none           no tick went by, so there is no cadence
  ROW - - pause                  64 seconds or more by the host's clock
Ticks are 1/1024 of a second. In CSV and JSON kind is elapsed or pause, and
seconds are how long the pair was, by its ticks, or of a pause by the host's
clock. What isn't known is an empty field in CSV and null in JSON.

In the picture a pair is level from its earlier row to its later one, and the
line is broken at each pause, which is grey where it is wide enough to be seen.
FILE itself is never written over.
",
    run,
};

/// What is written.
enum Form<'a> {
    Lines,
    Csv,
    Json,
    Picture(&'a OsStr),
}

impl<'a> Form<'a> {
    fn of(arguments: &'a Arguments) -> Result<Self, Failure> {
        let asked = [arguments.has("--csv"), arguments.has("--json")];
        match (asked, arguments.option("--svg")) {
            ([false, false], None) => Ok(Form::Lines),
            ([true, false], None) => Ok(Form::Csv),
            ([false, true], None) => Ok(Form::Json),
            ([false, false], Some(out)) => Ok(Form::Picture(out)),
            _ => Err(Failure::usage("--csv, --json and --svg: one is enough")),
        }
    }
}

fn run(arguments: &Arguments, out: &mut Output) -> Result<Status, Failure> {
    let form = Form::of(arguments)?;
    let stream = Stream::read(arguments.operand(0))?;
    let pairs = match station::pairs(&stream.bytes) {
        Ok(pairs) => between(pairs),
        Err(refusal) => {
            stream.note(explained(&stream.bytes, refusal));
            stream.hint();
            return Ok(Status::Refused);
        }
    };
    match form {
        Form::Lines => write_lines(pairs, out)?,
        Form::Csv => write_csv(pairs, out)?,
        Form::Json => write_json(pairs, out)?,
        Form::Picture(name) => {
            let stretches: Vec<_> = pairs.map(|between| between.stretch()).collect();
            draw(&stream, &stretches, name, out)?;
        }
    }
    Ok(Status::Answered)
}

/// A pair, its earlier row, and how long it was in ticks.
pub struct Between {
    row: u32,
    pub pair: Pair,
    pub ticks: u64,
}

/// The pairs of a session with their rows. Only the host's seconds tell a pause, and they tell how long it was.
pub fn between(mut pairs: Pairs<'_>) -> impl Iterator<Item = Between> + '_ {
    let mut row = 0;
    std::iter::from_fn(move || {
        let before = pairs.seconds();
        let pair = pairs.next()?;
        let ticks = match pair {
            Pair::Elapsed { ticks, .. } => ticks.into(),
            Pair::Pause => {
                let seconds = pairs.seconds().zip(before);
                let seconds = seconds.map_or(0, |(after, before)| after.saturating_sub(before));
                u64::from(seconds) * TICKS_PER_SECOND
            }
        };
        row += 1;
        Some(Between {
            row: row - 1,
            pair,
            ticks,
        })
    })
}

impl Between {
    fn seconds(&self) -> f64 {
        seconds(self.ticks)
    }

    pub fn stretch(&self) -> Stretch {
        let ticks = self.ticks;
        match self.pair {
            Pair::Pause => Stretch::Pause { ticks },
            Pair::Elapsed { cadence, .. } => cadence.map_or(Stretch::Instant, |cadence| {
                Stretch::Turning { ticks, cadence }
            }),
        }
    }

    /// The fields of a table: kind, and ticks, turns and cadence, with a word for what isn't known.
    fn fields(&self, unknown: &str) -> (&'static str, [String; 3]) {
        match self.pair {
            Pair::Pause => ("pause", [0; 3].map(|_| unknown.to_string())),
            Pair::Elapsed {
                ticks,
                turns,
                cadence,
            } => {
                let cadence = cadence.map_or(unknown.to_string(), |cadence| cadence.to_string());
                ("elapsed", [ticks.to_string(), turns.to_string(), cadence])
            }
        }
    }
}

fn write_lines(pairs: impl Iterator<Item = Between>, out: &mut Output) -> io::Result<()> {
    for between in pairs {
        let row = between.row;
        match between.pair {
            Pair::Pause => writeln!(out, "{row}\t-\t-\tpause")?,
            Pair::Elapsed {
                ticks,
                turns,
                cadence: None,
            } => writeln!(out, "{row}\t{ticks}\t{turns}\tnone")?,
            Pair::Elapsed {
                ticks,
                turns,
                cadence: Some(cadence),
            } => writeln!(out, "{row}\t{ticks}\t{turns}\t{cadence}")?,
        }
    }
    Ok(())
}

fn write_csv(pairs: impl Iterator<Item = Between>, out: &mut Output) -> io::Result<()> {
    write!(out, "row,kind,seconds,ticks,turns,cadence\r\n")?;
    for between in pairs {
        let (row, seconds) = (between.row, between.seconds());
        let (kind, [ticks, turns, cadence]) = between.fields("");
        write!(out, "{row},{kind},{seconds},{ticks},{turns},{cadence}\r\n")?;
    }
    Ok(())
}

fn write_json(pairs: impl Iterator<Item = Between>, out: &mut Output) -> io::Result<()> {
    write!(out, "{{\"pairs\":[")?;
    let mut separator = "\n";
    for between in pairs {
        let (row, seconds) = (between.row, between.seconds());
        let (kind, [ticks, turns, cadence]) = between.fields("null");
        write!(
            out,
            "{separator}{{\"row\":{row},\"kind\":\"{kind}\",\"seconds\":{seconds},\"ticks\":{ticks},\"turns\":{turns},\"cadence\":{cadence}}}"
        )?;
        separator = ",\n";
    }
    writeln!(out, "\n]}}")
}

/// Puts the picture into a file, but never into the one that is read.
fn draw(
    stream: &Stream<'_>,
    stretches: &[Stretch],
    name: &OsStr,
    out: &mut Output,
) -> Result<(), Failure> {
    let title = stream.title();
    if name == STANDARD {
        return Ok(picture::write(&title, stretches, out)?);
    }
    let path = Path::new(name);
    stream.put_beside(path, Place::of(path), |out| {
        picture::write(&title, stretches, out)
    })
}
