//! A picture of cadence over time, as SVG: a line that is broken at each pause, two axes, a title. It has no script and no font of its own, and stays small
//! however many pairs there are.

mod axis;
mod line;

use crate::figures::{counted, duration, TICKS_PER_SECOND};
use crate::text::InXml;
use axis::{Axis, Unit};
use line::Line;
use std::io::{self, Write};

/// What lies between two rows, as it is drawn. A tick is 1/1024 of a second.
#[derive(Clone, Copy, Debug, PartialEq, Eq)]
pub enum Stretch {
    /// So many ticks with so many turns a minute.
    Turning { ticks: u64, cadence: u32 },
    /// So many ticks, and nothing tells the turns.
    Pause { ticks: u64 },
    /// No tick, so no time and no cadence.
    Instant,
}

impl Stretch {
    fn ticks(&self) -> u64 {
        match *self {
            Stretch::Turning { ticks, .. } | Stretch::Pause { ticks } => ticks,
            Stretch::Instant => 0,
        }
    }

    fn cadence(&self) -> Option<u32> {
        match *self {
            Stretch::Turning { cadence, .. } => Some(cadence),
            _ => None,
        }
    }
}

const WIDTH: u32 = 960;
const HEIGHT: u32 = 400;
/// The room above and below the line, and on its right.
const ABOVE: f64 = 66.0;
const BELOW: f64 = 61.0;
const RIGHT: f64 = 28.0;
/// On its left there is room for the name of the axis, and for its labels.
const LEFT: f64 = 44.0;
const DIGIT: f64 = 7.5;

const INK: &str = "#222222";
const FAINT_INK: &str = "#555555";
const GRID: &str = "#d8d8d8";
const PAUSE: &str = "#ececec";
const LINE: &str = "#0b57a4";

/// How much of a title has room.
const LONGEST_TITLE: usize = 64;

/// Where time and cadence stand in the picture.
struct Frame {
    left: f64,
    right: f64,
    top: f64,
    bottom: f64,
    /// So many ticks end at the right.
    ticks: u64,
    /// So much cadence ends at the top.
    cadence: f64,
}

impl Frame {
    fn x(&self, ticks: u64) -> f64 {
        self.left + (self.right - self.left) * (ticks as f64 / self.ticks as f64)
    }

    fn y(&self, cadence: f64) -> f64 {
        self.bottom - (self.bottom - self.top) * (cadence / self.cadence)
    }
}

/// Draws a session, as a file of its own. The title says whose it is: it is plain text, of any characters.
pub fn write<W: Write>(title: &str, stretches: &[Stretch], out: &mut W) -> io::Result<()> {
    writeln!(out, "<?xml version=\"1.0\" encoding=\"UTF-8\"?>")?;
    write_element(title, stretches, out)
}

/// The same picture, to stand in a page.
pub fn write_element<W: Write>(title: &str, stretches: &[Stretch], out: &mut W) -> io::Result<()> {
    let highest = stretches.iter().filter_map(Stretch::cadence).max();
    let total: u64 = stretches.iter().map(Stretch::ticks).sum();
    let vertical = Axis::of_cadence(highest.unwrap_or(0));
    let frame = Frame {
        left: LEFT + DIGIT * vertical.longest_label() as f64,
        right: f64::from(WIDTH) - RIGHT,
        top: ABOVE,
        bottom: f64::from(HEIGHT) - BELOW,
        // An axis without a length can't be drawn.
        ticks: total.max(TICKS_PER_SECOND),
        cadence: vertical.end,
    };
    let unit = Unit::of(frame.ticks);
    let line = Line::of(stretches, &frame);
    let seen = !line.pauses.is_empty();
    write_head(title, &summary(stretches, total, seen), out)?;
    writeln!(out, "<path fill=\"{PAUSE}\" d=\"{}\"/>", line.pauses)?;
    write_vertical(&vertical, &frame, out)?;
    write_horizontal(&unit, &frame, out)?;
    writeln!(
        out,
        "<path fill=\"none\" stroke=\"{LINE}\" stroke-width=\"1.5\" stroke-linejoin=\"round\" d=\"{}\"/>",
        line.path
    )?;
    if highest.is_none() {
        let words = match stretches {
            [] => "no two rows to compare",
            _ => "no cadence",
        };
        let (x, y) = (f64::from(WIDTH) / 2.0, f64::from(HEIGHT) / 2.0);
        write_text(out, (x, y), "middle", FAINT_INK, words)?;
    }
    writeln!(out, "</svg>")
}

/// What the session comes to, in words; and that pauses are grey, where any can be seen.
fn summary(stretches: &[Stretch], total: u64, seen: bool) -> String {
    let pauses = stretches
        .iter()
        .filter(|stretch| matches!(stretch, Stretch::Pause { .. }))
        .count();
    format!(
        "{}, {}, {}{}",
        counted(stretches.len(), "pair of rows", "pairs of rows"),
        duration(total),
        counted(pauses, "pause", "pauses"),
        if seen { " (grey)" } else { "" }
    )
}

/// The start of the picture, the title and the words under it.
fn write_head<W: Write>(title: &str, summary: &str, out: &mut W) -> io::Result<()> {
    writeln!(
        out,
        "<svg xmlns=\"http://www.w3.org/2000/svg\" width=\"{WIDTH}\" height=\"{HEIGHT}\" viewBox=\"0 0 {WIDTH} {HEIGHT}\" \
         role=\"img\" font-family=\"sans-serif\" font-size=\"13\">"
    )?;
    writeln!(out, "<title>Cadence of {}</title>", InXml(title))?;
    writeln!(out, "<desc>{}</desc>", InXml(summary))?;
    writeln!(
        out,
        "<rect width=\"{WIDTH}\" height=\"{HEIGHT}\" fill=\"#ffffff\"/>"
    )?;
    writeln!(
        out,
        "<text x=\"16\" y=\"26\" font-size=\"16\" font-weight=\"bold\" fill=\"{INK}\">Cadence of {}</text>",
        InXml(&cut(title))
    )?;
    write_text(out, (16.0, 47.0), "start", FAINT_INK, summary)
}

/// The start of a title that is too long for the picture. Characters from far east are twice as wide.
fn cut(title: &str) -> String {
    let mut width = 0;
    for (at, character) in title.char_indices() {
        width += if character < '\u{1100}' { 1 } else { 2 };
        if width > LONGEST_TITLE {
            return format!("{}…", &title[..at]);
        }
    }
    title.to_string()
}

fn write_text<W: Write>(
    out: &mut W,
    (x, y): (f64, f64),
    anchor: &str,
    ink: &str,
    text: &str,
) -> io::Result<()> {
    writeln!(
        out,
        "<text x=\"{x:.1}\" y=\"{y:.1}\" text-anchor=\"{anchor}\" fill=\"{ink}\">{}</text>",
        InXml(text)
    )
}

/// The axis of cadence, with a faint line at each label.
fn write_vertical<W: Write>(axis: &Axis, frame: &Frame, out: &mut W) -> io::Result<()> {
    let (left, right) = (frame.left, frame.right);
    for (value, label) in axis.labels() {
        let y = frame.y(value);
        writeln!(
            out,
            "<path stroke=\"{GRID}\" d=\"M{left:.1} {y:.1}H{right:.1}\"/>"
        )?;
        write_text(out, (left - 8.0, y + 4.5), "end", INK, &label)?;
    }
    let middle = (frame.top + frame.bottom) / 2.0;
    writeln!(
        out,
        "<text transform=\"translate(24 {middle:.1}) rotate(-90)\" text-anchor=\"middle\" fill=\"{INK}\">cadence, turns per minute</text>"
    )
}

/// How far below 0 the axis of time is, so that a cadence of 0 isn't taken for it.
const APART: f64 = 5.0;

/// The axis of time, with a mark at each label.
fn write_horizontal<W: Write>(unit: &Unit, frame: &Frame, out: &mut W) -> io::Result<()> {
    let (left, right, bottom) = (frame.left, frame.right, frame.bottom + APART);
    writeln!(
        out,
        "<path stroke=\"{INK}\" d=\"M{left:.1} {bottom:.1}H{right:.1}\"/>"
    )?;
    for (value, label) in unit.axis(frame.ticks).labels() {
        let x = left + (right - left) * (value / unit.length(frame.ticks));
        writeln!(out, "<path stroke=\"{INK}\" d=\"M{x:.1} {bottom:.1}v5\"/>")?;
        write_text(out, (x, bottom + 20.0), "middle", INK, &label)?;
    }
    let name = format!("elapsed time, {}", unit.name);
    let place = ((left + right) / 2.0, bottom + 42.0);
    write_text(out, place, "middle", INK, &name)
}
