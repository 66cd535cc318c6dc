//! A page of help: its parts, and how they are set for a terminal. The manual page is made of the same parts.

use std::fmt::{self, Display, Formatter};

pub enum Part {
    Heading(String),
    /// The ways to write a call.
    Usage(Vec<String>),
    /// Running text.
    Text(String),
    /// Lines that stay as they are.
    Lines(String),
    /// A word or command, and what it means.
    Item {
        label: String,
        text: String,
    },
}

impl Part {
    pub fn heading(title: &str) -> Self {
        Part::Heading(title.to_string())
    }

    pub fn item(label: impl Into<String>, text: &str) -> Self {
        Part::Item {
            label: label.into(),
            text: text.to_string(),
        }
    }
}

/// The parts of a text: what is indented stays as it is, and the rest runs on up to an empty line.
pub fn parts(text: &str) -> Vec<Part> {
    let mut parts = Vec::new();
    for block in text.trim_end().split("\n\n") {
        let mut gathered: Vec<(bool, Vec<&str>)> = Vec::new();
        for line in block.lines() {
            let kept = line.starts_with("  ");
            match gathered.last_mut() {
                Some((same, lines)) if *same == kept => lines.push(line),
                _ => gathered.push((kept, vec![line])),
            }
        }
        parts.extend(gathered.into_iter().map(|(kept, lines)| match kept {
            true => Part::Lines(lines.join("\n")),
            false => Part::Text(lines.join(" ")),
        }));
    }
    parts
}

/// How wide a terminal is at least.
const WIDTH: usize = 80;
/// Where the text of an item starts at most.
const FURTHEST: usize = 20;

/// A page for a terminal.
pub struct Page<'p>(pub &'p [Part]);

impl Display for Page<'_> {
    fn fmt(&self, f: &mut Formatter<'_>) -> fmt::Result {
        for (place, part) in self.0.iter().enumerate() {
            let before = place.checked_sub(1).map(|before| &self.0[before]);
            if before.is_some_and(|before| stands_apart(before, part)) {
                writeln!(f)?;
            }
            match part {
                Part::Heading(title) => writeln!(f, "{title}:")?,
                Part::Usage(ways) => writeln!(f, "usage: {}", ways.join("\n       "))?,
                Part::Text(text) => write_text(f, text)?,
                Part::Lines(lines) => writeln!(f, "{lines}")?,
                Part::Item { label, text } => write_item(f, label, text, self.start(place))?,
            }
        }
        Ok(())
    }
}

/// Whether an empty line stands between two parts.
fn stands_apart(before: &Part, part: &Part) -> bool {
    let together = match before {
        Part::Heading(_) => true,
        Part::Text(_) => matches!(part, Part::Lines(_) | Part::Item { .. }),
        Part::Item { .. } => matches!(part, Part::Item { .. }),
        Part::Usage(_) | Part::Lines(_) => false,
    };
    !together
}

impl Page<'_> {
    /// Where the texts of the items around this one start: behind the longest label, if that isn't too far.
    fn start(&self, place: usize) -> usize {
        let label = |part: &Part| match part {
            Part::Item { label, .. } => Some(label.chars().count()),
            _ => None,
        };
        let before = self.0[..place].iter().rev().map_while(label);
        let after = self.0[place..].iter().map_while(label);
        let fitting = before.chain(after).map(|length| length + 4);
        fitting
            .filter(|start| *start <= FURTHEST)
            .max()
            .unwrap_or(6)
    }
}

fn write_item(f: &mut Formatter<'_>, label: &str, text: &str, start: usize) -> fmt::Result {
    let mut lines = wrapped(text, WIDTH - start).into_iter();
    if label.chars().count() + 4 <= start {
        let first = lines.next().unwrap_or_default();
        writeln!(f, "  {label:<width$}{first}", width = start - 2)?;
    } else {
        writeln!(f, "  {label}")?;
    }
    lines.try_for_each(|line| writeln!(f, "{:start$}{line}", ""))
}

fn write_text(f: &mut Formatter<'_>, text: &str) -> fmt::Result {
    let lines = wrapped(text, WIDTH);
    lines.iter().try_for_each(|line| writeln!(f, "{line}"))
}

/// The words of a text in lines of this width.
fn wrapped(text: &str, width: usize) -> Vec<String> {
    let mut lines: Vec<String> = Vec::new();
    for word in text.split_whitespace() {
        match lines.last_mut() {
            Some(line) if line.chars().count() + 1 + word.chars().count() <= width => {
                line.push(' ');
                line.push_str(word);
            }
            _ => lines.push(word.to_string()),
        }
    }
    lines
}
