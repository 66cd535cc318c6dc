//! The manual page, in the language of man: the same parts as the help.

use crate::arguments::{Arguments, Operands};
use crate::commands::{Command, COMMANDS};
use crate::help;
use crate::outcome::{Failure, Output, Status};
use crate::page::Part;
use std::io::{self, Write};

pub const MAN: Command = Command {
    name: "man",
    about: "write the manual page",
    usage: &["> vaigunthe.1"],
    operands: Operands::Each(&[]),
    words: &[],
    options: &[],
    examples: &[(
        "vaigunthe man > vaigunthe.1",
        "then man ./vaigunthe.1 shows it",
    )],
    details: "\
The page has the words of the help. Its place is a folder man1, such as
~/.local/share/man/man1.
",
    run,
};

fn run(_: &Arguments, out: &mut Output) -> Result<Status, Failure> {
    write_page(out)?;
    Ok(Status::Answered)
}

fn write_page(out: &mut Output) -> io::Result<()> {
    let version = escaped(env!("CARGO_PKG_VERSION"));
    writeln!(out, ".TH VAIGUNTHE 1 \"\" \"vaigunthe {version}\"")?;
    // No word is broken, no line stretched.
    writeln!(out, ".nh\n.ad l")?;
    write_heading("NAME", out)?;
    writeln!(out, "vaigunthe \\- {}", escaped(help::ABOUT))?;
    write_heading("SYNOPSIS", out)?;
    write_part(&Part::Usage(help::ways_of_tool()), out)?;
    write_heading("DESCRIPTION", out)?;
    write_parts(&help::introduction(), out)?;
    write_heading("COMMANDS", out)?;
    for command in &COMMANDS {
        writeln!(out, ".SS {}", escaped(command.name))?;
        writeln!(out, "To {}.", escaped(command.about))?;
        write_part(&Part::Usage(help::ways(command)), out)?;
        write_parts(&help::rest(command), out)?;
    }
    write_heading("NOTES", out)?;
    write_parts(&help::closing(), out)
}

fn write_heading(title: &str, out: &mut Output) -> io::Result<()> {
    writeln!(out, ".SH {}", escaped(&title.to_uppercase()))
}

fn write_parts(parts: &[Part], out: &mut Output) -> io::Result<()> {
    parts.iter().try_for_each(|part| write_part(part, out))
}

fn write_part(part: &Part, out: &mut Output) -> io::Result<()> {
    match part {
        Part::Heading(title) => writeln!(out, ".PP\n.B {}:", escaped(title)),
        Part::Text(text) => writeln!(out, ".PP\n{}", escaped(text)),
        Part::Usage(ways) => write_lines(ways.iter().map(String::as_str), out),
        Part::Lines(lines) => write_lines(lines.lines(), out),
        Part::Item { label, text } => {
            writeln!(out, ".TP\n.B {}\n{}", escaped(label), escaped(text))
        }
    }
}

/// Lines that stay as they are.
fn write_lines<'l>(mut lines: impl Iterator<Item = &'l str>, out: &mut Output) -> io::Result<()> {
    writeln!(out, ".PP\n.nf")?;
    lines.try_for_each(|line| writeln!(out, "{}", escaped(line)))?;
    writeln!(out, ".fi")
}

/// Text in which nothing is taken for a request, and hyphens and quotes stay what they are.
fn escaped(text: &str) -> String {
    let mut escaped = String::new();
    if text.starts_with(['.', '\'']) {
        escaped.push_str("\\&");
    }
    for character in text.chars() {
        match character {
            '\\' => escaped.push_str("\\e"),
            '-' => escaped.push_str("\\-"),
            '\'' => escaped.push_str("\\(aq"),
            '"' => escaped.push_str("\\(dq"),
            '~' => escaped.push_str("\\(ti"),
            plain => escaped.push(plain),
        }
    }
    escaped
}
