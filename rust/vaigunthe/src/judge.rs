//! judge: formulas in hex, a line of answer each.

use crate::arguments::{Arguments, Operands};
use crate::commands::Command;
use crate::input::STANDARD;
use crate::outcome::{complain, Failure, Output, Status};
use station::Refusal;
use std::ffi::OsString;
use std::fmt::Display;
use std::io::{self, BufRead, BufReader, Read, Write};

pub const JUDGE: Command = Command {
    name: "judge",
    about: "judge the bytes of formulas",
    usage: &["TOKENS[+TRAILING]...", "-"],
    operands: Operands::Several("TOKENS[+TRAILING]"),
    words: &[],
    options: &[],
    examples: &[
        ("vaigunthe judge 1E0100", "one formula, the number 1"),
        (
            "vaigunthe judge 6000000000000000+000000010000000000002940",
            "an array constant of one number",
        ),
        ("vaigunthe judge - < formulas.txt", "a formula in each line"),
    ],
    details: "\
Each word is one formula, its token bytes in hex, two digits a byte; in quotes it
may have spaces. Array constants and cached areas have data in the bytes after
all tokens: these follow a +. With - there is a formula in each line of standard
input; an empty line is an empty formula. A line of answer for each:
  accepted
  refused N at O
What a refusal means is said on standard error, once for each number.

Offsets in the bytes after the tokens are counted on from the tokens' end.
Where one word is no hex, none is answered. Lines are answered as they come; one
that is no hex ends that with status 2 and its number on standard error.
",
    run,
};

/// No line is read on without end. What is longer can only be spaces, or a formula far over the greatest length.
const LONGEST_LINE: u64 = 1 << 26;

const NOT_HEX: &str = "not hex: each byte of a formula is two digits, 0 to 9 or A to F";

fn run(arguments: &Arguments, out: &mut Output) -> Result<Status, Failure> {
    match arguments.operands() {
        [only] if only == STANDARD => judge_lines(io::stdin().lock(), out),
        words => judge_words(words, out),
    }
}

/// A formula's tokens, and the bytes after them.
struct Formula {
    tokens: Vec<u8>,
    trailing: Vec<u8>,
}

/// Answers nothing unless all the words are hex.
fn judge_words(words: &[OsString], out: &mut Output) -> Result<Status, Failure> {
    let mut formulas = Vec::with_capacity(words.len());
    for (done, word) in words.iter().enumerate() {
        let formula = formula_in(word.as_encoded_bytes());
        let message = || Failure::usage(format!("formula {} is {NOT_HEX}", done + 1));
        formulas.push(formula.ok_or_else(message)?);
    }
    let mut judge = Judge::new(out);
    for (done, formula) in formulas.iter().enumerate() {
        judge.answer(formula, format_args!("formula {}", done + 1))?;
    }
    Ok(judge.status)
}

/// Answers line by line as they come, up to the first that is not hex.
fn judge_lines(source: impl Read, out: &mut Output) -> Result<Status, Failure> {
    let mut source = BufReader::new(source);
    let mut judge = Judge::new(out);
    let mut line = Vec::new();
    for number in 1.. {
        line.clear();
        let read = source
            .by_ref()
            .take(LONGEST_LINE)
            .read_until(b'\n', &mut line);
        match read {
            Ok(0) => break,
            Ok(_) => {}
            Err(error) => return Err(Failure::of_file(STANDARD.as_ref(), &error)),
        }
        let formula = formula_of(&line).map_err(|fault| {
            Failure::File(format!("line {number} of standard input is {fault}"))
        })?;
        judge.answer(&formula, format_args!("line {number}"))?;
        // Whoever asks line by line waits for the answer before the next.
        if source.buffer().is_empty() {
            judge.out.flush()?;
        }
    }
    Ok(judge.status)
}

fn formula_of(line: &[u8]) -> Result<Formula, &'static str> {
    if line.len() as u64 == LONGEST_LINE && !line.ends_with(b"\n") {
        return Err("too long");
    }
    formula_in(line).ok_or(NOT_HEX)
}

fn formula_in(text: &[u8]) -> Option<Formula> {
    let mut parts = text.splitn(2, |&byte| byte == b'+');
    Some(Formula {
        tokens: bytes_of(parts.next()?)?,
        trailing: bytes_of(parts.next().unwrap_or_default())?,
    })
}

/// The bytes that are written in hex, with or without space between them.
fn bytes_of(text: &[u8]) -> Option<Vec<u8>> {
    let mut bytes = Vec::with_capacity(text.len() / 2);
    for group in text.split(u8::is_ascii_whitespace) {
        let (pairs, rest) = group.as_chunks();
        if !rest.is_empty() {
            return None;
        }
        for &[high, low] in pairs {
            bytes.push(digit(high)? << 4 | digit(low)?);
        }
    }
    Some(bytes)
}

fn digit(character: u8) -> Option<u8> {
    char::from(character)
        .to_digit(16)
        .and_then(|digit| u8::try_from(digit).ok())
}

/// Answers one formula after the other.
struct Judge<'o> {
    out: &'o mut Output,
    status: Status,
    /// The refusals whose meaning has been said: once is enough, however many formulas there are.
    explained: Vec<u8>,
}

impl<'o> Judge<'o> {
    fn new(out: &'o mut Output) -> Self {
        Judge {
            out,
            status: Status::Answered,
            explained: Vec::new(),
        }
    }

    fn answer(&mut self, formula: &Formula, called: impl Display) -> io::Result<()> {
        match station::judge(&formula.tokens, &formula.trailing) {
            Ok(()) => writeln!(self.out, "accepted"),
            Err(refusal) => {
                self.status = Status::Refused;
                writeln!(self.out, "{}", refusal.line())?;
                self.explain(refusal, called)
            }
        }
    }

    fn explain(&mut self, refusal: Refusal, called: impl Display) -> io::Result<()> {
        if !self.explained.contains(&refusal.number) {
            self.explained.push(refusal.number);
            self.out.flush()?;
            complain(format_args!("{called}: {refusal}"));
        }
        Ok(())
    }
}
