//! ask: one question a line, one answer a line, by the proved library; so that any other reader, in any language, can be compared with it.
//! `ask --help` lists the questions.

#![forbid(unsafe_code)]

mod journals;
mod pairs;
mod questions;
mod words;

use std::io::{self, BufRead, BufReader, BufWriter, ErrorKind, Read, Write};
use std::process::ExitCode;

const BUFFER: usize = 65_536;

/// The answer to a line that is no question.
const WRONG: &str = "wrong question";

/// What a shell gives for a program that was ended by a closed pipe.
const CLOSED_PIPE: u8 = 141;

fn main() -> ExitCode {
    let arguments: Vec<_> = std::env::args_os().skip(1).collect();
    let mut out = BufWriter::with_capacity(BUFFER, io::stdout().lock());
    let ended = match &arguments[..] {
        [] => answer_lines(io::stdin().lock(), &mut out),
        [only] if only == "--help" => out.write_all(questions::help().as_bytes()),
        _ => {
            eprintln!("ask: questions come from standard input; 'ask --help' lists them");
            return ExitCode::from(2);
        }
    };
    match ended.and_then(|()| out.flush()) {
        Ok(()) => ExitCode::SUCCESS,
        Err(error) if error.kind() == ErrorKind::BrokenPipe => ExitCode::from(CLOSED_PIPE),
        Err(error) => {
            eprintln!("ask: {error}");
            ExitCode::from(2)
        }
    }
}

/// Answers line by line, in order, until the input ends. The last line may lack its end.
fn answer_lines(source: impl Read, out: &mut impl Write) -> io::Result<()> {
    let mut source = BufReader::with_capacity(BUFFER, source);
    let mut line = Vec::new();
    while source.read_until(b'\n', &mut line)? > 0 {
        let question = line.strip_suffix(b"\n").unwrap_or(&line);
        let answer = questions::answer(question);
        out.write_all(answer.as_deref().unwrap_or(WRONG).as_bytes())?;
        out.write_all(b"\n")?;
        // Whoever asks may wait for this answer before the next question is whole.
        if !source.buffer().contains(&b'\n') {
            out.flush()?;
        }
        line.clear();
    }
    Ok(())
}
