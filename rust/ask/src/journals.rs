//! The questions on journals of corrections.

use crate::pairs::{changed, new_value};
use crate::words::{bytes, number};
use station::journal::{self, Direction};
use station::NewValue;

/// What is lent: a stream and its journal, and the template where there is one.
struct Lent {
    template: Option<Vec<u8>>,
    stream: Vec<u8>,
    journal: Vec<u8>,
}

/// `journal T S J`, and a question of words with single blanks between. Gives the answer, and the changed bytes of the stream and of the journal.
pub fn journal(words: &[&[u8]]) -> Option<String> {
    let [template, stream, journal, question] = words else {
        return None;
    };
    let template = match *template {
        b"-" => None,
        template => Some(bytes(template)?),
    };
    let (stream, journal) = (bytes(stream)?, bytes(journal)?);
    let before = (stream.clone(), journal.clone());
    let mut lent = Lent {
        template,
        stream,
        journal,
    };
    let words: Vec<&[u8]> = question.split(|&byte| byte == b' ').collect();
    let answer = match words[..] {
        [b"start"] => lent.start(),
        [b"correct", sheet, row, column, kind, value] => {
            let address = (number(sheet)?, number(row)?, number(column)?);
            lent.correct(address, new_value(kind, value)?)
        }
        [b"forwards"] => lent.replay(Direction::Forwards),
        [b"backwards"] => lent.replay(Direction::Backwards),
        _ => return None,
    };
    let (stream, journal) = (
        changed(&before.0, &lent.stream),
        changed(&before.1, &lent.journal),
    );
    Some(format!("{answer}\t{stream}\t{journal}"))
}

fn ok<R>(answer: Result<(), R>, line: impl FnOnce(R) -> String) -> String {
    answer.map_or_else(line, |()| "ok".to_string())
}

fn replayed<R: journal::Line>(answer: Result<u32, journal::Unreplayed<R>>) -> String {
    answer.map_or_else(
        |refused| refused.line(),
        |count| format!("replayed {count}"),
    )
}

impl Lent {
    fn start(&mut self) -> String {
        let (stream, lent) = (&self.stream, &mut self.journal);
        match &self.template {
            None => ok(journal::start(stream, lent), |refusal| refusal.line()),
            Some(template) => ok(journal::start_over(template, stream, lent), |refused| {
                refused.line()
            }),
        }
    }

    fn correct(&mut self, (sheet, row, column): (u32, u32, u32), value: NewValue) -> String {
        let (stream, lent) = (&mut self.stream, &mut self.journal);
        match &self.template {
            None => ok(
                journal::correct(stream, lent, sheet, row, column, value),
                |refusal| refusal.line(),
            ),
            Some(template) => ok(
                journal::correct_over(template, stream, lent, sheet, row, column, value),
                |refused| refused.line(),
            ),
        }
    }

    fn replay(&mut self, direction: Direction) -> String {
        let (stream, lent) = (&mut self.stream, &self.journal);
        match &self.template {
            None => replayed(journal::replay(stream, lent, direction)),
            Some(template) => replayed(journal::replay_over(template, stream, lent, direction)),
        }
    }
}
