//! Independent corrections: two of one stream, alone or over a pair, in both orders.

use super::{values, Comparison, Wanted};
use station::pair;
use streams::Correction;

/// How many pairs of corrections of each stream are asked for.
const TURNS: u64 = 2;

/// An answer: the refusal's number and offset, where there is one.
type Answer = Result<(), (u8, usize)>;

/// How often two corrections were met.
#[derive(Default)]
pub struct Met {
    apart_granted: u64,
    neighbours_granted: u64,
    one_granted: u64,
    apart_refused: u64,
    same_granted: u64,
    same_second_refused: u64,
    same_first_refused: u64,
}

impl Met {
    pub fn wanted(&self) -> Wanted {
        [
            ("two cells, both granted", self.apart_granted),
            ("two neighbours, both granted", self.neighbours_granted),
            ("two cells, one granted", self.one_granted),
            ("two cells, both refused", self.apart_refused),
            ("one cell twice, both granted", self.same_granted),
            (
                "one cell twice, the second refused",
                self.same_second_refused,
            ),
            ("one cell twice, the first refused", self.same_first_refused),
        ]
        .map(|(what, times)| (what.to_string(), times))
        .into()
    }

    fn count(&mut self, [first, second]: [Correction; 2], granted: [bool; 2]) {
        let place = |asked: Correction| (asked.sheet, asked.row);
        let near = place(first) == place(second) && first.column.abs_diff(second.column) == 1;
        let counted = match (is_one_cell(first, second), granted) {
            (false, [true, true]) => {
                self.neighbours_granted += u64::from(near);
                &mut self.apart_granted
            }
            (false, [false, false]) => &mut self.apart_refused,
            (false, _) => &mut self.one_granted,
            (true, [true, true]) => &mut self.same_granted,
            (true, [true, false]) => &mut self.same_second_refused,
            (true, [false, _]) => &mut self.same_first_refused,
        };
        *counted += 1;
    }
}

fn is_one_cell(first: Correction, second: Correction) -> bool {
    let place = |asked: Correction| (asked.sheet, asked.row, asked.column);
    place(first) == place(second)
}

/// The answers to corrections made one after the other, and the stream after them.
fn made<const N: usize>(
    stream: &[u8],
    asked: [Correction; N],
    correct: &mut impl FnMut(&mut [u8], Correction) -> Answer,
) -> ([Answer; N], Vec<u8>) {
    let mut stream = stream.to_vec();
    let answers = asked.map(|asked| correct(&mut stream, asked));
    (answers, stream)
}

fn plain(stream: &mut [u8], asked: Correction) -> Answer {
    let value = values(asked.value).0;
    let answer = station::correct(stream, asked.sheet, asked.row, asked.column, value);
    answer.map_err(|refusal| (refusal.number, refusal.offset))
}

fn over(template: &[u8], session: &mut [u8], asked: Correction) -> Answer {
    let value = values(asked.value).0;
    let answer = pair::correct(
        template,
        session,
        asked.sheet,
        asked.row,
        asked.column,
        value,
    );
    answer.map_err(|refused| (refused.refusal.number, refused.refusal.offset))
}

/// The second reader's bytes after both.
fn theirs(template: Option<&[u8]>, stream: &[u8], asked: [Correction; 2]) -> Vec<u8> {
    let mut stream = stream.to_vec();
    for Correction {
        sheet,
        row,
        column,
        value,
    } in asked
    {
        let value = values(value).1;
        // Whether it is granted, the bytes tell.
        let _ = match template {
            None => second_reader::correct(&mut stream, sheet, row, column, value).is_ok(),
            Some(template) => {
                second_reader::pair_correct(template, &mut stream, sheet, row, column, value)
                    .is_ok()
            }
        };
    }
    stream
}

impl Comparison {
    /// Two corrections of a stream that passes, alone and over a pair.
    pub fn orders(&mut self, seed: u64) {
        let stream = streams::valid(seed);
        let pair = streams::valid_pair(seed);
        for turn in 0..TURNS {
            let seed = TURNS * seed + turn;
            let asked = streams::corrections(seed, &stream);
            let bytes = self.two(seed, &stream, asked, plain);
            self.hold("two corrections", seed, bytes, theirs(None, &stream, asked));
            let asked = streams::pair_corrections(seed, &pair);
            let (template, session) = (&pair.template[..], &pair.session[..]);
            let bytes = self.two(seed, session, asked, |session, asked| {
                over(template, session, asked)
            });
            let wanted = theirs(Some(template), session, asked);
            self.hold("two corrections over a pair", seed, bytes, wanted);
        }
    }

    /// Two corrections of different cells get in either order the answers that each gets alone, and end in the same bytes; of one cell the second gets the answer that it
    /// gets alone, and leaves what it alone leaves, or what the first left where it is refused. Gives the bytes after both.
    fn two(
        &mut self,
        seed: u64,
        stream: &[u8],
        [first, second]: [Correction; 2],
        mut correct: impl FnMut(&mut [u8], Correction) -> Answer,
    ) -> Vec<u8> {
        let ([alone], after_first) = made(stream, [first], &mut correct);
        let ([alone_too], after_second) = made(stream, [second], &mut correct);
        let (answers, bytes) = made(stream, [first, second], &mut correct);
        self.hold("two corrections", seed, answers, [alone, alone_too]);
        if is_one_cell(first, second) {
            let left = match alone_too {
                Ok(()) => after_second,
                Err(_) => after_first,
            };
            self.hold("one cell twice", seed, bytes == left, true);
        } else {
            let (answers, swapped) = made(stream, [second, first], &mut correct);
            self.hold("the other order", seed, answers, [alone_too, alone]);
            self.hold("the other order's bytes", seed, bytes == swapped, true);
        }
        let granted = [alone.is_ok(), alone_too.is_ok()];
        self.met.orders.count([first, second], granted);
        bytes
    }
}
