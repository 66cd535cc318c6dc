//! Prints how often each refusal occurs over so many seeds (200,000 if none is
//! given): `cargo run --release --example refusals -- 200000`.
//!
//! Each seed asks seven questions: check, list, fetch, text and correct of one stream,
//! judge of one formula, and the cadence of one session.

use second_reader::{self as reader, Refusal};
use streams::NewValue;

const NUMBERS: usize = 21;

/// How often each number was the answer; 0 stands for accepted.
#[derive(Clone, Copy, Default)]
struct Counts([u64; NUMBERS]);

impl Counts {
    fn add<T>(&mut self, answer: &Result<T, Refusal>) {
        let number = answer.as_ref().err().map_or(0, |refusal| refusal.number);
        self.0[usize::from(number)] += 1;
    }
}

#[derive(Default)]
struct Tally {
    check: Counts,
    list: Counts,
    fetch: Counts,
    text: Counts,
    correct: Counts,
    judge: Counts,
    cadence: Counts,
    bytes: u64,
    longest: usize,
}

impl Tally {
    fn ask(&mut self, seed: u64, stream: &mut [u8], buffer: &mut [u16]) {
        self.bytes += stream.len() as u64;
        self.longest = self.longest.max(stream.len());
        self.check.add(&reader::check(stream));
        let sheet = streams::sheet(seed, stream) as usize;
        self.list.add(&reader::list_cells(stream, sheet, |_| ()));
        let fetch = streams::fetch(seed, stream);
        let answer = reader::fetch(stream, fetch.index, &mut buffer[..fetch.units]);
        self.fetch.add(&answer);
        let ask = streams::text(seed, stream);
        let answer = reader::text(
            stream,
            ask.sheet,
            ask.row,
            ask.column,
            &mut buffer[..ask.units],
        );
        self.text.add(&answer);
        let ask = streams::correction(seed, stream);
        let value = match ask.value {
            NewValue::Number(number) => reader::NewValue::Number(number),
            NewValue::Text(index) => reader::NewValue::Text(index),
            NewValue::Truth(truth) => reader::NewValue::Truth(truth),
            NewValue::Error(code) => reader::NewValue::Error(code),
        };
        let answer = reader::correct(stream, ask.sheet, ask.row, ask.column, value);
        self.correct.add(&answer);
    }

    fn print(&self, seeds: u64) {
        println!(
            "{seeds} seeds, {} bytes, longest {}",
            self.bytes, self.longest
        );
        println!("answer     check      list     fetch      text   correct     judge   cadence");
        for number in 0..NUMBERS {
            let row = [
                self.check,
                self.list,
                self.fetch,
                self.text,
                self.correct,
                self.judge,
                self.cadence,
            ];
            let row: String = row
                .iter()
                .map(|counts| format!("{:10}", counts.0[number]))
                .collect();
            let name = match number {
                0 => "ok".to_string(),
                _ => number.to_string(),
            };
            println!("{name:>6}{row}");
        }
    }
}

fn main() {
    let seeds = std::env::args()
        .nth(1)
        .map_or(200_000, |count| count.parse().expect("a number of seeds"));
    let mut tally = Tally::default();
    let mut buffer = vec![0; 70_000];
    for seed in 0..seeds {
        let mut stream = streams::stream(seed);
        tally.ask(seed, &mut stream, &mut buffer);
        let formula = streams::formula(seed);
        let answer = reader::judge(&formula.tokens, &formula.trailing);
        tally.judge.add(&answer);
        let session = streams::session(seed);
        let row = streams::session_row(seed, &session);
        tally.cadence.add(&reader::cadence(&session, row));
    }
    // The greatest length is met on purpose: nothing shorter is refused for it.
    for seed in 0..6 {
        tally.ask(seed, &mut streams::longest(seed), &mut buffer);
    }
    tally.print(seeds);
}
