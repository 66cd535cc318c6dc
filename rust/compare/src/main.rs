//! `compare [COUNT [FIRST]]`: asks the proved library and the second reader the same questions about made streams, formulas and corrections, one of
//! each seed from FIRST (0) on. Every second seed makes a session as sensors write it too, the others a template with its session, and two corrections
//! of one stream in both orders; half of them make journals of corrections, all of them two revisions to compare and a stream with unused strings, every
//! fourth a session with them. Answers, offsets, whose they are, and every
//! lent byte, unit, number and word before and after must agree. Prints how often each refusal was met; the exit status is 1 where there was a difference, or where
//! a refusal was met fewer than a hundred times in a run of 100,000 seeds or more.

mod compacting;
mod journals;
mod orders;
mod pairs;
mod places;
mod revisions;

use std::collections::HashSet;
use std::fmt::Debug;
use std::ops::Range;
use std::process::ExitCode;
use std::time::Instant;

/// Refusals by number; 0 counts the answers without one.
type Counts = [u64; 22];

/// Each refusal is to be met this often, in a run of so many seeds or more.
const LEAST: u64 = 100;
const WHOLE: u64 = 100_000;

type Outcome<A> = Result<A, (u8, usize)>;

fn ours<A>(answer: Result<A, station::Refusal>) -> Outcome<A> {
    answer.map_err(|refusal| (refusal.number, refusal.offset))
}

fn theirs<A>(answer: Result<A, second_reader::Refusal>) -> Outcome<A> {
    answer.map_err(|refusal| (refusal.number, refusal.offset))
}

/// What is to be met as often as each refusal, and how often it was.
type Wanted = Vec<(String, u64)>;

/// How often the answers were met that are counted by themselves.
#[derive(Default)]
struct Met {
    places: places::Met,
    pairs: pairs::Met,
    orders: orders::Met,
    journals: journals::Met,
    revisions: revisions::Met,
    compacting: compacting::Met,
}

impl Met {
    fn wanted(&self) -> Wanted {
        let places = self.places.wanted().into_iter();
        let pairs = places.chain(self.pairs.wanted());
        let orders = pairs.chain(self.orders.wanted());
        let journals = orders.chain(self.journals.wanted());
        let revisions = journals.chain(self.revisions.wanted());
        revisions.chain(self.compacting.wanted()).collect()
    }
}

struct Comparison {
    differences: u64,
    counts: Counts,
    met: Met,
}

impl Comparison {
    fn hold<A: Debug + PartialEq>(&mut self, question: &str, seed: u64, ours: A, theirs: A) {
        if ours != theirs {
            self.differences += 1;
            if self.differences <= 20 {
                println!("{question}, seed {seed}: ours {ours:?}, theirs {theirs:?}");
            }
        }
    }

    fn count<A>(&mut self, outcome: &Outcome<A>) {
        let number = outcome.as_ref().err().map_or(0, |refusal| refusal.0);
        self.counts[number as usize] += 1;
    }

    fn check(&mut self, seed: u64, stream: &[u8]) -> bool {
        let one =
            ours(station::check(stream)).map(|passed| (passed.sheets, passed.strings as usize));
        let other = theirs(second_reader::check(stream))
            .map(|passed| (passed.sheets as usize, passed.strings as usize));
        self.count(&one);
        let passed = one.is_ok();
        self.hold("check", seed, one, other);
        passed
    }

    fn list(&mut self, seed: u64, stream: &[u8]) {
        let reading = theirs(second_reader::read(stream));
        match (ours(station::check(stream)), reading) {
            (Ok(workbook), Ok(reading)) => {
                let all: Vec<_> = workbook.sheets().collect();
                self.hold("sheets", seed, all.len(), reading.sheets.len());
                for (number, (sheet, other)) in all.iter().zip(&reading.sheets).enumerate() {
                    self.sheet(seed, stream, sheet, other);
                    self.texts(seed, &workbook, sheet, other);
                    self.texts_by_cell(seed, stream, number as u32, other);
                }
                let strings: Vec<_> = workbook.strings().collect();
                self.hold("strings", seed, strings, reading.strings.clone());
                self.strings(seed, stream, &reading.strings);
                self.strings_through(seed, &workbook, stream, &reading.strings);
            }
            (workbook, reading) => self.hold("list", seed, workbook.err(), reading.err()),
        }
        let number = streams::sheet(seed, stream);
        let mut other = Vec::new();
        let listed = theirs(second_reader::list_cells(stream, number as usize, |cell| {
            other.push(of_theirs(cell))
        }));
        let cells = ours(station::cells(stream, number))
            .map(|cells| cells.map(|cell| of_ours(&cell)).collect::<Vec<_>>());
        self.count(&cells);
        self.hold("cells", seed, cells, listed.map(|()| other));
    }

    fn sheet(
        &mut self,
        seed: u64,
        stream: &[u8],
        sheet: &station::Sheet<'_>,
        other: &second_reader::Sheet,
    ) {
        self.hold("name", seed, sheet.name, &stream[other.name.clone()]);
        self.hold("width", seed, sheet.width == 2, other.wide);
        self.hold("type", seed, sheet.kind as u8, other.sheet_type as u8);
        self.hold("rows", seed, sheet.rows(), other.rows);
        let cells: Vec<_> = sheet.cells().map(|cell| of_ours(&cell)).collect();
        let others: Vec<_> = other.cells.iter().map(of_theirs).collect();
        self.hold("cells", seed, cells, others);
        self.listed_formulas(seed, stream, &other.cells);
    }

    /// Each string, into a buffer with room to spare and into one a unit short.
    fn strings(&mut self, seed: u64, stream: &[u8], strings: &[Vec<u16>]) {
        for (index, units) in strings.iter().enumerate() {
            let mut buffer = vec![0xABCD; units.len() + 2];
            let answer = ours(station::fetch(stream, index as u32, &mut buffer));
            let mut wanted = units.clone();
            wanted.extend([0xABCD; 2]);
            self.hold("fetch", seed, (answer, buffer), (Ok(units.len()), wanted));
        }
    }

    /// The text of each listed cell's result, into a buffer with room to spare and into one a unit short; and none of the cells that have another value.
    fn texts(
        &mut self,
        seed: u64,
        workbook: &station::Workbook<'_>,
        sheet: &station::Sheet<'_>,
        other: &second_reader::Sheet,
    ) {
        let mut texts = other.texts.iter();
        for (cell, theirs) in sheet.cells().zip(&other.cells) {
            let text = theirs.has_text_result().then(|| texts.next()).flatten();
            if text.is_none() && !starts_its_record(theirs) {
                continue;
            }
            let units = text.map_or(4, Vec::len);
            self.text_of("text of a listed cell", seed, text, units + 2, |buffer| {
                workbook.text(&cell, buffer)
            });
            if let Some(short) = units.checked_sub(1) {
                self.text_of("text of a listed cell", seed, text, short, |buffer| {
                    workbook.text(&cell, buffer)
                });
            }
        }
        self.hold("texts", seed, texts.next(), None);
    }

    /// Each text by the address of its cell, where that is the first listed there.
    fn texts_by_cell(
        &mut self,
        seed: u64,
        stream: &[u8],
        number: u32,
        sheet: &second_reader::Sheet,
    ) {
        if sheet.texts.is_empty() {
            return;
        }
        let mut met = HashSet::new();
        let mut texts = sheet.texts.iter();
        for cell in &sheet.cells {
            let text = cell.has_text_result().then(|| texts.next()).flatten();
            let first = met.insert((cell.row, cell.column));
            let (Some(units), true) = (text, first) else {
                continue;
            };
            let (row, column) = (cell.row.into(), cell.column.into());
            self.text_of("text", seed, text, units.len() + 2, |buffer| {
                station::text(stream, number, row, column, buffer)
            });
        }
    }

    /// One answer, with every unit of the buffer: the text, absent, or too long for it.
    fn text_of(
        &mut self,
        question: &str,
        seed: u64,
        text: Option<&Vec<u16>>,
        room: usize,
        ask: impl FnOnce(&mut [u16]) -> Result<usize, station::Refusal>,
    ) {
        let mut buffer = vec![0xABCD; room];
        let mut wanted = buffer.clone();
        let answer = match text {
            None => Err((11, 0)),
            Some(units) if units.len() > room => Err((12, 0)),
            Some(units) => {
                wanted[..units.len()].copy_from_slice(units);
                Ok(units.len())
            }
        };
        let given = ours(ask(&mut buffer));
        self.hold(question, seed, (given, buffer), (answer, wanted));
    }

    /// The text of an address, whatever is there.
    fn text(&mut self, seed: u64, stream: &[u8]) {
        let question = streams::text(seed, stream);
        let (sheet, row, column) = (question.sheet, question.row, question.column);
        let mut buffer = vec![0xABCD; question.units];
        let mut other = buffer.clone();
        let one = ours(station::text(stream, sheet, row, column, &mut buffer));
        let two = theirs(second_reader::text(stream, sheet, row, column, &mut other));
        self.count(&one);
        self.hold("text", seed, (one, buffer), (two, other));
    }

    fn fetch(&mut self, seed: u64, stream: &[u8]) {
        let question = streams::fetch(seed, stream);
        let mut buffer = vec![0xABCD; question.units];
        let mut other = buffer.clone();
        let one = ours(station::fetch(stream, question.index, &mut buffer));
        let two = theirs(second_reader::fetch(stream, question.index, &mut other));
        self.count(&one);
        self.hold("fetch", seed, (one, buffer), (two, other));
    }

    fn judge(&mut self, seed: u64) {
        let formula = streams::formula(seed);
        self.formula("judge", seed, &formula.tokens, &formula.trailing);
    }

    fn formula(&mut self, question: &str, seed: u64, tokens: &[u8], trailing: &[u8]) {
        let one = ours(station::judge(tokens, trailing));
        let two = theirs(second_reader::judge(tokens, trailing));
        self.count(&one);
        self.hold(question, seed, one, two);
    }

    /// The formulas of a sheet, as they are listed.
    fn listed_formulas(&mut self, seed: u64, stream: &[u8], cells: &[second_reader::Cell]) {
        for cell in cells {
            if let second_reader::Value::Formula(_) = cell.value {
                let tokens = &stream[cell.tokens.clone()];
                let trailing = &stream[cell.trailing.clone()];
                self.formula("judge a listed formula", seed, tokens, trailing);
            }
        }
    }

    fn correct(&mut self, seed: u64, stream: &[u8]) {
        let question = streams::correction(seed, stream);
        let (value, other) = values(question.value);
        let (sheet, row, column) = (question.sheet, question.row, question.column);
        let mut changed = stream.to_vec();
        let mut changed_too = stream.to_vec();
        let one = ours(station::correct(&mut changed, sheet, row, column, value));
        let two = theirs(second_reader::correct(
            &mut changed_too,
            sheet,
            row,
            column,
            other,
        ));
        self.count(&one);
        if one.is_ok() {
            // every cell of every sheet, the corrected one too
            let before = formats_and_places(stream);
            let after = formats_and_places(&changed);
            self.hold("formats and places", seed, after, before);
            self.places_stay(seed, stream, &changed);
        }
        self.hold("correct", seed, one, two);
        self.hold("corrected bytes", seed, changed == changed_too, true);
    }

    /// The profile, every row's cadence, and the pairs one after the other.
    fn session(&mut self, seed: u64, stream: &[u8]) {
        let profile = ours(station::profile(stream)).map(|held| (held.rows, held.columns));
        let other = theirs(second_reader::profile(stream)).map(|()| rows_and_columns(stream));
        self.count(&profile);
        self.hold("profile", seed, profile, other);
        let mut pairs = Vec::new();
        for row in 0..profile.map_or(0, |(rows, _)| rows.saturating_sub(1)) {
            pairs.extend(self.cadence(seed, stream, row).ok());
        }
        let steps =
            ours(station::pairs(stream)).map(|pairs| pairs.map(between).collect::<Vec<_>>());
        self.hold("pairs", seed, steps, profile.map(|_| pairs));
        let row = streams::session_row(seed, stream);
        let asked = self.cadence(seed, stream, row);
        self.count(&asked);
    }

    /// What lies between a row and the next.
    fn cadence(&mut self, seed: u64, stream: &[u8], row: u32) -> Outcome<second_reader::Between> {
        let one = ours(station::cadence(stream, row)).map(between);
        let two = theirs(second_reader::cadence(stream, row));
        self.hold("cadence", seed, one, two);
        two
    }

    fn all(&mut self, seed: u64) {
        let stream = streams::stream(seed);
        self.check(seed, &stream);
        self.list(seed, &stream);
        self.fetch(seed, &stream);
        self.places(seed, &stream);
        self.text(seed, &stream);
        self.judge(seed);
        for turn in 0..3 {
            self.correct(3 * seed + turn, &stream);
        }
        if seed.is_multiple_of(2) {
            self.session(seed, &streams::session(seed));
        } else {
            self.pair(seed);
            self.orders(seed);
        }
        if seed % 4 < 2 {
            self.journals(seed);
        }
        self.revisions(seed);
        if seed.is_multiple_of(100) {
            self.long_texts(seed);
        }
        self.compacting(seed);
    }
}

/// A new value for each reader.
fn values(value: streams::NewValue) -> (station::NewValue, second_reader::NewValue) {
    match value {
        streams::NewValue::Number(x) => (
            station::NewValue::Number(x),
            second_reader::NewValue::Number(x),
        ),
        streams::NewValue::Text(i) => {
            (station::NewValue::Text(i), second_reader::NewValue::Text(i))
        }
        streams::NewValue::Truth(t) => (
            station::NewValue::Truth(t),
            second_reader::NewValue::Truth(t),
        ),
        streams::NewValue::Error(e) => (
            station::NewValue::Error(e),
            second_reader::NewValue::Error(e),
        ),
    }
}

/// Whether the bytes ten before a cell's value field are its record's header: there is no other record for a reader to find there.
fn starts_its_record(cell: &second_reader::Cell) -> bool {
    use second_reader::Value;
    match cell.value {
        Value::Blank => false,
        // A MULRK has one header for many words.
        Value::Number(_) => cell.value_field.len() == 8,
        Value::Text(_) | Value::Truth(_) | Value::Error(_) | Value::Formula(_) => true,
    }
}

/// Row, column, format and place of each cell of each sheet, as the library lists them.
fn formats_and_places(stream: &[u8]) -> Outcome<Vec<(u16, u16, u16, usize)>> {
    let of_cell = |cell: station::Cell| (cell.row(), cell.column(), cell.format(), cell.field());
    let workbook = ours(station::check(stream))?;
    let cells = workbook.sheets().flat_map(|sheet| sheet.cells());
    Ok(cells.map(of_cell).collect())
}

/// The rows and columns of a session, by the cells that the second reader lists. One without cells has two columns.
fn rows_and_columns(stream: &[u8]) -> (u32, u32) {
    let (mut rows, mut columns) = (0, 2);
    let listed = second_reader::list_cells(stream, 0, |cell| {
        rows = u32::from(cell.row) + 1;
        columns = columns.max(u32::from(cell.column) + 1);
    });
    listed.map_or((0, 0), |()| (rows, columns))
}

fn between(pair: station::Pair) -> second_reader::Between {
    match pair {
        station::Pair::Pause => second_reader::Between::Pause,
        station::Pair::Elapsed {
            ticks,
            turns,
            cadence,
        } => second_reader::Between::Elapsed {
            ticks: ticks.into(),
            turns: turns.into(),
            cadence,
        },
    }
}

/// A cell in one form: row, column, format, value, the place of its value field (of a blank, of its format), and where a formula's tokens and the bytes
/// after them stand, which other cells don't have.
type Plain = (
    u16,
    u16,
    u16,
    second_reader::Value,
    usize,
    Option<(Range<usize>, Range<usize>)>,
);

fn of_theirs(cell: &second_reader::Cell) -> Plain {
    plain(
        (cell.row, cell.column, cell.format),
        cell.value,
        cell.value_field.start,
        (cell.tokens.clone(), cell.trailing.clone()),
    )
}

fn of_ours(cell: &station::Cell) -> Plain {
    plain(
        (cell.row(), cell.column(), cell.format()),
        value_of(cell.value()),
        cell.field(),
        (cell.tokens(), cell.trailing()),
    )
}

fn plain(
    (row, column, format): (u16, u16, u16),
    value: second_reader::Value,
    field: usize,
    parts: (Range<usize>, Range<usize>),
) -> Plain {
    let parts = matches!(value, second_reader::Value::Formula(_)).then_some(parts);
    (row, column, format, value, field, parts)
}

fn value_of(value: station::Value) -> second_reader::Value {
    use second_reader::{FormulaResult, Value};
    match value {
        station::Value::Blank => Value::Blank,
        station::Value::Number(bits) => Value::Number(bits),
        station::Value::Text(index) => Value::Text(index),
        station::Value::Truth(truth) => Value::Truth(truth),
        station::Value::Error(code) => Value::Error(code),
        station::Value::Formula(result) => Value::Formula(match result {
            station::FormulaResult::Number(bits) => FormulaResult::Number(bits),
            station::FormulaResult::Text => FormulaResult::Text,
            station::FormulaResult::Truth(truth) => FormulaResult::Truth(truth),
            station::FormulaResult::Error(code) => FormulaResult::Error(code),
            station::FormulaResult::Empty => FormulaResult::Empty,
        }),
    }
}

fn main() -> ExitCode {
    let mut numbers = std::env::args().skip(1).map(|word| word.parse::<u64>());
    let count = numbers.next().unwrap_or(Ok(100_000));
    let first = numbers.next().unwrap_or(Ok(0));
    let (Ok(count), Ok(first)) = (count, first) else {
        eprintln!("usage: compare [COUNT [FIRST]]");
        return ExitCode::from(2);
    };
    let start = Instant::now();
    let mut comparison = Comparison {
        differences: 0,
        counts: [0; 22],
        met: Met::default(),
    };
    let whole = count >= WHOLE;
    // at and over the greatest length, where two of three are over it
    for seed in 0..if whole { 2 * LEAST } else { 3 } {
        let stream = streams::longest(seed);
        comparison.check(seed, &stream);
        comparison.places(seed, &stream);
        comparison.longest_pair(seed, &stream);
        comparison.longest_revision(seed, &stream);
    }
    comparison.longest_new(whole);
    comparison.hostile();
    for seed in first..first + count {
        comparison.all(seed);
    }
    println!("answered {}", comparison.counts[0]);
    for (number, _) in station::meanings() {
        println!(
            "refused {number} {}",
            comparison.counts[usize::from(number)]
        );
    }
    let wanted = comparison.met.wanted();
    for (what, times) in &wanted {
        println!("{what} {times}");
    }
    println!(
        "{count} seeds from {first}, {} differences, {:.1} s",
        comparison.differences,
        start.elapsed().as_secs_f64()
    );
    let met = |number: u8| comparison.counts[usize::from(number)];
    let rare = station::meanings().any(|(number, _)| met(number) < LEAST)
        || met(0) < LEAST
        || wanted.iter().any(|(_, times)| *times < LEAST);
    if comparison.differences > 0 || (whole && rare) {
        return ExitCode::from(1);
    }
    ExitCode::SUCCESS
}
