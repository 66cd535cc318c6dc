//! Makes BIFF8 workbook streams, formula bytes and questions from a seed, to
//! compare readers with. The same seed always gives the same bytes.
//!
//! Valid streams use every rule there is; damaged ones break mostly one rule at
//! a time, so that every place where a reader may refuse is reached.

#![forbid(unsafe_code)]
#![warn(missing_docs)]

mod big;
mod cells;
mod contents;
mod damage;
mod formula;
mod hostile;
mod journals;
mod jumps;
mod long_texts;
mod pairs;
mod places;
mod questions;
mod record;
mod revisions;
mod rng;
mod sessions;
mod table;
mod text_results;
mod trailing;
mod unused;
mod workbook;

pub use big::Big;
pub use contents::{CellContents, Content, Contents, FormulaContents, SheetContents};
pub use formula::Formula;
pub use hostile::Hostile;
pub use pairs::{Pair, PairFetch};
pub use places::Through;
pub use questions::{Batch, Correction, Fetch, NewValue, Text};
pub use revisions::{Apart, Revisions};

use record::{bof, Book, Record, Tie};
use rng::Rng;

/// No stream of [`stream`] is longer, so that each may be read from a program's
/// standard input.
pub const LONGEST: usize = 65_536;

/// A stream of any sort: valid, damaged, or thrown together.
pub fn stream(seed: u64) -> Vec<u8> {
    let mut rng = Rng::for_purpose(seed, 1);
    let mut stream = match rng.below(100) {
        0..=41 => workbook::valid(&mut rng, false).0.write(),
        42..=93 => {
            let (book, _) = workbook::valid(&mut rng, false);
            damage::damaged(&mut rng, book)
        }
        94..=97 => thrown_together(&mut rng),
        _ => noise(&mut rng),
    };
    stream.truncate(LONGEST);
    stream
}

/// A stream that breaks no rule.
pub fn valid(seed: u64) -> Vec<u8> {
    let mut rng = Rng::for_purpose(seed, 2);
    workbook::valid(&mut rng, false).0.write()
}

/// The same stream as [`valid`] gives, and what was put into it.
pub fn valid_with_contents(seed: u64) -> (Vec<u8>, Contents) {
    let mut rng = Rng::for_purpose(seed, 2);
    let (book, contents) = workbook::valid(&mut rng, true);
    (book.write(), contents)
}

/// A stream with one to three damages.
pub fn damaged(seed: u64) -> Vec<u8> {
    let mut rng = Rng::for_purpose(seed, 3);
    let (book, _) = workbook::valid(&mut rng, false);
    damage::damaged(&mut rng, book)
}

/// A formula of any sort.
pub fn formula(seed: u64) -> Formula {
    formula::any(&mut Rng::for_purpose(seed, 4))
}

/// A formula that breaks no rule.
pub fn valid_formula(seed: u64) -> Formula {
    formula::valid(&mut Rng::for_purpose(seed, 5))
}

/// A session of any sort.
pub fn session(seed: u64) -> Vec<u8> {
    sessions::any(&mut Rng::for_purpose(seed, 10))
}

/// A session that breaks no rule.
pub fn valid_session(seed: u64) -> Vec<u8> {
    sessions::right(&mut Rng::for_purpose(seed, 11))
}

/// A row to ask a session of.
pub fn session_row(seed: u64, stream: &[u8]) -> u32 {
    questions::session_row(&mut Rng::for_purpose(seed, 12), stream)
}

/// A correction to ask of a stream, with a good chance of hitting a cell.
pub fn correction(seed: u64, stream: &[u8]) -> Correction {
    questions::correction(&mut Rng::for_purpose(seed, 6), stream)
}

/// A fetch to ask of a stream.
pub fn fetch(seed: u64, stream: &[u8]) -> Fetch {
    questions::fetch(&mut Rng::for_purpose(seed, 7), stream)
}

/// A cell to ask the text of, with a good chance of hitting a formula that has
/// one for its result.
pub fn text(seed: u64, stream: &[u8]) -> Text {
    questions::text(&mut Rng::for_purpose(seed, 13), stream)
}

/// How many numbers a table has that is to be filled for a stream.
pub fn numbers(seed: u64, stream: &[u8]) -> usize {
    places::numbers(&mut Rng::for_purpose(seed, 14), stream)
}

/// A fetch through a table to ask for. `filled` is what filling gave for the
/// stream, nothing where it was refused; the fetch is asked of the stream that
/// comes with it, of the table as it was filled or made up from it.
pub fn through(seed: u64, stream: &[u8], filled: &[u32]) -> Through {
    places::through(&mut Rng::for_purpose(seed, 15), stream, filled)
}

/// Two corrections of one stream, often of one cell or of neighbours.
pub fn corrections(seed: u64, stream: &[u8]) -> [Correction; 2] {
    let mut rng = Rng::for_purpose(seed, 16);
    let first = questions::correction(&mut rng, stream);
    let unique = questions::unique_strings(stream);
    let second = questions::correction_beside(&mut rng, stream, unique, first);
    [first, second]
}

/// A template and a session of any sort.
pub fn pair(seed: u64) -> Pair {
    pairs::any(&mut Rng::for_purpose(seed, 17))
}

/// A template and a session that break no rule.
pub fn valid_pair(seed: u64) -> Pair {
    pairs::valid(&mut Rng::for_purpose(seed, 18))
}

/// A sheet number to ask of a pair.
pub fn pair_sheet(seed: u64, pair: &Pair) -> u32 {
    pairs::sheet(&mut Rng::for_purpose(seed, 19), pair)
}

/// A fetch to ask of a pair.
pub fn pair_fetch(seed: u64, pair: &Pair) -> PairFetch {
    pairs::fetch(&mut Rng::for_purpose(seed, 20), pair)
}

/// A cell to ask the text of.
pub fn pair_text(seed: u64, pair: &Pair) -> Text {
    pairs::text(&mut Rng::for_purpose(seed, 21), pair)
}

/// A correction to ask of a pair, at times aimed at the template.
pub fn pair_correction(seed: u64, pair: &Pair) -> Correction {
    pairs::correction(&mut Rng::for_purpose(seed, 22), pair)
}

/// Two corrections of one session, as [`corrections`].
pub fn pair_corrections(seed: u64, pair: &Pair) -> [Correction; 2] {
    pairs::corrections(&mut Rng::for_purpose(seed, 23), pair)
}

/// How many numbers the tables have that are to be filled: the template's, the
/// session's.
pub fn pair_numbers(seed: u64, pair: &Pair) -> [usize; 2] {
    pairs::numbers(&mut Rng::for_purpose(seed, 24), pair)
}

/// How many bytes are lent for starting a journal, mostly around the least.
pub fn journal_room(seed: u64) -> usize {
    journals::room(&mut Rng::for_purpose(seed, 40))
}

/// A journal for a stream as it is: one that can be replayed on it forwards or
/// backwards, or one with entries that stop a replay, malformed, cut or another
/// stream's; at times with room for more entries.
pub fn journal(seed: u64, stream: &[u8]) -> Vec<u8> {
    let unique = questions::unique_strings(stream);
    journals::any(&mut Rng::for_purpose(seed, 41), stream, unique, 0)
}

/// The same for a session, at times with entries aimed at the template.
pub fn pair_journal(seed: u64, pair: &Pair) -> Vec<u8> {
    let (unique, [sheets, _]) = (pair.meant(), pair.sheets());
    let mut rng = Rng::for_purpose(seed, 42);
    journals::any(&mut rng, &pair.session, unique, sheets as u32)
}

/// A sheet number to ask a stream's cells of.
pub fn sheet(seed: u64, stream: &[u8]) -> u32 {
    questions::sheet(&mut Rng::for_purpose(seed, 8), stream)
}

/// Two streams to compare: revisions of one workbook, or any two.
pub fn revisions(seed: u64) -> (Vec<u8>, Vec<u8>) {
    let (mut first, mut second) = revisions::any(&mut Rng::for_purpose(seed, 30));
    first.truncate(LONGEST);
    second.truncate(LONGEST);
    (first, second)
}

/// Two revisions of one workbook that break no rule, and where they differ.
pub fn valid_revisions(seed: u64) -> Revisions {
    revisions::valid(&mut Rng::for_purpose(seed, 31))
}

/// A part to ask of an ascending list of differences, given their words: with
/// room for more than there are, for fewer, or for none.
pub fn batch(seed: u64, words: &[u64]) -> Batch {
    questions::batch(&mut Rng::for_purpose(seed, 32), words)
}

/// A stream of any sort for its unused strings to be left out of.
pub fn with_unused(seed: u64) -> Vec<u8> {
    unused::any(&mut Rng::for_purpose(seed, 50))
}

/// The same where it breaks no rule.
pub fn valid_with_unused(seed: u64) -> Vec<u8> {
    unused::valid(&mut Rng::for_purpose(seed, 51)).write()
}

/// A template and a session of any sort, for the session's unused strings to be
/// left out.
pub fn pair_with_unused(seed: u64) -> Pair {
    unused::pair(&mut Rng::for_purpose(seed, 52))
}

/// How many bytes are lent for a new stream of so many: more, as many, one less,
/// and none.
pub fn rooms(seed: u64, written: usize) -> [usize; 4] {
    unused::rooms(&mut Rng::for_purpose(seed, 53), written)
}

/// A valid stream that has this many bytes, at least 5,000, once its unused
/// strings are left out, and fewer before: it has none, but a string that is
/// written in another width. The rest is zeros at its end.
pub fn growing(seed: u64, written: usize) -> Vec<u8> {
    unused::growing(&mut Rng::for_purpose(seed, 54), written)
}

/// A large valid stream of exactly so many bytes, at least 400: a shared string
/// for each forty bytes, of which text cells show every second.
pub fn half_used(bytes: usize) -> Vec<u8> {
    unused::half_used(bytes)
}

/// A large valid stream of exactly so many bytes, at least 200.
pub fn big(kind: Big, bytes: usize) -> Vec<u8> {
    big::make(kind, bytes)
}

/// Two valid streams with long strings in their tables, many of them alike, and
/// cells that show any of them.
pub fn long_texts(seed: u64) -> (Vec<u8>, Vec<u8>) {
    long_texts::make(&mut Rng::for_purpose(seed, 55))
}

/// Two large valid streams that are dear to compare, of about so many bytes each.
/// There is no difference between them; but of `LastCharacters` each cell differs.
pub fn hostile(kind: Hostile, bytes: usize) -> (Vec<u8>, Vec<u8>) {
    (hostile::make(kind, bytes, 0), hostile::make(kind, bytes, 1))
}

/// A stream at or over the greatest length: 16,777,216 bytes and up to two
/// more. It is valid, or faulty at its start, or cut at its end.
pub fn longest(seed: u64) -> Vec<u8> {
    let mut rng = Rng::for_purpose(seed, 9);
    let length = 16_777_216 + seed as usize % 3;
    let mut stream = valid(seed);
    match rng.below(4) {
        0 => stream.insert(0, 0),
        1 => stream.truncate(stream.len() - 1),
        _ => {}
    }
    stream.resize(length, 0);
    stream
}

/// Records of any type one after the other, after a globals BOF.
fn thrown_together(rng: &mut Rng) -> Vec<u8> {
    let mut book = Book::default();
    book.push(Record::bof(rng, bof::GLOBALS, Tie::None));
    for _ in 0..rng.mostly_small(0, 12) {
        book.push(damage::any_record(rng));
    }
    book.write()
}

/// A few bytes with nothing in mind, often with a record's start.
fn noise(rng: &mut Rng) -> Vec<u8> {
    let mut stream = Vec::new();
    if rng.percent(60) {
        let kind = rng.pick(&[bof::GLOBALS, bof::WORKSHEET, 0x0105]);
        let mut book = Book::default();
        book.push(Record::bof(rng, kind, Tie::None));
        stream = book.write();
        let size = rng.below(stream.len() + 1);
        stream.truncate(size);
    }
    match rng.below(3) {
        0 => stream.resize(stream.len() + rng.below(30), 0),
        1 => {
            let size = rng.below(40);
            rng.append(&mut stream, size);
        }
        _ => {}
    }
    stream
}
