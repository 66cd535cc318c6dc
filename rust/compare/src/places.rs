//! String places kept in a table: filling, and fetching through tables right and made up.

use super::{ours, theirs, Comparison, Counts, Wanted};

/// What stands in numbers and units before a question.
const NUMBER: u32 = 0x5555_5555;
const UNIT: u16 = 0xABCD;

/// How many tables of each seed are fetched through.
const TURNS: u64 = 4;

/// How often each answer to these two questions was met.
#[derive(Default)]
pub struct Met {
    fill: Counts,
    through: Counts,
}

impl Met {
    /// What is to be met of each: `fill` refuses all that the check refuses, and 12; a fetch through a table only 11 and 12.
    pub fn wanted(&self) -> Wanted {
        [
            ("tables filled", self.fill[0]),
            ("tables refused 12", self.fill[12]),
            ("fetched through", self.through[0]),
            ("fetches through refused 11", self.through[11]),
            ("fetches through refused 12", self.through[12]),
        ]
        .map(|(what, times)| (what.to_string(), times))
        .into()
    }
}

impl Comparison {
    /// Filling, and fetches through what it gave.
    pub fn places(&mut self, seed: u64, stream: &[u8]) {
        self.fill(seed, stream);
        let filled = right_table(stream);
        for turn in 0..TURNS {
            self.through(TURNS * seed + turn, stream, &filled);
        }
    }

    fn fill(&mut self, seed: u64, stream: &[u8]) {
        let mut table = vec![NUMBER; streams::numbers(seed, stream)];
        let mut other = table.clone();
        let one = ours(station::fill(stream, &mut table));
        let two = theirs(second_reader::fill(stream, &mut other));
        self.count(&one);
        self.met.places.fill[refused(&one)] += 1;
        self.hold("fill", seed, (one, table), (two, other));
    }

    fn through(&mut self, seed: u64, stream: &[u8], filled: &[u32]) {
        let asked = streams::through(seed, stream, filled);
        let (stream, table, index) = (&asked.stream, &asked.table, asked.index);
        let mut buffer = vec![UNIT; asked.units];
        let mut other = buffer.clone();
        let one = ours(station::fetch_through(stream, table, index, &mut buffer));
        let two = theirs(second_reader::fetch_through(
            stream, table, index, &mut other,
        ));
        self.count(&one);
        self.met.places.through[refused(&one)] += 1;
        self.hold("fetch through", seed, (one, buffer), (two, other));
    }

    /// Each string through a table of the right size, into a buffer with room to spare and into one a unit short; and none after the last.
    pub fn strings_through(
        &mut self,
        seed: u64,
        workbook: &station::Workbook<'_>,
        stream: &[u8],
        strings: &[Vec<u16>],
    ) {
        let places = workbook.string_places();
        self.hold("places", seed, places.table(), &right_table(stream)[..]);
        for (index, units) in (0..).zip(strings) {
            let mut buffer = vec![UNIT; units.len() + 2];
            let answer = ours(places.fetch(stream, index, &mut buffer));
            let mut wanted = units.clone();
            wanted.extend([UNIT; 2]);
            let wanted = (Ok(units.len()), wanted);
            self.hold("fetch by its place", seed, (answer, buffer), wanted);
            if let Some(short) = units.len().checked_sub(1) {
                let mut buffer = vec![UNIT; short];
                let answer = ours(places.fetch(stream, index, &mut buffer));
                let wanted = (Err((12, 0)), vec![UNIT; short]);
                self.hold("fetch by its place", seed, (answer, buffer), wanted);
            }
        }
        let after = ours(places.fetch(stream, strings.len() as u32, &mut [UNIT; 4]));
        self.hold("fetch by its place", seed, after, Err((11, 0)));
    }

    /// The table that was filled before a granted correction is the one that is filled after it.
    pub fn places_stay(&mut self, seed: u64, before: &[u8], after: &[u8]) {
        let places = |stream| ours(station::check(stream)).map(|passed| passed.string_places());
        self.hold("places", seed, places(after), places(before));
    }
}

fn refused<A>(outcome: &super::Outcome<A>) -> usize {
    outcome.as_ref().err().map_or(0, |refusal| refusal.0.into())
}

/// The table of the right size as the second reader fills it; nothing where it is refused.
fn right_table(stream: &[u8]) -> Vec<u32> {
    let strings = second_reader::check(stream).map_or(0, |passed| passed.strings as usize);
    let mut table = vec![NUMBER; 2 * strings];
    match second_reader::fill(stream, &mut table) {
        Ok(_) => table,
        Err(_) => Vec::new(),
    }
}
