//! Two revisions: the list of their differences, whole and in parts, with every lent word.

use super::{ours, theirs, Comparison, Counts, Outcome, Wanted};

/// How often two streams were compared, without a difference or with some, and how often each refusal was met, of the first stream and of the second.
#[derive(Default)]
pub struct Met {
    same: u64,
    differ: u64,
    refused: [Counts; 2],
}

/// The refusals that a comparison may give: the check's, and an address twice.
const REFUSALS: [usize; 11] = [1, 2, 3, 4, 5, 6, 7, 8, 9, 10, 16];

impl Met {
    fn count(&mut self, outcome: &Compared) {
        match outcome {
            Ok(words) if words.is_empty() => self.same += 1,
            Ok(_) => self.differ += 1,
            Err((side, (number, _))) => self.refused[*side][usize::from(*number)] += 1,
        }
    }

    pub fn wanted(&self) -> Wanted {
        let mut wanted = vec![
            ("revisions without a difference".to_string(), self.same),
            ("revisions that differ".to_string(), self.differ),
        ];
        for number in REFUSALS {
            let [first, second] = self.refused.map(|of| of[number]);
            wanted.push((format!("refused {number} of first"), first));
            wanted.push((format!("refused {number} of second"), second));
        }
        wanted
    }
}

/// The words of all differences, as the header has them; or whose refusal it is, and the refusal.
type Compared = Result<Vec<u64>, (usize, (u8, usize))>;

fn with_side<A>(side: usize, outcome: Outcome<A>) -> Result<A, (usize, (u8, usize))> {
    outcome.map_err(|refusal| (side, refusal))
}

fn ours_refused(refused: station::SideRefused) -> (usize, (u8, usize)) {
    let side = match refused.side {
        station::Side::First => 0,
        station::Side::Second => 1,
    };
    (side, ours::<()>(Err(refused.refusal)).unwrap_err())
}

/// A word is the sheet's number, a bit for a cell, row, column and kind, from the highest bit to the lowest.
fn word_of(difference: &second_reader::Difference) -> u64 {
    use second_reader::Difference;
    let (sheet, cell, kind) = match difference {
        Difference::Name { sheet } => (*sheet, None, 0),
        Difference::First(at) => (at.sheet, Some(at), 1),
        Difference::Second(at) => (at.sheet, Some(at), 2),
        Difference::Unequal(at) => (at.sheet, Some(at), 3),
    };
    let of_cell = |at: &second_reader::Address| {
        (1 << 34) + (u64::from(at.row) << 18) + (u64::from(at.column) << 2)
    };
    (u64::from(sheet) << 35) + cell.map_or(0, of_cell) + kind
}

fn their_words(first: &[u8], second: &[u8]) -> Compared {
    match second_reader::compare(first, second) {
        Ok(differences) => Ok(differences.iter().map(word_of).collect()),
        Err(refused) => {
            let side = match refused.side {
                second_reader::Side::First => 0,
                second_reader::Side::Second => 1,
            };
            with_side(side, theirs(Err(refused.refusal)))
        }
    }
}

/// What stands in a lent word before.
const BEFORE: u64 = 0xABCD_ABCD_ABCD_ABCD;

impl Comparison {
    /// Two revisions that are made from a seed.
    pub fn revisions(&mut self, seed: u64) {
        let (first, second) = &streams::revisions(seed);
        self.compare(seed, first, second);
    }

    /// Two streams with long strings, of which many are alike.
    pub fn long_texts(&mut self, seed: u64) {
        let (first, second) = &streams::long_texts(seed);
        self.compare(seed, first, second);
    }

    /// Each kind that is dear to compare.
    pub fn hostile(&mut self) {
        for (number, kind) in (0..).zip(streams::Hostile::ALL) {
            let (first, second) = &streams::hostile(kind, 200_000);
            self.compare(number, first, second);
        }
    }

    /// The whole list, and parts of it.
    fn compare(&mut self, seed: u64, first: &[u8], second: &[u8]) {
        let wanted = their_words(first, second);
        self.met.revisions.count(&wanted);
        let differences = station::compare(first, second).map_err(ours_refused);
        let lines = differences.map(|all| all.map(|one| one.to_string()).collect());
        self.hold(
            "compare",
            seed,
            lines,
            wanted
                .as_ref()
                .map(|words| lines_of(words))
                .map_err(|refused| *refused),
        );
        let words = wanted.clone().unwrap_or_default();
        for turn in 0..3 {
            let batch = streams::batch(3 * seed + turn, &words);
            self.part(seed, [first, second], batch, &wanted);
        }
    }

    /// A part of the list, with what stands after it in the words that are lent.
    fn part(
        &mut self,
        seed: u64,
        [first, second]: [&[u8]; 2],
        batch: streams::Batch,
        wanted: &Compared,
    ) {
        let mut words = vec![BEFORE; batch.room];
        let answer = station::compare_from(first, second, batch.from, &mut words);
        let answer = answer.map(|listed| (listed.words, listed.more));
        let mut after = vec![BEFORE; batch.room];
        let listed = wanted.as_ref().map_err(|refused| *refused).map(|all| {
            let left: Vec<u64> = all
                .iter()
                .copied()
                .filter(|word| word / 4 >= batch.from)
                .collect();
            let count = left.len().min(batch.room);
            after[..count].copy_from_slice(&left[..count]);
            (count, left.len() > batch.room)
        });
        self.hold(
            "compare a part",
            seed,
            (answer.map_err(ours_refused), words),
            (listed, after),
        );
    }

    /// A stream at or over the greatest length, with a short one, on either side.
    pub fn longest_revision(&mut self, seed: u64, longest: &[u8]) {
        let short = streams::valid(seed);
        for (first, second) in [(longest, &short[..]), (&short[..], longest)] {
            let wanted = their_words(first, second);
            self.met.revisions.count(&wanted);
            let batch = streams::Batch { from: 0, room: 100 };
            self.part(seed, [first, second], batch, &wanted);
        }
    }
}

/// The lines of the words, by the order of their bits.
fn lines_of(words: &[u64]) -> Vec<String> {
    let line = |word: &u64| {
        let (sheet, row, column) = (word >> 35, word >> 18 & 0xFFFF, word >> 2 & 0xFFFF);
        match word & 3 {
            0 => format!("name {sheet}"),
            1 => format!("first {sheet} {row} {column}"),
            2 => format!("second {sheet} {row} {column}"),
            _ => format!("unequal {sheet} {row} {column}"),
        }
    };
    words.iter().map(line).collect()
}
