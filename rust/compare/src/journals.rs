//! The journal of corrections and its replay, of one stream and over a pair: every answer, with every byte of stream and journal.

use super::pairs::{our_refusal, their_refusal};
use super::{values, Comparison, Counts, Wanted};
use second_reader::{PairRefusal, PairUnreplayed, Refusal, Unreplayed, Whose};
use station::journal::{self, Journal, ENTRY};
use station::pair;
use streams::Correction;

/// How many corrections a run asks for.
const RUN: u64 = 8;

/// What stands in a journal before it is started.
const BYTE: u8 = 0xC5;

/// A refusal: whose stream it names, its number, and its offset, or the number of an entry.
#[derive(Clone, Copy, Debug, PartialEq)]
enum Refused {
    At(Option<Whose>, u8, usize),
    Entry(u8, u32),
}

impl Refused {
    fn number(self) -> u8 {
        match self {
            Refused::At(_, number, _) | Refused::Entry(number, _) => number,
        }
    }
}

type Answer<A> = Result<A, Refused>;

fn one(refusal: station::Refusal) -> Refused {
    Refused::At(None, refusal.number, refusal.offset)
}

fn over(refused: pair::Refused) -> Refused {
    let (whose, number, offset) = our_refusal(refused);
    Refused::At(whose, number, offset)
}

fn stopped<R>(unreplayed: journal::Unreplayed<R>, refused: impl FnOnce(R) -> Refused) -> Refused {
    match unreplayed {
        journal::Unreplayed::Refused(refusal) => refused(refusal),
        journal::Unreplayed::Stopped { number, entry } => Refused::Entry(number, entry),
    }
}

fn their_one(refusal: Refusal) -> Refused {
    Refused::At(None, refusal.number, refusal.offset)
}

fn their_over(refused: PairRefusal) -> Refused {
    let (whose, number, offset) = their_refusal(refused);
    Refused::At(whose, number, offset)
}

/// What is lent, for one of the readers.
#[derive(Clone, PartialEq)]
struct Lent {
    stream: Vec<u8>,
    journal: Vec<u8>,
}

/// The questions on journals, of one stream or over a template.
#[derive(Clone, Copy)]
struct Asked<'t> {
    template: Option<&'t [u8]>,
}

impl Asked<'_> {
    fn ours_start(self, Lent { stream, journal }: &mut Lent) -> Answer<()> {
        match self.template {
            None => journal::start(stream, journal).map_err(one),
            Some(template) => journal::start_over(template, stream, journal).map_err(over),
        }
    }

    fn theirs_start(self, Lent { stream, journal }: &mut Lent) -> Answer<()> {
        match self.template {
            None => second_reader::start_journal(stream, journal).map_err(their_one),
            Some(template) => {
                second_reader::pair_start_journal(template, stream, journal).map_err(their_over)
            }
        }
    }

    fn ours_correct(self, lent: &mut Lent, asked: Correction) -> Answer<()> {
        let Lent { stream, journal } = lent;
        let (sheet, row, column) = (asked.sheet, asked.row, asked.column);
        let value = values(asked.value).0;
        match self.template {
            None => journal::correct(stream, journal, sheet, row, column, value).map_err(one),
            Some(template) => {
                journal::correct_over(template, stream, journal, sheet, row, column, value)
                    .map_err(over)
            }
        }
    }

    fn theirs_correct(self, lent: &mut Lent, asked: Correction) -> Answer<()> {
        let Lent { stream, journal } = lent;
        let (sheet, row, column) = (asked.sheet, asked.row, asked.column);
        let value = values(asked.value).1;
        match self.template {
            None => second_reader::correct_journalled(stream, journal, sheet, row, column, value)
                .map_err(their_one),
            Some(template) => second_reader::pair_correct_journalled(
                template, stream, journal, sheet, row, column, value,
            )
            .map_err(their_over),
        }
    }

    fn ours_replay(self, Lent { stream, journal }: &mut Lent, backwards: bool) -> Answer<u32> {
        let direction = match backwards {
            true => journal::Direction::Backwards,
            false => journal::Direction::Forwards,
        };
        match self.template {
            None => {
                journal::replay(stream, journal, direction).map_err(|refused| stopped(refused, one))
            }
            Some(template) => journal::replay_over(template, stream, journal, direction)
                .map_err(|refused| stopped(refused, over)),
        }
    }

    fn theirs_replay(self, Lent { stream, journal }: &mut Lent, backwards: bool) -> Answer<u32> {
        let direction = match backwards {
            true => second_reader::Direction::Backwards,
            false => second_reader::Direction::Forwards,
        };
        match self.template {
            None => {
                second_reader::replay(stream, journal, direction).map_err(|refused| match refused {
                    Unreplayed::Refused(refusal) => their_one(refusal),
                    Unreplayed::Stopped { number, entry } => Refused::Entry(number, entry),
                })
            }
            Some(template) => second_reader::pair_replay(template, stream, journal, direction)
                .map_err(|refused| match refused {
                    PairUnreplayed::Refused(refused) => their_over(refused),
                    PairUnreplayed::Stopped { number, entry } => Refused::Entry(number, entry),
                }),
        }
    }
}

/// How often each answer was met.
#[derive(Default)]
pub struct Met {
    starts: u64,
    starts_refused: Counts,
    granted: u64,
    corrections_refused: Counts,
    /// Of one entry or more, to the end: forwards, backwards.
    replayed: [u64; 2],
    stopped: [Counts; 2],
    replays_refused: Counts,
    /// Over a pair: corrections and entries aimed at a sheet of the template.
    aimed: u64,
    aimed_entries: u64,
    runs: u64,
    /// Two granted corrections of a stream in both orders: of two cells, of one.
    orders: [u64; 2],
}

impl Met {
    pub fn wanted(&self) -> Wanted {
        let mut wanted = vec![
            ("journals started".to_string(), self.starts),
            ("journals refused 12".to_string(), self.starts_refused[12]),
            ("corrections in a journal".to_string(), self.granted),
            (
                "corrections in a journal aimed at the template".to_string(),
                self.aimed,
            ),
            (
                "entries aimed at the template".to_string(),
                self.aimed_entries,
            ),
            ("runs replayed both ways".to_string(), self.runs),
            ("replays refused 21".to_string(), self.replays_refused[21]),
            (
                "two cells in a journal, both orders".to_string(),
                self.orders[0],
            ),
            ("one cell twice in a journal".to_string(), self.orders[1]),
        ];
        for number in [11, 12, 16, 17, 18, 21] {
            let times = self.corrections_refused[number];
            wanted.push((format!("corrections in a journal refused {number}"), times));
        }
        for (way, direction) in ["forwards", "backwards"].into_iter().enumerate() {
            wanted.push((format!("replayed {direction}"), self.replayed[way]));
            for number in [11, 16, 17, 18, 19] {
                let times = self.stopped[way][number];
                wanted.push((format!("replays {direction} stopped with {number}"), times));
            }
        }
        wanted
    }
}

impl Comparison {
    /// Every question on journals of one stream, or of one pair.
    pub fn journals(&mut self, seed: u64) {
        if seed.is_multiple_of(2) {
            let stream = streams::stream(seed);
            let lent = |journal| Lent {
                stream: stream.clone(),
                journal,
            };
            let asked = Asked { template: None };
            let journal = streams::journal(seed, &stream);
            let correction = streams::correction(seed, &stream);
            self.journal_questions(seed, asked, lent(journal), correction);
            let stream = streams::valid(seed);
            let corrections = (0..RUN).map(|turn| streams::correction(RUN * seed + turn, &stream));
            self.journal_run(seed, asked, &stream, corrections);
            self.journal_orders(seed, asked, &stream, streams::corrections(seed, &stream));
        } else {
            let made = streams::pair(seed);
            let template = Some(&made.template[..]);
            let lent = Lent {
                stream: made.session.clone(),
                journal: streams::pair_journal(seed, &made),
            };
            let correction = streams::pair_correction(seed, &made);
            self.journal_questions(seed, Asked { template }, lent, correction);
            let made = streams::valid_pair(seed);
            let template = Some(&made.template[..]);
            let asked = Asked { template };
            let corrections =
                (0..RUN).map(|turn| streams::pair_correction(RUN * seed + turn, &made));
            self.journal_run(seed, asked, &made.session, corrections);
            let two = streams::pair_corrections(seed, &made);
            self.journal_orders(seed, asked, &made.session, two);
        }
    }

    fn refused(&mut self, refused: Refused) -> usize {
        self.counts[usize::from(refused.number())] += 1;
        usize::from(refused.number())
    }

    /// Asks both readers with the same lent bytes, and holds the answers and all bytes together.
    fn asked<A: std::fmt::Debug + PartialEq>(
        &mut self,
        question: &str,
        seed: u64,
        lent: &mut Lent,
        ours: impl FnOnce(&mut Lent) -> Answer<A>,
        theirs: impl FnOnce(&mut Lent) -> Answer<A>,
    ) -> Answer<A> {
        let mut other = lent.clone();
        let (answer, wanted) = (ours(lent), theirs(&mut other));
        self.hold(question, seed, &answer, &wanted);
        self.hold(question, seed, lent.stream == other.stream, true);
        self.hold(question, seed, lent.journal == other.journal, true);
        answer
    }

    fn journal_questions(
        &mut self,
        seed: u64,
        asked: Asked<'_>,
        lent: Lent,
        correction: Correction,
    ) {
        let mut started = Lent {
            journal: vec![BYTE; streams::journal_room(seed)],
            ..lent.clone()
        };
        let answer = self.asked(
            "start a journal",
            seed,
            &mut started,
            |lent| asked.ours_start(lent),
            |lent| asked.theirs_start(lent),
        );
        match answer {
            Ok(()) => self.met.journals.starts += 1,
            Err(refused) => {
                let number = self.refused(refused);
                self.met.journals.starts_refused[number] += 1;
            }
        }
        self.journal_correct(seed, asked, &mut lent.clone(), correction);
        let whole = Journal::over(&lent.journal).is_whole();
        for backwards in [false, true] {
            self.journal_replay(seed, asked, &mut lent.clone(), backwards, whole);
        }
    }

    fn journal_correct(
        &mut self,
        seed: u64,
        asked: Asked<'_>,
        lent: &mut Lent,
        correction: Correction,
    ) -> bool {
        let answer = self.asked(
            "correct with a journal",
            seed,
            lent,
            |lent| asked.ours_correct(lent, correction),
            |lent| asked.theirs_correct(lent, correction),
        );
        match answer {
            Ok(()) => self.met.journals.granted += 1,
            Err(refused) => {
                let number = self.refused(refused);
                self.met.journals.corrections_refused[number] += 1;
                if number == 17 && aimed(asked, &lent.stream, correction.sheet) {
                    self.met.journals.aimed += 1;
                }
            }
        }
        answer.is_ok()
    }

    fn journal_replay(
        &mut self,
        seed: u64,
        asked: Asked<'_>,
        lent: &mut Lent,
        backwards: bool,
        whole: bool,
    ) {
        let answer = self.asked(
            "replay",
            seed,
            lent,
            |lent| asked.ours_replay(lent, backwards),
            |lent| asked.theirs_replay(lent, backwards),
        );
        let way = usize::from(backwards);
        // What the layer says of a journal alone: one that isn't whole is refused, and one that is refused is cut, malformed or names another stream.
        match answer {
            Ok(count) => {
                self.hold("a whole journal", seed, whole, true);
                self.met.journals.replayed[way] += u64::from(count > 0);
            }
            Err(refused @ Refused::Entry(number, entry)) => {
                self.hold("a whole journal", seed, whole, true);
                self.met.journals.stopped[way][usize::from(number)] += 1;
                self.refused(refused);
                let journal = Journal::over(&lent.journal);
                let entry = journal.entries().nth(entry as usize);
                let sheet = entry.map_or(0, |entry| entry.sheet());
                if number == 17 && aimed(asked, &lent.stream, sheet) {
                    self.met.journals.aimed_entries += 1;
                }
            }
            Err(refused) => {
                let number = self.refused(refused);
                if number == 21 && whole {
                    let journal = Journal::over(&lent.journal);
                    let names = journal.stream_length() == Some(lent.stream.len() as u32)
                        && journal.strings() == meant(asked, &lent.stream);
                    self.hold("a journal of another stream", seed, names, false);
                }
                self.met.journals.replays_refused[number] += 1;
            }
        }
    }

    /// A started journal with corrections of a stream, replayed both ways.
    fn journal_run(
        &mut self,
        seed: u64,
        asked: Asked<'_>,
        original: &[u8],
        corrections: impl Iterator<Item = Correction>,
    ) {
        let mut lent = Lent {
            stream: original.to_vec(),
            journal: vec![BYTE; journal::HEADER + RUN as usize * ENTRY],
        };
        let started = self.asked(
            "start a journal",
            seed,
            &mut lent,
            |lent| asked.ours_start(lent),
            |lent| asked.theirs_start(lent),
        );
        self.hold("start a journal", seed, started, Ok(()));
        let mut granted = 0;
        for correction in corrections {
            granted += u32::from(self.journal_correct(seed, asked, &mut lent, correction));
        }
        let last = lent.stream.clone();
        lent.stream = original.to_vec();
        for (backwards, wanted) in [(false, &last[..]), (true, original)] {
            let answer = self.asked(
                "replay a run",
                seed,
                &mut lent,
                |lent| asked.ours_replay(lent, backwards),
                |lent| asked.theirs_replay(lent, backwards),
            );
            self.hold("a run replayed", seed, answer, Ok(granted));
            self.hold("a run replayed", seed, lent.stream == wanted, true);
        }
        self.met.journals.runs += u64::from(granted > 0);
    }

    /// Two granted corrections of one stream: of two cells a journal has the same two entries in either order, and the stream the same bytes; of one cell it has both, and
    /// the second's old bytes are what the first wrote.
    fn journal_orders(
        &mut self,
        seed: u64,
        asked: Asked<'_>,
        original: &[u8],
        [first, second]: [Correction; 2],
    ) {
        let made = |corrections: &[Correction]| {
            let mut lent = Lent {
                stream: original.to_vec(),
                journal: vec![BYTE; journal::HEADER + 2 * ENTRY],
            };
            asked.ours_start(&mut lent).ok()?;
            for &correction in corrections {
                asked.ours_correct(&mut lent, correction).ok()?;
            }
            let entries: Vec<_> = Journal::over(&lent.journal)
                .entries()
                .map(|entry| *entry.bytes())
                .collect();
            Some((entries, lent.stream))
        };
        let (Some((one, after_one)), Some((other, after_other))) =
            (made(&[first]), made(&[second]))
        else {
            return;
        };
        let both = made(&[first, second]);
        let cell = |asked: Correction| (asked.sheet, asked.row, asked.column);
        if cell(first) != cell(second) {
            let turned = made(&[second, first]);
            let bytes = both.as_ref().map(|(_, stream)| stream.clone());
            let entries = [one[0], other[0]];
            let wanted = bytes.clone().map(|bytes| (entries.to_vec(), bytes));
            self.hold("two entries", seed, both, wanted);
            let wanted = bytes.map(|bytes| (vec![entries[1], entries[0]], bytes));
            self.hold("two entries in the other order", seed, turned, wanted);
            self.met.journals.orders[0] += 1;
        } else {
            let mut later = other[0];
            let size = usize::from(later[10]);
            let field = field_of(asked, original, first).expect("a cell that takes a value");
            later[12..12 + size].copy_from_slice(&after_one[field..field + size]);
            let wanted = Some((vec![one[0], later], after_other));
            self.hold("two entries of one cell", seed, both, wanted);
            self.met.journals.orders[1] += 1;
        }
    }
}

/// Where the field of the one cell at an address stands, as the library lists it.
fn field_of(asked: Asked<'_>, stream: &[u8], correction: Correction) -> Option<usize> {
    let mut cells = match asked.template {
        None => station::cells(stream, correction.sheet).ok()?,
        Some(template) => pair::cells(template, stream, correction.sheet).ok()?.1,
    };
    let wanted = (correction.row, correction.column);
    let found = cells.find(|cell| (cell.row().into(), cell.column().into()) == wanted);
    found.map(|cell| cell.field())
}

/// Whether only the template has a sheet of this number.
fn aimed(asked: Asked<'_>, session: &[u8], sheet: u32) -> bool {
    let told = asked
        .template
        .map(|template| second_reader::pair_sheet(template, session, sheet));
    matches!(told, Some(Ok(told)) if told.whose == Whose::Template)
}

/// How many strings a stream's text indices may mean.
fn meant(asked: Asked<'_>, stream: &[u8]) -> Option<u32> {
    match asked.template {
        None => Some(station::check(stream).ok()?.strings),
        Some(template) => {
            let pair = pair::check(template, stream).ok()?;
            Some(pair.string_count(pair.table_of(pair::Whose::Session)))
        }
    }
}
