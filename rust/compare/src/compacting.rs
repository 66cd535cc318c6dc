//! Streams without their unused strings, of one stream and over a pair: every answer with every lent byte; and what holds of the new stream: nothing differs from
//! the old one, and made anew it is the same.

use super::pairs::{our_refusal, their_refusal, Refused};
use super::{ours, theirs, Comparison, Counts, Wanted};
use second_reader::Whose;
use station::pair;
use station::Value;
use streams::Pair;

/// What stands in a lent byte before.
const BYTE: u8 = 0x5A;

/// No stream may have more bytes.
const LONGEST: usize = 16_777_216;

/// How many streams are made whose new ones have the greatest length or more, where each refusal is to be met a hundred times.
const LONG: u64 = 110;

/// Of so many of them one has just the greatest length.
const EXACT: u64 = 11;

/// Of so many of them one is a session over a template too.
const OVER: u64 = 10;

/// How often each answer was met. Refusals over a pair count where they are of one of the streams, or of the question.
#[derive(Default)]
pub struct Met {
    smaller: u64,
    equal: u64,
    larger: u64,
    compared: u64,
    alone: Counts,
    own_table: u64,
    lent_table: u64,
    template: u64,
    session: u64,
    question: Counts,
}

/// The refusals of one stream: the check's, and 12; 1 is the new stream's too.
const REFUSALS: [usize; 11] = [1, 2, 3, 4, 5, 6, 7, 8, 9, 10, 12];

impl Met {
    pub fn wanted(&self) -> Wanted {
        let mut wanted: Wanted = [
            ("streams that get smaller", self.smaller),
            ("streams that stay as long", self.equal),
            ("streams that grow", self.larger),
            ("old and new compared", self.compared),
            ("sessions with strings of their own", self.own_table),
            ("sessions with the template's strings", self.lent_table),
            ("new sessions refused for the template", self.template),
            ("new sessions refused for the session", self.session),
            ("new sessions refused 12", self.question[12]),
        ]
        .map(|(what, times)| (what.to_string(), times))
        .into();
        for number in REFUSALS {
            wanted.push((format!("new streams refused {number}"), self.alone[number]));
        }
        wanted
    }
}

/// How long the new stream is and how many bytes are freed; or whose refusal, its number and its offset.
type Answer = Result<(usize, i64), Refused>;

/// The questions on one stream, or on a session over its template.
#[derive(Clone, Copy)]
struct Asked<'t> {
    template: Option<&'t [u8]>,
    stream: &'t [u8],
}

impl Asked<'_> {
    fn ours(self, buffer: &mut [u8]) -> Answer {
        let answer = match self.template {
            None => ours(station::compact(self.stream, buffer))
                .map_err(|(number, offset)| (None, number, offset)),
            Some(template) => pair::compact(template, self.stream, buffer).map_err(our_refusal),
        };
        answer.map(|done| (done.written, done.freed))
    }

    fn theirs(self, buffer: &mut [u8]) -> Answer {
        let answer = match self.template {
            None => theirs(second_reader::compact(self.stream, buffer))
                .map_err(|(number, offset)| (None, number, offset)),
            Some(template) => {
                second_reader::compact_session(template, self.stream, buffer).map_err(their_refusal)
            }
        };
        answer.map(|done| (done.written, done.freed))
    }

    /// The second reader's new stream, into a buffer with room for any that these streams may get.
    fn new_stream(self) -> Result<Vec<u8>, Refused> {
        let mut buffer = vec![BYTE; 2 * self.stream.len() + 100];
        let (written, _) = self.theirs(&mut buffer)?;
        buffer.truncate(written);
        Ok(buffer)
    }
}

impl Comparison {
    /// A stream, and a session over its template now and then.
    pub fn compacting(&mut self, seed: u64) {
        let stream = streams::with_unused(seed);
        let asked = Asked {
            template: None,
            stream: &stream,
        };
        let new = self.new_streams(seed, asked);
        if let Ok(new) = &new {
            self.nothing_differs(seed, &stream, new);
        }
        if seed % 4 == 1 {
            self.compacting_pair(seed);
        }
    }

    fn compacting_pair(&mut self, seed: u64) {
        let Pair { template, session } = &streams::pair_with_unused(seed);
        let asked = Asked {
            template: Some(template),
            stream: session,
        };
        let new = self.new_streams(seed, asked);
        if let Ok(new) = &new {
            self.session_shows_the_same(seed, template, session, new);
        }
    }

    /// The answer and every lent byte: with more bytes than are needed, with as many, with one less and with none. Gives the new stream.
    fn new_streams(
        &mut self,
        seed: u64,
        asked: Asked<'_>,
    ) -> Result<Vec<u8>, (Option<Whose>, u8, usize)> {
        let new = asked.new_stream();
        let old = asked.stream.len();
        let length = new.as_ref().map_or(old, Vec::len);
        for room in streams::rooms(seed, length) {
            let mut buffer = vec![BYTE; room];
            let answer = asked.ours(&mut buffer);
            let wanted = match &new {
                Ok(new) if new.len() <= room => Ok((new.len(), old as i64 - new.len() as i64)),
                Ok(_) => Err((None, 12, 0)),
                Err(refused) => Err(*refused),
            };
            self.count_new(asked, &wanted);
            self.hold("compact", seed, answer, wanted);
            let written = wanted.map_or(0, |(written, _)| written);
            let front = new.as_ref().map_or(&[][..], |new| &new[..written]);
            let kept =
                buffer[..written] == *front && buffer[written..].iter().all(|&byte| byte == BYTE);
            self.hold("bytes of a new stream", seed, kept, true);
        }
        if let Ok(new) = &new {
            let again = Asked {
                stream: new,
                ..asked
            };
            let mut buffer = vec![BYTE; new.len()];
            let answer = again.ours(&mut buffer);
            self.hold("compact twice", seed, answer, Ok((new.len(), 0)));
            self.hold("bytes of a newer stream", seed, buffer == *new, true);
        }
        new
    }

    fn count_new(&mut self, asked: Asked<'_>, answer: &Answer) {
        let met = &mut self.met.compacting;
        match (asked.template, answer) {
            (None, Ok((_, freed))) => {
                let by_size = match freed {
                    1.. => &mut met.smaller,
                    0 => &mut met.equal,
                    _ => &mut met.larger,
                };
                *by_size += 1;
            }
            (None, Err((_, number, _))) => met.alone[usize::from(*number)] += 1,
            (Some(_), Ok(_)) => {}
            (Some(_), Err((Some(Whose::Template), ..))) => met.template += 1,
            (Some(_), Err((Some(Whose::Session), ..))) => met.session += 1,
            (Some(_), Err((None, number, _))) => met.question[usize::from(*number)] += 1,
        }
    }

    /// Nothing differs between old and new, where no address has two cells; and whatever the addresses, each cell shows the same.
    fn nothing_differs(&mut self, seed: u64, old: &[u8], new: &[u8]) {
        match station::compare(old, new) {
            Ok(mut differences) => {
                self.met.compacting.compared += 1;
                self.hold("old against new", seed, differences.next(), None);
            }
            Err(refused) => self.hold("old against new", seed, refused.refusal.number, 16),
        }
        let (was, is) = (shown(old), shown(new));
        self.hold("what an old and a new stream show", seed, is == was, true);
    }

    /// Each cell of the pair has the value that it had; a text means the same string in the session's own table, or has the same index in the template's.
    fn session_shows_the_same(&mut self, seed: u64, template: &[u8], old: &[u8], new: &[u8]) {
        let of_template = pair::check(template, old)
            .is_ok_and(|pair| pair.table_of(pair::Whose::Session) == pair::Whose::Template);
        let met = &mut self.met.compacting;
        *match of_template {
            true => &mut met.lent_table,
            false => &mut met.own_table,
        } += 1;
        let (was, is) = (shown_over(template, old), shown_over(template, new));
        self.hold("what an old and a new session show", seed, is == was, true);
    }

    /// Streams whose new ones have the greatest length, or more.
    pub fn longest_new(&mut self, whole: bool) {
        for seed in 0..if whole { LONG } else { 2 } {
            let more = match seed % EXACT {
                0 => 0,
                _ => 1 + seed as usize % 2,
            };
            let stream = streams::growing(seed, LONGEST + more);
            let asked = Asked {
                template: None,
                stream: &stream,
            };
            self.long_one(seed, asked, more);
            if seed % OVER == 0 {
                let template = streams::valid(seed);
                let asked = Asked {
                    template: Some(&template),
                    ..asked
                };
                self.long_one(seed, asked, more);
            }
        }
    }

    /// A stream whose new one is too long is refused for it whatever is lent, before 12.
    fn long_one(&mut self, seed: u64, asked: Asked<'_>, more: usize) {
        let room = if more == 0 { LONGEST + 3 } else { 3 };
        let mut buffer = vec![BYTE; room];
        let mut other = buffer.clone();
        let (one, two) = (asked.ours(&mut buffer), asked.theirs(&mut other));
        self.count_new(asked, &one);
        let number = one.map_or_else(|(_, number, _)| number, |_| 0);
        self.hold(
            "a new stream of the greatest length",
            seed,
            number,
            u8::from(more > 0),
        );
        self.hold("a long new stream", seed, one, two);
        self.hold("bytes of a long new stream", seed, buffer == other, true);
    }
}

/// What a cell is and shows: its address and format, its value but for a text's index, and a text's units.
type Shown = (u16, u16, u16, Option<Value>, Option<Vec<u16>>);

fn cell_shown(cell: &station::Cell, strings: &[Vec<u16>]) -> Shown {
    let (value, text) = match cell.value() {
        Value::Text(index) => (None, strings.get(index as usize).cloned()),
        value => (Some(value), None),
    };
    (cell.row(), cell.column(), cell.format(), value, text)
}

/// Each sheet's name and cells.
fn shown(stream: &[u8]) -> Option<Vec<(Vec<u16>, Vec<Shown>)>> {
    let workbook = station::check(stream).ok()?;
    let strings: Vec<_> = workbook.strings().collect();
    let sheets = workbook.sheets().map(|sheet| {
        let cells = sheet.cells();
        let cells = cells.map(|cell| cell_shown(&cell, &strings));
        (sheet.name_units().collect(), cells.collect())
    });
    Some(sheets.collect())
}

/// The same for the sheets of a session, whose strings may be the template's.
fn shown_over(template: &[u8], session: &[u8]) -> Option<Vec<(Vec<u16>, Vec<Shown>)>> {
    let pair = pair::check(template, session).ok()?;
    let strings: Vec<_> = pair.strings(pair.table_of(pair::Whose::Session)).collect();
    let own = pair
        .sheets()
        .filter(|(whose, _)| *whose == pair::Whose::Session);
    let sheets = own.map(|(_, sheet)| {
        let cells = sheet.cells();
        let cells = cells.map(|cell| cell_shown(&cell, &strings));
        (sheet.name_units().collect(), cells.collect())
    });
    Some(sheets.collect())
}
