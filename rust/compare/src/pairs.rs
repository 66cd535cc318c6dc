//! One template, many sessions: every question over made pairs, with whose the answer is and every lent byte, unit and number.

use super::{of_ours, of_theirs, values, Comparison, Counts, Wanted};
use second_reader::{PairRefusal, Whose};
use station::pair;
use streams::Pair;

/// What stands in numbers and units before a question.
const NUMBER: u32 = 0x5555_5555;
const UNIT: u16 = 0xABCD;

/// How many corrections of each pair are asked for.
const TURNS: u64 = 4;

/// Whose refusal, its number and its offset.
pub type Refused = (Option<Whose>, u8, usize);

type Outcome<A> = Result<A, Refused>;

fn of_pair(whose: pair::Whose) -> Whose {
    match whose {
        pair::Whose::Session => Whose::Session,
        pair::Whose::Template => Whose::Template,
    }
}

pub fn our_refusal(refused: pair::Refused) -> Refused {
    let refusal = refused.refusal;
    (refused.whose.map(of_pair), refusal.number, refusal.offset)
}

pub fn their_refusal(refused: PairRefusal) -> Refused {
    match refused {
        PairRefusal::Stream(whose, refusal) => (Some(whose), refusal.number, refusal.offset),
        PairRefusal::Question(refusal) => (None, refusal.number, refusal.offset),
    }
}

fn ours<A>(answer: Result<A, pair::Refused>) -> Outcome<A> {
    answer.map_err(our_refusal)
}

fn theirs<A>(answer: Result<A, PairRefusal>) -> Outcome<A> {
    answer.map_err(their_refusal)
}

/// How often each answer was met: refusals of the template, of the session, and of the question; 0 counts the answers without one.
#[derive(Default)]
pub struct Met {
    template: Counts,
    session: Counts,
    question: Counts,
    /// Corrections that are refused for a sheet that only the template has.
    aimed: u64,
    /// Tables that are too short.
    short: u64,
}

impl Met {
    fn count<A>(&mut self, outcome: &Outcome<A>) {
        match *outcome {
            Ok(_) => self.question[0] += 1,
            Err((Some(Whose::Template), number, _)) => self.template[usize::from(number)] += 1,
            Err((Some(Whose::Session), number, _)) => self.session[usize::from(number)] += 1,
            Err((None, number, _)) => self.question[usize::from(number)] += 1,
        }
    }

    /// What is to be met: the check's refusals of each stream, and those of the questions.
    pub fn wanted(&self) -> Wanted {
        let mut wanted = vec![("pairs answered".to_string(), self.question[0])];
        for number in 1..=10 {
            let (template, session) = (self.template[number], self.session[number]);
            wanted.push((format!("refused {number} of template"), template));
            wanted.push((format!("refused {number} of session"), session));
        }
        for number in [11, 12, 16, 17, 18] {
            wanted.push((
                format!("questions over pairs refused {number}"),
                self.question[number],
            ));
        }
        wanted.push(("corrections aimed at the template".to_string(), self.aimed));
        wanted.push(("tables over pairs refused 12".to_string(), self.short));
        wanted
    }
}

impl Comparison {
    /// Every question over one pair.
    pub fn pair(&mut self, seed: u64) {
        let made = streams::pair(seed);
        self.pair_check(seed, &made.template, &made.session);
        self.pair_list(seed, &made);
        self.pair_sheet(seed, &made, streams::pair_sheet(seed, &made));
        self.pair_fetch(seed, &made);
        self.pair_text(seed, &made);
        self.pair_fill(seed, &made);
        for turn in 0..TURNS {
            self.pair_correct(TURNS * seed + turn, &made);
        }
    }

    /// A stream of the greatest length, or longer, for either.
    pub fn longest_pair(&mut self, seed: u64, stream: &[u8]) {
        let other = streams::valid(seed);
        self.pair_check(seed, stream, &other);
        self.pair_check(seed, &other, stream);
    }

    fn pair_check(&mut self, seed: u64, template: &[u8], session: &[u8]) {
        let one = ours(pair::check(template, session)).map(|pair| pair.sheet_count() as u64);
        let two = theirs(second_reader::pair_check(template, session));
        self.met.pairs.count(&one);
        self.hold("pair check", seed, one, two);
    }

    /// All sheets and strings, of a pair that is checked once; and each again by its number.
    fn pair_list(&mut self, seed: u64, made: &Pair) {
        let Pair { template, session } = made;
        let Ok(pair) = pair::check(template, session) else {
            return;
        };
        self.hold(
            "pair sheets",
            seed,
            pair.sheets().count(),
            pair.sheet_count(),
        );
        for (number, (whose, sheet)) in (0..).zip(pair.sheets()) {
            self.pair_sheet(seed, made, number);
            let mut others = Vec::new();
            let listed = theirs(second_reader::pair_cells(
                template,
                session,
                number,
                |cell| {
                    others.push(of_theirs(cell));
                },
            ));
            let cells: Vec<_> = sheet.cells().map(|cell| of_ours(&cell)).collect();
            let one = (Ok(of_pair(whose)), cells);
            self.hold("cells of a pair's sheet", seed, one, (listed, others));
            let (whose_name, name) = second_reader::pair_sheet_name(template, session, number);
            let named = (Some(of_pair(whose)), sheet.name);
            self.hold("name of a pair's sheet", seed, named, (whose_name, name));
            self.pair_texts(seed, made, &pair, number, whose, &sheet);
        }
        self.pair_strings(seed, made, &pair);
    }

    /// The text of each formula that has one for its result, by its cell: of several at one address the first listed.
    fn pair_texts(
        &mut self,
        seed: u64,
        made: &Pair,
        pair: &pair::Pair<'_>,
        number: u32,
        whose: pair::Whose,
        sheet: &station::Sheet<'_>,
    ) {
        let is_text = |cell: &station::Cell| {
            cell.value() == station::Value::Formula(station::FormulaResult::Text)
        };
        let mut met = std::collections::HashSet::new();
        for cell in sheet.cells() {
            let first = met.insert((cell.row(), cell.column()));
            if !first || !is_text(&cell) {
                continue;
            }
            let mut buffer = vec![UNIT; station::LONGEST_STRING];
            let mut other = buffer.clone();
            let one = pair.text(whose, &cell, &mut buffer);
            let one = one.map(|units| (of_pair(whose), units)).ok();
            let two = second_reader::pair_text(
                &made.template,
                &made.session,
                number,
                cell.row().into(),
                cell.column().into(),
                &mut other,
            );
            self.hold("text over a pair", seed, (one, buffer), (two.ok(), other));
        }
    }

    /// The strings of each stream one after the other, by their places, and by a fetch with either's index.
    fn pair_strings(&mut self, seed: u64, made: &Pair, pair: &pair::Pair<'_>) {
        let Pair { template, session } = made;
        let places = pair.string_places();
        let mut room = vec![UNIT; station::LONGEST_STRING];
        let mut other = room.clone();
        for asked in [pair::Whose::Template, pair::Whose::Session] {
            let table = pair.table_of(asked);
            let strings: Vec<_> = pair.strings(table).collect();
            self.hold(
                "pair strings",
                seed,
                strings.len(),
                pair.string_count(table) as usize,
            );
            for (index, units) in (0..).zip(&strings) {
                let two =
                    second_reader::pair_fetch(template, session, of_pair(asked), index, &mut other);
                let wanted = Ok((of_pair(table), units.len()));
                self.hold("string of a pair", seed, theirs(two), wanted);
                self.hold("string of a pair", seed, &units[..], &other[..units.len()]);
                let one = places.fetch(template, session, asked, index, &mut room);
                let one = one.map(|(whose, count)| (of_pair(whose), room[..count].to_vec()));
                let wanted = Ok((of_pair(table), units.clone()));
                self.hold("string of a pair by its place", seed, one, wanted);
            }
            let after = places.fetch(template, session, asked, strings.len() as u32, &mut room);
            let after = after.map_err(|refusal| (refusal.number, refusal.offset));
            self.hold(
                "string of a pair by its place",
                seed,
                after.err(),
                Some((11, 0)),
            );
        }
    }

    /// One sheet by its number: what is told of it, its name and its cells.
    fn pair_sheet(&mut self, seed: u64, made: &Pair, number: u32) {
        let Pair { template, session } = made;
        let told = ours(pair::sheet(template, session, number));
        self.met.pairs.count(&told);
        let (whose, name) = match told {
            Ok(sheet) => (Some(of_pair(sheet.whose)), sheet.name),
            Err(_) => (None, &[][..]),
        };
        let named = second_reader::pair_sheet_name(template, session, number);
        self.hold("name of a pair's sheet", seed, (whose, name), named);
        let one = told.map(|sheet| {
            let stream = match sheet.whose {
                pair::Whose::Session => session,
                pair::Whose::Template => template,
            };
            let stands = &stream[sheet.name_at..sheet.name_at + name.len()] == name;
            assert!(stands, "a name is where its place says");
            (
                of_pair(sheet.whose),
                sheet.kind as u8,
                sheet.width == 2,
                sheet.rows,
            )
        });
        let two = theirs(second_reader::pair_sheet(template, session, number));
        let two = two.map(|sheet| (sheet.whose, sheet.sheet_type as u8, sheet.wide, sheet.rows));
        self.hold("sheet of a pair", seed, one, two);
        let one = ours(pair::cells(template, session, number)).map(|(whose, cells)| {
            let cells: Vec<_> = cells.map(|cell| of_ours(&cell)).collect();
            (of_pair(whose), cells)
        });
        let mut others = Vec::new();
        let two = theirs(second_reader::pair_cells(
            template,
            session,
            number,
            |cell| {
                others.push(of_theirs(cell));
            },
        ));
        self.hold(
            "cells of a pair",
            seed,
            one,
            two.map(|whose| (whose, others)),
        );
    }

    fn pair_fetch(&mut self, seed: u64, made: &Pair) {
        let asked = streams::pair_fetch(seed, made);
        let whose = match asked.of_template {
            true => pair::Whose::Template,
            false => pair::Whose::Session,
        };
        let mut buffer = vec![UNIT; asked.units];
        let mut other = buffer.clone();
        let (template, session) = (&made.template, &made.session);
        let one = ours(pair::fetch(
            template,
            session,
            whose,
            asked.index,
            &mut buffer,
        ));
        let one = one.map(|(whose, count)| (of_pair(whose), count));
        let whose = of_pair(whose);
        let two = second_reader::pair_fetch(template, session, whose, asked.index, &mut other);
        self.met.pairs.count(&one);
        self.hold(
            "fetch over a pair",
            seed,
            (one, buffer),
            (theirs(two), other),
        );
    }

    fn pair_text(&mut self, seed: u64, made: &Pair) {
        let asked = streams::pair_text(seed, made);
        let (sheet, row, column) = (asked.sheet, asked.row, asked.column);
        let mut buffer = vec![UNIT; asked.units];
        let mut other = buffer.clone();
        let (template, session) = (&made.template, &made.session);
        let one = ours(pair::text(
            template,
            session,
            sheet,
            row,
            column,
            &mut buffer,
        ));
        let one = one.map(|(whose, count)| (of_pair(whose), count));
        let two = second_reader::pair_text(template, session, sheet, row, column, &mut other);
        self.met.pairs.count(&one);
        self.hold(
            "text over a pair",
            seed,
            (one, buffer),
            (theirs(two), other),
        );
    }

    fn pair_fill(&mut self, seed: u64, made: &Pair) {
        let (template, session) = (&made.template, &made.session);
        let tables = streams::pair_numbers(seed, made).map(|numbers| vec![NUMBER; numbers]);
        let [mut first, mut second] = tables.clone();
        let [mut first_too, mut second_too] = tables;
        let one = ours(pair::fill(template, session, &mut first, &mut second));
        let two = second_reader::pair_fill(template, session, &mut first_too, &mut second_too);
        self.met.pairs.count(&one);
        self.met.pairs.short += u64::from(one == Err((None, 12, 0)));
        let (one, two) = ((one, first, second), (theirs(two), first_too, second_too));
        self.hold("fill over a pair", seed, one, two);
    }

    fn pair_correct(&mut self, seed: u64, made: &Pair) {
        let asked = streams::pair_correction(seed, made);
        let (value, other) = values(asked.value);
        let (sheet, row, column) = (asked.sheet, asked.row, asked.column);
        let mut changed = made.session.clone();
        let mut changed_too = made.session.clone();
        let template = &made.template;
        let one = ours(pair::correct(
            template,
            &mut changed,
            sheet,
            row,
            column,
            value,
        ));
        let two =
            second_reader::pair_correct(template, &mut changed_too, sheet, row, column, other);
        self.met.pairs.count(&one);
        if one == Err((None, 17, 0)) {
            let told = second_reader::pair_sheet(template, &made.session, sheet);
            let of_template = told.is_ok_and(|told| told.whose == Whose::Template);
            self.met.pairs.aimed += u64::from(of_template);
        }
        if one.is_ok() {
            self.pair_stays(seed, made, &changed);
        }
        self.hold("correct over a pair", seed, one, theirs(two));
        self.hold(
            "corrected bytes of a session",
            seed,
            changed == changed_too,
            true,
        );
    }

    /// After a granted correction the pair passes, its tables stay, and so do the format and place of each cell.
    fn pair_stays(&mut self, seed: u64, made: &Pair, changed: &[u8]) {
        let seen = |session| {
            let pair = ours(pair::check(&made.template, session))?;
            let cells = pair.sheets().flat_map(|(whose, sheet)| {
                let told = move |cell: station::Cell| {
                    (cell.row(), cell.column(), cell.format(), cell.field())
                };
                sheet.cells().map(move |cell| (of_pair(whose), told(cell)))
            });
            let cells: Vec<_> = cells.collect();
            Ok::<_, (Option<Whose>, u8, usize)>((cells, pair.string_places()))
        };
        let (before, after) = (seen(&made.session[..]), seen(changed));
        self.hold("a pair after a correction", seed, after, before);
    }
}
