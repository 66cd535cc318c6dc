//! A template and a session over it, and what to ask of both.

use crate::places;
use crate::questions::{
    self, correction_beside, correction_with, own_strings, sheet_positions, unique_strings, units,
    Correction, NewValue, Text,
};
use crate::record::Book;
use crate::rng::Rng;
use crate::{damage, noise, thrown_together, workbook, LONGEST};

/// A template, and a session that stands on it.
#[derive(Clone, Debug, PartialEq, Eq)]
pub struct Pair {
    /// What the session takes sheets and strings from.
    pub template: Vec<u8>,
    /// The session: without a string table, with an empty one, or with its own.
    pub session: Vec<u8>,
}

/// A fetch to ask of a pair.
#[derive(Clone, Copy, Debug, PartialEq, Eq)]
pub struct PairFetch {
    /// Whether it is the template's index, not the session's.
    pub of_template: bool,
    /// The string's index.
    pub index: u32,
    /// How many units the buffer has.
    pub units: usize,
}

/// Mostly both are valid; else the one, the other or both are damaged, or an
/// index of the session is at a count or past it.
pub(crate) fn any(rng: &mut Rng) -> Pair {
    any_with(rng, |_, _, _| {})
}

/// The same with something done to the session before it is damaged, over a
/// template that has so many strings.
pub(crate) fn any_with(rng: &mut Rng, dress: impl FnOnce(&mut Rng, &mut Book, u32)) -> Pair {
    let book = workbook::valid(rng, false).0;
    let damaged = rng.below(20);
    let template = match damaged {
        0..=3 => damage::damaged(rng, book),
        4 if rng.percent(50) => thrown_together(rng),
        4 => noise(rng),
        _ => book.write(),
    };
    let lent = unique_strings(&template).min(100_000);
    let mut book = workbook::session(rng, lent);
    dress(rng, &mut book, lent);
    let session = match damaged {
        0 | 5..=8 => damage::damaged(rng, book),
        9 => noise(rng),
        10..=11 => {
            spoil_index(rng, &mut book, lent);
            book.write()
        }
        _ => book.write(),
    };
    let mut pair = Pair { template, session };
    pair.template.truncate(LONGEST);
    pair.session.truncate(LONGEST);
    pair
}

/// A pair that passes.
pub(crate) fn valid(rng: &mut Rng) -> Pair {
    let template = workbook::valid(rng, false).0.write();
    let lent = unique_strings(&template);
    let session = workbook::session(rng, lent).write();
    Pair { template, session }
}

/// An index at the count of the table that it means, or of the other, or past
/// it. Where a record was put in the sheets stand elsewhere.
fn spoil_index(rng: &mut Rng, book: &mut Book, lent: u32) {
    let own = own_strings(&book.write());
    let count = match own {
        Some(own) if rng.percent(60) => own,
        _ => lent,
    };
    damage::put_index(rng, book, |rng| {
        count.wrapping_add(rng.pick(&[0, 0, 0, 1, u32::MAX]))
    });
    book.name_sheets();
}

impl Pair {
    pub(crate) fn sheets(&self) -> [usize; 2] {
        [&self.template, &self.session].map(|stream| sheet_positions(stream).len())
    }

    /// How many strings the session's text indices may mean.
    pub(crate) fn meant(&self) -> u32 {
        own_strings(&self.session).unwrap_or_else(|| unique_strings(&self.template))
    }

    /// The stream that a question is aimed at: more often the session.
    fn aimed(&self, rng: &mut Rng) -> &[u8] {
        match rng.percent(35) {
            true => &self.template,
            false => &self.session,
        }
    }
}

/// A sheet that either has, at the count of one of them, or past both.
pub(crate) fn sheet(rng: &mut Rng, pair: &Pair) -> u32 {
    let [of_template, of_session] = pair.sheets();
    let most = of_template.max(of_session);
    match rng.below(12) {
        0 => of_session as u32,
        1 => of_template as u32,
        2 => rng.pick(&[most as u32, most as u32 + 1, 0x1_0000, u32::MAX]),
        _ => rng.below(most.max(1)) as u32,
    }
}

/// An index of the one or the other, often at a count or past it.
pub(crate) fn fetch(rng: &mut Rng, pair: &Pair) -> PairFetch {
    let counts = [
        unique_strings(&pair.template),
        unique_strings(&pair.session),
    ];
    let index = match rng.below(10) {
        0..=1 => rng.pick(&counts),
        2 => rng.pick(&counts).wrapping_add(1),
        3 => rng.pick(&[0, u32::MAX]),
        4 => rng.pick(&counts).wrapping_sub(1),
        _ => {
            let count = rng.pick(&counts).clamp(1, 5_000);
            rng.below(count as usize) as u32
        }
    };
    PairFetch {
        of_template: rng.percent(35),
        index,
        units: units(rng),
    }
}

/// A cell of the one or the other; the session may have another sheet of that
/// number.
pub(crate) fn text(rng: &mut Rng, pair: &Pair) -> Text {
    let stream = pair.aimed(rng);
    questions::text(rng, stream)
}

/// A correction of a cell of the one or the other. Texts are asked for more often
/// than their share, since they hang on both: with an index that the table that
/// counts has, or at the count of either.
pub(crate) fn correction(rng: &mut Rng, pair: &Pair) -> Correction {
    let stream = pair.aimed(rng);
    let mut asked = correction_with(rng, stream, pair.meant());
    for _ in 0..6 {
        if matches!(asked.value, NewValue::Text(_)) || rng.percent(40) {
            break;
        }
        asked = correction_with(rng, stream, pair.meant());
    }
    if matches!(asked.value, NewValue::Text(_)) && rng.percent(50) {
        let counts = [&pair.template, &pair.session].map(|stream| unique_strings(stream));
        let index = rng.pick(&counts).wrapping_sub(rng.pick(&[0, 0, 1]));
        asked.value = NewValue::Text(index);
    }
    asked
}

/// Two corrections of one session.
pub(crate) fn corrections(rng: &mut Rng, pair: &Pair) -> [Correction; 2] {
    let first = correction_with(rng, &pair.session, pair.meant());
    let stream = match rng.percent(10) {
        true => &pair.template,
        false => &pair.session,
    };
    let second = correction_beside(rng, stream, pair.meant(), first);
    [first, second]
}

/// How many numbers the tables have that are to be filled.
pub(crate) fn numbers(rng: &mut Rng, pair: &Pair) -> [usize; 2] {
    [&pair.template, &pair.session].map(|stream| places::numbers(rng, stream))
}
