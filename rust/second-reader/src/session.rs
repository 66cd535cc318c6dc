//! The subset that sensors write: one worksheet with event ticks, turns and, in
//! all rows or in none, seconds; and what lies between two of its rows.

use crate::cells::{each_cell, Cell, Value};
use crate::sheets::SheetType;
use crate::survey::Survey;
use crate::Refusal;

/// A counter of ticks or turns starts again after this many.
const COUNTER: u32 = 65_536;
const GREATEST_COUNT: u32 = COUNTER - 1;
/// So many seconds between two rows are a pause.
const PAUSE: u32 = 64;
/// Ticks in a minute.
const MINUTE: u64 = 61_440;

/// What lies between two neighbouring rows.
#[derive(Clone, Copy, Debug, PartialEq, Eq)]
pub enum Between {
    /// The host's seconds say that 64 or more went by.
    Pause,
    /// What went by on the counters.
    Elapsed {
        /// Event ticks.
        ticks: u32,
        /// Turns.
        turns: u32,
        /// Turns a minute, rounded down; none where no tick went by.
        cadence: Option<u32>,
    },
}

/// Checks a stream, and then that it is in the subset.
pub fn profile(stream: &[u8]) -> Result<(), Refusal> {
    Session::read(stream).map(|_| ())
}

/// What lies between a row and the next, in a stream of the subset.
pub fn cadence(stream: &[u8], row: u32) -> Result<Between, Refusal> {
    let session = Session::read(stream)?;
    let row = row as usize;
    match (session.row(row), session.row(row + 1)) {
        (Some(earlier), Some(later)) => Ok(between(earlier, later)),
        _ => Err(Refusal::of_question(11)),
    }
}

/// Two rows: ticks, turns and perhaps seconds.
fn between(earlier: &[u32], later: &[u32]) -> Between {
    if let (Some(from), Some(to)) = (earlier.get(2), later.get(2)) {
        if to - from >= PAUSE {
            return Between::Pause;
        }
    }
    let ticks = elapsed(earlier[0], later[0]);
    let turns = elapsed(earlier[1], later[1]);
    let per_minute = (u64::from(turns) * MINUTE).checked_div(ticks.into());
    Between::Elapsed {
        ticks,
        turns,
        cadence: per_minute.map(|cadence| cadence as u32),
    }
}

/// The later count less the earlier, over the end of the counter.
fn elapsed(earlier: u32, later: u32) -> u32 {
    match later.checked_sub(earlier) {
        Some(elapsed) => elapsed,
        None => later + COUNTER - earlier,
    }
}

/// The numbers of a session, row by row.
struct Session {
    columns: usize,
    numbers: Vec<u32>,
}

impl Session {
    fn read(stream: &[u8]) -> Result<Self, Refusal> {
        let survey = Survey::of(stream)?;
        let outside = Refusal::new(20, 0);
        let [sheet] = &survey.sheets[..] else {
            return Err(outside);
        };
        if sheet.sheet_type != SheetType::Worksheet {
            return Err(outside);
        }
        let mut session = Session {
            columns: 2,
            numbers: Vec::new(),
        };
        let unique = survey.strings.unique();
        survey.each_record(0, |record| {
            let mut taken = Some(());
            each_cell(record, unique, |cell| {
                taken = taken.and_then(|()| session.take(&cell));
            })
            .map_err(|number| record.refuse(number))?;
            taken.ok_or(record.refuse(20))
        })?;
        // A column missing in the last row: no cell is at fault.
        if !session.numbers.len().is_multiple_of(session.columns) {
            return Err(outside);
        }
        Ok(session)
    }

    /// Takes the next listed cell, or none where it breaks the rules.
    fn take(&mut self, cell: &Cell) -> Option<()> {
        let count = self.numbers.len();
        let address = (usize::from(cell.row), usize::from(cell.column));
        // The third cell says whether there is a third column.
        if count == 2 && address == (0, 2) {
            self.columns = 3;
        }
        if address != (count / self.columns, count % self.columns) {
            return None;
        }
        let Value::Number(bits) = cell.value else {
            return None;
        };
        let number = whole_number(bits)?;
        let fits = match address {
            (0, 2) => true,
            (_, 2) => self.numbers[count - 3] <= number,
            _ => number <= GREATEST_COUNT,
        };
        fits.then(|| self.numbers.push(number))
    }

    fn row(&self, row: usize) -> Option<&[u32]> {
        self.numbers.chunks_exact(self.columns).nth(row)
    }
}

/// The whole number from 0 to 4,294,967,295 that these 64 bits mean. Minus zero
/// isn't one.
fn whole_number(bits: u64) -> Option<u32> {
    let number = f64::from_bits(bits);
    // What is no such number is cut down to one, and then differs.
    let whole = number as u32;
    (f64::from(whole).to_bits() == bits).then_some(whole)
}
