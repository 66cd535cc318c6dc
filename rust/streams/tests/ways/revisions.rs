//! K1: how two revisions are alike and how they differ.

use crate::Ways;
use second_reader::{compare, read, FormulaResult, Reading, RefusedSide, Sheet, Side, Value};
use std::collections::BTreeMap;

/// Fewer than there are formulas: two streams have more to read.
const MADE: u64 = 40_000;

#[test]
fn revisions() {
    let mut ways = Ways::new(&[
        "the same bytes",
        "the same, written otherwise",
        "one difference",
        "names that differ",
        "one name, narrow and wide",
        "a sheet only in the first, with cells",
        "a sheet only in the second, with cells",
        "a sheet only in one, without cells",
        "a worksheet against another type",
        "the same cells in another order",
        "only in the first",
        "only in the second",
        "a blank against nothing",
        "two blanks",
        "a number in NUMBER and packed, equal",
        "0 and -0, unequal",
        "a NaN pattern and itself, equal",
        "two NaN patterns, unequal",
        "a text at two indices, equal",
        "two texts at one index, unequal",
        "a text and its beginning, unequal",
        "truth 0 and error 0, unequal",
        "a truth and a number, unequal",
        "a blank and an empty text, unequal",
        "a formula and its result, unequal",
        "two formulas with one result and other tokens, equal",
        "two text results, equal",
        "two text results, unequal",
        "an empty result and a text of no units, unequal",
        "the check's refusal of the first",
        "the check's refusal of the second",
        "the check's refusals of both",
        "an address twice in the first",
        "an address twice in the second",
        "an address twice in the first, and the check's refusal of the second",
        "an address twice in a sheet that the other hasn't",
    ]);
    for seed in 0..MADE {
        let (first, second) = streams::revisions(seed);
        let readings = (read(&first), read(&second));
        match (compare(&first, &second), readings) {
            (Err(refused), (one, two)) => meet_refused(&mut ways, refused, one.ok(), two.ok()),
            (Ok(differences), (Ok(one), Ok(two))) => {
                match differences.len() {
                    0 if first == second => ways.meet("the same bytes"),
                    0 => ways.meet("the same, written otherwise"),
                    1 => ways.meet("one difference"),
                    _ => {}
                }
                let compared = Compared {
                    streams: [&first, &second],
                    readings: [&one, &two],
                };
                compared.meet(&mut ways);
            }
            (Ok(_), _) => panic!("seed {seed}: a stream that is refused was compared"),
        }
    }
    ways.assert_met();
}

/// The sheets of a reading in which an address is there twice.
fn twice(reading: &Reading) -> Vec<usize> {
    let is_twice = |sheet: &Sheet| {
        let mut addresses: Vec<_> = sheet.cells.iter().map(|it| (it.row, it.column)).collect();
        addresses.sort_unstable();
        addresses.windows(2).any(|pair| pair[0] == pair[1])
    };
    let sheets = reading.sheets.iter().enumerate();
    let sheets = sheets.filter(|(_, sheet)| is_twice(sheet));
    sheets.map(|(number, _)| number).collect()
}

fn meet_refused(ways: &mut Ways, refused: RefusedSide, one: Option<Reading>, two: Option<Reading>) {
    let repeats = |reading: &Option<Reading>| reading.as_ref().map_or(Vec::new(), twice);
    match (refused.side, refused.refusal.number) {
        (Side::First, 16) => ways.meet("an address twice in the first"),
        (Side::Second, 16) => ways.meet("an address twice in the second"),
        (Side::First, _) if two.is_none() => ways.meet("the check's refusals of both"),
        (Side::First, _) => ways.meet("the check's refusal of the first"),
        (Side::Second, _) if !repeats(&one).is_empty() => {
            ways.meet("an address twice in the first, and the check's refusal of the second");
        }
        (Side::Second, _) => ways.meet("the check's refusal of the second"),
    }
    let (Some(one), Some(two)) = (one, two) else {
        return;
    };
    let (these, others) = match refused.side {
        Side::First => (&one, &two),
        Side::Second => (&two, &one),
    };
    if twice(these)
        .iter()
        .all(|&number| number >= others.sheets.len())
    {
        ways.meet("an address twice in a sheet that the other hasn't");
    }
}

/// Two streams that were compared, each address once in a sheet.
struct Compared<'p> {
    streams: [&'p [u8]; 2],
    readings: [&'p Reading; 2],
}

/// A cell as it is compared.
struct Held<'p> {
    value: Value,
    /// The units of a text, or of a text result.
    units: Option<&'p [u16]>,
    tokens: &'p [u8],
    /// How many bytes its value field has.
    size: usize,
}

impl Compared<'_> {
    fn meet(&self, ways: &mut Ways) {
        let counts = self.readings.map(|reading| reading.sheets.len());
        for number in 0..counts[0].max(counts[1]) {
            match self.readings.map(|reading| reading.sheets.get(number)) {
                [Some(one), Some(two)] => self.meet_sheets(ways, number, one, two),
                [one, two] => {
                    let cells = one.or(two).map_or(0, |sheet| sheet.cells.len());
                    ways.meet(match (cells, one) {
                        (0, _) => "a sheet only in one, without cells",
                        (_, Some(_)) => "a sheet only in the first, with cells",
                        (_, None) => "a sheet only in the second, with cells",
                    });
                }
            }
        }
    }

    fn name(&self, side: usize, sheet: &Sheet) -> Vec<u16> {
        let bytes = &self.streams[side][sheet.name.clone()];
        match sheet.wide {
            true => bytes
                .as_chunks()
                .0
                .iter()
                .copied()
                .map(u16::from_le_bytes)
                .collect(),
            false => bytes.iter().copied().map(u16::from).collect(),
        }
    }

    fn cells(&self, side: usize, number: usize) -> BTreeMap<(u16, u16), Held<'_>> {
        let reading = self.readings[side];
        let sheet = &reading.sheets[number];
        let mut texts = sheet.texts.iter();
        let held = sheet.cells.iter().map(|cell| {
            let units = match cell.value {
                Value::Text(index) => Some(&reading.strings[index as usize]),
                Value::Formula(FormulaResult::Text) => texts.next(),
                _ => None,
            };
            let held = Held {
                value: cell.value,
                units: units.map(Vec::as_slice),
                tokens: &self.streams[side][cell.tokens.clone()],
                size: cell.value_field.len(),
            };
            ((cell.row, cell.column), held)
        });
        held.collect()
    }

    fn meet_sheets(&self, ways: &mut Ways, number: usize, one: &Sheet, two: &Sheet) {
        match self.name(0, one) == self.name(1, two) {
            true if one.wide != two.wide => ways.meet("one name, narrow and wide"),
            true => {}
            false => ways.meet("names that differ"),
        }
        if one.sheet_type != two.sheet_type {
            ways.meet("a worksheet against another type");
        }
        let (ones, twos) = (self.cells(0, number), self.cells(1, number));
        let order = |sheet: &Sheet| -> Vec<_> {
            sheet
                .cells
                .iter()
                .map(|cell| (cell.row, cell.column))
                .collect()
        };
        if ones.keys().eq(twos.keys()) && order(one) != order(two) {
            ways.meet("the same cells in another order");
        }
        for (address, held) in &ones {
            match twos.get(address) {
                Some(other) => meet_values(ways, held, other),
                None => meet_alone(ways, "only in the first", held),
            }
        }
        for (_, held) in twos
            .iter()
            .filter(|(address, _)| !ones.contains_key(address))
        {
            meet_alone(ways, "only in the second", held);
        }
    }
}

fn meet_alone(ways: &mut Ways, way: &str, held: &Held<'_>) {
    ways.meet(way);
    if held.value == Value::Blank {
        ways.meet("a blank against nothing");
    }
}

fn is_nan(bits: u64) -> bool {
    f64::from_bits(bits).is_nan()
}

/// Two cells of one address.
fn meet_values(ways: &mut Ways, one: &Held<'_>, two: &Held<'_>) {
    use FormulaResult as Result;
    use Value::{Blank, Error, Formula, Number, Text, Truth};
    if let (Formula(these), Formula(those)) = (one.value, two.value) {
        if these == those && one.units == two.units && one.tokens != two.tokens {
            ways.meet("two formulas with one result and other tokens, equal");
        }
    }
    match (one.value, two.value) {
        (Blank, Blank) => ways.meet("two blanks"),
        (Number(these), Number(those)) => meet_numbers(ways, (these, one.size), (those, two.size)),
        (Text(these), Text(those)) => meet_texts(ways, (these, one), (those, two)),
        (Truth(0), Error(0)) | (Error(0), Truth(0)) => ways.meet("truth 0 and error 0, unequal"),
        (Truth(_), Number(_)) | (Number(_), Truth(_)) => ways.meet("a truth and a number, unequal"),
        (Blank, Text(_)) if two.units == Some(&[]) => {
            ways.meet("a blank and an empty text, unequal");
        }
        (Formula(Result::Text), Formula(Result::Text)) => ways.meet(match one.units == two.units {
            true => "two text results, equal",
            false => "two text results, unequal",
        }),
        (Formula(Result::Empty), Formula(Result::Text)) if two.units == Some(&[]) => {
            ways.meet("an empty result and a text of no units, unequal");
        }
        (Formula(Result::Number(these)), Number(those))
        | (Number(these), Formula(Result::Number(those)))
            if these == those =>
        {
            ways.meet("a formula and its result, unequal");
        }
        _ => {}
    }
}

/// Two numbers, each with the size of its field.
fn meet_numbers(ways: &mut Ways, (these, size): (u64, usize), (those, other): (u64, usize)) {
    if these == those && size != other {
        ways.meet("a number in NUMBER and packed, equal");
    }
    match (is_nan(these) && is_nan(those), these == those) {
        (true, true) => ways.meet("a NaN pattern and itself, equal"),
        (true, false) => ways.meet("two NaN patterns, unequal"),
        _ if these ^ those == 1 << 63 && these << 1 == 0 => ways.meet("0 and -0, unequal"),
        _ => {}
    }
}

/// Two texts, each with its index.
fn meet_texts(ways: &mut Ways, (these, one): (u32, &Held<'_>), (those, two): (u32, &Held<'_>)) {
    let (Some(one), Some(two)) = (one.units, two.units) else {
        panic!("a text without units");
    };
    match one == two {
        true if these != those => ways.meet("a text at two indices, equal"),
        true => {}
        false => {
            if these == those {
                ways.meet("two texts at one index, unequal");
            }
            if one.starts_with(two) || two.starts_with(one) {
                ways.meet("a text and its beginning, unequal");
            }
        }
    }
}
