//! The eight cell records, valid ones.

use crate::contents::{CellContents, Content, FormulaContents};
use crate::formula::{self, Formula};
use crate::record::{kind, word_at, Record, ERROR_CODES};
use crate::rng::Rng;
use crate::{text_results, trailing};

/// How much a formula record has after its tokens at most.
const LONGEST_TRAILING: usize = 600;

/// Where a sheet's cells stand.
#[derive(Clone, Copy, Debug)]
pub(crate) enum Layout {
    /// On a few addresses, so that many are met twice.
    Crowded,
    /// Anywhere.
    Scattered,
    /// Row after row, no address twice.
    Ordered,
    /// In the first and last rows and columns.
    AtEdges,
}

/// A maker of one sheet's cells.
pub(crate) struct CellMaker {
    layout: Layout,
    unique: u32,
    next: usize,
    /// An address to be used once more.
    again: Option<(u16, u16)>,
    /// What was made, if it is to be kept.
    pub cells: Option<Vec<CellContents>>,
}

impl CellMaker {
    pub fn new(rng: &mut Rng, unique: u32, keep: bool) -> Self {
        use Layout::*;
        CellMaker {
            layout: rng.pick(&[Crowded, Scattered, Ordered, Ordered, AtEdges]),
            unique,
            next: rng.below(300),
            again: None,
            cells: keep.then(Vec::new),
        }
    }

    /// A cell record of any kind, with what belongs to it: a formula's text, of
    /// no more than about so many bytes. A text cell needs a string to point to.
    pub fn records(&mut self, rng: &mut Rng, budget: usize) -> Vec<Record> {
        match rng.pick(&kind::CELLS) {
            kind::FORMULA => self.formula(rng, budget),
            kind => vec![self.record(rng, kind)],
        }
    }

    fn record(&mut self, rng: &mut Rng, kind: u16) -> Record {
        match kind {
            kind::LABELSST if self.unique == 0 => self.number(rng),
            kind::LABELSST => self.text(rng),
            kind::BLANK => self.blank(rng),
            kind::NUMBER => self.number(rng),
            kind::RK => self.packed(rng),
            kind::BOOLERR => self.truth_or_error(rng),
            kind::MULRK => self.multiple_packed(rng),
            _ => self.multiple_blank(rng),
        }
    }

    /// The row and first column of a record with so many cells.
    fn address(&mut self, rng: &mut Rng, count: usize) -> (u16, u16) {
        let last_start = 256 - count;
        let (row, column) = match self.layout {
            Layout::Crowded => (rng.below(3), rng.below(4)),
            Layout::Scattered => (rng.below(65_536), rng.below(256)),
            Layout::Ordered => self.next_address(count),
            Layout::AtEdges => (
                rng.pick(&[0, 1, 65_534, 65_535, 65_535]),
                rng.pick(&[0, 1, 254, 255, 255]),
            ),
        };
        (row as u16, column.min(last_start) as u16)
    }

    fn next_address(&mut self, count: usize) -> (usize, usize) {
        if self.next % 256 + count > 256 {
            self.next += 256 - self.next % 256;
        }
        let at = self.next;
        self.next += count;
        (at / 256 % 65_536, at % 256)
    }

    fn keep(&mut self, (row, column): (u16, u16), format: u16, value: impl FnOnce() -> Content) {
        if let Some(cells) = &mut self.cells {
            let value = value();
            cells.push(CellContents {
                row,
                column,
                format,
                value,
            });
        }
    }

    /// The start that all but the multiple records have.
    fn start(&mut self, rng: &mut Rng) -> ((u16, u16), u16, Vec<u8>) {
        let again = self.again.take();
        let address = again.unwrap_or_else(|| self.address(rng, 1));
        let format = rng.word();
        let mut body = Vec::with_capacity(24);
        body.extend(address.0.to_le_bytes());
        body.extend(address.1.to_le_bytes());
        body.extend(format.to_le_bytes());
        (address, format, body)
    }

    fn blank(&mut self, rng: &mut Rng) -> Record {
        let (address, format, body) = self.start(rng);
        self.keep(address, format, || Content::Blank);
        Record::new(kind::BLANK, body)
    }

    fn number(&mut self, rng: &mut Rng) -> Record {
        let (address, format, mut body) = self.start(rng);
        let bits = number_bits(rng);
        body.extend(bits.to_le_bytes());
        self.keep(address, format, || Content::Number(bits));
        Record::new(kind::NUMBER, body)
    }

    fn packed(&mut self, rng: &mut Rng) -> Record {
        let (address, format, mut body) = self.start(rng);
        let word = rk_word(rng);
        body.extend(word.to_le_bytes());
        self.keep(address, format, || Content::Packed(word));
        Record::new(kind::RK, body)
    }

    fn text(&mut self, rng: &mut Rng) -> Record {
        let (address, format, mut body) = self.start(rng);
        let index = rng.below(self.unique as usize) as u32;
        body.extend(index.to_le_bytes());
        self.keep(address, format, || Content::Text(index));
        Record::new(kind::LABELSST, body)
    }

    fn truth_or_error(&mut self, rng: &mut Rng) -> Record {
        let (address, format, mut body) = self.start(rng);
        let value = if rng.percent(50) {
            let truth = rng.below(2) as u8;
            body.extend([truth, 0]);
            Content::Truth(truth)
        } else {
            let code = rng.pick(&ERROR_CODES);
            body.extend([code, 1]);
            Content::Error(code)
        };
        self.keep(address, format, || value);
        Record::new(kind::BOOLERR, body)
    }

    fn multiple_start(&mut self, rng: &mut Rng) -> (u16, u16, usize, Vec<u8>) {
        let most = if rng.percent(2) { 256 } else { 8 };
        let count = rng.mostly_small(1, most);
        let (row, first) = self.address(rng, count);
        let mut body = Vec::with_capacity(6 + 6 * count);
        body.extend(row.to_le_bytes());
        body.extend(first.to_le_bytes());
        (row, first, count, body)
    }

    fn multiple_packed(&mut self, rng: &mut Rng) -> Record {
        let (row, first, count, mut body) = self.multiple_start(rng);
        for column in (first..).take(count) {
            let (format, word) = (rng.word(), rk_word(rng));
            body.extend(format.to_le_bytes());
            body.extend(word.to_le_bytes());
            self.keep((row, column), format, || Content::Packed(word));
        }
        body.extend((first + count as u16 - 1).to_le_bytes());
        Record::new(kind::MULRK, body)
    }

    fn multiple_blank(&mut self, rng: &mut Rng) -> Record {
        let (row, first, count, mut body) = self.multiple_start(rng);
        for column in (first..).take(count) {
            let format = rng.word();
            body.extend(format.to_le_bytes());
            self.keep((row, column), format, || Content::Blank);
        }
        body.extend((first + count as u16 - 1).to_le_bytes());
        Record::new(kind::MULBLANK, body)
    }

    fn formula(&mut self, rng: &mut Rng, budget: usize) -> Vec<Record> {
        let result = formula_result(rng);
        let mut records = self.formula_with(rng, result, budget);
        let may_repeat = !matches!(self.layout, Layout::Ordered);
        if may_repeat && records[0].has_text_result() && rng.percent(6) {
            self.again = word_at(&records[0].body, 0).zip(word_at(&records[0].body, 2));
            let result = text_results::result(rng);
            records.extend(self.formula_with(rng, result, budget));
        }
        records
    }

    fn formula_with(&mut self, rng: &mut Rng, result: [u8; 8], budget: usize) -> Vec<Record> {
        let is_text = matches!(result, [0, .., 0xFF, 0xFF]);
        let mut after = Vec::new();
        if rng.percent(if is_text { 40 } else { 8 }) {
            after.push(text_results::between(rng));
        }
        let text = is_text.then(|| text_results::append(rng, &mut after, budget));
        let formula = self.formula_record(rng, result, text);
        [vec![formula], after].concat()
    }

    /// A formula that waits for its text, which doesn't come.
    pub fn text_formula(&mut self, rng: &mut Rng) -> Record {
        let result = text_results::result(rng);
        self.formula_record(rng, result, None)
    }

    fn formula_record(&mut self, rng: &mut Rng, result: [u8; 8], text: Option<Vec<u16>>) -> Record {
        let (address, format, mut body) = self.start(rng);
        let Formula {
            tokens,
            mut trailing,
            ..
        } = listed_formula(rng);
        // Data of many elements is cut, so that no record gets large.
        trailing.truncate(LONGEST_TRAILING);
        body.extend(result);
        rng.append(&mut body, 6);
        body.extend((tokens.len() as u16).to_le_bytes());
        body.extend(&tokens);
        body.extend(&trailing);
        self.keep(address, format, || {
            Content::Formula(FormulaContents {
                result,
                text,
                tokens,
                trailing,
            })
        });
        Record::new(kind::FORMULA, body)
    }
}

/// The 64 bits of a number: plain ones, and any pattern at all.
pub(crate) fn number_bits(rng: &mut Rng) -> u64 {
    match rng.below(6) {
        0 => rng.next(),
        1 => (rng.below(2_000) as f64 - 1_000.0).to_bits(),
        2 => (rng.below(2_000_000) as f64 / 100.0).to_bits(),
        3 => rng.pick(&SPECIAL_NUMBERS),
        4 => rng.next() << 34,
        _ => (f64::from(rng.long() as i32)).to_bits(),
    }
}

const SPECIAL_NUMBERS: [u64; 10] = [
    0,
    1 << 63,
    1,
    0x000F_FFFF_FFFF_FFFF,
    0x0010_0000_0000_0000,
    0x7FEF_FFFF_FFFF_FFFF,
    0x7FF0_0000_0000_0000,
    0xFFF0_0000_0000_0000,
    0x7FF8_0000_0000_0000,
    0xFFF4_0000_DEAD_BEEF,
];

/// An RK word that means something.
pub(crate) fn rk_word(rng: &mut Rng) -> u32 {
    let word = match rng.below(4) {
        0 => rng.pick(&SPECIAL_WORDS) | rng.below(4) as u32,
        1 => (rng.below(4_000) as u32) << 2 | 2 | rng.below(2) as u32,
        _ => rng.long(),
    };
    let float_form = word & 2 == 0;
    if float_form && word & 0x7FF0_0000 == 0x7FF0_0000 {
        // The exponent that means nothing is lowered by one.
        return word ^ 0x0010_0000;
    }
    word
}

const SPECIAL_WORDS: [u32; 10] = [
    0,
    4,
    0x8000_0000,
    0x3FF0_0000,
    0x7FEF_FFFC,
    0x7FF0_0000,
    0x7FFF_FFFC,
    0xFFFF_FFFC,
    0x000F_FFFC,
    0x0010_0000,
];

/// The eight bytes of a stored result, with random ones where none is judged.
fn formula_result(rng: &mut Rng) -> [u8; 8] {
    let mut result = rng.next().to_le_bytes();
    let which = rng.pick(&[0, 0, 1, 2, 3, 4, 4, 4, 4]);
    if which == 0 {
        return text_results::result(rng);
    }
    if which > 3 {
        let bits = number_bits(rng);
        let is_marked = bits >> 48 == 0xFFFF;
        return if is_marked { bits >> 1 } else { bits }.to_le_bytes();
    }
    result[0] = which;
    match which {
        1 => result[2] = rng.below(2) as u8,
        2 => result[2] = rng.pick(&ERROR_CODES),
        _ => {}
    }
    result[6..].copy_from_slice(&[0xFF, 0xFF]);
    result
}

/// What a record has of a formula: right or not, as no check judges it.
fn listed_formula(rng: &mut Rng) -> Formula {
    let mut formula = match rng.below(20) {
        0..=11 => formula::small(rng),
        12..=15 => {
            let size = rng.mostly_small(1, 60);
            Formula {
                tokens: rng.bytes(size),
                ..Formula::default()
            }
        }
        16 => formula::any(rng),
        _ => Formula::default(),
    };
    if rng.percent(15) {
        trailing::damage(rng, &mut formula);
    }
    formula
}
