//! Formula bytes.

use crate::jumps;
use crate::record::ERROR_CODES;
use crate::rng::Rng;
use crate::trailing;
use std::sync::OnceLock;

const LONGEST_FORMULA: usize = 1_800;
const MEMORY_DEPTHS: usize = 8;

/// A formula: its tokens and the bytes after them.
#[derive(Clone, Debug, Default, PartialEq, Eq)]
pub struct Formula {
    /// The tokens.
    pub tokens: Vec<u8>,
    /// The bytes after the tokens.
    pub trailing: Vec<u8>,
    /// Which of the bytes after the tokens are judged, as they were made.
    pub(crate) judged: Vec<usize>,
}

impl Formula {
    fn of_tokens(tokens: Vec<u8>) -> Self {
        Formula {
            tokens,
            ..Formula::default()
        }
    }

    /// Appends what an inner formula has after its tokens.
    fn append_trailing(&mut self, inner: &Formula) {
        let at = self.trailing.len();
        self.trailing.extend(&inner.trailing);
        self.judged
            .extend(inner.judged.iter().map(|place| at + place));
    }
}

/// The functions by whether their number of arguments is fixed.
struct Functions {
    fixed: Vec<(u16, usize)>,
    variable: Vec<(u16, usize, usize)>,
}

fn functions() -> &'static Functions {
    static FUNCTIONS: OnceLock<Functions> = OnceLock::new();
    FUNCTIONS.get_or_init(|| {
        let mut functions = Functions {
            fixed: Vec::new(),
            variable: Vec::new(),
        };
        let text = include_str!("../../second-reader/data/function-counts.tsv");
        for line in text.lines().skip(1) {
            let fields: Vec<&str> = line.split('\t').collect();
            let number = |at: usize| fields[at].parse::<usize>().expect("a number");
            let (index, least, greatest) = (number(0) as u16, number(2), number(3));
            if least == greatest {
                functions.fixed.push((index, least));
            } else {
                functions.variable.push((index, least, greatest));
            }
        }
        functions
    })
}

/// A formula of any sort: valid, damaged, or thrown together.
pub(crate) fn any(rng: &mut Rng) -> Formula {
    match rng.below(100) {
        0..=49 => valid(rng),
        50..=87 => damaged(rng),
        88..=97 => thrown_together(rng),
        _ => {
            let size = rng.mostly_small(0, 60);
            Formula::of_tokens(rng.bytes(size))
        }
    }
}

/// A short valid formula.
pub(crate) fn small(rng: &mut Rng) -> Formula {
    let mut formula = expression(rng, 4);
    jumps::land(rng, &mut formula.tokens);
    formula
}

/// A valid formula.
pub(crate) fn valid(rng: &mut Rng) -> Formula {
    let mut formula = valid_but_for_jumps(rng);
    jumps::land(rng, &mut formula.tokens);
    formula
}

fn valid_but_for_jumps(rng: &mut Rng) -> Formula {
    match rng.below(100) {
        0..=1 => alone(rng),
        2..=4 => padded(rng),
        5..=14 => {
            let depth = rng.between(1, MEMORY_DEPTHS);
            let inner = leaf(rng);
            wrapped(rng, inner, depth)
        }
        _ => {
            let nodes = rng.mostly_small(1, 70);
            expression(rng, nodes)
        }
    }
}

/// A token that must be the whole formula.
fn alone(rng: &mut Rng) -> Formula {
    let mut tokens = vec![rng.pick(&[0x01, 0x02])];
    rng.append(&mut tokens, 4);
    Formula::of_tokens(tokens)
}

/// A formula made as long as may be, or nearly.
fn padded(rng: &mut Rng) -> Formula {
    let length = rng.between(LONGEST_FORMULA - 5, LONGEST_FORMULA);
    let mut formula = expression(rng, 20);
    let tokens = &mut formula.tokens;
    while tokens.len() < length {
        if tokens.len() + 4 <= length && rng.percent(50) {
            attribute(rng, tokens);
        } else {
            tokens.push(rng.pick(&[0x12, 0x13, 0x14, 0x15]));
        }
    }
    formula
}

/// A formula inside so many memory tokens.
fn wrapped(rng: &mut Rng, inner: Formula, depth: usize) -> Formula {
    let mut formula = inner;
    for _ in 0..depth {
        let mut outer = Formula::default();
        memory(rng, &mut outer, &formula);
        formula = outer;
    }
    formula
}

fn expression(rng: &mut Rng, nodes: usize) -> Formula {
    let mut maker = Maker { nodes, depth: 0 };
    let mut formula = Formula::of_tokens(Vec::with_capacity(nodes * 8));
    maker.expression(rng, &mut formula);
    if formula.tokens.len() > LONGEST_FORMULA {
        return leaf(rng);
    }
    formula
}

/// Makes tokens that leave one operand more than before.
struct Maker {
    /// How many more tokens may be made that take operands.
    nodes: usize,
    /// How many memory tokens are around.
    depth: usize,
}

impl Maker {
    fn expression(&mut self, rng: &mut Rng, formula: &mut Formula) {
        if rng.percent(6) {
            attribute_of(
                rng,
                &mut formula.tokens,
                &[0x01, 0x02, 0x04, 0x08, 0x40, 0x41],
            );
        }
        if self.nodes == 0 {
            return append_leaf(rng, formula);
        }
        self.nodes -= 1;
        match rng.below(20) {
            0..=2 => append_leaf(rng, formula),
            3..=5 => self.unary(rng, formula),
            6..=11 => self.binary(rng, formula),
            12..=13 => self.fixed_function(rng, formula),
            14..=16 => self.variable_function(rng, formula),
            17 => self.conditional(rng, formula),
            _ => self.memory(rng, formula),
        }
    }

    fn unary(&mut self, rng: &mut Rng, formula: &mut Formula) {
        self.expression(rng, formula);
        if rng.percent(20) {
            attribute_of(rng, &mut formula.tokens, &[0x10]);
        } else {
            formula.tokens.push(rng.between(0x12, 0x15) as u8);
        }
    }

    fn binary(&mut self, rng: &mut Rng, formula: &mut Formula) {
        self.expression(rng, formula);
        self.expression(rng, formula);
        formula.tokens.push(rng.between(0x03, 0x11) as u8);
    }

    /// A function of a fixed count, as some writers also put it down: with its
    /// count before the index.
    fn fixed_function(&mut self, rng: &mut Rng, formula: &mut Formula) {
        let (index, count) = rng.pick(&functions().fixed);
        self.arguments(rng, formula, count);
        if rng.percent(30) {
            return append_counted(rng, &mut formula.tokens, index, count);
        }
        formula.tokens.push(classed(rng, 0x21));
        formula.tokens.extend(index.to_le_bytes());
    }

    fn variable_function(&mut self, rng: &mut Rng, formula: &mut Formula) {
        let (index, least, greatest) = rng.pick(&functions().variable);
        let count = match rng.below(8) {
            0 => greatest,
            1 => least,
            _ => rng.mostly_small(least, greatest),
        };
        self.arguments(rng, formula, count);
        append_counted(rng, &mut formula.tokens, index, count);
    }

    /// IF or CHOOSE with the jumps that lead over what isn't taken.
    fn conditional(&mut self, rng: &mut Rng, formula: &mut Formula) {
        let choices = rng.between(1, 3);
        let is_if = choices < 3 && rng.percent(60);
        self.expression(rng, formula);
        if is_if {
            attribute_of(rng, &mut formula.tokens, &[0x02]);
        } else {
            append_choose(rng, &mut formula.tokens, choices);
        }
        for _ in 0..choices {
            self.expression(rng, formula);
            attribute_of(rng, &mut formula.tokens, &[0x08]);
        }
        let index = if is_if { 1 } else { 100 };
        append_counted(rng, &mut formula.tokens, index, choices + 1);
    }

    fn arguments(&mut self, rng: &mut Rng, formula: &mut Formula, count: usize) {
        for _ in 0..count {
            self.expression(rng, formula);
        }
    }

    fn memory(&mut self, rng: &mut Rng, formula: &mut Formula) {
        if self.depth == MEMORY_DEPTHS {
            return append_leaf(rng, formula);
        }
        self.depth += 1;
        let mut inner = Formula::default();
        self.expression(rng, &mut inner);
        self.depth -= 1;
        memory(rng, formula, &inner);
    }
}

/// Appends a function token that has its count in it.
fn append_counted(rng: &mut Rng, tokens: &mut Vec<u8>, index: u16, count: usize) {
    // The upper bit of the count is ignored.
    let ignored = if rng.percent(10) { 0x80 } else { 0 };
    tokens.extend([classed(rng, 0x22), count as u8 | ignored]);
    tokens.extend(index.to_le_bytes());
}

/// Appends a memory token with its inner formula. Its areas come before the data
/// of the tokens inside.
fn memory(rng: &mut Rng, formula: &mut Formula, inner: &Formula) {
    let first = rng.pick(&[0x26, 0x27, 0x28, 0x29]);
    formula.tokens.push(classed(rng, first));
    if first != 0x29 {
        rng.append(&mut formula.tokens, 4);
    }
    let length = inner.tokens.len() as u16;
    formula.tokens.extend(length.to_le_bytes());
    formula.tokens.extend(&inner.tokens);
    if first == 0x26 {
        trailing::append_areas(rng, formula);
    }
    formula.append_trailing(inner);
}

/// A token byte in one of the three classes.
fn classed(rng: &mut Rng, first: u8) -> u8 {
    first + rng.pick(&[0x00, 0x20, 0x40])
}

fn attribute(rng: &mut Rng, tokens: &mut Vec<u8>) {
    attribute_of(rng, tokens, &[0x01, 0x02, 0x08, 0x10, 0x40, 0x41]);
}

fn attribute_of(rng: &mut Rng, tokens: &mut Vec<u8>, kinds: &[u8]) {
    let which = rng.pick(kinds);
    if which == 0x04 {
        let n = rng.mostly_small(0, 6);
        return append_choose(rng, tokens, n);
    }
    tokens.extend([0x19, which]);
    rng.append(tokens, 2);
}

/// Appends the token with so many distances and one more.
fn append_choose(rng: &mut Rng, tokens: &mut Vec<u8>, n: usize) {
    tokens.extend([0x19, 0x04]);
    tokens.extend((n as u16).to_le_bytes());
    rng.append(tokens, 2 * (n + 1));
}

const OPERANDS: [(u8, usize); 19] = [
    (0x16, 0),
    (0x17, 0),
    (0x1C, 0),
    (0x1D, 0),
    (0x1E, 2),
    (0x1F, 8),
    (0x20, 7),
    (0x23, 4),
    (0x24, 4),
    (0x25, 8),
    (0x2A, 4),
    (0x2B, 8),
    (0x2C, 4),
    (0x2D, 8),
    (0x39, 6),
    (0x3A, 6),
    (0x3B, 10),
    (0x3C, 6),
    (0x3D, 10),
];

fn leaf(rng: &mut Rng) -> Formula {
    let mut formula = Formula::default();
    append_leaf(rng, &mut formula);
    formula
}

/// Appends a token that gives one operand.
fn append_leaf(rng: &mut Rng, formula: &mut Formula) {
    let (first, size) = rng.pick(&OPERANDS);
    let tokens = &mut formula.tokens;
    match first {
        0x17 => append_text(rng, tokens),
        0x1C => tokens.extend([first, rng.pick(&ERROR_CODES)]),
        0x1D => tokens.extend([first, rng.below(2) as u8]),
        0x24 | 0x3A => append_reference(rng, tokens, first, size, 2),
        0x25 | 0x3B => append_reference(rng, tokens, first, size, 4),
        _ => {
            let class = if first < 0x20 {
                first
            } else {
                classed(rng, first)
            };
            tokens.push(class);
            rng.append(tokens, size);
        }
    }
    if first == 0x20 {
        trailing::append_array(rng, formula);
    }
}

fn append_text(rng: &mut Rng, tokens: &mut Vec<u8>) {
    let count = rng.mostly_small(0, 40);
    let flags = rng.byte();
    tokens.extend([0x17, count as u8, flags]);
    rng.append(tokens, if flags & 1 != 0 { 2 * count } else { count });
}

/// Appends a reference that ends with so many bytes of column words.
fn append_reference(rng: &mut Rng, tokens: &mut Vec<u8>, first: u8, size: usize, columns: usize) {
    tokens.push(classed(rng, first));
    rng.append(tokens, size);
    let from = tokens.len() - columns;
    for word in tokens[from..].chunks_exact_mut(2) {
        // Bits 8 to 13 must be clear.
        word[1] &= 0xC0;
    }
}

/// Whole tokens one after the other, with no care for operands or functions.
fn thrown_together(rng: &mut Rng) -> Formula {
    let mut formula = Formula::default();
    for _ in 0..rng.mostly_small(1, 12) {
        match rng.below(8) {
            0 => formula.tokens.push(rng.between(0x03, 0x15) as u8),
            1 => attribute(rng, &mut formula.tokens),
            2 => append_function(rng, &mut formula.tokens),
            3 => {
                let inner = match rng.below(4) {
                    0 => Formula::default(),
                    _ => expression(rng, 3),
                };
                memory(rng, &mut formula, &inner);
            }
            _ => append_leaf(rng, &mut formula),
        }
    }
    if rng.percent(70) {
        jumps::land(rng, &mut formula.tokens);
    }
    formula
}

/// A function token with any index and count, near the table or in it.
fn append_function(rng: &mut Rng, tokens: &mut Vec<u8>) {
    let any_count = rng.mostly_small(0, 255);
    let (index, count) = match rng.below(4) {
        0 => {
            let index = rng.pick(&[255, 367, 368, 0x8000, 0x80FF, 0xFFFF, 202, 216]);
            (index, any_count)
        }
        1 => {
            let (index, count) = rng.pick(&functions().fixed);
            let upper_bit = if rng.percent(15) { 0x8000 } else { 0 };
            let beside = rng.pick(&[count, count, count + 1, count.saturating_sub(1), any_count]);
            (index | upper_bit, beside)
        }
        2 => (rng.pick(&functions().variable).0, any_count),
        _ => (rng.below(400) as u16, any_count),
    };
    if rng.percent(40) {
        tokens.push(classed(rng, 0x21));
        tokens.extend(index.to_le_bytes());
    } else {
        append_counted(rng, tokens, index, count);
    }
}

/// A valid formula with one to three small damages.
fn damaged(rng: &mut Rng) -> Formula {
    let mut formula = valid(rng);
    for _ in 0..rng.pick(&[1, 1, 1, 2, 3]) {
        if rng.percent(40) && jumps::lead_astray(rng, &mut formula.tokens) {
            continue;
        }
        if rng.percent(if formula.trailing.is_empty() { 10 } else { 50 }) {
            trailing::damage(rng, &mut formula);
        } else {
            damage(rng, &mut formula);
        }
    }
    formula
}

fn damage(rng: &mut Rng, formula: &mut Formula) {
    let tokens = &mut formula.tokens;
    let place = rng.below(tokens.len().max(1));
    match rng.below(12) {
        0 => tokens.truncate(place),
        1 => drop(tokens.splice(place..place, [rng.byte()])),
        2 => tokens.insert(place, rng.between(0x01, 0x3F) as u8),
        3 if place < tokens.len() => drop(tokens.remove(place)),
        4 => append_leaf(rng, formula),
        5 => tokens.push(rng.between(0x03, 0x15) as u8),
        6 => append_function(rng, tokens),
        7 => {
            let depth = rng.between(1, 10);
            let inner = std::mem::take(formula);
            if !inner.tokens.is_empty() {
                *formula = wrapped(rng, inner, depth);
            }
        }
        8 => tokens.resize(rng.pick(&[0, 1, 1_799, 1_800, 1_801, 2_000]), 0x12),
        9 if place < tokens.len() => tokens[place] = tokens[place].wrapping_add(1),
        _ if place < tokens.len() => tokens[place] = rng.byte(),
        _ => tokens.push(rng.byte()),
    }
}
