//! The bytes after a formula's tokens: the elements of array constants and the
//! areas of memory tokens.

use crate::cells::number_bits;
use crate::formula::Formula;
use crate::record::ERROR_CODES;
use crate::rng::Rng;

/// Appends bytes that are judged.
fn append_judged(formula: &mut Formula, bytes: &[u8]) {
    let at = formula.trailing.len();
    formula.judged.extend(at..at + bytes.len());
    formula.trailing.extend(bytes);
}

/// Appends what an array token has: its sizes, each one less, and elements.
pub(crate) fn append_array(rng: &mut Rng, formula: &mut Formula) {
    let (columns, rows) = match rng.below(200) {
        0 => (rng.between(250, 256), rng.pick(&[1, 6, 6])),
        1 => (rng.pick(&[1, 2]), rng.mostly_small(1, 300)),
        _ => (rng.mostly_small(1, 4), rng.mostly_small(1, 4)),
    };
    append_judged(formula, &[(columns - 1) as u8]);
    append_judged(formula, &((rows - 1) as u16).to_le_bytes());
    for _ in 0..columns * rows {
        append_element(rng, formula);
    }
}

/// Appends an element, with any bytes where nothing is judged.
fn append_element(rng: &mut Rng, formula: &mut Formula) {
    let which = rng.pick(&[0x00, 0x01, 0x01, 0x02, 0x02, 0x04, 0x10]);
    append_judged(formula, &[which]);
    match which {
        0x01 => formula.trailing.extend(number_bits(rng).to_le_bytes()),
        0x02 => append_text(rng, formula),
        0x04 | 0x10 => {
            let truth = rng.below(2) as u8;
            let code = rng.pick(&ERROR_CODES);
            // More often damaged than its share, which is small.
            formula.judged.extend([formula.trailing.len(); 4]);
            append_judged(formula, &[if which == 0x04 { truth } else { code }]);
            rng.append(&mut formula.trailing, 7);
        }
        _ => rng.append(&mut formula.trailing, 8),
    }
}

/// Appends a text. Only the lowest bit of its flags means anything.
fn append_text(rng: &mut Rng, formula: &mut Formula) {
    let length = match rng.below(200) {
        0 => rng.between(250, 400),
        _ => rng.mostly_small(0, 12),
    };
    let flags = rng.byte();
    append_judged(formula, &(length as u16).to_le_bytes());
    append_judged(formula, &[flags]);
    let wide = flags & 1 != 0;
    rng.append(
        &mut formula.trailing,
        if wide { 2 * length } else { length },
    );
}

/// Appends what a memory token has: a count and areas.
pub(crate) fn append_areas(rng: &mut Rng, formula: &mut Formula) {
    let count = match rng.below(100) {
        0 => rng.between(200, 300),
        _ => rng.mostly_small(0, 4),
    };
    append_judged(formula, &(count as u16).to_le_bytes());
    rng.append(&mut formula.trailing, 8 * count);
}

/// Values at which something changes: the kinds of elements, truths, codes,
/// and what stands beside them.
const BYTES: [u8; 14] = [
    0x00, 0x01, 0x02, 0x03, 0x04, 0x05, 0x07, 0x0F, 0x10, 0x11, 0x2A, 0x2B, 0x7F, 0xFF,
];

/// One small damage, mostly to a byte that is judged or to the length.
pub(crate) fn damage(rng: &mut Rng, formula: &mut Formula) {
    let size = formula.trailing.len();
    let bytes = &mut formula.trailing;
    if size == 0 || rng.percent(15) {
        let more = rng.mostly_small(1, 12);
        return rng.append(bytes, more);
    }
    let place = rng.below(size);
    let aimed = match formula.judged.is_empty() {
        true => place,
        false => rng.pick(&formula.judged).min(size - 1),
    };
    match rng.below(12) {
        0 => bytes.clear(),
        1 => bytes.truncate(place),
        2 => bytes.truncate(size - 1),
        3 => drop(bytes.remove(place)),
        4 => bytes.insert(place, rng.byte()),
        5 => bytes[place] = rng.byte(),
        6 => bytes[aimed] = bytes[aimed].wrapping_add(1),
        7 => bytes[aimed] = bytes[aimed].wrapping_sub(1),
        _ => bytes[aimed] = rng.pick(&BYTES),
    }
}
