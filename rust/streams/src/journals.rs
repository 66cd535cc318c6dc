//! Journals of corrections, for a stream as it is.

use crate::questions::{
    any_value, cells_with_fields, matching_value, sheet_positions, Found, NewValue,
};
use crate::record::kind;
use crate::rng::Rng;

const HEADER: usize = 16;
const ENTRY: usize = 28;

/// How many bytes are lent for a header.
pub(crate) fn room(rng: &mut Rng) -> usize {
    match rng.below(8) {
        0 => 0,
        1..=3 => rng.between(12, 20),
        _ => HEADER + rng.below(3 * ENTRY),
    }
}

/// A cell whose field is followed over the entries.
struct Held {
    sheet: u32,
    cell: Found,
    field: [u8; 8],
}

/// Bytes of a value field: how many, and the bytes with zeros after them.
type Field = (usize, [u8; 8]);

/// Half of them right, the others with a forged entry or a fault; some have room
/// for more entries, or a part of it.
pub(crate) fn any(rng: &mut Rng, stream: &[u8], unique: u32, template_sheets: u32) -> Vec<u8> {
    let held = cells_with_fields(stream).into_iter();
    let mut held: Vec<Held> = held
        .map(|(sheet, cell, field)| Held { sheet, cell, field })
        .collect();
    let backwards = rng.percent(45);
    let forged = rng.percent(35);
    let mut entries = Vec::new();
    for _ in 0..rng.mostly_small(0, 9) {
        if held.is_empty() {
            break;
        }
        let place = picked(rng, &held, !forged);
        let mut entry = match backwards {
            true => undoing(rng, &mut held[place], unique),
            false => making(rng, &mut held[place], unique, !forged),
        };
        if forged && rng.percent(30) {
            forge(rng, &mut entry);
        }
        entries.push(entry);
    }
    if backwards {
        entries.reverse();
    }
    let own = sheet_positions(stream).len() as u32;
    if let Some(others @ 1..) = template_sheets.checked_sub(own) {
        if !entries.is_empty() && rng.percent(25) {
            let entry = rng.below(entries.len());
            let sheet = own + rng.below(others as usize) as u32;
            entries[entry][..4].copy_from_slice(&sheet.to_le_bytes());
        }
    }
    let fields = [
        entries.len() as u32,
        HEADER as u32,
        stream.len() as u32,
        unique,
    ];
    let mut journal: Vec<u8> = fields
        .iter()
        .flat_map(|field| field.to_le_bytes())
        .collect();
    journal.extend(entries.concat());
    match rng.below(4) {
        0 => {}
        1 => {
            let part = rng.pick(&[1, 27, 28, 29, 55, 56]);
            rng.append(&mut journal, part);
        }
        _ => journal.resize(journal.len() + ENTRY * rng.between(1, 3), 0xEE),
    }
    if !forged && rng.percent(30) {
        spoil(rng, &mut journal);
    }
    journal
}

/// A cell: where it must be right, one that takes values and stands alone at its
/// address, if such a one is found soon.
fn picked(rng: &mut Rng, held: &[Held], right: bool) -> usize {
    let mut place = rng.below(held.len());
    for _ in 0..if right { 12 } else { 2 } {
        let Held { sheet, cell, .. } = &held[place];
        let takes = !matches!(cell.kind, kind::BLANK | kind::MULBLANK | kind::FORMULA);
        let address = (*sheet, cell.row, cell.column);
        let alone = || {
            let same = held
                .iter()
                .filter(|other| (other.sheet, other.cell.row, other.cell.column) == address);
            same.count() == 1
        };
        if takes && (!right || alone()) {
            break;
        }
        place = rng.below(held.len());
    }
    place
}

/// A correction of a cell as it is.
fn making(rng: &mut Rng, held: &mut Held, unique: u32, right: bool) -> [u8; ENTRY] {
    let kind = held.cell.kind;
    let mut value = matching_value(rng, unique, kind);
    for _ in 0..if right { 9 } else { 1 } {
        if written(kind, value, unique).is_some() {
            break;
        }
        value = matching_value(rng, unique, kind);
    }
    let old = held.old(value);
    let entry = entry(held, value, old);
    if let Some((_, field)) = written(kind, value, unique) {
        held.field = field;
    }
    entry
}

/// A correction that left a cell as it is, and what it was before.
fn undoing(rng: &mut Rng, held: &mut Held, unique: u32) -> [u8; ENTRY] {
    let kind = held.cell.kind;
    let value = held.writer().unwrap_or_else(|| any_value(rng, unique));
    let before = (0..9).find_map(|_| {
        let value = matching_value(rng, unique, kind);
        written(kind, value, unique)
    });
    let (size, _) = held.old(value);
    let old = match before {
        Some(field) if rng.percent(90) => field,
        _ => {
            let mut field = [0; 8];
            field[..size].copy_from_slice(&rng.bytes(size));
            (size, field)
        }
    };
    let entry = entry(held, value, old);
    held.field = old.1;
    entry
}

impl Held {
    /// Its field's bytes as the old ones for a value, which may be of another kind.
    fn old(&self, value: NewValue) -> Field {
        let size = match (self.cell.kind, value) {
            (kind::NUMBER, _) => 8,
            (kind::RK | kind::MULRK | kind::LABELSST, _) => 4,
            (kind::BOOLERR, _) => 2,
            (_, NewValue::Number(_)) => 8,
            (_, NewValue::Text(_)) => 4,
            (_, NewValue::Truth(_) | NewValue::Error(_)) => 2,
        };
        let mut field = [0; 8];
        field[..size].copy_from_slice(&self.field[..size]);
        (size, field)
    }

    /// The value that writes the field as it is, if one does.
    fn writer(&self) -> Option<NewValue> {
        let [a, b, c, d, ..] = self.field;
        let long = u32::from_le_bytes([a, b, c, d]);
        match self.cell.kind {
            kind::NUMBER => Some(NewValue::Number(f64::from_le_bytes(self.field))),
            kind::RK | kind::MULRK if long & 2 != 0 => {
                Some(NewValue::Number(f64::from(long as i32 >> 2)))
            }
            kind::RK | kind::MULRK => {
                let bits = u64::from(long & !3) << 32;
                Some(NewValue::Number(f64::from_bits(bits)))
            }
            kind::LABELSST => Some(NewValue::Text(long)),
            kind::BOOLERR if b == 0 => Some(NewValue::Truth(a)),
            kind::BOOLERR => Some(NewValue::Error(a)),
            _ => None,
        }
    }
}

/// What a value writes to a cell's field; none where it doesn't fit.
fn written(kind: u16, value: NewValue, unique: u32) -> Option<Field> {
    let mut field = [0; 8];
    let size = match (kind, value) {
        (kind::NUMBER, NewValue::Number(number)) if number.is_finite() => {
            field = number.to_le_bytes();
            8
        }
        (kind::RK | kind::MULRK, NewValue::Number(number)) => {
            field[..4].copy_from_slice(&packed(number)?.to_le_bytes());
            4
        }
        (kind::LABELSST, NewValue::Text(index)) if index < unique => {
            field[..4].copy_from_slice(&index.to_le_bytes());
            4
        }
        (kind::BOOLERR, NewValue::Truth(truth @ (0 | 1))) => {
            field[0] = truth;
            2
        }
        (kind::BOOLERR, NewValue::Error(code)) if crate::record::ERROR_CODES.contains(&code) => {
            field[..2].copy_from_slice(&[code, 1]);
            2
        }
        _ => return None,
    };
    Some((size, field))
}

/// A number as an RK word that isn't divided: as the head of its bits, or whole.
fn packed(number: f64) -> Option<u32> {
    let bits = number.to_bits();
    let whole = number as i32;
    match bits << 30 {
        0 if number.is_finite() => Some((bits >> 32) as u32),
        _ if f64::from(whole) == number && whole << 2 >> 2 == whole => {
            Some((whole << 2) as u32 | 2)
        }
        _ => None,
    }
}

/// An entry as the rules lay it out.
fn entry(held: &Held, value: NewValue, (size, old): Field) -> [u8; ENTRY] {
    let mut bytes = [0; ENTRY];
    let (kind, new) = match value {
        NewValue::Number(number) => (0, number.to_le_bytes()),
        NewValue::Text(index) => (1, u64::from(index).to_le_bytes()),
        NewValue::Truth(truth) => (2, u64::from(truth).to_le_bytes()),
        NewValue::Error(code) => (3, u64::from(code).to_le_bytes()),
    };
    bytes[..4].copy_from_slice(&held.sheet.to_le_bytes());
    let words = [held.cell.row, held.cell.column, kind, size as u16];
    for (place, word) in words.iter().enumerate() {
        bytes[4 + 2 * place..6 + 2 * place].copy_from_slice(&word.to_le_bytes());
    }
    bytes[12..20].copy_from_slice(&old);
    bytes[20..].copy_from_slice(&new);
    bytes
}

fn put(bytes: &mut [u8], at: usize, word: u16) {
    bytes[at..at + 2].copy_from_slice(&word.to_le_bytes());
}

/// Changes an entry so that it stays well formed: a replay stops there, unless the
/// change happens to fit.
fn forge(rng: &mut Rng, entry: &mut [u8; ENTRY]) {
    let number = entry[8] == 0;
    match rng.below(9) {
        0 => {
            let sheet = rng.pick(&[1, 2, 0x1_0000, u32::MAX]);
            entry[..4].copy_from_slice(&sheet.to_le_bytes());
        }
        1 | 2 => put(entry, rng.pick(&[4, 6]), rng.word()),
        3 => entry[7] = 1,
        // Another old byte, another new one.
        4 => {
            let size = usize::from(entry[10]);
            entry[12 + rng.below(size)] ^= 1 << rng.below(8);
        }
        5 => {
            let size = [8, 4, 1, 1][usize::from(entry[8] & 3)];
            entry[20 + rng.below(size)] ^= 1 << rng.below(8);
        }
        // What no cell takes.
        6 if number => entry[20..].copy_from_slice(&f64::NAN.to_le_bytes()),
        6 => entry[20] = 0xFE,
        // Eight bytes for four, or the other way round.
        7 if number => {
            let size = if entry[10] == 8 { 4 } else { 8 };
            entry[10] = size;
            entry[12 + usize::from(size)..20].fill(0);
        }
        // A kind with as many old bytes.
        _ => match entry[8] {
            0 if entry[10] == 4 => {
                entry[8] = 1;
                entry[24..].fill(0);
            }
            1 => entry[8] = 0,
            2 => entry[8] = 3,
            3 => entry[8] = 2,
            _ => {}
        },
    }
}

/// One fault that makes a journal cut, malformed or another stream's.
fn spoil(rng: &mut Rng, journal: &mut Vec<u8>) {
    let entries = (journal.len() - HEADER) / ENTRY;
    let counted = usize::from(journal[0]).min(entries);
    match rng.below(10) {
        0 => journal.truncate(rng.below(HEADER + 1)),
        1 => {
            let end = HEADER + ENTRY * counted;
            journal.truncate(end.saturating_sub(rng.between(1, ENTRY)));
        }
        // The count, the offset, the length, the number of strings.
        2..=4 => {
            let at = 4 * rng.below(4);
            let byte = at + rng.below(4);
            journal[byte] = match rng.below(3) {
                0 => journal[byte].wrapping_add(1),
                1 => journal[byte].wrapping_sub(1),
                _ => rng.byte(),
            };
        }
        5 => journal[..4].copy_from_slice(&(entries as u32 + 1).to_le_bytes()),
        _ if counted == 0 => journal[4] = rng.pick(&[0, 15, 17, 28]),
        kind => {
            let entry = HEADER + ENTRY * rng.below(counted);
            let bytes = &mut journal[entry..entry + ENTRY];
            match kind {
                6 => put(bytes, 8, rng.pick(&[4, 5, 0x100, 0x103, 0xFFFF])),
                7 => put(bytes, 10, rng.pick(&[0, 1, 2, 3, 4, 5, 8, 9, 0x104, 0x108])),
                8 => {
                    let size = usize::from(bytes[10]).min(7);
                    bytes[rng.between(12 + size, 19)] = rng.byte() | 1;
                }
                _ => {
                    let size = [7, 4, 1, 1][usize::from(bytes[8] & 3)];
                    bytes[rng.between(20 + size, 27)] = rng.byte() | 1;
                }
            }
        }
    }
}
