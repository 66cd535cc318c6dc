//! A plain lister in safe Rust, like for like with the library's: the whole check first, then the cells of a sheet in four words each, put into a buffer
//! of the caller's as many at a time as it has room for. What it checks is what the second reader checks.

#![forbid(unsafe_code)]

/// Row, column, format and kind; value; where the value field starts; how many token bytes a formula has, and how many after them.
pub type Words = [u64; 4];

/// The next record, the next cell in it, and how many substreams inside the sheet's own it lies in.
#[derive(Clone, Copy)]
pub struct Place {
    at: usize,
    part: usize,
    level: u8,
}

mod kind {
    pub const FORMULA: u16 = 0x0006;
    pub const EOF: u16 = 0x000A;
    pub const BOUNDSHEET: u16 = 0x0085;
    pub const MULRK: u16 = 0x00BD;
    pub const MULBLANK: u16 = 0x00BE;
    pub const LABELSST: u16 = 0x00FD;
    pub const BLANK: u16 = 0x0201;
    pub const NUMBER: u16 = 0x0203;
    pub const BOOLERR: u16 = 0x0205;
    pub const RK: u16 = 0x027E;
    pub const BOF: u16 = 0x0809;
}

fn u16_of(bytes: &[u8; 2]) -> u64 {
    u64::from(u16::from_le_bytes(*bytes))
}

/// Type, body, and where the next record stands.
#[inline(always)]
fn record_at(stream: &[u8], at: usize) -> Option<(u16, &[u8], usize)> {
    let (header, rest) = stream.get(at..)?.split_first_chunk::<4>()?;
    let size = usize::from(u16::from_le_bytes([header[2], header[3]]));
    let body = rest.get(..size)?;
    Some((
        u16::from_le_bytes([header[0], header[1]]),
        body,
        at + 4 + size,
    ))
}

/// Checks the stream; then, where the cells of the n-th sheet start, if it lists any.
pub fn start(stream: &[u8], sheet: usize) -> Option<Place> {
    second_reader::check(stream).ok()?;
    let mut at = 0;
    let mut left = sheet;
    loop {
        let (kind, body, next) = record_at(stream, at)?;
        match kind {
            kind::EOF => return None,
            kind::BOUNDSHEET if left == 0 => {
                let (head, _) = body.split_first_chunk::<8>()?;
                let position = u32::from_le_bytes([head[0], head[1], head[2], head[3]]);
                return (head[5] == 0).then_some(Place {
                    at: position as usize + 20,
                    part: 0,
                    level: 0,
                });
            }
            kind::BOUNDSHEET => left -= 1,
            _ => {}
        }
        at = next;
    }
}

/// The words of a record's only cell: its first six bytes are row, column and format.
#[inline(always)]
fn one(body: &[u8], kind: u64, value: u64, place: usize, sizes: u64) -> Option<Words> {
    let [a, b, c, d, e, f] = *body.first_chunk::<6>()?;
    let head = u64::from_le_bytes([a, b, c, d, e, f, 0, 0]);
    Some([head | kind << 48, value, place as u64, sizes])
}

#[inline(always)]
fn field<const SIZE: usize>(body: &[u8]) -> Option<[u8; SIZE]> {
    body.get(6..)?.try_into().ok()
}

#[inline(always)]
fn formula(body: &[u8], at: usize) -> Option<Words> {
    let head = body.first_chunk::<22>()?;
    let result: [u8; 8] = head[6..14].try_into().ok()?;
    let tokens = u16_of(&[head[20], head[21]]);
    let trailing = (body.len() as u64 - 22).checked_sub(tokens)?;
    let (kind, value) = match result {
        [which, _, detail, _, _, _, 0xFF, 0xFF] => match which {
            0 => (6, 0),
            1 => (7, detail.into()),
            2 => (8, detail.into()),
            _ => (9, 0),
        },
        _ => (5, u64::from_le_bytes(result)),
    };
    one(body, kind, value, at + 10, tokens | trailing << 16)
}

/// A multiple record's row and first column in a word, and the fields of its cells.
#[inline(always)]
fn multiple<const SIZE: usize>(body: &[u8]) -> Option<(u64, &[[u8; SIZE]])> {
    let (start, rest) = body.split_first_chunk::<4>()?;
    let (fields, _) = rest.split_last_chunk::<2>()?;
    let (fields, _) = fields.as_chunks::<SIZE>();
    Some((u64::from(u32::from_le_bytes(*start)), fields))
}

pub struct Filled {
    pub cells: usize,
    pub next: Option<Place>,
}

/// The next cells from a place on, as many as there is room for.
pub fn fill(stream: &[u8], from: Place, words: &mut [Words]) -> Filled {
    let Place {
        mut at,
        mut part,
        mut level,
    } = from;
    let mut cells = 0;
    while cells < words.len() {
        let Some((kind, body, next)) = record_at(stream, at) else {
            return Filled { cells, next: None };
        };
        match kind {
            kind::BOF => level += 1,
            kind::EOF if level == 0 => return Filled { cells, next: None },
            kind::EOF => level -= 1,
            _ if level != 0 => {}
            kind::MULRK => {
                if let Some((start, fields)) = multiple::<6>(body) {
                    let mut head = start + ((part as u64) << 16) + (1 << 48);
                    let mut place = at + 10 + 6 * part;
                    let free = &mut words[cells..];
                    let some = fields.len().saturating_sub(part).min(free.len());
                    for (field, free) in fields[part..].iter().zip(free) {
                        let [a, b, word @ ..] = *field;
                        let bits = second_reader::decode_rk(u32::from_le_bytes(word)).unwrap_or(0);
                        *free = [head + (u16_of(&[a, b]) << 32), bits, place as u64, 0];
                        head += 1 << 16;
                        place += 6;
                    }
                    cells += some;
                    part += some;
                    if part < fields.len() {
                        break;
                    }
                    part = 0;
                }
            }
            kind::MULBLANK => {
                if let Some((start, fields)) = multiple::<2>(body) {
                    let mut head = start + ((part as u64) << 16);
                    let mut place = at + 8 + 2 * part;
                    let free = &mut words[cells..];
                    let some = fields.len().saturating_sub(part).min(free.len());
                    for (format, free) in fields[part..].iter().zip(free) {
                        *free = [head + (u16_of(format) << 32), 0, place as u64, 0];
                        head += 1 << 16;
                        place += 2;
                    }
                    cells += some;
                    part += some;
                    if part < fields.len() {
                        break;
                    }
                    part = 0;
                }
            }
            _ => {
                let cell = match kind {
                    kind::BLANK if body.len() == 6 => one(body, 0, 0, at + 8, 0),
                    kind::NUMBER => {
                        field(body).and_then(|x| one(body, 1, u64::from_le_bytes(x), at + 10, 0))
                    }
                    kind::RK => field(body)
                        .and_then(|x| second_reader::decode_rk(u32::from_le_bytes(x)))
                        .and_then(|bits| one(body, 1, bits, at + 10, 0)),
                    kind::LABELSST => field(body)
                        .and_then(|x| one(body, 2, u32::from_le_bytes(x).into(), at + 10, 0)),
                    kind::BOOLERR => field(body).and_then(|[value, which]| {
                        one(body, 3 + u64::from(which), value.into(), at + 10, 0)
                    }),
                    kind::FORMULA => formula(body, at),
                    _ => None,
                };
                if let Some(cell) = cell {
                    words[cells] = cell;
                    cells += 1;
                }
            }
        }
        at = next;
    }
    Filled {
        cells,
        next: Some(Place { at, part, level }),
    }
}
