//! Two streams compared in plain Rust, as one would write it for speed: both are checked (by the second reader), then their cells are taken side by side from
//! the records. What has passed the check is read without another.

use second_reader::decode_rk;
use std::cmp::Ordering;

/// Sheet, row, column, and 0 for names, 1 only in the first, 2 only in the second, 3 unequal. None where a stream is refused, or an address is there
/// twice.
pub fn compare(first: &[u8], second: &[u8]) -> Option<Vec<(u32, u16, u16, u8)>> {
    second_reader::check(first).ok()?;
    second_reader::check(second).ok()?;
    let (one, two) = (Book::of(first), Book::of(second));
    let (ones, twos) = (one.cells()?, two.cells()?);
    let mut told = Vec::new();
    for (number, place) in (0..).zip(0..ones.len().max(twos.len())) {
        if let (Some(this), Some(that)) = (one.name(place), two.name(place)) {
            if !same_text(this, that) {
                told.push((number, 0, 0, 0));
            }
        }
        let [these, those] = [&ones, &twos].map(|sheets| sheets.get(place));
        merge((&one, &two), number, these, those, &mut told);
    }
    Some(told)
}

fn word(stream: &[u8], at: usize) -> u16 {
    match stream.get(at..) {
        Some([low, high, ..]) => u16::from_le_bytes([*low, *high]),
        _ => 0,
    }
}

fn long(stream: &[u8], at: usize) -> u32 {
    u32::from(word(stream, at)) | u32::from(word(stream, at + 2)) << 16
}

fn bits(stream: &[u8], at: usize) -> u64 {
    u64::from(long(stream, at)) | u64::from(long(stream, at + 4)) << 32
}

/// A stream that has passed, with the places of its sheets and strings.
struct Book<'s> {
    stream: &'s [u8],
    sheets: Vec<Sheet>,
    strings: Vec<Head>,
}

struct Sheet {
    /// Where its BOUNDSHEET stands.
    header: usize,
    lists: bool,
}

/// Where a string's head stands, and the end of the segment that it stands in.
#[derive(Clone, Copy)]
struct Head {
    at: usize,
    end: usize,
}

/// A cell: row and column as one number, the kind of its value, and what tells it from others of its kind; of a text the number of its string, of a text
/// result the place of its STRING.
#[derive(Clone, Copy)]
struct Cell {
    key: u32,
    kind: u8,
    bits: u64,
}

const BLANK: u8 = 0;
const NUMBER: u8 = 1;
const TEXT: u8 = 2;
const TRUTH_OR_ERROR: u8 = 3;
const RESULT: u8 = 5;
const TEXT_RESULT: u8 = 6;
const OTHER_RESULT: u8 = 7;

impl<'s> Book<'s> {
    fn of(stream: &'s [u8]) -> Self {
        let mut book = Book {
            stream,
            sheets: Vec::new(),
            strings: Vec::new(),
        };
        let mut at = 0;
        loop {
            match word(stream, at) {
                0x000A => return book,
                0x0085 => book.sheets.push(Sheet {
                    header: at,
                    lists: stream[at + 9] == 0,
                }),
                0x00FC => book.find_strings(at),
                _ => {}
            }
            at += 4 + usize::from(word(stream, at + 2));
        }
    }

    fn find_strings(&mut self, sst: usize) {
        let stream = self.stream;
        let count = long(stream, sst + 8);
        let mut place = Head {
            at: sst + 12,
            end: sst + 4 + usize::from(word(stream, sst + 2)),
        };
        self.strings.reserve(count as usize);
        for _ in 0..count {
            if place.at == place.end {
                place = next_segment(stream, place.end);
            }
            self.strings.push(place);
            place = after_string(stream, place);
        }
    }

    fn name(&self, place: usize) -> Option<Text<'s>> {
        let header = self.sheets.get(place)?.header;
        Some(Text {
            stream: self.stream,
            at: header + 12,
            end: next_segment(self.stream, header).end,
            width: 1 + usize::from(self.stream[header + 11] & 1),
            left: self.stream[header + 10].into(),
        })
    }

    /// The cells of each sheet by row and column. None where an address is there twice.
    fn cells(&self) -> Option<Vec<Vec<Cell>>> {
        let mut all = Vec::with_capacity(self.sheets.len());
        for sheet in &self.sheets {
            let mut cells = Vec::new();
            if sheet.lists {
                let position = long(self.stream, sheet.header + 4) as usize;
                list(self.stream, position, &mut cells);
            }
            if !cells.is_sorted_by(|one, next| one.key < next.key) {
                cells.sort_unstable_by_key(|cell| cell.key);
                if cells.windows(2).any(|pair| pair[0].key == pair[1].key) {
                    return None;
                }
            }
            all.push(cells);
        }
        Some(all)
    }
}

fn next_segment(stream: &[u8], header: usize) -> Head {
    Head {
        at: header + 4,
        end: header + 4 + usize::from(word(stream, header + 2)),
    }
}

/// The place after a string: its characters, runs and phonetic bytes.
fn after_string(stream: &[u8], head: Head) -> Head {
    let (mut text, extra) = Text::at(stream, head);
    while text.left > 0 {
        let run = text.run();
        text.skip(run);
    }
    let (mut at, mut end) = (text.at, text.end);
    for mut size in extra {
        while size > 0 {
            if at == end {
                Head { at, end } = next_segment(stream, end);
                continue;
            }
            let here = size.min(end - at);
            at += here;
            size -= here;
        }
    }
    Head { at, end }
}

/// The characters of a string, of which some stand together in a segment.
struct Text<'s> {
    stream: &'s [u8],
    at: usize,
    end: usize,
    width: usize,
    left: usize,
}

impl<'s> Text<'s> {
    /// A shared string; and the sizes of its runs and its phonetic bytes.
    fn at(stream: &'s [u8], head: Head) -> (Self, [usize; 2]) {
        let flags = stream[head.at + 2];
        let mut at = head.at + 3;
        let mut extra = [0; 2];
        if flags & 8 != 0 {
            extra[0] = 4 * usize::from(word(stream, at));
            at += 2;
        }
        if flags & 4 != 0 {
            extra[1] = long(stream, at) as usize;
            at += 4;
        }
        let text = Text {
            stream,
            at,
            end: head.end,
            width: 1 + usize::from(flags & 1),
            left: usize::from(word(stream, head.at)),
        };
        (text, extra)
    }

    /// The text of a formula's result.
    fn of_result(stream: &'s [u8], string: usize) -> Self {
        Text {
            stream,
            at: string + 7,
            end: next_segment(stream, string).end,
            width: 1 + usize::from(stream[string + 6] & 1),
            left: usize::from(word(stream, string + 4)),
        }
    }

    /// How many characters stand together from here on.
    fn run(&mut self) -> usize {
        if self.at == self.end {
            let next = next_segment(self.stream, self.end);
            self.width = 1 + usize::from(self.stream[next.at] & 1);
            (self.at, self.end) = (next.at + 1, next.end);
        }
        self.left.min((self.end - self.at) / self.width)
    }

    fn skip(&mut self, characters: usize) {
        self.at += characters * self.width;
        self.left -= characters;
    }

    fn bytes(&self, characters: usize) -> &'s [u8] {
        &self.stream[self.at..self.at + characters * self.width]
    }
}

fn same_text(mut one: Text<'_>, mut two: Text<'_>) -> bool {
    if one.left != two.left {
        return false;
    }
    while one.left > 0 {
        let run = one.run().min(two.run());
        let (these, those) = (one.bytes(run), two.bytes(run));
        let same = match (one.width, two.width) {
            (1, 1) | (2, 2) => these == those,
            (1, _) => same_characters(these, those),
            _ => same_characters(those, these),
        };
        if !same {
            return false;
        }
        one.skip(run);
        two.skip(run);
    }
    true
}

fn same_characters(narrow: &[u8], wide: &[u8]) -> bool {
    let pairs = wide.as_chunks().0;
    narrow
        .iter()
        .zip(pairs)
        .all(|(byte, pair)| [*byte, 0] == *pair)
}

/// The cells directly in a worksheet.
fn list(stream: &[u8], position: usize, cells: &mut Vec<Cell>) {
    let mut at = position;
    let mut depth = 0;
    loop {
        let (kind, size) = (word(stream, at), usize::from(word(stream, at + 2)));
        match kind {
            0x0809 => depth += 1,
            0x000A if depth == 1 => return,
            0x000A => depth -= 1,
            _ if depth == 1 => push_cells(stream, at, kind, size, cells),
            _ => {}
        }
        at += 4 + size;
    }
}

fn push_cells(stream: &[u8], at: usize, kind: u16, size: usize, cells: &mut Vec<Cell>) {
    let key = u32::from(word(stream, at + 4)) << 16 | u32::from(word(stream, at + 6));
    let field = at + 10;
    let (kind, bits) = match kind {
        0x0201 => (BLANK, 0),
        0x0203 => (NUMBER, bits(stream, field)),
        0x027E => (NUMBER, meaning(long(stream, field))),
        0x00FD => (TEXT, long(stream, field).into()),
        0x0205 => (TRUTH_OR_ERROR, word(stream, field).into()),
        0x0006 => result(stream, at),
        0x00BD => {
            let words = stream[at + 8..at + 4 + size - 2].as_chunks::<6>().0;
            return cells.extend((key..).zip(words).map(|(key, &[_, _, a, b, c, d])| Cell {
                key,
                kind: NUMBER,
                bits: meaning(u32::from_le_bytes([a, b, c, d])),
            }));
        }
        0x00BE => {
            let count = (size as u32 - 6) / 2;
            return cells.extend((key..key + count).map(|key| Cell {
                key,
                kind: BLANK,
                bits: 0,
            }));
        }
        _ => return,
    };
    cells.push(Cell { key, kind, bits });
}

fn meaning(word: u32) -> u64 {
    decode_rk(word).unwrap_or(0)
}

/// The result of a formula: a number, where its STRING stands, or another with its kind.
fn result(stream: &[u8], at: usize) -> (u8, u64) {
    let number = bits(stream, at + 10);
    if number >> 48 != 0xFFFF {
        return (RESULT, number);
    }
    match number as u8 {
        0 => {
            let mut string = next_segment(stream, at).end;
            if word(stream, string) != 0x0207 {
                string = next_segment(stream, string).end;
            }
            (TEXT_RESULT, string as u64)
        }
        kind @ 1..=2 => (OTHER_RESULT, u64::from(kind) << 8 | number >> 16 & 0xFF),
        _ => (OTHER_RESULT, 0),
    }
}

fn same(one: &Book<'_>, two: &Book<'_>, this: &Cell, that: &Cell) -> bool {
    if this.kind != that.kind {
        return false;
    }
    let (these, those) = (this.bits as usize, that.bits as usize);
    match this.kind {
        TEXT => same_text(
            Text::at(one.stream, one.strings[these]).0,
            Text::at(two.stream, two.strings[those]).0,
        ),
        TEXT_RESULT => same_text(
            Text::of_result(one.stream, these),
            Text::of_result(two.stream, those),
        ),
        _ => this.bits == that.bits,
    }
}

fn merge(
    (one, two): (&Book<'_>, &Book<'_>),
    sheet: u32,
    these: Option<&Vec<Cell>>,
    those: Option<&Vec<Cell>>,
    told: &mut Vec<(u32, u16, u16, u8)>,
) {
    let mut these = these.map_or(&[][..], Vec::as_slice);
    let mut those = those.map_or(&[][..], Vec::as_slice);
    let mut tell = |key: u32, kind| told.push((sheet, (key >> 16) as u16, key as u16, kind));
    loop {
        match (these, those) {
            ([], []) => return,
            ([this, rest @ ..], []) => {
                tell(this.key, 1);
                these = rest;
            }
            ([], [that, rest @ ..]) => {
                tell(that.key, 2);
                those = rest;
            }
            ([this, rest @ ..], [that, others @ ..]) => match this.key.cmp(&that.key) {
                Ordering::Less => {
                    tell(this.key, 1);
                    these = rest;
                }
                Ordering::Greater => {
                    tell(that.key, 2);
                    those = others;
                }
                Ordering::Equal => {
                    if !same(one, two, this, that) {
                        tell(this.key, 3);
                    }
                    (these, those) = (rest, others);
                }
            },
        }
    }
}
