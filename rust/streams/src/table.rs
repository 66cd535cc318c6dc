//! Shared string tables, split over segments in every way that is legal.

use crate::record::LONGEST_BODY;
use crate::rng::Rng;

/// More bytes than one record holds.
const FULL: usize = 9_000;

/// How strings are laid over segments, and how long they get.
#[derive(Clone, Copy, Debug)]
pub(crate) struct Style {
    /// How many times of a hundred a segment ends at a place where it may.
    pub break_percent: usize,
    pub longest: usize,
    /// How many times of a hundred a string has runs, and phonetic bytes, and how
    /// many of them at most.
    pub extras_percent: usize,
    pub most_runs: usize,
    pub most_phonetic: usize,
    /// How many times of a hundred the wide characters of a string are such as
    /// go into a byte.
    pub plain_percent: usize,
}

impl Style {
    pub fn pick(rng: &mut Rng, budget: usize) -> Self {
        let long = if budget > 9_000 { 20_000 } else { 300 };
        Style {
            break_percent: rng.pick(&[0, 0, 2, 10, 35, 60]),
            longest: rng.pick(&[3, 12, 40, long]).min(budget.max(3)),
            extras_percent: rng.pick(&[0, 10, 50]),
            most_runs: 9,
            most_phonetic: 30,
            plain_percent: 0,
        }
    }
}

/// A table as it is being made.
pub(crate) struct Table {
    /// The bodies of the SST and of its CONTINUEs.
    pub segments: Vec<Vec<u8>>,
    pub unique: u32,
    /// The units of each string, if they are to be kept.
    pub strings: Option<Vec<Vec<u16>>>,
    style: Style,
    /// Whether the wide characters of the string being written go into a byte.
    plain: bool,
}

impl Table {
    /// A table of about so many bytes.
    pub fn make(rng: &mut Rng, budget: usize, keep: bool) -> Self {
        let style = Style::pick(rng, budget);
        Table::in_style(rng, budget, keep, style)
    }

    /// A table of about so many bytes, laid out like this.
    pub fn in_style(rng: &mut Rng, budget: usize, keep: bool, style: Style) -> Self {
        let mut table = Table {
            segments: vec![rng.bytes(8)],
            unique: 0,
            strings: keep.then(Vec::new),
            style,
            plain: false,
        };
        let most = rng.mostly_small(0, 2_000);
        let mut size = 8;
        while size < budget && (table.unique as usize) < most {
            size += table.append_string(rng, budget - size);
        }
        let unique = table.unique.to_le_bytes();
        table.segments[0][4..8].copy_from_slice(&unique);
        table
    }

    /// The segments of one formula's text, of no more than about so many bytes,
    /// and its units.
    pub fn of_result(rng: &mut Rng, budget: usize) -> (Vec<Vec<u8>>, Vec<u16>) {
        let mut table = Table {
            segments: Vec::new(),
            unique: 0,
            strings: Some(Vec::new()),
            style: Style::pick(rng, budget),
            plain: false,
        };
        let wide = rng.percent(40);
        let length = if budget > FULL && rng.percent(15) {
            // About as much as one record holds.
            table.style.break_percent = 0;
            rng.between(LONGEST_BODY - 10, FULL) / width(wide)
        } else {
            table.pick_length(rng, budget / 3)
        };
        // Bits 2 and 3 bring nothing here.
        let ignored = if rng.percent(40) { rng.byte() & !1 } else { 0 };
        let [low, high] = (length as u16).to_le_bytes();
        table
            .segments
            .push(vec![low, high, ignored | u8::from(wide)]);
        table.append_characters(rng, length, wide);
        let units = table.strings.and_then(|mut strings| strings.pop());
        (table.segments, units.unwrap_or_default())
    }

    fn segment(&mut self) -> &mut Vec<u8> {
        self.segments.last_mut().expect("the SST itself")
    }

    fn room(&mut self) -> usize {
        LONGEST_BODY - self.segment().len()
    }

    /// Starts a new segment, where more bytes are certain to follow. An empty
    /// one is never left behind.
    fn end_segment(&mut self) {
        if !self.segment().is_empty() {
            self.segments.push(Vec::new());
        }
    }

    /// Ends the segment where the next field has no room, or at will.
    fn make_room(&mut self, rng: &mut Rng, size: usize) {
        if self.room() < size || rng.percent(self.style.break_percent) {
            self.end_segment();
        }
    }

    /// Appends one string and gives about how many bytes it took.
    fn append_string(&mut self, rng: &mut Rng, budget: usize) -> usize {
        let length = self.pick_length(rng, budget);
        let wide = rng.percent(40);
        // No number is drawn where it is never so.
        let plain_percent = self.style.plain_percent;
        self.plain = plain_percent > 0 && rng.percent(plain_percent);
        let rich = rng.percent(self.style.extras_percent);
        let phonetic = rng.percent(self.style.extras_percent);
        let (most_runs, most_phonetic) = (self.style.most_runs, self.style.most_phonetic);
        let runs = rich.then(|| rng.mostly_small(0, most_runs));
        let phonetic_size = phonetic.then(|| rng.mostly_small(0, most_phonetic));
        let (runs, phonetic_size) = (runs.unwrap_or(0), phonetic_size.unwrap_or(0));
        let mut head = Vec::with_capacity(9);
        head.extend((length as u16).to_le_bytes());
        head.push(flags(rng, wide, phonetic, rich));
        if rich {
            head.extend((runs as u16).to_le_bytes());
        }
        if phonetic {
            head.extend((phonetic_size as u32).to_le_bytes());
        }
        let first_character = if length == 0 { 0 } else { width(wide) };
        self.make_room(rng, head.len() + first_character);
        self.segment().extend(&head);
        self.append_characters(rng, length, wide);
        self.append_runs(rng, runs);
        self.append_phonetic(rng, phonetic_size);
        self.unique += 1;
        head.len() + length * 3 / 2 + runs * 4 + phonetic_size
    }

    fn pick_length(&mut self, rng: &mut Rng, budget: usize) -> usize {
        if rng.percent(20) {
            return 0;
        }
        rng.mostly_small(1, self.style.longest.max(1))
            .min(budget.max(1))
    }

    /// Each segment has a width of its own, told by the flags byte that it
    /// starts with.
    fn append_characters(&mut self, rng: &mut Rng, length: usize, wide: bool) {
        let mut units = Vec::new();
        let mut left = length;
        let mut wide = wide;
        while left > 0 {
            let most = left.min(self.room() / width(wide));
            let count = if rng.percent(self.style.break_percent) {
                rng.between(1, most)
            } else {
                most
            };
            let keeping = self.strings.is_some();
            let plain = self.plain;
            let segment = self.segment();
            let from = segment.len();
            rng.append(segment, count * width(wide));
            if plain && wide {
                segment[from..].chunks_mut(2).for_each(|unit| unit[1] = 0);
            }
            if keeping {
                append_units(&segment[from..], wide, &mut units);
            }
            left -= count;
            if left > 0 {
                self.end_segment();
                wide = rng.percent(50);
                let flags = rng.byte() & !1 | u8::from(wide);
                self.segment().push(flags);
            }
        }
        if let Some(strings) = &mut self.strings {
            strings.push(units);
        }
    }

    fn append_runs(&mut self, rng: &mut Rng, runs: usize) {
        for _ in 0..runs {
            self.make_room(rng, 4);
            rng.append(self.segment(), 4);
        }
    }

    fn append_phonetic(&mut self, rng: &mut Rng, size: usize) {
        let mut left = size;
        while left > 0 {
            self.make_room(rng, 1);
            let count = rng.between(1, left.min(self.room()));
            rng.append(self.segment(), count);
            left -= count;
        }
    }
}

fn width(wide: bool) -> usize {
    if wide {
        2
    } else {
        1
    }
}

/// The bits that are ignored are set now and then.
fn flags(rng: &mut Rng, wide: bool, phonetic: bool, rich: bool) -> u8 {
    let ignored = if rng.percent(25) {
        rng.byte() & 0xF2
    } else {
        0
    };
    ignored | u8::from(wide) | u8::from(phonetic) << 2 | u8::from(rich) << 3
}

fn append_units(bytes: &[u8], wide: bool, units: &mut Vec<u16>) {
    if wide {
        units.extend(bytes.as_chunks().0.iter().copied().map(u16::from_le_bytes));
    } else {
        units.extend(bytes.iter().copied().map(u16::from));
    }
}
