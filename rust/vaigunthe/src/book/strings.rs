//! The shared strings of a workbook, at hand for its cells.

use station::pair::{Pair, Places, Whose};
use station::{StringPlaces, Workbook, LONGEST_STRING};
use std::borrow::Cow;
use std::cell::RefCell;

pub enum SharedStrings<'a> {
    All(Copied),
    Each(Placed<'a>),
    /// Those of a session and of its template.
    OfPair(PlacedPair<'a>),
}

/// All shared strings, one after the other: millions of empty ones take little room.
pub struct Copied {
    units: Vec<u16>,
    /// Where each string ends.
    ends: Vec<usize>,
}

/// Where they stand: a string is read when it is asked for.
pub struct Placed<'a> {
    stream: &'a [u8],
    places: StringPlaces,
    /// Room for any of them.
    room: RefCell<Vec<u16>>,
}

/// Where those of both streams stand.
pub struct PlacedPair<'a> {
    pair: Pair<'a>,
    places: Places,
    room: RefCell<Vec<u16>>,
}

impl<'a> SharedStrings<'a> {
    /// For cells that show most of them: one pass, and each is there.
    pub fn all(workbook: &Workbook<'_>) -> Self {
        let mut strings = Copied {
            units: Vec::new(),
            ends: Vec::new(),
        };
        let mut each = workbook.strings();
        while let Some(units) = each.next_units() {
            strings.units.extend(units);
            strings.ends.push(strings.units.len());
        }
        SharedStrings::All(strings)
    }

    /// For cells that show a few of many.
    pub fn each(workbook: &Workbook<'a>) -> Self {
        SharedStrings::Each(Placed {
            stream: workbook.stream(),
            places: workbook.string_places(),
            room: RefCell::new(vec![0; LONGEST_STRING]),
        })
    }

    /// For the cells of a session and of its template, which may have many that no cell shows.
    pub fn of_pair(pair: &Pair<'a>) -> Self {
        SharedStrings::OfPair(PlacedPair {
            pair: *pair,
            places: pair.string_places(),
            room: RefCell::new(vec![0; LONGEST_STRING]),
        })
    }

    /// The string that the index of a stream's cell means.
    pub fn get(&self, whose: Whose, index: u32) -> Cow<'_, [u16]> {
        match self {
            SharedStrings::All(strings) => strings.get(index).into(),
            SharedStrings::Each(strings) => strings.get(index).into(),
            SharedStrings::OfPair(strings) => strings.get(whose, index).into(),
        }
    }
}

impl Copied {
    fn get(&self, index: u32) -> &[u16] {
        let index = index as usize;
        let start = match index.checked_sub(1) {
            Some(before) => self.ends[before],
            None => 0,
        };
        &self.units[start..self.ends[index]]
    }
}

impl Placed<'_> {
    fn get(&self, index: u32) -> Vec<u16> {
        let mut room = self.room.borrow_mut();
        let count = self.places.fetch(self.stream, index, &mut room);
        let count = count.expect("a stream that passes has the string of each index");
        room[..count].to_vec()
    }
}

impl PlacedPair<'_> {
    fn get(&self, whose: Whose, index: u32) -> Vec<u16> {
        let mut room = self.room.borrow_mut();
        let [template, session] =
            [Whose::Template, Whose::Session].map(|whose| self.pair.stream(whose));
        let string = self
            .places
            .fetch(template, session, whose, index, &mut room);
        let (_, count) = string.expect("a pair that passes has the string of each index");
        room[..count].to_vec()
    }
}
