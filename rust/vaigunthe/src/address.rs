//! Addresses of cells, as people write them.

use crate::arguments::{missing, whole};
use crate::outcome::Failure;
use crate::text::Word;
use station::Cell;
use std::ffi::{OsStr, OsString};
use std::fmt::{self, Display, Formatter};

/// A cell's row and column, counted from 0. Shown, it is an address like B12.
#[derive(Clone, Copy, Debug, PartialEq, Eq)]
pub struct Address {
    pub row: u32,
    pub column: u32,
}

impl Address {
    pub fn of(cell: &Cell) -> Self {
        Address {
            row: cell.row().into(),
            column: cell.column().into(),
        }
    }

    /// The address that the words start with, B12 or a row and a column, and the words after it.
    pub fn take(words: &[OsString]) -> Result<(Self, &[OsString]), Failure> {
        let starts_with_letter = |word: &OsStr| {
            word.as_encoded_bytes()
                .first()
                .is_some_and(u8::is_ascii_alphabetic)
        };
        match words {
            [] => Err(missing("CELL")),
            [cell, rest @ ..] if starts_with_letter(cell) => Ok((Self::in_letters(cell)?, rest)),
            [row] => whole("ROW", row).and(Err(missing("COLUMN"))),
            [row, column, rest @ ..] => {
                let (row, column) = (whole("ROW", row)?, whole("COLUMN", column)?);
                Ok((Address { row, column }, rest))
            }
        }
    }

    fn in_letters(word: &OsStr) -> Result<Self, Failure> {
        word.to_str().and_then(Self::parse).ok_or_else(|| {
            let word = Word(word);
            Failure::usage(format!(
                "CELL is an address like B12, or a row and a column, not '{word}'"
            ))
        })
    }

    /// Letters for the column, of either case, and the row counted from 1.
    fn parse(text: &str) -> Option<Self> {
        let end = text.find(|letter: char| !letter.is_ascii_alphabetic())?;
        let (letters, digits) = text.split_at(end);
        if !digits.bytes().all(|digit| digit.is_ascii_digit()) {
            return None;
        }
        let mut column: u32 = 0;
        for letter in letters.bytes() {
            let place = u32::from(letter.to_ascii_uppercase() - b'A') + 1;
            column = column.checked_mul(26)?.checked_add(place)?;
        }
        let row = digits.parse::<u32>().ok()?.checked_sub(1)?;
        let column = column.checked_sub(1)?;
        Some(Address { row, column })
    }
}

/// The letters of a column: A to Z, AA and so on.
pub fn letters(column: u32) -> String {
    let mut letters = Vec::new();
    let mut left = column + 1;
    while left > 0 {
        letters.push(char::from(b'A' + ((left - 1) % 26) as u8));
        left = (left - 1) / 26;
    }
    letters.iter().rev().collect()
}

impl Display for Address {
    fn fmt(&self, f: &mut Formatter<'_>) -> fmt::Result {
        write!(f, "{}{}", letters(self.column), self.row + 1)
    }
}

#[cfg(test)]
mod tests {
    use super::*;

    #[test]
    fn letters_and_numbers() {
        let known = [
            ("A1", 0, 0),
            ("B12", 11, 1),
            ("Z9", 8, 25),
            ("AA1", 0, 26),
            ("AZ1", 0, 51),
            ("BA1", 0, 52),
            ("IV65536", 65_535, 255),
            ("ZZ1", 0, 701),
            ("AAA1", 0, 702),
            ("XFD1048576", 1_048_575, 16_383),
        ];
        for (text, row, column) in known {
            let address = Address { row, column };
            assert_eq!(Address::parse(text), Some(address), "{text}");
            assert_eq!(Address::parse(&text.to_lowercase()), Some(address));
            assert_eq!(address.to_string(), text);
        }
        for text in [
            "A",
            "1",
            "A0",
            "",
            "A-1",
            "A+1",
            "1A",
            "A1B",
            "$A$1",
            "Ä1",
            "A4294967296",
            "AAAAAAAAA1",
        ] {
            assert_eq!(Address::parse(text), None, "{text}");
        }
    }
}
