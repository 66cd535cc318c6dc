//! What a number format makes of a number: by the table of built-in formats (003, 5.49), or by its format string (001, 2.4.126).

use crate::Kind;

/// What a number format makes of numbers. Negative ones are never dates.
#[derive(Clone, Copy, Debug, PartialEq, Eq)]
pub struct Shows {
    pub positive: Option<Kind>,
    pub zero: Option<Kind>,
}

impl Shows {
    pub const NUMBERS: Shows = Shows::all(None);

    const fn all(kind: Option<Kind>) -> Self {
        Shows {
            positive: kind,
            zero: kind,
        }
    }
}

/// The built-in formats that are dates: 27 to 36 and 50 to 58 by the Japanese table, the only one that 003 has.
pub fn built_in(index: u16) -> Shows {
    Shows::all(match index {
        14..=17 | 27..=31 | 34..=36 | 50..=58 => Some(Kind::Date),
        18..=21 | 32..=33 | 45 | 47 => Some(Kind::Time),
        22 => Some(Kind::DateTime),
        46 => Some(Kind::Elapsed),
        _ => None,
    })
}

/// What a format string makes of numbers. Its characters are bytes; those that aren't ASCII mean nothing.
///
/// The first section is for positive numbers, the third, where there is one, for zero. Where one of several sections has a condition, the number itself
/// decides which one shows it, and numbers stay numbers.
pub fn shows(format: &[u8]) -> Shows {
    let (first, rest) = Section::read(format);
    let Some(rest) = rest else {
        return Shows::all(first.kind());
    };
    let (second, rest) = Section::read(rest);
    let third = rest.map(|rest| Section::read(rest).0);
    let conditional = |section: &Section| section.condition;
    if conditional(&first) || conditional(&second) || third.as_ref().is_some_and(conditional) {
        return Shows::NUMBERS;
    }
    Shows {
        positive: first.kind(),
        zero: third.as_ref().unwrap_or(&first).kind(),
    }
}

/// A part of a date or a time.
#[derive(Clone, Copy, PartialEq, Eq)]
enum Part {
    /// A year, an era, a day, a month by its name.
    Date,
    /// One or two letters m: minutes after hours or before seconds, else a month.
    MonthOrMinute,
    Hour,
    Minute,
    Second,
}

/// A piece of a format string.
enum Piece {
    /// Shown as it is, or not shown: text, colours, locales.
    Literal,
    Part(Part),
    /// `[h]`, `[m]`, `[s]`: all the hours, minutes or seconds, not those of a day, an hour or a minute.
    Elapsed(Part),
    /// AM/PM, A/P.
    HalfDay,
    /// A decimal point with zeros: parts of a second after a part of a date or a time, else digits of a number.
    Fraction,
    /// A digit's place, `General` or `@`: what only formats of numbers and text have.
    Number,
    /// `[<1]`.
    Condition,
    SectionEnd,
}

/// The piece at the front, and how many characters it has; at least one character is left.
fn piece(rest: &[u8]) -> (Piece, usize) {
    match *rest {
        [b'"', ref text @ ..] => (Piece::Literal, 1 + through(text, b'"')),
        [b'\\' | b'_' | b'*', ..] => (Piece::Literal, 2),
        [b'[', ref inner @ ..] => (bracketed(inner), 1 + through(inner, b']')),
        [b';', ..] => (Piece::SectionEnd, 1),
        [b'.', b'0', ..] => (Piece::Fraction, 1 + run(&rest[1..])),
        [b'0' | b'#' | b'?' | b'@', ..] => (Piece::Number, 1),
        _ => word(rest),
    }
}

/// How many characters there are up to the closing one, which counts too; all where none closes.
fn through(text: &[u8], closing: u8) -> usize {
    let at = text.iter().position(|&byte| byte == closing);
    at.map_or(text.len(), |at| at + 1)
}

/// How many letters, or zeros, like the first one follow each other.
fn run(text: &[u8]) -> usize {
    let same = |byte: &&u8| byte.eq_ignore_ascii_case(&text[0]);
    text.iter().take_while(same).count()
}

/// What stands in brackets, given from behind the opening one.
fn bracketed(inner: &[u8]) -> Piece {
    let inner = match inner.split(|&byte| byte == b']').next() {
        Some([]) | None => return Piece::Literal,
        Some(inner) => inner,
    };
    let letters = inner.len() == run(inner);
    match inner[0].to_ascii_lowercase() {
        b'h' if letters => Piece::Elapsed(Part::Hour),
        b'm' if letters => Piece::Elapsed(Part::Minute),
        b's' if letters => Piece::Elapsed(Part::Second),
        b'<' | b'=' | b'>' => Piece::Condition,
        _ => Piece::Literal,
    }
}

/// A word or a run of letters, in capitals or not. No rule for exponents is needed: E+00 has places for digits.
fn word(rest: &[u8]) -> (Piece, usize) {
    let part = match rest[0].to_ascii_lowercase() {
        b'g' if starts_with(rest, b"general") => return (Piece::Number, 7),
        b'a' if starts_with(rest, b"am/pm") => return (Piece::HalfDay, 5),
        b'a' if starts_with(rest, b"a/p") => return (Piece::HalfDay, 3),
        b'y' | b'd' | b'g' | b'e' => Part::Date,
        b'm' if run(rest) > 2 => Part::Date,
        b'm' => Part::MonthOrMinute,
        b'h' => Part::Hour,
        b's' => Part::Second,
        _ => return (Piece::Literal, 1),
    };
    (Piece::Part(part), run(rest))
}

fn starts_with(text: &[u8], word: &[u8]) -> bool {
    text.get(..word.len())
        .is_some_and(|front| front.eq_ignore_ascii_case(word))
}

/// What the pieces of one section add up to.
#[derive(Default)]
struct Section {
    number: bool,
    condition: bool,
    date: bool,
    time: bool,
    elapsed: bool,
    /// The last part; a month or minutes only until the next part settles which.
    last: Option<Part>,
}

impl Section {
    /// The first section of a format, and the rest of the format where another section follows.
    fn read(format: &[u8]) -> (Section, Option<&[u8]>) {
        let mut section = Section::default();
        let mut rest = format;
        while !rest.is_empty() {
            let (piece, length) = piece(rest);
            rest = rest.get(length..).unwrap_or(&[]);
            if let Piece::SectionEnd = piece {
                return (section, Some(rest));
            }
            section.add(piece);
        }
        (section, None)
    }

    fn add(&mut self, piece: Piece) {
        match piece {
            Piece::Literal | Piece::SectionEnd => {}
            Piece::Part(part) => self.add_part(part),
            Piece::Elapsed(part) => {
                self.elapsed = true;
                self.add_part(part);
            }
            Piece::HalfDay => self.time = true,
            Piece::Fraction => self.number |= self.last.is_none(),
            Piece::Number => self.number = true,
            Piece::Condition => self.condition = true,
        }
    }

    fn add_part(&mut self, part: Part) {
        if self.last == Some(Part::MonthOrMinute) {
            self.date |= part != Part::Second;
        }
        let part = match (part, self.last) {
            (Part::MonthOrMinute, Some(Part::Hour)) => Part::Minute,
            _ => part,
        };
        match part {
            Part::Date => self.date = true,
            Part::Hour | Part::Minute | Part::Second => self.time = true,
            Part::MonthOrMinute => {}
        }
        self.last = Some(part);
    }

    fn kind(&self) -> Option<Kind> {
        let date = self.date || self.last == Some(Part::MonthOrMinute);
        if self.number {
            return None;
        }
        match (date, self.time) {
            (true, true) => Some(Kind::DateTime),
            (true, false) => Some(Kind::Date),
            (false, true) if self.elapsed => Some(Kind::Elapsed),
            (false, true) => Some(Kind::Time),
            (false, false) => None,
        }
    }
}

#[cfg(test)]
mod tests {
    use super::*;

    const DATE: Option<Kind> = Some(Kind::Date);
    const TIME: Option<Kind> = Some(Kind::Time);
    const DATE_TIME: Option<Kind> = Some(Kind::DateTime);
    const ELAPSED: Option<Kind> = Some(Kind::Elapsed);

    fn all_are(kind: Option<Kind>, formats: &[&str]) {
        for format in formats {
            assert_eq!(shows(format.as_bytes()), Shows::all(kind), "{format}");
        }
    }

    /// 003's two tables of built-in formats, which it has as strings too.
    #[test]
    fn built_in_formats_are_as_their_strings_say() {
        let table = [
            (0, "General"),
            (1, "0"),
            (2, "0.00"),
            (3, "#,##0"),
            (4, "#,##0.00"),
            (5, "\"$\"#,##0_);(\"$\"#,##0)"),
            (6, "\"$\"#,##0_);[Red](\"$\"#,##0)"),
            (9, "0%"),
            (10, "0.00%"),
            (11, "0.00E+00"),
            (12, "# ?/?"),
            (13, "# ??/??"),
            (14, "M/D/YY"),
            (15, "D-MMM-YY"),
            (16, "D-MMM"),
            (17, "MMM-YY"),
            (18, "h:mm AM/PM"),
            (19, "h:mm:ss AM/PM"),
            (20, "h:mm"),
            (21, "h:mm:ss"),
            (22, "M/D/YY h:mm"),
            (27, "[$-0411]GE.M.D"),
            (28, "[$-0411]GGGE年M月D日"),
            (29, "[$-0411]GGGE年M月D日"),
            (30, "[$-0411]M/D/YY"),
            (31, "[$-0411]YYYY年M月D日"),
            (32, "[$-0411]h時mm分"),
            (33, "[$-0411]h\"時\"mm\"分\"ss\"秒\""),
            (34, "[$-0411]YYYY年M月"),
            (35, "[$-0411]M月D日"),
            (36, "[$-0411]GE.M.D"),
            (37, "_(#,##0_);(#,##0)"),
            (38, "_(#,##0_);[Red](#,##0)"),
            (
                41,
                "_(\"$\"* #,##0_);_(\"$\"* (#,##0);_(\"$\"* \"-\"_);_(@_)",
            ),
            (44, "_(* #,##0.00_);_(* (#,##0.00);_(* \"-\"??_);_(@_)"),
            (45, "mm:ss"),
            (46, "[h]:mm:ss"),
            (47, "mm:ss.0"),
            (48, "##0.0E+0"),
            (49, "@"),
            (50, "[$-0411]GE.M.D"),
            (51, "[$-0411]GGGE年M月D日"),
            (52, "[$-0411]YYYY年M月"),
            (53, "[$-0411]M月D日"),
            (54, "[$-0411]GGGE年M月D日"),
            (55, "[$-0411]YYYY年M月"),
            (56, "[$-0411]M月D日"),
            (57, "[$-0411]GE.M.D"),
            (58, "[$-0411]GGGE年M月D日"),
        ];
        for (index, format) in table {
            assert_eq!(
                built_in(index),
                shows(format.as_bytes()),
                "{index} {format}"
            );
        }
        for index in (14..=17).chain(27..=31).chain(34..=36).chain(50..=58) {
            assert_eq!(built_in(index), Shows::all(DATE), "{index}");
        }
        for index in [18, 19, 20, 21, 32, 33, 45, 47] {
            assert_eq!(built_in(index), Shows::all(TIME), "{index}");
        }
        assert_eq!(built_in(22), Shows::all(DATE_TIME));
        assert_eq!(built_in(46), Shows::all(ELAPSED));
        let others = (0..14).chain(23..27).chain(37..45).chain(48..50);
        for index in others.chain(59..=u16::MAX) {
            assert_eq!(built_in(index), Shows::NUMBERS, "{index}");
        }
    }

    #[test]
    fn dates() {
        all_are(
            DATE,
            &[
                "yyyy-mm-dd",
                "yyyy\\-mm\\-dd",
                "dd.mm.yyyy",
                "m",
                "mm",
                "mmmmm",
                "dddd",
                "yy",
                "e",
                "[$-409]d\\-mmm\\-yyyy;@",
                "[$-F800]dddd\\,\\ mmmm\\ dd\\,\\ yyyy",
                "[Red]d/m",
                "[Magenta]d/m",
                "[Color 12]d/m",
                "[>0]d/m",
                "d\" of \"mmmm",
                "d\"h\"mmmm\"s\"",
                "d \\h m",
                "d _h m",
                "d *s m",
                "mmm d, yyyy",
            ],
        );
    }

    #[test]
    fn times() {
        all_are(
            TIME,
            &[
                "h",
                "hh:mm",
                "H:MM:SS",
                "mm:ss",
                "m\" min \"s",
                "h\"h\" mm\"m\"",
                "hh:mm:ss.000",
                "ss.00",
                "h:mm a/p",
                "AM/PM h",
                "am/pm",
                "h AM/PM mm",
                "[$-409]h:mm:ss\\ AM/PM;@",
            ],
        );
    }

    #[test]
    fn dates_with_times() {
        all_are(
            DATE_TIME,
            &[
                "yyyy-mm-dd hh:mm:ss",
                "d/m/yy h:mm AM/PM",
                "yyyy-mm-ddThh:mm:ss",
                "d h",
                // A month, for neither hours are before it nor seconds after it.
                "m h",
                "m h:ss",
                "h d m",
                // Three letters are a month, wherever they stand.
                "h mmm",
                "mmm ss",
                "mmm:ss",
                "d [h]:mm",
            ],
        );
    }

    #[test]
    fn elapsed_times() {
        all_are(
            ELAPSED,
            &[
                "[h]:mm",
                "[hh]:mm:ss",
                "[H]:MM",
                "[m]",
                "[mm]:ss",
                "[s]",
                "[ss].000",
                "mm:[s]",
                "[Blue][h]:mm",
                "[h]:mm;@",
                "[h]:mm:ss AM/PM",
            ],
        );
    }

    #[test]
    fn numbers() {
        all_are(
            None,
            &[
                "General",
                "GENERAL",
                "general",
                "General\" days\"",
                "\"day \"General",
                "0.00E+00",
                "##0.0E+0",
                "0.0E-0",
                "#,##0.00",
                "00000",
                "0\" d\"",
                "0 d",
                "# ?/?",
                "0%",
                "@",
                "\"yyyy\"",
                "\\y\\m\\d",
                "_y_m_d",
                "*y",
                "[Red]0",
                "[$mm-409] 0",
                "[$-409]0",
                "[hm]0",
                "[hm]",
                "\"Yes\";\"Yes\";\"No\"",
                ".00",
                ".00 d",
                "ss,000",
                "x",
                ";;;",
            ],
        );
    }

    /// What never closes goes on to the end, and what is cut off stands alone.
    #[test]
    fn formats_that_are_cut() {
        all_are(
            DATE,
            &["d\"h", "d\\", "d_", "d*", "d[", "d[$-40", "d[]", "d."],
        );
        all_are(None, &["\"", "[", "\\", "\"d", "[]", "", "a", "Genera0"]);
        all_are(ELAPSED, &["[h"]);
    }

    #[test]
    fn sections() {
        let shown = |format: &str| shows(format.as_bytes());
        // Two sections: the first is for zero too.
        all_are(DATE, &["d/m/yy;0", "d/m/yy;h:mm", "d/m/yy;"]);
        all_are(None, &["0;d/m/yy", ";d/m/yy"]);
        // Three and four: the third is for zero.
        for format in ["d/m/yy;;", "d/m/yy;;\"none\"", "d/m/yy;h:mm;0;d"] {
            let expected = Shows {
                positive: DATE,
                zero: None,
            };
            assert_eq!(shown(format), expected, "{format}");
        }
        let expected = Shows {
            positive: DATE_TIME,
            zero: TIME,
        };
        assert_eq!(shown("d/m/yy h:mm;0;h:mm;@"), expected);
        // A semicolon in text, escaped or in brackets ends nothing.
        all_are(DATE, &["\"a;b\"d", "\\;d", "_;d", "*;d", "[$;]d"]);
        // A condition among several sections.
        all_are(
            None,
            &[
                "[<1]h:mm;d/m/yy",
                "d/m/yy;[<1]h:mm;0",
                "d/m/yy;0;[=0]d",
                "[Red][>=1]d;h",
            ],
        );
    }
}
