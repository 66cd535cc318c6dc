//! The text of a workbook as it is written down: in lines, in CSV, in JSON, in XML and in a page for browsers.

use std::ffi::OsStr;
use std::fmt::{self, Display, Formatter, Write};

/// Characters that break a line, can't be seen, or turn the direction in which others are read.
fn is_control(character: char) -> bool {
    character.is_control()
        || matches!(character,
            '\u{061C}' | '\u{200E}' | '\u{200F}' | '\u{2028}'..='\u{202E}' | '\u{2066}'..='\u{2069}')
}

/// The units as characters; a lone surrogate, which is none, is given as it is.
fn characters(units: &[u16]) -> impl Iterator<Item = Result<char, u16>> + '_ {
    char::decode_utf16(units.iter().copied())
        .map(|character| character.map_err(|lone| lone.unpaired_surrogate()))
}

fn write_code(f: &mut Formatter<'_>, code: u32) -> fmt::Result {
    write!(f, "\\u{{{code:X}}}")
}

fn write_in_line(f: &mut Formatter<'_>, character: char) -> fmt::Result {
    match character {
        '\\' => f.write_str("\\\\"),
        '\t' => f.write_str("\\t"),
        '\n' => f.write_str("\\n"),
        '\r' => f.write_str("\\r"),
        hidden if is_control(hidden) => write_code(f, hidden.into()),
        plain => f.write_char(plain),
    }
}

/// Text in a line, which it neither ends nor splits.
pub struct InLine<'a>(pub &'a [u16]);

impl Display for InLine<'_> {
    fn fmt(&self, f: &mut Formatter<'_>) -> fmt::Result {
        characters(self.0).try_for_each(|character| match character {
            Ok(character) => write_in_line(f, character),
            Err(lone) => write_code(f, lone.into()),
        })
    }
}

/// Text in a line, in quotes; a quote in it is written `\\"`.
pub struct Quoted<'a>(pub &'a [u16]);

impl Display for Quoted<'_> {
    fn fmt(&self, f: &mut Formatter<'_>) -> fmt::Result {
        f.write_char('"')?;
        characters(self.0).try_for_each(|character| match character {
            Ok('"') => f.write_str("\\\""),
            Ok(character) => write_in_line(f, character),
            Err(lone) => write_code(f, lone.into()),
        })?;
        f.write_char('"')
    }
}

/// The name of a file in a line. Bytes that are no UTF-8 are written as `\xFF`.
pub struct Name<'a>(pub &'a OsStr);

impl Display for Name<'_> {
    fn fmt(&self, f: &mut Formatter<'_>) -> fmt::Result {
        for chunk in self.0.as_encoded_bytes().utf8_chunks() {
            for character in chunk.valid().chars() {
                write_in_line(f, character)?;
            }
            for byte in chunk.invalid() {
                write!(f, "\\x{byte:02X}")?;
            }
        }
        Ok(())
    }
}

/// A word of the command line in a message, cut where it is long.
pub struct Word<'a>(pub &'a OsStr);

/// How much of a word is enough to know it by.
const LONGEST_WORD: usize = 50;

impl Display for Word<'_> {
    fn fmt(&self, f: &mut Formatter<'_>) -> fmt::Result {
        write_cut(f, self.0, LONGEST_WORD)
    }
}

/// The path of a file in a message. Only what no system takes for a path is cut.
pub struct FilePath<'a>(pub &'a OsStr);

/// As long as a path may be.
const LONGEST_PATH: usize = 4_096;

impl Display for FilePath<'_> {
    fn fmt(&self, f: &mut Formatter<'_>) -> fmt::Result {
        write_cut(f, self.0, LONGEST_PATH)
    }
}

fn write_cut(f: &mut Formatter<'_>, word: &OsStr, longest: usize) -> fmt::Result {
    let whole = Name(word).to_string();
    match whole.char_indices().nth(longest) {
        Some((at, _)) => write!(f, "{}…", &whole[..at]),
        None => f.write_str(&whole),
    }
}

/// Text in a CSV field, before it is quoted. A backslash is a plain character there; it is doubled only where what comes next would make an escape
/// of it.
pub struct InCsv<'a>(pub &'a [u16]);

impl Display for InCsv<'_> {
    fn fmt(&self, f: &mut Formatter<'_>) -> fmt::Result {
        let mut backslashes = 0;
        let mut rest = characters(self.0).map(for_csv).peekable();
        while let Some(character) = rest.next() {
            if character == Ok('\\') {
                backslashes += 1;
                continue;
            }
            let opens = character == Ok('u') && rest.peek() == Some(&Ok('{'));
            let times = if opens || character.is_err() { 2 } else { 1 };
            write_backslashes(f, times * backslashes)?;
            backslashes = 0;
            match character {
                Ok(plain) => f.write_char(plain)?,
                Err(code) => write_code(f, code)?,
            }
        }
        write_backslashes(f, backslashes)
    }
}

/// A character that a field holds as it is, or the code by which another is written.
fn for_csv(character: Result<char, u16>) -> Result<char, u32> {
    match character {
        Ok(plain @ ('\t' | '\n' | '\r')) => Ok(plain),
        Ok(hidden) if is_control(hidden) => Err(hidden.into()),
        Ok(plain) => Ok(plain),
        Err(lone) => Err(lone.into()),
    }
}

fn write_backslashes(f: &mut Formatter<'_>, count: usize) -> fmt::Result {
    (0..count).try_for_each(|_| f.write_char('\\'))
}

/// Text as a JSON string, with its quotes.
pub struct InJson<'a>(pub &'a [u16]);

impl Display for InJson<'_> {
    fn fmt(&self, f: &mut Formatter<'_>) -> fmt::Result {
        f.write_char('"')?;
        characters(self.0).try_for_each(|character| match character {
            Ok('"') => f.write_str("\\\""),
            Ok('\\') => f.write_str("\\\\"),
            Ok('\t') => f.write_str("\\t"),
            Ok('\n') => f.write_str("\\n"),
            Ok('\r') => f.write_str("\\r"),
            Ok(hidden) if is_control(hidden) => write!(f, "\\u{:04X}", u32::from(hidden)),
            Ok(plain) => f.write_char(plain),
            Err(lone) => write!(f, "\\u{lone:04X}"),
        })?;
        f.write_char('"')
    }
}

/// Text between the tags of XML. What XML has no character for is written as in a line.
pub struct InXml<'a>(pub &'a str);

impl Display for InXml<'_> {
    fn fmt(&self, f: &mut Formatter<'_>) -> fmt::Result {
        self.0.chars().try_for_each(|character| match character {
            '&' => f.write_str("&amp;"),
            '<' => f.write_str("&lt;"),
            '>' => f.write_str("&gt;"),
            '\u{FFFE}' | '\u{FFFF}' => write_code(f, character.into()),
            hidden if is_control(hidden) => write_code(f, hidden.into()),
            plain => f.write_char(plain),
        })
    }
}

/// Text between the tags of a page. Tabs and line feeds stay; whatever else can't be seen, turns the direction of text or is no character is shown by its code, in an
/// element of its own, so that it isn't taken for those characters themselves.
pub struct InPage<'a>(pub &'a [u16]);

impl Display for InPage<'_> {
    fn fmt(&self, f: &mut Formatter<'_>) -> fmt::Result {
        characters(self.0).try_for_each(|character| write_in_page(f, character))
    }
}

/// The same for words of the tool, and for names of files as they stand in a line.
pub struct WordsInPage<'a>(pub &'a str);

impl Display for WordsInPage<'_> {
    fn fmt(&self, f: &mut Formatter<'_>) -> fmt::Result {
        let mut characters = self.0.chars();
        characters.try_for_each(|character| write_in_page(f, Ok(character)))
    }
}

/// Quotes are escaped too, though no text stands in an attribute.
fn write_in_page(f: &mut Formatter<'_>, character: Result<char, u16>) -> fmt::Result {
    match character {
        Ok('&') => f.write_str("&amp;"),
        Ok('<') => f.write_str("&lt;"),
        Ok('>') => f.write_str("&gt;"),
        Ok('"') => f.write_str("&quot;"),
        Ok('\'') => f.write_str("&#39;"),
        Ok(plain @ ('\t' | '\n')) => f.write_char(plain),
        Ok(hidden) if is_control(hidden) || is_no_character(hidden) => {
            write_page_code(f, hidden.into())
        }
        Ok(plain) => f.write_char(plain),
        Err(lone) => write_page_code(f, lone.into()),
    }
}

fn write_page_code(f: &mut Formatter<'_>, code: u32) -> fmt::Result {
    write!(f, "<i class=u>U+{code:04X}</i>")
}

/// Codes that Unicode gives to no character, ever.
fn is_no_character(character: char) -> bool {
    let code = u32::from(character);
    (0xFDD0..0xFDF0).contains(&code) || code & 0xFFFE == 0xFFFE
}

#[cfg(test)]
mod tests {
    use super::*;

    #[test]
    fn in_a_page() {
        let shown = |units: &[u16]| InPage(units).to_string();
        let text = |text: &str| shown(&text.encode_utf16().collect::<Vec<_>>());
        assert_eq!(
            text("<script>alert(\"1\"&'2')</script>"),
            "&lt;script&gt;alert(&quot;1&quot;&amp;&#39;2&#39;)&lt;/script&gt;"
        );
        assert_eq!(text("a\tb\nc"), "a\tb\nc");
        assert_eq!(
            text("\r\0\u{1B}\u{85}\u{202E}\u{2066}\u{FFFE}\u{1FFFF}\u{FDD0}"),
            "<i class=u>U+000D</i><i class=u>U+0000</i><i class=u>U+001B</i><i class=u>U+0085</i><i class=u>U+202E</i>\
             <i class=u>U+2066</i><i class=u>U+FFFE</i><i class=u>U+1FFFF</i><i class=u>U+FDD0</i>"
        );
        assert_eq!(shown(&[0xD83D, 0xDE00]), "\u{1F600}");
        assert_eq!(
            shown(&[0xDE00, 0xD83D]),
            "<i class=u>U+DE00</i><i class=u>U+D83D</i>"
        );
        assert_eq!(
            WordsInPage("<\u{200F}").to_string(),
            "&lt;<i class=u>U+200F</i>"
        );
    }

    /// Every character is itself, a name of one, or a code; none of them opens a tag or ends a quoted attribute.
    #[test]
    fn no_character_is_markup() {
        for code in 0..=0x10FFFF {
            let Some(character) = char::from_u32(code) else {
                continue;
            };
            let shown = WordsInPage(character.encode_utf8(&mut [0; 4])).to_string();
            let plain = shown == character.to_string() && !"<>&\"'".contains(character);
            let named = shown.starts_with('&') && shown.ends_with(';') && !shown.contains('<');
            let coded = shown == format!("<i class=u>U+{code:04X}</i>");
            assert!(plain || named || coded, "{shown}");
        }
    }
}
