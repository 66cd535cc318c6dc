//! A refusal in words, and the bytes around its offset.

use crate::figures::grouped;
use crate::text::WordsInPage;
use station::pair::Refused;
use std::io::{self, Write};

/// Bytes in a line.
const LINE: usize = 16;
/// Lines before and after the one at fault.
const BEFORE: usize = 3;
const AFTER: usize = 5;

/// These are given at the header of a record, where they aren't given at the end.
const AT_A_RECORD: std::ops::RangeInclusive<u8> = 2..=10;

/// Of the stream that is refused, a session's or a template's too.
pub fn write<W: Write>(stream: &[u8], refused: Refused, level: u8, out: &mut W) -> io::Result<()> {
    let (refusal, offset) = (refused.refusal, refused.refusal.offset);
    let whose = refused.whose.map(|whose| format!(" of the {whose}"));
    writeln!(
        out,
        "<h{level}>Refused</h{level}>\n<p class=refused><strong>Refused {} at {}{}</strong>: {}.</p>",
        refusal.number,
        grouped(offset as f64, 0),
        whose.unwrap_or_default(),
        WordsInPage(refusal.meaning())
    )?;
    writeln!(out, "<p>{}</p>", WordsInPage(&place(stream, refused)))?;
    match stream.is_empty() {
        true => Ok(()),
        false => write_bytes(stream, offset, out),
    }
}

/// What stands at the offset.
fn place(stream: &[u8], refused: Refused) -> String {
    let (refusal, offset) = (refused.refusal, refused.refusal.offset);
    let called = refused.whose.map(|whose| whose.to_string());
    let called = called.as_deref().unwrap_or("stream");
    let Some(byte) = stream.get(offset) else {
        return match offset {
            0 => format!("The {called} has no byte."),
            _ => format!(
                "The {called} ends there: it has {} bytes.",
                grouped(offset as f64, 0)
            ),
        };
    };
    let marked = format!("The marked byte, {byte:02X}, is byte {offset:#X} of the {called}.");
    let header: Option<&[u8; 4]> = stream[offset..].first_chunk();
    match header {
        Some(&[a, b, c, d]) if AT_A_RECORD.contains(&refusal.number) => {
            let (kind, size) = (u16::from_le_bytes([a, b]), u16::from_le_bytes([c, d]));
            let size = grouped(f64::from(size), 0);
            format!("{marked} Read as the header of a record it says type {kind:04X}, size {size}.")
        }
        _ => marked,
    }
}

/// The bytes around an offset in hex, sixteen in a line, with the one at fault marked.
fn write_bytes<W: Write>(stream: &[u8], offset: usize, out: &mut W) -> io::Result<()> {
    let line = offset / LINE;
    let first = line.saturating_sub(BEFORE);
    let last = (line + AFTER).min(stream.len() / LINE);
    out.write_all(
        b"<div class=scroll role=region aria-label=Bytes tabindex=0><table class=hex>\n<thead><tr><th scope=col>Offset",
    )?;
    for column in 0..LINE {
        write!(out, "<th scope=col>{column:X}")?;
    }
    out.write_all(b"<th scope=col class=x>ASCII</thead>\n<tbody>\n")?;
    for line in first..=last {
        write_line(stream, line * LINE, offset, out)?;
    }
    out.write_all(b"</tbody></table></div>\n")
}

fn write_line<W: Write>(stream: &[u8], start: usize, fault: usize, out: &mut W) -> io::Result<()> {
    write!(out, "<tr><th scope=row>{start:06X}")?;
    for at in start..start + LINE {
        match stream.get(at) {
            Some(byte) if at == fault => write!(out, "<td><mark>{byte:02X}</mark>")?,
            Some(byte) => write!(out, "<td>{byte:02X}")?,
            None if at == fault => out.write_all(b"<td><mark>end</mark>")?,
            None => out.write_all(b"<td>")?,
        }
    }
    let bytes = stream.get(start..).unwrap_or(&[]);
    let plain = |byte: &u8| match byte {
        b' '..=b'~' => char::from(*byte),
        _ => '·',
    };
    let text: String = bytes.iter().take(LINE).map(plain).collect();
    writeln!(out, "<td class=x>{}", WordsInPage(&text))
}
