//! The new value of a correction, as it is written on the command line.

use crate::errors;
use crate::outcome::Failure;
use crate::text::Word;
use station::NewValue;
use std::ffi::OsStr;

/// How a kind of value is read: the value, or what it must be.
struct Kind {
    name: &'static str,
    read: fn(&str) -> Result<NewValue, &'static str>,
}

/// The kind of a value that may also be given by its characters.
pub const TEXT: &str = "text";

const KINDS: [Kind; 4] = [
    Kind {
        name: "number",
        read: number,
    },
    Kind {
        name: TEXT,
        read: |text| {
            let index = decimal_digits(text).and_then(|digits| digits.parse().ok());
            index
                .map(NewValue::Text)
                .ok_or("the index of a shared string, or --text and its characters")
        },
    },
    Kind {
        name: "truth",
        read: |text| {
            let wanted = "true, false or a byte from 0 to 255";
            truth(text).map(NewValue::Truth).ok_or(wanted)
        },
    },
    Kind {
        name: "error",
        read: |text| {
            let wanted = "a name like #DIV/0!, or a code of two hex digits";
            error(text).map(NewValue::Error).ok_or(wanted)
        },
    },
];

pub fn read(kind: &OsStr, value: &OsStr) -> Result<NewValue, Failure> {
    let Some(kind) = KINDS.iter().find(|known| kind == known.name) else {
        let kind = Word(kind);
        return Err(Failure::usage(format!(
            "a value is a number, text, truth or error, not '{kind}'"
        )));
    };
    let read = (kind.read)(value.to_str().unwrap_or("\0"));
    read.map_err(|wanted| {
        let (name, value) = (kind.name, Word(value));
        Failure::usage(format!("{name} takes {wanted}, not '{value}'"))
    })
}

/// A pattern of bits is passed on as it is, and a decimal that is too great as an infinity: it is for the library to refuse them. A decimal that would become 0
/// can't be passed on as what it is, and the library would grant it.
fn number(text: &str) -> Result<NewValue, &'static str> {
    let wanted = "a decimal, or bits: and sixteen hex digits";
    let number = match text.strip_prefix("bits:") {
        Some(bits) => {
            let bits = hex_digits(bits, 16).and_then(|bits| u64::from_str_radix(bits, 16).ok());
            bits.map(f64::from_bits).ok_or(wanted)?
        }
        None => {
            let number: f64 = decimal(text)
                .and_then(|text| text.parse().ok())
                .ok_or(wanted)?;
            if number == 0.0 && !means_zero(text) {
                return Err("no decimal that is so small that it would become 0");
            }
            number
        }
    };
    Ok(NewValue::Number(number))
}

/// Keeps out the words for infinities and NaNs, which are no decimals.
fn decimal(text: &str) -> Option<&str> {
    let plain = |byte: u8| byte.is_ascii_digit() || b"+-.eE".contains(&byte);
    Some(text).filter(|text| text.bytes().all(plain))
}

/// Whether all digits of a decimal before its exponent are 0.
fn means_zero(text: &str) -> bool {
    let digits = text.split(['e', 'E']).next().unwrap_or(text);
    !digits.contains(|digit: char| ('1'..='9').contains(&digit))
}

fn truth(text: &str) -> Option<u8> {
    match text.to_ascii_lowercase().as_str() {
        "false" => Some(0),
        "true" => Some(1),
        _ => decimal_digits(text)?.parse().ok(),
    }
}

fn error(text: &str) -> Option<u8> {
    let byte = |digits| u8::from_str_radix(digits, 16).ok();
    errors::code(text).or_else(|| hex_digits(text, 2).and_then(byte))
}

fn decimal_digits(text: &str) -> Option<&str> {
    Some(text).filter(|text| text.bytes().all(|byte| byte.is_ascii_digit()))
}

fn hex_digits(text: &str, count: usize) -> Option<&str> {
    let hex = |text: &&str| text.bytes().all(|byte| byte.is_ascii_hexdigit());
    Some(text).filter(hex).filter(|text| text.len() == count)
}
