//! Judging formula bytes: the tokens first, then the data that some of them have
//! in the bytes after all tokens, then where jumps lead.
//!
//! Formulas inside memory tokens are kept on a list of open formulas, each with
//! its own count of operands, so one loop over the bytes is enough.

use crate::cells::{is_error_code, is_truth};
use crate::functions::argument_counts;
use crate::jumps::Jumps;
use crate::trailing::{self, Data};
use crate::Refusal;

const LONGEST_FORMULA: usize = 1_800;
const MEMORY_DEPTHS: usize = 8;

/// A formula whose end has not been reached.
#[derive(Clone, Copy)]
struct Open {
    start: usize,
    end: usize,
    operands: usize,
}

/// What one token is, once it is known to be whole and in its place.
enum Token {
    /// Takes some operands and gives some.
    Step {
        size: usize,
        takes: usize,
        gives: usize,
    },
    /// Starts a formula of `inner` bytes after a head.
    Memory { head: usize, inner: usize },
}

/// Judges a whole formula: its tokens and the bytes after them. Offsets in the
/// latter are counted on from the tokens' end.
pub fn judge(tokens: &[u8], trailing: &[u8]) -> Result<(), Refusal> {
    let found = judge_tokens(tokens)?;
    trailing::judge(&found.data, trailing).map_err(|at| Refusal::new(13, tokens.len() + at))?;
    found.jumps.judge(tokens).map_err(|at| Refusal::new(13, at))
}

/// What is found among the tokens and judged after them.
#[derive(Default)]
struct Found {
    /// The data that tokens have after all tokens, in token order.
    data: Vec<Data>,
    jumps: Jumps,
}

fn judge_tokens(tokens: &[u8]) -> Result<Found, Refusal> {
    if !(1..=LONGEST_FORMULA).contains(&tokens.len()) {
        return Err(Refusal::new(13, 0));
    }
    let mut found = Found::default();
    let mut outer: Vec<Open> = Vec::with_capacity(MEMORY_DEPTHS);
    let mut open = Open {
        start: 0,
        end: tokens.len(),
        operands: 0,
    };
    let mut at = 0;
    loop {
        while at == open.end {
            if open.operands != 1 {
                return Err(Refusal::new(14, at));
            }
            match outer.pop() {
                None => return Ok(found),
                Some(holder) => open = holder,
            }
            open.operands += 1;
        }
        let whole = outer.is_empty() && tokens.len() == 5;
        let refuse = |number| Refusal::new(number, at);
        found.data.extend(Data::of_token(tokens[at]));
        found.jumps.pass(tokens, at, open.start..open.end);
        match token(&tokens[at..open.end], whole).map_err(refuse)? {
            Token::Step { size, takes, gives } => {
                let left = open.operands.checked_sub(takes).ok_or(refuse(14))?;
                open.operands = left + gives;
                at += size;
            }
            Token::Memory { .. } if outer.len() == MEMORY_DEPTHS => return Err(refuse(13)),
            Token::Memory { head, inner } => {
                outer.push(open);
                at += head;
                open = Open {
                    start: at,
                    end: at + inner,
                    operands: 0,
                };
            }
        }
    }
}

/// The token at the start of `rest`, which goes to the end of the formula that
/// holds it. `whole` says that this is the outermost formula, of the size that
/// a token which must stand alone has.
fn token(rest: &[u8], whole: bool) -> Result<Token, u8> {
    let (&first, data) = rest.split_first().ok_or(13)?;
    match first {
        0x01 | 0x02 if whole => operand(data, 4),
        0x03..=0x11 => step(data, 0, 2),
        0x12..=0x15 => step(data, 0, 1),
        0x16 => operand(data, 0),
        0x17 => text(data),
        0x19 => attribute(data),
        0x1C => judged_byte(data, is_error_code),
        0x1D => judged_byte(data, is_truth),
        0x1E => operand(data, 2),
        0x1F => operand(data, 8),
        // Bits 5 and 6 are the class, which decides nothing.
        0x20..=0x7F => classed(first & 0x1F | 0x20, data),
        _ => Err(13),
    }
}

/// A token of any class, by its byte in the first class.
fn classed(first: u8, data: &[u8]) -> Result<Token, u8> {
    match first {
        0x20 => operand(data, 7),
        0x21 => fixed_function(data),
        0x22 => counted_function(data),
        0x23 | 0x2A | 0x2C => operand(data, 4),
        0x24 => reference(data, 4, &[2]),
        0x25 => reference(data, 8, &[4, 6]),
        0x26..=0x28 => memory(data, 4),
        0x29 => memory(data, 0),
        0x2B | 0x2D => operand(data, 8),
        0x39 | 0x3C => operand(data, 6),
        0x3A => reference(data, 6, &[4]),
        0x3B => reference(data, 10, &[6, 8]),
        0x3D => operand(data, 10),
        _ => Err(13),
    }
}

/// A token that takes operands, needs `size` bytes of data and gives one.
fn step(data: &[u8], size: usize, takes: usize) -> Result<Token, u8> {
    if data.len() < size {
        return Err(13);
    }
    Ok(Token::Step {
        size: 1 + size,
        takes,
        gives: 1,
    })
}

/// A token that takes nothing and gives one operand.
fn operand(data: &[u8], size: usize) -> Result<Token, u8> {
    step(data, size, 0)
}

fn word(data: &[u8], at: usize) -> Result<u16, u8> {
    let field = data.get(at..at + 2).ok_or(13)?;
    Ok(u16::from_le_bytes([field[0], field[1]]))
}

fn byte(data: &[u8], at: usize) -> Result<u8, u8> {
    data.get(at).copied().ok_or(13)
}

fn judged_byte(data: &[u8], is_good: fn(u8) -> bool) -> Result<Token, u8> {
    if !is_good(byte(data, 0)?) {
        return Err(13);
    }
    operand(data, 1)
}

fn text(data: &[u8]) -> Result<Token, u8> {
    let count = usize::from(byte(data, 0)?);
    let wide = byte(data, 1)? & 1 != 0;
    operand(data, 2 + if wide { 2 * count } else { count })
}

fn attribute(data: &[u8]) -> Result<Token, u8> {
    let which = byte(data, 0)?;
    let detail = usize::from(word(data, 1)?);
    match which {
        0x10 => step(data, 3, 1),
        0x01 | 0x02 | 0x08 | 0x40 | 0x41 => nothing(data, 3),
        0x04 => nothing(data, 3 + 2 * (detail + 1)),
        _ => Err(13),
    }
}

/// A token that leaves the operands as they are.
fn nothing(data: &[u8], size: usize) -> Result<Token, u8> {
    if data.len() < size {
        return Err(13);
    }
    Ok(Token::Step {
        size: 1 + size,
        takes: 0,
        gives: 0,
    })
}

/// A reference, whose column words stand at the places given.
fn reference(data: &[u8], size: usize, columns: &[usize]) -> Result<Token, u8> {
    for &at in columns {
        if word(data, at)? & 0x3F00 != 0 {
            return Err(13);
        }
    }
    operand(data, size)
}

fn fixed_function(data: &[u8]) -> Result<Token, u8> {
    match argument_counts(word(data, 0)?) {
        Some((least, greatest)) if least == greatest => step(data, 2, usize::from(least)),
        _ => Err(15),
    }
}

/// A function with the count that it is given here. Some writers use this token
/// for a function of a fixed count too. The upper bit of the count is ignored;
/// with the upper bit of the index set it is over every index of the table.
fn counted_function(data: &[u8]) -> Result<Token, u8> {
    let index = word(data, 1)?;
    let count = byte(data, 0)? & 0x7F;
    match argument_counts(index) {
        Some((least, greatest)) if (least..=greatest).contains(&count) => {
            step(data, 3, usize::from(count))
        }
        _ => Err(15),
    }
}

/// A memory token, with so many bytes before its length.
fn memory(data: &[u8], before: usize) -> Result<Token, u8> {
    let inner = usize::from(word(data, before)?);
    let head = before + 2;
    if inner == 0 || data.len() < head + inner {
        return Err(13);
    }
    Ok(Token::Memory {
        head: 1 + head,
        inner,
    })
}
