//! The tokens of a formula by their sizes.

/// A token without its class, and its data; an inner formula's tokens come
/// after the memory token that holds them.
#[derive(Clone, Copy)]
pub struct Token<'a> {
    pub first: u8,
    /// 0 to 2.
    pub class: u8,
    pub data: &'a [u8],
}

pub fn word(data: &[u8], at: usize) -> usize {
    usize::from(u16::from_le_bytes([data[at], data[at + 1]]))
}

/// The token at a place where one is known to start, if its data is whole.
pub fn token_at(formula: &[u8], at: usize) -> Option<Token<'_>> {
    let (&byte, data) = formula.get(at..)?.split_first()?;
    let first = match byte {
        0x20..=0x7F => byte & 0x1F | 0x20,
        _ => byte,
    };
    let size = match first {
        0x01 | 0x02 | 0x23 | 0x24 | 0x2A | 0x2C => 4,
        0x17 => 2 + usize::from(*data.first()?) * (1 + usize::from(data.get(1)? & 1)),
        0x19 if data.first() == Some(&0x04) && data.len() > 2 => 5 + 2 * word(data, 1),
        0x19 | 0x22 => 3,
        0x1C | 0x1D => 1,
        0x1E | 0x21 | 0x29 => 2,
        0x1F | 0x25 | 0x2B | 0x2D => 8,
        0x20 => 7,
        0x26..=0x28 | 0x39 | 0x3A | 0x3C => 6,
        0x3B | 0x3D => 10,
        _ => 0,
    };
    let data = data.get(..size)?;
    let class = (byte >> 5 & 3).saturating_sub(1);
    Some(Token { first, class, data })
}

/// The tokens of a formula that was accepted.
pub fn tokens(formula: &[u8]) -> Vec<Token<'_>> {
    let mut tokens = Vec::new();
    let mut at = 0;
    while let Some(token) = token_at(formula, at) {
        at += 1 + token.data.len();
        tokens.push(token);
    }
    tokens
}
