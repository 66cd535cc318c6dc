//! K3: array constants and cached areas.

use crate::tokens::{token_at, tokens, word, Token};
use crate::{judged, Ways};
use second_reader::Refusal;
use streams::Formula;

/// An element of an array: what it is, and its size; none where it is cut.
fn element(bytes: &[u8]) -> Option<(&'static str, usize)> {
    let (&which, rest) = bytes.split_first()?;
    let (name, size) = match which {
        0x00 => ("an empty element", 9),
        0x01 => ("a number", 9),
        0x02 if rest.len() < 3 => return None,
        0x02 if word(rest, 0) > 255 => {
            let width = 1 + usize::from(rest[2] & 1);
            ("a text over 255 characters", 4 + width * word(rest, 0))
        }
        0x02 if rest[2] & 1 != 0 => ("a wide text", 4 + 2 * word(rest, 0)),
        0x02 => ("a narrow text", 4 + word(rest, 0)),
        0x04 if *rest.first()? > 1 => ("a bad truth, 13", 9),
        0x04 => ("a truth", 9),
        0x10 if !CODES.contains(rest.first()?) => ("a bad code, 13", 9),
        0x10 => ("a code", 9),
        _ => ("an unknown element, 13", 1),
    };
    (size <= bytes.len()).then_some((name, size))
}

const CODES: [u8; 7] = [0x00, 0x07, 0x0F, 0x17, 0x1D, 0x24, 0x2A];

/// The elements of an array, up to one that is bad; none where it is cut.
fn elements(bytes: &[u8]) -> Option<(Vec<&'static str>, usize)> {
    let sizes = bytes.get(..3)?;
    let count = (usize::from(sizes[0]) + 1) * (word(sizes, 1) + 1);
    let mut names = Vec::new();
    let mut at = 3;
    for _ in 0..count {
        let (name, size) = element(&bytes[at..])?;
        names.push(name);
        at += size;
        if name.ends_with("13") {
            break;
        }
    }
    Some((names, at))
}

#[test]
fn trailing_bytes() {
    let mut ways = Ways::new(&[
        "an empty element",
        "a number",
        "a narrow text",
        "a wide text",
        "a truth",
        "a code",
        "no areas",
        "areas",
        "0x20, first class",
        "0x20, second class",
        "0x20, third class",
        "0x26, first class",
        "0x26, second class",
        "0x26, third class",
        "data of two tokens and more, taken",
        "data inside a token of areas, taken",
        "more bytes than a record has, taken",
        "a text over 255 characters",
        "an unknown element, 13",
        "a bad truth, 13",
        "a bad code, 13",
        "no bytes for an array, 13",
        "no bytes for areas, 13",
        "a cut array, 13",
        "cut areas, 13",
        "the second token's data or a later one's, 13",
        "left over after data, 13",
        "left over without data, 13",
        "left over after a token that stands alone, 13",
        "0x20 cut, 13",
        "0x26 cut, 13",
        "0x26 of no length, 13",
        "0x26 past the end of the formula that holds it, 13",
        "0x26 inside eight others, 13",
        "a fault of the tokens before bad data",
        "an array in a formula with a wrong stack, 14",
    ]);
    for (formula, answer) in judged() {
        let tokens = tokens(&formula.tokens);
        match *answer {
            Ok(()) => meet_taken(&mut ways, formula, &tokens),
            Err(refusal) if refusal.number == 13 && refusal.offset >= formula.tokens.len() => {
                if !formula.tokens.is_empty() {
                    let at = refusal.offset - formula.tokens.len();
                    meet_refused(&mut ways, formula, &tokens, at);
                }
            }
            Err(refusal) => meet_refused_token(&mut ways, formula, refusal),
        }
    }
    ways.assert_met();
}

fn meet_taken(ways: &mut Ways, formula: &Formula, tokens: &[Token]) {
    let wanted: Vec<_> = tokens
        .iter()
        .filter(|token| matches!(token.first, 0x20 | 0x26))
        .collect();
    let mut at = 0;
    for (number, token) in wanted.iter().enumerate() {
        let bytes = &formula.trailing[at..];
        let classes = match token.first {
            0x20 => [
                "0x20, first class",
                "0x20, second class",
                "0x20, third class",
            ],
            _ => [
                "0x26, first class",
                "0x26, second class",
                "0x26, third class",
            ],
        };
        ways.meet(classes[usize::from(token.class)]);
        if token.first == 0x20 {
            let (names, size) = elements(bytes).expect("an array");
            names.into_iter().for_each(|name| ways.meet(name));
            at += size;
        } else {
            let count = word(bytes, 0);
            ways.meet(if count == 0 { "no areas" } else { "areas" });
            at += 2 + 8 * count;
            if number + 1 < wanted.len() {
                ways.meet("data inside a token of areas, taken");
            }
        }
    }
    assert_eq!(at, formula.trailing.len());
    if wanted.len() > 1 {
        ways.meet("data of two tokens and more, taken");
    }
    if formula.trailing.len() > 8_224 {
        ways.meet("more bytes than a record has, taken");
    }
}

fn meet_refused(ways: &mut Ways, formula: &Formula, tokens: &[Token], fault: usize) {
    let wanted = tokens
        .iter()
        .filter(|token| matches!(token.first, 0x20 | 0x26));
    let mut at = 0;
    for (number, token) in wanted.clone().enumerate() {
        let bytes = &formula.trailing[at..];
        if at == fault {
            if number > 0 {
                ways.meet("the second token's data or a later one's, 13");
            }
            return ways.meet(match (token.first, elements(bytes)) {
                (0x20, _) if bytes.is_empty() => "no bytes for an array, 13",
                (0x20, None) => "a cut array, 13",
                (0x20, Some((names, _))) => names.last().expect("an element"),
                _ if bytes.is_empty() => "no bytes for areas, 13",
                _ => "cut areas, 13",
            });
        }
        at += match token.first {
            0x20 => elements(bytes).expect("an array").1,
            _ => 2 + 8 * word(bytes, 0),
        };
    }
    assert_eq!(at, fault, "{formula:02X?}");
    ways.meet(match formula.tokens[0] {
        _ if at > 0 => "left over after data, 13",
        0x01 | 0x02 => "left over after a token that stands alone, 13",
        _ => "left over without data, 13",
    });
}

fn meet_refused_token(ways: &mut Ways, formula: &Formula, refusal: Refusal) {
    let first = formula.tokens.get(refusal.offset).copied().unwrap_or(0);
    match (refusal.number, first) {
        (13, 0x20 | 0x40 | 0x60) => ways.meet("0x20 cut, 13"),
        (13, 0x26 | 0x46 | 0x66) => ways.meet(fault_of_areas(&formula.tokens, refusal.offset)),
        _ => {}
    }
    let has_array = tokens(&formula.tokens)
        .iter()
        .any(|token| token.first == 0x20);
    if refusal.number == 14 && has_array && refusal.offset == formula.tokens.len() {
        ways.meet("an array in a formula with a wrong stack, 14");
    }
    // An array takes three bytes and an element of four at least.
    if has_array && formula.trailing.len() < 7 {
        ways.meet("a fault of the tokens before bad data");
    }
}

/// Why a memory token with areas is refused itself.
fn fault_of_areas(formula: &[u8], at: usize) -> &'static str {
    let Some(token) = token_at(formula, at) else {
        return "0x26 cut, 13";
    };
    match word(token.data, 4) {
        0 => "0x26 of no length, 13",
        _ if depth_at(formula, at) == 8 => "0x26 inside eight others, 13",
        _ => "0x26 past the end of the formula that holds it, 13",
    }
}

/// How many memory tokens are around a place.
fn depth_at(formula: &[u8], place: usize) -> usize {
    let mut depth = 0;
    let mut at = 0;
    while at < place {
        let Some(Token { first, data, .. }) = token_at(formula, at) else {
            break;
        };
        at += 1 + data.len();
        if matches!(first, 0x26..=0x29) && place < at + word(data, data.len() - 2) {
            depth += 1;
        }
    }
    depth
}
