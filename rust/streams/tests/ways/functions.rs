//! K7: 0x22 for functions of a fixed count.

use crate::tokens::{token_at, tokens, word};
use crate::{judged, Ways};
use std::collections::BTreeMap;

/// The least and greatest counts of a function.
fn counts() -> BTreeMap<usize, (usize, usize)> {
    let lines = include_str!("../../../second-reader/data/function-counts.tsv").lines();
    let entry = |line: &str| {
        let fields: Vec<&str> = line.split('\t').collect();
        let number = |at: usize| fields[at].parse().expect("a number");
        (number(0), (number(2), number(3)))
    };
    lines.skip(1).map(entry).collect()
}

#[test]
fn function_tokens() {
    const TAKEN: &str = "0x22 with a fixed count, taken";
    const NO_ARGUMENTS: &str = "0x22 without arguments, taken";
    const UPPER_BIT: &str = "0x22 with a fixed count and its upper bit, taken";
    const WRONG_COUNT: &str = "0x22 with another count than the fixed one, 15";
    const WRONG_INDEX: &str = "0x22 with the upper bit of a fixed function's index, 15";
    const TOO_FEW: &str = "0x22 with a fixed count and too few operands, 14";
    const WRONG_TOKEN: &str = "0x21 for a function whose counts differ, 15";
    let mut ways = Ways::new(&[
        TAKEN,
        NO_ARGUMENTS,
        UPPER_BIT,
        WRONG_COUNT,
        WRONG_INDEX,
        TOO_FEW,
        WRONG_TOKEN,
    ]);
    let counts = counts();
    let fixed = |index: usize| match counts.get(&index) {
        Some(&(least, greatest)) if least == greatest => Some(least),
        _ => None,
    };
    for (formula, answer) in judged() {
        let refusal = match *answer {
            Err(refusal) => refusal,
            Ok(()) => {
                let tokens = tokens(&formula.tokens);
                let mut taken = tokens.iter().filter(|token| token.first == 0x22);
                if let Some(token) = taken.find(|token| fixed(word(token.data, 1)).is_some()) {
                    ways.meet(TAKEN);
                    if fixed(word(token.data, 1)) == Some(0) {
                        ways.meet(NO_ARGUMENTS);
                    }
                    if token.data[0] >= 0x80 {
                        ways.meet(UPPER_BIT);
                    }
                }
                continue;
            }
        };
        let Some(token) = token_at(&formula.tokens, refusal.offset) else {
            continue;
        };
        match (refusal.number, token.first) {
            (15, 0x22) if fixed(word(token.data, 1)).is_some() => ways.meet(WRONG_COUNT),
            (15, 0x22) if fixed(word(token.data, 1) ^ 0x8000).is_some() => ways.meet(WRONG_INDEX),
            (14, 0x22) if fixed(word(token.data, 1)).is_some() => ways.meet(TOO_FEW),
            (15, 0x21) if counts.contains_key(&word(token.data, 0)) => ways.meet(WRONG_TOKEN),
            _ => {}
        }
    }
    ways.assert_met();
}
