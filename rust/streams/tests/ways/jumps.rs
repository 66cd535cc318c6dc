//! K2: conditional jumps.

use crate::tokens::{token_at, word, Token};
use crate::{judged, Ways};
use second_reader::Refusal;

/// A token's place, and the formula that holds it directly.
struct Placed<'a> {
    at: usize,
    level: (usize, usize),
    token: Token<'a>,
}

/// The tokens of a formula, each in the one that holds it; none where one of
/// them is cut.
fn placed(formula: &[u8]) -> Option<Vec<Placed<'_>>> {
    let mut placed = Vec::new();
    let mut levels = vec![(0, formula.len())];
    let mut at = 0;
    while let Some(&level) = levels.last() {
        if at == level.1 {
            levels.pop();
            continue;
        }
        let token = token_at(formula.get(..level.1)?, at)?;
        placed.push(Placed { at, level, token });
        at += 1 + token.data.len();
        if let (0x26..=0x29, Some(length)) = (token.first, token.data.len().checked_sub(2)) {
            levels.push((at, at + word(token.data, length)));
        }
    }
    Some(placed)
}

/// Where a jump leads, each of its distances.
fn targets(jump: &Placed) -> Vec<usize> {
    let data = jump.token.data;
    let from = jump.at + 4;
    match data[0] {
        0x02 => vec![from + word(data, 1)],
        0x08 => vec![from + word(data, 1) + 1],
        _ => (3..data.len())
            .step_by(2)
            .map(|at| from + word(data, at))
            .collect(),
    }
}

fn is_jump(placed: &&Placed) -> bool {
    placed.token.first == 0x19 && [0x02, 0x04, 0x08].contains(&placed.token.data[0])
}

/// Where a target is.
fn landing(all: &[Placed], jump: &Placed, target: usize) -> &'static str {
    if target == jump.level.1 {
        return "to its end";
    }
    let found = all.binary_search_by_key(&target, |other| other.at);
    match found.ok().map(|number| &all[number]) {
        Some(other) if other.level == jump.level => "to a token",
        Some(other) if other.level.0 > jump.at => "to a token further inside, 13",
        Some(_) => "to a token of another formula, 13",
        None if target >= jump.level.1 => "past its end, 13",
        None => "into a token, 13",
    }
}

#[test]
fn jumps() {
    let mut ways = Ways::new(&[
        "0x02 to a token",
        "0x02 to its end",
        "0x04 to a token",
        "0x04 to its end",
        "0x08 to a token",
        "0x08 to its end",
        "0x02 into a token, 13",
        "0x02 past its end, 13",
        "0x02 to a token of another formula, 13",
        "0x02 to a token further inside, 13",
        "0x04 into a token, 13",
        "0x04 past its end, 13",
        "0x04 to a token of another formula, 13",
        "0x04 to a token further inside, 13",
        "0x08 into a token, 13",
        "0x08 past its end, 13",
        "0x08 to a token of another formula, 13",
        "0x08 to a token further inside, 13",
        "0x04, the first distance, 13",
        "0x04, the last distance, 13",
        "0x04 into itself, 13",
        "0x08 as the last token, 13",
        "right but for a sum in sixteen bits, 13",
        "inside, taken",
        "inside, 13",
        "over an array, taken",
        "over a memory token, taken",
        "astray outside and further on inside, 13",
        "astray inside and further on outside, 13",
        "astray, but the stack is wrong, 14",
        "astray, but the trailing bytes are refused, 13",
    ]);
    for (formula, answer) in judged() {
        let end = formula.tokens.len();
        let Some(all) = placed(&formula.tokens).filter(|_| (1..=1_800).contains(&end)) else {
            continue;
        };
        match *answer {
            Ok(()) => meet_landed(&mut ways, &all),
            Err(Refusal { number: 14, offset }) if offset == end && astray(&all).count() > 0 => {
                ways.meet("astray, but the stack is wrong, 14");
            }
            Err(Refusal { number: 13, offset }) if offset >= end && astray(&all).count() > 0 => {
                ways.meet("astray, but the trailing bytes are refused, 13");
            }
            Err(Refusal { number: 13, offset }) => meet_astray(&mut ways, &all, offset),
            Err(_) => {}
        }
    }
    ways.assert_met();
}

/// The jumps that don't land.
fn astray<'a>(all: &'a [Placed<'a>]) -> impl Iterator<Item = &'a Placed<'a>> {
    all.iter().filter(is_jump).filter(|jump| {
        targets(jump)
            .into_iter()
            .any(|target| landing(all, jump, target).ends_with("13"))
    })
}

fn named(jump: &Placed, landing: &str) -> String {
    format!("0x{:02X} {landing}", jump.token.data[0])
}

fn meet_landed(ways: &mut Ways, all: &[Placed]) {
    for jump in all.iter().filter(is_jump) {
        for target in targets(jump) {
            ways.meet(&named(jump, landing(all, jump, target)));
            let over = |first: u8| {
                all.iter().any(|other| {
                    jump.at < other.at && other.at < target && other.token.first == first
                })
            };
            if over(0x20) {
                ways.meet("over an array, taken");
            }
            if (0x26..=0x29).any(over) {
                ways.meet("over a memory token, taken");
            }
        }
        if jump.level.0 > 0 {
            ways.meet("inside, taken");
        }
    }
}

fn meet_astray(ways: &mut Ways, all: &[Placed], offset: usize) {
    let Some(jump) = all.iter().filter(is_jump).find(|jump| jump.at == offset) else {
        return;
    };
    let places: Vec<_> = targets(jump)
        .into_iter()
        .map(|target| (target, landing(all, jump, target)))
        .collect();
    let is_astray = |place: &&(usize, &str)| place.1.ends_with("13");
    let &(target, landing) = places.iter().find(is_astray).expect("astray");
    ways.meet(&named(jump, landing));
    let kind = jump.token.data[0];
    let after = jump.at + 1 + jump.token.data.len();
    if kind == 0x04 && is_astray(&places.first().expect("a distance")) {
        ways.meet("0x04, the first distance, 13");
    }
    let only_one = places.iter().filter(is_astray).count() == 1;
    if kind == 0x04 && only_one && is_astray(&places.last().expect("a distance")) {
        ways.meet("0x04, the last distance, 13");
    }
    if kind == 0x04 && target < after {
        ways.meet("0x04 into itself, 13");
    }
    if kind == 0x08 && after == jump.level.1 {
        ways.meet("0x08 as the last token, 13");
    }
    let cut = target % 65_536;
    if cut != target && self::landing(all, jump, cut) == "to a token" {
        ways.meet("right but for a sum in sixteen bits, 13");
    }
    if jump.level.0 > 0 {
        ways.meet("inside, 13");
    }
    for other in astray(all).filter(|other| other.at > offset) {
        if other.level.0 > jump.at {
            ways.meet("astray outside and further on inside, 13");
        } else if other.level.1 > jump.level.1 {
            ways.meet("astray inside and further on outside, 13");
        }
    }
}
