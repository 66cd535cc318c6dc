//! Conditional jumps, which are made to lead anywhere and then led to a token of
//! their formula or to its end.

use crate::rng::Rng;
use std::collections::BTreeMap;
use std::ops::Range;

/// The size of the token at the start, and of the formula inside it; none where
/// the bytes are no token.
fn sizes(bytes: &[u8]) -> Option<(usize, usize)> {
    let word = |at: usize| {
        let field = bytes.get(at..at + 2)?;
        Some(usize::from(u16::from_le_bytes([field[0], field[1]])))
    };
    let first = match *bytes.first()? {
        byte @ 0x20..=0x7F => byte & 0x1F | 0x20,
        byte => byte,
    };
    let size = match first {
        0x03..=0x16 => 1,
        0x1C | 0x1D => 2,
        0x1E | 0x21 => 3,
        0x22 => 4,
        0x01 | 0x02 | 0x23 | 0x24 | 0x2A | 0x2C => 5,
        0x39 | 0x3A | 0x3C => 7,
        0x20 => 8,
        0x1F | 0x25 | 0x2B | 0x2D => 9,
        0x3B | 0x3D => 11,
        0x17 => 3 + usize::from(*bytes.get(1)?) * (1 + usize::from(bytes.get(2)? & 1)),
        0x19 if *bytes.get(1)? == 0x04 => 6 + 2 * word(2)?,
        0x19 => 4,
        0x26..=0x28 => return Some((7, word(5)?)),
        0x29 => return Some((3, word(1)?)),
        _ => return None,
    };
    Some((size, 0))
}

/// Where a token starts, and the formula that holds it directly.
#[derive(Clone)]
struct Start {
    at: usize,
    level: Range<usize>,
}

/// The tokens in byte order, as far as they are whole.
fn starts(tokens: &[u8]) -> Vec<Start> {
    let mut starts = Vec::new();
    let whole = 0..tokens.len();
    let mut open = vec![whole];
    let mut at = 0;
    while let Some(level) = open.last().cloned() {
        if at >= level.end {
            open.pop();
            continue;
        }
        let Some((size, inner)) = sizes(&tokens[at..level.end]) else {
            break;
        };
        starts.push(Start { at, level });
        at += size;
        if inner > 0 {
            open.push(at..(at + inner).min(tokens.len()));
        }
    }
    starts
}

/// The jumps among the tokens.
fn jumps(tokens: &[u8], starts: &[Start]) -> Vec<Start> {
    let is_jump = |start: &&Start| {
        let token = &tokens[start.at..start.level.end];
        let whole = sizes(token).is_some_and(|(size, _)| size <= token.len());
        whole && matches!(token, [0x19, 0x02 | 0x04 | 0x08, ..])
    };
    starts.iter().filter(is_jump).cloned().collect()
}

/// Where a jump's distances stand, and the place that they are counted from.
fn distances(tokens: &[u8], at: usize) -> (Range<usize>, usize) {
    let fields = match tokens[at + 1] {
        0x04 => {
            let last = usize::from(u16::from_le_bytes([tokens[at + 2], tokens[at + 3]]));
            at + 4..at + 6 + 2 * last
        }
        _ => at + 2..at + 4,
    };
    // A goto tells one less.
    let from = at + 4 + usize::from(tokens[at + 1] == 0x08);
    (fields, from)
}

/// Lets each jump lead to a token of its formula or to its end. A goto that is
/// the last token can't, and is made a space.
pub(crate) fn land(rng: &mut Rng, tokens: &mut [u8]) {
    let starts = starts(tokens);
    let jumps = jumps(tokens, &starts);
    if jumps.is_empty() {
        return;
    }
    // The starts of each formula, by its own start.
    let mut levels: BTreeMap<usize, Vec<usize>> = BTreeMap::new();
    for start in &starts {
        levels.entry(start.level.start).or_default().push(start.at);
    }
    for jump in jumps {
        let (fields, from) = distances(tokens, jump.at);
        let end = jump.level.end;
        if from > end {
            tokens[jump.at + 1] = 0x40;
            continue;
        }
        let level = &levels[&jump.level.start];
        let targets = &level[level.partition_point(|&at| at < from.max(fields.end))..];
        for field in tokens[fields].chunks_exact_mut(2) {
            let target = match rng.below(4) {
                0 => end,
                1 => targets[..targets.len().min(3)]
                    .last()
                    .copied()
                    .unwrap_or(end),
                _ if targets.is_empty() => end,
                _ => rng.pick(targets),
            };
            field.copy_from_slice(&((target - from) as u16).to_le_bytes());
        }
    }
}

/// Lets some jumps lead astray, mostly not far from where they may lead. Gives
/// whether there is one.
pub(crate) fn lead_astray(rng: &mut Rng, tokens: &mut Vec<u8>) -> bool {
    let starts = starts(tokens);
    let jumps = jumps(tokens, &starts);
    if jumps.is_empty() {
        return false;
    }
    if rng.percent(3) {
        // A goto as the last token.
        tokens.extend([0x19, 0x08]);
        rng.append(tokens, 2);
        return true;
    }
    for _ in 0..rng.pick(&[1, 1, 2, 3]) {
        let jump = &jumps[rng.below(jumps.len())];
        lead_one_astray(rng, tokens, &starts, jump);
    }
    true
}

/// Changes one distance of a jump.
fn lead_one_astray(rng: &mut Rng, tokens: &mut [u8], starts: &[Start], jump: &Start) {
    let (fields, from) = distances(tokens, jump.at);
    let field = fields.start + 2 * rng.below(fields.len() / 2);
    let was = u16::from_le_bytes([tokens[field], tokens[field + 1]]);
    let elsewhere: Vec<usize> = starts
        .iter()
        .filter(|start| start.level != jump.level && start.at >= from)
        .map(|start| start.at)
        .collect();
    let distance = match rng.below(12) {
        0 => was.wrapping_add(1),
        1 => was.wrapping_sub(1),
        2 => rng.pick(&[0, 1, 2, 4, 0x7FFF, 0x8000, 0xFFFF]),
        3 => (jump.level.end + 1).wrapping_sub(from) as u16,
        4 => rng.below(tokens.len() + 2) as u16,
        // A token before it, where the sum would be right in sixteen bits.
        5 => starts[rng.below(starts.len())].at.wrapping_sub(from) as u16,
        // A token of another formula.
        _ if !elsewhere.is_empty() => (rng.pick(&elsewhere) - from) as u16,
        _ => was ^ 1 << rng.below(6),
    };
    tokens[field..field + 2].copy_from_slice(&distance.to_le_bytes());
}
