//! Conditional jumps: each must lead to the start of a token in the formula that
//! holds it directly, or to that formula's end.

use std::ops::Range;

/// The jumps of a formula, and the places that they may lead to.
#[derive(Default)]
pub(crate) struct Jumps {
    /// In byte order.
    jumps: Vec<Jump>,
    /// Where tokens start, and the start of the formula that holds each. Jumps
    /// only lead on, so those before the first jump are left out.
    starts: Vec<(usize, usize)>,
}

struct Jump {
    at: usize,
    /// The formula that holds it directly.
    level: Range<usize>,
}

impl Jumps {
    /// Takes note of the token at a place.
    #[inline]
    pub fn pass(&mut self, tokens: &[u8], at: usize, level: Range<usize>) {
        let is_jump = matches!(tokens[at..], [0x19, 0x02 | 0x04 | 0x08, ..]);
        if is_jump || !self.jumps.is_empty() {
            self.starts.push((at, level.start));
        }
        if is_jump {
            self.jumps.push(Jump { at, level });
        }
    }

    /// Judges the jumps of tokens that are right in all else. The error is where
    /// the first that doesn't land stands.
    pub fn judge(&self, tokens: &[u8]) -> Result<(), usize> {
        match self.jumps.iter().find(|jump| !self.all_land(tokens, jump)) {
            Some(jump) => Err(jump.at),
            None => Ok(()),
        }
    }

    /// Each distance is counted from behind the first four bytes: that is the
    /// next token, or the table of the token with many distances.
    fn all_land(&self, tokens: &[u8], jump: &Jump) -> bool {
        let (head, rest) = tokens[jump.at..].split_at(4);
        let from = jump.at + 4;
        let detail = usize::from(u16::from_le_bytes([head[2], head[3]]));
        match head[1] {
            0x02 => self.lands(jump, from + detail),
            0x08 => self.lands(jump, from + detail + 1),
            _ => {
                let (distances, _) = rest.as_chunks();
                distances[..=detail].iter().all(|&distance| {
                    self.lands(jump, from + usize::from(u16::from_le_bytes(distance)))
                })
            }
        }
    }

    fn lands(&self, jump: &Jump, target: usize) -> bool {
        let start = (target, jump.level.start);
        target == jump.level.end || self.starts.binary_search(&start).is_ok()
    }
}
