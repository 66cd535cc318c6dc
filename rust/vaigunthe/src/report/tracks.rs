//! Rows and columns as they stand in a grid: one after the other, but where many have nothing to show one line stands for all of them.

/// A row or a column, or some that have nothing to show.
#[derive(Clone, Copy, Debug, PartialEq, Eq)]
pub enum Track {
    One(usize),
    Gap { first: usize, last: usize },
}

/// So many are shown one by one even where they have nothing to show.
pub const FEW: usize = 2;

/// The tracks from 0 to the last of these, which come in order.
pub fn tracks(shown: impl Iterator<Item = usize>) -> Vec<Track> {
    let mut tracks = Vec::new();
    let mut next = 0;
    for one in shown {
        match one - next {
            0..=FEW => tracks.extend((next..one).map(Track::One)),
            _ => tracks.push(Track::Gap {
                first: next,
                last: one - 1,
            }),
        }
        tracks.push(Track::One(one));
        next = one + 1;
    }
    tracks
}

#[cfg(test)]
mod tests {
    use super::{tracks, Track::*};

    #[test]
    fn gaps_are_folded() {
        let of = |shown: &[usize]| tracks(shown.iter().copied());
        assert_eq!(of(&[]), []);
        assert_eq!(of(&[0, 1]), [One(0), One(1)]);
        assert_eq!(of(&[2, 4]), [One(0), One(1), One(2), One(3), One(4)]);
        assert_eq!(
            of(&[3, 255]),
            [
                Gap { first: 0, last: 2 },
                One(3),
                Gap {
                    first: 4,
                    last: 254
                },
                One(255)
            ]
        );
    }
}
