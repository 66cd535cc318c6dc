//! The name that a mistyped word was meant to be.

use std::ffi::OsStr;

/// The nearest of the names, where one is near: the word starts it, or few letters are wrong.
pub fn nearest<'n>(word: &OsStr, names: impl Iterator<Item = &'n str>) -> Option<&'n str> {
    let word = word.to_str().filter(|word| word.len() <= 40)?;
    let steps = |name: &str| match !word.is_empty() && name.starts_with(word) {
        true => 0,
        false => distance(word.as_bytes(), name.as_bytes()),
    };
    names
        .map(|name| (steps(name), name))
        .filter(|&(steps, name)| steps <= name.trim_start_matches('-').len() / 3)
        .min()
        .map(|(_, name)| name)
}

/// How many letters must be put in, left out, changed or swapped with their neighbour to make one word of the other.
fn distance(one: &[u8], other: &[u8]) -> usize {
    let mut above = Vec::new();
    let mut row: Vec<usize> = (0..=other.len()).collect();
    for (i, &letter) in one.iter().enumerate() {
        let mut next = vec![i + 1];
        for (j, &wanted) in other.iter().enumerate() {
            let changed = row[j] + usize::from(letter != wanted);
            let mut least = changed.min(row[j + 1] + 1).min(next[j] + 1);
            if i > 0 && j > 0 && one[i - 1] == wanted && other[j - 1] == letter {
                let before: &Vec<usize> = &above;
                least = least.min(before[j - 1] + 1);
            }
            next.push(least);
        }
        above = std::mem::replace(&mut row, next);
    }
    row[other.len()]
}

#[cfg(test)]
mod tests {
    use super::*;

    #[test]
    fn letters_that_are_wrong() {
        let distances = [
            ("check", "check", 0),
            ("chekc", "check", 1),
            ("chck", "check", 1),
            ("cheeck", "check", 1),
            ("chock", "check", 1),
            ("", "list", 4),
            ("tsil", "list", 3),
        ];
        for (one, other, steps) in distances {
            assert_eq!(distance(one.as_bytes(), other.as_bytes()), steps, "{one}");
            assert_eq!(distance(other.as_bytes(), one.as_bytes()), steps, "{one}");
        }
    }

    #[test]
    fn only_what_is_near() {
        let names = ["check", "list", "export", "--in-place"];
        let near = |word: &str| nearest(word.as_ref(), names.into_iter());
        assert_eq!(near("exprot"), Some("export"));
        assert_eq!(near("exp"), Some("export"));
        assert_eq!(near("--inplace"), Some("--in-place"));
        assert_eq!(near("frobnicate"), None);
        assert_eq!(near(""), None);
        assert_eq!(near(&"x".repeat(100_000)), None);
    }
}
