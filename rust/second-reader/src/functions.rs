//! How many arguments each function takes.

const INDICES: usize = 368;
const COUNTS: &[u8] = include_bytes!("../data/function-counts.tsv");

/// The least and the greatest number of arguments, or none for an index that
/// no function has.
const TABLE: [Option<(u8, u8)>; INDICES] = parse(COUNTS);

/// A function's least and greatest number of arguments.
pub(crate) fn argument_counts(index: u16) -> Option<(u8, u8)> {
    *TABLE.get(usize::from(index))?
}

/// Reads the lines after the first: index, name, least, greatest, with tabs
/// between. It runs while compiling, so the table costs nothing later.
const fn parse(text: &[u8]) -> [Option<(u8, u8)>; INDICES] {
    let mut table = [None; INDICES];
    let mut at = line_end(text, 0);
    while at < text.len() {
        let (index, name_at) = number(text, at);
        let mut least_at = name_at + 1;
        while text[least_at - 1] != b'\t' {
            least_at += 1;
        }
        let (least, greatest_at) = number(text, least_at);
        let (greatest, next) = number(text, greatest_at);
        assert!(least <= greatest && greatest <= 30);
        table[index] = Some((least as u8, greatest as u8));
        at = next;
    }
    table
}

/// Where the line after this one starts.
const fn line_end(text: &[u8], from: usize) -> usize {
    let mut at = from;
    while text[at] != b'\n' {
        at += 1;
    }
    at + 1
}

/// A number and where the text goes on after the one separator behind it.
const fn number(text: &[u8], from: usize) -> (usize, usize) {
    let mut value = 0;
    let mut at = from;
    while at < text.len() && text[at].is_ascii_digit() {
        value = value * 10 + (text[at] - b'0') as usize;
        at += 1;
    }
    assert!(at > from);
    (value, at + 1)
}

#[cfg(test)]
mod tests {
    use super::*;

    #[test]
    fn the_table_has_the_members_of_the_list() {
        assert_eq!(TABLE.iter().flatten().count(), 248);
        for line in include_str!("../data/function-counts.tsv").lines().skip(1) {
            let mut fields = line.split('\t');
            let index = fields.next().unwrap().parse().unwrap();
            let counts = fields.skip(1).map(|field| field.parse().unwrap());
            let counts: Vec<u8> = counts.collect();
            assert_eq!(
                argument_counts(index),
                Some((counts[0], counts[1])),
                "{line}"
            );
        }
        assert_eq!(argument_counts(368), None);
        assert_eq!(argument_counts(0x8000), None);
    }
}
