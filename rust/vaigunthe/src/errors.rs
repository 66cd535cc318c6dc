//! The names that Excel shows for error codes.

const NAMES: [(u8, &str); 7] = [
    (0x00, "#NULL!"),
    (0x07, "#DIV/0!"),
    (0x0F, "#VALUE!"),
    (0x17, "#REF!"),
    (0x1D, "#NAME?"),
    (0x24, "#NUM!"),
    (0x2A, "#N/A"),
];

/// The name of a code. A stream that passes has no others.
pub fn name(code: u8) -> &'static str {
    let named = NAMES.iter().find(|(known, _)| *known == code);
    named.map_or("#N/A", |(_, name)| name)
}

/// The code of a name, in letters of either case.
pub fn code(name: &str) -> Option<u8> {
    let named = NAMES
        .iter()
        .find(|(_, known)| known.eq_ignore_ascii_case(name));
    named.map(|(code, _)| *code)
}
