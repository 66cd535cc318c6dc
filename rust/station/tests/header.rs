//! What `include/station.h` says beside its declarations: the numbers of the refusals, the constants, and what little room means.

#[allow(dead_code)]
#[path = "../src/raw.rs"]
mod raw;

use station::journal::{self, Direction, Journal, Unreplayed};
use station::{check, correct, judge, NewValue, Refusal};
use std::fs;
use std::path::Path;

const HEADER: &str = include_str!("../../../include/station.h");

fn case(name: &str) -> Vec<u8> {
    let cases = Path::new(env!("CARGO_MANIFEST_DIR")).join("../../cases");
    fs::read(cases.join(name).with_extension("in")).expect("a stored case")
}

/// The refusals that the header names, in its order, without `STATION_`.
fn refusals() -> Vec<(&'static str, u8)> {
    let (_, list) = HEADER.split_once("enum station_refusal {").expect("a list");
    let (list, _) = list.split_once("};").expect("its end");
    let mut refusals = Vec::new();
    for line in list.lines().map(str::trim).filter(|line| !line.is_empty()) {
        let (constant, meaning) = line.split_once("/* ").expect("a meaning");
        assert!(meaning.ends_with(" */") && meaning.len() > 20, "{line}");
        let (name, number) = constant.split_once(" = ").expect("a number");
        let number = number.trim_end().strip_suffix(',').expect("a comma");
        refusals.push((
            name.strip_prefix("STATION_").expect("our name"),
            number.parse().expect("a number"),
        ));
    }
    refusals
}

fn constant(name: &str) -> u32 {
    let line = HEADER
        .lines()
        .find_map(|line| line.strip_prefix(&format!("#define STATION_{name} ")))
        .expect("a constant");
    let word = line.split_whitespace().next().expect("a word");
    word.parse().expect("a number")
}

fn checked(name: &str) -> Result<(), Refusal> {
    check(&case(name)).map(|_| ())
}

fn corrected(name: &str, row: u32, column: u32, value: f64) -> Result<(), Refusal> {
    correct(&mut case(name), 0, row, column, NewValue::Number(value))
}

/// A correction made again where it is made already: the entry that stops it.
fn replayed_twice() -> Result<(), Refusal> {
    let mut stream = case("cells");
    let mut kept = Journal::started(&stream)?;
    kept.make_room();
    kept.correct(&mut stream, 0, 0, 1, NewValue::Number(2.5))?;
    match kept.replay(&mut stream, Direction::Forwards) {
        Ok(_) => Ok(()),
        Err(Unreplayed::Refused(refusal)) => Err(refusal),
        Err(Unreplayed::Stopped { number, .. }) => Err(Refusal { number, offset: 0 }),
    }
}

/// For each name a question that is refused so.
#[test]
fn each_refusal_has_its_name() {
    let refused = [
        ("TOO_LONG", check(&[0; 16_777_217]).map(|_| ())),
        ("CUT_RECORD", checked("refused-2-cut-body")),
        ("NO_GLOBALS", checked("refused-3-no-globals")),
        ("BAD_SUBSTREAMS", checked("refused-4-depth")),
        ("ENCRYPTED", checked("refused-5-encrypted")),
        ("BAD_RECORD", checked("refused-6-size")),
        ("BAD_CONTINUE", checked("refused-7-orphan")),
        ("BAD_STRINGS", checked("refused-8-cut")),
        ("BAD_INDEX", checked("refused-9-beyond")),
        ("BAD_SHEETS", checked("refused-10-kind")),
        ("ABSENT", station::cells(&case("cells"), 1).map(|_| ())),
        (
            "NO_ROOM",
            station::fetch(&case("cells"), 1, &mut [0; 3]).map(|_| ()),
        ),
        ("BAD_TOKEN", judge(&[0x1E, 0x01], &[])),
        ("BAD_STACK", judge(&[0x03], &[])),
        ("BAD_FUNCTION", judge(&[0x41, 0xCA, 0x00], &[])),
        ("AMBIGUOUS", corrected("repeated-address", 7, 7, 1.0)),
        ("WRONG_KIND", corrected("cells", 0, 0, 1.0)),
        ("DOES_NOT_FIT", corrected("cells", 0, 2, 0.1)),
        ("MISMATCH", replayed_twice()),
        (
            "NOT_A_SESSION",
            station::profile(&case("cells")).map(|_| ()),
        ),
        (
            "BAD_JOURNAL",
            journal::correct(&mut case("cells"), &mut [], 0, 0, 1, NewValue::Number(1.0)),
        ),
    ];
    let given = refused.map(|(name, answer)| (name, answer.expect_err(name).number));
    assert_eq!(refusals(), given);
}

#[test]
fn constants() {
    let mut version = env!("CARGO_PKG_VERSION").split('.');
    let mut next = || -> u32 { version.next().unwrap().parse().unwrap() };
    let version = next() * 1_000_000 + next() * 1_000 + next();
    assert_eq!(constant("VERSION"), version);
    assert_eq!(station::version(), version);
    assert_eq!(constant("LONGEST_STREAM"), 16_777_216);
    assert_eq!(
        constant("LONGEST_STRING"),
        station::LONGEST_STRING.try_into().unwrap()
    );
    assert_eq!(constant("CELL_WORDS"), 4);
    // Held to by the test of the stack.
    assert_eq!(constant("STACK"), 65_536);
}

/// A stream of the greatest length isn't refused for it.
#[test]
fn the_longest_stream() {
    let mut stream = case("globals-alone");
    stream.resize(constant("LONGEST_STREAM") as usize, 0);
    assert!(check(&stream).is_ok());
}

/// The cells of sheet 0 from its start on, put into these words; and that start.
fn first_cells(stream: &[u8], lent: &mut [u64]) -> (raw::Cells, raw::Filled) {
    let (bytes, length) = (stream.as_ptr(), stream.len());
    let (words, room) = (lent.as_mut_ptr(), lent.len());
    // SAFETY: the slices are valid for their lengths, and the words are lent to this call alone.
    unsafe {
        let start = raw::station_cells(bytes, length, 0);
        assert_eq!(start.number, 0);
        let (at, part, level) = (start.at, start.part, start.level);
        let filled = raw::station_next_cells(bytes, length, at, part, level, words, room);
        (start, filled)
    }
}

/// Under four words a listing neither moves nor ends, be there a cell or none; with four it does.
#[test]
fn too_little_room_for_a_cell() {
    let enough = constant("CELL_WORDS") as usize;
    for (name, cells) in [("cells", 1), ("no-cells", 0)] {
        let stream = case(name);
        for room in 0..enough {
            let mut lent = vec![7; room];
            let (start, filled) = first_cells(&stream, &mut lent);
            assert_eq!((filled.cells, filled.ended), (0, false));
            assert_eq!(
                (filled.at, filled.part, filled.level),
                (start.at, start.part, start.level)
            );
            assert_eq!(lent, vec![7; room]);
        }
        let mut lent = vec![7; enough + 1];
        let (_, filled) = first_cells(&stream, &mut lent);
        assert_eq!((filled.cells, filled.ended), (cells, cells == 0));
        assert_eq!(lent[enough], 7);
    }
}
