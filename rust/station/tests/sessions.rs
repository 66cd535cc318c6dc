//! Sessions as sensors write them: the profile, one row's cadence, and all pairs one after the other.

use station::{cadence, pairs, profile, Pair, Profile, Refusal};
use std::fs;
use std::path::Path;

fn case(name: &str) -> Vec<u8> {
    let cases = Path::new(env!("CARGO_MANIFEST_DIR")).join("../../cases");
    fs::read(cases.join(name).with_extension("in")).expect("a stored case")
}

fn elapsed(ticks: u16, turns: u16, cadence: Option<u32>) -> Pair {
    Pair::Elapsed {
        ticks,
        turns,
        cadence,
    }
}

/// The pairs of the stored ride, reckoned by hand.
fn ride() -> [Pair; 8] {
    [
        elapsed(1_024, 1, Some(60)),
        elapsed(768, 1, Some(80)),
        // no event in between
        elapsed(0, 0, None),
        // 48 · 61,440 / 62,208 is 47 and a part
        elapsed(62_208, 48, Some(47)),
        // from 65,024 over the end of the counter to 512
        elapsed(1_024, 2, Some(120)),
        // 65 seconds, in which the counter went round once: 50 turns in 1,024 ticks would be 3,000 a minute
        Pair::Pause,
        elapsed(1_024, 0, Some(0)),
        elapsed(1_536, 2, Some(80)),
    ]
}

const ABSENT: Refusal = Refusal {
    number: 11,
    offset: 0,
};

#[test]
fn a_ride() {
    let stream = case("ride");
    let held = Profile {
        rows: 9,
        columns: 3,
    };
    assert_eq!(profile(&stream), Ok(held));
    for (row, pair) in (0..).zip(ride()) {
        assert_eq!(cadence(&stream, row), Ok(pair), "row {row}");
    }
    for row in [8, 9, 65_535, 65_536, u32::MAX] {
        assert_eq!(cadence(&stream, row), Err(ABSENT), "row {row}");
    }
    let all: Vec<_> = pairs(&stream).expect("a session").collect();
    assert_eq!(all, ride());
}

/// Before each pair they are those of its earlier row, and after the last those of the last row.
#[test]
fn the_seconds_of_a_ride() {
    let stream = case("ride");
    let mut pairs = pairs(&stream).expect("a session");
    let mut seconds = vec![pairs.seconds()];
    while pairs.next().is_some() {
        seconds.push(pairs.seconds());
    }
    let host = [100, 101, 102, 103, 163, 165, 230, 231, 232];
    assert_eq!(seconds, host.map(Some));
    assert_eq!((pairs.next(), pairs.seconds()), (None, Some(232)));
}

#[test]
fn a_session_without_rows() {
    let stream = case("no-cells");
    let held = Profile {
        rows: 0,
        columns: 2,
    };
    assert_eq!(profile(&stream), Ok(held));
    let mut pairs = pairs(&stream).expect("a session");
    assert_eq!((pairs.next(), pairs.seconds()), (None, None));
    assert_eq!(cadence(&stream, 0), Err(ABSENT));
}

/// All three questions refuse alike: the check first, then at the record of the first cell at fault.
#[test]
fn streams_that_are_no_sessions() {
    let refused = |stream: &[u8], number, offset| {
        let refusal = Refusal { number, offset };
        assert_eq!(profile(stream), Err(refusal));
        assert_eq!(cadence(stream, 0), Err(refusal));
        assert_eq!(pairs(stream).map(|_| ()), Err(refusal));
    };
    refused(&case("refused-5-encrypted"), 5, 20);
    // no sheet, and two
    refused(&case("globals-alone"), 20, 0);
    refused(&case("reversed"), 20, 0);
    let mut ride = case("ride");
    // Row 4 says that it is row 5.
    let row_four = 110 + 3 * 28;
    ride[row_four + 4] = 5;
    refused(&ride, 20, row_four);
    // The host's seconds fall in row 8.
    let mut ride = case("ride");
    let row_eight = 110 + 7 * 28;
    let seconds = row_eight + 4 + 4 + 12 + 2;
    ride[seconds..seconds + 4].copy_from_slice(&(230u32 << 2 | 2).to_le_bytes());
    refused(&ride, 20, row_eight);
}
