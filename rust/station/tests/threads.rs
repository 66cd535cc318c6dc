//! Many threads ask at the same time, about one stream and about copies of it: each gets what it would get alone.

use station::pair::{self, Whose};
use station::{cells, check, compacted, compare, correct, fetch, judge, pairs, text};
use station::{Cell, Difference, NewValue, Pair, Refusal};
use std::sync::Barrier;
use std::thread;

const STREAM: &[u8] = include_bytes!("../../../cases/cells.in");
const RESULTS: &[u8] = include_bytes!("../../../cases/results.in");
const RIDE: &[u8] = include_bytes!("../../../cases/ride.in");
const TEMPLATE: &[u8] = include_bytes!("../../../cases/template.in");
const DAY: &[u8] = include_bytes!("../../../cases/day.in");
const THREADS: usize = 8;
const TURNS: usize = 200;

/// All questions: counts, sheets with their cells, strings, judgements, a corrected copy and what differs in it, a copy without its unused strings, the text of
/// a formula, and the pairs of a session.
fn answers(stream: &[u8]) -> impl PartialEq + std::fmt::Debug {
    let workbook = check(stream).expect("a stream that passes");
    let sheets: Vec<(Vec<u16>, u32)> = workbook
        .sheets()
        .map(|sheet| (sheet.name_units().collect(), sheet.rows()))
        .collect();
    let listed: Result<Vec<Cell>, Refusal> = cells(stream, 0).map(Iterator::collect);
    let strings: Vec<Vec<u16>> = workbook.strings().collect();
    let mut units = [0; 16];
    let fetched = fetch(stream, 1, &mut units);
    let mut label = [0; 8];
    let text = (text(RESULTS, 0, 3, 1, &mut label), label);
    let judged = [&[0x1E, 0x01, 0x00][..], &[0x1E, 0x01]].map(|tokens| judge(tokens, &[]));
    let mut copy = stream.to_vec();
    let corrected = correct(&mut copy, 0, 0, 1, NewValue::Number(2.5));
    let changed = compare(stream, &copy).map(Iterator::collect::<Vec<Difference>>);
    let ridden: Result<Vec<Pair>, Refusal> = pairs(RIDE).map(Iterator::collect);
    let small = compacted(stream);
    (
        (sheets, listed, strings, fetched, units, small),
        (text, judged, corrected, copy, changed, ridden),
    )
}

#[test]
fn each_gets_its_own_answers() {
    let alone = answers(STREAM);
    let start = Barrier::new(THREADS);
    thread::scope(|scope| {
        for _ in 0..THREADS {
            scope.spawn(|| {
                start.wait();
                for _ in 0..TURNS {
                    assert_eq!(answers(STREAM), alone);
                }
            });
        }
    });
}

/// What an owner's calls over the template come to, and what its session and buffer hold after them.
fn calls(session: &[u8], turn: usize) -> impl PartialEq + std::fmt::Debug {
    let mut session = session.to_vec();
    let mut buffer = [0; 16];
    let first = pair::fetch(TEMPLATE, &session, Whose::Session, 1, &mut buffer);
    let value = NewValue::Number(turn as f64);
    let granted = pair::correct(TEMPLATE, &mut session, 0, 1, 1, value);
    let aimed = pair::correct(TEMPLATE, &mut session, 1, 0, 0, NewValue::Text(0));
    let text = pair::text(TEMPLATE, &session, 1, 1, 0, &mut buffer);
    let small = pair::compacted(TEMPLATE, &session);
    (first, granted, aimed, text, buffer, session, small)
}

/// Two sessions of one template, each with its owner: however their calls fall together, each gets what its calls alone give.
#[test]
fn owners_of_one_template() {
    let alone: Vec<_> = (0..TURNS)
        .map(|turn| [DAY, STREAM].map(|session| calls(session, turn)))
        .collect();
    let start = Barrier::new(THREADS);
    thread::scope(|scope| {
        for owner in 0..THREADS {
            let (alone, start) = (&alone, &start);
            scope.spawn(move || {
                start.wait();
                for (turn, alone) in alone.iter().enumerate() {
                    let session = [DAY, STREAM][owner % 2];
                    assert_eq!(calls(session, turn), alone[owner % 2]);
                }
            });
        }
    });
}
