//! K13: streams whose unused strings are left out.

use crate::{Ways, SEEDS};
use second_reader::{check, compact, compact_session, read, Value};
use std::collections::BTreeSet;
use streams::Pair;

const EOF: u16 = 0x000A;
const CONTINUE: u16 = 0x003C;
const BOUNDSHEET: u16 = 0x0085;
const SST: u16 = 0x00FC;
const LABELSST: u16 = 0x00FD;
const EXTSST: u16 = 0x00FF;
const INDEX: u16 = 0x020B;
const BOF: u16 = 0x0809;

/// A record of a stream that passes.
struct Record<'a> {
    kind: u16,
    body: &'a [u8],
    /// The kind of its top-level substream, and how deep in it: 1 for the
    /// substream itself.
    top: u16,
    depth: usize,
    /// Whether a CONTINUE comes right after it.
    goes_on: bool,
}

fn word(bytes: &[u8], at: usize) -> u16 {
    u16::from_le_bytes([bytes[at], bytes[at + 1]])
}

fn records(stream: &[u8]) -> Vec<Record<'_>> {
    let mut records: Vec<Record<'_>> = Vec::new();
    let (mut at, mut depth, mut top) = (0, 0, 0);
    while depth > 0 || stream[at..].iter().any(|&byte| byte != 0) {
        let (kind, size) = (word(stream, at), usize::from(word(stream, at + 2)));
        let body = &stream[at + 4..at + 4 + size];
        if kind == BOF {
            depth += 1;
            if depth == 1 {
                top = word(body, 2);
            }
        }
        if let Some(before) = records.last_mut() {
            before.goes_on = kind == CONTINUE;
        }
        records.push(Record {
            kind,
            body,
            top,
            depth,
            goes_on: false,
        });
        depth -= usize::from(kind == EOF);
        at += 4 + size;
    }
    records
}

/// The ways in which a record points to strings or rows, or is a text cell that
/// is passed over.
fn pointer(record: &Record<'_>) -> &'static str {
    match (record.kind, record.top, record.depth) {
        (EXTSST, 0x0005, _) if record.goes_on => "an EXTSST with a CONTINUE",
        (EXTSST, 0x0005, _) => "an EXTSST",
        (EXTSST, ..) => "an EXTSST that stays",
        (INDEX, 0x0005, _) => "an INDEX in the globals",
        (INDEX, _, 2..) => "an INDEX in a chart inside",
        (INDEX, 0x0010, _) if record.goes_on => "an INDEX with a CONTINUE",
        (INDEX, 0x0010, _) => "an INDEX",
        (INDEX, ..) => "an INDEX in a macro sheet or chart sheet",
        (LABELSST, 0x0010, 1) => "a text cell",
        (LABELSST, 0x0005, _) => "a LABELSST in the globals",
        (LABELSST, 0x0010, _) => "a LABELSST in a chart inside",
        (LABELSST, ..) => "a LABELSST in a macro sheet or chart sheet",
        _ => "another record",
    }
}

#[test]
fn streams_with_unused_strings() {
    let mut ways = Ways::new(&[
        "an EXTSST",
        "an EXTSST with a CONTINUE",
        "an EXTSST that stays",
        "an INDEX",
        "an INDEX with a CONTINUE",
        "an INDEX in the globals",
        "an INDEX in a chart inside",
        "an INDEX in a macro sheet or chart sheet",
        "a LABELSST in the globals",
        "a LABELSST in a chart inside",
        "a LABELSST in a macro sheet or chart sheet",
        "a text cell",
        "another record",
        "an EXTSST before the table",
        "sheets in another order",
        "no table",
        "a table of no strings",
        "all strings are used",
        "none is used",
        "the last one alone is used",
        "some are used",
        "a new table over segments",
        "it is shorter",
        "it is as long, and other bytes",
        "it is the same",
        "it is longer",
        "refused",
    ]);
    for seed in 0..SEEDS / 8 {
        let stream = streams::with_unused(seed);
        let mut buffer = vec![0; 2 * stream.len() + 100];
        let Ok(done) = compact(&stream, &mut buffer) else {
            ways.meet("refused");
            continue;
        };
        let new = &buffer[..done.written];
        ways.meet(match done.freed {
            1.. => "it is shorter",
            0 if new == stream => "it is the same",
            0 => "it is as long, and other bytes",
            _ => "it is longer",
        });
        let records = records(&stream);
        for record in &records {
            ways.meet(pointer(record));
        }
        let globals: Vec<_> = records.iter().take_while(|it| it.kind != EOF).collect();
        let place = |kind| globals.iter().position(|record| record.kind == kind);
        if place(EXTSST)
            .zip(place(SST))
            .is_some_and(|(one, two)| one < two)
        {
            ways.meet("an EXTSST before the table");
        }
        let entries = globals.iter().filter(|record| record.kind == BOUNDSHEET);
        let positions: Vec<_> = entries
            .map(|entry| u32::from_le_bytes(entry.body[..4].try_into().expect("four bytes")))
            .collect();
        if !positions.is_sorted() {
            ways.meet("sheets in another order");
        }
        ways.meet(used(&stream, place(SST).is_some()));
        if self::records(new)
            .iter()
            .any(|record| record.kind == SST && record.top == 0x0005 && record.goes_on)
        {
            ways.meet("a new table over segments");
        }
    }
    ways.assert_met();
}

/// Which strings text cells use.
fn used(stream: &[u8], table: bool) -> &'static str {
    let reading = read(stream).expect("a stream that passes");
    let cells = reading.sheets.iter().flat_map(|sheet| &sheet.cells);
    let used: BTreeSet<_> = cells
        .filter_map(|cell| match cell.value {
            Value::Text(index) => Some(index as usize),
            _ => None,
        })
        .collect();
    match reading.strings.len() {
        _ if !table => "no table",
        0 => "a table of no strings",
        _ if used.is_empty() => "none is used",
        count if used.len() == count => "all strings are used",
        count if used.len() == 1 && used.contains(&(count - 1)) => "the last one alone is used",
        _ => "some are used",
    }
}

#[test]
fn sessions_with_unused_strings() {
    let mut ways = Ways::new(&[
        "refused",
        "with a table of its own, shorter",
        "with a table of its own, longer",
        "with a table of its own, as long",
        "with the template's strings, which it uses",
        "with the template's strings, and no text cell",
    ]);
    for seed in 0..SEEDS / 8 {
        let Pair { template, session } = streams::pair_with_unused(seed);
        let mut buffer = vec![0; 2 * session.len() + 100];
        let Ok(done) = compact_session(&template, &session, &mut buffer) else {
            ways.meet("refused");
            continue;
        };
        let records = records(&session);
        let own = records.iter().any(|it| it.kind == SST && it.top == 0x0005);
        let shows = records.iter().any(|it| pointer(it) == "a text cell");
        ways.meet(match (own, done.freed) {
            (true, 1..) => "with a table of its own, shorter",
            (true, 0) => "with a table of its own, as long",
            (true, _) => "with a table of its own, longer",
            (false, _) if shows => "with the template's strings, which it uses",
            (false, _) => "with the template's strings, and no text cell",
        });
    }
    ways.assert_met();
}

#[test]
fn streams_that_break_no_rule() {
    for seed in 0..SEEDS / 20 {
        let stream = streams::valid_with_unused(seed);
        assert!(check(&stream).is_ok(), "seed {seed}: {:?}", check(&stream));
    }
}

/// A growing stream has just the length that was asked for, once it is written
/// anew; of the large one half of the strings are used.
#[test]
fn made_to_measure() {
    for seed in 0..200 {
        let stream = streams::growing(seed, 10_000);
        assert!(stream.len() < 10_000, "seed {seed}");
        let mut buffer = vec![0; 10_000];
        let done = compact(&stream, &mut buffer).expect("a stream that passes");
        assert_eq!(done.written, 10_000, "seed {seed}");
    }
    for bytes in [400, 10_000, 300_000] {
        let stream = streams::half_used(bytes);
        assert_eq!(stream.len(), bytes);
        let mut buffer = vec![0; bytes];
        let done = compact(&stream, &mut buffer).expect("a stream that passes");
        let [old, new] = [&stream, &buffer[..done.written]].map(|it| check(it).expect("passes"));
        assert_eq!(old.strings, bytes as u64 / 40);
        assert_eq!(new.strings, old.strings / 2);
    }
}
