//! Streams without their unused strings: the stored ones, every room, and the greatest length. What must come was put together by hand after document 02.

use station::pair::{self, Whose};
use station::{compact, compacted, Compacted, Refusal, LONGEST_STREAM};

const OLD: &[u8] = include_bytes!("../../../cases/unused-strings.in");
const NEW: &[u8] = include_bytes!("../../../cases/used-strings.in");
const TEMPLATE: &[u8] = include_bytes!("../../../cases/template.in");
const DAY: &[u8] = include_bytes!("../../../cases/day.in");
const BYTE: u8 = 0xA5;

const NO_ROOM: Refusal = Refusal {
    number: 12,
    offset: 0,
};

fn done() -> Compacted {
    Compacted {
        written: NEW.len(),
        freed: (OLD.len() - NEW.len()) as i64,
    }
}

/// For each room the answer, and every byte.
#[test]
fn every_room() {
    for room in 0..OLD.len() + 3 {
        let mut buffer = vec![BYTE; room];
        let answer = compact(OLD, &mut buffer);
        let mut session = vec![BYTE; room];
        let over = pair::compact(TEMPLATE, OLD, &mut session);
        let mut wanted = vec![BYTE; room];
        if room < NEW.len() {
            assert_eq!(answer, Err(NO_ROOM));
            assert_eq!(over, Err(NO_ROOM.into()));
        } else {
            assert_eq!(answer, Ok(done()));
            assert_eq!(over, Ok(done()));
            wanted[..NEW.len()].copy_from_slice(NEW);
        }
        assert_eq!(buffer, wanted, "{room}");
        assert_eq!(session, wanted, "{room}");
    }
    assert_eq!(compacted(OLD).as_deref(), Ok(NEW));
    assert_eq!(compacted(NEW).as_deref(), Ok(NEW));
}

/// It has no strings of its own: its indices stay, and alone it is refused.
#[test]
fn a_session_with_the_templates_strings() {
    assert_eq!(compacted(DAY).expect_err("no strings").number, 9);
    assert_eq!(pair::compacted(TEMPLATE, DAY).as_deref(), Ok(DAY));
}

/// The template's before the session's, and each says whose it is.
#[test]
fn whose_refusal() {
    let told = |template: &[u8], session: &[u8]| {
        let refused = pair::compact(template, session, &mut []).expect_err("a refusal");
        (refused.whose, refused.refusal.number)
    };
    assert_eq!(told(&[], &[]), (Some(Whose::Template), 3));
    assert_eq!(told(TEMPLATE, &[]), (Some(Whose::Session), 3));
    assert_eq!(told(TEMPLATE, DAY), (None, 12));
    assert_eq!(
        told(TEMPLATE, &[0; LONGEST_STREAM + 1]),
        (Some(Whose::Session), 1)
    );
}

/// A new stream of the greatest length is written, one of a byte more is refused whatever is lent: of one stream, and of a session.
#[test]
fn the_longest_new_stream() {
    let stream = streams::growing(3, LONGEST_STREAM);
    let mut buffer = vec![BYTE; LONGEST_STREAM];
    let answer = compact(&stream, &mut buffer).expect("just so long");
    assert_eq!(answer.written, LONGEST_STREAM);
    assert!(answer.freed < 0);
    assert!(compacted(&stream).expect("just so long") == buffer);
    let over = pair::compacted(TEMPLATE, &stream);
    assert!(over.expect("just so long") == buffer);

    let stream = streams::growing(3, LONGEST_STREAM + 1);
    let too_long = Refusal {
        number: 1,
        offset: 0,
    };
    for room in [0, LONGEST_STREAM, LONGEST_STREAM + 1] {
        let mut buffer = vec![BYTE; room];
        assert_eq!(compact(&stream, &mut buffer), Err(too_long));
        let over = pair::compact(TEMPLATE, &stream, &mut buffer);
        assert_eq!(over, Err(too_long.into()));
        assert!(buffer.iter().all(|&byte| byte == BYTE));
    }
}
