//! No question needs more than 64 KB of stack, whatever the stream: each C function runs on a thread whose stack was painted before, and what it
//! touched is measured. The thread's own beginnings, about 5 KB, are counted with it.

#[allow(dead_code)]
#[path = "../src/raw.rs"]
mod raw;

// Links the archive.
use station as _;

use std::ffi::{c_int, c_void};
use std::fs;
use std::hint::black_box;
use std::path::Path;
use std::ptr;
use std::thread;

/// What `include/station.h` promises.
const ENOUGH: usize = 65_536;
/// The stack that the threads have: more than enough, so that a question that needs too much is told and not ended.
const LENT: usize = 2 << 20;
const TEMPLATE: &[u8] = include_bytes!("../../../cases/template.in");
const PAINT: [u8; 4_096] = [0xA5; 4_096];

/// Room for the system's `pthread_attr_t`, which is smaller.
#[repr(C, align(16))]
struct Attributes([u8; 256]);

type Run = extern "C" fn(*mut c_void) -> *mut c_void;

extern "C" {
    fn pthread_attr_init(attributes: *mut Attributes) -> c_int;
    fn pthread_attr_setstack(
        attributes: *mut Attributes,
        lowest: *mut c_void,
        size: usize,
    ) -> c_int;
    fn pthread_create(
        thread: *mut usize,
        attributes: *const Attributes,
        run: Run,
        argument: *mut c_void,
    ) -> c_int;
    fn pthread_join(thread: usize, result: *mut *mut c_void) -> c_int;
}

/// What is lent to the questions, and the places that the check gave. Over the pair the stream is a session, and its template one of two sheets and three strings.
struct Desk {
    template: Vec<u8>,
    stream: Vec<u8>,
    /// What it is compared with.
    other: Vec<u8>,
    tokens: Vec<u8>,
    units: Vec<u16>,
    words: Vec<u64>,
    table: Vec<u32>,
    template_table: Vec<u32>,
    journal: Vec<u8>,
    new_stream: Vec<u8>,
    check: raw::Check,
    sheet: raw::Sheet,
}

type Question = fn(&mut Desk);

struct Task<'d> {
    question: Question,
    desk: &'d mut Desk,
}

extern "C" fn run(task: *mut c_void) -> *mut c_void {
    // SAFETY: `touched` hands over a task that is this thread's alone until it ends.
    let task = unsafe { &mut *task.cast::<Task>() };
    (task.question)(task.desk);
    ptr::null_mut()
}

/// The bytes of stack that a question touches.
fn touched(stack: &mut [u8], question: Question, desk: &mut Desk) -> usize {
    stack.chunks_mut(PAINT.len()).for_each(|part| {
        part.copy_from_slice(&PAINT[..part.len()]);
    });
    let mut task = Task { question, desk };
    let mut attributes = Attributes([0; 256]);
    let mut thread = 0;
    // SAFETY: the stack is this thread's alone until it has ended, and so is the task.
    unsafe {
        assert_eq!(pthread_attr_init(&mut attributes), 0);
        let lowest = stack.as_mut_ptr().cast();
        assert_eq!(
            pthread_attr_setstack(&mut attributes, lowest, stack.len()),
            0
        );
        let argument = (&raw mut task).cast();
        assert_eq!(pthread_create(&mut thread, &attributes, run, argument), 0);
        assert_eq!(pthread_join(thread, ptr::null_mut()), 0);
    }
    let parts = stack.chunks(PAINT.len());
    let whole = parts.take_while(|part| **part == PAINT[..part.len()]);
    let painted: usize = whole.map(<[u8]>::len).sum();
    let rest = &stack[painted..];
    rest.len() - rest.iter().take_while(|&&byte| byte == PAINT[0]).count()
}

/// Each C function. They come in an order in which one has the places that it needs from those before it.
const QUESTIONS: [(&str, Question); 35] = [
    ("station_version", |_| {
        // SAFETY: it takes nothing.
        black_box(unsafe { raw::station_version() });
    }),
    ("station_check", |desk| {
        let Desk { stream, .. } = desk;
        // SAFETY: here and below, the slices are valid for their lengths, and what is written is lent to the call alone.
        desk.check = unsafe { raw::station_check(stream.as_ptr(), stream.len()) };
    }),
    ("station_judge", |desk| {
        let Desk { tokens, .. } = desk;
        let (start, length) = (tokens.as_ptr(), tokens.len());
        black_box(unsafe { raw::station_judge(start, length, start, 0) });
    }),
    ("station_fetch", |desk| {
        let Desk { stream, units, .. } = desk;
        let (buffer, room) = (units.as_mut_ptr(), units.len());
        black_box(unsafe { raw::station_fetch(stream.as_ptr(), stream.len(), 0, buffer, room) });
    }),
    ("station_fill", |desk| {
        let Desk { stream, table, .. } = desk;
        let (numbers, count) = (table.as_mut_ptr(), table.len());
        black_box(unsafe { raw::station_fill(stream.as_ptr(), stream.len(), numbers, count) });
    }),
    ("station_fetch_through", |desk| {
        let Desk { stream, units, .. } = desk;
        let (buffer, room) = (units.as_mut_ptr(), units.len());
        let (bytes, length) = (stream.as_ptr(), stream.len());
        let (numbers, count) = (desk.table.as_ptr(), desk.table.len());
        black_box(unsafe {
            raw::station_fetch_through(bytes, length, numbers, count, 0, buffer, room)
        });
    }),
    ("station_next_string", |desk| {
        let Desk { stream, units, .. } = desk;
        let (buffer, room) = (units.as_mut_ptr(), units.len());
        let (segment, at, end) = (desk.check.segment, desk.check.at, desk.check.end);
        let (bytes, length) = (stream.as_ptr(), stream.len());
        black_box(unsafe {
            raw::station_next_string(bytes, length, segment, at, end, buffer, room)
        });
    }),
    ("station_next_sheet", |desk| {
        let Desk { stream, check, .. } = desk;
        let (bytes, length) = (stream.as_ptr(), stream.len());
        desk.sheet = unsafe { raw::station_next_sheet(bytes, length, check.sheet) };
    }),
    ("station_rows", |desk| {
        let Desk { stream, sheet, .. } = desk;
        let (bytes, length) = (stream.as_ptr(), stream.len());
        black_box(unsafe { raw::station_rows(bytes, length, sheet.at, sheet.part, sheet.level) });
    }),
    ("station_cells", |desk| {
        let Desk { stream, .. } = desk;
        black_box(unsafe { raw::station_cells(stream.as_ptr(), stream.len(), 0) });
    }),
    ("station_next_cells", |desk| {
        let Desk { stream, words, .. } = desk;
        let (lent, room) = (words.as_mut_ptr(), words.len());
        let (bytes, length) = (stream.as_ptr(), stream.len());
        let (at, part, level) = (desk.sheet.at, desk.sheet.part, desk.sheet.level);
        black_box(unsafe { raw::station_next_cells(bytes, length, at, part, level, lent, room) });
    }),
    ("station_text", |desk| {
        let Desk { stream, units, .. } = desk;
        let (buffer, room) = (units.as_mut_ptr(), units.len());
        let (bytes, length) = (stream.as_ptr(), stream.len());
        black_box(unsafe { raw::station_text(bytes, length, 0, 0, 0, buffer, room) });
    }),
    ("station_text_at", |desk| {
        let Desk { stream, units, .. } = desk;
        let (buffer, room) = (units.as_mut_ptr(), units.len());
        let (bytes, length) = (stream.as_ptr(), stream.len());
        // The first cell that was listed.
        let field = desk.words[2] as usize;
        black_box(unsafe { raw::station_text_at(bytes, length, field, buffer, room) });
    }),
    ("station_compare with itself", |desk| {
        let Desk { stream, words, .. } = desk;
        let (lent, room) = (words.as_mut_ptr(), words.len());
        let (bytes, length) = (stream.as_ptr(), stream.len());
        black_box(unsafe { raw::station_compare(bytes, length, bytes, length, 0, lent, room) });
    }),
    ("station_compare with another", |desk| {
        let Desk {
            stream,
            other,
            words,
            ..
        } = desk;
        let (lent, room) = (words.as_mut_ptr(), words.len());
        let (bytes, length) = (stream.as_ptr(), stream.len());
        let (others, size) = (other.as_ptr(), other.len());
        black_box(unsafe { raw::station_compare(bytes, length, others, size, 0, lent, room) });
    }),
    ("station_correct", |desk| {
        let Desk { stream, .. } = desk;
        let (bytes, length) = (stream.as_mut_ptr(), stream.len());
        black_box(unsafe { raw::station_correct(bytes, length, 0, 0, 1, 0, 2.5, 0, 0) });
    }),
    ("station_pair_check", |desk| {
        let (template, length, session, own) = pair(desk);
        black_box(unsafe { raw::station_pair_check(template, length, session, own) });
    }),
    ("station_pair_sheet", |desk| {
        let (template, length, session, own) = pair(desk);
        black_box(unsafe { raw::station_pair_sheet(template, length, session, own, 0) });
    }),
    ("station_pair_cells", |desk| {
        let (template, length, session, own) = pair(desk);
        black_box(unsafe { raw::station_pair_cells(template, length, session, own, 1) });
    }),
    ("station_pair_fetch", |desk| {
        let (template, length, session, own) = pair(desk);
        let (buffer, room) = (desk.units.as_mut_ptr(), desk.units.len());
        black_box(unsafe {
            raw::station_pair_fetch(template, length, session, own, 2, 0, buffer, room)
        });
    }),
    ("station_pair_text", |desk| {
        let (template, length, session, own) = pair(desk);
        let (buffer, room) = (desk.units.as_mut_ptr(), desk.units.len());
        black_box(unsafe {
            raw::station_pair_text(template, length, session, own, 0, 3, 1, buffer, room)
        });
    }),
    ("station_pair_correct", |desk| {
        let Desk {
            template, stream, ..
        } = desk;
        let (template, length) = (template.as_ptr(), template.len());
        let (session, own) = (stream.as_mut_ptr(), stream.len());
        black_box(unsafe {
            raw::station_pair_correct(template, length, session, own, 0, 0, 1, 0, 3.5, 0, 0)
        });
    }),
    ("station_pair_fill", |desk| {
        let (template, length, session, own) = pair(desk);
        let (first, count) = (desk.template_table.as_mut_ptr(), desk.template_table.len());
        let (second, own_count) = (desk.table.as_mut_ptr(), desk.table.len());
        black_box(unsafe {
            raw::station_pair_fill(
                template, length, session, own, first, count, second, own_count,
            )
        });
    }),
    ("station_journal_start", |desk| {
        let Desk {
            stream, journal, ..
        } = desk;
        let (lent, room) = (journal.as_mut_ptr(), journal.len());
        black_box(unsafe { raw::station_journal_start(stream.as_ptr(), stream.len(), lent, room) });
    }),
    ("station_journal_correct", |desk| {
        let Desk {
            stream, journal, ..
        } = desk;
        let (lent, room) = (journal.as_mut_ptr(), journal.len());
        let (bytes, length) = (stream.as_mut_ptr(), stream.len());
        black_box(unsafe {
            raw::station_journal_correct(bytes, length, lent, room, 0, 0, 1, 0, 4.5, 0, 0)
        });
    }),
    ("station_replay", |desk| {
        let Desk {
            stream, journal, ..
        } = desk;
        let (bytes, length) = (stream.as_mut_ptr(), stream.len());
        for backwards in [true, false] {
            black_box(unsafe {
                raw::station_replay(bytes, length, journal.as_ptr(), journal.len(), backwards)
            });
        }
    }),
    ("station_pair_journal_start", |desk| {
        let (template, length, session, own) = pair(desk);
        let (lent, room) = (desk.journal.as_mut_ptr(), desk.journal.len());
        black_box(unsafe {
            raw::station_pair_journal_start(template, length, session, own, lent, room)
        });
    }),
    ("station_pair_journal_correct", |desk| {
        let (template, length, _, own) = pair(desk);
        let session = desk.stream.as_mut_ptr();
        let (lent, room) = (desk.journal.as_mut_ptr(), desk.journal.len());
        black_box(unsafe {
            raw::station_pair_journal_correct(
                template, length, session, own, lent, room, 0, 0, 1, 0, 5.5, 0, 0,
            )
        });
    }),
    ("station_pair_replay", |desk| {
        let (template, length, _, own) = pair(desk);
        let session = desk.stream.as_mut_ptr();
        let (lent, room) = (desk.journal.as_ptr(), desk.journal.len());
        for backwards in [true, false] {
            black_box(unsafe {
                raw::station_pair_replay(template, length, session, own, lent, room, backwards)
            });
        }
    }),
    ("station_compact", |desk| {
        let Desk {
            stream, new_stream, ..
        } = desk;
        let (lent, room) = (new_stream.as_mut_ptr(), new_stream.len());
        black_box(unsafe { raw::station_compact(stream.as_ptr(), stream.len(), lent, room) });
    }),
    ("station_pair_compact", |desk| {
        let (template, length, session, own) = pair(desk);
        let (lent, room) = (desk.new_stream.as_mut_ptr(), desk.new_stream.len());
        black_box(unsafe { raw::station_pair_compact(template, length, session, own, lent, room) });
    }),
    ("station_profile", |desk| {
        let Desk { stream, .. } = desk;
        black_box(unsafe { raw::station_profile(stream.as_ptr(), stream.len()) });
    }),
    ("station_cadence", |desk| {
        let Desk { stream, .. } = desk;
        black_box(unsafe { raw::station_cadence(stream.as_ptr(), stream.len(), 0) });
    }),
    ("station_pairs", |desk| {
        let Desk { stream, .. } = desk;
        black_box(unsafe { raw::station_pairs(stream.as_ptr(), stream.len()) });
    }),
    ("station_next_pair", |desk| {
        let Desk { stream, sheet, .. } = desk;
        let (bytes, length) = (stream.as_ptr(), stream.len());
        let (at, part, level) = (sheet.at, sheet.part, sheet.level);
        black_box(unsafe { raw::station_next_pair(bytes, length, 0, 0, 0, at, part, level, 2) });
    }),
];

/// The template and the session, as slices for C.
fn pair(desk: &Desk) -> (*const u8, usize, *const u8, usize) {
    let Desk {
        template, stream, ..
    } = desk;
    (
        template.as_ptr(),
        template.len(),
        stream.as_ptr(),
        stream.len(),
    )
}

/// The stored cases, sheets in order and in reverse among them, and made streams of each sort: of a million bytes, of a hundred thousand those that are dear
/// to compare, and of the greatest length the one with the most sheets, all in reverse.
fn named_streams() -> Vec<(String, Vec<u8>)> {
    let folder = Path::new(env!("CARGO_MANIFEST_DIR")).join("../../cases");
    let mut named: Vec<_> = fs::read_dir(folder)
        .expect("the folder of cases")
        .map(|entry| entry.expect("an entry").path())
        .filter(|path| path.extension().is_some_and(|extension| extension == "in"))
        .map(|path| {
            let name = path.file_name().expect("a name").display().to_string();
            (name, fs::read(path).expect("a case"))
        })
        .collect();
    assert!(named.iter().any(|(name, _)| name.ends_with("reversed.in")));
    for kind in streams::Big::ALL {
        named.push((format!("{kind:?}"), streams::big(kind, 1_000_000)));
    }
    // Cells in any order among them.
    for kind in streams::Hostile::ALL {
        named.push((format!("{kind:?}"), streams::hostile(kind, 100_000).0));
    }
    named.push(("half used".to_string(), streams::half_used(1_000_000)));
    let longest = streams::big(streams::Big::Reversed, 16_777_216);
    named.push(("the longest, reversed".to_string(), longest));
    named
}

/// A formula inside eight memory tokens.
fn deepest_formula() -> Vec<u8> {
    let mut tokens = vec![0x1E, 0x01, 0x00];
    for _ in 0..8 {
        let length = (tokens.len() as u16).to_le_bytes();
        tokens.splice(0..0, [0x29, length[0], length[1]]);
    }
    assert_eq!(station::judge(&tokens, &[]), Ok(()));
    tokens
}

fn desk(stream: Vec<u8>) -> Desk {
    let room = stream.len() + 1;
    // SAFETY: an empty slice is valid; what it answers is nothing.
    let (check, sheet) = unsafe {
        let nothing: &[u8] = &[];
        (
            raw::station_check(nothing.as_ptr(), 0),
            raw::station_next_sheet(nothing.as_ptr(), 0, 0),
        )
    };
    let case = Path::new(env!("CARGO_MANIFEST_DIR")).join("../../cases/results.in");
    Desk {
        template: TEMPLATE.to_vec(),
        stream,
        other: fs::read(case).expect("a case"),
        tokens: deepest_formula(),
        units: vec![0; station::LONGEST_STRING],
        words: vec![0; 512],
        // For the strings of the streams of a million bytes.
        table: vec![0; 700_000],
        template_table: vec![0; 8],
        journal: vec![0; 1_000],
        new_stream: vec![0; room],
        check,
        sheet,
    }
}

#[test]
fn no_question_needs_more_than_the_header_says() {
    let mut stack = vec![0; LENT];
    let mut deepest = QUESTIONS.map(|(name, _)| (0, name, String::new()));
    for (stream, bytes) in named_streams() {
        let mut desk = desk(bytes);
        for ((name, question), deepest) in QUESTIONS.iter().zip(&mut deepest) {
            let needed = touched(&mut stack, *question, &mut desk);
            assert!(
                needed < LENT,
                "{name} of {stream} needs more than {LENT} bytes"
            );
            if needed > deepest.0 {
                *deepest = (needed, name, stream.clone());
            }
        }
    }
    for (needed, name, stream) in &deepest {
        println!("{name}: {needed} bytes of stack, for {stream}");
    }
    for (needed, name, stream) in deepest {
        assert!(needed > 0, "{name} wasn't asked");
        assert!(
            needed <= ENOUGH,
            "{name} of {stream} needs {needed} bytes of stack"
        );
    }
}

/// The streams, units, words and tables that are lent.
type Lent = ([Vec<u8>; 2], Vec<u16>, Vec<u64>, [Vec<u32>; 2]);

/// What is lent to the questions holds afterwards, once each has been asked.
fn lent_after(stream: Vec<u8>) -> Lent {
    let mut desk = desk(stream);
    for (_, question) in QUESTIONS {
        question(&mut desk);
    }
    let tables = [desk.template_table, desk.table];
    let streams = [desk.stream, desk.new_stream];
    (streams, desk.units, desk.words, tables)
}

/// An embedder's small thread, for sheets in order and out of order.
#[test]
fn every_question_on_a_thread_of_128_kilobytes() {
    for (name, stream) in named_streams() {
        let lent = stream.clone();
        let small = thread::Builder::new().stack_size(128 << 10);
        let asked = small.spawn(|| lent_after(lent)).expect("a thread");
        let after = asked.join().expect("an answer");
        assert!(after == lent_after(stream), "{name}");
    }
}

/// The measure sees what a question touches.
#[test]
fn a_deep_question_is_found_out() {
    let mut stack = vec![0; LENT];
    let shallow = touched(&mut stack, |_| {}, &mut desk(Vec::new()));
    let deep: Question = |_| {
        black_box(&mut [0u8; 100_000]);
    };
    let deep = touched(&mut stack, deep, &mut desk(Vec::new()));
    assert!(shallow < 8_192, "{shallow} bytes for nothing");
    assert!((100_000..120_000).contains(&deep), "{deep} bytes");
}
