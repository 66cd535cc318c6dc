//! Streams whose unused strings are to be left out: tables of which some, all or
//! no strings are used, in every width and split; records that point to strings
//! and rows, where they go and where they stay; text cells that are passed over.

use crate::big::{append_texts, one_sheet, TableWriter, EOF_SIZE, TEXT_SIZE};
use crate::questions::own_strings;
use crate::record::{bof, kind, word_at, Book, Record, Tie, HEADER_SIZE, LONGEST_BODY};
use crate::rng::Rng;
use crate::table::{Style, Table};
use crate::{damage, pairs, workbook, Pair, LONGEST};

/// A record that points to strings, and one that points to rows.
const EXTSST: u16 = 0x00FF;
const INDEX: u16 = 0x020B;

/// How many cells are put in to show as many strings at most.
const MOST_SHOWN: usize = 60;

/// A workbook that breaks no rule.
pub(crate) fn valid(rng: &mut Rng) -> Book {
    let mut book = workbook::valid(rng, false).0;
    dress(rng, &mut book, 0);
    book
}

/// A stream of any sort.
pub(crate) fn any(rng: &mut Rng) -> Vec<u8> {
    let book = valid(rng);
    let mut stream = match rng.percent(25) {
        true => damage::damaged(rng, book),
        false => book.write(),
    };
    stream.truncate(LONGEST);
    stream
}

/// A template and a session of any sort.
pub(crate) fn pair(rng: &mut Rng) -> Pair {
    pairs::any_with(rng, dress)
}

/// Makes of a workbook what this is about. Without a table of its own its text
/// indices mean one of so many strings.
fn dress(rng: &mut Rng, book: &mut Book, lent: u32) {
    let sort = match rng.below(100) {
        0..=15 => Sort::Grows,
        16..=18 => Sort::Large,
        19..=70 => Sort::Plain,
        _ => Sort::AsItIs,
    };
    another_table(rng, book, sort);
    let meant = own_strings(&book.write()).unwrap_or(lent);
    let all = matches!(sort, Sort::Grows | Sort::Large);
    texts(rng, book, meant, all);
    if sort != Sort::Grows && rng.percent(70) {
        put_in(rng, book);
    }
    book.name_sheets();
}

/// What the table is to be like.
#[derive(Clone, Copy, PartialEq)]
enum Sort {
    /// All strings are used, and some are in two widths.
    Grows,
    /// All are used, and they take more than one segment.
    Large,
    /// Wide ones may go into a byte a character.
    Plain,
    AsItIs,
}

/// Puts another table in the place of the one that there is.
fn another_table(rng: &mut Rng, book: &mut Book, sort: Sort) {
    let is_table = |record: &Record| record.kind == kind::SST;
    let Some(first) = book.records.iter().position(is_table) else {
        return;
    };
    let is_more = |record: &&Record| record.kind == kind::CONTINUE;
    let more = book.records[first + 1..].iter().take_while(is_more).count();
    let old = first..first + 1 + more;
    let sizes = book.records[old.clone()]
        .iter()
        .map(|record| record.body.len());
    let mut budget = sizes.sum::<usize>().clamp(40, 20_000);
    match sort {
        Sort::Grows => budget = budget.max(800),
        Sort::Large => budget = rng.between(LONGEST_BODY, 26_000),
        Sort::Plain | Sort::AsItIs => {}
    }
    let mut style = Style::pick(rng, budget);
    match sort {
        Sort::AsItIs => return,
        Sort::Grows => {
            style.break_percent = 15;
            style.longest = 2_000;
            style.extras_percent = 0;
        }
        Sort::Large => {
            style.longest = rng.pick(&[300, 3_000, 20_000]);
            style.most_runs = 900;
            style.most_phonetic = 4_000;
        }
        Sort::Plain => {
            style.break_percent = rng.pick(&[0, 0, 1, 3, 20]);
            style.plain_percent = rng.pick(&[20, 60]);
        }
    }
    let table = Table::in_style(rng, budget, false, style);
    let kinds = std::iter::once(kind::SST).chain(std::iter::repeat(kind::CONTINUE));
    let records = kinds
        .zip(table.segments)
        .map(|(kind, body)| Record::new(kind, body));
    book.records.splice(old, records);
}

/// Which of so many strings cells show.
#[derive(Clone, Copy)]
enum Shown {
    /// Each after the other.
    All,
    Any,
    /// Every second.
    Even,
    /// Only the first, or only the last.
    One(u32),
    /// Those of the second half.
    Later,
}

impl Shown {
    fn pick(rng: &mut Rng, strings: u32) -> Self {
        match rng.below(10) {
            0..=3 => Shown::All,
            4..=5 => Shown::Any,
            6 => Shown::Even,
            7 => Shown::One(rng.pick(&[0, strings - 1])),
            _ => Shown::Later,
        }
    }

    /// The index of a text cell, which is the so many-th.
    fn index(self, rng: &mut Rng, number: usize, strings: u32) -> u32 {
        let count = strings as usize;
        let index = match self {
            Shown::All => number % count,
            Shown::Any => rng.below(count),
            Shown::Even => rng.below(count.div_ceil(2)) * 2,
            Shown::One(index) => index as usize,
            Shown::Later => count - 1 - rng.below(count.div_ceil(2)),
        };
        index as u32
    }
}

/// Gives text cells other indices, makes some of other cells, and puts in more.
/// Where there are no strings there are no text cells.
fn texts(rng: &mut Rng, book: &mut Book, strings: u32, all: bool) {
    if strings == 0 {
        return no_texts(book);
    }
    let shown = match all {
        true => Shown::All,
        false => Shown::pick(rng, strings),
    };
    if matches!(shown, Shown::All) || rng.percent(15) {
        put_texts_in(rng, book, strings as usize);
    }
    let made_percent = rng.pick(&[0, 0, 40, 100]);
    let mut number = rng.below(strings as usize);
    for place in listed(book) {
        let record = &mut book.records[place];
        match record.kind {
            kind::LABELSST => {}
            kind::RK | kind::BLANK if rng.percent(made_percent) => record.kind = kind::LABELSST,
            _ => continue,
        }
        let index = shown.index(rng, number, strings);
        number += 1;
        record.body.truncate(6);
        record.body.extend(index.to_le_bytes());
    }
}

/// Numbers in the place of all text cells.
fn no_texts(book: &mut Book) {
    for place in listed(book) {
        let record = &mut book.records[place];
        if record.kind == kind::LABELSST {
            record.kind = kind::RK;
            record.body[6..10].copy_from_slice(&0x3FF0_0000_u32.to_le_bytes());
        }
    }
}

/// Text cells at the end of a worksheet, as many as there are strings.
fn put_texts_in(rng: &mut Rng, book: &mut Book, strings: usize) {
    let gaps = gaps(book);
    let ends: Vec<&Gap> = gaps
        .iter()
        .filter(|gap| gap.is_listed() && book.records[gap.place].kind == kind::EOF)
        .collect();
    if ends.is_empty() {
        return;
    }
    let place = ends[rng.below(ends.len())].place;
    let row = rng.word();
    let cells = (0..strings.min(MOST_SHOWN)).map(|column| {
        let [low, high] = row.to_le_bytes();
        let body = vec![low, high, column as u8, 0, 15, 0, 0, 0, 0, 0];
        Record::new(kind::LABELSST, body)
    });
    book.records.splice(place..place, cells);
}

/// A place between two records where another may stand, before that of this
/// number: no table and no formula's text is torn apart.
struct Gap {
    place: usize,
    /// The kind of the top-level substream.
    top: u16,
    /// 1 for the substream itself.
    depth: usize,
}

impl Gap {
    /// Whether a cell is read here.
    fn is_listed(&self) -> bool {
        self.top == bof::WORKSHEET && self.depth == 1
    }
}

fn gaps(book: &Book) -> Vec<Gap> {
    let mut gaps = Vec::new();
    let (mut top, mut depth) = (0, 0);
    for (place, record) in book.records.iter().enumerate() {
        let joined = matches!(record.kind, kind::CONTINUE | kind::STRING)
            || kind::BETWEEN.contains(&record.kind);
        if depth > 0 && !joined {
            gaps.push(Gap { place, top, depth });
        }
        match record.kind {
            kind::BOF => {
                depth += 1;
                if depth == 1 {
                    top = word_at(&record.body, 2).unwrap_or(0);
                }
            }
            kind::EOF => depth -= 1,
            _ => {}
        }
    }
    gaps
}

/// The places of the records that stand where cells are read.
fn listed(book: &Book) -> Vec<usize> {
    let listed = gaps(book).into_iter().filter(Gap::is_listed);
    listed.map(|gap| gap.place).collect()
}

/// Puts in records that point to strings and rows, with CONTINUEs, in the globals
/// and in sheets and charts; and text cells where none is read.
fn put_in(rng: &mut Rng, book: &mut Book) {
    let gaps = gaps(book);
    let mut chosen: Vec<&Gap> = (0..rng.between(1, 6))
        .map(|_| &gaps[rng.below(gaps.len())])
        .collect();
    // From the end, so that the places before stay what they are.
    chosen.sort_by_key(|gap| gap.place);
    for gap in chosen.into_iter().rev() {
        let pointer = if gap.top == bof::GLOBALS {
            EXTSST
        } else {
            INDEX
        };
        let kind = match rng.below(10) {
            0..=6 => pointer,
            7 => EXTSST + INDEX - pointer,
            _ if gap.is_listed() => pointer,
            _ => kind::LABELSST,
        };
        let size = match kind {
            kind::LABELSST => 10,
            _ => rng.mostly_small(0, 40),
        };
        let mut records = vec![Record::new(kind, rng.bytes(size))];
        while rng.percent(30) {
            let size = rng.mostly_small(0, 20);
            records.push(Record::new(kind::CONTINUE, rng.bytes(size)));
        }
        book.records.splice(gap.place..gap.place, records);
    }
}

/// How many bytes are lent for a new stream of so many.
pub(crate) fn rooms(rng: &mut Rng, written: usize) -> [usize; 4] {
    let longer = written + rng.between(1, 40);
    [longer, written, written.saturating_sub(1), 0]
}

/// A stream whose new one has this many bytes: one string that is narrow in its
/// first segment and has a wide character in the next, and zeros at the end.
pub(crate) fn growing(rng: &mut Rng, written: usize) -> Vec<u8> {
    // What it takes as one segment: wide, after both counts and its head.
    const MOST: usize = (LONGEST_BODY - 8 - 3) / 2 - 1;
    let narrow = rng.between(6, MOST);
    let mut book = Book::default();
    book.push(Record::bof(rng, bof::GLOBALS, Tie::None));
    let body = vec![0, 0, 0, 0, 0, 0, 1, 0, b'a'];
    book.push(Record::tied(kind::BOUNDSHEET, body, Tie::Names(0)));
    let mut first = vec![0, 0, 0, 0, 1, 0, 0, 0];
    first.extend((narrow as u16 + 1).to_le_bytes());
    first.push(0);
    rng.append(&mut first, narrow);
    book.push(Record::new(kind::SST, first));
    book.push(Record::new(kind::CONTINUE, vec![1, rng.byte(), 3]));
    book.push(Record::eof());
    book.push(Record::bof(rng, bof::WORKSHEET, Tie::Starts(0)));
    for row in 0..rng.between(1, 9) {
        let body = vec![row as u8, 0, 0, 0, 15, 0, 0, 0, 0, 0];
        book.push(Record::new(kind::LABELSST, body));
    }
    book.push(Record::eof());
    book.name_sheets();
    let mut stream = book.write();
    // Twice the narrow characters, and no longer a header and a flags byte.
    let grows = narrow + 2 - (HEADER_SIZE + 3);
    stream.resize(written - grows, 0);
    stream
}

/// A valid stream of exactly so many bytes, at least 400: a string for each forty,
/// of which text cells show every second, in no order.
pub(crate) fn half_used(bytes: usize) -> Vec<u8> {
    /// Prime to every number of strings below it.
    const STEP: usize = 1_000_003;
    let mut stream = one_sheet(
        &mut Rng::new(200),
        bytes,
        |rng, stream| {
            let mut table = TableWriter::start(stream);
            (0..bytes / 40).for_each(|_| table.random_string(rng, 28));
            table.finish()
        },
        |_, stream, unique| {
            let used = unique as usize / 2;
            let mut cell = 0;
            let cells = (bytes - EOF_SIZE - stream.len()) / TEXT_SIZE;
            append_texts(stream, 0..cells, || {
                let index = cell * STEP % used * 2;
                cell += 1;
                index as u32
            });
        },
    );
    stream.resize(bytes, 0);
    stream
}
