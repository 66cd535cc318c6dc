//! Streams put together record by record, whole and damaged.

use dates::{Formats, Kind, System};

const BOF: u16 = 0x0809;
const EOF: u16 = 0x000A;
const DATEMODE: u16 = 0x0022;
const CONTINUE: u16 = 0x003C;
const BOUNDSHEET: u16 = 0x0085;
const XF: u16 = 0x00E0;
const NUMBER: u16 = 0x0203;
const RK: u16 = 0x027E;
const FORMULA: u16 = 0x0006;
const FORMAT: u16 = 0x041E;

fn record(kind: u16, body: &[u8]) -> Vec<u8> {
    let size = body.len() as u16;
    [&kind.to_le_bytes(), &size.to_le_bytes(), body].concat()
}

fn bof(kind: u8) -> Vec<u8> {
    let mut body = vec![0x00, 0x06, kind, 0x00];
    body.resize(16, 0);
    record(BOF, &body)
}

fn datemode(system: u8) -> Vec<u8> {
    record(DATEMODE, &[system, 0])
}

/// An XF record that names this number format.
fn xf(index: u16) -> Vec<u8> {
    let mut body = [0; 20];
    body[2..4].copy_from_slice(&index.to_le_bytes());
    record(XF, &body)
}

fn format_body(index: u16, text: &str) -> Vec<u8> {
    let units: Vec<u16> = text.encode_utf16().collect();
    let wide = units.iter().any(|&unit| unit > 0xFF);
    let mut body = [index, units.len() as u16].map(u16::to_le_bytes).concat();
    body.push(u8::from(wide));
    for unit in units {
        let bytes = unit.to_le_bytes();
        body.extend(&bytes[..if wide { 2 } else { 1 }]);
    }
    body
}

fn format(index: u16, text: &str) -> Vec<u8> {
    record(FORMAT, &format_body(index, text))
}

fn globals(records: &[Vec<u8>]) -> Vec<u8> {
    [bof(0x05), records.concat(), record(EOF, &[])].concat()
}

/// A workbook with one worksheet.
fn workbook(records: &[Vec<u8>], cells: &[Vec<u8>]) -> Vec<u8> {
    let sheet = |position: usize| {
        let position = (position as u32).to_le_bytes();
        record(BOUNDSHEET, &[&position[..], &[0, 0, 1, 0, b'S']].concat())
    };
    let before = globals(&[records.concat(), sheet(0)]).len();
    let globals = globals(&[records.concat(), sheet(before)]);
    [globals, bof(0x10), cells.concat(), record(EOF, &[])].concat()
}

fn cell(kind: u16, row: u16, xf: u16, rest: &[u8]) -> Vec<u8> {
    let head = [row, 0, xf].map(u16::to_le_bytes).concat();
    record(kind, &[&head, rest].concat())
}

fn number(row: u16, xf: u16, number: f64) -> Vec<u8> {
    cell(NUMBER, row, xf, &number.to_le_bytes())
}

/// A formula of the one token 1E 01 00, with this number as its result.
fn formula(row: u16, xf: u16, result: f64) -> Vec<u8> {
    let mut rest = result.to_le_bytes().to_vec();
    rest.extend([0, 0, 0, 0, 0, 0, 3, 0, 0x1E, 1, 0]);
    cell(FORMULA, row, xf, &rest)
}

/// What each cell shows.
fn shown(stream: &[u8]) -> Vec<Option<String>> {
    let workbook = station::check(stream).expect("a stream that passes");
    let formats = Formats::read(stream);
    let cells = workbook.sheets().flat_map(|sheet| sheet.cells());
    cells.map(|cell| formats.show_cell(&cell)).collect()
}

fn is_shown(stream: &[u8], expected: &[&str]) {
    let expected: Vec<_> = expected
        .iter()
        .map(|text| (!text.is_empty()).then(|| text.to_string()))
        .collect();
    assert_eq!(shown(stream), expected);
}

/// The kind of each of the first formats.
fn kinds(stream: &[u8], count: u16) -> Vec<Option<Kind>> {
    let formats = Formats::read(stream);
    (0..count).map(|format| formats.kind(format)).collect()
}

const DATE: Option<Kind> = Some(Kind::Date);
const TIME: Option<Kind> = Some(Kind::Time);
const ELAPSED: Option<Kind> = Some(Kind::Elapsed);

#[test]
fn a_session() {
    let records = |system| {
        [
            datemode(system),
            format(164, "yyyy-mm-dd hh:mm:ss.000"),
            format(165, "yyyy\"年\"m\"月\"d\"日\""),
            format(166, "d/m/yyyy;;"),
            xf(0),
            xf(14),
            xf(164),
            xf(20),
            xf(46),
            xf(165),
            xf(166),
        ]
    };
    // Whole numbers in RK words: shifted by two, with bit 1 set.
    let rk = |row, xf, whole: u32| cell(RK, row, xf, &(whole << 2 | 2).to_le_bytes());
    let cells = [
        number(0, 0, 36_526.0),
        number(1, 1, 36_526.75),
        number(2, 2, 36_526.75),
        number(3, 3, 36_526.75),
        number(4, 4, 1.75),
        number(5, 5, 36_526.75),
        rk(6, 1, 366),
        rk(7, 0, 366),
        formula(8, 1, 59.0),
        formula(9, 0, 59.0),
        number(10, 1, -1.0),
        number(11, 6, 0.0),
        number(12, 6, 1.0),
        number(13, 1, 0.0),
        number(14, 7, 1.0),
        number(15, 65_535, 1.0),
        number(16, 1, f64::NAN),
        number(17, 1, 2_958_465.0),
        cell(0x0201, 18, 1, &[]),
        cell(0x0205, 19, 1, &[1, 0]),
    ];
    is_shown(
        &workbook(&records(0), &cells),
        &[
            "",
            "2000-01-01",
            "2000-01-01T18:00:00",
            "18:00:00",
            "PT42H0M0S",
            "2000-01-01",
            "1900-12-31",
            "",
            "1900-02-28",
            "",
            "",
            "",
            "1900-01-01",
            "1900-01-00",
            "",
            "",
            "",
            "9999-12-31",
            "",
            "",
        ],
    );
    is_shown(
        &workbook(&records(1), &cells),
        &[
            "",
            "2004-01-02",
            "2004-01-02T18:00:00",
            "18:00:00",
            "PT42H0M0S",
            "2004-01-02",
            "1905-01-01",
            "",
            "1904-02-29",
            "",
            "",
            "",
            "1904-01-02",
            "1904-01-01",
            "",
            "",
            "",
            "",
            "",
            "",
        ],
    );
}

/// The last whole FORMAT record of an index says what it is, also where the index is a built-in one; and it may come after the XF record.
#[test]
fn formats_of_one_index() {
    let stream = globals(&[
        datemode(0),
        xf(164),
        xf(165),
        xf(14),
        xf(15),
        xf(59),
        xf(300),
        format(164, "0.00"),
        format(164, "h:mm"),
        format(165, "h:mm"),
        format(165, "0.00"),
        format(14, "0.00"),
        format(59, "mmm d, yyyy"),
        record(FORMAT, &[15, 0, 9, 0, 0, b'0']),
        format(15, ""),
    ]);
    assert_eq!(kinds(&stream, 6), [TIME, None, None, DATE, DATE, None]);
}

#[test]
fn damaged_formats_are_ignored() {
    let whole = format_body(164, "[h]:mm");
    let read = |body: &[u8]| kinds(&globals(&[datemode(0), record(FORMAT, body), xf(164)]), 1)[0];
    assert_eq!(read(&whole), ELAPSED);
    for length in 0..whole.len() {
        assert_eq!(read(&whole[..length]), None, "{length} bytes");
    }
    assert_eq!(read(&[&whole[..], &[0]].concat()), None);
    assert_eq!(read(&format_body(164, "")), None);
    let long = |length: usize| format!("d{}", " ".repeat(length - 1));
    assert_eq!(read(&format_body(164, &long(255))), DATE);
    assert_eq!(read(&format_body(164, &long(256))), None);
    // Two bytes a character, said by bit 0 alone.
    let mut other = whole.clone();
    other[4] = 0xFE;
    assert_eq!(read(&other), ELAPSED);
    other[4] = 0xFF;
    assert_eq!(read(&other), None);
    // The low byte of this character is that of a d.
    assert_eq!(read(&format_body(164, "\u{164}")), None);
    // A damaged one takes nothing from a whole one.
    let cut = record(FORMAT, &whole[..8]);
    let stream = globals(&[datemode(0), record(FORMAT, &whole), cut, xf(164)]);
    assert_eq!(kinds(&stream, 1), [ELAPSED]);
    // What is split over a CONTINUE is cut.
    let parts = [record(FORMAT, &whole[..8]), record(CONTINUE, &whole[8..])];
    let stream = globals(&[datemode(0), parts.concat(), xf(164)]);
    assert_eq!(kinds(&stream, 1), [None]);
}

#[test]
fn damaged_xfs_count() {
    let damaged = |size| record(XF, &xf(14)[4..][..size]);
    let long = record(XF, &[&xf(14)[4..], &[0]].concat());
    let stream = globals(&[
        datemode(0),
        xf(14),
        damaged(19),
        xf(20),
        damaged(0),
        damaged(4),
        long,
        xf(46),
    ]);
    let expected = [DATE, None, TIME, None, None, None, ELAPSED, None];
    assert_eq!(kinds(&stream, 8), expected);
    assert_eq!(kinds(&globals(&[datemode(0)]), 1), [None]);
}

/// Where the date system is open, nothing is a date.
#[test]
fn date_systems() {
    let read = |records: &[Vec<u8>]| {
        let stream = globals(&[records.concat(), xf(14)]);
        let formats = Formats::read(&stream);
        let shown = formats.show(0, 1.0);
        assert_eq!(formats.kind(0).is_some(), formats.system().is_some());
        assert_eq!(shown.is_some(), formats.system().is_some());
        let or = Formats::read_or(&stream, System::From1904).system();
        (formats.system(), or)
    };
    let (a, b) = (Some(System::From1900), Some(System::From1904));
    assert_eq!(read(&[datemode(0)]), (a, a));
    assert_eq!(read(&[datemode(1)]), (b, b));
    assert_eq!(read(&[datemode(1), datemode(1)]), (b, b));
    assert_eq!(read(&[datemode(0), datemode(1)]), (None, None));
    assert_eq!(read(&[datemode(0), datemode(1), datemode(0)]), (None, None));
    assert_eq!(read(&[datemode(2)]), (None, None));
    assert_eq!(read(&[datemode(2), datemode(0)]), (None, None));
    for body in [&[][..], &[0], &[1, 0, 0], &[0, 1], &[1, 1], &[0xFF, 0xFF]] {
        assert_eq!(read(&[record(DATEMODE, body)]), (None, None));
    }
    // None at all.
    assert_eq!(read(&[]), (None, b));
}

/// The same records in a worksheet say nothing.
#[test]
fn only_the_globals_count() {
    let cells = [
        datemode(1),
        format(164, "h:mm"),
        xf(20),
        xf(20),
        number(0, 0, 61.0),
        number(1, 1, 61.0),
    ];
    let stream = workbook(&[datemode(0), format(164, "d/m"), xf(164)], &cells);
    is_shown(&stream, &["1900-03-01", ""]);
}

/// Any bytes have an answer: each stream here is damaged in one place, or cut.
#[test]
fn damaged_streams() {
    let stream = include_bytes!("data/from_1900.bin");
    let ask = |stream: &[u8]| {
        let formats = Formats::read(stream);
        for format in [0, 20, 40, u16::MAX] {
            formats.kind(format);
            formats.show(format, 36_526.75);
        }
    };
    for length in 0..stream.len().min(6_000) {
        ask(&stream[..length]);
    }
    let mut damaged = stream.to_vec();
    for at in 0..stream.len().min(6_000) {
        for byte in [0x00, 0xFF, stream[at] ^ 0x04] {
            damaged[at] = byte;
            ask(&damaged);
        }
        damaged[at] = stream[at];
    }
}

const LONGEST_STREAM: usize = 16_777_216;

/// Globals with these records in front and at the end, and between them as many of the others as a stream has room for.
fn filled(front: &[Vec<u8>], others: &[Vec<u8>], back: &[Vec<u8>]) -> Vec<u8> {
    let others = others.concat();
    let room = LONGEST_STREAM - globals(&[front.concat(), back.concat()]).len();
    let others = others.repeat(room / others.len());
    globals(&[front.concat(), others, back.concat()])
}

#[test]
fn millions_of_formats() {
    let all: Vec<_> = (0..=u16::MAX).map(|index| format(index, "d")).collect();
    let stream = filled(&[datemode(0), xf(0)], &all, &[format(0, "h")]);
    assert!(station::check(&stream).is_ok());
    assert_eq!(kinds(&stream, 1), [TIME]);
    // One index, and strings that are as long as strings can be.
    for text in ["d", "x", "[", "[h", "\"", "m;"] {
        let text = text.repeat(255 / text.len());
        let stream = filled(
            &[datemode(0)],
            &[format(164, &text)],
            &[format(164, "h"), xf(164)],
        );
        assert_eq!(kinds(&stream, 1), [TIME], "{text}");
    }
}

#[test]
fn more_xfs_than_cells_can_name() {
    let xfs: Vec<_> = (14..=22).map(xf).collect();
    let stream = filled(&[datemode(0)], &xfs, &[]);
    assert!(station::check(&stream).is_ok());
    let formats = Formats::read(&stream);
    assert_eq!(formats.kind(0), DATE);
    assert_eq!(formats.kind(4), TIME);
    // 65,535 is 7,281 times 9 and 6 more.
    assert_eq!(formats.kind(u16::MAX), TIME);
    assert_eq!(formats.show(8, 1.5).as_deref(), Some("1900-01-01T12:00:00"));
}
