//! Workbooks that another library wrote, and what it says of their dates: `data/make` says how they were made.

use dates::{Formats, System};

/// Every cell of the first sheet must show what the lines say, a number where they say nothing.
fn compare(stream: &[u8], lines: &str, system: System) {
    let formats = Formats::read(stream);
    assert_eq!(formats.system(), Some(system));
    let workbook = station::check(stream).expect("a stream that passes");
    let sheet = workbook.sheets().next().expect("a sheet");
    let mut lines = lines.lines().skip(1);
    for cell in sheet.cells() {
        let line = lines.next().expect("a line for each cell");
        let shown = formats.show_cell(&cell).unwrap_or_default();
        let start = format!("{}\t{}\t", cell.row(), cell.column());
        assert!(line.starts_with(&start), "{line}");
        assert_eq!(line.rsplit('\t').next(), Some(&*shown), "{line}");
    }
    assert_eq!(lines.next(), None);
}

#[test]
fn from_1900() {
    compare(
        include_bytes!("data/from_1900.bin"),
        include_str!("data/from_1900.tsv"),
        System::From1900,
    );
}

#[test]
fn from_1904() {
    compare(
        include_bytes!("data/from_1904.bin"),
        include_str!("data/from_1904.tsv"),
        System::From1904,
    );
}
