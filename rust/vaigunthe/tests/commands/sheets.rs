//! sheets.

use crate::made::{self, units, Sheet};
use crate::parse::unescape_line;
use crate::tool::{case, run, run_with};
use crate::words;

#[test]
fn numbers_types_rows_cells_and_names() {
    run(words!["sheets", case("chart-and-macro.in")]).says(
        0,
        "0\tchart\t0\t0\tChart1\n1\tmacro\t0\t0\tMacro1\n2\tworksheet\t2\t1\tSheet1\n",
    );
    run(words!["sheets", case("reversed.in")]).says(
        0,
        "0\tworksheet\t2\t1\tSecond\n1\tworksheet\t12\t2\tErstes Blatt\n",
    );
    run(words!["sheets", case("row-65535.in")]).says(0, "0\tworksheet\t65536\t1\tSheet1\n");
    run(words!["sheets", case("globals-alone.in")]).says(0, "");
    run(words!["sheets", case("refused-5-encrypted.in")]).refuses_data("refused 5 at 20");
}

#[test]
fn names_that_would_break_a_line() {
    let sheet = |kind, name| Sheet {
        kind,
        name,
        records: vec![],
    };
    let stream = made::book(
        &[],
        &[
            sheet(made::WORKSHEET, units("tab\there")),
            sheet(made::MACRO, units("Größe 😀")),
            sheet(made::CHART, vec![0x61, 0xD800, 0x62]),
            sheet(made::CHART, units("\u{202E}x\\")),
        ],
    );
    run_with(&["sheets", "-"], &stream).says(
        0,
        "0\tworksheet\t0\t0\ttab\\there\n\
         1\tmacro\t0\t0\tGröße 😀\n\
         2\tchart\t0\t0\ta\\u{D800}b\n\
         3\tchart\t0\t0\t\\u{202E}x\\\\\n",
    );
}

#[test]
fn made_streams() {
    for seed in 0..150 {
        let stream = streams::valid(seed);
        let reading = second_reader::read(&stream).expect("a valid stream");
        let ran = run_with(&["sheets", "-"], &stream);
        assert_eq!(ran.status, Some(0));
        let lines: Vec<_> = ran.text().lines().collect();
        assert_eq!(lines.len(), reading.sheets.len());
        for (number, (line, sheet)) in lines.iter().zip(&reading.sheets).enumerate() {
            let kind = ["worksheet", "macro", "chart"][sheet.sheet_type as usize];
            let fields: Vec<_> = line.split('\t').collect();
            let counts = [number, sheet.rows as usize, sheet.cells.len()].map(|n| n.to_string());
            let [number, rows, cells] = counts;
            assert_eq!(fields[..4], [&number, kind, &rows, &cells], "seed {seed}");
            let name = &stream[sheet.name.clone()];
            let name: Vec<u16> = if sheet.wide {
                let pairs = name.chunks(2);
                pairs
                    .map(|pair| u16::from_le_bytes([pair[0], pair[1]]))
                    .collect()
            } else {
                name.iter().copied().map(u16::from).collect()
            };
            assert_eq!(fields.len(), 5, "seed {seed}");
            assert_eq!(unescape_line(fields[4]), name, "seed {seed}");
        }
    }
}
