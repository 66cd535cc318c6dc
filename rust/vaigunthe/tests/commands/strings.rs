//! strings, and how texts are written in lines.

use crate::made::{one, units};
use crate::parse::unescape_line;
use crate::tool::{case, run, run_with};
use crate::words;

#[test]
fn indices_and_texts() {
    run(words!["strings", case("cells.in")]).says(0, "0\tone\n1\tzwei\n2\t\n");
    run(words!["strings", case("strings-over-continues.in")]).says(0, "0\tabΩωc\n1\tnext\n");
    run(words!["strings", case("no-cells.in")]).says(0, "");
    run(words!["strings", case("refused-8-cut.in")]).refuses_data("refused 8 at 20");
}

#[test]
fn escapes() {
    let texts = [
        (units("tab\t line\n return\r"), "tab\\t line\\n return\\r"),
        (units("back\\slash \\n"), "back\\\\slash \\\\n"),
        (
            units("\0\u{1}\u{1B}[31m\u{1F}\u{7F}"),
            "\\u{0}\\u{1}\\u{1B}[31m\\u{1F}\\u{7F}",
        ),
        (
            units("\u{80}\u{85}\u{9F}\u{A0}"),
            "\\u{80}\\u{85}\\u{9F}\u{A0}",
        ),
        (units("\u{2028}\u{2029}"), "\\u{2028}\\u{2029}"),
        (
            units("\u{61C}\u{200E}\u{200F}\u{202A}\u{202B}\u{202C}\u{202D}\u{202E}"),
            "\\u{61C}\\u{200E}\\u{200F}\\u{202A}\\u{202B}\\u{202C}\\u{202D}\\u{202E}",
        ),
        (
            units("\u{2066}\u{2067}\u{2068}\u{2069}"),
            "\\u{2066}\\u{2067}\\u{2068}\\u{2069}",
        ),
        (vec![0xD83D, 0xDE00], "😀"),
        (vec![0xDE00, 0xD83D], "\\u{DE00}\\u{D83D}"),
        (vec![0xD83D, 0xD83D, 0xDE00], "\\u{D83D}😀"),
        (units("日本 \"quoted\" שלום"), "日本 \"quoted\" שלום"),
        (vec![0xFFFF, 0xFEFF], "\u{FFFF}\u{FEFF}"),
    ];
    let strings: Vec<_> = texts.iter().map(|(units, _)| units.clone()).collect();
    let lines: String = texts
        .iter()
        .enumerate()
        .map(|(index, (_, text))| format!("{index}\t{text}\n"))
        .collect();
    run_with(&["strings", "-"], &one(&strings, vec![])).says(0, &lines);
}

/// Whatever units there are, the line is one line, and its text says them all.
#[test]
fn made_streams() {
    let mut seen = 0;
    for seed in 0..150 {
        let stream = streams::valid(seed);
        let reading = second_reader::read(&stream).expect("a valid stream");
        let ran = run_with(&["strings", "-"], &stream);
        assert_eq!(ran.status, Some(0));
        let lines: Vec<_> = ran.text().split_terminator('\n').collect();
        assert_eq!(lines.len(), reading.strings.len(), "seed {seed}");
        for (index, (line, string)) in lines.iter().zip(&reading.strings).enumerate() {
            let (number, text) = line.split_once('\t').expect("a tab");
            assert_eq!(number, index.to_string());
            assert!(!text.contains(|c: char| c.is_control()), "seed {seed}");
            assert_eq!(&unescape_line(text), string, "seed {seed}");
            seen += 1;
        }
    }
    assert!(seen > 500, "only {seen} strings");
}
