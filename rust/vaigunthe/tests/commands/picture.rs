//! The picture that cadence draws.

use crate::made;
use crate::tool::{case, finish, run, run_with, Folder, TOOL};
use crate::words;
use std::fs;
use std::io::ErrorKind;
use std::process::Command;

fn drawn(stream: &[u8]) -> String {
    let ran = run_with(&["cadence", "-", "--svg", "-"], stream);
    assert_eq!((ran.status, &ran.err[..]), (Some(0), ""));
    ran.text().to_string()
}

/// What stands in the attribute d of the path with this paint.
fn path<'p>(picture: &'p str, paint: &str) -> &'p str {
    let line = picture
        .lines()
        .find(|line| line.starts_with("<path") && line.contains(paint))
        .expect("the path");
    let (_, d) = line.split_once(" d=\"").expect("its points");
    d.split_once('"').expect("its end").0
}

const LINE: &str = "stroke-width";
const PAUSES: &str = "<path fill=\"#";

/// The texts of a picture.
fn texts(picture: &str) -> Vec<&str> {
    picture
        .lines()
        .filter_map(|line| line.strip_prefix("<text "))
        .filter_map(|line| line.strip_suffix("</text>"))
        .filter_map(|line| line.rsplit_once('>'))
        .map(|(_, text)| text)
        .collect()
}

#[test]
fn a_ride() {
    let folder = Folder::new();
    let out = folder.at("ride.svg");
    run(words!["cadence", case("ride.in"), "--svg", out]).says(0, "");
    let picture = fs::read_to_string(out).expect("the picture");
    assert_eq!(folder.names(), ["ride.svg"]);
    assert_eq!(
        texts(&picture),
        [
            "Cadence of ride.in",
            "8 pairs of rows, 2 min 11 s, 1 pause (grey)",
            "0",
            "20",
            "40",
            "60",
            "80",
            "100",
            "120",
            "cadence, turns per minute",
            "0.0",
            "0.5",
            "1.0",
            "1.5",
            "2.0",
            "elapsed time, min"
        ]
    );
    // one part before the pause and one after it
    assert_eq!(path(&picture, LINE).matches('M').count(), 2);
    assert_eq!(path(&picture, PAUSES).matches('M').count(), 1);
}

/// Nothing comes from elsewhere, and nothing is run.
#[test]
fn stands_alone() {
    let picture = drawn(&fs::read(case("ride.in")).expect("the ride"));
    let inside = picture.replace("xmlns=\"http://www.w3.org/2000/svg\"", "");
    for word in ["script", "href", "http", "url(", "@", "style", "<!"] {
        assert!(!inside.contains(word), "{word}");
    }
    assert!(picture.contains(">Cadence of standard input</text>"));
}

/// A name is text, whatever it holds.
#[test]
fn names_in_the_title() {
    let folder = Folder::new();
    let ride = fs::read(case("ride.in")).expect("the ride");
    for (name, shown) in [
        ("a&b<c>\"d'", "a&amp;b&lt;c&gt;\"d'".to_string()),
        ("]]>", "]]&gt;".to_string()),
        ("tab\t\u{1b}\u{FFFE}", "tab\\t\\u{1B}\\u{FFFE}".to_string()),
        ("Größe 名前", "Größe 名前".to_string()),
        (&"x".repeat(200), "x".repeat(200)),
    ] {
        let file = folder.put(name, &ride);
        let ran = run(words!["cadence", file, "--svg", "-"]);
        let title = format!("<title>Cadence of {shown}</title>");
        assert!(ran.text().contains(&title), "{}", ran.text());
        let longest = texts(ran.text())
            .iter()
            .map(|text| text.chars().count())
            .max();
        assert!(longest <= Some(80), "{longest:?}");
    }
}

/// Sessions with nothing to draw say so.
#[test]
fn without_a_line() {
    let empty = drawn(&fs::read(case("no-cells.in")).expect("an input"));
    assert!(texts(&empty).contains(&"no two rows to compare"));
    assert!(texts(&empty).contains(&"no pair of rows, 0 s, no pause"));
    for rows in [
        // no tick, and nothing but pauses
        vec![[5, 7, 1]; 20],
        vec![[0, 0, 0], [0, 0, 100], [0, 0, 400]],
    ] {
        let picture = drawn(&made::session(&rows));
        assert!(texts(&picture).contains(&"no cadence"), "{picture}");
        assert_eq!(path(&picture, LINE), "");
    }
    let one = drawn(&made::session(&[[1, 2, 3]]));
    assert!(texts(&one).contains(&"no two rows to compare"));
}

/// As many rows as there may be, with pauses here and there, and with one after each pair.
#[test]
fn a_long_session_stays_small() {
    for (every, most) in [(usize::MAX, 60_000), (500, 60_000), (2, 200_000)] {
        let mut rows = Vec::new();
        let mut now = [0u64; 3];
        for row in 1..=65_536usize {
            rows.push(now);
            let more = (row * 7_919 % 1_000) as u64;
            now = match row % every {
                0 => [now[0] + more, now[1], now[2] + 64],
                _ => [now[0] + 300 + more, now[1] + more % 3, now[2] + 1],
            };
        }
        let picture = drawn(&made::session(&rows));
        assert!(picture.len() < most, "{} bytes", picture.len());
        assert!(texts(&picture)[1].starts_with("65,535 pairs of rows, "));
    }
}

/// The file that is read is never written over, and one that can't be written is left as it is.
#[test]
fn files() {
    let folder = Folder::new();
    let ride = fs::read(case("ride.in")).expect("the ride");
    let file = folder.put("ride", &ride);
    run(words!["cadence", file, "--svg", file]).fails("not written over");
    assert_eq!(fs::read(&file).expect("the ride"), ride);
    run(words!["cadence", file, "--svg", folder.path()]).fails("not a regular file");
    run(words!["cadence", file, "--svg", folder.at("none/x.svg")]).fails("none/x.svg: ");
    let cells = case("cells.in");
    run(words!["cadence", cells, "--svg", folder.at("x.svg")]).refuses_data("refused 20 at 94");
    assert_eq!(folder.names(), ["ride"]);
}

/// Where the machine can draw it, it does so without a word.
#[test]
fn can_be_drawn() {
    let call = format!("'{TOOL}' cadence - --svg - | rsvg-convert");
    let there = Command::new("rsvg-convert").arg("--version").output();
    if there.is_err_and(|error| error.kind() == ErrorKind::NotFound) {
        return;
    }
    let ride = fs::read(case("ride.in")).expect("the ride");
    let ran = finish(Command::new("bash").args(["-c", &call]), &ride);
    assert_eq!((ran.status, &ran.err[..]), (Some(0), ""));
    assert!(ran.out.starts_with(b"\x89PNG"));
}
