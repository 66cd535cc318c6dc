//! cadence: its lines, CSV and JSON. What they must say of the stored ride was reckoned by hand.

use crate::made;
use crate::tool::{case, run, run_with};
use crate::words;
use second_reader::Between;

#[test]
fn lines() {
    run(words!["cadence", case("ride.in")]).says(
        0,
        "0\t1024\t1\t60\n1\t768\t1\t80\n2\t0\t0\tnone\n3\t62208\t48\t47\n\
         4\t1024\t2\t120\n5\t-\t-\tpause\n6\t1024\t0\t0\n7\t1536\t2\t80\n",
    );
    run(words!["cadence", case("no-cells.in")]).says(0, "");
}

#[test]
fn csv() {
    run(words!["cadence", case("ride.in"), "--csv"]).says(
        0,
        "row,kind,seconds,ticks,turns,cadence\r\n\
         0,elapsed,1,1024,1,60\r\n\
         1,elapsed,0.75,768,1,80\r\n\
         2,elapsed,0,0,0,\r\n\
         3,elapsed,60.75,62208,48,47\r\n\
         4,elapsed,1,1024,2,120\r\n\
         5,pause,65,,,\r\n\
         6,elapsed,1,1024,0,0\r\n\
         7,elapsed,1.5,1536,2,80\r\n",
    );
    run(words!["cadence", case("no-cells.in"), "--csv"])
        .says(0, "row,kind,seconds,ticks,turns,cadence\r\n");
}

#[test]
fn json() {
    let ran = run(words!["cadence", case("ride.in"), "--json"]);
    let lines: Vec<_> = ran.text().lines().collect();
    assert_eq!((ran.status, &ran.err[..], lines.len()), (Some(0), "", 10));
    assert_eq!(
        lines[..2],
        [
            "{\"pairs\":[",
            "{\"row\":0,\"kind\":\"elapsed\",\"seconds\":1,\"ticks\":1024,\"turns\":1,\"cadence\":60},"
        ]
    );
    assert_eq!(
        lines[3],
        "{\"row\":2,\"kind\":\"elapsed\",\"seconds\":0,\"ticks\":0,\"turns\":0,\"cadence\":null},"
    );
    assert_eq!(
        lines[6],
        "{\"row\":5,\"kind\":\"pause\",\"seconds\":65,\"ticks\":null,\"turns\":null,\"cadence\":null},"
    );
    assert!(!lines[8].ends_with(','));
    assert_eq!(lines[9], "]}");
    run(words!["cadence", case("no-cells.in"), "--json"]).says(0, "{\"pairs\":[\n]}\n");
}

/// A turn a second for five minutes, in which the counter of ticks goes round every 64 seconds, and a pause of 65 seconds, after which it has gone round once more
/// and a second. Without the host's seconds that would be one second with 30 turns.
#[test]
fn no_false_cadence_where_the_ticks_go_round() {
    let mut rows = Vec::new();
    let (mut second, mut turns) = (60, 65_500);
    for row in 0..300 {
        rows.push([1_024 * second, turns, 5_000 + second]);
        let paused = row == 150;
        second += if paused { 65 } else { 1 };
        turns += if paused { 30 } else { 1 };
    }
    let stream = made::session(&rows);
    let wanted: String = (0..299)
        .map(|row| match row {
            150 => "150\t-\t-\tpause\n".to_string(),
            _ => format!("{row}\t1024\t1\t60\n"),
        })
        .collect();
    run_with(&["cadence", "-"], &stream).says(0, &wanted);
    let ran = run_with(&["cadence", "-", "--csv"], &stream);
    assert!(ran.text().contains("\r\n150,pause,65,,,\r\n"));
    let at = |row: usize| (rows[row][0] % 65_536, rows[row][1] % 65_536);
    assert!((0..299).any(|row| at(row + 1).0 < at(row).0), "no round");
    assert_eq!(at(151).0.wrapping_sub(at(150).0) % 65_536, 1_024);
}

/// Where data is asked for, standard output has nothing else; what breaks the session is said.
#[test]
fn refusals() {
    let ran = run(words!["cadence", case("cells.in"), "--csv"]);
    ran.refuses_data("refused 20 at 94");
    assert!(ran
        .err
        .ends_with(": BLANK with row 0, column 0; the first cell\n"));
    run(words!["cadence", case("refused-5-encrypted.in")]).refuses_data("refused 5 at 20");
    run(words!["cadence", case("reversed.in"), "--svg", "-"]).refuses_data("refused 20 at 0");
}

#[test]
fn forms() {
    for two in [
        ["--csv", "--json"],
        ["--csv", "--svg=x"],
        ["--json", "--svg=x"],
    ] {
        run(words!["cadence", case("ride.in"), two[0], two[1]]).fails("one is enough");
    }
    run(words!["cadence", case("ride.in"), "--svg"]).fails("--svg needs a value");
    run(words!["cadence", case("no-such-file")]).fails("no-such-file: ");
}

/// Made sessions: each line after the second reader.
#[test]
fn made_sessions() {
    let mut met = [0; 3];
    for seed in 0..150 {
        let stream = streams::valid_session(seed);
        let rows = second_reader::read(&stream).expect("a session").sheets[0].rows;
        let mut wanted = String::new();
        for row in 0..rows.saturating_sub(1) {
            let (kind, fields) = match second_reader::cadence(&stream, row) {
                Ok(Between::Pause) => (0, "-\t-\tpause".to_string()),
                Ok(Between::Elapsed {
                    ticks,
                    turns,
                    cadence: None,
                }) => (1, format!("{ticks}\t{turns}\tnone")),
                Ok(Between::Elapsed {
                    ticks,
                    turns,
                    cadence: Some(cadence),
                }) => (2, format!("{ticks}\t{turns}\t{cadence}")),
                Err(refusal) => panic!("{refusal:?}"),
            };
            met[kind] += 1;
            wanted += &format!("{row}\t{fields}\n");
        }
        run_with(&["cadence", "-"], &stream).says(0, &wanted);
    }
    assert!(met.iter().all(|count| *count > 20), "{met:?}");
}
