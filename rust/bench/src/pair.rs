//! Questions over a template and a session, each of 16,000,000 bytes, against two plain checks: a question makes both checks and no more. In turn, the best of many.

use crate::{time, BYTES, TURNS};
use station::pair::{self, Whose};
use station::NewValue;
use streams::Big;

fn measure(kind: Big) -> bool {
    let template = streams::big(kind, BYTES);
    let mut session = template.clone();
    let [mut plain, mut check, mut theirs, mut cells] = [f64::INFINITY; 4];
    let [mut fetch, mut text, mut correct, mut fill] = [f64::INFINITY; 4];
    let mut buffer = vec![0; station::LONGEST_STRING];
    let strings = station::check(&template).map_or(0, |passed| passed.strings as usize);
    let [mut first, mut second] = [vec![0; 2 * strings], vec![0; 2 * strings]];
    let mut same = true;
    for _ in 0..TURNS {
        let both = time(&mut plain, || {
            [&template, &session].map(|stream| station::check(stream).map(|passed| passed.sheets))
        });
        let sheets = time(&mut check, || {
            pair::check(&template, &session).map(|pair| pair.sheet_count())
        });
        let sheets_too = time(&mut theirs, || {
            second_reader::pair_check(&template, &session)
        });
        same &= both[0].is_ok() && sheets.ok() == sheets_too.ok().map(|sheets| sheets as usize);
        same &= time(&mut cells, || pair::cells(&template, &session, 0).is_ok()) == both[1].is_ok();
        let _ = time(&mut fetch, || {
            pair::fetch(&template, &session, Whose::Session, 0, &mut buffer)
        });
        // No cell has this address: all that a question may do is done.
        let _ = time(&mut text, || {
            pair::text(&template, &session, 0, 65_535, 255, &mut buffer)
        });
        let value = NewValue::Number(1.0);
        let _ = time(&mut correct, || {
            pair::correct(&template, &mut session, 0, 65_535, 255, value)
        });
        let filled = time(&mut fill, || {
            pair::fill(&template, &session, &mut first, &mut second)
        });
        same &= filled.is_ok();
    }
    println!(
        "{kind:?}: two checks {plain:.2} ms; over the pair: check {check:.2} ms, ratio {:.2} (the second reader's {theirs:.2} ms), cells {cells:.2} ms, fetch {fetch:.2} ms, text {text:.2} ms, correct {correct:.2} ms, fill {fill:.2} ms{}",
        check / plain,
        if same { "" } else { ": THE ANSWERS DIFFER" },
    );
    same
}

/// Whether all answers were the same.
pub fn run() -> bool {
    let kinds = [Big::Mixed, Big::EmptyStrings, Big::Reversed];
    let same = kinds.map(measure);
    !same.contains(&false)
}
