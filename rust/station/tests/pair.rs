//! One template, many sessions, over the stored pair: the template has two sheets and three strings, the session one sheet and none of its own.

use station::pair::{self, Refused, Whose};
use station::{NewValue, Refusal, SheetKind, Value};

const TEMPLATE: &[u8] = include_bytes!("../../../cases/template.in");
const DAY: &[u8] = include_bytes!("../../../cases/day.in");
/// A stream with a table of its own: three strings.
const CELLS: &[u8] = include_bytes!("../../../cases/cells.in");
const UNIT: u16 = 0x5555;
const NUMBER: u32 = 0x5555_5555;
const NO_PLACE: u32 = 4_294_967_295;

fn refused<A>(number: u8, offset: usize, whose: Option<Whose>) -> Result<A, Refused> {
    let refusal = Refusal { number, offset };
    Err(Refused { whose, refusal })
}

fn units(text: &str) -> Vec<u16> {
    text.encode_utf16().collect()
}

#[test]
fn sheets_of_both() {
    let pair = pair::check(TEMPLATE, DAY).expect("a pair that passes");
    assert_eq!(pair.sheet_count(), 2);
    assert_eq!(pair.sheets_of(Whose::Template), 2);
    assert_eq!(pair.sheets_of(Whose::Session), 1);
    let sheets: Vec<_> = pair
        .sheets()
        .map(|(whose, sheet)| (whose, sheet.name, sheet.rows(), sheet.cells().count()))
        .collect();
    let wanted: [(Whose, &[u8], u32, usize); 2] = [
        (Whose::Session, b"Day 1", 2, 4),
        (Whose::Template, b"Key", 2, 3),
    ];
    assert_eq!(sheets, wanted);
    let told = pair::sheet(TEMPLATE, DAY, 1).expect("a sheet");
    assert_eq!((told.whose, told.name), (Whose::Template, &b"Key"[..]));
    assert_eq!(TEMPLATE[told.name_at..told.name_at + 3], *b"Key");
    assert_eq!((told.kind, told.rows), (SheetKind::Worksheet, 2));
    assert_eq!(pair::sheet(TEMPLATE, DAY, 2), refused(11, 0, None));
    let (whose, cells) = pair::cells(TEMPLATE, DAY, 0).expect("a sheet");
    assert_eq!(whose, Whose::Session);
    assert_eq!(
        cells.last().map(|cell| cell.value()),
        Some(Value::Number(70.0f64.to_bits()))
    );
}

#[test]
fn refusals_say_whose() {
    let check = |template, session| pair::check(template, session).map(|_| ());
    assert_eq!(check(&[], &[]), refused(3, 0, Some(Whose::Template)));
    assert_eq!(check(TEMPLATE, &[]), refused(3, 0, Some(Whose::Session)));
    // Alone, and over a template without strings, its first text cell is refused.
    assert_eq!(
        station::check(DAY).map(|_| ()),
        Err(Refusal {
            number: 9,
            offset: 61
        })
    );
    let bare = include_bytes!("../../../cases/globals-alone.in");
    assert_eq!(check(bare, DAY), refused(9, 61, Some(Whose::Session)));
    assert_eq!(check(DAY, TEMPLATE), refused(9, 61, Some(Whose::Template)));
    let refusal = check(&[], &[]).expect_err("no stream");
    assert_eq!(refusal.line(), "refused 3 at 0 of template");
    assert!(refusal
        .to_string()
        .starts_with("refused 3 at 0 of template: the stream is empty"));
    let refusal = pair::sheet(TEMPLATE, DAY, 2).expect_err("no sheet");
    assert_eq!(refusal.line(), "refused 11 at 0");
}

/// What a fetch answers, and the units that it has written.
fn fetched(session: &[u8], asked: Whose, index: u32) -> Result<(Whose, Vec<u16>), Refused> {
    let mut buffer = [UNIT; 20];
    let (whose, count) = pair::fetch(TEMPLATE, session, asked, index, &mut buffer)?;
    assert_eq!(buffer[count..], [UNIT; 20][count..]);
    Ok((whose, buffer[..count].to_vec()))
}

#[test]
fn strings_of_the_table_that_is_meant() {
    let pulse = Ok((Whose::Template, units("pulse")));
    assert_eq!(fetched(DAY, Whose::Session, 1), pulse);
    assert_eq!(fetched(DAY, Whose::Template, 1), pulse);
    assert_eq!(fetched(DAY, Whose::Session, 3), refused(11, 0, None));
    assert_eq!(
        fetched(CELLS, Whose::Session, 1),
        Ok((Whose::Session, units("zwei")))
    );
    assert_eq!(fetched(CELLS, Whose::Template, 1), pulse);
    let mut short = [UNIT; 4];
    let answer = pair::fetch(TEMPLATE, DAY, Whose::Session, 1, &mut short);
    assert_eq!((answer, short), (refused(12, 0, None), [UNIT; 4]));
    for (session, table) in [(DAY, Whose::Template), (CELLS, Whose::Session)] {
        let pair = pair::check(TEMPLATE, session).expect("a pair that passes");
        assert_eq!(pair.table_of(Whose::Session), table);
        assert_eq!(pair.table_of(Whose::Template), Whose::Template);
        assert_eq!(pair.strings(Whose::Template).count(), 3);
        let own = pair.string_count(Whose::Session) as usize;
        assert_eq!(pair.strings(Whose::Session).count(), own);
    }
}

#[test]
fn texts_of_formulas() {
    let mut buffer = [UNIT; 20];
    let answer = pair::text(TEMPLATE, DAY, 1, 1, 0, &mut buffer);
    assert_eq!(answer, Ok((Whose::Template, 14)));
    assert_eq!(buffer[..14], units("beats a minute"));
    assert_eq!(buffer[14..], [UNIT; 6]);
    // The session's sheet has no formula, and the template's of that number isn't looked at.
    let absent = pair::text(TEMPLATE, DAY, 0, 0, 0, &mut buffer);
    assert_eq!(absent, refused(11, 0, None));
    let pair = pair::check(TEMPLATE, DAY).expect("a pair that passes");
    let (whose, sheet) = pair.sheets().nth(1).expect("a sheet");
    let cell = sheet.cells().last().expect("a cell");
    assert_eq!(pair.text(whose, &cell, &mut buffer), Ok(14));
}

#[test]
fn corrections() {
    let corrected = |sheet, row, column, value| {
        let mut session = DAY.to_vec();
        let answer = pair::correct(TEMPLATE, &mut session, sheet, row, column, value);
        let changed = (0..DAY.len())
            .filter(|&at| session[at] != DAY[at])
            .collect::<Vec<_>>();
        (answer, changed)
    };
    // 70 is 4051800000000000, 72.5 is 4052200000000000.
    assert_eq!(
        corrected(0, 1, 1, NewValue::Number(72.5)),
        (Ok(()), vec![118, 119])
    );
    assert_eq!(corrected(0, 0, 0, NewValue::Text(2)), (Ok(()), vec![71]));
    for (sheet, row, column, value, number) in [
        (0, 0, 0, NewValue::Text(3), 18),
        (0, 0, 0, NewValue::Truth(1), 17),
        (0, 5, 5, NewValue::Truth(1), 11),
        // Aimed at the template, whatever is asked for in it.
        (1, 0, 0, NewValue::Text(0), 17),
        (1, 9, 9, NewValue::Number(f64::NAN), 17),
        (2, 0, 0, NewValue::Text(0), 11),
    ] {
        let answer = corrected(sheet, row, column, value);
        assert_eq!(
            answer,
            (refused(number, 0, None), vec![]),
            "{sheet} {row} {column}"
        );
    }
}

#[test]
fn tables_for_both() {
    let filled = |session: &[u8], first, second| {
        let (mut first, mut second) = (vec![NUMBER; first], vec![NUMBER; second]);
        let answer = pair::fill(TEMPLATE, session, &mut first, &mut second);
        (answer, first, second)
    };
    let pair = pair::check(TEMPLATE, DAY).expect("a pair that passes");
    let places = pair.string_places();
    let plain = station::check(TEMPLATE)
        .expect("a template")
        .string_places();
    assert_eq!(*places.of(Whose::Template), plain);
    assert!(places.of(Whose::Session).is_empty());
    let table = plain.table().to_vec();
    assert_eq!(
        filled(DAY, 6, 2),
        (Ok((3, 0)), table.clone(), vec![NO_PLACE; 2])
    );
    let own = station::check(CELLS).expect("a session").string_places();
    assert_eq!(
        filled(CELLS, 6, 6),
        (Ok((3, 3)), table, own.table().to_vec())
    );
    for (first, second) in [(5, 6), (6, 5), (0, 0)] {
        let unchanged = (
            refused(12, 0, None),
            vec![NUMBER; first],
            vec![NUMBER; second],
        );
        assert_eq!(filled(CELLS, first, second), unchanged);
    }
    // By the indices of the cells, in whichever table they mean; and by the table of the stream that is named.
    let mut buffer = [UNIT; 20];
    let pulse = places.fetch(TEMPLATE, DAY, Whose::Session, 1, &mut buffer);
    assert_eq!(
        (pulse, &buffer[..5]),
        (Ok((Whose::Template, 5)), &units("pulse")[..])
    );
    let absent = places.of(Whose::Session).fetch(DAY, 1, &mut buffer);
    assert_eq!(
        absent,
        Err(Refusal {
            number: 11,
            offset: 0
        })
    );
}
