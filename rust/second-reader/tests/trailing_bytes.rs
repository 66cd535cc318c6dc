//! K3: array constants and cached areas, whose data stands after the tokens.

mod common;

use common::*;
use second_reader::{check, judge, read, Refusal};

fn refused(offset: usize) -> Result<(), Refusal> {
    Err(Refusal { number: 13, offset })
}

fn short_of_operands(offset: usize) -> Result<(), Refusal> {
    Err(Refusal { number: 14, offset })
}

/// An array token; nothing of its seven bytes is judged.
const ARRAY: [u8; 8] = [0x20, 0xFF, 0x12, 0x34, 0xFF, 0, 0x26, 0x20];

/// A number.
const NUMBER_ELEMENT: [u8; 9] = [0x01, 0, 0, 0, 0, 0, 0, 0xF0, 0x3F];

/// An array of one column and one row with this element.
fn single(element: &[u8]) -> Vec<u8> {
    [&[0, 0, 0], element].concat()
}

/// A memory token of areas with this inner formula.
fn areas_token(inner: &[u8]) -> Vec<u8> {
    let [low, high] = (inner.len() as u16).to_le_bytes();
    [&[0x26, 9, 9, 9, 9, low, high], inner].concat()
}

/// The data of a memory token: so many areas.
fn areas(count: u16) -> Vec<u8> {
    let mut data = count.to_le_bytes().to_vec();
    data.resize(2 + 8 * usize::from(count), 0xEE);
    data
}

#[test]
fn c1_one_more_column_and_one_more_row_than_told() {
    // Two columns and three rows.
    let with_elements = |count: usize| {
        let mut data = vec![1, 2, 0];
        data.extend(NUMBER_ELEMENT.repeat(count));
        judge(&ARRAY, &data)
    };
    assert_eq!(with_elements(6), Ok(()));
    assert_eq!(with_elements(5), refused(8));
    assert_eq!(with_elements(2), refused(8));
    assert_eq!(with_elements(7), refused(8 + 3 + 54));
    // The rows have two bytes: 1 column, 257 rows.
    let mut data = vec![0, 0, 1];
    data.extend(NUMBER_ELEMENT.repeat(257));
    assert_eq!(judge(&ARRAY, &data), Ok(()));
    // The columns have one: 256 columns, 1 row.
    let mut data = vec![255, 0, 0];
    data.extend(NUMBER_ELEMENT.repeat(256));
    assert_eq!(judge(&ARRAY, &data), Ok(()));
}

#[test]
fn c2_tokens_then_data_token_by_token_then_leftover() {
    let bad = single(&[0x03; 9]);
    let good = single(&NUMBER_ELEMENT);
    // Every fault of the tokens comes first.
    let cut = &ARRAY[..7];
    assert_eq!(judge(cut, &bad), refused(0));
    assert_eq!(
        judge(&[&ARRAY[..], &[0x03]].concat(), &bad),
        short_of_operands(8)
    );
    assert_eq!(judge(&[ARRAY, ARRAY].concat(), &bad), short_of_operands(16));
    assert_eq!(judge(&[&ARRAY[..], &[0xFF]].concat(), &bad), refused(8));
    let unknown_function = [&ARRAY[..], &[0x21, 202, 0]].concat();
    assert_eq!(
        judge(&unknown_function, &bad),
        Err(Refusal {
            number: 15,
            offset: 8
        })
    );
    // Two arrays in one formula of 17 bytes: the first at fault decides.
    let two = [&ARRAY[..], &ARRAY, &[0x03]].concat();
    assert_eq!(judge(&two, &[good.clone(), good.clone()].concat()), Ok(()));
    assert_eq!(
        judge(&two, &[bad.clone(), good.clone()].concat()),
        refused(17)
    );
    assert_eq!(
        judge(&two, &[bad.clone(), bad.clone()].concat()),
        refused(17)
    );
    assert_eq!(judge(&two, &[good.clone(), bad].concat()), refused(17 + 12));
    let left_over = [&good[..], &good, &[0]].concat();
    assert_eq!(judge(&two, &left_over), refused(17 + 24));
}

#[test]
fn c2_the_length_of_the_tokens_comes_before_all() {
    assert_eq!(judge(&[], &[]), refused(0));
    assert_eq!(judge(&[], &[1]), refused(0));
    assert_eq!(judge(&[0x16; 1_801], &[1]), refused(0));
}

#[test]
fn c3_the_offset_is_the_start_of_the_tokens_data() {
    // Not of the element or the byte at fault.
    let mut data = vec![2, 0, 0];
    data.extend(NUMBER_ELEMENT);
    data.extend(NUMBER_ELEMENT);
    data.extend([0x04, 2, 0, 0, 0, 0, 0, 0, 0]);
    assert_eq!(judge(&ARRAY, &data), refused(8));
    // Nothing at all is left, for the first token and for the second.
    assert_eq!(judge(&ARRAY, &[]), refused(8));
    let two = [&ARRAY[..], &ARRAY, &[0x03]].concat();
    assert_eq!(judge(&two, &single(&NUMBER_ELEMENT)), refused(17 + 12));
    assert_eq!(judge(&areas_token(&[0x16]), &[]), refused(8));
    // Cut anywhere.
    let whole = [&[0, 1, 0][..], &NUMBER_ELEMENT, &[0x02, 1, 0, 1, 7, 7]].concat();
    assert_eq!(judge(&ARRAY, &whole), Ok(()));
    for length in 0..whole.len() {
        assert_eq!(judge(&ARRAY, &whole[..length]), refused(8), "{length}");
    }
    let whole = areas(2);
    for length in 0..whole.len() {
        assert_eq!(judge(&areas_token(&[0x16]), &whole[..length]), refused(8));
    }
    // Leftover is where it starts.
    let left_over = [areas(2), vec![0]].concat();
    assert_eq!(judge(&areas_token(&[0x16]), &left_over), refused(8 + 18));
}

#[test]
fn c4_unknown_kinds_of_elements() {
    for which in 0..=255u8 {
        let mut element = [0; 9];
        element[0] = which;
        let answer = judge(&ARRAY, &single(&element));
        match which {
            0x00 | 0x01 | 0x04 | 0x10 => assert_eq!(answer, Ok(())),
            // A text of no characters has four bytes.
            0x02 => assert_eq!(answer, refused(8 + 3 + 4)),
            _ => assert_eq!(answer, refused(8), "{which:02X}"),
        }
    }
}

#[test]
fn c4_truths_and_codes_that_cells_refuse() {
    for byte in 0..=255u8 {
        let truth = single(&[0x04, byte, 9, 9, 9, 9, 9, 9, 9]);
        let wanted = if byte < 2 { Ok(()) } else { refused(8) };
        assert_eq!(judge(&ARRAY, &truth), wanted);
        let code = single(&[0x10, byte, 9, 9, 9, 9, 9, 9, 9]);
        let known = [0x00, 0x07, 0x0F, 0x17, 0x1D, 0x24, 0x2A].contains(&byte);
        let wanted = if known { Ok(()) } else { refused(8) };
        assert_eq!(judge(&ARRAY, &code), wanted);
    }
}

#[test]
fn c4_nothing_else_is_judged() {
    // What stands in an empty element; numbers that are none; infinity.
    assert_eq!(judge(&ARRAY, &single(&[0, 9, 9, 9, 9, 9, 9, 9, 9])), Ok(()));
    for bits in [0x7FF0_0000_0000_0000, 0xFFF8_0000_0000_0001, u64::MAX] {
        let element = [&[1], &u64::to_le_bytes(bits)[..]].concat();
        assert_eq!(judge(&ARRAY, &single(&element)), Ok(()));
    }
    // Texts of 256 characters and more, narrow and wide.
    for (length, flags, bytes) in [(256u16, 0, 256), (300, 1, 600), (8_000, 1, 16_000)] {
        let mut element = vec![0x02];
        element.extend(length.to_le_bytes());
        element.push(flags);
        element.resize(4 + bytes, 0xAB);
        assert_eq!(judge(&ARRAY, &single(&element)), Ok(()));
        element.push(0);
        let end = 8 + 3 + 4 + bytes;
        assert_eq!(judge(&ARRAY, &single(&element)), refused(end));
        element.truncate(3 + bytes);
        assert_eq!(judge(&ARRAY, &single(&element)), refused(8));
    }
    // Bits 2 and 3 of the flags bring no counts, and no bit but the lowest a width.
    for flags in (0..=254u8).step_by(2) {
        assert_eq!(judge(&ARRAY, &single(&[2, 2, 0, flags, 7, 7])), Ok(()));
        let wide = single(&[2, 1, 0, flags + 1, 7, 7]);
        assert_eq!(judge(&ARRAY, &wide), Ok(()));
    }
    assert_eq!(judge(&ARRAY, &single(&[2, 0, 0, 0xFF])), Ok(()));
    // Rows and columns of areas, turned round and past the sheet.
    let turned = [1, 0, 0xFF, 0xFF, 0, 0, 0xFF, 0xFF, 0, 0];
    assert_eq!(judge(&areas_token(&[0x16]), &turned), Ok(()));
}

#[test]
fn c5_no_areas() {
    assert_eq!(judge(&areas_token(&[0x16]), &[0, 0]), Ok(()));
    assert_eq!(judge(&areas_token(&[0x16]), &[0]), refused(8));
    assert_eq!(judge(&areas_token(&[0x16]), &[0, 0, 0]), refused(10));
    // The count has two bytes.
    assert_eq!(judge(&areas_token(&[0x16]), &areas(256)), Ok(()));
    assert_eq!(
        judge(&areas_token(&[0x16]), &[0, 1, 0, 0, 0, 0, 0, 0, 0, 0]),
        refused(8)
    );
}

#[test]
fn c6_any_class() {
    for class in [0x00, 0x20, 0x40] {
        let mut tokens = ARRAY;
        tokens[0] += class;
        assert_eq!(judge(&tokens, &single(&NUMBER_ELEMENT)), Ok(()));
        assert_eq!(judge(&tokens, &[]), refused(8));
        for size in 1..8 {
            assert_eq!(judge(&tokens[..size], &[]), refused(0));
        }
        let mut tokens = areas_token(&[0x16]);
        tokens[0] += class;
        assert_eq!(judge(&tokens, &areas(1)), Ok(()));
        assert_eq!(judge(&tokens, &[]), refused(8));
    }
    // 0x80 and up stay unknown.
    for first in [0x80, 0xA0, 0xA6, 0xC6] {
        let mut tokens = ARRAY;
        tokens[0] = first;
        assert_eq!(judge(&tokens, &[]), refused(0));
    }
}

#[test]
fn c7_the_outer_tokens_data_comes_first() {
    // 7 + 8 bytes: an array inside a memory token.
    let tokens = areas_token(&ARRAY);
    let outer_first = [areas(1), single(&NUMBER_ELEMENT)].concat();
    assert_eq!(judge(&tokens, &outer_first), Ok(()));
    // Turned round, 0 areas use two bytes and 00 01 00 … is no array that is whole.
    let inner_first = [single(&NUMBER_ELEMENT), areas(1)].concat();
    assert_eq!(judge(&tokens, &inner_first), refused(15 + 2));
    assert_eq!(judge(&tokens, &areas(1)), refused(15 + 10));
    // Memory tokens inside each other, and an array after both.
    let nested = [areas_token(&areas_token(&[0x16])), ARRAY.to_vec(), vec![3]].concat();
    assert_eq!(nested.len(), 7 + 7 + 1 + 8 + 1);
    let data = [areas(2), areas(0), single(&NUMBER_ELEMENT)].concat();
    assert_eq!(judge(&nested, &data), Ok(()));
    assert_eq!(
        judge(&nested, &[areas(2), vec![1]].concat()),
        refused(24 + 18)
    );
    let data = [areas(2), areas(1), vec![0, 0]].concat();
    assert_eq!(judge(&nested, &data), refused(24 + 18 + 10));
    // Memory tokens of the other kinds have no data.
    assert_eq!(judge(&[0x29, 1, 0, 0x16], &[0, 0]), refused(4));
    assert_eq!(judge(&[0x27, 0, 0, 0, 0, 1, 0, 0x16], &[0, 0]), refused(8));
    assert_eq!(judge(&[0x28, 0, 0, 0, 0, 1, 0, 0x16], &[0, 0]), refused(8));
}

#[test]
fn c8_no_formula_leaves_bytes_over() {
    assert_eq!(judge(&[0x1E, 1, 0], &[0]), refused(3));
    assert_eq!(judge(&[0x1E, 1, 0], &[0; 500]), refused(3));
    for first in [0x01, 0x02] {
        assert_eq!(judge(&[first, 9, 9, 9, 9], &[]), Ok(()));
        assert_eq!(judge(&[first, 9, 9, 9, 9], &[0]), refused(5));
    }
}

/// A formula inside so many memory tokens of three bytes.
fn in_memory(depth: usize, inner: Vec<u8>) -> Vec<u8> {
    (0..depth).fold(inner, |inner, _| {
        let [low, high] = (inner.len() as u16).to_le_bytes();
        [&[0x29, low, high], &inner[..]].concat()
    })
}

#[test]
fn c9_memory_tokens_with_areas_are_memory_tokens() {
    // The eighth is taken, the ninth is not, whichever it is.
    let eight = in_memory(7, areas_token(&[0x16]));
    assert_eq!(judge(&eight, &areas(1)), Ok(()));
    let nine = in_memory(8, areas_token(&[0x16]));
    assert_eq!(judge(&nine, &areas(1)), refused(24));
    let outermost = areas_token(&in_memory(7, vec![0x16]));
    assert_eq!(judge(&outermost, &areas(1)), Ok(()));
    let outermost = areas_token(&in_memory(8, vec![0x16]));
    assert_eq!(judge(&outermost, &areas(1)), refused(7 + 21));
    // Cut, of no length, past its end: before the inner bytes.
    for size in 1..7 {
        assert_eq!(judge(&areas_token(&[0x16])[..size], &areas(1)), refused(0));
    }
    assert_eq!(
        judge(&[0x26, 9, 9, 9, 9, 0, 0, 0x16], &areas(1)),
        refused(0)
    );
    assert_eq!(
        judge(&[0x26, 9, 9, 9, 9, 2, 0, 0xFF], &areas(1)),
        refused(0)
    );
    // Its length counts against the formula that holds it directly.
    let outreaching = [&[0x29, 8, 0, 0x26, 9, 9, 9, 9, 2, 0, 0x16][..], &[0x15]].concat();
    assert_eq!(judge(&outreaching, &areas(1)), refused(3));
    // Its inner bytes have a stack of their own.
    assert_eq!(judge(&areas_token(&[0xFF]), &areas(1)), refused(7));
    assert_eq!(
        judge(&areas_token(&[0x12]), &areas(1)),
        short_of_operands(7)
    );
    assert_eq!(
        judge(&areas_token(&[0x16, 0x16]), &areas(1)),
        short_of_operands(9)
    );
    let borrowing = [&[0x16], &areas_token(&[0x12])[..]].concat();
    assert_eq!(judge(&borrowing, &areas(1)), short_of_operands(8));
}

#[test]
fn c10_the_bytes_after_a_listed_formulas_tokens() {
    let result = 1f64.to_bits().to_le_bytes();
    let data = single(&NUMBER_ELEMENT);
    for after in [&[][..], &[7], &data] {
        let sheet = sheet_with(0, FORMULA, &formula_body(result, &ARRAY, after));
        let cell = read(&sheet.bytes).unwrap().sheets.remove(0).cells.remove(0);
        assert_eq!(sheet.bytes[cell.tokens.clone()], ARRAY);
        assert_eq!(&sheet.bytes[cell.trailing.clone()], after);
        assert_eq!(cell.tokens.end, cell.trailing.start);
        assert_eq!(cell.trailing.end, sheet.first + 4 + 22 + 8 + after.len());
    }
    // A token length of 0: all that is left is trailing.
    let sheet = sheet_with(0, FORMULA, &formula_body(result, &[], &[1, 2]));
    let cell = read(&sheet.bytes).unwrap().sheets.remove(0).cells.remove(0);
    assert_eq!(cell.tokens.len(), 0);
    assert_eq!(sheet.bytes[cell.trailing], [1, 2]);
    // The data never runs on.
    let run_on = one_sheet(WORKSHEET, 0, |book| {
        book.record(FORMULA, &formula_body(result, &ARRAY, &data[..5]));
        book.record(CONTINUE, &data[5..]);
    });
    let refusal = check(&run_on.bytes).unwrap_err();
    assert_eq!(refusal.number, 7);
}

#[test]
fn c10_more_bytes_than_a_record_has() {
    let mut data = vec![255, 255, 0];
    data.extend([0x02, 0, 0, 0].repeat(256 * 256));
    assert_eq!(judge(&ARRAY, &data), Ok(()));
    data.pop();
    assert_eq!(judge(&ARRAY, &data), refused(8));
}

#[test]
fn c11_as_many_elements_as_can_be_told() {
    let mut data = vec![255, 255, 255];
    assert_eq!(judge(&ARRAY, &data), refused(8));
    data.extend(NUMBER_ELEMENT.repeat(1_000));
    assert_eq!(judge(&ARRAY, &data), refused(8));
}
