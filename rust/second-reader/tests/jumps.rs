//! K2: conditional jumps must land.

mod common;

use common::judge_tokens;
use second_reader::{judge, Refusal};

fn refusal(number: u8, offset: usize) -> Result<(), Refusal> {
    Err(Refusal { number, offset })
}

/// A jump of one distance.
fn jump(kind: u8, distance: u16) -> [u8; 4] {
    let [low, high] = distance.to_le_bytes();
    [0x19, kind, low, high]
}

/// A jump of many distances.
fn choose(distances: &[u16]) -> Vec<u8> {
    let mut token = jump(0x04, distances.len() as u16 - 1).to_vec();
    token.extend(distances.iter().flat_map(|distance| distance.to_le_bytes()));
    token
}

const ONE: [u8; 3] = [0x1E, 1, 0];
const SPACE: [u8; 4] = [0x19, 0x40, 0, 1];
const IF_OF_3: [u8; 4] = [0x42, 3, 1, 0];
const IF_OF_2: [u8; 4] = [0x42, 2, 1, 0];

/// Which distances are taken, of all there are.
fn taken(make: impl Fn(u16) -> Vec<u8>, refused_at: usize) -> Vec<u16> {
    (0..=0xFFFF)
        .filter(|&distance| {
            let answer = judge_tokens(&make(distance));
            assert!(answer.is_ok() || answer == refusal(13, refused_at));
            answer.is_ok()
        })
        .collect()
}

/// Condition, 0x02 at 2, 1 at 6, 0x08 at 9, 1 at 13, 0x08 at 16, IF at 20, end 24.
fn if_formula(to_false: u16, over_false: u16, behind: u16) -> Vec<u8> {
    [
        &[0x1D, 1][..],
        &jump(0x02, to_false),
        &ONE,
        &jump(0x08, over_false),
        &ONE,
        &jump(0x08, behind),
        &IF_OF_3,
    ]
    .concat()
}

#[test]
fn b2_where_the_distances_of_if_start() {
    // As 001 has them: 7 bytes through the first goto; one less than the 11 and
    // the 4 bytes that remain.
    assert_eq!(judge_tokens(&if_formula(7, 10, 3)), Ok(()));
    // From behind the token to 6, 9, 13, 16, 20 and the end.
    let first = taken(|distance| if_formula(distance, 10, 3), 2);
    assert_eq!(first, [0, 3, 7, 10, 14, 18]);
    // One more than told: to 16, 20 and the end.
    let second = taken(|distance| if_formula(7, distance, 3), 9);
    assert_eq!(second, [2, 6, 10]);
    let third = taken(|distance| if_formula(7, 10, distance), 16);
    assert_eq!(third, [3]);
}

#[test]
fn b2_the_examples_of_003() {
    // = IF (TRUE , 1 , 2), with spaces.
    let three = [
        &[0x1D, 1][..],
        &jump(0x02, 11),
        &SPACE,
        &ONE,
        &jump(0x08, 18),
        &SPACE,
        &ONE,
        &SPACE,
        &jump(0x08, 3),
        &IF_OF_3,
    ]
    .concat();
    assert_eq!(three.len(), 36);
    assert_eq!(judge_tokens(&three), Ok(()));
    // = IF (TRUE , 1)
    let two = [
        &[0x1D, 1][..],
        &jump(0x02, 15),
        &SPACE,
        &ONE,
        &SPACE,
        &jump(0x08, 3),
        &IF_OF_2,
    ]
    .concat();
    assert_eq!(two.len(), 25);
    assert_eq!(judge_tokens(&two), Ok(()));
}

#[test]
fn b2b_a_goto_that_is_the_last_token_never_lands() {
    let last = |distance| [&[0x16][..], &jump(0x08, distance)].concat();
    assert_eq!(taken(last, 1), []);
    // Of an inner formula too, where a token follows outside.
    let inner = |distance| [&[0x29, 5, 0, 0x16][..], &jump(0x08, distance), &[0x15]].concat();
    assert_eq!(taken(inner, 4), []);
}

/// Choice, 0x04 at 3 with its table at 7, 1 at 13, 0x08 at 16, 1 at 20, 0x08 at
/// 23, CHOOSE at 27, end 31.
fn choose_formula(distances: [u16; 3]) -> Vec<u8> {
    [
        &ONE[..],
        &choose(&distances),
        &ONE,
        &jump(0x08, 10),
        &ONE,
        &jump(0x08, 3),
        &[0x42, 3, 100, 0],
    ]
    .concat()
}

#[test]
fn b1_distances_of_choose_start_at_the_table() {
    assert_eq!(judge_tokens(&choose_formula([6, 13, 20])), Ok(()));
    // From the token's end they would be 0, 7, 14; from its first byte 10, 17, 24.
    assert_eq!(judge_tokens(&choose_formula([0, 7, 14])), refusal(13, 3));
    assert_eq!(judge_tokens(&choose_formula([10, 17, 24])), refusal(13, 3));
}

#[test]
fn b4_every_distance_of_choose_is_judged() {
    let all = [6, 9, 13, 16, 20, 24];
    let first = taken(|distance| choose_formula([distance, 13, 20]), 3);
    let second = taken(|distance| choose_formula([6, distance, 20]), 3);
    let last = taken(|distance| choose_formula([6, 13, distance]), 3);
    assert_eq!(
        (&first[..], &second[..], &last[..]),
        (&all[..], &all[..], &all[..])
    );
    // With one distance only, and that one bad.
    let one = |distance| [&[0x16][..], &choose(&[distance])].concat();
    assert_eq!(taken(one, 1), [2]);
}

#[test]
fn b9_the_example_of_003_with_its_sizes_put_right() {
    let made = |first_skip| {
        [
            &[0x1E, 2, 0][..],
            &choose(&[8, 19, 26, 41]),
            &SPACE,
            &ONE,
            &jump(0x08, first_skip),
            &ONE,
            &jump(0x08, 18),
            &SPACE,
            &ONE,
            &SPACE,
            &jump(0x08, 3),
            &[0x42, 4, 100, 0],
        ]
        .concat()
    };
    assert_eq!(made(25).len(), 52);
    assert_eq!(judge_tokens(&made(25)), Ok(()));
    assert_eq!(judge_tokens(&made(29)), refusal(13, 22));
}

#[test]
fn b3_sums_are_not_cut_down_to_sixteen_bits() {
    // Cut down, each would lead to 0, 2, 6, 9, 13, 16, 20 or 24.
    for start in [0u16, 2, 6, 9, 13, 16, 20, 24] {
        if start < 6 {
            let back = start.wrapping_sub(6);
            assert_eq!(judge_tokens(&if_formula(back, 10, 3)), refusal(13, 2));
        }
        if start < 14 {
            let back = start.wrapping_sub(14);
            assert_eq!(judge_tokens(&if_formula(7, back, 3)), refusal(13, 9));
        }
        if start < 21 {
            let back = start.wrapping_sub(21);
            assert_eq!(judge_tokens(&if_formula(7, 10, back)), refusal(13, 16));
        }
    }
    // The word is unsigned, and one more than 65,535 is not 0: 13 + 0 is a start.
    assert_eq!(judge_tokens(&if_formula(7, 0xFFFF, 3)), refusal(13, 9));
    assert_eq!(
        judge_tokens(&choose_formula([0xFFFC, 13, 20])),
        refusal(13, 3)
    );
}

#[test]
fn b5_a_jump_inside_stays_inside() {
    // Memory token at 0; inside 0x02 at 3, 1 at 7, 0x12 at 10, 0x13 at 11, end
    // 12; outside 0x15 at 12 and 0x12 at 13, end 14.
    let made = |distance| {
        [
            &[0x29, 9, 0][..],
            &jump(0x02, distance),
            &ONE,
            &[0x12, 0x13],
            &[0x15, 0x12],
        ]
        .concat()
    };
    assert_eq!(taken(made, 3), [0, 3, 4, 5]);
    // The same with a goto, which leads one further.
    let made = |distance| {
        [
            &[0x27, 0, 0, 0, 0, 9, 0][..],
            &jump(0x08, distance),
            &ONE,
            &[0x12, 0x13],
            &[0x15, 0x12],
        ]
        .concat()
    };
    assert_eq!(taken(made, 7), [2, 3, 4]);
}

#[test]
fn b5_a_jump_outside_stays_outside() {
    // 0x02 at 0, memory token at 4 with 1 at 7, 0x12 at 10, 0x13 at 11 inside;
    // 0x15 at 12, end 13.
    let made = |distance| {
        [
            &jump(0x02, distance)[..],
            &[0x29, 5, 0],
            &ONE,
            &[0x12, 0x13],
            &[0x15],
        ]
        .concat()
    };
    assert_eq!(taken(made, 0), [0, 8, 9]);
}

#[test]
fn b5_formulas_side_by_side_are_not_one() {
    // Inside the first: 0x02 at 3, 0x16 at 7, end 8. The second memory token at
    // 8 with 0x16 at 11 and 0x12 at 12 inside; 0x03 at 13.
    let made = |distance| {
        [
            &[0x29, 5, 0][..],
            &jump(0x02, distance),
            &[0x16],
            &[0x29, 2, 0, 0x16, 0x12],
            &[0x03],
        ]
        .concat()
    };
    assert_eq!(taken(made, 3), [0, 1]);
    // One inside the other: 0x02 at 3, the inner memory token at 7 with 0x16 at
    // 10 and 0x12 at 11, end of both 12.
    let made = |distance| {
        [
            &[0x29, 9, 0][..],
            &jump(0x02, distance),
            &[0x29, 2, 0, 0x16, 0x12],
        ]
        .concat()
    };
    assert_eq!(taken(made, 3), [0, 5]);
}

#[test]
fn b6_judged_after_all_else() {
    let astray = jump(0x02, 1);
    let two_operands = [&astray[..], &ONE, &ONE].concat();
    assert_eq!(judge_tokens(&two_operands), refusal(14, 10));
    let with = |tokens: &[u8]| [&astray[..], tokens].concat();
    assert_eq!(judge_tokens(&with(&ONE)), refusal(13, 0));
    assert_eq!(judge_tokens(&with(&[0x03])), refusal(14, 4));
    assert_eq!(judge_tokens(&with(&[0x16, 0xFF])), refusal(13, 5));
    assert_eq!(judge_tokens(&with(&[0x16, 0x21, 202, 0])), refusal(15, 5));
    // A wrong stack inside, after it or around it.
    assert_eq!(
        judge_tokens(&with(&[0x29, 2, 0, 0x16, 0x16])),
        refusal(14, 9)
    );
    let inside = [&[0x29, 6, 0][..], &astray, &[0x16, 0x16]].concat();
    assert_eq!(judge_tokens(&inside), refusal(14, 9));
    let around = [&[0x29, 7, 0][..], &astray, &ONE, &[0x16]].concat();
    assert_eq!(judge_tokens(&around), refusal(14, 11));
}

#[test]
fn b6_judged_after_the_trailing_bytes() {
    let astray = jump(0x02, 1);
    assert_eq!(judge(&[&astray[..], &ONE].concat(), &[0]), refusal(13, 7));
    let array = [0x20, 0, 0, 0, 0, 0, 0, 0];
    let tokens = [&astray[..], &array].concat();
    assert_eq!(judge(&tokens, &[]), refusal(13, 12));
    assert_eq!(judge(&tokens, &[0, 0, 0, 3]), refusal(13, 12));
    let data = [0, 0, 0, 0x02, 0, 0, 0];
    assert_eq!(judge(&tokens, &data), refusal(13, 0));
    // A jump over an array spans its eight bytes and none of its data.
    for distance in 0..20 {
        let tokens = [&jump(0x02, distance)[..], &array].concat();
        let wanted = if distance == 0 || distance == 8 {
            Ok(())
        } else {
            refusal(13, 0)
        };
        assert_eq!(judge(&tokens, &data), wanted);
    }
    // A token of areas with its inner bytes is one token outside.
    for distance in 0..20 {
        let areas = [0x26, 0, 0, 0, 0, 2, 0, 0x16, 0x12, 0x15];
        let tokens = [&jump(0x02, distance)[..], &areas].concat();
        let wanted = if [0, 9, 10].contains(&distance) {
            Ok(())
        } else {
            refusal(13, 0)
        };
        assert_eq!(judge(&tokens, &[0, 0]), wanted);
    }
}

#[test]
fn b6_the_first_in_byte_order_over_all_levels() {
    let good = jump(0x02, 0);
    // Into the memory token's head, past the inner end, past the outer end.
    let astray = jump(0x02, 2);
    // 0x02 at 0, a memory token at 4 with 0x02 at 7 inside, 0x02 at 12.
    let made = |first: [u8; 4], second: [u8; 4], third: [u8; 4]| {
        [&first[..], &[0x29, 5, 0], &second, &[0x16], &third, &[0x15]].concat()
    };
    assert_eq!(judge_tokens(&made(good, good, good)), Ok(()));
    assert_eq!(judge_tokens(&made(astray, astray, astray)), refusal(13, 0));
    assert_eq!(judge_tokens(&made(astray, good, good)), refusal(13, 0));
    assert_eq!(judge_tokens(&made(astray, astray, good)), refusal(13, 0));
    assert_eq!(judge_tokens(&made(good, astray, astray)), refusal(13, 7));
    assert_eq!(judge_tokens(&made(good, astray, good)), refusal(13, 7));
    assert_eq!(judge_tokens(&made(good, good, astray)), refusal(13, 12));
}

#[test]
fn b7_nothing_else_of_a_jump_is_judged() {
    // No IF or CHOOSE follows; the next token, or the end.
    assert_eq!(
        judge_tokens(&[&jump(0x02, 0)[..], &[0x16]].concat()),
        Ok(())
    );
    assert_eq!(
        judge_tokens(&[&[0x16][..], &jump(0x02, 0)].concat()),
        Ok(())
    );
    // Jumps that lead to one another.
    let chain = [&jump(0x02, 0)[..], &jump(0x08, 3), &jump(0x02, 1), &[0x16]].concat();
    assert_eq!(judge_tokens(&chain), Ok(()));
    // More distances than the function has arguments.
    let many = [&ONE[..], &choose(&[16; 8]), &ONE, &[0x42, 2, 100, 0]].concat();
    assert_eq!(judge_tokens(&many), Ok(()));
    // Below 2(n+1) they lead into the token itself.
    for distance in 0..16 {
        let distances = [16, 16, 16, distance, 16, 16, 16, 16];
        let tokens = [&ONE[..], &choose(&distances), &ONE, &[0x42, 2, 100, 0]].concat();
        assert_eq!(judge_tokens(&tokens), refusal(13, 3));
    }
}

#[test]
fn b8_kind_0_stays_unknown() {
    assert_eq!(judge_tokens(&[0x16, 0x19, 0, 0, 0]), refusal(13, 1));
    assert_eq!(judge_tokens(&[0x19, 0, 0, 0, 0x16, 0x15]), refusal(13, 0));
    // Two kinds at once are none of the three.
    for kind in [0x06, 0x0A, 0x0C, 0x0E, 0x03, 0x09] {
        assert_eq!(judge_tokens(&[0x16, 0x19, kind, 0, 0]), refusal(13, 1));
    }
    // Kinds that are no jumps keep any two bytes.
    for kind in [0x01, 0x10, 0x40, 0x41] {
        assert_eq!(judge_tokens(&[0x16, 0x19, kind, 0xFF, 0xFF]), Ok(()));
    }
}

/// Many jumps in one formula cost no more than their bytes.
#[test]
fn as_many_jumps_as_there_are() {
    let mut tokens = jump(0x02, 0).repeat(449);
    tokens.extend([0x16, 0x12, 0x12, 0x12]);
    assert_eq!(tokens.len(), 1_800);
    assert_eq!(judge_tokens(&tokens), Ok(()));
    let to_the_end = [&[0x16][..], &choose(&[1_794; 897])].concat();
    assert_eq!(to_the_end.len(), 1_799);
    assert_eq!(judge_tokens(&to_the_end), Ok(()));
}
