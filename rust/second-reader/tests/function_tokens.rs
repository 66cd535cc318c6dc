//! K7: 0x22 for functions of a fixed count.

mod common;

use common::judge_tokens;
use second_reader::Refusal;

fn refusal(number: u8, offset: usize) -> Result<(), Refusal> {
    Err(Refusal { number, offset })
}

/// The answer to so many operands of one byte each and a token after them.
fn after_operands(count: usize, token: &[u8]) -> Result<(), Refusal> {
    judge_tokens(&[&vec![0x16; count], token].concat())
}

/// 0x22 with this count byte.
fn counted(count: u8, index: u16) -> [u8; 4] {
    let [low, high] = index.to_le_bytes();
    [0x22, count, low, high]
}

const CLASSES: [u8; 3] = [0x00, 0x20, 0x40];

/// One function of each fixed count there is: TODAY, SIN, MOD, MID and SYD.
const FIXED: [(u16, u8); 5] = [(221, 0), (15, 1), (39, 2), (31, 3), (143, 4)];

#[test]
fn h1_functions_of_no_arguments() {
    assert_eq!(judge_tokens(&[0x42, 0x00, 0xDD, 0x00]), Ok(()));
    assert_eq!(judge_tokens(&[0x42, 0x80, 0xDD, 0x00]), Ok(()));
    assert_eq!(after_operands(1, &[0x42, 0x01, 0xDD, 0x00]), refusal(15, 1));
    assert_eq!(after_operands(1, &[0x42, 0x81, 0xDD, 0x00]), refusal(15, 1));
}

#[test]
fn h1_the_fixed_count_and_no_other() {
    for (index, fixed) in FIXED {
        for byte in 0..=255u8 {
            let count = byte & 0x7F;
            let operands = usize::from(count);
            for class in CLASSES {
                let mut token = counted(byte, index);
                token[0] += class;
                let wanted = if count == fixed {
                    Ok(())
                } else {
                    refusal(15, operands)
                };
                assert_eq!(after_operands(operands, &token), wanted, "{token:02X?}");
            }
        }
    }
}

#[test]
fn h1_the_upper_bit_of_the_index_stays_refused() {
    for (index, fixed) in FIXED {
        let operands = usize::from(fixed);
        let token = counted(fixed, index | 0x8000);
        assert_eq!(after_operands(operands, &token), refusal(15, operands));
    }
    // No member: an index without a function, and one past the table.
    assert_eq!(after_operands(1, &counted(1, 202)), refusal(15, 1));
    assert_eq!(after_operands(1, &counted(1, 368)), refusal(15, 1));
}

#[test]
fn h1_a_cut_token() {
    for size in 1..4 {
        let token = counted(0, 221);
        assert_eq!(after_operands(0, &token[..size]), refusal(13, 0));
        // 13 before 15, and before 14.
        let token = counted(9, 202);
        assert_eq!(after_operands(0, &token[..size]), refusal(13, 0));
    }
}

#[test]
fn h1_too_few_operands_after_a_wrong_count() {
    for (index, fixed) in FIXED.into_iter().skip(1) {
        let operands = usize::from(fixed) - 1;
        assert_eq!(
            after_operands(operands, &counted(fixed, index)),
            refusal(14, operands)
        );
        // A wrong count is 15 whatever the operands are.
        assert_eq!(
            after_operands(operands, &counted(fixed + 1, index)),
            refusal(15, operands)
        );
        assert_eq!(
            after_operands(operands, &counted(fixed - 1, index)),
            refusal(15, operands)
        );
    }
}

#[test]
fn h1_the_fixed_token_takes_no_function_whose_counts_differ() {
    // IF, 1 to 3, RANK, 2 to 3, and the one of any count up to 30.
    for (index, count) in [(1u16, 1), (1, 2), (1, 3), (216, 2), (216, 3), (255, 1)] {
        let [low, high] = index.to_le_bytes();
        assert_eq!(
            after_operands(count, &[0x21, low, high]),
            refusal(15, count)
        );
        assert_eq!(after_operands(count, &counted(count as u8, index)), Ok(()));
    }
}

/// Put shortly: 0x22 takes every member with least <= count <= greatest.
#[test]
fn h1_every_member_within_its_counts() {
    let lines = include_str!("../data/function-counts.tsv").lines().skip(1);
    for line in lines {
        let fields: Vec<&str> = line.split('\t').collect();
        let number = |at: usize| fields[at].parse::<u16>().expect("a number");
        let (index, least, greatest) = (number(0), number(2), number(3));
        for count in 0..=31 {
            let operands = usize::from(count);
            let answer = after_operands(operands, &counted(count as u8, index));
            let taken = least <= count && count <= greatest;
            let wanted = if taken { Ok(()) } else { refusal(15, operands) };
            assert_eq!(answer, wanted, "{line}, {count}");
        }
    }
}
