//! RK words: numbers packed into four bytes.

const DIVIDED: u32 = 1;
const WHOLE: u32 = 2;
const FORM_BITS: u32 = DIVIDED | WHOLE;
/// Bits 20 to 30 of a word are the exponent of the f64 whose upper half it is.
const EXPONENT: u32 = 0x7FF0_0000;
/// The bits of an f64 that a word in float form has no room for.
const LOST_BITS: u64 = (1 << 34) - 1;
const DIVISORS: [f64; 2] = [1.0, 100.0];
const LEAST_WHOLE: f64 = -536_870_912.0;
const GREATEST_WHOLE: f64 = 536_870_911.0;

/// The 64 bits of the number a word means, or none where it means nothing.
///
/// Both forms are made and a mask takes one of them, and an undivided number is
/// divided by 1, which leaves it as it is: which form a word has is hard to
/// foresee, so branches on it would cost more than the work they save. The one
/// rounding that a division by 100 needs is the one that f64 division does.
#[inline]
pub fn decode(word: u32) -> Option<u64> {
    if word & (EXPONENT | WHOLE) == EXPONENT {
        return None;
    }
    let whole = f64::from((word as i32) >> 2).to_bits();
    let float = u64::from(word & !FORM_BITS) << 32;
    let take_whole = u64::from(word >> 1 & 1).wrapping_neg();
    let bits = whole & take_whole | float & !take_whole;
    let divisor = DIVISORS[(word & DIVIDED) as usize];
    Some((f64::from_bits(bits) / divisor).to_bits())
}

/// The undivided word for a number: in float form if that holds it, else as a
/// whole number, else none.
pub fn pack(number: f64) -> Option<u32> {
    if !number.is_finite() {
        return None;
    }
    let bits = number.to_bits();
    if bits & LOST_BITS == 0 {
        return Some((bits >> 32) as u32);
    }
    let whole = number.trunc() == number && (LEAST_WHOLE..=GREATEST_WHOLE).contains(&number);
    whole.then_some(((number as i32) << 2) as u32 | WHOLE)
}

#[cfg(test)]
mod tests {
    use super::*;

    /// A hundredth of a finite f64, by whole numbers alone: significand,
    /// exponent and remainder, rounded once to the nearest and of two equally
    /// near to the even one.
    fn hundredth(bits: u64) -> u64 {
        let sign = bits & 1 << 63;
        let exponent_field = (bits >> 52 & 0x7FF) as i64;
        let fraction = bits & ((1 << 52) - 1);
        let (significand, exponent) = match exponent_field {
            0 => (fraction, -1074),
            e => (fraction | 1 << 52, e - 1075),
        };
        if significand == 0 {
            return sign;
        }
        // 64 more bits leave enough below the last kept bit to round by.
        let scaled = u128::from(significand) << 64;
        let (quotient, remainder) = (scaled / 100, scaled % 100);
        let quotient_exponent = exponent - 64;
        let length = 128 - i64::from(quotient.leading_zeros());
        let unit = (quotient_exponent + length - 53).max(-1074);
        let dropped = (unit - quotient_exponent) as u32;
        let kept = quotient >> dropped;
        let half = 1u128 << (dropped - 1);
        let below = quotient & ((1u128 << dropped) - 1);
        let up = match below.cmp(&half) {
            std::cmp::Ordering::Less => false,
            std::cmp::Ordering::Greater => true,
            std::cmp::Ordering::Equal => remainder != 0 || kept & 1 == 1,
        };
        let rounded = kept as u64 + u64::from(up);
        // The leading bit of a whole significand, and a carry out of one, land
        // in the exponent by themselves.
        sign | ((((unit + 1074) as u64) << 52) + rounded)
    }

    /// The word's meaning without any f64 arithmetic.
    fn decode_by_whole_numbers(word: u32) -> Option<u64> {
        let bits = if word & 2 != 0 {
            whole_to_bits(i64::from((word as i32) >> 2))
        } else {
            if word >> 20 & 0x7FF == 0x7FF {
                return None;
            }
            u64::from(word >> 2) << 34
        };
        Some(if word & 1 != 0 { hundredth(bits) } else { bits })
    }

    fn whole_to_bits(whole: i64) -> u64 {
        if whole == 0 {
            return 0;
        }
        let sign = if whole < 0 { 1 << 63 } else { 0 };
        let magnitude = whole.unsigned_abs();
        let top = 63 - u64::from(magnitude.leading_zeros());
        sign | (top + 1023) << 52 | (magnitude << (52 - top) & ((1 << 52) - 1))
    }

    /// A fixed walk over many words, all forms among them.
    fn words() -> impl Iterator<Item = u32> {
        let corners = (0..=32).flat_map(|shift| {
            let edge = (1u64 << shift) as u32;
            (0..=8).flat_map(move |by| [edge.wrapping_add(by), edge.wrapping_sub(by)])
        });
        let spread = (0..4_000_000u32).map(|n| n.wrapping_mul(0x9E37_79B9) ^ n >> 3);
        let small = 0..400_000u32;
        let top = (0..400_000u32).map(|n| !n);
        corners.chain(spread).chain(small).chain(top)
    }

    #[test]
    fn decoding_agrees_with_whole_number_arithmetic() {
        for word in words() {
            assert_eq!(decode(word), decode_by_whole_numbers(word), "{word:08X}");
        }
    }

    /// Takes minutes: `cargo test --release for_every_word -- --ignored`.
    #[test]
    #[ignore]
    fn decoding_agrees_for_every_word() {
        for word in 0..=u32::MAX {
            assert_eq!(decode(word), decode_by_whole_numbers(word), "{word:08X}");
        }
    }

    #[test]
    fn hundredth_agrees_with_division() {
        for word in words() {
            let bits = u64::from(word) << 32 | u64::from(word.rotate_left(7));
            let number = f64::from_bits(bits);
            if number.is_finite() {
                assert_eq!(hundredth(bits), (number / 100.0).to_bits(), "{bits:016X}");
            }
        }
    }

    #[test]
    fn a_word_means_nothing_by_its_exponent_alone() {
        assert_eq!(decode(0x7FF0_0000), None);
        assert_eq!(decode(0x7FF0_0001), None);
        assert_eq!(decode(0xFFFF_FFFC), None);
        assert_eq!(decode(0xFFFF_FFFD), None);
        assert!(decode(0x7FF0_0002).is_some());
        assert!(decode(0x7FE0_0000).is_some());
    }

    #[test]
    fn every_undivided_word_packs_back_to_its_number() {
        for word in words().map(|word| word & !1) {
            let Some(bits) = decode(word) else { continue };
            let packed = pack(f64::from_bits(bits)).expect("a word means it");
            assert_eq!(packed & 1, 0);
            assert_eq!(decode(packed), Some(bits), "{word:08X}");
        }
    }

    #[test]
    fn packing_prefers_the_float_form() {
        assert_eq!(pack(1.0), Some(0x3FF0_0000));
        assert_eq!(pack(0.0), Some(0));
        assert_eq!(pack(-0.0), Some(0x8000_0000));
        assert_eq!(pack(-1.0), Some(0xBFF0_0000));
        assert_eq!(pack(-536_870_912.0), Some(0xC1C0_0000));
        assert_eq!(pack(536_870_911.0), Some(0x7FFF_FFFE));
        assert_eq!(pack(-536_870_911.0), Some(0x8000_0006));
        assert_eq!(pack(536_870_912.0), Some(0x41C0_0000));
        assert_eq!(pack(536_870_913.0), None);
        assert_eq!(pack(-536_870_913.0), None);
        assert_eq!(pack(0.1), None);
        assert_eq!(pack(1_234_321.5), None);
        assert_eq!(pack(f64::INFINITY), None);
        assert_eq!(pack(f64::NEG_INFINITY), None);
        assert_eq!(pack(f64::NAN), None);
    }

    #[test]
    fn zero_keeps_its_sign_when_divided() {
        assert_eq!(decode(0x8000_0001), Some(1 << 63));
        assert_eq!(decode(0x0000_0001), Some(0));
        assert_eq!(decode(0x0000_0003), Some(0));
    }
}
