//! Numbers as dates and times.

use crate::{Kind, System};

const MILLISECONDS_A_DAY: u64 = 86_400_000;

/// The days of both systems are counted as those of the 1900 system: 1904-01-01 is its day 1,462.
const DAYS_TO_1904: u64 = 1_462;
/// 9999-12-31.
const LAST_DAY: u64 = 2_958_465;

/// How many characters there are at most: `2004-02-29T13:05:00.250`.
const LONGEST: usize = 23;

/// A number by ISO 8601; `None` where it stays a number.
pub fn show(kind: Kind, system: System, serial: f64) -> Option<String> {
    let milliseconds = milliseconds(serial)?;
    let first = match system {
        System::From1900 => 0,
        System::From1904 => DAYS_TO_1904,
    };
    let day = first + milliseconds / MILLISECONDS_A_DAY;
    let time = milliseconds % MILLISECONDS_A_DAY;
    if day > LAST_DAY {
        return None;
    }
    let mut text = String::with_capacity(LONGEST);
    match kind {
        Kind::Date => push_date(&mut text, day),
        Kind::Time => push_time(&mut text, time),
        Kind::DateTime => {
            push_date(&mut text, day);
            text.push('T');
            push_time(&mut text, time);
        }
        Kind::Elapsed => push_duration(&mut text, milliseconds),
    }
    Some(text)
}

/// A number of days in milliseconds, rounded once, over whole numbers, to the nearest; of two equally near ones to the later. `None` for numbers that no
/// system counts: negative ones, and those that are too great or no finite numbers.
fn milliseconds(days: f64) -> Option<u64> {
    if !(0.0..(LAST_DAY + 1) as f64).contains(&days) {
        return None;
    }
    // The number of days is significand / 2^shift; zero, and what is so small that it has no leading one, comes to nothing by the shift alone.
    let exponent = (days.to_bits() >> 52 & 0x7FF) as u32;
    let significand = days.to_bits() & ((1 << 52) - 1) | 1 << 52;
    let shift = 1_075 - exponent;
    // Below 2^80, so that a shift by more than 81 leaves nothing. The least shift is 31: there are fewer than 2^22 days.
    let scaled = u128::from(significand) * u128::from(MILLISECONDS_A_DAY);
    match shift {
        0..=81 => Some(((scaled + (1 << (shift - 1))) >> shift) as u64),
        _ => Some(0),
    }
}

/// A day of the 1900 system. January and February 1900 are as Excel has them, with day 0 and 29 February.
fn push_date(text: &mut String, day: u64) {
    let (year, month, day) = match day {
        0..=31 => (1900, 1, day),
        32..=60 => (1900, 2, day - 31),
        _ => from_march(day - 61),
    };
    push(text, 4, year);
    text.push('-');
    push(text, 2, month);
    text.push('-');
    push(text, 2, day);
}

/// The year, month and day so many days after 1900-03-01. Years are counted from March to February, so that a leap day is the last of its year.
fn from_march(days: u64) -> (u64, u64, u64) {
    const YEAR: u64 = 365;
    const FOUR_YEARS: u64 = 4 * YEAR + 1;
    const CENTURY: u64 = 25 * FOUR_YEARS - 1;
    const FOUR_CENTURIES: u64 = 4 * CENTURY + 1;
    /// From 1600-03-01, where four centuries start, to 1900-03-01.
    const TO_1900: u64 = 3 * CENTURY;

    let days = days + TO_1900;
    let (cycle, days) = (days / FOUR_CENTURIES, days % FOUR_CENTURIES);
    // The last century and the last year of four are a day longer than the others.
    let century = (days / CENTURY).min(3);
    let days = days - century * CENTURY;
    let (four, days) = (days / FOUR_YEARS, days % FOUR_YEARS);
    let one = (days / YEAR).min(3);
    let days = days - one * YEAR;
    let year = 1600 + 400 * cycle + 100 * century + 4 * four + one;

    // From March on, five months have 153 days: 31, 30, 31, 30, 31.
    let month = (5 * days + 2) / 153;
    let day = days - (153 * month + 2) / 5 + 1;
    match month {
        0..=9 => (year, month + 3, day),
        _ => (year + 1, month - 9, day),
    }
}

/// `13:05:00`, or `13:05:00.250`.
fn push_time(text: &mut String, milliseconds: u64) {
    let (hours, minutes, seconds) = parts(milliseconds);
    push(text, 2, hours);
    text.push(':');
    push(text, 2, minutes);
    text.push(':');
    push(text, 2, seconds);
    push_thousandths(text, milliseconds);
}

/// `PT36H5M0S`, or `PT36H5M0.250S`.
fn push_duration(text: &mut String, milliseconds: u64) {
    let (hours, minutes, seconds) = parts(milliseconds);
    text.push_str(&format!("PT{hours}H{minutes}M{seconds}"));
    push_thousandths(text, milliseconds);
    text.push('S');
}

/// Whole hours, minutes and seconds.
fn parts(milliseconds: u64) -> (u64, u64, u64) {
    let seconds = milliseconds / 1_000;
    (seconds / 3_600, seconds / 60 % 60, seconds % 60)
}

/// What is more than a whole second, if anything.
fn push_thousandths(text: &mut String, milliseconds: u64) {
    let more = milliseconds % 1_000;
    if more > 0 {
        text.push('.');
        push(text, 3, more);
    }
}

/// A number that has at most so many digits, with zeros in front. Formatting by the standard library takes several times as long.
fn push(text: &mut String, digits: u32, number: u64) {
    for place in (0..digits).rev() {
        let digit = number / 10u64.pow(place) % 10;
        text.push(char::from(b'0' + digit as u8));
    }
}

#[cfg(test)]
mod tests {
    use super::*;

    fn date_of(system: System, serial: f64) -> Option<String> {
        show(Kind::Date, system, serial)
    }

    fn time_of(serial: f64) -> String {
        show(Kind::Time, System::From1900, serial).expect("a time")
    }

    fn both_of(serial: f64) -> String {
        show(Kind::DateTime, System::From1900, serial).expect("a date and a time")
    }

    fn elapsed_of(serial: f64) -> String {
        show(Kind::Elapsed, System::From1904, serial).expect("a time that elapsed")
    }

    /// What 001 says of both systems in 2.4.77, 2.5.65 and its note 162, and the last day.
    #[test]
    fn days_that_the_papers_name() {
        let named = [
            (System::From1900, 0.0, "1900-01-00"),
            (System::From1900, 1.0, "1900-01-01"),
            (System::From1900, 31.0, "1900-01-31"),
            (System::From1900, 32.0, "1900-02-01"),
            (System::From1900, 59.0, "1900-02-28"),
            (System::From1900, 60.0, "1900-02-29"),
            (System::From1900, 61.0, "1900-03-01"),
            (System::From1900, 366.0, "1900-12-31"),
            (System::From1900, 367.0, "1901-01-01"),
            (System::From1900, 36_526.0, "2000-01-01"),
            (System::From1900, 36_585.0, "2000-02-29"),
            (System::From1900, 36_586.0, "2000-03-01"),
            (System::From1900, 2_958_465.0, "9999-12-31"),
            (System::From1904, 0.0, "1904-01-01"),
            (System::From1904, 1.0, "1904-01-02"),
            (System::From1904, 59.0, "1904-02-29"),
            (System::From1904, 60.0, "1904-03-01"),
            (System::From1904, 2_957_003.0, "9999-12-31"),
        ];
        for (system, serial, expected) in named {
            assert_eq!(date_of(system, serial).as_deref(), Some(expected));
        }
    }

    /// A calendar that goes from day to day, and knows no more than how long months are.
    #[test]
    fn every_day() {
        let multiple = |year: u64, of: u64| year.is_multiple_of(of);
        let leap = |year| multiple(year, 4) && (!multiple(year, 100) || multiple(year, 400));
        let (mut year, mut month, mut day) = (1900, 3, 1);
        for serial in 61..=LAST_DAY {
            let expected = format!("{year:04}-{month:02}-{day:02}");
            assert_eq!(date_of(System::From1900, serial as f64), Some(expected));
            let length = match month {
                2 if leap(year) => 29,
                2 => 28,
                4 | 6 | 9 | 11 => 30,
                _ => 31,
            };
            day += 1;
            if day > length {
                (month, day) = (month + 1, 1);
            }
            if month > 12 {
                (year, month) = (year + 1, 1);
            }
        }
        assert_eq!((year, month, day), (10_000, 1, 1));
    }

    #[test]
    fn numbers_that_stay_numbers() {
        let odd = [
            -1.0,
            -0.5,
            -f64::MIN_POSITIVE,
            2_958_466.0,
            // So near to the year 10000 that it rounds to it.
            2_958_466.0f64.next_down(),
            1e18,
            f64::MAX,
            f64::MIN,
            f64::INFINITY,
            f64::NEG_INFINITY,
            f64::NAN,
            -f64::NAN,
        ];
        for kind in [Kind::Date, Kind::Time, Kind::DateTime, Kind::Elapsed] {
            for serial in odd {
                assert_eq!(show(kind, System::From1900, serial), None, "{serial}");
                assert_eq!(show(kind, System::From1904, serial), None, "{serial}");
            }
            assert_eq!(show(kind, System::From1904, 2_957_004.0), None);
        }
    }

    #[test]
    fn times_of_day() {
        let times = [
            (0.0, "00:00:00"),
            (-0.0, "00:00:00"),
            (0.5, "12:00:00"),
            (0.1, "02:24:00"),
            (0.1 + 0.2, "07:12:00"),
            (0.3, "07:12:00"),
            (0.7, "16:48:00"),
            (0.1 + 0.7, "19:12:00"),
            (1.0 / 3.0, "08:00:00"),
            (1.0 - 0.9, "02:24:00"),
            (36_526.1, "02:24:00"),
            (36_526.0 + 1.0 / 3.0, "08:00:00"),
            (1.0 / 86_400.0, "00:00:01"),
            (59.0 / 86_400.0, "00:00:59"),
            (86_399.0 / 86_400.0, "23:59:59"),
            (0.25 / 86_400.0, "00:00:00.250"),
            (0.001 / 86_400.0, "00:00:00.001"),
            (f64::MIN_POSITIVE, "00:00:00"),
            (f64::from_bits(1), "00:00:00"),
        ];
        for (serial, expected) in times {
            assert_eq!(time_of(serial), expected, "{serial}");
        }
    }

    /// 86,400,000 is 84,375 times 1,024: so 1/2,048 of a day is 42,187 milliseconds and a half.
    #[test]
    fn halves_of_a_millisecond() {
        let half = 1.0 / 2_048.0;
        assert_eq!(time_of(half), "00:00:42.188");
        assert_eq!(time_of(half.next_down()), "00:00:42.187");
        assert_eq!(time_of(half.next_up()), "00:00:42.188");
        assert_eq!(time_of(3.0 * half), "00:02:06.563");
        assert_eq!(time_of(2_958_465.0 + half), "00:00:42.188");
        // Rounded to milliseconds and then again to seconds it would be 43.
        assert_eq!(time_of(42.4996 / 86_400.0), "00:00:42.500");
        assert_eq!(time_of(42.4994 / 86_400.0), "00:00:42.499");
    }

    /// A time that rounds up to midnight is the next day's midnight, whatever is shown of it.
    #[test]
    fn midnight() {
        assert_eq!(time_of(0.99999999), "23:59:59.999");
        assert_eq!(time_of(0.999999999), "00:00:00");
        assert_eq!(time_of(1.0f64.next_down()), "00:00:00");
        assert_eq!(both_of(59.99999999), "1900-02-28T23:59:59.999");
        assert_eq!(both_of(59.9999999999), "1900-02-29T00:00:00");
        assert_eq!(
            date_of(System::From1900, 59.9999999999).as_deref(),
            Some("1900-02-29")
        );
        assert_eq!(elapsed_of(0.999999999), "PT24H0M0S");
        // A minute and an hour.
        assert_eq!(time_of(59.9999999 / 86_400.0), "00:01:00");
        assert_eq!(time_of(3_599.9999999 / 86_400.0), "01:00:00");
    }

    #[test]
    fn dates_with_times() {
        assert_eq!(both_of(0.75), "1900-01-00T18:00:00");
        assert_eq!(both_of(36_526.0), "2000-01-01T00:00:00");
        assert_eq!(both_of(36_526.5), "2000-01-01T12:00:00");
        assert_eq!(both_of(36_585.0 + 0.1 + 0.2), "2000-02-29T07:12:00");
    }

    #[test]
    fn times_that_elapsed() {
        assert_eq!(elapsed_of(0.0), "PT0H0M0S");
        assert_eq!(elapsed_of(0.0625), "PT1H30M0S");
        assert_eq!(elapsed_of(1.5), "PT36H0M0S");
        assert_eq!(elapsed_of(61.25 / 86_400.0), "PT0H1M1.250S");
        assert_eq!(elapsed_of(2_957_003.0), "PT70968072H0M0S");
    }

    /// Whatever day it is added to, a time that is a whole number of milliseconds comes back as that number.
    #[test]
    fn whole_milliseconds_come_back() {
        for time in (0..MILLISECONDS_A_DAY).step_by(7_919) {
            for day in [0, 1, 60, 36_526, 45_000, LAST_DAY] {
                let serial = day as f64 + time as f64 / MILLISECONDS_A_DAY as f64;
                let expected = day * MILLISECONDS_A_DAY + time;
                assert_eq!(milliseconds(serial), Some(expected), "{serial}");
            }
        }
    }
}
