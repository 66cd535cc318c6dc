//! Numbers and lengths of time, as people say them.

/// A sensor's clock goes on by so many.
pub const TICKS_PER_SECOND: u64 = 1_024;

pub fn seconds(ticks: u64) -> f64 {
    ticks as f64 / TICKS_PER_SECOND as f64
}

/// So many ticks, as people say it.
pub fn duration(ticks: u64) -> String {
    let seconds = seconds(ticks);
    let whole = ticks / TICKS_PER_SECOND;
    match whole {
        0..60 => format!(
            "{} s",
            grouped(seconds, usize::from(seconds.fract() != 0.0))
        ),
        60..3_600 => format!("{} min {} s", whole / 60, whole % 60),
        _ => {
            let hours = grouped((whole / 3_600) as f64, 0);
            format!("{hours} h {} min", whole / 60 % 60)
        }
    }
}

/// A number with so many decimals, its thousands apart.
pub fn grouped(value: f64, decimals: usize) -> String {
    let plain = format!("{value:.decimals$}");
    let (whole, rest) = match plain.split_once('.') {
        Some((whole, rest)) => (whole, format!(".{rest}")),
        None => (&plain[..], String::new()),
    };
    let mut grouped = String::new();
    for (place, digit) in whole.chars().enumerate() {
        if place > 0 && (whole.len() - place).is_multiple_of(3) {
            grouped.push(',');
        }
        grouped.push(digit);
    }
    grouped + &rest
}

/// So many of something.
pub fn counted(count: usize, one: &str, more: &str) -> String {
    match count {
        0 => format!("no {one}"),
        1 => format!("1 {one}"),
        _ => format!("{} {more}", grouped(count as f64, 0)),
    }
}

#[cfg(test)]
mod tests {
    use super::*;

    #[test]
    fn durations() {
        let of = |ticks| duration(ticks);
        assert_eq!(of(0), "0 s");
        assert_eq!(of(512), "0.5 s");
        assert_eq!(of(1_024 * 59), "59 s");
        assert_eq!(of(1_024 * 60), "1 min 0 s");
        assert_eq!(of(1_024 * 3_599), "59 min 59 s");
        assert_eq!(of(1_024 * 3_600 * 1_000), "1,000 h 0 min");
    }
}
