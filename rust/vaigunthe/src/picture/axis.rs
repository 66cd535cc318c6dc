//! Axes with round labels.

use crate::figures::{grouped, seconds};

/// How many labels there are about, at most.
const LABELS_OF_TIME: f64 = 10.0;
const LABELS_OF_CADENCE: f64 = 6.0;
/// A cadence this low still has an axis that people know.
const LEAST_CADENCE: u32 = 10;

/// An axis from 0 on, with a label at each step.
pub struct Axis {
    step: f64,
    pub end: f64,
}

/// The least of 1, 2, 5, 10, 20, 50 and so on, and of their tenths and hundredths, by which there are no more labels than this.
fn round_step(end: f64, labels: f64) -> f64 {
    let least = end / labels;
    let power = 10f64.powf(least.log10().floor());
    let factors = [1.0, 2.0, 5.0];
    let factor = factors.iter().find(|factor| *factor * power >= least);
    factor.unwrap_or(&10.0) * power
}

impl Axis {
    /// To the first label that isn't below the highest cadence.
    pub fn of_cadence(highest: u32) -> Self {
        let highest = f64::from(highest.max(LEAST_CADENCE));
        let step = round_step(highest, LABELS_OF_CADENCE);
        Axis {
            step,
            end: (highest / step).ceil() * step,
        }
    }

    /// The place of each label, and the label.
    pub fn labels(&self) -> impl Iterator<Item = (f64, String)> + '_ {
        let decimals = (-self.step.log10().floor()).max(0.0) as usize;
        // A last label isn't lost to rounding.
        let last = (self.end / self.step + 1e-9).floor() as u32;
        (0..=last).map(move |number| {
            let value = f64::from(number) * self.step;
            (value, grouped(value, decimals))
        })
    }

    /// The most characters that a label has.
    pub fn longest_label(&self) -> usize {
        self.labels()
            .map(|(_, label)| label.len())
            .max()
            .unwrap_or(0)
    }
}

/// A unit of time.
pub struct Unit {
    pub name: &'static str,
    seconds: f64,
}

/// Each is used up to the length behind it, in seconds.
const UNITS: [(Unit, f64); 4] = [
    (Unit::new("s", 1.0), 120.0),
    (Unit::new("min", 60.0), 7_200.0),
    (Unit::new("h", 3_600.0), 259_200.0),
    (Unit::new("days", 86_400.0), f64::INFINITY),
];

impl Unit {
    const fn new(name: &'static str, seconds: f64) -> Self {
        Unit { name, seconds }
    }

    /// The unit in which so many ticks are told.
    pub fn of(ticks: u64) -> Self {
        let [.., (days, _)] = UNITS;
        let unit = UNITS.into_iter().find(|(_, most)| seconds(ticks) <= *most);
        unit.map_or(days, |(unit, _)| unit)
    }

    /// So many ticks in this unit.
    pub fn length(&self, ticks: u64) -> f64 {
        seconds(ticks) / self.seconds
    }

    /// From 0 to so many ticks, which need not have a label.
    pub fn axis(&self, ticks: u64) -> Axis {
        let end = self.length(ticks);
        Axis {
            step: round_step(end, LABELS_OF_TIME),
            end,
        }
    }
}

#[cfg(test)]
mod tests {
    use super::*;
    use crate::figures::TICKS_PER_SECOND;

    fn labels(axis: &Axis) -> Vec<String> {
        axis.labels().map(|(_, label)| label).collect()
    }

    #[test]
    fn cadence_up_to_a_round_number() {
        let of = |highest| labels(&Axis::of_cadence(highest));
        assert_eq!(of(0), ["0", "2", "4", "6", "8", "10"]);
        assert_eq!(of(7), of(0));
        assert_eq!(of(93), ["0", "20", "40", "60", "80", "100"]);
        assert_eq!(of(100), of(93));
        assert_eq!(of(121), ["0", "50", "100", "150"]);
        let greatest = of(4_026_470_400);
        assert_eq!(greatest.last().map(String::as_str), Some("5,000,000,000"));
        for highest in (0..100_000).chain([1_000_000, u32::MAX]) {
            let axis = Axis::of_cadence(highest);
            assert!(axis.end >= f64::from(highest), "{highest}");
            assert!((3..=7).contains(&axis.labels().count()), "{highest}");
        }
    }

    #[test]
    fn time_in_a_unit_that_suits_it() {
        let of = |seconds: u64| {
            let unit = Unit::of(seconds * TICKS_PER_SECOND);
            let labels = labels(&unit.axis(seconds * TICKS_PER_SECOND));
            (unit.name, labels.join(" "))
        };
        assert_eq!(
            of(1),
            ("s", "0.0 0.1 0.2 0.3 0.4 0.5 0.6 0.7 0.8 0.9 1.0".into())
        );
        assert_eq!(of(65), ("s", "0 10 20 30 40 50 60".into()));
        assert_eq!(of(132), ("min", "0.0 0.5 1.0 1.5 2.0".into()));
        assert_eq!(of(3_600), ("min", "0 10 20 30 40 50 60".into()));
        assert_eq!(of(65_535), ("h", "0 2 4 6 8 10 12 14 16 18".into()));
        let (unit, labels) = of(u32::MAX.into());
        assert_eq!(unit, "days");
        assert!(labels.ends_with(" 40,000 45,000"), "{labels}");
    }
}
