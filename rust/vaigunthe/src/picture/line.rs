//! The line itself. A pair has one cadence for its whole stretch of time, so it is level from its earlier row to its later one and steps to the next.
//! Nothing is drawn where a pause is. Where many pairs fall on one pixel's width, the first, the last and the extremes stand for all.

use super::{Frame, Stretch};
use std::fmt::Write;

/// A point in tenths of a pixel, to the right and downwards.
type Point = (i64, i64);

/// The width that shares its points: a pixel.
const COLUMN: i64 = 10;
/// How thick the line is.
const STROKE: i64 = 15;
/// Of the short runs of one column, which have pauses of a minute and more between them, so many are drawn.
const MOST_MARKS: usize = 12;

fn tenths(pixels: f64) -> i64 {
    (pixels * 10.0).round() as i64
}

/// The paths of a session.
#[derive(Default)]
pub struct Line {
    /// The cadence.
    pub path: String,
    /// A band for each pause that can be seen.
    pub pauses: String,
    /// Short runs of one column that are not yet in the path.
    marks: Vec<Mark>,
}

/// A run within one column: where it stands, and how far it reaches from top to bottom.
struct Mark {
    x: i64,
    top: i64,
    bottom: i64,
}

impl Line {
    pub fn of(stretches: &[Stretch], frame: &Frame) -> Self {
        let mut line = Line::default();
        let mut run = Run::default();
        let mut at = 0;
        let mut pause_from = None;
        for stretch in stretches {
            let from = tenths(frame.x(at));
            at += stretch.ticks();
            let to = tenths(frame.x(at));
            match *stretch {
                Stretch::Turning { cadence, .. } => {
                    if let Some(start) = pause_from.take() {
                        line.pause(start, from, frame);
                    }
                    let y = tenths(frame.y(cadence.into()));
                    run.go((from, y));
                    run.go((to, y));
                }
                Stretch::Pause { .. } => {
                    line.end(std::mem::take(&mut run));
                    pause_from.get_or_insert(from);
                }
                Stretch::Instant => {}
            }
        }
        line.end(run);
        if let Some(start) = pause_from {
            line.pause(start, tenths(frame.x(at)), frame);
        }
        line.put_marks();
        line
    }

    /// What is narrower than a pixel can't be seen.
    fn pause(&mut self, from: i64, to: i64, frame: &Frame) {
        if to - from < COLUMN {
            return;
        }
        let (top, bottom) = (tenths(frame.top), tenths(frame.bottom));
        let [from, to, top, bottom] = [from, to, top, bottom].map(Pixels);
        // Writing to a string never fails.
        let _ = write!(self.pauses, "M{from} {top}H{to}V{bottom}H{from}Z");
    }

    /// Puts a run into the path. One that stays within a column may be one of thousands there.
    fn end(&mut self, run: Run) {
        let points = run.points();
        let (Some(first), Some(last)) = (points.first(), points.last()) else {
            return;
        };
        let column = first.0 / COLUMN;
        if self
            .marks
            .first()
            .is_some_and(|mark| mark.x / COLUMN != column)
        {
            self.put_marks();
        }
        if last.0 / COLUMN == column {
            let heights = points.iter().map(|point| point.1);
            self.marks.push(Mark {
                x: first.0,
                top: heights.clone().min().unwrap_or(first.1),
                bottom: heights.max().unwrap_or(first.1),
            });
            return;
        }
        let _ = write!(self.path, "M{} {}", Pixels(first.0), Pixels(first.1));
        let mut before = first;
        for point in &points[1..] {
            let (x, y) = (Pixels(point.0), Pixels(point.1));
            let _ = match point {
                same if same == before => Ok(()),
                level if level.1 == before.1 => write!(self.path, "H{x}"),
                upright if upright.0 == before.0 => write!(self.path, "V{y}"),
                _ => write!(self.path, "L{x} {y}"),
            };
            before = point;
        }
    }

    /// Puts the short runs of a column into the path. Those that touch each other become one; nothing is drawn where none is.
    fn put_marks(&mut self) {
        self.marks.sort_by_key(|mark| mark.top);
        let mut joined: Vec<Mark> = Vec::new();
        for mark in self.marks.drain(..) {
            match joined.last_mut() {
                Some(last) if mark.top <= last.bottom + STROKE => {
                    last.bottom = last.bottom.max(mark.bottom);
                }
                _ => joined.push(mark),
            }
        }
        // The first and the last of them reach highest and lowest.
        let count = joined.len().min(MOST_MARKS);
        for number in 0..count {
            let place = number * (joined.len() - 1) / (count - 1).max(1);
            let Mark { x, top, bottom } = joined[place];
            let (x, y) = (Pixels(x), Pixels(top));
            let _ = match bottom == top {
                // A line of no length isn't drawn.
                true => write!(self.path, "M{x} {y}h1"),
                false => write!(self.path, "M{x} {y}V{}", Pixels(bottom)),
            };
        }
    }
}

/// An unbroken part of the line.
#[derive(Default)]
struct Run {
    done: Vec<Point>,
    column: Vec<Point>,
}

impl Run {
    fn go(&mut self, point: Point) {
        let other = |known: &Point| known.0 / COLUMN != point.0 / COLUMN;
        if self.column.first().is_some_and(other) {
            self.end_column();
        }
        self.column.push(point);
    }

    /// Of the points of a column the first, the highest, the lowest and the last stay, in their order.
    fn end_column(&mut self) {
        let places = 0..self.column.len();
        let height = |place: &usize| self.column[*place].1;
        let highest = places.clone().min_by_key(height);
        let lowest = places.clone().max_by_key(height);
        let mut kept = [places.clone().next(), highest, lowest, places.last()];
        kept.sort();
        for place in kept.into_iter().flatten() {
            self.done.push(self.column[place]);
        }
        self.column.clear();
    }

    fn points(mut self) -> Vec<Point> {
        self.end_column();
        self.done
    }
}

/// Tenths of a pixel, in pixels.
struct Pixels(i64);

impl std::fmt::Display for Pixels {
    fn fmt(&self, f: &mut std::fmt::Formatter<'_>) -> std::fmt::Result {
        match self.0 % 10 {
            0 => write!(f, "{}", self.0 / 10),
            tenth => write!(f, "{}.{tenth}", self.0 / 10),
        }
    }
}

#[cfg(test)]
mod tests {
    use super::*;

    const FRAME: Frame = Frame {
        left: 60.0,
        right: 930.0,
        top: 60.0,
        bottom: 340.0,
        ticks: 0,
        cadence: 200.0,
    };

    fn framed(stretches: &[Stretch]) -> Frame {
        let ticks = stretches.iter().map(Stretch::ticks).sum();
        Frame { ticks, ..FRAME }
    }

    fn cadence(ticks: u64, cadence: u32) -> Stretch {
        Stretch::Turning { ticks, cadence }
    }

    fn pause(ticks: u64) -> Stretch {
        Stretch::Pause { ticks }
    }

    /// The strokes of a path, from point to point, in pixels.
    fn strokes(path: &str) -> Vec<((f64, f64), (f64, f64))> {
        let mut drawn = Vec::new();
        let mut at = (0.0, 0.0);
        let starts = path.match_indices(|c: char| c.is_ascii_alphabetic());
        let starts: Vec<usize> = starts.map(|(start, _)| start).collect();
        let ends = starts.iter().skip(1).copied().chain([path.len()]);
        for (&start, end) in starts.iter().zip(ends) {
            let (command, words) = path[start..end].split_at(1);
            let numbers: Vec<f64> = words
                .split(' ')
                .map(|word| word.parse().expect("a number"))
                .collect();
            let to = match (command, &numbers[..]) {
                ("M" | "L", [x, y]) => (*x, *y),
                ("H", [x]) => (*x, at.1),
                ("V", [y]) => (at.0, *y),
                ("h", [width]) => (at.0 + width, at.1),
                other => panic!("{other:?}"),
            };
            if command != "M" {
                drawn.push((at, to));
            }
            at = to;
        }
        drawn
    }

    /// Each stretch with where it stands, from left to right.
    fn placed<'s>(
        stretches: &'s [Stretch],
        frame: &'s Frame,
    ) -> impl Iterator<Item = (f64, f64, Stretch)> + 's {
        let mut at = 0;
        stretches.iter().map(move |stretch| {
            let from = at;
            at += stretch.ticks();
            (frame.x(from), frame.x(at), *stretch)
        })
    }

    /// No stroke goes into a pause for more than a pixel, and no cadence is lost: within a pixel of its place something reaches its height.
    fn holds(stretches: &[Stretch]) -> Line {
        let frame = framed(stretches);
        let line = Line::of(stretches, &frame);
        let strokes = strokes(&line.path);
        for (from, to, stretch) in placed(stretches, &frame) {
            match stretch {
                Stretch::Pause { .. } => {
                    let crossed = strokes.iter().find(|((x, _), (to_x, _))| {
                        let (low, high) = (x.min(*to_x), x.max(*to_x));
                        high.min(to) - low.max(from) > 1.1
                    });
                    assert_eq!(crossed, None, "a pause from {from} to {to}");
                }
                Stretch::Turning { cadence, .. } => {
                    let height = frame.y(cadence.into());
                    let reached = strokes.iter().any(|((x, y), (to_x, to_y))| {
                        x.min(*to_x) <= to + 1.1
                            && x.max(*to_x) >= from - 1.1
                            && y.min(*to_y) <= height + 0.1
                            && y.max(*to_y) >= height - 0.1
                    });
                    assert!(reached, "{cadence} at {from}");
                }
                Stretch::Instant => {}
            }
        }
        line
    }

    #[test]
    fn a_level_for_each_pair() {
        let line = holds(&[cadence(100, 100), cadence(100, 0), cadence(90, 200)]);
        assert_eq!(line.path, "M60 200H360V340H660V60H930");
        assert_eq!(line.pauses, "");
    }

    #[test]
    fn a_pause_is_a_gap() {
        let line = holds(&[cadence(100, 100), pause(100), cadence(90, 100)]);
        assert_eq!(line.path, "M60 200H360M660 200H930");
        assert_eq!(line.pauses, "M360 60H660V340H360Z");
    }

    /// The height stays the same, and all of it is a pause.
    #[test]
    fn pauses_beside_each_other_are_one() {
        let line = holds(&[pause(40), Stretch::Instant, pause(50)]);
        assert_eq!(line.path, "");
        assert_eq!(line.pauses, "M60 60H930V340H60Z");
        assert_eq!(holds(&[Stretch::Instant; 3]).path, "");
    }

    /// Without a tick no time goes by: the line goes on.
    #[test]
    fn no_tick_is_no_gap() {
        let line = holds(&[cadence(145, 100), Stretch::Instant, cadence(145, 100)]);
        assert_eq!(line.path, "M60 200H495H930");
    }

    /// A part between two long pauses is seen, however short it is.
    #[test]
    fn a_short_part_is_a_mark() {
        let line = holds(&[pause(435_000), cadence(1, 100), pause(434_999)]);
        assert_eq!(line.path, "M495 200h1");
        let short = [cadence(1, 100), cadence(1, 50), cadence(1, 150)];
        let line = holds(&[&[pause(435_000)], &short[..], &[pause(434_997)]].concat());
        assert_eq!(line.path, "M495 130V270");
    }

    /// Short parts of one column with pauses between them: no line joins one to another.
    #[test]
    fn marks_stay_apart() {
        let (before, after) = (pause(500_600_000), pause(499_400_000));
        let marks = |heights: &[u32]| {
            let short = |height: &u32| [cadence(1, *height), pause(65_536 / 8)];
            let parts: Vec<_> = heights.iter().flat_map(short).collect();
            let line = holds(&[&[before], &parts[..], &[after]].concat());
            let strokes = strokes(&line.path);
            assert!(strokes.iter().all(|(from, to)| from.1 == to.1));
            strokes.iter().map(|(from, _)| from.1).collect::<Vec<_>>()
        };
        assert_eq!(marks(&[150, 100]), [130.0, 200.0]);
        assert_eq!(marks(&[100, 150, 100]), [130.0, 200.0]);
        // one height has one mark
        assert_eq!(marks(&[0, 100, 200, 100, 0]), [60.0, 200.0, 340.0]);
    }

    /// Where a column has very many parts, the highest and the lowest are among those that are drawn.
    #[test]
    fn extremes_stay() {
        let mut many = vec![pause(500_600_000)];
        for height in (0..=200).step_by(4) {
            many.extend([cadence(1, height), pause(64)]);
        }
        many.push(pause(499_400_000));
        let strokes = strokes(&Line::of(&many, &framed(&many)).path);
        assert_eq!(strokes.len(), MOST_MARKS);
        let heights: Vec<_> = strokes.iter().map(|(from, _)| from.1).collect();
        assert_eq!((heights[0], heights[MOST_MARKS - 1]), (60.0, 340.0));
    }

    /// A number that looks like any other.
    fn next(state: &mut u64) -> u64 {
        *state = state
            .wrapping_mul(6_364_136_223_846_793_005)
            .wrapping_add(1);
        *state >> 33
    }

    #[test]
    fn made_sessions() {
        for seed in 0..300 {
            let mut state = seed;
            let pauses = [0, 3, 30][seed as usize % 3];
            let longest = [10, 1_000, 100_000][seed as usize / 3 % 3];
            let stretches: Vec<_> = (0..400)
                .map(|_| match next(&mut state) % 100 {
                    kind if kind < pauses => pause(65_536 + next(&mut state) % longest),
                    _ => cadence(
                        1 + next(&mut state) % longest,
                        (next(&mut state) % 201) as u32,
                    ),
                })
                .collect();
            holds(&stretches);
        }
    }

    /// As many pairs as there may be: a few points for each pixel, with and without pauses.
    #[test]
    fn many_pairs() {
        let mut state = 1;
        let mut made = |pauses: u64| -> Vec<Stretch> {
            let one = |_| match next(&mut state) % 100 {
                kind if kind < pauses => pause(65_536),
                _ => cadence(
                    1 + next(&mut state) % 2_000,
                    (next(&mut state) % 201) as u32,
                ),
            };
            (0..65_535).map(one).collect()
        };
        for (pauses, most) in [(0, 5 * 870), (1, 6 * 870), (50, 12 * 870)] {
            let stretches = made(pauses);
            let line = Line::of(&stretches, &framed(&stretches));
            let count = strokes(&line.path).len();
            assert!(count <= most, "{count} strokes with {pauses} % pauses");
            assert!(line.path.len() < 200_000, "{} bytes", line.path.len());
        }
    }
}
