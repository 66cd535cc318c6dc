//! A session as sensors write it: its totals in words, and its cadence over time as a picture.

use crate::cadence::{between, Between};
use crate::figures::{counted, duration, grouped, TICKS_PER_SECOND};
use crate::picture;
use station::{Pair, Profile};
use std::io::{self, Write};

/// What the pairs of a session come to.
#[derive(Default)]
struct Totals {
    pairs: usize,
    pauses: usize,
    paused: u64,
    /// Pairs without a tick.
    still: usize,
    ticks: u64,
    turns: u64,
    lowest: Option<u32>,
    highest: Option<u32>,
}

impl Totals {
    fn of(pairs: &[Between]) -> Self {
        let mut totals = Totals {
            pairs: pairs.len(),
            ..Totals::default()
        };
        pairs.iter().for_each(|between| totals.add(between));
        totals
    }

    fn add(&mut self, between: &Between) {
        match between.pair {
            Pair::Pause => {
                self.pauses += 1;
                self.paused += between.ticks;
            }
            Pair::Elapsed { turns, cadence, .. } => {
                self.ticks += between.ticks;
                self.turns += u64::from(turns);
                self.still += usize::from(cadence.is_none());
                self.lowest = [self.lowest, cadence].into_iter().flatten().min();
                self.highest = self.highest.max(cadence);
            }
        }
    }

    fn sentences(&self, profile: &Profile) -> Vec<String> {
        let clock = match profile.columns {
            3 => "with the host's seconds",
            _ => "without the host's seconds, so that no pause is known",
        };
        let rows = counted(profile.rows as usize, "row", "rows");
        let mut said = vec![format!("A session of {rows}, {clock}.")];
        if self.pairs == 0 {
            said.push("There are no two rows to compare.".into());
            return said;
        }
        let pairs = counted(self.pairs, "pair of rows", "pairs of rows");
        let all = duration(self.ticks + self.paused);
        said.push(format!("{pairs}, {all} from the first row to the last."));
        let pauses = counted(self.pauses, "pause", "pauses");
        said.push(match self.pauses {
            0 => "No pause.".to_string(),
            _ => format!("{pauses}, {} altogether.", duration(self.paused)),
        });
        let turns = counted(self.turns as usize, "turn", "turns");
        let counting = duration(self.ticks);
        said.push(format!("{turns} in the {counting} that were counted."));
        said.extend(self.cadence());
        if self.still > 0 {
            let still = counted(self.still, "pair has", "pairs have");
            said.push(format!("{still} no tick, and so no cadence."));
        }
        said
    }

    /// On average it is what the library would say of all pairs as one.
    fn cadence(&self) -> Option<String> {
        let (lowest, highest) = self.lowest.zip(self.highest)?;
        let mean = self.turns * 60 * TICKS_PER_SECOND / self.ticks;
        let [lowest, highest] = [lowest, highest].map(|cadence| grouped(f64::from(cadence), 0));
        let mean = grouped(mean as f64, 0);
        Some(format!(
            "Cadence from {lowest} to {highest} turns a minute, {mean} on average, all rounded down."
        ))
    }
}

/// The part on a session, where the stream is one.
pub fn write<W: Write>(
    stream: &[u8],
    profile: &Profile,
    (title, level): (&str, u8),
    out: &mut W,
) -> io::Result<()> {
    let pairs = station::pairs(stream).map(|pairs| between(pairs).collect());
    let pairs: Vec<_> = pairs.unwrap_or_default();
    writeln!(out, "<h{level}>Cadence</h{level}>\n<ul>")?;
    for sentence in Totals::of(&pairs).sentences(profile) {
        writeln!(out, "<li>{sentence}")?;
    }
    writeln!(out, "</ul>")?;
    if pairs.is_empty() {
        return Ok(());
    }
    let stretches: Vec<_> = pairs.iter().map(Between::stretch).collect();
    out.write_all(b"<div class=scroll role=region aria-label=Cadence tabindex=0>\n")?;
    picture::write_element(title, &stretches, out)?;
    out.write_all(b"</div>\n")
}
