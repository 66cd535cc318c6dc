//! A line on standard error that says how far a long run has come.

use std::io::{self, IsTerminal, Stderr, Write};

/// Sets the line back to its start and empties it.
const CLEAR: &str = "\r\x1b[K";

pub struct Progress<W> {
    /// None where nobody looks.
    to: Option<W>,
    /// What is done at each step.
    doing: &'static str,
    total: usize,
    shown: bool,
}

impl Progress<Stderr> {
    /// Shown only on a terminal that knows the sequence, and only where there is more than one step.
    pub fn on_standard_error(doing: &'static str, total: usize) -> Self {
        let standard_error = io::stderr();
        let dumb = std::env::var_os("TERM").is_none_or(|term| term.is_empty() || term == "dumb");
        let seen = total > 1 && !dumb && standard_error.is_terminal();
        Progress::new(seen.then_some(standard_error), doing, total)
    }
}

impl<W: Write> Progress<W> {
    fn new(to: Option<W>, doing: &'static str, total: usize) -> Self {
        Progress {
            to,
            doing,
            total,
            shown: false,
        }
    }

    /// Says that this step, counted from 1, is under way.
    pub fn show(&mut self, step: usize) {
        if let Some(to) = &mut self.to {
            let _ = write!(to, "{CLEAR}{} {step} of {}", self.doing, self.total);
            let _ = to.flush();
            self.shown = true;
        }
    }

    /// Makes room for another line.
    pub fn clear(&mut self) {
        if let Some(to) = self.to.as_mut().filter(|_| self.shown) {
            let _ = write!(to, "{CLEAR}");
            let _ = to.flush();
            self.shown = false;
        }
    }
}

#[cfg(test)]
mod tests {
    use super::*;

    #[test]
    fn a_step_is_shown_and_cleared_once() {
        let mut progress = Progress::new(Some(Vec::new()), "checking", 7);
        progress.show(3);
        progress.clear();
        progress.clear();
        assert_eq!(
            progress.to.as_deref(),
            Some(&b"\r\x1b[Kchecking 3 of 7\r\x1b[K"[..])
        );
    }

    #[test]
    fn nothing_is_cleared_before_a_step() {
        let mut progress = Progress::new(Some(Vec::new()), "checking", 2);
        progress.clear();
        assert_eq!(progress.to.as_deref(), Some(&[][..]));
    }
}
