//! How often each way to be accepted or refused is met, where one number has
//! many causes. What a formula holds is found by the sizes of its tokens alone.

mod functions;
mod jumps;
mod pairs;
mod places;
mod revisions;
mod sessions;
mod text_results;
mod tokens;
mod trailing;
mod unused;

use second_reader::Refusal;
use std::collections::BTreeMap;
use std::sync::OnceLock;
use streams::Formula;

const SEEDS: u64 = 200_000;
const LEAST: u64 = 100;

/// Ways that must be met, and how often they were.
struct Ways(BTreeMap<&'static str, u64>);

impl Ways {
    fn new(names: &[&'static str]) -> Self {
        Ways(names.iter().map(|&name| (name, 0)).collect())
    }

    fn meet(&mut self, name: &str) {
        *self.0.get_mut(name).expect("a way that is looked for") += 1;
    }

    fn assert_met(&self) {
        for (name, times) in &self.0 {
            println!("{times:8} {name}");
        }
        let rare: Vec<_> = self.0.iter().filter(|way| *way.1 < LEAST).collect();
        assert!(rare.is_empty(), "{rare:?}");
    }
}

type Judged = (Formula, Result<(), Refusal>);

/// The formulas and their answers, made once for all tests.
fn judged() -> &'static [Judged] {
    static JUDGED: OnceLock<Vec<Judged>> = OnceLock::new();
    JUDGED.get_or_init(|| {
        let judged = |seed| {
            let formula = streams::formula(seed);
            let answer = second_reader::judge(&formula.tokens, &formula.trailing);
            (formula, answer)
        };
        (0..SEEDS).map(judged).collect()
    })
}
