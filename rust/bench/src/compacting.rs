//! A stream without its unused strings: how long the proved library takes, and the second reader, which makes the whole new stream in vectors first.

use crate::{instructions, targets, time, ASSERTED_BYTES, BYTES};
use std::time::Instant;
use streams::Big;

const TURNS: usize = 9;

/// The new stream's length, and a sum of its bytes; 0 where it is refused.
fn told(new: &[u8]) -> u64 {
    let sum = |sum: u64, part: &[u8; 8]| sum.rotate_left(5) ^ u64::from_le_bytes(*part);
    new.as_chunks().0.iter().fold(new.len() as u64, sum)
}

pub fn ours(stream: &[u8]) -> u64 {
    let mut buffer = vec![0; stream.len()];
    let done = station::compact(stream, &mut buffer);
    done.map_or(0, |done| told(&buffer[..done.written]))
}

pub fn theirs(stream: &[u8]) -> u64 {
    let mut buffer = vec![0; stream.len()];
    let done = second_reader::compact(stream, &mut buffer);
    done.map_or(0, |done| told(&buffer[..done.written]))
}

/// Both in turn, the best of some; whether they gave the same.
fn measure(name: &str, stream: &[u8]) -> bool {
    let mut best = [f64::INFINITY; 2];
    let mut same = true;
    let start = Instant::now();
    for _ in 0..TURNS {
        let one = time(&mut best[0], || ours(stream));
        same &= one != 0 && one == time(&mut best[1], || theirs(stream));
        // What is dear is asked once.
        if start.elapsed().as_secs() > 3 {
            break;
        }
    }
    let [ours, theirs] = best;
    println!(
        "{name}: {ours:.1} ms against {theirs:.1} ms, ratio {:.2}{}",
        ours / theirs,
        if same { "" } else { ": THE ANSWERS DIFFER" },
    );
    same
}

pub fn run() -> bool {
    let stream = streams::half_used(BYTES);
    let mut same = measure("half of 400,000 strings used", &stream);
    if let Some([ours, theirs]) = instructions::of_compacting(&stream) {
        println!(
            "  instructions {ours} against {theirs}, ratio {:.2}",
            ours as f64 / theirs as f64
        );
    }
    for kind in Big::ALL {
        same &= measure(&format!("{kind:?}"), &streams::big(kind, BYTES));
    }
    same
}

/// The ratio of instructions against its target. Without a counter it is not kept.
pub fn keeps() -> bool {
    let stream = streams::half_used(ASSERTED_BYTES);
    let Some([count, others]) = instructions::of_compacting(&stream) else {
        println!("without unused strings: no counter of instructions");
        return false;
    };
    let same = ours(&stream) != 0 && ours(&stream) == theirs(&stream);
    let (ratio, most) = (count as f64 / others as f64, targets::COMPACTING);
    println!(
        "without unused strings: {ratio:.3}{} {most:.2}{}",
        if ratio <= most { " of" } else { " ABOVE" },
        if same { "" } else { ", THE ANSWERS DIFFER" },
    );
    same && ratio <= most
}
