//! Prints how long the makers and the reader take:
//! `cargo run --release --example speed`.

use second_reader as reader;
use std::hint::black_box;
use std::time::{Duration, Instant};
use streams::Big;

const SEEDS: u64 = 200_000;
const BYTES: usize = 16_000_000;
const ROUNDS: usize = 40;

fn each(duration: Duration) -> String {
    format!("{:.2} us each", duration.as_secs_f64() * 1e6 / SEEDS as f64)
}

fn small_streams() {
    let start = Instant::now();
    let streams: Vec<Vec<u8>> = (0..SEEDS).map(streams::stream).collect();
    println!("make {SEEDS} streams: {}", each(start.elapsed()));
    let start = Instant::now();
    for stream in &streams {
        black_box(reader::check(stream).is_ok());
    }
    println!("check them: {}", each(start.elapsed()));
    let start = Instant::now();
    for stream in &streams {
        black_box(reader::read(stream).is_ok());
    }
    println!("read them: {}", each(start.elapsed()));
    let start = Instant::now();
    let formulas: Vec<streams::Formula> = (0..SEEDS).map(streams::formula).collect();
    println!("make {SEEDS} formulas: {}", each(start.elapsed()));
    let start = Instant::now();
    for formula in &formulas {
        black_box(reader::judge(&formula.tokens, &formula.trailing).is_ok());
    }
    println!("judge them: {}", each(start.elapsed()));
}

/// The shortest of some rounds, in milliseconds.
fn shortest(mut run: impl FnMut()) -> f64 {
    let rounds = (0..ROUNDS).map(|_| {
        let start = Instant::now();
        run();
        start.elapsed()
    });
    rounds.min().unwrap_or_default().as_secs_f64() * 1e3
}

fn large_streams() {
    println!("{BYTES} bytes of     check ms   list ms     cells   strings");
    for kind in Big::ALL {
        let stream = streams::big(kind, BYTES);
        let passed = reader::check(&stream).expect("valid");
        let check = shortest(|| {
            black_box(reader::check(black_box(&stream)).is_ok());
        });
        let list = shortest(|| {
            // Every field is used, so that none is left out.
            let mut sum = 0u64;
            reader::list_cells(black_box(&stream), 0, |cell| {
                let value = match cell.value {
                    reader::Value::Number(bits) => bits,
                    reader::Value::Text(index) => u64::from(index),
                    reader::Value::Truth(byte) | reader::Value::Error(byte) => u64::from(byte),
                    reader::Value::Formula(reader::FormulaResult::Number(bits)) => bits,
                    _ => 1,
                };
                let place = u64::from(cell.row) << 8 | u64::from(cell.column);
                let tokens = cell.tokens.len() as u64;
                sum = sum.rotate_left(5) ^ value ^ place ^ u64::from(cell.format) ^ tokens;
            })
            .expect("valid");
            black_box(sum);
        });
        println!(
            "{:18} {check:9.2} {list:9.2} {:9} {:9}",
            format!("{kind:?}"),
            passed.cells,
            passed.strings
        );
    }
}

fn main() {
    small_streams();
    large_streams();
}
