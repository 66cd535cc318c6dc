//! Replay of journals on a stream of 16,000,000 bytes: how long it takes, by the number of entries, for entries in the order of the cells and in none; and the worst
//! that was found, cells and entries both in no order.

use station::journal::{self, Direction, ENTRY, HEADER};
use std::time::Instant;
use streams::Big;

const BYTES: usize = 16_000_000;
const COUNTS: [usize; 4] = [0, 1, 10_000, 500_000];
const TURNS: usize = 3;

/// Numbers that follow no pattern.
struct Numbers(u64);

impl Numbers {
    fn below(&mut self, limit: usize) -> usize {
        self.0 = self.0.wrapping_mul(6_364_136_223_846_793_005);
        self.0 = self.0.wrapping_add(1_442_695_040_888_963_407);
        ((u128::from(self.0 >> 11) * limit as u128) >> 53) as usize
    }
}

/// A NUMBER record of the stream: its address and where its field stands.
#[derive(Clone, Copy)]
struct Found {
    row: u16,
    column: u16,
    field: usize,
}

/// The cells of the first sheet that stand alone in a NUMBER record.
fn numbers_of(stream: &[u8]) -> Vec<Found> {
    let is_number = |at: usize| at >= 10 && stream[at - 10..at - 6] == [0x03, 0x02, 14, 0];
    let cells = station::cells(stream, 0).expect("a stream that passes");
    cells
        .filter(|cell| is_number(cell.field()))
        .map(|cell| Found {
            row: cell.row(),
            column: cell.column(),
            field: cell.field(),
        })
        .collect()
}

/// The records of these cells in another order, each with its 18 bytes.
fn shuffled(stream: &[u8], found: &[Found], numbers: &mut Numbers) -> Vec<u8> {
    let mut order: Vec<usize> = (0..found.len()).collect();
    for last in (1..order.len()).rev() {
        order.swap(last, numbers.below(last + 1));
    }
    let mut turned = stream.to_vec();
    for (to, &from) in found.iter().zip(&order) {
        let record = &stream[found[from].field - 10..found[from].field + 8];
        turned[to.field - 10..to.field + 8].copy_from_slice(record);
    }
    turned
}

/// A journal whose entries write what their cells hold already, so that it can be replayed either way.
fn forged(stream: &[u8], cells: &[Found]) -> Vec<u8> {
    let mut journal = vec![0; HEADER];
    journal::start(stream, &mut journal).expect("a stream that passes");
    journal[..4].copy_from_slice(&(cells.len() as u32).to_le_bytes());
    for cell in cells {
        let mut entry = [0; ENTRY];
        entry[4..6].copy_from_slice(&cell.row.to_le_bytes());
        entry[6..8].copy_from_slice(&cell.column.to_le_bytes());
        entry[10] = 8;
        let field = &stream[cell.field..cell.field + 8];
        entry[12..20].copy_from_slice(field);
        entry[20..].copy_from_slice(field);
        journal.extend(entry);
    }
    journal
}

/// Whether all entries were replayed either way, in a row of the table.
fn measure(name: &str, stream: &[u8], cells: &[Found]) -> bool {
    let journal = forged(stream, cells);
    let mut copy = stream.to_vec();
    let mut best = [f64::INFINITY; 2];
    let mut good = true;
    for _ in 0..TURNS {
        for (way, direction) in [Direction::Forwards, Direction::Backwards]
            .into_iter()
            .enumerate()
        {
            let start = Instant::now();
            let answer = journal::replay(&mut copy, &journal, direction);
            best[way] = best[way].min(start.elapsed().as_secs_f64() * 1e3);
            good &= answer == Ok(cells.len() as u32);
        }
        // What takes long is measured once.
        if best[0] > 3_000.0 {
            break;
        }
    }
    good &= copy == stream;
    let [forwards, backwards] = best;
    let count = cells.len();
    println!(
        "| {name:26} | {count:7} | {forwards:11.1} | {backwards:12.1} |{}",
        if good { "" } else { " NOT ALL" }
    );
    good
}

pub fn run() -> bool {
    let stream = streams::big(Big::Numbers, BYTES);
    let found = numbers_of(&stream);
    let mut numbers = Numbers(1);
    println!("{} NUMBER cells in {BYTES} bytes", found.len());
    println!("| Entries                    | entries | forwards ms | backwards ms |");
    println!("|----------------------------|---------|-------------|--------------|");
    let mut good = true;
    for count in COUNTS {
        let in_order: Vec<_> = found.iter().copied().cycle().take(count).collect();
        good &= measure("in the order of the cells", &stream, &in_order);
        let random: Vec<_> = (0..count)
            .map(|_| found[numbers.below(found.len())])
            .collect();
        good &= measure("in no order", &stream, &random);
    }
    let turned = shuffled(&stream, &found, &mut numbers);
    let found = numbers_of(&turned);
    let most = COUNTS[COUNTS.len() - 1];
    let random: Vec<_> = (0..most)
        .map(|_| found[numbers.below(found.len())])
        .collect();
    good & measure("cells in no order either", &turned, &random)
}
