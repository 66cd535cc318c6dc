//! The program's lines for a workbook stream on standard input, from the second reader: plain Rust, and nothing of it is proved.

use std::io::{self, Read, Write};

fn main() -> io::Result<()> {
    let mut stream = Vec::new();
    io::stdin().lock().read_to_end(&mut stream)?;
    io::stdout().write_all(second_reader::lines(&stream).as_bytes())
}
