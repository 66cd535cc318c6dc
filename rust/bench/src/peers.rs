//! Beside other readers, where the machine has them: each as a program of its own, from its start to its end, on one workbook. They take the compound
//! file, ours the stream lifted out of it.
//!
//! - cells: the proved library by this program, and libfreexl by `peers/freexl.c` (Debian's libfreexl-dev), which only go through the cells;
//! - text: the command line's `export --grid`, and xls2csv (Debian's catdoc), which print the sheet as CSV.

use crate::{compound, instructions};
use std::env;
use std::fs;
use std::path::{Path, PathBuf};
use std::process::{Command, Stdio};
use std::time::Instant;
use streams::Big;

const BYTES: usize = 6_000_000;
const TURNS: usize = 5;
/// libfreexl reads no streams with strings from here: they have units that are no characters.
const KINDS: [Big; 4] = [Big::Mixed, Big::Numbers, Big::Rks, Big::MulRks];
const FREEXL: &str = include_str!("../peers/freexl.c");

/// A made stream with the formats that its cells name, each the general one: after the globals' BOF, before their one BOUNDSHEET.
fn with_formats(stream: Vec<u8>) -> Vec<u8> {
    const BOF_SIZE: usize = 20;
    const FORMATS: usize = 60;
    const XF: [u8; 24] = {
        let mut record = [0; 24];
        record[0] = 0xE0;
        record[2] = 20;
        record
    };
    let (bof, rest) = stream.split_at(BOF_SIZE);
    let mut formatted = bof.to_vec();
    formatted.extend(XF.repeat(FORMATS));
    let mut sheet = [0; 4];
    sheet.copy_from_slice(&rest[4..8]);
    let position = u32::from_le_bytes(sheet) + (FORMATS * XF.len()) as u32;
    formatted.extend(&rest[..4]);
    formatted.extend(position.to_le_bytes());
    formatted.extend(&rest[8..]);
    formatted
}

struct Peer {
    name: &'static str,
    words: Vec<PathBuf>,
    /// Whether it takes the stream itself.
    lifted: bool,
}

impl Peer {
    fn new<W: Into<PathBuf>, const N: usize>(
        name: &'static str,
        words: [W; N],
        lifted: bool,
    ) -> Self {
        Peer {
            name,
            words: words.into_iter().map(Into::into).collect(),
            lifted,
        }
    }

    /// Bytes of the workbook a microsecond, which is MB/s; none where it can't be run or finds fault.
    fn speed(&self, book: &Path, stream: &Path) -> Option<f64> {
        let file = if self.lifted { stream } else { book };
        let mut best = f64::INFINITY;
        for _ in 0..TURNS {
            let start = Instant::now();
            let status = Command::new(self.words.first()?)
                .args(&self.words[1..])
                .arg(file)
                .stdin(Stdio::null())
                .stdout(Stdio::null())
                .stderr(Stdio::null())
                .status()
                .ok()?;
            if !status.success() {
                return None;
            }
            best = best.min(start.elapsed().as_secs_f64());
        }
        Some(BYTES as f64 / best / 1e6)
    }
}

/// libfreexl's reader, compiled here; none without a C compiler or the library.
fn freexl(folder: &Path) -> Option<PathBuf> {
    let source = folder.join("freexl.c");
    let program = folder.join("freexl");
    fs::write(&source, FREEXL).ok()?;
    let compiled = Command::new("cc")
        .arg("-O2")
        .arg(&source)
        .arg("-o")
        .arg(&program)
        .arg("-lfreexl")
        .stderr(Stdio::null())
        .status()
        .ok()?;
    compiled.success().then_some(program)
}

fn all(folder: &Path) -> Option<Vec<Peer>> {
    let bench = env::current_exe().ok()?;
    let tool = bench.with_file_name("vaigunthe");
    let mut peers = vec![Peer::new(
        "ours, cells",
        [bench, instructions::WORK.into(), instructions::OURS.into()],
        true,
    )];
    if let Some(program) = freexl(folder) {
        peers.push(Peer::new("libfreexl, cells", [program], false));
    }
    if tool.exists() {
        let words = [tool, "export".into(), "--grid".into()];
        peers.push(Peer::new("ours, text", words, true));
    }
    peers.push(Peer::new("xls2csv, text", ["xls2csv"], false));
    Some(peers)
}

fn compare(folder: &Path) -> Option<()> {
    let peers = all(folder)?;
    let [book, lifted] = ["book.xls", "book.bin"].map(|name| folder.join(name));
    for kind in KINDS {
        let stream = with_formats(streams::big(kind, BYTES));
        fs::write(&book, compound::file(&stream)).ok()?;
        fs::write(&lifted, &stream).ok()?;
        for peer in &peers {
            match peer.speed(&book, &lifted) {
                Some(speed) => println!("{kind:?}: {}: {speed:.1} MB/s", peer.name),
                None => println!("{kind:?}: {}: not there, or it finds fault", peer.name),
            }
        }
    }
    Some(())
}

pub fn run() -> bool {
    let folder = env::temp_dir().join(format!("vaigunthe-peers-{}", std::process::id()));
    let done = fs::create_dir(&folder).is_ok() && compare(&folder).is_some();
    let _ = fs::remove_dir_all(&folder);
    done
}
