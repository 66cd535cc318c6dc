//! A compound file around a workbook stream, for readers that take nothing else: its header, the table of sectors, a directory, and the stream.

const SECTOR: usize = 512;
const ENTRIES: usize = SECTOR / 4;
/// Tables that the header itself has room to name; one that is longer would need tables of tables.
const TABLES: usize = 109;

const TABLE: u32 = 0xFFFF_FFFD;
const CHAIN_END: u32 = 0xFFFF_FFFE;
const FREE: u32 = 0xFFFF_FFFF;

/// The file of a stream from 4,096 up to 7,000,000 bytes.
pub fn file(stream: &[u8]) -> Vec<u8> {
    let body = stream.len().div_ceil(SECTOR);
    let tables = (1..=TABLES)
        .find(|tables| tables + 1 + body <= tables * ENTRIES)
        .expect("a stream that this file has room for");
    let first = tables + 1;
    let mut chains: Vec<u32> = vec![TABLE; tables];
    chains.push(CHAIN_END);
    chains.extend((first + 1..first + body).map(|next| next as u32));
    chains.push(CHAIN_END);
    chains.resize(tables * ENTRIES, FREE);

    let mut file = header(tables);
    file.extend(chains.iter().flat_map(|entry| entry.to_le_bytes()));
    file.extend(entry("Root Entry", 5, 1, CHAIN_END, 0));
    file.extend(entry("Workbook", 2, FREE, first as u32, stream.len()));
    file.extend(entry("", 0, FREE, 0, 0));
    file.extend(entry("", 0, FREE, 0, 0));
    file.extend(stream);
    file.resize(SECTOR * (1 + first + body), 0);
    file
}

fn header(tables: usize) -> Vec<u8> {
    let mut header = vec![0xD0, 0xCF, 0x11, 0xE0, 0xA1, 0xB1, 0x1A, 0xE1];
    header.extend([0; 16]);
    // Versions, the order of bytes, and the sizes of sectors as powers of two.
    for word in [0x003E_u16, 3, 0xFFFE, 9, 6, 0, 0, 0] {
        header.extend(word.to_le_bytes());
    }
    // No count of directory sectors in this version; the tables; the directory; the shortest stream that has sectors of its own; no chain of small
    // sectors, and no table of tables.
    let directory = tables as u32;
    for word in [0, directory, directory, 0, 4096, CHAIN_END, 0, CHAIN_END, 0] {
        header.extend(word.to_le_bytes());
    }
    let named = (0..TABLES).map(|n| if n < tables { n as u32 } else { FREE });
    header.extend(named.flat_map(u32::to_le_bytes));
    header
}

/// An entry of the directory; it has no neighbours.
fn entry(name: &str, kind: u8, child: u32, first: u32, size: usize) -> Vec<u8> {
    let mut entry: Vec<u8> = name.encode_utf16().flat_map(u16::to_le_bytes).collect();
    let named = if name.is_empty() { 0 } else { entry.len() + 2 };
    entry.resize(64, 0);
    entry.extend((named as u16).to_le_bytes());
    entry.extend([kind, 1]);
    for word in [FREE, FREE, child] {
        entry.extend(word.to_le_bytes());
    }
    entry.resize(116, 0);
    entry.extend(first.to_le_bytes());
    entry.extend((size as u64).to_le_bytes());
    entry
}
