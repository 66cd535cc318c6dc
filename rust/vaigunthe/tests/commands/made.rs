//! Small streams put together by hand, after document 01.

pub const WORKSHEET: u8 = 0;
pub const MACRO: u8 = 1;
pub const CHART: u8 = 2;

pub fn units(text: &str) -> Vec<u16> {
    text.encode_utf16().collect()
}

pub fn record(kind: u16, body: &[u8]) -> Vec<u8> {
    let size = u16::try_from(body.len()).expect("a body that fits");
    [&kind.to_le_bytes(), &size.to_le_bytes(), body].concat()
}

fn bof(kind: u16) -> Vec<u8> {
    let mut body = vec![0x00, 0x06];
    body.extend(kind.to_le_bytes());
    body.resize(16, 0);
    record(0x0809, &body)
}

fn end() -> Vec<u8> {
    record(0x000A, &[])
}

fn wide(units: &[u16]) -> Vec<u8> {
    units.iter().flat_map(|unit| unit.to_le_bytes()).collect()
}

fn boundsheet(position: usize, sheet: &Sheet) -> Vec<u8> {
    let mut body = (position as u32).to_le_bytes().to_vec();
    body.extend([0, sheet.kind, sheet.name.len() as u8, 1]);
    body.extend(wide(&sheet.name));
    record(0x0085, &body)
}

fn table(strings: &[Vec<u16>]) -> Vec<u8> {
    let count = (strings.len() as u32).to_le_bytes();
    let mut body = [count, count].concat();
    for string in strings {
        body.extend((string.len() as u16).to_le_bytes());
        body.push(1);
        body.extend(wide(string));
    }
    record(0x00FC, &body)
}

pub struct Sheet {
    pub kind: u8,
    pub name: Vec<u16>,
    pub records: Vec<Vec<u8>>,
}

/// A workbook with these strings and sheets.
pub fn book(strings: &[Vec<u16>], sheets: &[Sheet]) -> Vec<u8> {
    book_of(&[table(strings)], sheets)
}

/// A workbook with these records in its globals, and these sheets.
pub fn book_of(globals: &[Vec<u8>], sheets: &[Sheet]) -> Vec<u8> {
    let globals = globals.concat();
    let list: usize = sheets.iter().map(|sheet| boundsheet(0, sheet).len()).sum();
    let mut position = bof(5).len() + globals.len() + list + end().len();
    let mut stream = bof(5);
    stream.extend(globals);
    let mut bodies = Vec::new();
    for sheet in sheets {
        stream.extend(boundsheet(position, sheet));
        let kind = [0x0010, 0x0040, 0x0020][usize::from(sheet.kind)];
        let body = [bof(kind), sheet.records.concat(), end()].concat();
        position += body.len();
        bodies.extend(body);
    }
    stream.extend(end());
    stream.extend(bodies);
    stream
}

/// A workbook with one worksheet.
pub fn one(strings: &[Vec<u16>], records: Vec<Vec<u8>>) -> Vec<u8> {
    let sheet = Sheet {
        kind: WORKSHEET,
        name: units("Sheet1"),
        records,
    };
    book(strings, &[sheet])
}

/// 0 counts days from 1900, 1 from 1904.
pub fn datemode(system: u16) -> Vec<u8> {
    record(0x0022, &system.to_le_bytes())
}

/// A number format of the workbook's own.
pub fn number_format(index: u16, text: &str) -> Vec<u8> {
    let size = text.len() as u16;
    let head = [index, size].map(u16::to_le_bytes).concat();
    record(0x041E, &[&head[..], &[0], text.as_bytes()].concat())
}

/// A cell format, by the number format that it names.
pub fn cell_format(index: u16) -> Vec<u8> {
    let mut body = vec![0; 20];
    body[2..4].copy_from_slice(&index.to_le_bytes());
    record(0x00E0, &body)
}

/// The same cell with this cell format.
pub fn in_format(format: u16, mut cell: Vec<u8>) -> Vec<u8> {
    cell[8..10].copy_from_slice(&format.to_le_bytes());
    cell
}

fn cell(kind: u16, row: u16, column: u16, rest: &[u8]) -> Vec<u8> {
    let head = [row, column, 15].map(u16::to_le_bytes).concat();
    record(kind, &[&head, rest].concat())
}

pub fn blank(row: u16, column: u16) -> Vec<u8> {
    cell(0x0201, row, column, &[])
}

pub fn number(row: u16, column: u16, number: f64) -> Vec<u8> {
    cell(0x0203, row, column, &number.to_le_bytes())
}

pub fn text(row: u16, column: u16, index: u32) -> Vec<u8> {
    cell(0x00FD, row, column, &index.to_le_bytes())
}

pub fn error(row: u16, column: u16, code: u8) -> Vec<u8> {
    cell(0x0205, row, column, &[code, 1])
}

pub fn mulrk(row: u16, numbers: &[i32]) -> Vec<u8> {
    let mut body = [row, 0].map(u16::to_le_bytes).concat();
    for number in numbers {
        body.extend(15u16.to_le_bytes());
        body.extend((number << 2 | 2).to_le_bytes());
    }
    body.extend((numbers.len() as u16 - 1).to_le_bytes());
    record(0x00BD, &body)
}

/// A session with these rows: ticks and turns, which start again after 65,535, and seconds.
pub fn session(rows: &[[u64; 3]]) -> Vec<u8> {
    let mut records = Vec::new();
    for (row, &[ticks, turns, seconds]) in rows.iter().enumerate() {
        let row = u16::try_from(row).expect("a row that fits");
        for (column, count) in (0..).zip([ticks % 65_536, turns % 65_536, seconds]) {
            records.push(number(row, column, count as f64));
        }
    }
    one(&[], records)
}

/// A formula with this text for its result, and the record that holds it. No text has more than a few thousand units here.
pub fn formula_text(row: u16, column: u16, text: &[u16]) -> [Vec<u8>; 2] {
    let result = [0, 0, 0, 0, 0, 0, 0xFF, 0xFF];
    let rest = [&result[..], &[0; 6], &[3, 0], &[0x1E, 1, 0]].concat();
    let mut body = (text.len() as u16).to_le_bytes().to_vec();
    body.push(1);
    body.extend(wide(text));
    [cell(0x0006, row, column, &rest), record(0x0207, &body)]
}
