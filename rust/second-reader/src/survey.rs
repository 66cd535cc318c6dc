//! The walk over the whole stream: everything is judged here, in stream order,
//! and what later questions need to find is kept.

use crate::cells::{each_cell, Cell};
use crate::records::{kind, Record, Records};
use crate::sheets::{match_up, SheetEntry, SheetType};
use crate::strings::{ResultText, StringTable};
use crate::text_results;
use crate::{Passed, Refusal};

pub(crate) const LONGEST_STREAM: usize = 16_777_216;
const VERSION: u16 = 0x0600;
const GLOBALS: u16 = 0x0005;
const CHART: u16 = 0x0020;
/// A sheet is depth 1 itself, so three charts may be nested in it.
const INNER_DEPTHS: u8 = 3;

/// A top-level substream after the globals.
#[derive(Clone, Debug)]
pub(crate) struct Substream {
    /// Where its BOF's header stands.
    pub at: usize,
    /// Where the record after its BOF stands.
    first: usize,
    pub sheet_type: SheetType,
    /// The highest listed row plus one, or 0.
    pub rows: u32,
    cells: u64,
}

/// What the walk keeps of a stream that it accepts.
#[derive(Debug)]
pub(crate) struct Survey<'a> {
    stream: &'a [u8],
    /// The sheets in BOUNDSHEET order.
    pub sheets: Vec<SheetEntry>,
    /// For each sheet the number of its substream.
    matches: Vec<usize>,
    substreams: Vec<Substream>,
    pub strings: StringTable<'a>,
    /// The unique count of the table that text cells' indices resolve in.
    pub indices: u32,
}

impl<'a> Survey<'a> {
    /// Walks a stream that stands alone.
    pub fn of(stream: &'a [u8]) -> Result<Self, Refusal> {
        Self::with_lent(stream, 0)
    }

    /// Walks the stream. Where it has no SST of its own, its text indices
    /// resolve in a lent table with so many strings. The sheet list is compared
    /// with the substreams only after the walk, since every fault on the way
    /// comes before that.
    pub fn with_lent(stream: &'a [u8], lent_unique: u32) -> Result<Self, Refusal> {
        if stream.len() > LONGEST_STREAM {
            return Err(Refusal::new(1, 0));
        }
        let mut records = Records::from(stream, 0);
        start_globals(&mut records)?;
        let globals = Globals::read(&mut records)?;
        let indices = globals.strings.unique_or(lent_unique);
        let mut substreams = Vec::with_capacity(globals.sheets.len());
        while let Some(bof) = next_sheet(&mut records)? {
            substreams.push(sheet(&bof, &mut records, indices)?);
        }
        let matches = match_up(&globals.sheets, &substreams)?;
        Ok(Survey {
            stream,
            sheets: globals.sheets,
            matches,
            substreams,
            strings: globals.strings,
            indices,
        })
    }

    pub fn passed(&self) -> Passed {
        Passed {
            sheets: self.sheets.len() as u64,
            strings: u64::from(self.strings.unique()),
            cells: self.substreams.iter().map(|sheet| sheet.cells).sum(),
        }
    }

    /// The substream of a sheet.
    pub fn substream(&self, sheet: usize) -> Result<&Substream, Refusal> {
        let number = *self.matches.get(sheet).ok_or(Refusal::of_question(11))?;
        Ok(&self.substreams[number])
    }

    /// The part of the stream that is a sheet's name.
    pub fn name(&self, sheet: &SheetEntry) -> &'a [u8] {
        &self.stream[sheet.name.clone()]
    }

    /// Hands over the cells of a sheet. All of them were judged by the walk, so
    /// past the sheet's number nothing is refused any more.
    #[inline]
    pub fn list<F: FnMut(&Cell)>(&self, sheet: usize, mut take: F) -> Result<(), Refusal> {
        self.each_record(sheet, |record| {
            each_cell(record, self.indices, |cell| take(&cell))
                .map(|_| ())
                .map_err(|number| record.refuse(number))
        })
    }

    /// The text of a listed cell's result, where it is a formula with one.
    pub fn text(&self, cell: &Cell) -> Result<Option<ResultText<'a>>, Refusal> {
        if cell.has_text_result() {
            text_results::at(self.stream, cell.value_field.start).map(Some)
        } else {
            Ok(None)
        }
    }

    /// Writes the units of the text that the first listed cell of an address has
    /// for its result. Whatever else that cell holds, a later one isn't looked at.
    pub fn fetch_text(
        &self,
        (sheet, row, column): (u32, u32, u32),
        buffer: &mut [u16],
    ) -> Result<usize, Refusal> {
        let absent = Refusal::of_question(11);
        let mut first = None;
        self.list(sheet as usize, |cell| {
            if (u32::from(cell.row), u32::from(cell.column)) == (row, column) {
                first.get_or_insert_with(|| cell.clone());
            }
        })?;
        let text = self.text(&first.ok_or(absent)?)?;
        text.ok_or(absent)?.fetch(buffer)
    }

    /// Hands over the records that stand directly in a sheet, its cells among
    /// them, up to the first that is refused.
    #[inline]
    pub fn each_record<F>(&self, sheet: usize, mut take: F) -> Result<(), Refusal>
    where
        F: FnMut(&Record<'a>) -> Result<(), Refusal>,
    {
        let substream = self.substream(sheet)?;
        if substream.cells == 0 {
            return Ok(());
        }
        let mut records = Records::from(self.stream, substream.first);
        let mut charts = 0u32;
        loop {
            let record = records.next_inside()?;
            match record.kind {
                kind::BOF => charts += 1,
                kind::EOF if charts == 0 => return Ok(()),
                kind::EOF => charts -= 1,
                _ if charts == 0 => take(&record)?,
                _ => {}
            }
        }
    }
}

/// The first record must be a globals BOF. Every way of not being one is the
/// same refusal, but a record that is cut is refused as such before it.
fn start_globals(records: &mut Records<'_>) -> Result<(), Refusal> {
    let not_globals = Refusal::new(3, 0);
    let record = records.next()?.ok_or(not_globals)?;
    let bof = Bof::fields(&record).filter(|_| record.kind == kind::BOF);
    match bof {
        Some(bof) if bof.version == VERSION && bof.kind == GLOBALS => Ok(()),
        _ => Err(not_globals),
    }
}

/// The judged fields of a BOF.
struct Bof {
    version: u16,
    kind: u16,
}

impl Bof {
    /// None where the size is wrong.
    fn fields(record: &Record<'_>) -> Option<Self> {
        let body: &[u8; 16] = record.body.try_into().ok()?;
        Some(Bof {
            version: u16::from_le_bytes([body[0], body[1]]),
            kind: u16::from_le_bytes([body[2], body[3]]),
        })
    }

    /// A BOF after the first: its kind is judged only at the right size, and
    /// before its version, being the lower number.
    fn read(record: &Record<'_>, may_stand: impl Fn(u16) -> bool) -> Result<Self, Refusal> {
        let bof = Self::fields(record).ok_or(record.refuse(6))?;
        if !may_stand(bof.kind) {
            return Err(record.refuse(4));
        }
        if bof.version != VERSION {
            return Err(record.refuse(6));
        }
        Ok(bof)
    }
}

fn end_of_substream(record: &Record<'_>) -> Result<(), Refusal> {
    if record.body.is_empty() {
        Ok(())
    } else {
        Err(record.refuse(6))
    }
}

/// What the globals hold.
struct Globals<'a> {
    sheets: Vec<SheetEntry>,
    strings: StringTable<'a>,
}

impl<'a> Globals<'a> {
    /// Reads the globals after their BOF, to their EOF.
    fn read(records: &mut Records<'a>) -> Result<Self, Refusal> {
        let mut sheets = Vec::new();
        let mut strings: Option<StringTable<'a>> = None;
        let mut bars_continue = true;
        loop {
            let record = records.next_inside()?;
            let barred = std::mem::replace(&mut bars_continue, false);
            match record.kind {
                kind::EOF => {
                    end_of_substream(&record)?;
                    let strings = strings.unwrap_or_default();
                    return Ok(Globals { sheets, strings });
                }
                kind::BOF => {
                    Bof::read(&record, |_| false)?;
                }
                kind::CONTINUE if barred => return Err(record.refuse(7)),
                kind::FILEPASS => return Err(record.refuse(5)),
                kind::SST if strings.is_some() => return Err(record.refuse(8)),
                kind::SST => strings = Some(StringTable::read(&record, records)?),
                kind::BOUNDSHEET => {
                    sheets.push(SheetEntry::read(&record)?);
                    bars_continue = true;
                }
                _ => {}
            }
        }
    }
}

/// The BOF of the next sheet, or none where the walk ends: at the end of the
/// stream, or where only zeros are left.
fn next_sheet<'a>(records: &mut Records<'a>) -> Result<Option<Record<'a>>, Refusal> {
    if records.rest().iter().all(|&byte| byte == 0) {
        return Ok(None);
    }
    let record = records.next_inside()?;
    if record.kind != kind::BOF {
        return Err(record.refuse(4));
    }
    Ok(Some(record))
}

/// Reads one sheet from its BOF to its EOF.
fn sheet(bof: &Record<'_>, records: &mut Records<'_>, unique: u32) -> Result<Substream, Refusal> {
    let kind = Bof::read(bof, |kind| SheetType::of_bof(kind).is_some())?.kind;
    let sheet_type = SheetType::of_bof(kind).ok_or(bof.refuse(4))?;
    let first = records.at();
    let tally = match sheet_type {
        SheetType::Worksheet => worksheet(records, unique)?,
        SheetType::Chart => unlisted(records, INNER_DEPTHS)?,
        SheetType::Macro => unlisted(records, 0)?,
    };
    Ok(Substream {
        at: bof.at,
        first,
        sheet_type,
        rows: tally.rows,
        cells: tally.cells,
    })
}

/// What is counted of a sheet's cells.
#[derive(Default)]
struct Tally {
    rows: u32,
    cells: u64,
}

impl Tally {
    #[inline]
    fn add(&mut self, cell: &Cell) {
        self.rows = self.rows.max(u32::from(cell.row) + 1);
        self.cells += 1;
    }
}

/// Reads a worksheet after its BOF, to its EOF.
fn worksheet(records: &mut Records<'_>, unique: u32) -> Result<Tally, Refusal> {
    let mut tally = Tally::default();
    let mut bars_continue = true;
    loop {
        let record = records.next_inside()?;
        let barred = std::mem::replace(&mut bars_continue, false);
        match record.kind {
            kind::EOF => {
                end_of_substream(&record)?;
                return Ok(tally);
            }
            kind::BOF => inner_chart(&record, records, INNER_DEPTHS)?,
            kind::CONTINUE if barred => return Err(record.refuse(7)),
            kind::DIMENSIONS => dimensions(&record)?,
            // A formula that waits for one has taken it.
            kind::STRING => return Err(record.refuse(6)),
            kind::FORMULA => {
                let waits = formula(&record, &mut tally)?;
                bars_continue = true;
                if waits {
                    text_results::read(&record, records)?;
                }
            }
            _ => {
                bars_continue = each_cell(&record, unique, |cell| tally.add(&cell))
                    .map_err(|number| record.refuse(number))?;
            }
        }
    }
}

/// Counts a formula's cell, and gives whether it waits for its text.
fn formula(record: &Record<'_>, tally: &mut Tally) -> Result<bool, Refusal> {
    let mut waits = false;
    each_cell(record, 0, |cell| {
        tally.add(&cell);
        waits = cell.has_text_result();
    })
    .map_err(|number| record.refuse(number))?;
    Ok(waits)
}

/// Reads a chart or macro sheet after its BOF, to its EOF. No cells are listed
/// there, but BOF, EOF and a CONTINUE without a parent are judged all the same.
fn unlisted(records: &mut Records<'_>, inner_depths: u8) -> Result<Tally, Refusal> {
    let mut bars_continue = true;
    loop {
        let record = records.next_inside()?;
        let barred = std::mem::replace(&mut bars_continue, false);
        match record.kind {
            kind::EOF => {
                end_of_substream(&record)?;
                return Ok(Tally::default());
            }
            kind::BOF => inner_chart(&record, records, inner_depths)?,
            kind::CONTINUE if barred => return Err(record.refuse(7)),
            _ => {}
        }
    }
}

/// Reads a chart from its BOF to its EOF, where `depths` more may be nested.
fn inner_chart(bof: &Record<'_>, records: &mut Records<'_>, depths: u8) -> Result<(), Refusal> {
    Bof::read(bof, |kind| kind == CHART && depths > 0)?;
    unlisted(records, depths - 1)?;
    Ok(())
}

fn dimensions(record: &Record<'_>) -> Result<(), Refusal> {
    let within = |body: &[u8; 14]| {
        let [a0, a1, a2, a3, b0, b1, b2, b3, c0, c1, d0, d1, _, _] = *body;
        u32::from_le_bytes([a0, a1, a2, a3]) <= 65_535
            && u32::from_le_bytes([b0, b1, b2, b3]) <= 65_536
            && u16::from_le_bytes([c0, c1]) <= 255
            && u16::from_le_bytes([d0, d1]) <= 256
    };
    match record.body.try_into() {
        Ok(body) if within(body) => Ok(()),
        _ => Err(record.refuse(6)),
    }
}
