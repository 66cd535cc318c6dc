//! Whole workbooks that break no rule.

use crate::cells::CellMaker;
use crate::contents::{CellContents, Contents, SheetContents};
use crate::record::{bof, kind, Book, Record, Tie, LONGEST_BODY};
use crate::rng::Rng;
use crate::table::Table;

/// Where a record stands, which decides whether it is read.
#[derive(Clone, Copy, Debug, PartialEq, Eq)]
pub(crate) enum Context {
    Globals,
    Worksheet,
    /// A chart or macro sheet.
    Unlisted,
}

impl Context {
    /// Whether a record of this type is passed over here. A CONTINUE is told
    /// apart, as what stands before it decides.
    fn passes_over(self, kind: u16) -> bool {
        let read = match kind {
            kind::BOF | kind::EOF | kind::CONTINUE => true,
            kind::BOUNDSHEET | kind::SST | kind::FILEPASS => self == Context::Globals,
            kind::DIMENSIONS | kind::STRING => self == Context::Worksheet,
            _ => self == Context::Worksheet && kind::CELLS.contains(&kind),
        };
        !read
    }
}

/// Types that are passed over everywhere, real ones and some that are close to
/// a type that is read.
const PASSED_OVER: [u16; 32] = [
    0x0031, 0x00E0, 0x041E, 0x003D, 0x0042, 0x00FF, 0x0208, 0x020B, 0x00D7, 0x023E, 0x0204, 0x0206,
    0x04BC, 0x0221, 0x00EC, 0x005D, 0x0018, 0x0017, 0x01AE, 0x1001, 0x0000, 0xFFFF, 0x0001, 0x0003,
    0x0009, 0x0209, 0x0409, 0x003B, 0x00FB, 0x0084, 0x0A00, 0x0908,
];

/// What a workbook is to be like.
struct Plan {
    budget: usize,
    sheet_types: Vec<u8>,
    /// For each BOUNDSHEET the number of its sheet in stream order.
    order: Vec<usize>,
    /// About how many bytes its string table has, where it has one.
    table: Option<usize>,
}

impl Plan {
    fn pick(rng: &mut Rng) -> Self {
        let budget = match rng.below(200) {
            0..=19 => rng.between(0, 100),
            20..=129 => rng.between(100, 1_200),
            130..=191 => rng.between(1_200, 3_500),
            192..=198 => rng.between(3_500, 20_000),
            _ => rng.between(20_000, 58_000),
        };
        let sheets = rng.pick(&[0, 1, 1, 1, 1, 2, 2, 3, 4, 7]);
        let mut order: Vec<usize> = (0..sheets).collect();
        if rng.percent(40) {
            rng.shuffle(&mut order);
        }
        Plan {
            budget,
            sheet_types: (0..sheets).map(|_| rng.pick(&[0, 0, 0, 0, 1, 2])).collect(),
            order,
            table: rng.percent(75).then_some(budget / 2),
        }
    }
}

/// A valid workbook. Its contents are filled in only where they are to be kept.
pub(crate) fn valid(rng: &mut Rng, keep: bool) -> (Book, Contents) {
    let plan = Plan::pick(rng);
    made(rng, &plan, 0, keep)
}

/// A valid session over a template that has so many strings: without a string
/// table, with an empty one, or with its own, small or not.
pub(crate) fn session(rng: &mut Rng, lent: u32) -> Book {
    let mut plan = Plan::pick(rng);
    plan.table = match rng.below(10) {
        0..=4 => None,
        5 => Some(0),
        6..=7 => Some(rng.between(9, 60)),
        _ => Some(plan.budget / 2),
    };
    made(rng, &plan, lent, false).0
}

/// A workbook by a plan. Where it has no string table its text indices are
/// below the number that is lent.
fn made(rng: &mut Rng, plan: &Plan, lent: u32, keep: bool) -> (Book, Contents) {
    let mut maker = Maker {
        book: Book::default(),
        contents: Contents::default(),
        unique: lent,
        keep,
    };
    maker.globals(rng, plan);
    let share = plan.budget / 2 / plan.sheet_types.len().max(1);
    let mut cells = Vec::new();
    for (number, &sheet_type) in plan.sheet_types.iter().enumerate() {
        cells.push(maker.sheet(rng, number, sheet_type, share));
    }
    if keep {
        for (sheet, &number) in maker.contents.sheets.iter_mut().zip(&plan.order) {
            sheet.cells = std::mem::take(&mut cells[number]);
        }
    }
    maker.book.tail = vec![0; tail_size(rng)];
    maker.book.name_sheets();
    (maker.book, maker.contents)
}

/// A workbook with sheets of these types. The first worksheet has these records,
/// and others beside them at times.
pub(crate) fn around(rng: &mut Rng, sheet_types: &[u8], records: Vec<Record>) -> Book {
    const BUDGET: usize = 200;
    let plan = Plan {
        budget: BUDGET,
        sheet_types: sheet_types.to_vec(),
        order: (0..sheet_types.len()).collect(),
        table: rng.percent(30).then_some(BUDGET / 2),
    };
    let mut maker = Maker {
        book: Book::default(),
        contents: Contents::default(),
        unique: 0,
        keep: false,
    };
    maker.globals(rng, &plan);
    let worksheet = sheet_types.iter().position(|&sheet_type| sheet_type == 0);
    let mut records = Some(records);
    for (number, &sheet_type) in sheet_types.iter().enumerate() {
        match records.take_if(|_| Some(number) == worksheet) {
            Some(records) => maker.sheet_of(rng, number, records, BUDGET),
            None => drop(maker.sheet(rng, number, sheet_type, BUDGET)),
        }
    }
    maker.book.tail = vec![0; tail_size(rng)];
    maker.book.name_sheets();
    maker.book
}

fn tail_size(rng: &mut Rng) -> usize {
    match rng.below(20) {
        0..=13 => 0,
        14..=16 => rng.between(1, 4),
        17..=18 => rng.between(1, 300),
        _ => rng.mostly_small(1, 3_000),
    }
}

struct Maker {
    book: Book,
    contents: Contents,
    unique: u32,
    keep: bool,
}

impl Maker {
    fn globals(&mut self, rng: &mut Rng, plan: &Plan) {
        self.book.push(Record::bof(rng, bof::GLOBALS, Tie::None));
        let table_after = rng.below(plan.order.len() + 1);
        let others_budget = plan.budget / 2;
        for place in 0..=plan.order.len() {
            self.maybe_others(rng, Context::Globals, others_budget);
            if let Some(budget) = plan.table.filter(|_| place == table_after) {
                self.table(rng, budget);
                self.maybe_others(rng, Context::Globals, others_budget);
            }
            if let Some(&number) = plan.order.get(place) {
                self.boundsheet(rng, number, plan.sheet_types[number]);
            }
        }
        self.book.push(Record::eof());
    }

    fn boundsheet(&mut self, rng: &mut Rng, number: usize, sheet_type: u8) {
        let length = match rng.below(5) {
            0 => rng.pick(&[1, 31]),
            _ => rng.between(1, 12),
        };
        let flags = rng.byte();
        let wide = flags & 1 != 0;
        let name = rng.bytes(if wide { 2 * length } else { length });
        let mut body = vec![0, 0, 0, 0, rng.byte(), sheet_type, length as u8, flags];
        body.extend(&name);
        self.book
            .push(Record::tied(kind::BOUNDSHEET, body, Tie::Names(number)));
        if self.keep {
            self.contents.sheets.push(SheetContents {
                name,
                wide,
                sheet_type,
                cells: Vec::new(),
            });
        }
    }

    fn table(&mut self, rng: &mut Rng, budget: usize) {
        let table = Table::make(rng, budget, self.keep);
        self.unique = table.unique;
        self.contents.strings = table.strings.unwrap_or_default();
        for (number, segment) in table.segments.into_iter().enumerate() {
            let kind = if number == 0 {
                kind::SST
            } else {
                kind::CONTINUE
            };
            self.book.push(Record::new(kind, segment));
        }
    }

    /// Records that are passed over, at times.
    fn maybe_others(&mut self, rng: &mut Rng, context: Context, budget: usize) {
        if rng.percent(35) {
            self.others(rng, context, budget);
        }
    }

    /// A record that is passed over, with any number of CONTINUEs after it.
    fn others(&mut self, rng: &mut Rng, context: Context, budget: usize) {
        let kind = other_kind(rng, context);
        let body = other_body(rng, budget);
        self.book.push(Record::new(kind, body));
        while rng.percent(15) {
            let body = other_body(rng, budget);
            self.book.push(Record::new(kind::CONTINUE, body));
        }
    }

    /// A sheet of about so many bytes; gives its cells.
    fn sheet(
        &mut self,
        rng: &mut Rng,
        number: usize,
        sheet_type: u8,
        budget: usize,
    ) -> Vec<CellContents> {
        let bof_kind = [bof::WORKSHEET, bof::MACRO, bof::CHART][usize::from(sheet_type)];
        self.book
            .push(Record::bof(rng, bof_kind, Tie::Starts(number)));
        let mut cells = Vec::new();
        match sheet_type {
            0 => cells = self.worksheet(rng, budget),
            1 => self.unlisted(rng, budget.min(300), 0),
            _ => self.unlisted(rng, budget.min(600), 3),
        }
        self.book.push(Record::eof());
        cells
    }

    /// A worksheet of these records, with others beside them at times.
    fn sheet_of(&mut self, rng: &mut Rng, number: usize, records: Vec<Record>, budget: usize) {
        let others_percent = rng.pick(&[0, 0, 2, 10]);
        self.book
            .push(Record::bof(rng, bof::WORKSHEET, Tie::Starts(number)));
        for record in records {
            if rng.percent(others_percent) {
                self.beside_cells(rng, budget);
            }
            self.book.push(record);
        }
        if rng.percent(others_percent) {
            self.beside_cells(rng, budget);
        }
        self.book.push(Record::eof());
    }

    fn worksheet(&mut self, rng: &mut Rng, budget: usize) -> Vec<CellContents> {
        let mut maker = CellMaker::new(rng, self.unique, self.keep);
        let cells_percent = rng.pick(&[30, 70, 85, 95, 100]);
        let mut size = 0;
        while size < budget {
            let from = self.book.records.len();
            if rng.percent(cells_percent) {
                for record in maker.records(rng, budget - size) {
                    self.book.push(record);
                }
            } else {
                self.beside_cells(rng, budget - size);
            }
            size += self.size_since(from);
        }
        maker.cells.unwrap_or_default()
    }

    fn size_since(&self, from: usize) -> usize {
        self.book.records[from..]
            .iter()
            .map(|record| 4 + record.body.len())
            .sum()
    }

    /// What stands in a worksheet beside its cells.
    fn beside_cells(&mut self, rng: &mut Rng, budget: usize) {
        match rng.below(6) {
            0 => {
                self.book.push(dimensions(rng));
                while rng.percent(20) {
                    let body = other_body(rng, budget);
                    self.book.push(Record::new(kind::CONTINUE, body));
                }
            }
            1..=2 => self.chart(rng, budget, 2),
            _ => self.others(rng, Context::Worksheet, budget),
        }
    }

    /// A nested chart, in which so many more may be nested.
    fn chart(&mut self, rng: &mut Rng, budget: usize, depths: usize) {
        self.book.push(Record::bof(rng, bof::CHART, Tie::None));
        self.unlisted(rng, budget.min(200), depths);
        self.book.push(Record::eof());
        while rng.percent(20) {
            let body = other_body(rng, budget);
            self.book.push(Record::new(kind::CONTINUE, body));
        }
    }

    /// What stands in a chart or macro sheet.
    fn unlisted(&mut self, rng: &mut Rng, budget: usize, depths: usize) {
        for _ in 0..rng.mostly_small(0, 5) {
            if depths > 0 && rng.percent(45) {
                self.chart(rng, budget / 2, depths - 1);
            } else if rng.percent(10) {
                let formula = CellMaker::new(rng, 0, false).text_formula(rng);
                self.book.push(formula);
            } else {
                self.others(rng, Context::Unlisted, budget);
            }
        }
    }
}

/// A type that is passed over here.
fn other_kind(rng: &mut Rng, context: Context) -> u16 {
    let kind = match rng.below(4) {
        0 if rng.percent(25) => kind::STRING,
        0 => rng.pick(&kind::ALL),
        1 => rng.word(),
        _ => rng.pick(&PASSED_OVER),
    };
    if context.passes_over(kind) {
        kind
    } else {
        rng.pick(&PASSED_OVER)
    }
}

fn other_body(rng: &mut Rng, budget: usize) -> Vec<u8> {
    let size = match rng.below(50) {
        0 if budget > LONGEST_BODY => rng.pick(&[LONGEST_BODY, LONGEST_BODY - 1]),
        1..=20 => rng.below(9),
        _ => rng.mostly_small(0, 60.min(budget)),
    };
    rng.bytes(size)
}

/// A DIMENSIONS record, often at its limits.
pub(crate) fn dimensions(rng: &mut Rng) -> Record {
    let mut up_to = |most: usize| {
        if rng.percent(40) {
            most
        } else {
            rng.mostly_small(0, most)
        }
    };
    let rows = [up_to(65_535) as u32, up_to(65_536) as u32];
    let columns = [up_to(255) as u16, up_to(256) as u16];
    let mut body: Vec<u8> = rows.iter().flat_map(|row| row.to_le_bytes()).collect();
    body.extend(columns.iter().flat_map(|column| column.to_le_bytes()));
    body.extend(rng.word().to_le_bytes());
    Record::new(kind::DIMENSIONS, body)
}
