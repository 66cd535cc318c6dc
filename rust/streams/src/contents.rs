//! What a maker put into a valid stream, to compare a reading with.

/// The contents of a valid stream.
#[derive(Clone, Debug, Default, PartialEq, Eq)]
pub struct Contents {
    /// The sheets in the order of their BOUNDSHEETs.
    pub sheets: Vec<SheetContents>,
    /// The units of each shared string.
    pub strings: Vec<Vec<u16>>,
}

/// The contents of one sheet.
#[derive(Clone, Debug, Default, PartialEq, Eq)]
pub struct SheetContents {
    /// The bytes of its name.
    pub name: Vec<u8>,
    /// Whether its name takes two bytes a character.
    pub wide: bool,
    /// 0 worksheet, 1 macro sheet, 2 chart.
    pub sheet_type: u8,
    /// Its cells in stream order.
    pub cells: Vec<CellContents>,
}

/// The contents of one cell.
#[derive(Clone, Debug, PartialEq, Eq)]
pub struct CellContents {
    /// Its row.
    pub row: u16,
    /// Its column.
    pub column: u16,
    /// Its format.
    pub format: u16,
    /// What it holds.
    pub value: Content,
}

/// The contents of a formula.
#[derive(Clone, Debug, PartialEq, Eq)]
pub struct FormulaContents {
    /// The eight bytes of its stored result.
    pub result: [u8; 8],
    /// The units of its text, where that is its result.
    pub text: Option<Vec<u16>>,
    /// Its tokens.
    pub tokens: Vec<u8>,
    /// The bytes after them.
    pub trailing: Vec<u8>,
}

/// What a cell holds.
#[derive(Clone, Debug, PartialEq, Eq)]
pub enum Content {
    /// Nothing.
    Blank,
    /// The 64 bits of a number.
    Number(u64),
    /// An RK word, not decoded.
    Packed(u32),
    /// The index of a shared string.
    Text(u32),
    /// A truth.
    Truth(u8),
    /// An error code.
    Error(u8),
    /// A formula.
    Formula(FormulaContents),
}
