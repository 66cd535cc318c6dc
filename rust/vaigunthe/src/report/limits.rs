//! How much of a workbook stands on a page.

pub struct Limits {
    /// Sheets of a workbook.
    pub sheets: usize,
    /// Rows of a sheet that have cells; rows with a marked cell are shown beside them.
    pub rows: usize,
    /// What the cells of a workbook cost together, by their characters, and what a table of marks may cost.
    pub cost: usize,
    /// Units of a text.
    pub text: usize,
    /// Lines of a table of marks.
    pub marks: usize,
    /// Bytes of what is said of a workbook.
    pub bytes: usize,
}

impl Limits {
    /// What people look at, and small in a browser. With these a page is never too large.
    pub const PARTS: Limits = Limits {
        sheets: 100,
        rows: 100,
        cost: 1_000_000,
        text: 1_000,
        marks: 1_000,
        bytes: usize::MAX,
    };

    /// Everything; but a stream of a few kilobytes, in which thousands of cells have one long text, can't fill the memory.
    pub const FULL: Limits = Limits {
        sheets: usize::MAX,
        rows: usize::MAX,
        cost: usize::MAX,
        text: usize::MAX,
        marks: usize::MAX,
        bytes: 1 << 28,
    };
}

/// So many characters are kept of all marks of one reason, and the others are counted: thousands of cells may have been corrected, or differ, that have one long text.
pub const KEPT: usize = 1 << 24;
