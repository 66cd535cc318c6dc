//! The C functions as `include/station.h` declares them. Each is defined for every argument.

#[repr(C)]
pub struct Check {
    pub number: u8,
    pub offset: usize,
    pub sheets: usize,
    pub strings: u32,
    pub sheet: usize,
    pub segment: usize,
    pub at: usize,
    pub end: usize,
}

#[repr(C)]
pub struct Answer {
    pub number: u8,
    pub offset: usize,
}

#[repr(C)]
pub struct Units {
    pub number: u8,
    pub offset: usize,
    pub units: usize,
}

#[repr(C)]
pub struct SharedString {
    pub ended: bool,
    pub number: u8,
    pub offset: usize,
    pub units: usize,
    pub segment: usize,
    pub at: usize,
    pub end: usize,
}

#[repr(C)]
pub struct Sheet {
    pub ended: bool,
    pub header: usize,
    pub size: usize,
    pub width: usize,
    pub kind: u8,
    pub at: usize,
    pub part: u16,
    pub level: u8,
    pub next: usize,
}

#[repr(C)]
pub struct Cells {
    pub number: u8,
    pub offset: usize,
    pub at: usize,
    pub part: u16,
    pub level: u8,
}

#[repr(C)]
pub struct Filled {
    pub cells: usize,
    pub ended: bool,
    pub at: usize,
    pub part: u16,
    pub level: u8,
}

#[repr(C)]
pub struct FilledTable {
    pub number: u8,
    pub offset: usize,
    pub strings: u32,
}

#[repr(C)]
pub struct PairCheck {
    pub whose: u8,
    pub number: u8,
    pub offset: usize,
    pub table: u8,
    pub sheet: usize,
    pub template_sheets: usize,
    pub template_strings: u32,
    pub template_segment: usize,
    pub template_at: usize,
    pub template_end: usize,
    pub session_sheets: usize,
    pub session_strings: u32,
    pub session_segment: usize,
    pub session_at: usize,
    pub session_end: usize,
}

#[repr(C)]
pub struct PairSheet {
    pub whose: u8,
    pub number: u8,
    pub offset: usize,
    pub header: usize,
    pub size: usize,
    pub width: usize,
    pub kind: u8,
    pub rows: u32,
}

#[repr(C)]
pub struct PairCells {
    pub whose: u8,
    pub number: u8,
    pub offset: usize,
    pub at: usize,
    pub part: u16,
    pub level: u8,
}

#[repr(C)]
pub struct PairUnits {
    pub whose: u8,
    pub number: u8,
    pub offset: usize,
    pub units: usize,
}

#[repr(C)]
pub struct PairAnswer {
    pub whose: u8,
    pub number: u8,
    pub offset: usize,
}

#[repr(C)]
pub struct PairFilled {
    pub whose: u8,
    pub number: u8,
    pub offset: usize,
    pub template_strings: u32,
    pub session_strings: u32,
}

#[repr(C)]
pub struct Replayed {
    pub number: u8,
    pub offset: usize,
    pub stopped: bool,
    pub entries: u32,
}

#[repr(C)]
pub struct PairReplayed {
    pub whose: u8,
    pub number: u8,
    pub offset: usize,
    pub stopped: bool,
    pub entries: u32,
}

#[repr(C)]
pub struct Compared {
    pub number: u8,
    pub which: u8,
    pub offset: usize,
    pub words: usize,
    pub more: bool,
}

#[repr(C)]
pub struct Compacted {
    pub number: u8,
    pub offset: usize,
    pub written: usize,
}

#[repr(C)]
pub struct PairCompacted {
    pub whose: u8,
    pub number: u8,
    pub offset: usize,
    pub written: usize,
}

#[repr(C)]
pub struct Profile {
    pub number: u8,
    pub offset: usize,
    pub rows: u32,
    pub columns: u32,
}

#[repr(C)]
pub struct Pair {
    pub number: u8,
    pub offset: usize,
    pub kind: u8,
    pub ticks: u16,
    pub turns: u16,
    pub cadence: u32,
}

#[repr(C)]
pub struct Pairs {
    pub number: u8,
    pub offset: usize,
    pub ticks: u16,
    pub turns: u16,
    pub seconds: u32,
    pub at: usize,
    pub part: u16,
    pub level: u8,
    pub columns: u32,
}

#[repr(C)]
pub struct Step {
    pub kind: u8,
    pub elapsed: u16,
    pub turned: u16,
    pub cadence: u32,
    pub ticks: u16,
    pub turns: u16,
    pub seconds: u32,
    pub at: usize,
    pub part: u16,
    pub level: u8,
}

extern "C" {
    pub fn station_version() -> u32;
    pub fn station_check(stream: *const u8, length: usize) -> Check;
    pub fn station_judge(
        tokens: *const u8,
        length: usize,
        trailing: *const u8,
        trailing_length: usize,
    ) -> Answer;
    pub fn station_fetch(
        stream: *const u8,
        length: usize,
        index: u32,
        units: *mut u16,
        room: usize,
    ) -> Units;
    pub fn station_text(
        stream: *const u8,
        length: usize,
        sheet: u32,
        row: u32,
        column: u32,
        units: *mut u16,
        room: usize,
    ) -> Units;
    pub fn station_text_at(
        stream: *const u8,
        length: usize,
        field: usize,
        units: *mut u16,
        room: usize,
    ) -> Units;
    pub fn station_fill(
        stream: *const u8,
        length: usize,
        table: *mut u32,
        numbers: usize,
    ) -> FilledTable;
    pub fn station_fetch_through(
        stream: *const u8,
        length: usize,
        table: *const u32,
        numbers: usize,
        index: u32,
        units: *mut u16,
        room: usize,
    ) -> Units;
    pub fn station_next_string(
        stream: *const u8,
        length: usize,
        segment: usize,
        at: usize,
        end: usize,
        units: *mut u16,
        room: usize,
    ) -> SharedString;
    pub fn station_next_sheet(stream: *const u8, length: usize, place: usize) -> Sheet;
    pub fn station_rows(stream: *const u8, length: usize, at: usize, part: u16, level: u8) -> u32;
    pub fn station_cells(stream: *const u8, length: usize, sheet: u32) -> Cells;
    pub fn station_next_cells(
        stream: *const u8,
        length: usize,
        at: usize,
        part: u16,
        level: u8,
        words: *mut u64,
        room: usize,
    ) -> Filled;
    pub fn station_compare(
        first: *const u8,
        first_length: usize,
        second: *const u8,
        second_length: usize,
        from: u64,
        words: *mut u64,
        room: usize,
    ) -> Compared;
    pub fn station_correct(
        stream: *mut u8,
        length: usize,
        sheet: u32,
        row: u32,
        column: u32,
        kind: u8,
        number: f64,
        index: u32,
        byte: u8,
    ) -> Answer;
    pub fn station_pair_check(
        template: *const u8,
        template_length: usize,
        session: *const u8,
        session_length: usize,
    ) -> PairCheck;
    pub fn station_pair_sheet(
        template: *const u8,
        template_length: usize,
        session: *const u8,
        session_length: usize,
        sheet: u32,
    ) -> PairSheet;
    pub fn station_pair_cells(
        template: *const u8,
        template_length: usize,
        session: *const u8,
        session_length: usize,
        sheet: u32,
    ) -> PairCells;
    pub fn station_pair_fetch(
        template: *const u8,
        template_length: usize,
        session: *const u8,
        session_length: usize,
        asked: u8,
        index: u32,
        units: *mut u16,
        room: usize,
    ) -> PairUnits;
    pub fn station_pair_text(
        template: *const u8,
        template_length: usize,
        session: *const u8,
        session_length: usize,
        sheet: u32,
        row: u32,
        column: u32,
        units: *mut u16,
        room: usize,
    ) -> PairUnits;
    pub fn station_pair_correct(
        template: *const u8,
        template_length: usize,
        session: *mut u8,
        session_length: usize,
        sheet: u32,
        row: u32,
        column: u32,
        kind: u8,
        number: f64,
        index: u32,
        byte: u8,
    ) -> PairAnswer;
    pub fn station_pair_fill(
        template: *const u8,
        template_length: usize,
        session: *const u8,
        session_length: usize,
        template_table: *mut u32,
        template_numbers: usize,
        session_table: *mut u32,
        session_numbers: usize,
    ) -> PairFilled;
    pub fn station_journal_start(
        stream: *const u8,
        length: usize,
        journal: *mut u8,
        journal_length: usize,
    ) -> Answer;
    pub fn station_journal_correct(
        stream: *mut u8,
        length: usize,
        journal: *mut u8,
        journal_length: usize,
        sheet: u32,
        row: u32,
        column: u32,
        kind: u8,
        number: f64,
        index: u32,
        byte: u8,
    ) -> Answer;
    pub fn station_replay(
        stream: *mut u8,
        length: usize,
        journal: *const u8,
        journal_length: usize,
        backwards: bool,
    ) -> Replayed;
    pub fn station_pair_journal_start(
        template: *const u8,
        template_length: usize,
        session: *const u8,
        session_length: usize,
        journal: *mut u8,
        journal_length: usize,
    ) -> PairAnswer;
    pub fn station_pair_journal_correct(
        template: *const u8,
        template_length: usize,
        session: *mut u8,
        session_length: usize,
        journal: *mut u8,
        journal_length: usize,
        sheet: u32,
        row: u32,
        column: u32,
        kind: u8,
        number: f64,
        index: u32,
        byte: u8,
    ) -> PairAnswer;
    pub fn station_pair_replay(
        template: *const u8,
        template_length: usize,
        session: *mut u8,
        session_length: usize,
        journal: *const u8,
        journal_length: usize,
        backwards: bool,
    ) -> PairReplayed;
    pub fn station_compact(
        stream: *const u8,
        length: usize,
        new_stream: *mut u8,
        room: usize,
    ) -> Compacted;
    pub fn station_pair_compact(
        template: *const u8,
        template_length: usize,
        session: *const u8,
        session_length: usize,
        new_stream: *mut u8,
        room: usize,
    ) -> PairCompacted;
    pub fn station_profile(stream: *const u8, length: usize) -> Profile;
    pub fn station_cadence(stream: *const u8, length: usize, row: u32) -> Pair;
    pub fn station_pairs(stream: *const u8, length: usize) -> Pairs;
    pub fn station_next_pair(
        stream: *const u8,
        length: usize,
        ticks: u16,
        turns: u16,
        seconds: u32,
        at: usize,
        part: u16,
        level: u8,
        columns: u32,
    ) -> Step;
}
