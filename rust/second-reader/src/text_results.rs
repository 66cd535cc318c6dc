//! The text of a formula's result, in the STRING record that follows the formula.

use crate::cells::FORMULA_RESULT_AT;
use crate::records::{kind, Record, Records, HEADER_SIZE};
use crate::strings::ResultText;
use crate::Refusal;

/// Reads the text that a formula waits for, and moves `records` past it. One
/// record that shares the formula, or makes an array or a table of it, may stand
/// between; where that is cut, or anything else comes, the text is missing, and
/// that is the formula's fault.
pub(crate) fn read<'a>(
    formula: &Record<'a>,
    records: &mut Records<'a>,
) -> Result<ResultText<'a>, Refusal> {
    let missing = formula.refuse(6);
    if records.next_kind().is_some_and(may_stand_between) {
        records.next().map_err(|_| missing)?;
    }
    if records.next_kind() != Some(kind::STRING) {
        return Err(missing);
    }
    // Its header is there, so a body that is cut is its own fault.
    let text = records.next()?.ok_or(missing)?;
    ResultText::read(&text, records)
}

/// The text of the formula whose result field stands here, in a stream that
/// passes the check.
pub(crate) fn at(stream: &[u8], field: usize) -> Result<ResultText<'_>, Refusal> {
    let mut records = Records::from(stream, field - FORMULA_RESULT_AT - HEADER_SIZE);
    let formula = records.next_inside()?;
    read(&formula, &mut records)
}

fn may_stand_between(kind: u16) -> bool {
    matches!(kind, kind::SHRFMLA | kind::ARRAY | kind::TABLE)
}
