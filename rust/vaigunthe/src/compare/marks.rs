//! The differences as marks of a report.

use super::changes::{Between, Change, Changes, Held, Revisions};
use super::lines::Value;
use crate::input::Stream;
use crate::report::{Mark, Marked, Reason};
use station::Differences;

/// A mark for each difference, and the sheets that only one of the revisions has.
pub fn marks(differences: Differences<'_>, [old, new]: [&Stream<'_>; 2]) -> Marked {
    let revisions = Revisions::read(&old.bytes, &new.bytes);
    let mut changes = Changes::of(&revisions, differences);
    let mut marked = Marked::by(Reason::Differs);
    marked.take(changes.by_ref().map(|change| mark(&change)));
    marked.more = changes.left();
    marked.alone = revisions.alone();
    marked
}

fn mark(change: &Change<'_>) -> Mark {
    let (old, new) = match &change.between {
        Between::Names(old, new) => (Some(old.clone()), Some(new.clone())),
        Between::Cells(old, new) => (written(old), written(new)),
    };
    let address = change.difference.kind.address();
    Mark {
        sheet: change.difference.sheet as usize,
        address: address.map(|(row, column)| (row.into(), column.into())),
        old,
        new,
        reason: Reason::Differs,
    }
}

/// What a cell holds as it stands in a line, so that no two unequal values look the same.
fn written(held: &Option<Held<'_>>) -> Option<Vec<u16>> {
    let text = held.is_some().then(|| Value(held).to_string());
    text.map(|text| text.encode_utf16().collect())
}
