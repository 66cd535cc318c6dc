//! A grid for each worksheet, in files of one folder.

use super::grid::{self, Grid};
use super::put;
use crate::book::{Book, BookSheet};
use crate::folder;
use crate::outcome::Failure;
use crate::replace::{Place, Written};
use crate::source::Source;
use std::ffi::OsStr;
use std::path::Path;

/// How many fields all grids may have together: a small stream can have many sheets with one cell in the last corner each.
const MOST_FIELDS: usize = 1 << 28;

pub fn write(
    book: &Book<'_>,
    source: &Source<'_>,
    mark: &str,
    name: &OsStr,
) -> Result<(), Failure> {
    let fields = book.worksheets().map(|page| grid::most_fields(&page.sheet));
    if fields.sum::<usize>() > MOST_FIELDS {
        return Err(source.session().failure(format!(
            "the grids of all sheets have over {MOST_FIELDS} fields: export them one by one with --sheet"
        )));
    }
    let folder = Path::new(name);
    folder::make(name)?;
    for page in book.worksheets() {
        let grid = Grid::of(book, &page);
        let file = file_name(&page);
        let place = Place::within(folder, &file);
        let write = |out: &mut Written<'_>| grid.write(out);
        put(source, &folder.join(file), place, mark, write)?;
    }
    Ok(())
}

/// A name for the file of a sheet: no system takes it for anything else, and the number keeps it apart from the others. It isn't too long: a stream that
/// passes has no sheet's name over 31 characters.
fn file_name(BookSheet { number, sheet, .. }: &BookSheet<'_>) -> String {
    let name = char::decode_utf16(sheet.name_units()).map(Result::ok);
    format!("{number}-{}.csv", folder::plain(name))
}
