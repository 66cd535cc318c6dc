//! check: a line for each file.

use crate::arguments::{Arguments, Operands};
use crate::commands::Command;
use crate::files::{say_each, Said};
use crate::outcome::{Failure, Output, Status};
use crate::source::{self, Checked, TEMPLATE};
use station::pair::{self, Whose};

pub const CHECK: Command = Command {
    name: "check",
    about: "say of each file whether it passes, and what it holds",
    usage: &["FILE... [--template T]"],
    operands: Operands::Several("FILE"),
    words: &[],
    options: &[TEMPLATE],
    examples: &[
        ("vaigunthe check session.bin", "one file"),
        (
            "vaigunthe check sessions/*.bin | grep -v ': passed'",
            "all that don't pass, and why",
        ),
        (
            "vaigunthe check day.bin --template template.bin",
            "a session over its template",
        ),
    ],
    details: "\
A line for each file, in the order given:
  FILE: passed, S sheets, U strings, C cells
  FILE: refused N at O: what that means
The status is 1 where one is refused, and 2 where one can't be read; the others
are answered all the same. On a terminal a line shows how far it has come.

With a template it says which sheets are whose, and whose strings the session's
indices mean; the template's refusals come before the session's:
  FILE: passed, S sheets (N of the session, M of the template), U strings (of
  the session or of the template), C cells
  FILE: refused N at O of template: what that means
",
    run,
};

fn run(arguments: &Arguments, out: &mut Output) -> Result<Status, Failure> {
    let Some(template) = source::template(arguments, arguments.operands())? else {
        return say_each(arguments, out, say);
    };
    // Once, and not for each session over it.
    if station::check(&template.bytes).is_err() {
        template.hint();
    }
    say_each(arguments, out, |session| say_over(&template.bytes, session))
}

fn say(stream: &[u8]) -> Said {
    let workbook = station::check(stream).map_err(|refusal| refusal.to_string())?;
    let cells = Checked::Alone(workbook).count_cells();
    let (sheets, strings) = (workbook.sheets, workbook.strings);
    Ok(format!(
        "passed, {sheets} sheets, {strings} strings, {cells} cells"
    ))
}

fn say_over(template: &[u8], session: &[u8]) -> Said {
    let pair = pair::check(template, session).map_err(|refused| refused.to_string())?;
    let (sheets, own) = (pair.sheet_count(), pair.sheets_of(Whose::Session));
    let table = pair.table_of(Whose::Session);
    let (strings, cells) = (pair.string_count(table), Checked::Over(pair).count_cells());
    Ok(format!(
        "passed, {sheets} sheets ({own} of the session, {} of the template), {strings} strings (of the {table}), {cells} cells",
        sheets - own
    ))
}
