//! What the tool says of itself.

use crate::arguments::{too_many, Arguments, Operands};
use crate::commands::{self, Command, COMMANDS};
use crate::outcome::{Failure, Output, Status};
use crate::page::{parts, Page, Part};
use std::io::{self, Write};

pub const ABOUT: &str =
    "checks, lists, exports, corrects and compares workbook streams of old Excel files";

const INTRODUCTION: &str = "\
Reads old Excel workbooks (BIFF8 workbook streams, Excel 97 to 2003), judges
formula bytes, and corrects single cells. All answers come from a library that
is proved.
";

/// What somebody needs who has just got it.
const FIRST_STEPS: [(&str, &str); 8] = [
    (
        "gsf cat session.xls Workbook > session.bin",
        "take the workbook stream out of an .xls file (gsf is in Debian's package libgsf-bin)",
    ),
    (
        "vaigunthe check session.bin",
        "does it pass, and what does it hold?",
    ),
    ("vaigunthe sheets session.bin", "its sheets"),
    (
        "vaigunthe report session.bin --output report.html",
        "all of it as a page, to look at in a browser or print",
    ),
    (
        "vaigunthe export session.bin --grid > session.csv",
        "its one worksheet as a table",
    ),
    (
        "vaigunthe correct session.bin 0 B1 number 72.5 --in-place",
        "give one cell of the first sheet a new value",
    ),
    (
        "vaigunthe compare old.bin new.bin",
        "where two revisions differ",
    ),
    ("vaigunthe help export", "all about one command"),
];

const GENERAL: &str = "\
FILE is the workbook stream of an .xls file, taken out of that file; - is
standard input. Sheets, rows, columns and strings are counted from 0. What comes
after -- is no option.

In lines, names and texts are UTF-8 with these written otherwise: tab \\t, line
feed \\n, carriage return \\r, backslash \\\\, and as \\u{85}, with the code in hex,
all other control characters, the line and paragraph separators, the characters
that turn the direction of text, and a surrogate that has no other. In names of
files a byte that is no UTF-8 is \\xFF.
";

const STATUS: &str = "\
0 answered; 1 refused; 2 wrong usage, or a file that can't be read or written
(this one wins); 141 standard output was closed before the end. With compare
--exit-code, 1 says that the two differ, and a refusal is 3.
";

const REFUSALS: &str = "\
A refusal is its number and the offset of what is at fault in the stream or
formula. What it means is said on standard error. Its bare line, 'refused N at
O', is on standard output for programs; where data is asked for (sheets, strings,
export, cadence, compare without --lines), nothing is.
";

pub const HELP_COMMAND: Command = Command {
    name: "help",
    about: "say what the tool does, or all about one command",
    usage: &["[COMMAND]"],
    operands: Operands::AtLeast(&[]),
    words: &[],
    options: &[],
    examples: &[("vaigunthe help export", "all about export")],
    details: "\
-h and --help do the same, alone or after a command.
",
    run,
};

fn run(arguments: &Arguments, out: &mut Output) -> Result<Status, Failure> {
    match arguments.operands() {
        [] => write!(out, "{}", Page(&tool()))?,
        [name] => write_one(commands::named(name)?, out)?,
        [_, extra, ..] => return Err(too_many(extra)),
    }
    Ok(Status::Answered)
}

pub fn write_one(command: &Command, out: &mut Output) -> io::Result<()> {
    let about = format!("vaigunthe {}: {}", command.name, command.about);
    let mut page = vec![Part::Text(about), Part::Usage(ways(command))];
    page.extend(rest(command));
    write!(out, "{}", Page(&page))
}

/// The ways to write a command.
pub fn ways(command: &Command) -> Vec<String> {
    let way = |words: &&str| format!("vaigunthe {} {words}", command.name);
    command.usage.iter().map(way).collect()
}

/// What is said of a command beside what it is for and how it is written.
pub fn rest(command: &Command) -> Vec<Part> {
    let mut page = vec![Part::heading("examples")];
    page.extend(examples(command.examples));
    if !command.options.is_empty() {
        page.push(Part::heading("options"));
    }
    for option in command.options {
        page.push(Part::item(option.label(), option.about));
    }
    page.extend(parts(command.details));
    page
}

fn examples(examples: &[(&str, &str)]) -> Vec<Part> {
    let item = |(call, text): &(&str, &str)| Part::item(*call, text);
    examples.iter().map(item).collect()
}

pub fn ways_of_tool() -> Vec<String> {
    ["COMMAND ...", "help COMMAND", "--help | --version"]
        .map(|words| format!("vaigunthe {words}"))
        .into()
}

/// What comes first.
pub fn introduction() -> Vec<Part> {
    let mut page = parts(INTRODUCTION);
    page.push(Part::heading("first steps"));
    page.extend(examples(&FIRST_STEPS));
    page
}

/// What is said of the tool as a whole.
fn tool() -> Vec<Part> {
    let mut page = introduction();
    page.insert(1, Part::Usage(ways_of_tool()));
    page.push(Part::heading("commands"));
    let about = |command: &Command| Part::item(command.name, command.about);
    page.extend(COMMANDS.iter().map(about));
    page.extend(closing());
    page
}

/// What holds for all commands.
pub fn closing() -> Vec<Part> {
    let mut page = parts(GENERAL);
    page.push(Part::heading("exit status"));
    page.extend(parts(STATUS));
    page.push(Part::heading("refusals"));
    page.extend(parts(REFUSALS));
    let meaning = |(number, meaning)| Part::item(format!("{number:>2}"), meaning);
    page.extend(station::meanings().map(meaning));
    page
}
