//! Cells that stand out: what they were, what they are, and why they are marked. They are plain data, whoever finds them.

use super::limits::{Limits, KEPT};
use super::value::write_cut;
use crate::address::letters;
use crate::figures::counted;
use crate::text::{InPage, WordsInPage};
use std::collections::BTreeMap;
use std::io::{self, Write};

/// Why a cell is marked.
#[derive(Clone, Copy, Debug, PartialEq, Eq)]
pub enum Reason {
    /// By the journal of corrections.
    Corrected,
    /// From another revision.
    Differs,
}

impl Reason {
    pub fn word(self) -> &'static str {
        match self {
            Reason::Corrected => "corrected",
            Reason::Differs => "differs",
        }
    }
}

/// A marked cell, or a sheet whose name is marked. A text is none where there is no cell.
#[derive(Clone, Debug)]
pub struct Mark {
    pub sheet: usize,
    /// Its row and column; none for the name.
    pub address: Option<(usize, usize)>,
    pub old: Option<Vec<u16>>,
    pub new: Option<Vec<u16>>,
    pub reason: Reason,
}

/// All marks of one reason.
pub struct Marked {
    reason: Reason,
    /// Those that are kept, in the order of whoever found them.
    list: Vec<Mark>,
    /// What they cost.
    cost: usize,
    /// How many there are beside them.
    pub more: usize,
    /// What else there is to say of them, in words of the tool.
    pub said: Option<String>,
    /// The numbers and names of the sheets that only the old revision has, and of those that it hasn't.
    pub alone: [Vec<(usize, Vec<u16>)>; 2],
}

/// What a mark costs beside its characters.
const COST: usize = 64;

impl Marked {
    pub fn by(reason: Reason) -> Self {
        Marked {
            reason,
            list: Vec::new(),
            cost: 0,
            more: 0,
            said: None,
            alone: [Vec::new(), Vec::new()],
        }
    }

    /// Takes marks up to what is kept; the others aren't asked for.
    pub fn take(&mut self, mut marks: impl Iterator<Item = Mark>) {
        while self.cost < KEPT {
            let Some(mark) = marks.next() else {
                return;
            };
            self.cost += COST + units(&mark.old) + units(&mark.new);
            self.list.push(mark);
        }
    }

    fn all(&self) -> usize {
        self.list.len() + self.more
    }

    /// The title of their table, what one and several are called, and how they are framed.
    fn words(&self) -> (&'static str, [&'static str; 2], &'static str) {
        match self.reason {
            Reason::Corrected => ("Corrections", ["correction", "corrections"], "a solid line"),
            Reason::Differs => (
                "Differences from the old revision",
                ["difference", "differences"],
                "dashes",
            ),
        }
    }

    fn write<W: Write>(&self, shown: &Shown<'_>, out: &mut W) -> io::Result<()> {
        let (title, [one, more], frame) = self.words();
        let (level, class) = (shown.level, self.reason.word());
        writeln!(out, "<h{level}>{title}</h{level}>")?;
        match self.all() {
            0 => writeln!(out, "<p>There is none.</p>")?,
            all => writeln!(
                out,
                "<p>{}. In the grids these cells are framed by <span class={class}>{frame}</span>, with what they were under their values.</p>",
                counted(all, one, more)
            )?,
        }
        if let Some(said) = &self.said {
            writeln!(out, "<p>{}</p>", WordsInPage(said))?;
        }
        let [old, new] = &self.alone;
        write_alone("in the old revision", old, shown, out)?;
        write_alone("in this one", new, shown, out)?;
        match self.list.is_empty() {
            true => Ok(()),
            false => self.write_table(shown, out),
        }
    }

    /// The first marks, and how many of all there are beside them.
    fn write_table<W: Write>(&self, shown: &Shown<'_>, out: &mut W) -> io::Result<()> {
        let limits = shown.limits;
        out.write_all(
            b"<div class=scroll role=region aria-label=Cells tabindex=0><table class=list>\n<thead><tr>",
        )?;
        let entry = (self.reason == Reason::Corrected).then_some("Entry");
        for title in entry
            .into_iter()
            .chain(["Sheet", "Cell", "Old value", "New value"])
        {
            write!(out, "<th scope=col>{title}")?;
        }
        out.write_all(b"</thead>\n<tbody>\n")?;
        let (mut left, mut lines) = (limits.cost, 0);
        for (number, mark) in self.list.iter().enumerate().take(limits.marks) {
            if left == 0 {
                break;
            }
            out.write_all(b"<tr>")?;
            if entry.is_some() {
                write!(out, "<td>{number}")?;
            }
            out.write_all(b"<td>")?;
            shown.write_sheet(mark.sheet, out)?;
            write!(out, "<th scope=row>{}", address(mark))?;
            for text in [&mark.old, &mark.new] {
                out.write_all(b"<td class=t dir=auto>")?;
                write_side(text.as_deref(), limits, out)?;
                out.write_all(b"</td>")?;
                left = left.saturating_sub(units(text).min(limits.text));
            }
            out.write_all(b"\n")?;
            lines += 1;
        }
        out.write_all(b"</tbody></table></div>\n")?;
        let rest = match self.all() - lines {
            0 => return Ok(()),
            rest => counted(rest, "more is", "more are"),
        };
        write!(out, "<p class=note>{rest} not shown here")?;
        match self.more {
            0 => {}
            more => write!(
                out,
                "; {} framed in the grids either",
                counted(more, "of all isn't", "of all aren't")
            )?,
        }
        writeln!(out, ".</p>")
    }
}

/// How tables of marks are shown.
pub struct Shown<'s> {
    pub level: u8,
    pub limits: &'s Limits,
    /// The id of each sheet that is on the page, by its number.
    pub sheets: &'s [String],
}

impl Shown<'_> {
    /// The number of a sheet, with a link where the page has it.
    fn write_sheet<W: Write>(&self, number: usize, out: &mut W) -> io::Result<()> {
        match self.sheets.get(number) {
            Some(id) => write!(out, "<a href=#{id}>{number}</a>"),
            None => write!(out, "{number}"),
        }
    }
}

/// Sheets that only one of two revisions has.
fn write_alone<W: Write>(
    place: &str,
    sheets: &[(usize, Vec<u16>)],
    shown: &Shown<'_>,
    out: &mut W,
) -> io::Result<()> {
    if sheets.is_empty() {
        return Ok(());
    }
    let count = counted(sheets.len(), "sheet is", "sheets are");
    writeln!(
        out,
        "<p>{count} only {place}, by number and name:</p>\n<ul>"
    )?;
    for (number, name) in sheets.iter().take(shown.limits.sheets) {
        writeln!(out, "<li>{number}: <bdi>{}</bdi>", InPage(name))?;
    }
    match sheets.len().saturating_sub(shown.limits.sheets) {
        0 => {}
        rest => writeln!(
            out,
            "<li>{} not shown.",
            counted(rest, "more is", "more are")
        )?,
    }
    writeln!(out, "</ul>")
}

fn units(text: &Option<Vec<u16>>) -> usize {
    text.as_ref().map_or(0, Vec::len)
}

/// The marks of a workbook, for each reason that was asked for.
#[derive(Default)]
pub struct Marks {
    marked: Vec<Marked>,
    /// The reasons and places of the marks, by sheet.
    by_sheet: BTreeMap<usize, Vec<(usize, usize)>>,
}

impl Marks {
    pub fn of(marked: Vec<Marked>) -> Self {
        let mut by_sheet = BTreeMap::<_, Vec<_>>::new();
        for (reason, marked) in marked.iter().enumerate() {
            for (place, mark) in marked.list.iter().enumerate() {
                by_sheet
                    .entry(mark.sheet)
                    .or_default()
                    .push((reason, place));
            }
        }
        Marks { marked, by_sheet }
    }

    pub fn of_sheet(&self, sheet: usize) -> impl Iterator<Item = &Mark> {
        let places = self.by_sheet.get(&sheet).into_iter().flatten();
        places.map(|(reason, place)| &self.marked[*reason].list[*place])
    }

    /// A table for each reason.
    pub fn write<W: Write>(&self, shown: &Shown<'_>, out: &mut W) -> io::Result<()> {
        let mut each = self.marked.iter();
        each.try_for_each(|marked| marked.write(shown, out))?;
        match self.marked.iter().filter(|marked| marked.all() > 0).count() {
            0 | 1 => Ok(()),
            _ => writeln!(
                out,
                "<p><span class=\"corrected differs\">A double line</span> frames cells that were corrected and differ.</p>"
            ),
        }
    }

    /// What the name of a sheet was, where it differs.
    pub fn write_name<W: Write>(&self, sheet: usize, out: &mut W) -> io::Result<()> {
        let name = self.of_sheet(sheet).find(|mark| mark.address.is_none());
        match name.and_then(|mark| mark.old.as_ref()) {
            Some(old) => writeln!(
                out,
                "<p>Its name <span class=differs>differs</span>, was <bdi>{}</bdi></p>",
                InPage(old)
            ),
            None => Ok(()),
        }
    }
}

fn address(mark: &Mark) -> String {
    match mark.address {
        Some((row, column)) => format!("{}{}", letters(column as u32), row + 1),
        None => "its name".to_string(),
    }
}

fn write_side<W: Write>(text: Option<&[u16]>, limits: &Limits, out: &mut W) -> io::Result<()> {
    match text {
        Some(text) => write_cut(text, limits, out),
        None => out.write_all(b"<i>no cell</i>"),
    }
}

/// What a marked cell has beside its value: why it is marked and what it was, the first time where it was marked several times. Says what that costs.
pub fn write_notes<W: Write>(marks: &[&Mark], limits: &Limits, out: &mut W) -> io::Result<usize> {
    let mut cost = 0;
    for reason in [Reason::Corrected, Reason::Differs] {
        let mut marks = marks.iter().filter(|mark| mark.reason == reason);
        let Some(first) = marks.next() else {
            continue;
        };
        let times = match marks.count() {
            0 => String::new(),
            more => format!(" {} times", more + 1),
        };
        // The words stay in their order beside a text that runs from the right.
        let word = reason.word();
        write!(out, "<small class=was dir=ltr>{word}{times}, was <bdi>")?;
        write_side(first.old.as_deref(), limits, out)?;
        out.write_all(b"</bdi></small>")?;
        cost += COST + units(&first.old).min(limits.text);
    }
    Ok(cost)
}

#[cfg(test)]
mod tests {
    use super::*;
    use crate::book::Book;
    use crate::report::grid::Grid;
    use crate::source::Checked;

    const CELLS: &[u8] = include_bytes!("../../../../cases/cells.in");
    const RIDE: &[u8] = include_bytes!("../../../../cases/ride.in");

    fn mark(row: usize, column: usize, old: Option<&str>, reason: Reason) -> Mark {
        let units = |text: &str| text.encode_utf16().collect::<Vec<_>>();
        Mark {
            sheet: 0,
            address: Some((row, column)),
            old: old.map(units),
            new: Some(units("new")),
            reason,
        }
    }

    fn marked(list: Vec<Mark>, reason: Reason) -> Marked {
        let mut marked = Marked::by(reason);
        marked.take(list.into_iter().filter(|mark| mark.reason == reason));
        marked
    }

    fn by_reason(list: Vec<Mark>) -> Marks {
        let of = |reason| marked(list.clone(), reason);
        Marks::of(vec![of(Reason::Corrected), of(Reason::Differs)])
    }

    /// The tables on a page that shows the first sheet.
    fn tables(marks: &Marks, limits: &Limits) -> String {
        let shown = Shown {
            level: 3,
            limits,
            sheets: &["w1-s0".to_string()],
        };
        let mut out = Vec::new();
        marks.write(&shown, &mut out).expect("memory");
        String::from_utf8(out).expect("UTF-8")
    }

    fn grid(stream: &[u8], marks: &Marks, limits: &Limits) -> String {
        let workbook = station::check(stream).expect("a workbook");
        let book = Book::of(Checked::Alone(workbook), None);
        let page = book.sheets().next().expect("a sheet");
        let mut out = Vec::new();
        let grid = Grid::of(&book, &page, marks.of_sheet(page.number), limits);
        grid.write("s0", limits.cost, &mut out).expect("memory");
        String::from_utf8(out).expect("UTF-8")
    }

    #[test]
    fn marks_in_a_grid() {
        use Reason::{Corrected, Differs};
        let marks = by_reason(vec![
            mark(0, 1, Some("2.5"), Corrected),
            mark(0, 2, Some("<b>"), Differs),
            mark(0, 3, Some("1"), Corrected),
            mark(0, 3, Some("2"), Corrected),
            mark(0, 3, None, Differs),
            // where there is no cell
            mark(2, 0, Some("gone"), Differs),
            mark(300, 200, Some("far"), Differs),
            // a name, which is in no grid
            Mark {
                address: None,
                ..mark(0, 4, Some("other"), Differs)
            },
        ]);
        let page = grid(CELLS, &marks, &Limits::PARTS);
        for wanted in [
            "<td class=corrected>3.141592653589793<small class=was dir=ltr>corrected, was <bdi>2.5</bdi></small>",
            "<td class=differs>0.01<small class=was dir=ltr>differs, was <bdi>&lt;b&gt;</bdi></small>",
            "<td class=\"corrected differs\">1234321<small class=was dir=ltr>corrected 2 times, was <bdi>1</bdi></small>\
             <small class=was dir=ltr>differs, was <bdi><i>no cell</i></bdi></small>",
            "<tr><th scope=row>3<td class=\"k differs\"><i>no cell</i><small class=was dir=ltr>differs, was <bdi>gone</bdi></small>",
            "<tr><th scope=row>301<td class=o colspan=11><td class=\"k differs\"><i>no cell</i>",
            "<tr class=gap><th scope=row>11–300<td colspan=",
            "<th scope=col>GS<th",
        ] {
            assert!(page.contains(wanted), "{wanted} in {page}");
        }
        let elsewhere = by_reason(vec![Mark {
            sheet: 1,
            ..mark(0, 1, Some("x"), Corrected)
        }]);
        let unmarked = grid(CELLS, &elsewhere, &Limits::PARTS);
        assert!(!unmarked.contains("corrected"));
        let unmarked = grid(CELLS, &Marks::default(), &Limits::PARTS);
        assert!(!unmarked.contains("differs") && !unmarked.contains("corrected"));
    }

    /// A marked row is shown beyond the first rows, with a line for those between.
    #[test]
    fn marked_rows_are_shown() {
        let limits = Limits {
            rows: 2,
            ..Limits::PARTS
        };
        let marks = by_reason(vec![mark(7, 1, Some("1"), Reason::Corrected)]);
        let page = grid(RIDE, &marks, &limits);
        let rows: Vec<_> = page
            .lines()
            .filter(|line| line.starts_with("<tr"))
            .collect();
        assert_eq!(rows.len(), 4);
        assert_eq!(
            rows[2],
            "<tr class=gap><th scope=row>3–7<td colspan=3>5 rows not shown"
        );
        assert!(rows[3].starts_with("<tr><th scope=row>8<td>"));
        assert!(page.contains("6 of 9 rows with cells are not shown here"));
        // with a row or two between these are shown as well
        for (row, shown) in [(3, 4), (4, 5), (5, 3)] {
            let marks = by_reason(vec![mark(row, 1, Some("1"), Reason::Corrected)]);
            let page = grid(RIDE, &marks, &limits);
            let rest = format!("{} of 9 rows", 9 - shown);
            assert!(page.contains(&rest) && !page.contains("class=o"), "{page}");
        }
    }

    #[test]
    fn tables_of_marks() {
        use Reason::{Corrected, Differs};
        let mut marks = vec![
            mark(0, 1, Some("<i>"), Corrected),
            mark(9, 27, None, Differs),
        ];
        marks[1].new = Some(vec![0xD800, 0x41]);
        let mut name = mark(0, 0, Some("Sheet1"), Differs);
        name.address = None;
        marks.push(name);
        let marks = by_reason(marks);
        let page = tables(&marks, &Limits::FULL);
        for wanted in [
            "<h3>Corrections</h3>\n<p>1 correction. In the grids these cells are framed by <span class=corrected>a solid line</span>",
            "<tr><td>0<td><a href=#w1-s0>0</a><th scope=row>B1<td class=t dir=auto>&lt;i&gt;</td><td class=t dir=auto>new</td>\n",
            "<h3>Differences from the old revision</h3>\n<p>2 differences.",
            "<tr><td><a href=#w1-s0>0</a><th scope=row>its name<td class=t dir=auto>Sheet1</td>",
            "<th scope=row>AB10<td class=t dir=auto><i>no cell</i></td>\
             <td class=t dir=auto><i class=u>U+D800</i>A</td>\n",
        ] {
            assert!(page.contains(wanted), "{wanted} in {page}");
        }
        assert!(page.ends_with(
            "<p><span class=\"corrected differs\">A double line</span> frames cells that were corrected and differ.</p>\n"
        ));
        let none = Limits {
            marks: 0,
            ..Limits::PARTS
        };
        let page = tables(&marks, &none);
        assert!(page.contains("<p class=note>2 more are not shown here.</p>"));
        let cheap = Limits {
            cost: 2,
            ..Limits::PARTS
        };
        let page = tables(&marks, &cheap);
        assert!(
            page.contains("<p class=note>1 more is not shown here.</p>"),
            "{page}"
        );
    }

    /// That there is nothing is said where it was asked for, and what is beyond the list is counted.
    #[test]
    fn what_was_asked_for() {
        let written = |marked: Marked| tables(&Marks::of(vec![marked]), &Limits::FULL);
        let heading = "<h3>Differences from the old revision</h3>\n";
        assert_eq!(tables(&Marks::default(), &Limits::FULL), "");
        let none = Marked::by(Reason::Differs);
        assert_eq!(written(none), format!("{heading}<p>There is none.</p>\n"));
        let some = || {
            marked(
                vec![mark(0, 1, Some("1"), Reason::Differs)],
                Reason::Differs,
            )
        };
        let all = written(some());
        assert!(all.contains(&format!("{heading}<p>1 difference. ")));
        assert!(!all.contains("not shown"));
        let first = written(Marked { more: 2, ..some() });
        assert!(first.contains(&format!("{heading}<p>3 differences. ")));
        assert!(first.contains("<p class=note>2 more are not shown here; 2 of all aren't framed in the grids either.</p>"), "{first}");
        let none = Marked {
            said: Some("<Nothing>.".into()),
            ..Marked::by(Reason::Corrected)
        };
        assert_eq!(
            written(none),
            "<h3>Corrections</h3>\n<p>There is none.</p>\n<p>&lt;Nothing&gt;.</p>\n"
        );
    }

    #[test]
    fn sheets_of_one_revision() {
        let units = |text: &str| text.encode_utf16().collect::<Vec<_>>();
        let alone = Marked {
            alone: [vec![(1, units("<b>")), (2, units("C"))], vec![]],
            ..Marked::by(Reason::Differs)
        };
        let marks = Marks::of(vec![alone]);
        let page = tables(&marks, &Limits::FULL);
        assert!(
            page.ends_with(
                "<p>2 sheets are only in the old revision, by number and name:</p>\n\
             <ul>\n<li>1: <bdi>&lt;b&gt;</bdi>\n<li>2: <bdi>C</bdi>\n</ul>\n"
            ),
            "{page}"
        );
        let one = Limits {
            sheets: 1,
            ..Limits::PARTS
        };
        let page = tables(&marks, &one);
        assert!(
            page.ends_with("</bdi>\n<li>1 more is not shown.\n</ul>\n"),
            "{page}"
        );
    }

    /// However long its texts are, so much is kept, and no more is asked for.
    #[test]
    fn what_is_kept() {
        let long = mark(0, 1, Some(&"x".repeat(65_535)), Reason::Corrected);
        let mut asked = 0;
        let mut marked = Marked::by(Reason::Corrected);
        marked.take((0..100_000).map(|_| {
            asked += 1;
            long.clone()
        }));
        assert_eq!((asked, marked.list.len()), (256, 256));
        let kept: usize = marked.list.iter().map(|mark| units(&mark.old)).sum();
        assert!(kept <= KEPT + 65_535, "{kept}");
        // A page in parts has a part of it.
        let marks = Marks::of(vec![marked]);
        let page = tables(&marks, &Limits::PARTS) + &grid(CELLS, &marks, &Limits::PARTS);
        assert!(page.len() < 500_000, "{} bytes", page.len());
    }

    /// What a mark says of a cell counts as the cell does.
    #[test]
    fn marks_have_a_cost() {
        let long = "x".repeat(900);
        let row = |row: usize| (0..3).map(move |column| (row, column));
        let list = (0..9).flat_map(row);
        let list = list.map(|(row, column)| mark(row, column, Some(&long), Reason::Differs));
        let marks = by_reason(list.collect());
        let limits = Limits {
            cost: 6_000,
            ..Limits::PARTS
        };
        let page = grid(RIDE, &marks, &limits);
        assert!(
            page.contains("6 of 9 rows with cells are not shown here"),
            "{page}"
        );
    }
}
