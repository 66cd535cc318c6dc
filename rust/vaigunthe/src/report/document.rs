//! A whole page: its head, a table of contents where there are several workbooks, and how to read it.

use super::workbook::{Found, Section};
use crate::figures::{counted, grouped};
use crate::text::WordsInPage;
use station::LONGEST_STREAM;
use std::io::{self, Write};

const STYLE: &str = include_str!("style.css");

/// Nothing is fetched and nothing is run, whatever stands on the page.
const POLICY: &str =
    "default-src 'none'; style-src 'unsafe-inline'; base-uri 'none'; form-action 'none'";

const LEGEND: &str = "\
<section aria-labelledby=legend>
<h2 id=legend>How to read this page</h2>
<ul>
<li>Rows and columns have the heads that spreadsheets give them, from 1 and from A. Sheets are counted from 0.
<li>Numbers stand on the right, each with the fewest digits that tell it from all others; <code>bits:</code> and 16 hex digits is an infinity or no number at all.
Texts stand at the side where they begin. <span class=k>blank</span> is a cell that has a format and no value; where nothing stands there is no cell. Errors are bold
and start with #.
<li><i class=f>\u{192} number</i> and its like is before the stored result of a formula, and says of what kind it is; nothing was reckoned again.
<li>A date is underlined by dots, and its number appears under the pointer. Which numbers are dates the format of a cell says; dates are no part of what is proved.
<li><i class=u>U+202E</i> and its like stands for a character that can't be seen or turns text around, by its code.
<li>Of several cells at one address the last listed is shown. Three or more rows or columns without a cell are one line.
</ul>
</section>
";

/// How many workbooks there are, in words.
pub fn title(count: usize) -> String {
    format!("Report on {}", counted(count, "workbook", "workbooks"))
}

/// A page with this title and body.
pub fn write<W: Write>(
    title: &str,
    body: impl FnOnce(&mut W) -> io::Result<()>,
    out: &mut W,
) -> io::Result<()> {
    let (title, version) = (WordsInPage(title).to_string(), env!("CARGO_PKG_VERSION"));
    // An element has no place in a title.
    let title = title.replace("<i class=u>", "").replace("</i>", "");
    write!(
        out,
        "<!DOCTYPE html>\n<html lang=en>\n<head>\n<meta charset=utf-8>\n\
         <meta http-equiv=Content-Security-Policy content=\"{POLICY}\">\n\
         <meta name=viewport content=\"width=device-width, initial-scale=1\">\n\
         <meta name=generator content=\"vaigunthe {version}\">\n\
         <title>{title}</title>\n<style>\n{STYLE}</style>\n</head>\n<body>\n<main>\n"
    )?;
    body(out)?;
    write!(
        out,
        "{LEGEND}</main>\n<footer>Made by vaigunthe {version}. What is said of streams, sheets, cells, texts and cadence comes from a library that is proved; \
         dates and this page itself are not.</footer>\n</body>\n</html>\n"
    )
}

/// How many bytes a stream has. Of one that is too long no more was read than tells that.
pub fn length(bytes: usize) -> String {
    let read = grouped(bytes.min(LONGEST_STREAM) as f64, 0);
    match bytes > LONGEST_STREAM {
        true => format!("over {read}"),
        false => read,
    }
}

/// A line for each workbook, with a link to where more is said of it.
pub fn write_contents<'s, W: Write>(
    lines: impl Iterator<Item = (&'s Contents, Option<String>)>,
    out: &mut W,
) -> io::Result<()> {
    out.write_all(
        b"<nav aria-label=Contents>\n<div class=scroll role=region aria-label=Workbooks tabindex=0><table class=list>\n<thead><tr>",
    )?;
    for title in ["Workbook", "Result", "Bytes", "Sheets", "Strings", "Cells"] {
        write!(out, "<th scope=col>{title}")?;
    }
    out.write_all(b"</thead>\n<tbody>\n")?;
    for (line, link) in lines {
        line.write(link, out)?;
    }
    out.write_all(b"</tbody></table></div>\n</nav>\n")
}

/// What the contents say of a workbook.
pub struct Contents {
    pub name: String,
    pub found: Found,
}

impl Contents {
    fn write<W: Write>(&self, link: Option<String>, out: &mut W) -> io::Result<()> {
        let name = WordsInPage(&self.name);
        out.write_all(b"<tr><th scope=row class=t>")?;
        match link {
            Some(link) => write!(out, "<a href=\"{link}\">{name}</a>")?,
            None => write!(out, "{name}")?,
        }
        let (result, bytes, figures) = match &self.found {
            Found::Passed(counts) => (
                "passed".to_string(),
                length(counts.bytes),
                [counts.sheets, counts.strings as usize, counts.cells].map(Some),
            ),
            Found::Refused(bytes, refusal) => (refusal.to_string(), length(*bytes), [None; 3]),
            Found::Nothing => ("can't be read".to_string(), "–".to_string(), [None; 3]),
        };
        write!(out, "<td class=t>{}<td>{bytes}", WordsInPage(&result))?;
        for figure in figures {
            match figure {
                Some(figure) => write!(out, "<td>{}", grouped(figure as f64, 0))?,
                None => write!(out, "<td>–")?,
            }
        }
        writeln!(out)
    }
}

/// All workbooks on one page.
pub fn write_sections<W: Write>(sections: Vec<Section>, out: &mut W) -> io::Result<()> {
    if let [section] = &sections[..] {
        return write(&section.title, |out| out.write_all(&section.html), out);
    }
    let title = title(sections.len());
    let (lines, parts): (Vec<_>, Vec<_>) = sections.into_iter().map(Section::split).unzip();
    let body = |out: &mut W| {
        writeln!(out, "<h1>{title}</h1>")?;
        let link = |place: usize| Some(format!("#w{}", place + 1));
        let linked = lines.iter().enumerate();
        write_contents(linked.map(|(place, line)| (line, link(place))), out)?;
        parts.iter().try_for_each(|part| out.write_all(part))
    };
    write(&title, body, out)
}

impl Section {
    /// Its line of the contents, and itself.
    pub fn split(self) -> (Contents, Vec<u8>) {
        let Section {
            name, found, html, ..
        } = self;
        (Contents { name, found }, html)
    }
}

#[cfg(test)]
mod tests {
    use super::STYLE;

    /// The colours of a scheme, by their names.
    fn colour(scheme: &str, name: &str) -> Option<[u8; 3]> {
        let (_, after) = scheme.split_once(&format!("--{name}: #"))?;
        let digits = |at: usize| u8::from_str_radix(&after[at..at + 2], 16).ok();
        Some([digits(0)?, digits(2)?, digits(4)?])
    }

    /// How light a colour is on a grey printer, and for every eye, by WCAG 2: from 0 to 1.
    fn luminance(colour: [u8; 3]) -> f64 {
        let linear = |part: u8| match f64::from(part) / 255.0 {
            low if low <= 0.040_45 => low / 12.92,
            high => ((high + 0.055) / 1.055).powf(2.4),
        };
        let [red, green, blue] = colour.map(linear);
        0.2126 * red + 0.7152 * green + 0.0722 * blue
    }

    fn contrast(one: [u8; 3], other: [u8; 3]) -> f64 {
        let (one, other) = (luminance(one) + 0.05, luminance(other) + 0.05);
        (one / other).max(other / one)
    }

    /// Text can be read in both schemes, and the two marks differ where only lightness is seen.
    #[test]
    fn colours_can_be_told_apart() {
        let (light, dark) = STYLE.split_once("@media screen and").expect("two schemes");
        for scheme in [light, dark] {
            // What the dark scheme doesn't change is the light one's.
            let of = |name| colour(scheme, name).or(colour(light, name)).expect(name);
            for (ink, paper) in [
                ("ink", "paper"),
                ("ink", "head"),
                ("ink", "corrected-paper"),
                ("ink", "differs-paper"),
                ("faint", "paper"),
                ("faint", "head"),
                ("link", "paper"),
                ("link", "head"),
                ("error", "paper"),
                ("error", "corrected-paper"),
                ("error", "differs-paper"),
                ("fault-ink", "fault"),
            ] {
                let found = contrast(of(ink), of(paper));
                assert!(found >= 4.5, "{ink} on {paper}: {found:.2}");
            }
            for frame in ["corrected", "differs"] {
                let papers = ["paper", "corrected-paper", "differs-paper"];
                let least = papers.map(|paper| contrast(of(frame), of(paper)));
                assert!(
                    least.iter().all(|found| *found >= 3.0),
                    "{frame}: {least:.2?}"
                );
            }
            let marks = contrast(of("corrected"), of("differs"));
            assert!(marks >= 1.25, "the marks: {marks:.2}");
        }
    }

    /// The picture is painted anew by its own colours in the dark.
    #[test]
    fn the_dark_scheme_knows_the_colours_of_the_picture() {
        let stretches = [
            crate::picture::Stretch::Turning {
                ticks: 900,
                cadence: 60,
            },
            crate::picture::Stretch::Pause { ticks: 90_000 },
        ];
        let mut picture = Vec::new();
        crate::picture::write_element("x", &stretches, &mut picture).expect("memory");
        let picture = String::from_utf8(picture).expect("UTF-8");
        let mut seen = 0;
        for paint in ["fill=\"#", "stroke=\"#"] {
            for (at, _) in picture.match_indices(paint) {
                let attribute = &picture[at..at + paint.len() + 7];
                assert!(STYLE.contains(&format!("svg [{attribute}]")), "{attribute}");
                seen += 1;
            }
        }
        assert!(seen > 10, "only {seen} paints");
    }
}
