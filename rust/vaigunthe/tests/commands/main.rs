//! The command line as a user meets it: the built tool is run over the stored cases and over made streams. What it must print is taken from the
//! second reader, or written down after document 01.

mod browser;
mod cadence;
mod check;
mod compact;
mod compare;
mod completions;
mod correct;
mod dates;
mod export;
mod fetch;
mod grid;
mod journal;
mod judge;
mod list;
mod made;
mod manual;
mod parse;
mod picture;
mod profile;
mod replace;
mod report;
mod sheets;
mod signals;
mod strings;
mod template;
mod tool;
mod tour;
mod usage;
