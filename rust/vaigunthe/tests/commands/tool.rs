//! Runs the tool, in folders of its own.

use std::ffi::OsStr;
use std::fs;
use std::io::Write;
use std::path::{Path, PathBuf};
use std::process::{Command, Stdio};
use std::sync::atomic::{AtomicU32, Ordering};
use std::thread;

pub const TOOL: &str = env!("CARGO_BIN_EXE_vaigunthe");

/// What a run came to. A tool that was killed has no status.
#[derive(Debug, PartialEq, Eq)]
pub struct Ran {
    pub status: Option<i32>,
    pub out: Vec<u8>,
    pub err: String,
}

impl Ran {
    pub fn text(&self) -> &str {
        std::str::from_utf8(&self.out).expect("output in UTF-8")
    }

    /// Holds that it answered so, with nothing to complain of.
    pub fn says(&self, status: i32, out: &str) {
        assert_eq!(
            (self.status, self.text(), &self.err[..]),
            (Some(status), out, "")
        );
    }

    /// Holds that it answered with this refusal, and said what it means.
    pub fn refuses(&self, line: &str) {
        assert_eq!(self.text(), format!("{line}\n"));
        self.explains(line);
    }

    /// Holds that it refused so, with no data on standard output.
    pub fn refuses_data(&self, line: &str) {
        assert_eq!(self.text(), "");
        self.explains(line);
    }

    fn explains(&self, line: &str) {
        assert_eq!(self.status, Some(1), "{}", self.err);
        assert!(self.err.starts_with("vaigunthe: "), "{}", self.err);
        let first = self.err.lines().next().expect("a message");
        let (_, meaning) = first.split_once(&format!(": {line}: ")).expect("the line");
        assert!(meaning.contains(told_by(line)), "{first}");
    }

    /// Holds that it only complained, of this.
    pub fn fails(&self, with: &str) {
        assert_eq!((self.status, self.text()), (Some(2), ""), "{}", self.err);
        assert!(self.err.starts_with("vaigunthe: "), "{}", self.err);
        assert!(self.err.contains(with), "{} has no '{with}'", self.err);
    }
}

pub fn run<W: AsRef<OsStr>>(words: &[W]) -> Ran {
    run_with(words, b"")
}

/// Runs the tool with these bytes as its standard input.
pub fn run_with<W: AsRef<OsStr>>(words: &[W], input: &[u8]) -> Ran {
    finish(Command::new(TOOL).args(words), input)
}

pub fn finish(command: &mut Command, input: &[u8]) -> Ran {
    let mut child = command
        .stdin(Stdio::piped())
        .stdout(Stdio::piped())
        .stderr(Stdio::piped())
        .spawn()
        .expect("the tool starts");
    let mut stdin = child.stdin.take().expect("a pipe");
    let output = thread::scope(|scope| {
        // A tool that reads no more leaves the rest unwritten.
        scope.spawn(move || stdin.write_all(input));
        child.wait_with_output().expect("the tool ends")
    });
    Ran {
        status: output.status.code(),
        out: output.stdout,
        err: String::from_utf8(output.stderr).expect("messages in UTF-8"),
    }
}

pub fn cases() -> PathBuf {
    Path::new(env!("CARGO_MANIFEST_DIR")).join("../../cases")
}

pub fn case(name: &str) -> PathBuf {
    cases().join(name)
}

/// The stored inputs, in order.
pub fn case_inputs() -> Vec<PathBuf> {
    let mut inputs: Vec<_> = fs::read_dir(cases())
        .expect("the folder of cases")
        .map(|entry| entry.expect("an entry").path())
        .filter(|path| path.extension().is_some_and(|extension| extension == "in"))
        .collect();
    inputs.sort();
    assert!(inputs.len() >= 20, "only {} cases", inputs.len());
    inputs
}

/// A folder that is removed again.
pub struct Folder(PathBuf);

impl Folder {
    pub fn new() -> Self {
        static COUNT: AtomicU32 = AtomicU32::new(0);
        let number = COUNT.fetch_add(1, Ordering::Relaxed);
        let name = format!("vaigunthe-test-{}-{number}", std::process::id());
        let path = std::env::temp_dir().join(name);
        fs::create_dir(&path).expect("a new folder");
        Folder(path)
    }

    pub fn path(&self) -> &Path {
        &self.0
    }

    pub fn at(&self, name: impl AsRef<Path>) -> PathBuf {
        self.0.join(name)
    }

    pub fn put(&self, name: impl AsRef<Path>, bytes: &[u8]) -> PathBuf {
        let path = self.at(name);
        fs::write(&path, bytes).expect("a new file");
        path
    }

    /// The names in it, in order.
    pub fn names(&self) -> Vec<String> {
        let mut names: Vec<_> = fs::read_dir(&self.0)
            .expect("the folder")
            .map(|entry| entry.expect("an entry").file_name())
            .map(|name| name.to_string_lossy().into_owned())
            .collect();
        names.sort();
        names
    }
}

impl Drop for Folder {
    fn drop(&mut self) {
        let _ = fs::remove_dir_all(&self.0);
    }
}

/// The words of a call in which a path stands among plain words.
#[macro_export]
macro_rules! words {
    ($($word:expr),* $(,)?) => {
        &[$(std::ffi::OsString::from(&$word)),*]
    };
}

/// Words for the refusal of a line.
fn told_by(line: &str) -> &'static str {
    let number = line.strip_prefix("refused ").expect("a refusal");
    let (number, _) = number.split_once(" at ").expect("an offset");
    words_of(number.parse().expect("a number"))
}

/// Words for the refusal of this number.
pub fn words_of(number: u8) -> &'static str {
    let told = TOLD_BY.iter().find(|(known, _)| *known == number);
    told.expect("a known refusal").1
}

/// Words of the papers for each refusal, in the order of their numbers.
pub const TOLD_BY: [(u8, &str); 21] = [
    (1, "longer than 16,777,216 bytes"),
    (2, "8,224 bytes"),
    (3, "first record"),
    (4, "substreams"),
    (5, "encrypted"),
    (6, "wrong size or field"),
    (7, "CONTINUE"),
    (8, "shared string table"),
    (9, "index is not below"),
    (10, "sheet list and the substreams disagree"),
    (11, "sheet, string or cell asked for is absent"),
    (12, "fewer units than the string"),
    (13, "unknown, cut or misplaced token"),
    (14, "stack runs short"),
    (15, "no such function"),
    (16, "two or more cells have the address"),
    (17, "kind does not take this kind of value"),
    (18, "value does not fit"),
    (19, "not hold what the journal's entry says"),
    (20, "outside the profile of a sensor's session"),
    (21, "journal is cut or malformed"),
];
