//! Puts a file in the place of another, whole or not at all.

use crate::outcome::complain;
use crate::signals::Doomed;
use crate::text::Name;
use std::ffi::{OsStr, OsString};
use std::fs::{self, File, Metadata, OpenOptions};
use std::io::{self, BufWriter, ErrorKind, Read, Write};
use std::os::unix::ffi::OsStrExt;
use std::os::unix::fs::{fchown, FileExt, MetadataExt, OpenOptionsExt};
use std::path::{Path, PathBuf};

/// A file that is being written.
pub type Written<'f> = BufWriter<&'f File>;

/// Where a file is to be put. The file that is there already is held until that is done: another run that would replace it waits, so that what it reads is what
/// this one has written.
pub struct Place {
    path: PathBuf,
    old: Option<Held>,
}

struct Held {
    found: Metadata,
    /// Open, and so locked.
    file: File,
}

impl Place {
    /// Where a path leads, through links.
    pub fn of(path: &Path) -> io::Result<Self> {
        loop {
            let end = match fs::canonicalize(path) {
                Ok(end) => end,
                Err(error) if error.kind() == ErrorKind::NotFound && !is_link(path) => {
                    path.to_path_buf()
                }
                Err(error) => return Err(error),
            };
            if let Some(place) = Self::at(end)? {
                return Ok(place);
            }
        }
    }

    /// A name in a folder. A link of that name is itself replaced: what is put there is nowhere else.
    pub fn within(folder: &Path, name: &str) -> io::Result<Self> {
        loop {
            if let Some(place) = Self::at(folder.join(name))? {
                return Ok(place);
            }
        }
    }

    /// None where somebody else was quicker. Only a file is replaced: to put one in the place of a folder or a device would destroy it. It is opened for
    /// writing: one that is write-protected stays as it is.
    fn at(path: PathBuf) -> io::Result<Option<Self>> {
        let old = match fs::symlink_metadata(&path) {
            Ok(found) if found.is_symlink() => None,
            Ok(found) if !found.is_file() => return Err(io::Error::other("not a regular file")),
            Ok(found) => {
                let file = OpenOptions::new().write(true).open(&path)?;
                file.lock()?;
                // Whoever held it before may have put another file in its place.
                if !is_at(&file, &path) {
                    return Ok(None);
                }
                Some(Held { found, file })
            }
            Err(error) if error.kind() == ErrorKind::NotFound => None,
            Err(error) => return Err(error),
        };
        Ok(Some(Place { path, old }))
    }

    /// Whether what this path leads to is the file that will be replaced.
    pub fn replaces(&self, path: &Path) -> bool {
        let held = self.old.as_ref();
        held.is_some_and(|old| is_at(&old.file, path))
    }

    /// The file that will be replaced, where there is one.
    pub fn replaced(&self) -> Option<Identity> {
        let held = self.old.as_ref();
        held.map(|old| identity(&old.found))
    }

    /// Puts there what is written, so that it lasts over a power cut where that is asked for. The new file has the permissions and, as far as the system allows it, the owner of the old one.
    pub fn put(
        &self,
        lasting: bool,
        write: impl FnOnce(&mut Written<'_>) -> io::Result<()>,
    ) -> io::Result<()> {
        let new = Temporary::beside(&self.path, self.old.is_some())?;
        if let Some(old) = &self.old {
            take_after(&new.file, &old.found)?;
        }
        let mut out = BufWriter::with_capacity(crate::BUFFER, &new.file);
        write(&mut out)?;
        out.flush()?;
        drop(out);
        if lasting {
            new.file.sync_all()?;
        }
        new.rename(&self.path)
    }

    /// Has the system write down that the folder names the new file.
    pub fn sync_folder(&self) -> io::Result<()> {
        File::open(folder(&self.path))?.sync_all()
    }

    /// The same for a file that is replaced by now, so that it can no longer be a failure.
    pub fn tell_unless_synced(&self, name: &OsStr) {
        if let Err(error) = self.sync_folder() {
            let name = Name(name);
            complain(format_args!(
                "{name} is written, but a power cut may still undo it: {error}"
            ));
        }
    }

    /// Whether a file at this path would be put here, be it there or not.
    pub fn is_of(&self, path: &Path) -> bool {
        let named = |path: &Path| {
            let folder = fs::canonicalize(folder(path)).ok()?;
            Some(folder.join(path.file_name()?))
        };
        let end = fs::canonicalize(path).unwrap_or(path.to_path_buf());
        let (here, there) = (named(&self.path), named(&end));
        here.is_some() && here == there
    }
}

/// Where a file is kept that is to take the place of another: beside it, hidden, with its name.
pub fn next_of(path: &Path) -> PathBuf {
    let path = fs::canonicalize(path).unwrap_or(path.to_path_buf());
    let mut name = OsString::from(".");
    name.push(path.file_name().unwrap_or_default());
    name.push(".vaigunthe-next");
    folder(&path).join(name)
}

/// A file that is written whole beside another before something else is done, and takes its place after that. Of two runs one waits for the other. What a run that
/// was ended has left is there for the next.
pub struct Beside {
    place: Place,
    next: PathBuf,
    /// Open, and so locked.
    file: File,
    stays: bool,
}

impl Beside {
    /// Takes hold of the place, and gives what was left there.
    pub fn take(path: &Path) -> io::Result<(Self, Vec<u8>)> {
        let place = Place::of(path)?;
        let next = next_of(&place.path);
        if is_link(&next) {
            return Err(io::Error::other("a link stands where the new one is kept"));
        }
        let mut options = OpenOptions::new();
        options.read(true).write(true).create(true).truncate(false);
        let private = place.old.is_some();
        options.mode(if private { 0o600 } else { 0o666 });
        let mut file = loop {
            let file = options.open(&next)?;
            file.lock()?;
            // Whoever held it before may have put it in its place, or removed it.
            if is_at(&file, &next) {
                break file;
            }
        };
        let mut left = Vec::new();
        file.read_to_end(&mut left)?;
        let beside = Beside {
            place,
            next,
            file,
            stays: false,
        };
        Ok((beside, left))
    }

    /// Writes it, so that it lasts over a power cut.
    pub fn write(&mut self, bytes: &[u8]) -> io::Result<()> {
        if let Some(old) = &self.place.old {
            take_after(&self.file, &old.found)?;
        }
        self.file.set_len(0)?;
        self.file.write_all_at(bytes, 0)?;
        self.file.sync_all()?;
        self.place.sync_folder()
    }

    /// Puts it in its place; where that fails it stays beside it.
    pub fn settle(mut self) -> io::Result<()> {
        self.stays = true;
        fs::rename(&self.next, &self.place.path)?;
        self.place.sync_folder()
    }

    /// Leaves it for another run.
    pub fn keep(mut self) {
        self.stays = true;
    }
}

impl Drop for Beside {
    fn drop(&mut self) {
        if !self.stays {
            let _ = fs::remove_file(&self.next);
        }
    }
}

fn is_link(path: &Path) -> bool {
    fs::symlink_metadata(path).is_ok_and(|found| found.is_symlink())
}

/// What tells a file from all others, whatever its names: its device and its number there.
pub type Identity = (u64, u64);

pub fn identity(found: &Metadata) -> Identity {
    (found.dev(), found.ino())
}

/// Whether the path leads to this open file.
fn is_at(file: &File, path: &Path) -> bool {
    match (file.metadata(), fs::metadata(path)) {
        (Ok(one), Ok(other)) => identity(&one) == identity(&other),
        _ => false,
    }
}

fn folder(path: &Path) -> &Path {
    match path.parent() {
        Some(folder) if folder != Path::new("") => folder,
        _ => Path::new("."),
    }
}

/// How many names are tried for a temporary file.
const TRIES: u32 = 1_000;

/// A new file that is removed again unless it gets its name. It is locked while it is written: one that isn't was left by a run that was killed.
struct Temporary {
    path: PathBuf,
    file: File,
    renamed: bool,
    /// Last, so that a signal finds no moment in which the file is there and nobody removes it.
    _doomed: Doomed,
}

impl Temporary {
    /// A file in the folder of another; nobody else may read it while it is private. Its name comes from the other's, so that the next run with the same
    /// target meets what one that was killed has left.
    fn beside(path: &Path, private: bool) -> io::Result<Self> {
        let folder = folder(path);
        let mark = mark(path.file_name().unwrap_or_default().as_bytes());
        let mut options = OpenOptions::new();
        options.write(true).create_new(true);
        options.mode(if private { 0o600 } else { 0o666 });
        for number in 0..TRIES {
            let path = folder.join(format!(".vaigunthe-{mark:016x}-{number}"));
            match Self::at(&path, &options) {
                Err(error) if error.kind() == ErrorKind::AlreadyExists => {}
                made => return made,
            }
        }
        Err(ErrorKind::AlreadyExists.into())
    }

    fn at(path: &Path, options: &OpenOptions) -> io::Result<Self> {
        loop {
            remove_leftover(path)?;
            let doomed = Doomed::new(path)?;
            let file = match options.open(path) {
                Ok(file) => file,
                Err(error) if error.kind() == ErrorKind::AlreadyExists => continue,
                Err(error) => return Err(error),
            };
            let new = Temporary {
                path: path.to_path_buf(),
                file,
                renamed: false,
                _doomed: doomed,
            };
            new.file.lock()?;
            // Another run may have taken it for left over before it was locked.
            if is_at(&new.file, path) {
                return Ok(new);
            }
            new.forget();
        }
    }

    /// Somebody else has removed it.
    fn forget(mut self) {
        self.renamed = true;
    }

    fn rename(mut self, path: &Path) -> io::Result<()> {
        fs::rename(&self.path, path)?;
        self.renamed = true;
        Ok(())
    }
}

impl Drop for Temporary {
    fn drop(&mut self) {
        if !self.renamed {
            let _ = fs::remove_file(&self.path);
        }
    }
}

fn take_after(file: &File, old: &Metadata) -> io::Result<()> {
    // Only the superuser may give a file away; a member of its group may still give it the group.
    if fchown(file, Some(old.uid()), Some(old.gid())).is_err() {
        let _ = fchown(file, None, Some(old.gid()));
    }
    file.set_permissions(old.permissions())
}

/// Removes what a run that was killed has left. One that is still being written is waited for; one that is somebody else's stays.
fn remove_leftover(path: &Path) -> io::Result<()> {
    let stays = || io::Error::from(ErrorKind::AlreadyExists);
    match fs::symlink_metadata(path) {
        Err(error) if error.kind() == ErrorKind::NotFound => return Ok(()),
        Err(error) => return Err(error),
        Ok(found) if !found.is_file() => return Err(stays()),
        Ok(_) => {}
    }
    let left = match OpenOptions::new().write(true).open(path) {
        Err(error) if error.kind() == ErrorKind::NotFound => return Ok(()),
        opened => opened.map_err(|_| stays())?,
    };
    left.lock()?;
    match is_at(&left, path) {
        true => fs::remove_file(path).map_err(|_| stays()),
        false => Ok(()),
    }
}

/// A number for a name, by FNV-1a: the same in every run, and hardly ever that of another name.
fn mark(name: &[u8]) -> u64 {
    name.iter().fold(0xCBF2_9CE4_8422_2325, |mark, &byte| {
        (mark ^ u64::from(byte)).wrapping_mul(0x0000_0100_0000_01B3)
    })
}
