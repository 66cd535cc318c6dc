//! Folders of files that the tool names itself.

use crate::outcome::Failure;
use std::ffi::OsStr;
use std::fs;
use std::io::ErrorKind;
use std::path::Path;

/// Makes a folder where it isn't there.
pub fn make(name: &OsStr) -> Result<(), Failure> {
    match fs::create_dir(name) {
        Err(error) if error.kind() == ErrorKind::AlreadyExists && Path::new(name).is_dir() => {
            Ok(())
        }
        made => made.map_err(|error| Failure::of_file(name, &error)),
    }
}

/// Characters that no system takes for anything else in the name of a file; an underscore for each other, and for what is no character.
pub fn plain(characters: impl Iterator<Item = Option<char>>) -> String {
    let plain = |character: &char| character.is_alphanumeric() || " -_.".contains(*character);
    characters
        .map(|character| character.filter(plain).unwrap_or('_'))
        .collect()
}
