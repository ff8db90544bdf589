//! The files of a test program: its arguments and input, its field files and answer files, and its stored output.

use crate::files::MAX_FIELD_FILE;
use std::path::{Path, PathBuf};

/// Of the input a test program reads so many bytes at most.
const MAX_INPUT: usize = 65536;

/// Of a field file a program reads so many bytes at most: one more than the largest has.
pub const MAX_FILE: usize = MAX_FIELD_FILE + 1;

pub struct Program {
    folder: PathBuf,
}

impl Program {
    pub fn new(crates: &Path, name: &str) -> Program {
        Program { folder: crates.join(name) }
    }

    /// A file that must be there.
    pub fn read(&self, name: &str) -> Vec<u8> {
        let path = self.folder.join(name);
        std::fs::read(&path).unwrap_or_else(|error| panic!("{}: {error}", path.display()))
    }

    /// The input, as far as it is read.
    pub fn input(&self) -> Vec<u8> {
        let mut input = self.read("stdin");
        input.truncate(MAX_INPUT);
        input
    }

    /// The first bytes, up to `most`, of the file of a kind whose name has the last three digits of the number; nothing if it is missing.
    pub fn data_file(&self, number: u64, kind: &str, most: usize) -> Option<Vec<u8>> {
        let mut file = std::fs::read(self.folder.join(format!("data/{:03}.{kind}", number % 1000))).ok()?;
        file.truncate(most);
        Some(file)
    }

    /// The same; a file that is missing is told in a line, and taken as empty.
    pub fn told_file(&self, number: u64, kind: &str, most: usize) -> (&'static str, Vec<u8>) {
        match self.data_file(number, kind, most) {
            Some(file) => ("", file),
            None => ("no such file\n", Vec::new()),
        }
    }
}

/// The crates that have a stored output.
pub fn with_output(crates: &Path) -> Vec<String> {
    let entries = std::fs::read_dir(crates).unwrap_or_else(|error| panic!("{}: {error}", crates.display()));
    let folders = entries.map(|entry| entry.expect("an entry of the folder").path());
    let mut names: Vec<String> = folders
        .filter(|folder| folder.join("stdout").exists())
        .filter_map(|folder| folder.file_name().map(|name| name.to_string_lossy().into_owned()))
        .collect();
    names.sort();
    names
}
