//! The records of a collection: the files that a command is given, and those in its folders.

use std::collections::HashSet;
use std::os::unix::fs::MetadataExt;
use std::path::{Path, PathBuf};
use std::{fs, io};

/// What is looked for in folders.
pub const EXTENSION: &str = "record";

/// What was found.
#[derive(Default)]
pub struct Found {
    /// The records, by name, each once.
    pub records: Vec<PathBuf>,
    /// Folders that could not be read, and what may be one, and why.
    pub unreadable: Vec<(PathBuf, String)>,
    /// How many other files were passed over.
    pub others: u64,
    /// The folders that were gone through, by what they are and not by their names.
    folders: HashSet<(u64, u64)>,
}

/// A file that is named is a record whatever its name; in a folder, and the folders in it, those are whose name ends in `.record`. A link is what it leads
/// to, and every folder is gone through once, so that no link can lead round in a circle.
pub fn find(paths: &[PathBuf]) -> Found {
    let mut found = Found::default();
    for path in paths {
        if path.is_dir() {
            found.folder(path);
        } else {
            found.records.push(path.clone());
        }
    }
    found.records.sort();
    found.records.dedup();
    found.unreadable.sort();
    found
}

impl Found {
    /// Goes through a folder and those in it, in the order of the names, without a call for each level: folders may lie deep.
    fn folder(&mut self, folder: &Path) {
        let mut waiting = vec![folder.to_path_buf()];
        while let Some(folder) = waiting.pop() {
            match self.files(&folder) {
                // The first by name comes next.
                Ok(inner) => waiting.extend(inner.into_iter().rev()),
                Err(error) => self.unreadable.push((folder, error.to_string())),
            }
        }
    }

    /// Takes the records of a folder, and gives the folders in it.
    fn files(&mut self, folder: &Path) -> io::Result<Vec<PathBuf>> {
        let metadata = fs::metadata(folder)?;
        if !self.folders.insert((metadata.dev(), metadata.ino())) {
            return Ok(Vec::new());
        }
        let mut paths = fs::read_dir(folder)?.map(|entry| entry.map(|entry| entry.path())).collect::<io::Result<Vec<PathBuf>>>()?;
        paths.sort();
        let mut inner = Vec::new();
        for path in paths {
            let named = path.extension().is_some_and(|extension| extension == EXTENSION);
            match fs::metadata(&path) {
                Ok(metadata) if metadata.is_dir() => inner.push(path),
                // What is wrong with a record is told when it is opened.
                _ if named => self.records.push(path),
                // It may be a folder with records in it. A link to nothing is none.
                Err(error) if error.kind() != io::ErrorKind::NotFound => self.unreadable.push((path, error.to_string())),
                _ => self.others += 1,
            }
        }
        Ok(inner)
    }
}
