//! Files that a command reads: their names, bytes and, of a refused sheet, why.

use std::fs::{self, File};
use std::io::{self, Read};
use std::path::Path;

use huskcanyon::{Refusal, Workspace};

use crate::stop::{Outcome, Stop};

/// Whether a path stands for standard input.
pub fn is_standard(path: &Path) -> bool {
    path.as_os_str() == "-"
}

/// How a file is called in messages. A line break in a name would make two lines of one.
pub fn name(path: &Path) -> String {
    if is_standard(path) {
        return "standard input".to_string();
    }
    path.to_string_lossy().replace(|c: char| c.is_control(), "?")
}

/// Opens a file that is to be read to its end. A pipe by the name of a record would keep everyone waiting, so only files are read by name.
pub fn open(path: &Path) -> io::Result<File> {
    let metadata = fs::metadata(path)?;
    if metadata.is_dir() {
        return Err(io::Error::new(io::ErrorKind::Other, "it is a folder"));
    }
    if !metadata.is_file() {
        return Err(io::Error::new(io::ErrorKind::Other, "it is no regular file"));
    }
    File::open(path)
}

/// Standard input, a file, or a shell's <(command).
pub fn reader(path: &Path) -> Outcome<Box<dyn Read>> {
    if is_standard(path) {
        return Ok(Box::new(io::stdin()));
    }
    let given_by_the_shell = path.starts_with("/dev/fd") || path.starts_with("/proc");
    let file = if given_by_the_shell { File::open(path) } else { open(path) };
    Ok(Box::new(file.map_err(|error| Stop::file(path, error))?))
}

/// A file's bytes, up to `limit` of them and one more, so that a file that is too long can be told without being read.
pub fn bytes(path: &Path, limit: u64) -> Outcome<Vec<u8>> {
    let mut bytes = Vec::new();
    reader(path)?.take(limit + 1).read_to_end(&mut bytes).map_err(|error| Stop::file(path, error))?;
    Ok(bytes)
}

/// A longer sheet is refused, with 1.
pub const LONGEST_SHEET: u64 = 16_777_216;

/// A sheet and its workspace.
pub fn load(path: &Path) -> Outcome<(Vec<u8>, Workspace)> {
    let sheet = bytes(path, LONGEST_SHEET)?;
    let workspace = Workspace::load(&sheet).map_err(|refusal| Stop::sheet(path, &sheet, 1, refusal))?;
    Ok((sheet, workspace))
}

/// The sheet's line that a refusal names.
pub fn line_of(refusal: Refusal) -> Option<u64> {
    matches!(refusal.number, 2 | 3 | 4 | 9).then_some(refusal.first)
}

/// What helps where a line ends in CR LF.
pub const CR_HINT: &str = "; the line ends in a carriage return (CR), and lines end in LF alone here: take the CRs out";

/// The refusal of a sheet, whose first line is line `first` of its file, with what may help.
pub fn refusal_in_words(sheet: &[u8], first: u64, refusal: Refusal) -> String {
    let mut words = refusal.to_string();
    let line = line_of(refusal).and_then(|line| sheet.split(|&byte| byte == b'\n').nth(line as usize - 1));
    if line.is_some_and(|line| line.ends_with(b"\r")) {
        words += CR_HINT;
    } else if refusal.number == 2 && first == 1 && sheet.starts_with(b"record\t") {
        words += "; this is a record, and a sheet is wanted";
    } else if refusal.number == 2 && sheet.starts_with(b"\xef\xbb\xbf") {
        words += "; the file begins with a byte order mark, which a sheet has not";
    }
    words
}
