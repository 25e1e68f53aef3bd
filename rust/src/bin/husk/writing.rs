//! Files that a command writes: whole or not at all.

use std::ffi::OsString;
use std::fs::{self, File, OpenOptions};
use std::io::{self, Write};
use std::os::unix::fs::MetadataExt;
use std::path::{Path, PathBuf};
use std::thread;
use std::time::Duration;

use crate::stop::{Outcome, Stop};

/// Writes what a command makes beside its output (names, a curve) in the place of what was there, unless that was just read.
pub fn beside(target: &Path, text: &str, read: &[&Path]) -> Outcome<()> {
    let identity = |path: &Path| fs::metadata(path).map(|metadata| (metadata.dev(), metadata.ino())).ok();
    let place = identity(target);
    if place.is_some() && read.iter().any(|path| identity(path) == place) {
        return Err(Stop::file(target, "it is what was read, and would be overwritten"));
    }
    replace(target, text.as_bytes(), true)
}

/// Writes a file through a temporary one beside it, so that at every moment the name has either what it had before or all of the new bytes. What is there
/// already is replaced only where `over` says so.
pub fn replace(target: &Path, bytes: &[u8], over: bool) -> Outcome<()> {
    let old = target.symlink_metadata();
    if old.is_ok() && !over {
        return Err(exists(target));
    }
    // Of a link, what it leads to is replaced; only files are.
    let place = match (&old, fs::canonicalize(target)) {
        (Err(_), _) => target.to_path_buf(),
        (Ok(_), Err(_)) => return Err(Stop::file(target, "it is a link to nothing")),
        (Ok(_), Ok(place)) => place,
    };
    if let Ok(metadata) = fs::metadata(&place) {
        if !metadata.is_file() {
            return Err(Stop::file(target, "it is no regular file"));
        }
        if metadata.permissions().readonly() {
            return Err(Stop::file(target, "it is write-protected"));
        }
    }
    let failed = |error: io::Error| match error.kind() {
        io::ErrorKind::NotFound => Stop::file(target, "there is no such folder"),
        _ => Stop::file(target, error),
    };
    let (temporary, mut file) = temporary(&place).map_err(failed)?;
    let written = file.write_all(bytes).and_then(|()| keep_permissions(&place, &file)).and_then(|()| file.sync_all());
    let moved = written.and_then(|()| if over { fs::rename(&temporary, &place) } else { name_anew(&temporary, &place) });
    if let Err(error) = moved {
        let _ = fs::remove_file(&temporary);
        return Err(if error.kind() == io::ErrorKind::AlreadyExists { exists(target) } else { failed(error) });
    }
    Ok(())
}

fn exists(target: &Path) -> Stop {
    Stop::file(target, "it is there already, and nothing was written: --add adds a try to it, --force replaces it")
}

/// A file that is not there yet, in the target's folder, by a short name that is no record's.
fn temporary(target: &Path) -> io::Result<(PathBuf, File)> {
    for number in 0..100 {
        let path = target.with_file_name(format!(".husk-{}-{number}", std::process::id()));
        match OpenOptions::new().write(true).create_new(true).open(&path) {
            Ok(file) => return Ok((path, file)),
            Err(error) if error.kind() == io::ErrorKind::AlreadyExists => {}
            Err(error) => return Err(error),
        }
    }
    Err(io::Error::new(io::ErrorKind::Other, "no temporary file beside it"))
}

fn keep_permissions(target: &Path, file: &File) -> io::Result<()> {
    match fs::metadata(target) {
        Ok(metadata) => file.set_permissions(metadata.permissions()),
        Err(_) => Ok(()),
    }
}

/// A second name for the temporary file fails where the name is taken, which a rename does not. Some file systems know no second names: there the
/// name was free when it was looked at.
fn name_anew(temporary: &Path, target: &Path) -> io::Result<()> {
    match fs::hard_link(temporary, target) {
        Ok(()) => fs::remove_file(temporary),
        Err(error) if error.kind() == io::ErrorKind::AlreadyExists => Err(error),
        Err(_) => fs::rename(temporary, target),
    }
}

/// How often, and after how long, a lock is tried again: ten seconds in all.
const TRIES: u32 = 500;
const PAUSE: Duration = Duration::from_millis(20);

/// Keeps other runs of `husk` from adding to a record at the same time; ends when it is dropped.
pub struct Lock {
    path: PathBuf,
}

impl Lock {
    /// Waits until nobody else adds to the record.
    pub fn of(record: &Path) -> Outcome<Lock> {
        let place = fs::canonicalize(record).map_err(|error| Stop::file(record, error))?;
        let mut name = OsString::from(".");
        name.push(place.file_name().unwrap_or_default());
        name.push(".lock");
        let path = place.with_file_name(name);
        for _ in 0..TRIES {
            match OpenOptions::new().write(true).create_new(true).open(&path) {
                Ok(_) => return Ok(Lock { path }),
                Err(error) if error.kind() == io::ErrorKind::AlreadyExists => thread::sleep(PAUSE),
                Err(error) => return Err(Stop::file(record, error)),
            }
        }
        Err(Stop::file(&path, "someone else is adding to the record, or was killed while adding; where nobody is, remove this file"))
    }
}

impl Drop for Lock {
    fn drop(&mut self) {
        // Where it cannot be removed, the next run says so.
        let _ = fs::remove_file(&self.path);
    }
}
