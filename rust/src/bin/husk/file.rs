//! `husk file`: what came out of a sheet, as a record.

use std::ffi::OsString;
use std::io::{self, Read};
use std::path::{Path, PathBuf};

use huskcanyon::{Mode, Workspace};

use crate::collection::EXTENSION;
use crate::options::Options;
use crate::output::Output;
use crate::record::{self, Reader};
use crate::stop::{Outcome, Stop};
use crate::writing::{self, Lock};
use crate::{input, lines, tries, Status};

/// Runs the command.
pub fn run(arguments: Vec<OsString>) -> Outcome<Status> {
    let mut options = Options::parse(arguments, &["--reml", "--force"], &["--add", "--out"])?;
    let path = options.take_path("SHEET")?;
    if options.value("--add").is_some() && (options.value("--out").is_some() || options.has("--force")) {
        return Err(Stop::usage("--add names the record that is written; --out and --force do not go with it"));
    }
    let (sheet, mut workspace) = input::load(&path)?;
    let theta = tries::theta(&options.rest, &workspace)?;
    let mode = if options.has("--reml") { Mode::Reml } else { Mode::Ml };
    let answer = tries::work_out(&mut workspace, &theta, mode);
    if let tries::Answer::Refused(refusal) = &answer {
        // Theta itself was refused, so nothing was tried.
        if refusal.number == 14 {
            return Err(Stop::refused(&path, format!("{refusal}; nothing was filed")));
        }
    }
    let text = record::try_text(mode, &theta, &answer);
    let target = match options.target("--add")? {
        Some(target) => {
            add(&target, &sheet, &workspace, mode, &theta, &text)?;
            target
        }
        None => {
            let target = options.target("--out")?.map_or_else(|| default_name(&path), Ok)?;
            let bytes = [record::first_line().as_bytes(), &sheet, text.as_bytes()].concat();
            writing::replace(&target, &bytes, options.has("--force"))?;
            target
        }
    };
    let mut out = Output::new();
    let thetas: Vec<String> = theta.iter().map(|&number| lines::decimal(number)).collect();
    let came = answer.in_words().map_or_else(String::new, |words| format!(" ({words})"));
    out.text(format!("{}: filed {} at theta {}{came}\n", input::name(&target), lines::mode(mode), thetas.join(" ")))?;
    out.end()?;
    Ok(0)
}

/// The sheet's name, ending in `.record`.
fn default_name(sheet: &Path) -> Outcome<PathBuf> {
    if input::is_standard(sheet) {
        return Err(Stop::usage("a sheet from standard input has no name: --out RECORD says where its record goes"));
    }
    Ok(sheet.with_extension(EXTENSION))
}

/// Adds a try to a record of the same sheet, which must be in form from its first line to its last.
fn add(target: &Path, sheet: &[u8], workspace: &Workspace, mode: Mode, theta: &[f64], text: &str) -> Outcome<()> {
    let failed = |error: io::Error| Stop::file(target, error);
    let _lock = Lock::of(target)?;
    // What is judged is what is written again, with the try behind it.
    let mut bytes = Vec::new();
    input::open(target).and_then(|mut file| file.read_to_end(&mut bytes)).map_err(failed)?;
    check(target, &bytes, sheet, workspace, mode, theta)?;
    bytes.extend_from_slice(text.as_bytes());
    writing::replace(target, &bytes, true)
}

/// The record is in form, of this sheet, and does not have this try.
fn check(target: &Path, record: &[u8], sheet: &[u8], workspace: &Workspace, mode: Mode, theta: &[f64]) -> Outcome<()> {
    let damaged = |fault| Stop::damaged(target, fault);
    let (mut reader, filed) = Reader::open(record).map_err(damaged)?;
    if filed != sheet {
        return Err(Stop::file(target, "it is the record of another sheet; nothing was added"));
    }
    let words = |theta: &[f64]| theta.iter().map(|number| number.to_bits()).collect::<Vec<u64>>();
    while let Some(earlier) = reader.next_try().map_err(damaged)? {
        if earlier.mode == mode && words(&earlier.theta) == words(theta) {
            return Err(Stop::line(target, earlier.line, "this try is filed here already; nothing was added"));
        }
        reader.answer(workspace.fixed_effects(), workspace.random_rows(), |_, _| {}).map_err(damaged)?;
    }
    Ok(())
}
