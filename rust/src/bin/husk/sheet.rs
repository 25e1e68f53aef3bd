//! `husk sheet`: a sheet of cross-products from a table of readings.

use std::ffi::OsString;
use std::path::Path;

use huskcanyon::Workspace;

use crate::options::Options;
use crate::output::Output;
use crate::readings::{self, Columns};
use crate::stop::{Outcome, Stop};
use crate::{input, writing, Status};

/// A longer table is refused.
const LONGEST_TABLE: u64 = 1 << 32;

/// Runs the command.
pub fn run(arguments: Vec<OsString>) -> Outcome<Status> {
    let mut options = Options::parse(arguments, &["--no-intercept"], &["--response", "--fixed", "--group", "--names"])?;
    let path = options.take_path("DATA.csv")?;
    options.nothing_else()?;
    let response = options.text("--response")?.ok_or_else(|| Stop::usage("--response is missing: the column that was measured"))?;
    let groups = options.text("--group")?.ok_or_else(|| Stop::usage("--group is missing: the columns whose levels have an offset each"))?;
    let columns = Columns {
        response,
        fixed: options.text("--fixed")?.map_or_else(Vec::new, |names| parted(&names)),
        groups: parted(&groups),
        intercept: !options.has("--no-intercept"),
    };
    readings::check(&columns).map_err(Stop::usage)?;
    let table = input::bytes(&path, LONGEST_TABLE)?;
    if table.len() as u64 > LONGEST_TABLE {
        return Err(Stop::file(&path, format!("it is longer than {LONGEST_TABLE} bytes")));
    }
    let made = readings::sheet_of(&table, &columns).map_err(|why| told(&path, &why))?;
    // A sheet that nobody could load is no use: why is told now.
    Workspace::load(&made.sheet).map_err(|refusal| Stop::refused(&path, format!("the sheet of these readings would be refused: {refusal}")))?;
    if let Some(names) = options.target("--names")? {
        writing::beside(&names, &made.names, &[&path])?;
    }
    let mut out = Output::new();
    out.text(&made.sheet)?;
    out.end()?;
    Ok(0)
}

/// What is wrong with a table, as a line of its file where there is one.
fn told(path: &Path, why: &str) -> Stop {
    let on_a_line = why.strip_prefix("line ").and_then(|rest| rest.split_once(": "));
    match on_a_line.and_then(|(line, rest)| line.parse().ok().map(|line: u64| (line, rest))) {
        Some((line, rest)) => Stop::line(path, line, rest),
        None => Stop::file(path, why),
    }
}

/// Names parted by commas.
fn parted(names: &str) -> Vec<String> {
    names.split(',').map(|name| name.to_string()).collect()
}
