//! `husk solve`: deviance and solution of a sheet at a theta, or the deviances at many.

use std::ffi::OsString;
use std::path::Path;

use huskcanyon::{Mode, Workspace};

use crate::options::Options;
use crate::output::Output;
use crate::stop::{Outcome, Stop, REFUSED};
use crate::tries::{self, Answer};
use crate::{input, lines, table, Status};

/// Runs the command.
pub fn run(arguments: Vec<OsString>) -> Outcome<Status> {
    let mut options = Options::parse(arguments, &["--reml", "--all"], &["--thetas", "--svg"])?;
    let path = options.take_path("SHEET")?;
    let mode = if options.has("--reml") { Mode::Reml } else { Mode::Ml };
    if let Some(thetas) = options.path("--thetas") {
        if options.has("--all") {
            return Err(Stop::usage("--all is for one theta; --thetas gives a table of deviances"));
        }
        if !options.rest.is_empty() {
            return Err(Stop::usage("theta stands either in the arguments or in the file of --thetas"));
        }
        if input::is_standard(&path) && input::is_standard(&thetas) {
            return Err(Stop::usage("sheet and thetas cannot both come from standard input"));
        }
        let (_, workspace) = input::load(&path)?;
        return table::run(workspace, mode, &thetas, options.target("--svg")?, &path);
    }
    if options.value("--svg").is_some() {
        return Err(Stop::usage("--svg draws the table of --thetas"));
    }
    let (_, mut workspace) = input::load(&path)?;
    let theta = tries::theta(&options.rest, &workspace)?;
    one(&path, &mut workspace, &theta, mode, options.has("--all"))
}

/// A try in a record's form, with a value before each word.
fn one(path: &Path, workspace: &mut Workspace, theta: &[f64], mode: Mode, all: bool) -> Outcome<Status> {
    let mut out = Output::new();
    out.line(&["try", lines::mode(mode)])?;
    for (index, &number) in theta.iter().enumerate() {
        // A theta that is NaN keeps its word: it is what was given.
        out.line(&["theta", &index.to_string(), &lines::decimal(number), &format!("{:016x}", number.to_bits())])?;
    }
    let answer = tries::work_out(workspace, theta, mode);
    let Answer::Solved(solution) = &answer else {
        out.text(answer.text())?;
        out.end()?;
        return Err(Stop::refused(path, answer.in_words().unwrap_or_default()));
    };
    let (p, q) = (workspace.fixed_effects(), workspace.random_rows());
    let shown = if all { answer.count() } else { 2 + p };
    for i in 0..shown {
        let (tag, index) = tries::label(i, p, q);
        valued(&mut out, tag, &index.into_iter().collect::<Vec<_>>(), tries::value(solution, i))?;
        if i == 1 {
            valued(&mut out, "logdet", &[], seen(workspace.log_determinant())?)?;
        }
    }
    if all {
        for (block, pivots) in seen(workspace.pivots())?.iter().enumerate() {
            for (row, &pivot) in pivots.iter().enumerate() {
                valued(&mut out, "pivot", &[block, row], pivot)?;
            }
        }
        // Record 6's, from the last pivot: the filed one comes from the solution's own residual sum, and may differ in the last bits.
        if let Some(value) = seen(workspace.deviance(mode))?.value() {
            valued(&mut out, "deviance_from_factor", &[], value)?;
        }
    }
    out.end()?;
    Ok(0)
}

/// What a finished factor always has.
fn seen<T>(answer: Result<T, huskcanyon::Refusal>) -> Outcome<T> {
    answer.map_err(|refusal| Stop { status: REFUSED, message: Some(refusal.to_string()) })
}

fn valued(out: &mut Output, tag: &str, indexes: &[usize], value: f64) -> Outcome<()> {
    let mut fields = vec![tag.to_string()];
    fields.extend(indexes.iter().map(|index| index.to_string()));
    fields.extend([lines::decimal(value), lines::word(value)]);
    out.line(&fields.iter().map(String::as_str).collect::<Vec<_>>())
}
