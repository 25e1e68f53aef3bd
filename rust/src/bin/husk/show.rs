//! `husk show`: what a sheet or a record holds.

use std::ffi::OsString;
use std::io::{BufRead, BufReader, Read};
use std::path::Path;

use huskcanyon::Workspace;

use crate::options::Options;
use crate::output::Output;
use crate::record::{self, Reader};
use crate::stop::{Outcome, Stop};
use crate::{input, lines, Status};

/// Runs the command.
pub fn run(arguments: Vec<OsString>) -> Outcome<Status> {
    let mut options = Options::parse(arguments, &[], &[])?;
    let path = options.take_path("SHEET or RECORD")?;
    options.nothing_else()?;
    let mut file = BufReader::new(input::reader(&path)?);
    let failed = |error| Stop::file(&path, error);
    let mut out = Output::new();
    // The first bytes say which of the two it is.
    if record::is_record(file.fill_buf().map_err(failed)?) {
        show_record(&path, file, &mut out)?;
    } else {
        let mut sheet = Vec::new();
        file.take(input::LONGEST_SHEET + 1).read_to_end(&mut sheet).map_err(failed)?;
        let workspace = Workspace::load(&sheet).map_err(|refusal| Stop::sheet(&path, &sheet, 1, refusal))?;
        out.line(&["sheet", &input::name(&path)])?;
        show_sheet(&path, &sheet, &workspace, &mut out)?;
    }
    out.end()?;
    Ok(0)
}

/// Sizes, layout and room.
fn show_sheet(path: &Path, sheet: &[u8], workspace: &Workspace, out: &mut Output) -> Outcome<()> {
    let number = |number: usize| number.to_string();
    out.line(&["sheet bytes", &number(sheet.len())])?;
    out.line(&["readings", &number(workspace.readings())])?;
    out.line(&["fixed effects", &number(workspace.fixed_effects())])?;
    out.line(&["random rows", &number(workspace.random_rows())])?;
    out.line(&["numbers of theta", &number(workspace.theta_length())])?;
    let blocks = workspace.sorted_blocks();
    for (sorted, block) in blocks.iter().enumerate() {
        let stored = if block.diagonal { "diagonal" } else { "packed triangle" };
        out.line(&["block", &number(sorted), &format!("{} levels", block.levels), stored, &format!("its theta: {}", block.sheet_index)])?;
    }
    for (i, smaller) in blocks.iter().enumerate() {
        for (j, larger) in blocks[..i].iter().enumerate() {
            let stored = if workspace.has_sparse_pair() { "sparse" } else { "dense" };
            out.line(&["pair", &number(i), &number(j), &format!("{} by {} cells", smaller.levels, larger.levels), stored])?;
        }
    }
    out.line(&["steps", &workspace.steps_left().to_string()])?;
    match Workspace::needs(sheet) {
        Ok(room) => out.line(&["room", &format!("{} doubles", room.doubles), &format!("{} numbers", room.numbers)]),
        Err(refusal) => Err(Stop::sheet(path, sheet, 1, refusal)),
    }
}

fn show_record(path: &Path, file: impl BufRead, out: &mut Output) -> Outcome<()> {
    let damaged = |fault| Stop::damaged(path, fault);
    let (mut reader, sheet) = Reader::open(file).map_err(damaged)?;
    let workspace = Workspace::load(&sheet).map_err(|refusal| Stop::sheet(path, &sheet, 2, refusal))?;
    out.line(&["record", &input::name(path), &format!("format {}", record::FORMAT), &format!("definitions {}", record::DEFINITIONS)])?;
    show_sheet(path, &sheet, &workspace, out)?;
    while let Some(filed) = reader.next_try().map_err(damaged)? {
        let mut first = String::new();
        let answer = reader.answer(workspace.fixed_effects(), workspace.random_rows(), |i, text| {
            if i == 0 {
                first = text.to_string();
            }
        });
        answer.map_err(damaged)?;
        let theta: Vec<String> = filed.theta.iter().map(|&number| lines::decimal(number)).collect();
        let came = match first.strip_prefix("deviance\t").and_then(lines::from_word) {
            Some(value) => format!("deviance {}", lines::decimal(value)),
            None => first.replace('\t', " "),
        };
        out.line(&["try", &format!("line {}", filed.line), lines::mode(filed.mode), &format!("theta {}", theta.join(" ")), &came])?;
    }
    Ok(())
}
