//! `husk solve --thetas`: one try after another, as a table, and for one theta as a curve.

use std::path::{Path, PathBuf};

use huskcanyon::{Mode, Workspace};

use crate::output::Output;
use crate::stop::{Outcome, Stop};
use crate::svg::{self, Point};
use crate::tries::{self, Answer};
use crate::{input, lines, writing, Status};

/// A longer file of thetas is refused.
const LONGEST: u64 = 1 << 28;

/// Tries every line of the file; the table goes to standard output, and the curve to `svg`.
pub fn run(mut workspace: Workspace, mode: Mode, thetas: &Path, svg: Option<PathBuf>, sheet: &Path) -> Outcome<Status> {
    let wanted = workspace.theta_length();
    if svg.is_some() && wanted != 1 {
        return Err(Stop::usage(format!("--svg draws a curve over one theta, and this sheet has {wanted}")));
    }
    let list = read(thetas, &workspace)?;
    let mut out = Output::new();
    let mut header: Vec<String> = (0..wanted).flat_map(|i| [format!("theta_{i}"), format!("theta_{i}_word")]).collect();
    header.extend(["deviance".to_string(), "deviance_word".to_string()]);
    out.line(&header.iter().map(String::as_str).collect::<Vec<_>>())?;
    let (mut points, mut without) = (Vec::new(), 0);
    for theta in &list {
        let answer = tries::work_out(&mut workspace, theta, mode);
        let mut fields: Vec<String> = theta.iter().flat_map(|&number| [lines::decimal(number), format!("{:016x}", number.to_bits())]).collect();
        match &answer {
            Answer::Solved(solution) => {
                fields.extend([lines::decimal(solution.deviance), lines::word(solution.deviance)]);
                points.push(Point { theta: theta[0], deviance: solution.deviance });
            }
            // The answer's own line stands in the place of the word.
            other => {
                without += 1;
                fields.extend(["NA".to_string(), other.text().trim_end().replace('\t', " ")]);
            }
        }
        out.line(&fields.iter().map(String::as_str).collect::<Vec<_>>())?;
    }
    out.end()?;
    if let Some(path) = svg {
        points.retain(|point| point.theta.is_finite() && point.deviance.is_finite());
        if points.is_empty() {
            return Err(Stop::file(&path, "nothing to draw: no theta has a finite deviance"));
        }
        let name = if mode == Mode::Ml { "ML" } else { "REML" };
        writing::beside(&path, &svg::curve(&points, name, &input::name(sheet)), &[sheet, thetas])?;
    }
    if without > 0 {
        return Err(Stop::refused(sheet, format!("{} of {} without a deviance", without, lines::counted(list.len() as u64, "theta"))));
    }
    Ok(0)
}

/// A theta on each line, its numbers parted by blanks or tabs; what follows a `#`, and empty lines, are passed over.
fn read(path: &Path, workspace: &Workspace) -> Outcome<Vec<Vec<f64>>> {
    let bytes = input::bytes(path, LONGEST)?;
    if bytes.len() as u64 > LONGEST {
        return Err(Stop::file(path, format!("it is longer than {LONGEST} bytes")));
    }
    let text = String::from_utf8(bytes).map_err(|_| Stop::file(path, "it is not UTF-8 text"))?;
    let text = text.strip_prefix('\u{feff}').unwrap_or(&text);
    let mut thetas = Vec::new();
    for (index, line) in text.lines().enumerate() {
        let line_number = index as u64 + 1;
        let numbers: Vec<&str> = line.split('#').next().unwrap_or("").split_whitespace().collect();
        if numbers.is_empty() {
            continue;
        }
        let theta: Option<Vec<f64>> = numbers.iter().map(|number| lines::theta(number)).collect();
        let theta = theta.ok_or_else(|| Stop::line(path, line_number, "a theta is a number, or a word of 16 lower-case hexadecimal digits"))?;
        tries::check_length(theta.len(), workspace).map_err(|why| Stop::line(path, line_number, why))?;
        thetas.push(theta);
    }
    if thetas.is_empty() {
        return Err(Stop::file(path, "there is no theta in it"));
    }
    Ok(thetas)
}
