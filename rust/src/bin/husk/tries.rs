//! A try: a theta and a mode, and what comes of them. It is the same wherever it is asked for: by `solve`, in a record, and when a record is verified.

use std::ffi::OsString;
use std::fmt::Write;

use huskcanyon::{Deviance, Mode, Refusal, Solution, Workspace};

use crate::lines;
use crate::stop::{Outcome, Stop};

/// What comes of a theta: `profile_deviance`, and where that has a value `solve_profile_blocked` (document 01, Records 6 and 7).
pub enum Answer {
    /// Record 7's solution. Its deviance is the one that is filed.
    Solved(Box<Solution>),
    /// Record 6's "no scale".
    NoScale,
    /// 13 or 14 because of theta; 26, a pivot of the factor; 27, a pivot of the finish.
    Refused(Refusal),
}

/// Works a try out.
pub fn work_out(workspace: &mut Workspace, theta: &[f64], mode: Mode) -> Answer {
    let deviance = match workspace.profile_deviance(theta, mode) {
        Ok(deviance) => deviance,
        Err(refusal) => return Answer::Refused(refusal),
    };
    match (deviance, deviance.refusal()) {
        (_, Some(refusal)) => Answer::Refused(refusal),
        (Deviance::NoScale, _) => Answer::NoScale,
        _ => workspace.solve(mode).map_or_else(Answer::Refused, |solution| Answer::Solved(Box::new(solution))),
    }
}

/// Which of the three an answer is.
#[derive(Clone, Copy, Debug, PartialEq, Eq)]
pub enum Kind {
    /// `deviance`, `sigma2`, `beta`, `b`, `u`.
    Solved,
    /// `noscale`.
    NoScale,
    /// `refused`, its number and places.
    Refused,
}

impl Kind {
    /// The kind of an answer whose first line has this tag.
    pub fn of_tag(tag: &str) -> Option<Kind> {
        match tag {
            "deviance" => Some(Kind::Solved),
            "noscale" => Some(Kind::NoScale),
            "refused" => Some(Kind::Refused),
            _ => None,
        }
    }

    /// How many lines an answer of this kind has, with p fixed effects and q random rows.
    pub fn lines(self, p: usize, q: usize) -> usize {
        match self {
            Kind::Solved => 2 + p + 2 * q,
            Kind::NoScale | Kind::Refused => 1,
        }
    }
}

/// What stands on a line of a solution's answer.
#[derive(Clone, Copy)]
enum Place {
    Deviance,
    Sigma2,
    Beta(usize),
    B(usize),
    U(usize),
}

/// What stands on line i, with p fixed effects and q random rows.
fn place(i: usize, p: usize, q: usize) -> Place {
    match i {
        0 => Place::Deviance,
        1 => Place::Sigma2,
        _ if i < 2 + p => Place::Beta(i - 2),
        _ if i < 2 + p + q => Place::B(i - 2 - p),
        _ => Place::U(i - 2 - p - q),
    }
}

/// The tag of line i of a solution's answer, and its index where it has one.
pub fn label(i: usize, p: usize, q: usize) -> (&'static str, Option<usize>) {
    match place(i, p, q) {
        Place::Deviance => ("deviance", None),
        Place::Sigma2 => ("sigma2", None),
        Place::Beta(c) => ("beta", Some(c)),
        Place::B(row) => ("b", Some(row)),
        Place::U(row) => ("u", Some(row)),
    }
}

/// The value on line i of a solution's answer.
pub fn value(solution: &Solution, i: usize) -> f64 {
    match place(i, solution.beta.len(), solution.b.len()) {
        Place::Deviance => solution.deviance,
        Place::Sigma2 => solution.sigma2,
        Place::Beta(c) => solution.beta[c],
        Place::B(row) => solution.b[row],
        Place::U(row) => solution.u[row],
    }
}

impl Answer {
    /// Which of the three it is.
    pub fn kind(&self) -> Kind {
        match self {
            Answer::Solved(_) => Kind::Solved,
            Answer::NoScale => Kind::NoScale,
            Answer::Refused(_) => Kind::Refused,
        }
    }

    /// How many lines it has.
    pub fn count(&self) -> usize {
        match self {
            Answer::Solved(solution) => self.kind().lines(solution.beta.len(), solution.b.len()),
            Answer::NoScale | Answer::Refused(_) => 1,
        }
    }

    /// Its line i, without the line's end, in the place of what `line` held.
    pub fn line(&self, i: usize, line: &mut String) {
        line.clear();
        match self {
            Answer::NoScale => line.push_str("noscale"),
            Answer::Refused(refusal) => line.push_str(&format!("refused\t{}\t{}\t{}", refusal.number, refusal.first, refusal.second)),
            Answer::Solved(solution) => {
                let (tag, index) = label(i, solution.beta.len(), solution.b.len());
                line.push_str(tag);
                line.push('\t');
                if let Some(index) = index {
                    // Writing to a string cannot fail.
                    let _ = write!(line, "{index}\t");
                }
                lines::push_word(line, value(solution, i));
            }
        }
    }

    /// All its lines, each with its end.
    pub fn text(&self) -> String {
        let (mut text, mut line) = (String::new(), String::new());
        for i in 0..self.count() {
            self.line(i, &mut line);
            text += &line;
            text.push('\n');
        }
        text
    }

    /// Why there is no solution, in words; `None` where there is one.
    pub fn in_words(&self) -> Option<String> {
        match self {
            Answer::Solved(_) => None,
            Answer::NoScale => Some("no scale: with so few readings this mode has no residual variance, whatever theta is".to_string()),
            Answer::Refused(refusal) => Some(refusal.to_string()),
        }
    }
}

/// The theta of a command's arguments: one number for each block, in sheet order.
pub fn theta(arguments: &[OsString], workspace: &Workspace) -> Outcome<Vec<f64>> {
    let mut theta = Vec::new();
    for argument in arguments {
        let number = argument.to_str().and_then(lines::theta);
        theta.push(number.ok_or_else(|| Stop::usage(format!("theta: {argument:?} is neither a number nor a word of 16 lower-case hexadecimal digits")))?);
    }
    check_length(theta.len(), workspace).map_err(Stop::usage)?;
    Ok(theta)
}

/// Theta has as many numbers as the sheet wants.
pub fn check_length(given: usize, workspace: &Workspace) -> Result<(), String> {
    let wanted = workspace.theta_length();
    if given == wanted {
        return Ok(());
    }
    Err(format!("theta has {given} number{}, and the sheet wants {wanted}, one for each block in sheet order", if given == 1 { "" } else { "s" }))
}
