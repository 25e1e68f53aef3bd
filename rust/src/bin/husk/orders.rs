//! `husk orders`: random orders of the steps, with abandoned and refused ones between, held to the Rust's order word by word. That no order changes a word
//! is proved of the source; this tries it on the machine at hand.

use std::ffi::OsString;

use huskcanyon::{Mode, Refusal, Solution, Step, Workspace};

use crate::lines::counted;
use crate::options::Options;
use crate::output::Output;
use crate::stop::{Outcome, Stop, REFUSED};
use crate::{input, lines, tries, Status};

const COUNT: u64 = 100;
const SEED: u64 = 1;

/// Runs the command.
pub fn run(arguments: Vec<OsString>) -> Outcome<Status> {
    let mut options = Options::parse(arguments, &[], &["--count", "--seed"])?;
    let path = options.take_path("SHEET")?;
    let count = options.number("--count", 1)?.unwrap_or(COUNT);
    let seed = options.number("--seed", 0)?.unwrap_or(SEED);
    let (_, fresh) = input::load(&path)?;
    let theta = tries::theta(&options.rest, &fresh)?;
    let refused = |refusal: Refusal| Stop::refused(&path, refusal);
    let expected = in_rust_order(fresh.clone(), &theta).map_err(refused)?;
    let mut random = Random(seed);
    let mut tally = Tally::default();
    let mut workspace = fresh;
    let mut out = Output::new();
    for order in 1..=count {
        abandon(&mut workspace, &mut random, &mut tally).map_err(refused)?;
        let mut steps = Vec::new();
        let came = in_random_order(&mut workspace, &theta, &mut random, &mut tally, &mut steps).map_err(refused)?;
        let found = tally.accepted.take().map(|call| format!("{call} was accepted, which must be refused"));
        if let Some(difference) = found.or_else(|| difference(&expected, &came)) {
            let names: Vec<String> = steps.iter().map(|step| name(*step)).collect();
            out.line(&["order", &order.to_string(), &difference])?;
            out.line(&["steps", &names.join(" ")])?;
            out.end()?;
            return Ok(REFUSED);
        }
    }
    let words = expected.count();
    let what = match &expected.refused {
        None => format!("{words} words each, all the same as in the Rust's order"),
        Some(refusal) => format!("{words} words each, all the same as in the Rust's order, each refused: {refusal}"),
    };
    out.text(format!("{} from seed {seed}: {what}\n", counted(count, "order")))?;
    let (steps, updates, calls) = (counted(tally.steps, "step"), counted(tally.abandoned, "update"), counted(tally.refused, "call"));
    out.text(format!("{steps} done, {updates} abandoned, {calls} refused on the way\n"))?;
    out.end()?;
    Ok(0)
}

/// What came of an update: the refused pivot, if there was one; the workspace's memory, whose doubles hold loaded numbers, theta, factor and logarithms'
/// sum; and what is made of a finished factor, by names.
struct End {
    refused: Option<Refusal>,
    memory: Workspace,
    made: Vec<(String, u64)>,
}

impl End {
    fn count(&self) -> usize {
        self.memory.heading().len() + self.memory.doubles().len() + self.made.len()
    }
}

#[derive(Default)]
struct Tally {
    steps: u64,
    abandoned: u64,
    refused: u64,
    /// A call that should have been refused.
    accepted: Option<String>,
}

/// Splitmix64: every seed is a good one.
struct Random(u64);

impl Random {
    fn below(&mut self, bound: usize) -> usize {
        self.0 = self.0.wrapping_add(0x9e37_79b9_7f4a_7c15);
        let mut x = self.0;
        x = (x ^ (x >> 30)).wrapping_mul(0xbf58_476d_1ce4_e5b9);
        x = (x ^ (x >> 27)).wrapping_mul(0x94d0_49bb_1331_11eb);
        ((x ^ (x >> 31)) % bound as u64) as usize
    }
}

/// Document 01's order of the published Rust: j = 0 to k: all S(j,j,h), C(j), then per i > j all S(i,j,h), T(i,j).
fn rust_order(k: u64) -> Vec<Step> {
    let mut steps = Vec::new();
    for j in 0..=k {
        steps.extend((0..j).map(|h| Step::S(j, j, h)));
        steps.push(Step::C(j));
        for i in j + 1..=k {
            steps.extend((0..j).map(|h| Step::S(i, j, h)));
            steps.push(Step::T(i, j));
        }
    }
    steps
}

fn in_rust_order(mut workspace: Workspace, theta: &[f64]) -> Result<End, Refusal> {
    workspace.begin(theta)?;
    for step in rust_order(workspace.blocks() as u64) {
        match workspace.step(step) {
            Ok(()) => {}
            Err(refusal) if refusal.number == PIVOT => return ended(&workspace, Some(refusal)),
            Err(refusal) => return Err(refusal),
        }
    }
    ended(&workspace, None)
}

/// The refusal that a ready step may meet; every other one ends the run.
const PIVOT: u64 = 26;

/// One of the ready steps after another, with calls between that must be refused.
fn in_random_order(workspace: &mut Workspace, theta: &[f64], random: &mut Random, tally: &mut Tally, steps: &mut Vec<Step>) -> Result<End, Refusal> {
    workspace.begin(theta)?;
    loop {
        let ready = workspace.ready_steps();
        if ready.is_empty() {
            return ended(workspace, None);
        }
        if random.below(3) == 0 {
            try_refused(workspace, &ready, random, tally);
        }
        let step = ready[random.below(ready.len())];
        steps.push(step);
        match workspace.step(step) {
            Ok(()) => tally.steps += 1,
            Err(refusal) if refusal.number == PIVOT => return ended(workspace, Some(refusal)),
            Err(refusal) => return Err(refusal),
        }
    }
}

/// Begins at some other theta, does a few steps and leaves it at that.
fn abandon(workspace: &mut Workspace, random: &mut Random, tally: &mut Tally) -> Result<(), Refusal> {
    for _ in 0..random.below(3) {
        let other: Vec<f64> = (0..workspace.theta_length()).map(|_| random.below(4000) as f64 / 1000.0 - 1.0).collect();
        workspace.begin(&other)?;
        tally.abandoned += 1;
        for _ in 0..random.below(workspace.steps_left() as usize + 1) {
            let ready = workspace.ready_steps();
            if ready.is_empty() {
                break;
            }
            match workspace.step(ready[random.below(ready.len())]) {
                Ok(()) => tally.steps += 1,
                Err(refusal) if refusal.number == PIVOT => tally.refused += 1,
                Err(refusal) => return Err(refusal),
            }
        }
    }
    Ok(())
}

/// A call that must be refused and leave the update as it is: a step that is not ready, or done, or none; a theta or response that does not fit.
fn try_refused(workspace: &mut Workspace, ready: &[Step], random: &mut Random, tally: &mut Tally) {
    let last = workspace.blocks() + 2;
    let mut index = || random.below(last) as u64;
    let step = match index() % 3 {
        0 => Step::S(index(), index(), index()),
        1 => Step::C(index()),
        _ => Step::T(index(), index()),
    };
    let (call, answer) = match random.below(4) {
        0 => ("begin without a theta".to_string(), workspace.begin(&[])),
        1 => ("an empty response".to_string(), workspace.replace_response(&[], &[], &[])),
        _ if ready.contains(&step) => return,
        _ => (name(step), workspace.step(step)),
    };
    match answer {
        Err(_) => tally.refused += 1,
        Ok(()) => tally.accepted = Some(call),
    }
}

/// What an update left and, of a finished factor, log determinant and in both modes deviance and solution.
fn ended(workspace: &Workspace, refused: Option<Refusal>) -> Result<End, Refusal> {
    let made = if refused.is_none() { made(workspace)? } else { Vec::new() };
    Ok(End { refused, memory: workspace.clone(), made })
}

fn made(workspace: &Workspace) -> Result<Vec<(String, u64)>, Refusal> {
    let mut words = vec![("the log determinant".to_string(), bits(workspace.log_determinant()?))];
    for mode in [Mode::Ml, Mode::Reml] {
        let name = lines::mode(mode);
        words.push((format!("{name} deviance_from_factor"), bits(workspace.deviance(mode)?.rust_value())));
        match workspace.solve(mode) {
            Ok(solution) => solution_words(&solution, name, &mut words),
            // A pivot of the finish is an answer like any other.
            Err(refusal) if refusal.number == 27 => words.push((format!("{name} refusal 27, row"), refusal.first)),
            Err(refusal) => return Err(refusal),
        }
    }
    Ok(words)
}

/// A double's word, NaN being one value.
fn bits(x: f64) -> u64 {
    if x.is_nan() {
        f64::NAN.to_bits()
    } else {
        x.to_bits()
    }
}

fn solution_words(solution: &Solution, mode: &str, words: &mut Vec<(String, u64)>) {
    let mut part = |tag: &str, values: &[f64]| {
        words.extend(values.iter().enumerate().map(|(i, &value)| (format!("{mode} {tag} {i}"), bits(value))));
    };
    part("deviance", &[solution.deviance]);
    part("sigma2", &[solution.sigma2]);
    part("beta", &solution.beta);
    part("b", &solution.b);
    part("u", &solution.u);
    part("l_x", &solution.l_x);
    part("w_y", &solution.w_y);
    for (c, column) in solution.w_x.iter().enumerate() {
        part(&format!("w_x {c}"), column);
    }
}

/// The first thing that is not the same.
fn difference(expected: &End, came: &End) -> Option<String> {
    if expected.refused != came.refused {
        return Some(format!("{}, in the Rust's order {}", in_words(came), in_words(expected)));
    }
    let told = |name: &str, came: u64, expected: u64| format!("{name} is {came:016x}, in the Rust's order {expected:016x}");
    let heading = expected.memory.heading().iter().zip(came.memory.heading());
    let doubles = expected.memory.doubles().iter().zip(came.memory.doubles());
    if let Some((place, (a, b))) = heading.enumerate().find(|(_, (a, b))| a != b) {
        return Some(told(&format!("number {place} of the heading"), u64::from(*b), u64::from(*a)));
    }
    if let Some((place, (&a, &b))) = doubles.enumerate().find(|(_, (&a, &b))| bits(a) != bits(b)) {
        return Some(told(&format!("double {place} of the workspace"), bits(b), bits(a)));
    }
    let (a, b) = expected.made.iter().zip(&came.made).find(|(a, b)| a != b)?;
    Some(told(&b.0, b.1, a.1))
}

fn in_words(end: &End) -> String {
    end.refused.map_or_else(|| "the factor is finished".to_string(), |refusal| refusal.to_string())
}

fn name(step: Step) -> String {
    match step {
        Step::S(i, j, h) => format!("S({i},{j},{h})"),
        Step::C(j) => format!("C({j})"),
        Step::T(i, j) => format!("T({i},{j})"),
    }
}

#[cfg(test)]
mod tests {
    use super::*;
    use huskcanyon::WORKED_SHEET;

    fn worked(theta: f64) -> End {
        in_rust_order(Workspace::load(WORKED_SHEET).unwrap(), &[theta]).unwrap()
    }

    #[test]
    fn a_word_that_differs_is_named() {
        assert_eq!(difference(&worked(1.0), &worked(1.0)), None);
        // The first double that theta changes is theta itself, behind 6 loaded numbers: Z'Z, the fixed rows' 2, the last triangle's 3.
        let told = difference(&worked(1.0), &worked(2.0)).unwrap();
        assert_eq!(told, "double 6 of the workspace is 4000000000000000, in the Rust's order 3ff0000000000000");
        let mut altered = worked(1.0);
        altered.made[2].1 += 1;
        let told = difference(&worked(1.0), &altered).unwrap();
        assert!(told.starts_with("ml deviance 0 is 4") && told.contains(", in the Rust's order 4"), "{told}");
        let mut begun = worked(1.0);
        begun.memory.begin(&[1.0]).unwrap();
        let told = difference(&worked(1.0), &begun).unwrap();
        assert_eq!(told, "number 22 of the heading is 0000000000000001, in the Rust's order 0000000000000002");
    }

    #[test]
    fn a_refusal_that_differs_is_told() {
        let mut idle = Workspace::load(WORKED_SHEET).unwrap();
        let refused = idle.step(Step::C(0)).err();
        let told = difference(&worked(1.0), &End { refused, memory: idle, made: Vec::new() }).unwrap();
        assert_eq!(told, "refusal 22: no update is under way, in the Rust's order the factor is finished");
    }

    #[test]
    fn every_seed_is_a_good_one() {
        for seed in [0, 1, u64::MAX] {
            let mut random = Random(seed);
            let drawn: std::collections::HashSet<usize> = (0..100).map(|_| random.below(10)).collect();
            assert_eq!(drawn.len(), 10);
        }
    }
}
