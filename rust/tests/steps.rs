//! Steps in any order: the bits are those of the Rust's order, and `ready_steps` names exactly the steps that `step` does not refuse.

mod common;

use common::{example, rust_order, words, words_but_pivots, Random, Readings, DATA_SETS};
use huskcanyon::{Mode, Refusal, Step, Workspace};

/// Sheets of one to four blocks, in each form that blocks are stored in: the examples, three and four crossed blocks in a sequence that is not that of their
/// sizes, and a nested pair whose block 1 is a diagonal.
fn sheets() -> Vec<String> {
    let mut random = Random(20_261_117);
    let mut all: Vec<String> = DATA_SETS.iter().map(|name| example(&format!("{name}/sheet.txt"))).collect();
    all.push(Readings::random(&[4, 9, 6], 2, 60, false, &mut random).sheet());
    all.push(Readings::random(&[3, 5, 5, 2], 3, 60, false, &mut random).sheet());
    all.push(Readings::random(&[40, 7], 2, 90, true, &mut random).sheet());
    all
}

fn theta(workspace: &Workspace, random: &mut Random) -> Vec<f64> {
    (0..workspace.theta_length()).map(|_| random.below(4000) as f64 / 1000.0 - 1.0).collect()
}

/// All steps, each time one of the ready ones.
fn in_random_order(workspace: &mut Workspace, random: &mut Random) -> Vec<Step> {
    let mut order = Vec::new();
    loop {
        let ready = workspace.ready_steps();
        if ready.is_empty() {
            assert_eq!(workspace.steps_left(), 0, "no step is ready after {order:?}");
            return order;
        }
        let step = ready[random.below(ready.len())];
        workspace.step(step).unwrap();
        order.push(step);
    }
}

fn in_rust_order(sheet: &str, theta: &[f64]) -> Workspace {
    let mut workspace = Workspace::load(sheet.as_bytes()).unwrap();
    workspace.begin(theta).unwrap();
    for step in rust_order(workspace.blocks() as u64) {
        workspace.step(step).unwrap();
    }
    workspace
}

#[test]
fn any_order_gives_the_bits_of_the_rusts_order() {
    let mut random = Random(1);
    for sheet in sheets() {
        let mut workspace = Workspace::load(sheet.as_bytes()).unwrap();
        let mut orders = std::collections::HashSet::new();
        for _ in 0..20 {
            let theta = theta(&workspace, &mut random);
            workspace.begin(&theta).unwrap();
            let order = in_random_order(&mut workspace, &mut random);
            assert_eq!(order.len(), rust_order(workspace.blocks() as u64).len());
            assert_eq!(words(&workspace), words(&in_rust_order(&sheet, &theta)), "{order:?}");
            orders.insert(order);
        }
        assert!(workspace.blocks() == 1 || orders.len() > 1);
    }
}

#[test]
fn the_steps_one_by_one_are_profile_deviance() {
    let mut random = Random(2);
    for sheet in sheets() {
        let mut workspace = Workspace::load(sheet.as_bytes()).unwrap();
        let theta = theta(&workspace, &mut random);
        let by_steps = in_rust_order(&sheet, &theta);
        for mode in common::MODES {
            assert_eq!(workspace.profile_deviance(&theta, mode), by_steps.deviance(mode));
            assert_eq!(words(&workspace), words(&by_steps));
        }
    }
}

/// An update that is given up or refused leaves no trace in the next one.
#[test]
fn what_was_given_up_before_does_not_matter() {
    let mut random = Random(3);
    for sheet in sheets() {
        let mut workspace = Workspace::load(sheet.as_bytes()).unwrap();
        let last = theta(&workspace, &mut random);
        for _ in 0..10 {
            let abandoned = theta(&workspace, &mut random);
            workspace.begin(&abandoned).unwrap();
            for _ in 0..random.below(5) {
                let step = *workspace.ready_steps().last().unwrap();
                workspace.step(step).unwrap();
                workspace.step(step).unwrap_err();
                if workspace.ready_steps().is_empty() {
                    break;
                }
            }
            workspace.begin(&[]).unwrap_err();
        }
        workspace.begin(&last).unwrap();
        in_random_order(&mut workspace, &mut random);
        assert_eq!(words(&workspace), words(&in_rust_order(&sheet, &last)));
    }
}

/// Doing the first of the ready steps is the Rust's order.
#[test]
fn the_first_ready_step_is_the_rusts_next() {
    for sheet in sheets() {
        let mut workspace = Workspace::load(sheet.as_bytes()).unwrap();
        workspace.begin(&vec![1.0; workspace.blocks()]).unwrap();
        for step in rust_order(workspace.blocks() as u64) {
            assert_eq!(workspace.ready_steps()[0], step);
            workspace.step(step).unwrap();
        }
        assert_eq!(workspace.ready_steps(), []);
    }
}

/// All names with indexes up to one beyond the last block, and some far beyond.
fn names(k: u64) -> Vec<Step> {
    let indexes: Vec<u64> = (0..=k + 1).chain([u64::from(u32::MAX) + 1, u64::MAX]).collect();
    let mut names = Vec::new();
    for &i in &indexes {
        names.push(Step::C(i));
        for &j in &indexes {
            names.push(Step::T(i, j));
            names.extend(indexes.iter().map(|&h| Step::S(i, j, h)));
        }
    }
    names
}

/// What document 01 says of a step, by the steps that were done: 21, 23, 24, or ready.
fn verdict(step: Step, all: &[Step], done: &[Step]) -> u64 {
    let after = match step {
        Step::S(i, j, 0) => vec![Step::T(i, 0), Step::T(j, 0)],
        Step::S(i, j, h) => vec![Step::S(i, j, h - 1), Step::T(i, h), Step::T(j, h)],
        Step::C(0) => vec![],
        Step::C(j) => vec![Step::S(j, j, j - 1)],
        Step::T(_, 0) => vec![Step::C(0)],
        Step::T(i, j) => vec![Step::C(j), Step::S(i, j, j - 1)],
    };
    match step {
        step if !all.contains(&step) => 21,
        step if done.contains(&step) => 23,
        _ if !after.iter().all(|forerunner| done.contains(forerunner)) => 24,
        _ => 0,
    }
}

#[test]
fn ready_steps_are_those_that_step_accepts() {
    let mut random = Random(4);
    for sheet in sheets() {
        let mut workspace = Workspace::load(sheet.as_bytes()).unwrap();
        let k = workspace.blocks() as u64;
        let (names, all) = (names(k), rust_order(k));
        for &step in &names {
            assert_eq!(workspace.step(step).unwrap_err().number, 22, "{step:?}");
        }
        let theta = theta(&workspace, &mut random);
        workspace.begin(&theta).unwrap();
        let mut done = Vec::new();
        loop {
            let ready = workspace.ready_steps();
            assert_eq!(workspace.steps_left() as usize, all.len() - done.len());
            if ready.is_empty() {
                break;
            }
            for &step in &names {
                let answer = workspace.clone().step(step).map_or_else(|refusal| refusal.number, |()| 0);
                assert_eq!(answer, verdict(step, &all, &done), "{step:?} after {done:?}");
                assert_eq!(answer == 0, ready.contains(&step), "{step:?} after {done:?}");
            }
            let step = ready[random.below(ready.len())];
            workspace.step(step).unwrap();
            done.push(step);
        }
        assert_eq!(done.len(), all.len());
        for &step in &names {
            assert_eq!(workspace.step(step).unwrap_err().number, 22, "{step:?}");
        }
    }
}

/// Document 01: K + K(K-1)/2 + (K-1)K(K+1)/6 steps, K being one more than the blocks; with none under way all are left.
#[test]
fn so_many_steps_are_left() {
    for sheet in sheets() {
        let mut workspace = Workspace::load(sheet.as_bytes()).unwrap();
        let blocks = workspace.blocks() as u64 + 1;
        let all = blocks + blocks * (blocks - 1) / 2 + (blocks - 1) * blocks * (blocks + 1) / 6;
        assert_eq!(workspace.steps_left(), all);
        workspace.begin(&vec![1.0; workspace.blocks()]).unwrap();
        assert_eq!(workspace.steps_left(), all);
        workspace.step(Step::C(0)).unwrap();
        assert_eq!(workspace.steps_left(), all - 1);
        in_random_order(&mut workspace, &mut Random(5));
        assert_eq!(workspace.steps_left(), 0);
    }
}

/// A ready step may be refused for its pivot, with 26 and its place, in any order the same: then none is under way.
#[test]
fn a_refused_pivot_is_refused_in_any_order() {
    let mut random = Random(6);
    // Three blocks; xx(0, 0) is made too small for what the random rows take from it.
    let sheet = Readings::random(&[4, 6, 3], 2, 50, false, &mut random).sheet();
    let place = sheet.find("xx\t0\t0\t").unwrap() + 7;
    let sheet = format!("{}{:016x}{}", &sheet[..place], 1e-3f64.to_bits(), &sheet[place + 16..]);
    let mut workspace = Workspace::load(sheet.as_bytes()).unwrap();
    for _ in 0..20 {
        let theta = [1.0, 0.5, 2.0];
        workspace.begin(&theta).unwrap();
        let refusal: Refusal = loop {
            let ready = workspace.ready_steps();
            if let Err(refusal) = workspace.step(ready[random.below(ready.len())]) {
                break refusal;
            }
        };
        assert_eq!((refusal.number, refusal.places()), (26, [3, 0]));
        assert_eq!((workspace.ready_steps(), workspace.steps_left()), (vec![], 20));
        let answer = workspace.profile_deviance(&theta, Mode::Ml).unwrap();
        assert_eq!(answer, huskcanyon::Deviance::Pivot { block: 3, row: 0 });
    }
}

/// The pair 3 x 33,334 with one entry a column, which is stored sparse (document 01's worked cases). Each look at a pivot tests all rows of the pair, so
/// only some are looked at.
#[test]
fn a_sparse_pair_in_any_order() {
    let mut random = Random(7);
    let sheet = Readings::random(&[33_334, 3], 1, 40_000, true, &mut random).sheet();
    let theta = [0.75, 1.25];
    let seen = |workspace: &Workspace| {
        let places = [(0, 0), (0, 33_333), (1, 0), (1, 2), (2, 0), (2, 1), (0, 33_334), (1, 3), (2, 2), (3, 0)];
        let pivots = places.map(|(block, row)| workspace.pivot(block, row).unwrap().map(f64::to_bits));
        assert_eq!(pivots.map(|pivot| pivot.is_some()), [true, true, true, true, true, true, false, false, false, false]);
        (pivots, words_but_pivots(workspace))
    };
    let expected = seen(&in_rust_order(&sheet, &theta));
    let mut workspace = Workspace::load(sheet.as_bytes()).unwrap();
    for _ in 0..5 {
        workspace.begin(&theta).unwrap();
        in_random_order(&mut workspace, &mut random);
        assert_eq!(seen(&workspace), expected);
    }
}
