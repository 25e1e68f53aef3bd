//! Workspaces on several threads: the archive keeps nothing between calls, so none sees another.

mod common;

use std::thread;

use common::{example, words, Random, Readings, DATA_SETS};
use huskcanyon::{Mode, Step, Workspace};

fn is_send<T: Send>() {}

#[test]
fn a_workspace_and_a_refusal_may_be_sent() {
    is_send::<Workspace>();
    is_send::<huskcanyon::Refusal>();
    is_send::<huskcanyon::Solution>();
}

/// A hundred workspaces on eight threads: every thread goes round all of its own, one step of each at a time, so that calls on different workspaces fall
/// between each other everywhere.
#[test]
fn a_hundred_workspaces_at_once() {
    let mut random = Random(11);
    let mut sheets: Vec<String> = DATA_SETS.iter().map(|name| example(&format!("{name}/sheet.txt"))).collect();
    sheets.push(Readings::random(&[12, 30, 5], 2, 200, false, &mut random).sheet());
    let tasks: Vec<(&str, Vec<f64>)> = (0..100)
        .map(|task| {
            let sheet = sheets[task % sheets.len()].as_str();
            let blocks = Workspace::load(sheet.as_bytes()).unwrap().blocks();
            (sheet, (0..blocks).map(|_| random.below(300) as f64 / 100.0).collect())
        })
        .collect();
    let alone: Vec<Vec<u64>> = tasks
        .iter()
        .map(|(sheet, theta)| {
            let mut workspace = Workspace::load(sheet.as_bytes()).unwrap();
            workspace.profile_deviance(theta, Mode::Ml).unwrap();
            words(&workspace)
        })
        .collect();
    thread::scope(|scope| {
        for share in 0..8 {
            let (tasks, alone) = (&tasks, &alone);
            scope.spawn(move || {
                let own: Vec<usize> = (0..tasks.len()).filter(|task| task % 8 == share).collect();
                let mut workspaces: Vec<Workspace> = own.iter().map(|&task| Workspace::load(tasks[task].0.as_bytes()).unwrap()).collect();
                for (workspace, &task) in workspaces.iter_mut().zip(&own) {
                    workspace.begin(&tasks[task].1).unwrap();
                }
                // Until an update is finished some step is ready.
                while workspaces.iter().any(|workspace| workspace.steps_left() > 0) {
                    for workspace in workspaces.iter_mut().filter(|workspace| workspace.steps_left() > 0) {
                        let step = *workspace.ready_steps().last().expect("a ready step");
                        workspace.step(step).unwrap();
                    }
                }
                for (workspace, &task) in workspaces.iter().zip(&own) {
                    assert_eq!(words(workspace), alone[task], "task {task}");
                }
            });
        }
    });
}

/// An update is begun on one thread, gone on with on others and looked at on this one.
#[test]
fn an_update_goes_from_thread_to_thread() {
    let mut workspace = Workspace::load(example("penicillin/sheet.txt").as_bytes()).unwrap();
    let theta = [1.5, 3.2];
    let mut alone = workspace.clone();
    alone.profile_deviance(&theta, Mode::Ml).unwrap();
    workspace.begin(&theta).unwrap();
    while let Some(&step) = workspace.ready_steps().first() {
        workspace = thread::spawn(move || {
            workspace.step(step).unwrap();
            workspace
        })
        .join()
        .unwrap();
    }
    assert_eq!(words(&workspace), words(&alone));
}

/// A finished factor is read by many at once.
#[test]
fn one_factor_is_read_by_many() {
    let mut workspace = Workspace::load(example("pastes/sheet.txt").as_bytes()).unwrap();
    workspace.profile_deviance(&[3.5, 1.3], Mode::Reml).unwrap();
    let expected = words(&workspace);
    thread::scope(|scope| {
        for _ in 0..8 {
            scope.spawn(|| assert_eq!(words(&workspace), expected));
        }
    });
}

/// A clone is a workspace of its own.
#[test]
fn a_clone_goes_its_own_way() {
    let mut first = Workspace::load(huskcanyon::WORKED_SHEET).unwrap();
    first.begin(&[1.0]).unwrap();
    let mut second = first.clone();
    second.step(Step::C(0)).unwrap();
    assert_eq!((first.steps_left(), second.steps_left()), (4, 3));
}
