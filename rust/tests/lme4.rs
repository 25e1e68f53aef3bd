//! The solver against lme4's answers on four published data sets (examples/README.md), within 1e-9 of each value or of 1, whichever is larger.

mod common;

use std::collections::{HashMap, HashSet};

use common::{example, DATA_SETS};
use huskcanyon::{Mode, Workspace};

/// Lines of name, indexes, word and, in answers, the value that the word is.
fn words(text: &str, behind: usize) -> HashMap<String, f64> {
    let mut values = HashMap::new();
    for line in text.lines() {
        let fields: Vec<&str> = line.split('\t').collect();
        if fields[0] == "label" {
            continue;
        }
        let (name, rest) = fields.split_at(fields.len() - 1 - behind);
        let word = u64::from_str_radix(rest[0], 16).unwrap_or_else(|_| panic!("no word in {line:?}"));
        values.insert(name.join(" "), f64::from_bits(word));
    }
    values
}

struct Answers {
    place: String,
    values: HashMap<String, f64>,
    compared: HashSet<String>,
}

impl Answers {
    fn hold(&mut self, name: &str, value: f64) {
        let expected = self.values[name];
        let distance = (value - expected).abs();
        assert!(distance <= 1e-9 * expected.abs().max(1.0), "{}: {name} is {value}, lme4 has {expected}", self.place);
        self.compared.insert(name.to_string());
    }

    fn hold_all(&mut self, name: &str, values: &[f64]) {
        let expected = self.values.keys().filter(|key| key.starts_with(&format!("{name} "))).count();
        assert_eq!(values.len(), expected, "{}: {name}", self.place);
        for (index, &value) in values.iter().enumerate() {
            self.hold(&format!("{name} {index}"), value);
        }
    }
}

fn compare(name: &str, thetas: usize) {
    let mut workspace = Workspace::load(example(&format!("{name}/sheet.txt")).as_bytes()).unwrap();
    for index in 1..=thetas {
        let given = words(&example(&format!("{name}/theta-{index}.txt")), 0);
        let theta: Vec<f64> = (0..workspace.theta_length()).map(|block| given[&format!("theta {block}")]).collect();
        let place = format!("{name} at theta {index}");
        let mut answers = Answers { place, values: words(&example(&format!("{name}/answer-{index}.txt")), 1), compared: HashSet::new() };

        let ml = workspace.profile_deviance(&theta, Mode::Ml).unwrap();
        answers.hold("deviance_ml", ml.value().unwrap());
        assert_eq!(workspace.deviance(Mode::Ml), Ok(ml));
        let reml = workspace.profile_deviance(&theta, Mode::Reml).unwrap();
        answers.hold("criterion_reml", reml.value().unwrap());
        assert_eq!(workspace.deviance(Mode::Reml), Ok(reml));
        answers.hold("logdet", workspace.log_determinant().unwrap());

        let pivots = workspace.pivots().unwrap();
        let (last, fixed) = pivots.last().unwrap().split_last().unwrap();
        answers.hold("pwrss", last * last);
        answers.hold("logdet_rx", 2.0 * fixed.iter().map(|pivot| pivot.ln()).sum::<f64>());

        for (mode, criterion, sigma2) in [(Mode::Ml, "deviance_ml", "sigma2_ml"), (Mode::Reml, "criterion_reml", "sigma2_reml")] {
            let solution = workspace.solve(mode).unwrap();
            answers.hold(criterion, solution.deviance);
            answers.hold(sigma2, solution.sigma2);
            answers.hold_all("beta", &solution.beta);
            answers.hold_all("b", &solution.b);
            answers.hold_all("u", &solution.u);
            let p = workspace.fixed_effects();
            assert_eq!(solution.l_x.len(), p * (p + 1) / 2);
            for r in 0..p {
                for c in 0..=r {
                    answers.hold(&format!("lx {r} {c}"), solution.l_x[r * (r + 1) / 2 + c]);
                }
            }
            answers.hold_all("wy", &solution.w_y);
            assert_eq!(solution.w_x.len(), p);
            for (c, column) in solution.w_x.iter().enumerate() {
                answers.hold_all(&format!("wx {c}"), column);
            }
        }
        // Nothing is left out but theta and the two parts of pwrss, which the solver has no part of its own for.
        for name in answers.values.keys() {
            let left_out = name.starts_with("theta") || name == "wrss" || name == "ussq";
            assert!(left_out || answers.compared.contains(name), "{}: {name} was not compared", answers.place);
        }
    }
}

#[test]
fn dyestuff() {
    compare("dyestuff", 6);
}

#[test]
fn penicillin() {
    compare("penicillin", 8);
}

#[test]
fn pastes() {
    compare("pastes", 8);
}

#[test]
fn sleepstudy_with_an_intercept_for_each_subject() {
    compare("sleep-intercept", 6);
}

/// The sheets are those of the readings beside them: so many rows, and their sum of squares.
#[test]
fn sheets_are_of_the_data_beside_them() {
    for (name, column) in DATA_SETS.into_iter().zip(["Yield", "diameter", "strength", "Reaction"]) {
        let data = example(&format!("{name}/data.csv"));
        let mut lines = data.lines();
        let place = lines.next().unwrap().split(',').position(|field| field == column).unwrap();
        let readings: Vec<f64> = lines.map(|line| line.split(',').nth(place).unwrap().parse().unwrap()).collect();
        let sheet = example(&format!("{name}/sheet.txt"));
        assert_eq!(Workspace::load(sheet.as_bytes()).unwrap().readings(), readings.len());
        let word = sheet.lines().last().unwrap().strip_prefix("yy\t").unwrap();
        let yy = f64::from_bits(u64::from_str_radix(word, 16).unwrap());
        let sum: f64 = readings.iter().map(|y| y * y).sum();
        assert!((sum - yy).abs() <= 1e-12 * yy, "{name}: {sum} {yy}");
    }
}
