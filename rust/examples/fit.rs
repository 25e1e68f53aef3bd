//! Fits a sheet: `cargo run --example fit -- ml ../examples/dyestuff/sheet.txt` (or reml). The optimiser is a simplex after Nelder and Mead over
//! `profile_deviance`; any other that asks for values alone will do in its place.

use std::error::Error;

use huskcanyon::{Mode, Refusal, Workspace};

/// The deviance as a number to be made small: a theta without one, or with NaN, is worse than any other.
fn cost(workspace: &mut Workspace, theta: &[f64], mode: Mode) -> Result<f64, Refusal> {
    if theta.iter().any(|number| !number.is_finite()) {
        return Ok(f64::INFINITY);
    }
    let deviance = workspace.profile_deviance(theta, mode)?;
    Ok(deviance.value().filter(|value| !value.is_nan()).unwrap_or(f64::INFINITY))
}

/// from + t (to - from)
fn along(from: &[f64], to: &[f64], t: f64) -> Vec<f64> {
    from.iter().zip(to).map(|(a, b)| a + t * (b - a)).collect()
}

/// The theta with the least deviance, from theta 1 on.
fn fit(workspace: &mut Workspace, mode: Mode) -> Result<Vec<f64>, Refusal> {
    let blocks = workspace.theta_length();
    let mut simplex = Vec::new();
    for corner in 0..=blocks {
        let theta: Vec<f64> = (0..blocks).map(|block| if block == corner { 1.5 } else { 1.0 }).collect();
        simplex.push((cost(workspace, &theta, mode)?, theta));
    }
    for _ in 0..2000 {
        simplex.sort_by(|a, b| a.0.total_cmp(&b.0));
        let best = simplex[0].1.clone();
        let (worst_cost, worst) = simplex[blocks].clone();
        if simplex.iter().all(|(_, theta)| theta.iter().zip(&best).all(|(a, b)| (a - b).abs() < 1e-9)) {
            break;
        }
        // From the worst corner towards the middle of the others and beyond; the best of four points there takes its place.
        let middle: Vec<f64> = (0..blocks).map(|i| simplex[..blocks].iter().map(|(_, theta)| theta[i]).sum::<f64>() / blocks as f64).collect();
        let mut found = (worst_cost, worst.clone());
        for t in [0.5, 1.5, 2.0, 3.0] {
            let theta = along(&worst, &middle, t);
            let value = cost(workspace, &theta, mode)?;
            if value < found.0 {
                found = (value, theta);
            }
        }
        if found.0 < worst_cost {
            simplex[blocks] = found;
            continue;
        }
        // None is better than the worst: all corners go half of the way to the best one.
        for (value, theta) in &mut simplex[1..] {
            *theta = along(&best, theta, 0.5);
            *value = cost(workspace, theta, mode)?;
        }
    }
    // The deviance is the same for theta and -theta.
    Ok(simplex[0].1.iter().map(|theta| theta.abs()).collect())
}

fn main() -> Result<(), Box<dyn Error>> {
    let arguments: Vec<String> = std::env::args().skip(1).collect();
    let (mode, path) = match &arguments[..] {
        [mode, path] if mode == "ml" => (Mode::Ml, path),
        [mode, path] if mode == "reml" => (Mode::Reml, path),
        _ => return Err("what is to be fitted? fit ml|reml SHEET".into()),
    };
    let mut workspace = Workspace::load(&std::fs::read(path)?)?;
    let theta = fit(&mut workspace, mode)?;
    let deviance = workspace.profile_deviance(&theta, mode)?;
    let solution = workspace.solve(mode)?;
    println!("theta {theta:?}\ndeviance {deviance:?}\nsigma {}\nbeta {:?}", solution.sigma2.sqrt(), solution.beta);
    Ok(())
}

#[cfg(test)]
mod tests {
    use super::*;

    fn numbers(field: &str) -> Vec<f64> {
        field.split(' ').skip(1).map(|number| number.parse().unwrap()).collect()
    }

    /// examples/optima.tsv: data set, mode, theta, criterion, sigma, beta, as lme4's own optimiser finds them.
    #[test]
    fn the_optima_are_those_of_lme4() {
        let examples = concat!(env!("CARGO_MANIFEST_DIR"), "/../examples");
        let optima = std::fs::read_to_string(format!("{examples}/optima.tsv")).unwrap();
        assert_eq!(optima.lines().count(), 8);
        for line in optima.lines() {
            let fields: Vec<&str> = line.split('\t').collect();
            let mode = if fields[1] == "ml" { Mode::Ml } else { Mode::Reml };
            let mut workspace = Workspace::load(&std::fs::read(format!("{examples}/{}/sheet.txt", fields[0])).unwrap()).unwrap();
            let theta = fit(&mut workspace, mode).unwrap();
            let deviance = cost(&mut workspace, &theta, mode).unwrap();
            let solution = workspace.solve(mode).unwrap();
            let near = |a: f64, b: f64, by: f64| assert!((a - b).abs() <= by * b.abs().max(1.0), "{line}: {a}");
            near(deviance, numbers(fields[3])[0], 1e-9);
            near(solution.sigma2.sqrt(), numbers(fields[4])[0], 1e-4);
            assert_eq!((theta.len(), solution.beta.len()), (numbers(fields[2]).len(), numbers(fields[5]).len()), "{line}");
            theta.iter().zip(numbers(fields[2])).for_each(|(&a, b)| near(a, b, 1e-4));
            solution.beta.iter().zip(numbers(fields[5])).for_each(|(&a, b)| near(a, b, 1e-9));
        }
    }

    /// The published optima of Dyestuff.
    #[test]
    fn dyestuff_is_the_published_one() {
        let sheet = std::fs::read(concat!(env!("CARGO_MANIFEST_DIR"), "/../examples/dyestuff/sheet.txt")).unwrap();
        let mut workspace = Workspace::load(&sheet).unwrap();
        for (mode, published) in [(Mode::Ml, "327.3271"), (Mode::Reml, "319.6543")] {
            let theta = fit(&mut workspace, mode).unwrap();
            assert_eq!(format!("{:.4}", cost(&mut workspace, &theta, mode).unwrap()), published);
        }
    }
}
