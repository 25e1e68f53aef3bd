//! The profiled deviance and the solution: the published Rust solver's `profile_deviance` and `solve_profile_blocked`, and the proved ones, on the same
//! sheets. Each file is a sheet and its theta lines, and the file beside it holds the workspace that load leaves, which tools/sheet_list.py wrote. First
//! deviances and solutions, ML and REML, are compared, and within one part in 10^9 they must agree; the steps called one by one must leave what the one
//! call leaves, bit for bit. Then all are timed in turn, each run with a theta of its own, and the fastest of each is kept. The Rust's solution takes
//! theta and factors anew, so the proved one is timed with an update before it.
//! Built by bench/profile into a copy of the Rust original, where it is the main program.

// What the driver asks of the original and this program does not is left unused.
#[allow(dead_code, unused_imports)]
mod math;
#[allow(dead_code)]
mod model_matrix;
mod perf_diag;
mod sheet;

use std::hint::black_box;
use std::time::{Duration, Instant};

/// The calls of the crate capi (include/huskcanyon.h): a list is its first element and its length, and an answer its number, 0 where there is none.
mod husk {
    #[rustfmt::skip]
    #[link(name = "capi", kind = "static")]
    extern "C" {
        fn husk_begin(h: *mut u32, n: usize, w: *mut f64, d: usize, theta: *const f64, k: usize, answer: *mut u64, two: usize) -> u64;
        fn husk_step(h: *mut u32, n: usize, w: *mut f64, d: usize, kind: u64, i: u64, j: u64, x: u64, answer: *mut u64, two: usize) -> u64;
        fn husk_profile_deviance(h: *mut u32, n: usize, w: *mut f64, d: usize, theta: *const f64, k: usize, mode: u64, answer: *mut u64, five: usize) -> u64;
        fn husk_deviance_from_factor(h: *const u32, n: usize, w: *const f64, d: usize, mode: u64, answer: *mut u64, five: usize) -> u64;
        fn husk_solve_profile_blocked(h: *const u32, n: usize, w: *const f64, d: usize, mode: u64, out: *mut f64, r: usize, words: *mut u64, s: usize, answer: *mut u64, four: usize) -> u64;
    }

    // SAFETY, of all: pointers and lengths are those of slices that do not overlap, and no call requires more.

    pub fn begin(h: &mut [u32], w: &mut [f64], theta: &[f64]) -> u64 {
        let mut answer = [0; 2];
        unsafe { husk_begin(h.as_mut_ptr(), h.len(), w.as_mut_ptr(), w.len(), theta.as_ptr(), theta.len(), answer.as_mut_ptr(), 2) }
    }

    pub fn step(h: &mut [u32], w: &mut [f64], (kind, i, j, x): (u64, u64, u64, u64)) -> u64 {
        let mut answer = [0; 2];
        unsafe { husk_step(h.as_mut_ptr(), h.len(), w.as_mut_ptr(), w.len(), kind, i, j, x, answer.as_mut_ptr(), 2) }
    }

    /// Number and the Rust's value.
    pub fn profile_deviance(h: &mut [u32], w: &mut [f64], theta: &[f64], reml: bool) -> (u64, f64) {
        let mut answer = [0; 5];
        let number = unsafe {
            husk_profile_deviance(h.as_mut_ptr(), h.len(), w.as_mut_ptr(), w.len(), theta.as_ptr(), theta.len(), reml as u64, answer.as_mut_ptr(), 5)
        };
        (number, f64::from_bits(answer[4]))
    }

    pub fn deviance_from_factor(h: &[u32], w: &[f64], reml: bool) -> (u64, f64) {
        let mut answer = [0; 5];
        let number = unsafe { husk_deviance_from_factor(h.as_ptr(), h.len(), w.as_ptr(), w.len(), reml as u64, answer.as_mut_ptr(), 5) };
        (number, f64::from_bits(answer[4]))
    }

    /// Number, deviance and sigma2.
    pub fn solve_profile_blocked(h: &[u32], w: &[f64], reml: bool, out: &mut [f64], words: &mut [u64]) -> (u64, [f64; 2]) {
        let mut answer = [0; 4];
        #[rustfmt::skip]
        let number = unsafe {
            husk_solve_profile_blocked(
                h.as_ptr(), h.len(), w.as_ptr(), w.len(), reml as u64, out.as_mut_ptr(), out.len(), words.as_mut_ptr(), words.len(), answer.as_mut_ptr(), 4,
            )
        };
        (number, [f64::from_bits(answer[2]), f64::from_bits(answer[3])])
    }
}

/// The workspace that load leaves.
fn loaded(path: &str) -> (Vec<u32>, Vec<f64>) {
    let bytes = std::fs::read(path).expect("the file of the workspace");
    let count = |at: usize| u64::from_le_bytes(bytes[at..at + 8].try_into().unwrap()) as usize;
    let behind = 16 + 4 * count(0);
    let h = bytes[16..behind].chunks_exact(4).map(|b| u32::from_le_bytes(b.try_into().unwrap())).collect();
    let w = bytes[behind..].chunks_exact(8).map(|b| f64::from_bits(u64::from_le_bytes(b.try_into().unwrap()))).collect::<Vec<_>>();
    assert_eq!(w.len(), count(8));
    (h, w)
}

/// The Rust's order of steps: S is 0, C is 1, T is 2.
fn rust_order(k: u64) -> Vec<(u64, u64, u64, u64)> {
    let mut all = Vec::new();
    for j in 0..=k {
        all.extend((0..j).map(|x| (0, j, j, x)));
        all.push((1, j, 0, 0));
        for i in j + 1..=k {
            all.extend((0..j).map(|x| (0, i, j, x)));
            all.push((2, i, j, 0));
        }
    }
    all
}

fn by_steps(h: &mut [u32], w: &mut [f64], theta: &[f64], order: &[(u64, u64, u64, u64)], reml: bool) -> (u64, f64) {
    let mut number = husk::begin(h, w, theta);
    for &s in order {
        if number == 0 {
            number = husk::step(h, w, s);
        }
    }
    if number == 0 {
        return husk::deviance_from_factor(h, w, reml);
    }
    (number, f64::MAX)
}

fn fastest<T>(best: &mut Duration, run: impl FnOnce() -> T) {
    let start = Instant::now();
    black_box(run());
    *best = (*best).min(start.elapsed());
}

/// The Rust's result list in the port's sequence, and its two scalars.
fn rust_solution(solver: &mut math::Solver, theta: &[f64], reml: bool) -> (Vec<f64>, [f64; 2]) {
    let s = solver.solve(theta, reml).expect("a solution");
    let mut list = [&s.beta[..], &s.b, &s.u, &s.l_x, s.w_y].concat();
    for column in s.w_cols {
        list.extend(column);
    }
    (list, [s.deviance, s.sigma2])
}

fn close(a: f64, b: f64) -> bool {
    (a - b).abs() <= 1e-9 * b.abs().max(1.0)
}

fn main() {
    let seconds: f64 = std::env::var("SECONDS_EACH").ok().and_then(|s| s.parse().ok()).unwrap_or(2.0);
    let mut agree = true;
    println!(
        "{:<30} {:>9} {:>9} {:>6} {:>9} {:>7} {:>7} {:>7} | {:>9} {:>9} {:>6} {:>9}",
        "sheet", "Rust ms", "husk ms", "ratio", "steps ms", "begin %", "check %", "rest %", "Rust ms", "husk ms", "ratio", "alone ms"
    );
    for path in std::env::args().skip(1) {
        let text = std::fs::read(&path).expect("a sheet");
        let (lmm, theta) = sheet::read(&text);
        let mut solver = math::Solver::new(lmm).expect("a sheet that the gate passes");
        let (mut h, mut w) = loaded(&format!("{path}.loaded"));
        let order = rust_order(h[3] as u64);
        let mut same = true;
        let mut bits = true;
        let mut list_bits = true;
        let mut out = vec![0.0; rust_solution(&mut solver, &theta, false).0.len()];
        let mut words = vec![0; out.len()];
        for reml in [false, true] {
            let rust = solver.profile_deviance(&theta, reml);
            let (number, value) = husk::profile_deviance(&mut h, &mut w, &theta, reml);
            let one_call = (h.clone(), w.clone());
            same &= number == 0 && close(value, rust);
            bits &= value.to_bits() == rust.to_bits();
            let (number, again) = by_steps(&mut h, &mut w, &theta, &order, reml);
            same &= number == 0 && again.to_bits() == value.to_bits() && one_call.0 == h;
            same &= one_call.1.iter().zip(&w).all(|(x, y)| x.to_bits() == y.to_bits());
            let (list, scalars) = rust_solution(&mut solver, &theta, reml);
            let (number, own) = husk::solve_profile_blocked(&h, &w, reml, &mut out, &mut words);
            same &= out.iter().zip(&words).all(|(x, &b)| x.to_bits() == b);
            same &= number == 0 && own.iter().zip(&scalars).chain(out.iter().zip(&list)).all(|(&x, &y)| close(x, y));
            bits &= own[0].to_bits() == scalars[0].to_bits();
            list_bits &= own[1].to_bits() == scalars[1].to_bits() && out.iter().zip(&list).all(|(x, y)| x.to_bits() == y.to_bits());
        }
        let mut rust = Duration::MAX;
        let (mut whole, mut steps) = (Duration::MAX, Duration::MAX);
        let (mut begin, mut check, mut finish) = (Duration::MAX, Duration::MAX, Duration::MAX);
        let (mut rust_solve, mut solve, mut alone) = (Duration::MAX, Duration::MAX, Duration::MAX);
        let mut varied = theta.clone();
        let mut round = 0u32;
        let start = Instant::now();
        while start.elapsed().as_secs_f64() < seconds {
            round += 1;
            for (v, &t) in varied.iter_mut().zip(&theta) {
                *v = t * (1.0 + (round % 64) as f64 / 1_048_576.0);
            }
            fastest(&mut rust, || solver.profile_deviance(black_box(&varied), true));
            fastest(&mut whole, || husk::profile_deviance(&mut h, &mut w, black_box(&varied), true));
            fastest(&mut finish, || husk::deviance_from_factor(&h, &w, true));
            fastest(&mut rust_solve, || solver.solve(black_box(&varied), true).is_ok());
            fastest(&mut solve, || {
                husk::profile_deviance(&mut h, &mut w, black_box(&varied), true);
                husk::solve_profile_blocked(&h, &w, true, &mut out, &mut words)
            });
            fastest(&mut alone, || husk::solve_profile_blocked(&h, &w, true, &mut out, &mut words));
            fastest(&mut steps, || by_steps(&mut h, &mut w, black_box(&varied), &order, true));
            fastest(&mut begin, || husk::begin(&mut h, &mut w, black_box(&varied)));
            // a list one too long is refused behind the check of the heading
            varied.push(1.0);
            fastest(&mut check, || husk::begin(&mut h, &mut w, black_box(&varied)));
            varied.pop();
        }
        let ms = |d: Duration| d.as_secs_f64() * 1e3;
        let share = |d: Duration| 100.0 * d.as_secs_f64() / whole.as_secs_f64();
        println!(
            "{:<30} {:>9.4} {:>9.4} {:>6.2} {:>9.4} {:>7.1} {:>7.1} {:>7.1} | {:>9.4} {:>9.4} {:>6.2} {:>9.4}{}{}{}",
            path.rsplit('/').next().unwrap(),
            ms(rust),
            ms(whole),
            ms(rust) / ms(whole),
            ms(steps),
            share(begin),
            share(check),
            share(finish),
            ms(rust_solve),
            ms(solve),
            ms(rust_solve) / ms(solve),
            ms(alone),
            if list_bits { "" } else { "  (last digits of a solution differ)" },
            if bits { "" } else { "  (last digits of a deviance differ)" },
            if same { "" } else { "  DISAGREES" }
        );
        agree &= same;
    }
    println!("begin: a call of begin, the check of the heading included; check: that check alone; rest: deviance_from_factor with its check.");
    println!("Behind the bar an update with its solution; alone: solve_profile_blocked on the finished factor.");
    if !agree {
        std::process::exit(1);
    }
}
