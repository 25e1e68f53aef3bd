//! Loading a sheet: the published Rust solver's structures from the text, as its driver reads them, and the proved load, which also checks
//! every line. Each file is a sheet and its theta lines. First what the proved load leaves is compared, number by number, with the file
//! beside it that tools/sheet_list.py wrote; then both, and the proved needs, are timed in turn, and the fastest run of each is kept.
//! Built by bench/load into a copy of the Rust original, where it is the main program.

// What the driver asks of the original and this program does not is left unused.
#[allow(dead_code, unused_imports)]
mod math;
#[allow(dead_code)]
mod model_matrix;
mod perf_diag;
mod sheet;

use std::hint::black_box;
use std::time::{Duration, Instant};

/// The load of the crate capi (include/huskcanyon.h): a list is its first element and its length.
#[link(name = "capi", kind = "static")]
extern "C" {
    fn husk_needs(s: *const u8, n: usize, answer: *mut u64, words: usize) -> u64;
    fn husk_load(s: *const u8, n: usize, h: *mut u32, numbers: usize, w: *mut f64, doubles: usize, answer: *mut u64, words: usize) -> u64;
}

fn load(text: &[u8], h: &mut [u32], w: &mut [f64]) -> u64 {
    let mut answer = [0; 2];
    // SAFETY: pointers and lengths are those of slices that do not overlap, and load has no requirement.
    unsafe { husk_load(text.as_ptr(), text.len(), h.as_mut_ptr(), h.len(), w.as_mut_ptr(), w.len(), answer.as_mut_ptr(), 2) }
}

/// The doubles and numbers that load wants.
fn needs(text: &[u8]) -> (u64, [u64; 2]) {
    let mut answer = [0; 4];
    // SAFETY: as for load.
    let number = unsafe { husk_needs(text.as_ptr(), text.len(), answer.as_mut_ptr(), 4) };
    (number, [answer[2], answer[3]])
}

/// What load must leave.
fn expected(path: &str) -> (Vec<u32>, Vec<u64>) {
    let bytes = std::fs::read(path).expect("the file of expected numbers");
    let count = |at: usize| u64::from_le_bytes(bytes[at..at + 8].try_into().unwrap()) as usize;
    let (numbers, doubles) = (count(0), count(8));
    let behind = 16 + 4 * numbers;
    let h = bytes[16..behind].chunks_exact(4).map(|b| u32::from_le_bytes(b.try_into().unwrap())).collect();
    let w = bytes[behind..].chunks_exact(8).map(|b| u64::from_le_bytes(b.try_into().unwrap())).collect::<Vec<_>>();
    assert_eq!(w.len(), doubles);
    (h, w)
}

fn fastest(best: &mut Duration, run: impl FnOnce()) {
    let start = Instant::now();
    run();
    *best = (*best).min(start.elapsed());
}

fn main() {
    let seconds: f64 = std::env::var("SECONDS_EACH").ok().and_then(|s| s.parse().ok()).unwrap_or(1.0);
    let mut agree = true;
    // number 1, which no list of test sheets is long enough for
    let long = vec![b'0'; 16_777_217];
    let (one, two) = (load(&long, &mut [], &mut []), load(&long[1..], &mut [], &mut []));
    if (one, two) != (1, 2) {
        println!("a sheet of 16,777,217 bytes is refused with {one}, one of 16,777,216 with {two}: DISAGREES");
        agree = false;
    }
    println!("{:<40} {:>10} {:>10} {:>10} {:>7} {:>9} {:>10}", "sheet", "bytes", "Rust ms", "husk ms", "ratio", "ns/byte", "needs ms");
    for path in std::env::args().skip(1) {
        let text = std::fs::read(&path).expect("a sheet");
        let behind = text.windows(6).position(|b| b == b"theta\t").expect("theta lines");
        let own = &text[..behind];
        let (numbers, doubles) = expected(&format!("{path}.loaded"));
        let mut h = vec![7u32; numbers.len() + 1];
        let mut w = vec![7.0f64; doubles.len() + 1];
        let answer = load(own, &mut h, &mut w);
        let same = answer == 0
            && h[..numbers.len()] == numbers[..]
            && h[numbers.len()] == 7
            && w.iter().zip(&doubles).all(|(x, &b)| x.to_bits() == b)
            && w[doubles.len()] == 7.0
            && needs(own) == (0, [doubles.len() as u64, numbers.len() as u64]);
        let (mut rust, mut husk, mut asked) = (Duration::MAX, Duration::MAX, Duration::MAX);
        let start = Instant::now();
        while start.elapsed().as_secs_f64() < seconds {
            fastest(&mut rust, || {
                let (lmm, theta) = sheet::read(black_box(&text));
                black_box((math::Solver::new(lmm).ok(), theta));
            });
            fastest(&mut husk, || {
                black_box(load(black_box(own), &mut h, &mut w));
            });
            fastest(&mut asked, || {
                black_box(needs(black_box(own)));
            });
        }
        let (rust, husk, asked) = (rust.as_secs_f64() * 1e3, husk.as_secs_f64() * 1e3, asked.as_secs_f64() * 1e3);
        let name = path.rsplit('/').next().unwrap();
        println!("{:<40} {:>10} {:>10.3} {:>10.3} {:>7.2} {:>9.2} {:>10.3}{}", name, own.len(), rust, husk, rust / husk, husk * 1e6 / own.len() as f64, asked, if same { "" } else { "  DISAGREES" });
        agree &= same;
    }
    if !agree {
        std::process::exit(1);
    }
}
