//! A collection: `husk verify`, which works every record out again and compares all its words, and the published Rust solver on the same sheets and thetas,
//! which reads each sheet, factors and solves at its theta. First `husk file` files the records; `husk verify` must have every one again, and what is filed
//! must agree with the Rust's solution within one part in 10^9. Then both sides are timed in turn, as whole processes from start to end, and the fastest run
//! of each is kept; runs of their own are watched for the most memory. Between them the calls that `husk verify` makes are timed one by one on the same
//! records: what they leave of its processor time is the reading of lines, the comparing and the reporting.
//! Built by bench/verify into a copy of the Rust original, where it is the main program.

// What the driver asks of the original and this program does not is left unused.
#[allow(dead_code, unused_imports)]
mod math;
#[allow(dead_code)]
mod model_matrix;
mod perf_diag;
mod sheet;

use std::fs;
use std::hint::black_box;
use std::io::Write;
use std::path::{Path, PathBuf};
use std::process::{exit, Command, Stdio};
use std::thread;
use std::time::{Duration, Instant};

/// The calls of the crate capi (include/huskcanyon.h): a list is its first element and its length, and an answer its number, 0 where there is none.
mod husk {
    #[rustfmt::skip]
    #[link(name = "capi", kind = "static")]
    extern "C" {
        fn husk_needs(s: *const u8, n: usize, answer: *mut u64, four: usize) -> u64;
        fn husk_load(s: *const u8, n: usize, h: *mut u32, numbers: usize, w: *mut f64, d: usize, answer: *mut u64, two: usize) -> u64;
        fn husk_profile_deviance(h: *mut u32, n: usize, w: *mut f64, d: usize, theta: *const f64, k: usize, mode: u64, answer: *mut u64, five: usize) -> u64;
        fn husk_solve_profile_blocked(h: *const u32, n: usize, w: *const f64, d: usize, mode: u64, out: *mut f64, r: usize, words: *mut u64, s: usize, answer: *mut u64, four: usize) -> u64;
    }

    // SAFETY, of all: pointers and lengths are those of slices that do not overlap, and no call requires more.

    /// The numbers and doubles that load wants.
    pub fn needs(s: &[u8]) -> (usize, usize) {
        let mut answer = [0; 4];
        let number = unsafe { husk_needs(s.as_ptr(), s.len(), answer.as_mut_ptr(), 4) };
        assert_eq!(number, 0);
        (answer[3] as usize, answer[2] as usize)
    }

    pub fn load(s: &[u8], h: &mut [u32], w: &mut [f64]) {
        let mut answer = [0; 2];
        let number = unsafe { husk_load(s.as_ptr(), s.len(), h.as_mut_ptr(), h.len(), w.as_mut_ptr(), w.len(), answer.as_mut_ptr(), 2) };
        assert_eq!(number, 0);
    }

    pub fn profile_deviance(h: &mut [u32], w: &mut [f64], theta: &[f64]) {
        let mut answer = [0; 5];
        let number = unsafe { husk_profile_deviance(h.as_mut_ptr(), h.len(), w.as_mut_ptr(), w.len(), theta.as_ptr(), theta.len(), 0, answer.as_mut_ptr(), 5) };
        assert_eq!(number, 0);
    }

    pub fn solve(h: &[u32], w: &[f64], out: &mut [f64], words: &mut [u64]) {
        let mut answer = [0; 4];
        #[rustfmt::skip]
        let number = unsafe {
            husk_solve_profile_blocked(
                h.as_ptr(), h.len(), w.as_ptr(), w.len(), 0, out.as_mut_ptr(), out.len(), words.as_mut_ptr(), words.len(), answer.as_mut_ptr(), 4,
            )
        };
        assert_eq!(number, 0);
    }
}

/// The files of a folder, by name.
fn files(folder: &Path) -> Vec<PathBuf> {
    let mut all: Vec<PathBuf> = fs::read_dir(folder).expect("a folder").map(|entry| entry.expect("a file").path()).collect();
    all.sort();
    all
}

/// The Rust's side: every sheet of the folder is read, factored and solved at its theta.
fn evaluate(folder: &Path) {
    let mut sum = 0.0;
    for path in files(folder) {
        let (lmm, theta) = sheet::read(&fs::read(path).expect("a sheet"));
        let mut solver = math::Solver::new(lmm).expect("a sheet that the gate passes");
        sum += black_box(solver.solve(&theta, false).expect("a solution")).deviance;
    }
    println!("{sum}");
}

/// Where the line begins that has this tag first.
fn first(text: &[u8], tag: &str) -> usize {
    let tag = format!("\n{tag}\t").into_bytes();
    1 + text.windows(tag.len()).position(|part| part == tag).expect("a line with this tag")
}

/// Files a record of every sheet at its theta.
fn file(husk: &str, sheets: &Path, records: &Path) {
    fs::create_dir_all(records).expect("a folder");
    for path in files(sheets) {
        let text = fs::read(&path).expect("a sheet");
        let (sheet, theta) = text.split_at(first(&text, "theta"));
        let theta = std::str::from_utf8(theta).expect("text").lines().map(|line| line.rsplit('\t').next().unwrap());
        let mut command = Command::new(husk);
        command.args(["file", "-"]).args(theta).arg("--out").arg(record(&path, records));
        let mut child = command.stdin(Stdio::piped()).stdout(Stdio::null()).spawn().expect("husk");
        child.stdin.take().unwrap().write_all(sheet).expect("husk reads the sheet");
        if !child.wait().expect("husk ends").success() {
            exit(1);
        }
    }
}

/// The record of a sheet.
fn record(sheet: &Path, records: &Path) -> PathBuf {
    records.join(sheet.file_name().unwrap()).with_extension("record")
}

/// What is filed must agree with the Rust's solution. How many records hold its very words, and how many do but for the deviance.
fn agree(sheets: &Path, records: &Path) -> [usize; 2] {
    let close = |a: f64, b: f64| (a - b).abs() <= 1e-9 * b.abs().max(1.0);
    let mut same = [0; 2];
    for path in files(sheets) {
        let (lmm, theta) = sheet::read(&fs::read(&path).expect("a sheet"));
        let mut solver = math::Solver::new(lmm).expect("a sheet that the gate passes");
        let s = solver.solve(&theta, false).expect("a solution");
        let rust = [&[s.deviance, s.sigma2], &s.beta[..], &s.b, &s.u].concat();
        let text = fs::read(record(&path, records)).expect("a record");
        let answer = std::str::from_utf8(&text[first(&text, "deviance")..]).expect("text");
        let filed: Vec<f64> = answer.lines().map(|line| f64::from_bits(u64::from_str_radix(line.rsplit('\t').next().unwrap(), 16).expect("a word"))).collect();
        let relative = (filed[0] - rust[0]).abs() / rust[0].abs();
        if filed.len() != rust.len() || !(relative <= 1e-9) || !filed.iter().zip(&rust).all(|(&x, &y)| close(x, y)) {
            eprintln!("{}: what is filed and the Rust's solution disagree", path.display());
            exit(1);
        }
        let bits = |list: &[f64]| list.iter().map(|x| x.to_bits()).collect::<Vec<_>>();
        if bits(&filed[1..]) == bits(&rust[1..]) {
            same[(filed[0].to_bits() != rust[0].to_bits()) as usize] += 1;
        }
    }
    same
}

/// The time of a process from start to end, and what it took of the processors.
fn time(command: &mut Command) -> [Duration; 2] {
    let before = processor_time();
    let start = Instant::now();
    let status = command.stdout(Stdio::null()).stderr(Stdio::null()).status().expect("it starts");
    let time = start.elapsed();
    if !status.success() {
        eprintln!("{command:?}: {status}");
        exit(1);
    }
    [time, processor_time() - before]
}

/// What all processes that were started here and have ended took of the processors.
fn processor_time() -> Duration {
    extern "C" {
        fn getrusage(who: i32, usage: *mut [i64; 18]) -> i32;
    }
    const CHILDREN: i32 = -1;
    let mut usage = [0; 18];
    // SAFETY: Linux's struct of this call is 18 words of 64 bits on x86-64; seconds and microseconds come first, of the process and of the kernel for it.
    assert_eq!(unsafe { getrusage(CHILDREN, &mut usage) }, 0);
    Duration::from_secs((usage[0] + usage[2]) as u64) + Duration::from_micros((usage[1] + usage[3]) as u64)
}

/// The most memory that a process has, in MB: the last that was seen of Linux's own high-water mark, which is looked at many times a second.
fn memory(command: &mut Command) -> f64 {
    let mut child = command.stdout(Stdio::null()).stderr(Stdio::null()).spawn().expect("it starts");
    let status = format!("/proc/{}/status", child.id());
    let mut most = 0.0f64;
    while child.try_wait().expect("it ends").is_none() {
        let text = fs::read_to_string(&status).unwrap_or_default();
        if let Some(line) = text.lines().find(|line| line.starts_with("VmHWM:")) {
            most = most.max(line.split_whitespace().nth(1).and_then(|kb| kb.parse::<f64>().ok()).unwrap_or(0.0) / 1024.0);
        }
        thread::sleep(Duration::from_micros(500));
    }
    most
}

const PARTS: [&str; 4] = ["reading the file", "load", "update", "solution"];

/// The parts of each record's time, where they are less than before: its file's bytes into memory, and the three calls with the memory that they are lent.
fn parts(sheets: &[PathBuf], records: &Path, best: &mut [[Duration; 4]]) {
    for (path, best) in sheets.iter().zip(best) {
        let (_, theta) = sheet::read(&fs::read(path).expect("a sheet"));
        let path = record(path, records);
        let mut all = [Duration::ZERO; 4];
        let start = Instant::now();
        let text = fs::read(path).expect("a record");
        all[0] = start.elapsed();
        let sheet = &text[first(&text, "size")..first(&text, "try")];
        let (numbers, doubles) = husk::needs(sheet);
        let start = Instant::now();
        let (mut h, mut w) = (vec![0; numbers], vec![0.0; doubles]);
        husk::load(sheet, &mut h, &mut w);
        all[1] = start.elapsed();
        let start = Instant::now();
        husk::profile_deviance(&mut h, &mut w, &theta);
        all[2] = start.elapsed();
        let (p, q) = (h[1] as usize, h[2] as usize);
        let start = Instant::now();
        let length = p + 2 * q + p * (p + 1) / 2 + q * (p + 1);
        let (mut out, mut words) = (vec![0.0; length], vec![0; length]);
        husk::solve(&h, &w, &mut out, &mut words);
        all[3] = start.elapsed();
        black_box((h, w, out, words));
        for (part, best) in all.iter().zip(best) {
            *best = (*best).min(*part);
        }
    }
}

fn collection(title: &str, rounds: u32, husk: &str, plain: &str, sheets: &Path, records: &Path) {
    file(husk, sheets, records);
    let list = files(sheets);
    let count = list.len() as f64;
    let bytes: u64 = files(records).iter().map(|path| fs::metadata(path).expect("a record").len()).sum();
    if !Command::new(husk).arg("verify").arg(records).status().expect("husk").success() {
        exit(1);
    }
    let [same, nearly] = agree(sheets, records);
    let processors = thread::available_parallelism().map_or(1, |number| number.get());
    println!("\n{} {title}, {:.0} bytes each", list.len(), bytes as f64 / count);
    println!("{same} hold the Rust's very words, {nearly} all but the deviance's last digits");

    let avx = std::env::current_exe().expect("this program");
    let rust = |program: &Path| {
        let mut command = Command::new(program);
        command.arg("evaluate").arg(sheets);
        command
    };
    let verify = |jobs: usize| {
        let mut command = Command::new(husk);
        command.args(["verify", "--jobs", &jobs.to_string()]).arg(records);
        command
    };
    let mut sides = [
        ("the Rust with AVX, one thread".to_string(), rust(&avx)),
        ("husk verify, one job".to_string(), verify(1)),
        ("the Rust without AVX, one thread".to_string(), rust(Path::new(plain))),
        (format!("husk verify, {processors} jobs"), verify(processors)),
    ];
    let mut best = [[Duration::MAX; 2]; 4];
    let mut parts_best = vec![[Duration::MAX; 4]; list.len()];
    for _ in 0..rounds {
        for ((_, command), best) in sides.iter_mut().zip(&mut best) {
            for (time, best) in time(command).iter().zip(best) {
                *best = (*best).min(*time);
            }
        }
        parts(&list, records, &mut parts_best);
    }
    println!("{:<34} {:>12} {:>10} {:>15} {:>15} {:>12} {:>8}", "", "ms a record", "a second", "Rust with AVX", "without", "processor ms", "peak MB");
    for i in [0, 2, 1, 3] {
        let (name, command) = &mut sides[i];
        let [seconds, processor] = best[i].map(|time| time.as_secs_f64());
        let ratio = |other: usize| if i % 2 == 1 { format!("{:.2}", best[other][0].as_secs_f64() / seconds) } else { String::new() };
        println!(
            "{name:<34} {:>12.4} {:>10.0} {:>15} {:>15} {:>12.4} {:>8.1}",
            1e3 * seconds / count,
            count / seconds,
            ratio(0),
            ratio(2),
            1e3 * processor / count,
            memory(command)
        );
    }
    let whole = best[1][1].as_secs_f64();
    println!("{:<34} {:>12} {:>10}", "of one job's processor time", "ms a record", "%");
    let mut rest = whole;
    let part = |name: &str, seconds: f64| println!("{name:<34} {:>12.4} {:>10.1}", 1e3 * seconds / count, 100.0 * seconds / whole);
    for (i, name) in PARTS.iter().enumerate() {
        let seconds = parts_best.iter().map(|best| best[i].as_secs_f64()).sum();
        part(name, seconds);
        rest -= seconds;
    }
    part("lines, comparing, reporting", rest);
}

fn main() {
    let arguments: Vec<String> = std::env::args().skip(1).collect();
    if let ["evaluate", folder] = arguments.iter().map(String::as_str).collect::<Vec<_>>()[..] {
        return evaluate(Path::new(folder));
    }
    let [plain, husk, sheets, records] = &arguments[..] else { panic!("four paths") };
    let rounds = std::env::var("ROUNDS").ok().and_then(|s| s.parse().ok()).unwrap_or(10);
    let load = || fs::read_to_string("/proc/loadavg").unwrap_or_default().split(' ').next().unwrap_or("").to_string();
    println!("load average before: {}", load());
    for (name, title) in [("large", "records of 300, 120 crossed, p = 3"), ("small", "records of Pastes")] {
        collection(title, rounds, husk, plain, &Path::new(sheets).join(name), &Path::new(records).join(name));
    }
    println!("\nA ratio is the Rust's time over ours, so above 1 the port is faster. The Rust neither checks its sheet nor compares its answer.");
}
