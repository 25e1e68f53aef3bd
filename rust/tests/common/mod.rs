//! What several test files use. Each of them compiles it by itself and uses a part.
#![allow(dead_code)]

pub mod tool;

use std::fmt::Write;
use std::path::PathBuf;

use huskcanyon::{Mode, Solution, Step, Workspace};

pub const MODES: [Mode; 2] = [Mode::Ml, Mode::Reml];
pub const DATA_SETS: [&str; 4] = ["dyestuff", "penicillin", "pastes", "sleep-intercept"];

/// The text of a file under examples/ at the repository's root.
pub fn example(path: &str) -> String {
    let path = PathBuf::from(env!("CARGO_MANIFEST_DIR")).join("../examples").join(path);
    std::fs::read_to_string(&path).unwrap_or_else(|error| panic!("{}: {error}", path.display()))
}

/// A number in [0, bound) from xorshift, the same in every run.
pub struct Random(pub u64);

impl Random {
    pub fn below(&mut self, bound: usize) -> usize {
        self.0 ^= self.0 << 13;
        self.0 ^= self.0 >> 7;
        self.0 ^= self.0 << 17;
        (self.0 % bound as u64) as usize
    }
}

/// The sheet of some readings: for each the level in each block, the fixed values and the response, all whole numbers, so that no sum is rounded.
pub struct Readings {
    pub levels: Vec<usize>,
    pub rows: Vec<(Vec<usize>, Vec<i64>, i64)>,
}

impl Readings {
    /// So many random ones; with `nested` the second block's level is that of the first modulo its levels, so that each column has one entry.
    pub fn random(levels: &[usize], fixed: usize, count: usize, nested: bool, random: &mut Random) -> Readings {
        let mut rows = Vec::new();
        for reading in 0..count {
            // Every level has a reading, as far as they go.
            let mut level: Vec<usize> = levels.iter().map(|&m| if reading < m { reading } else { random.below(m) }).collect();
            if nested {
                level[1] = level[0] % levels[1];
            }
            let x = (0..fixed).map(|c| if c == 0 { 1 } else { random.below(21) as i64 - 10 }).collect();
            rows.push((level, x, random.below(201) as i64 - 100));
        }
        Readings { levels: levels.to_vec(), rows }
    }

    pub fn sheet(&self) -> String {
        let p = self.rows[0].1.len();
        let q: usize = self.levels.iter().sum();
        let first: Vec<usize> = self.levels.iter().scan(0, |next, m| Some(std::mem::replace(next, *next + m))).collect();
        let mut zz = std::collections::BTreeMap::new();
        let (mut zx, mut zy) = (vec![vec![0; p]; q], vec![0; q]);
        let (mut xx, mut xy, mut yy) = (vec![vec![0; p]; p], vec![0; p], 0);
        for (level, x, y) in &self.rows {
            let rows: Vec<usize> = level.iter().zip(&first).map(|(l, f)| l + f).collect();
            for &row in &rows {
                for &column in &rows {
                    *zz.entry((column, row)).or_insert(0) += 1;
                }
                zx[row].iter_mut().zip(x).for_each(|(sum, x)| *sum += x);
                zy[row] += y;
            }
            for r in 0..p {
                xx[r].iter_mut().zip(x).for_each(|(sum, c)| *sum += x[r] * c);
                xy[r] += x[r] * y;
            }
            yy += y * y;
        }
        let mut text = format!("size\t{}\t{p}\t{q}\t{}\t1\n", self.rows.len(), self.levels.len());
        for m in &self.levels {
            writeln!(text, "block\t{m}\t1").unwrap();
        }
        for ((column, row), count) in zz {
            writeln!(text, "zz\t{column}\t{row}\t{}", word(count)).unwrap();
        }
        for (row, sums) in zx.iter().enumerate() {
            for (c, &sum) in sums.iter().enumerate() {
                writeln!(text, "zx\t{row}\t{c}\t{}", word(sum)).unwrap();
            }
        }
        for (row, &sum) in zy.iter().enumerate() {
            writeln!(text, "zy\t{row}\t{}", word(sum)).unwrap();
        }
        for (r, sums) in xx.iter().enumerate() {
            for (c, &sum) in sums[..=r].iter().enumerate() {
                writeln!(text, "xx\t{r}\t{c}\t{}", word(sum)).unwrap();
            }
        }
        for (r, &sum) in xy.iter().enumerate() {
            writeln!(text, "xy\t{r}\t{}", word(sum)).unwrap();
        }
        writeln!(text, "yy\t{}", word(yy)).unwrap();
        text
    }
}

fn word(whole: i64) -> String {
    format!("{:016x}", (whole as f64).to_bits())
}

/// Document 01's order of the published Rust: j = 0 to k: all S(j,j,h), C(j), then per i > j all S(i,j,h), T(i,j).
pub fn rust_order(k: u64) -> Vec<Step> {
    let mut steps = Vec::new();
    for j in 0..=k {
        steps.extend((0..j).map(|h| Step::S(j, j, h)));
        steps.push(Step::C(j));
        for i in j + 1..=k {
            steps.extend((0..j).map(|h| Step::S(i, j, h)));
            steps.push(Step::T(i, j));
        }
    }
    steps
}

/// Every word that can be seen of a finished factor: pivots, log determinant, deviances, solutions.
pub fn words(workspace: &Workspace) -> Vec<u64> {
    let pivots = workspace.pivots().unwrap().concat();
    pivots.iter().map(|x| x.to_bits()).chain(words_but_pivots(workspace)).collect()
}

pub fn words_but_pivots(workspace: &Workspace) -> Vec<u64> {
    let mut doubles = vec![workspace.log_determinant().unwrap()];
    for mode in MODES {
        doubles.push(workspace.deviance(mode).unwrap().rust_value());
        doubles.extend(solution_doubles(&workspace.solve(mode).unwrap()));
    }
    doubles.iter().map(|x| x.to_bits()).collect()
}

pub fn solution_doubles(solution: &Solution) -> Vec<f64> {
    let s = solution;
    let mut doubles = [&[s.deviance, s.sigma2], &s.beta[..], &s.b, &s.u, &s.l_x, &s.w_y].concat();
    doubles.extend(s.w_x.iter().flatten());
    doubles
}
