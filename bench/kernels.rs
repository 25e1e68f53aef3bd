//! The steps of the published Rust solver and the proved kernels on the same numbers. Each row first
//! runs both once and compares what they leave, bit for bit; then it times them in turn, each
//! restored to the same input before, outside the timed part, and keeps the fastest run of each.
//! Sums of logarithms are timed and not compared: the original's are the platform's.
//! Built by bench/kernels into a copy of the Rust original, where it is the main program.

// What the driver asks of the original and this program does not is left unused.
#[allow(dead_code, unused_imports)]
mod math;
#[allow(dead_code)]
mod model_matrix;
mod perf_diag;

use math::steps::{Cross, Diagonal, Lower, Matrix, Solver};
use std::hint::black_box;
use std::time::{Duration, Instant};

/// The kernels of the crate kernels_c: a list is its first double and its length.
mod husk {
    #[rustfmt::skip]
    #[link(name = "kernels_c", kind = "static")]
    extern "C" {
        fn husk_subtract_dense(w: *mut f64, n: usize, off: usize, rows: usize, cols: usize, a: usize, b: usize, inner: usize);
        fn husk_rank_sub(w: *mut f64, n: usize, off: usize, rows: usize, a: usize, inner: usize);
        fn husk_subtract_last(w: *mut f64, n: usize, off: usize, rows: usize, a: usize, inner: usize);
        fn husk_subtract_sparse(w: *mut f64, n: usize, off: usize, rows: usize, cols: usize, a: usize, v: usize, inner: usize, h: *const u32, m: usize, first: usize);
        fn husk_divide_columns(w: *mut f64, n: usize, off: usize, rows: usize, cols: usize, pivots: usize);
        fn husk_solve_rows(w: *mut f64, n: usize, off: usize, rows: usize, cols: usize, l: usize);
        fn husk_scale_twice(w: *mut f64, n: usize, off: usize, src: usize, cells: usize, column: f64, row: f64);
        fn husk_rank_sub_diagonal(w: *mut f64, m: usize, off: usize, n: usize, a: usize, inner: usize, src: usize);
        fn husk_rank_sub_diagonal_sparse(w: *mut f64, m: usize, off: usize, n: usize, a: usize, inner: usize, src: usize, h: *const u32, k: usize, first: usize);
        fn husk_matvec_sub(v: *mut f64, n: usize, off: usize, rows: usize, z: usize, cols: usize, w: *const f64, m: usize, a: usize);
        fn husk_matvec_t_sub(v: *mut f64, n: usize, off: usize, cols: usize, z: usize, rows: usize, w: *const f64, m: usize, a: usize);
        fn husk_sparse_matvec_sub(v: *mut f64, n: usize, off: usize, rows: usize, z: usize, cols: usize, w: *const f64, m: usize, x: usize, h: *const u32, k: usize);
        fn husk_sparse_matvec_t_sub(v: *mut f64, n: usize, off: usize, cols: usize, z: usize, rows: usize, w: *const f64, m: usize, x: usize, h: *const u32, k: usize);
        fn husk_chol(t: *mut f64, m: usize, n: usize) -> usize;
        fn husk_chol_diagonal(t: *mut f64, m: usize, n: usize) -> usize;
        fn husk_log_pivots(t: *const f64, m: usize, n: usize, s: f64) -> f64;
        fn husk_log_diagonal(t: *const f64, m: usize, n: usize, s: f64) -> f64;
        fn husk_solve_row(t: *mut f64, m: usize, l: *const f64, k: usize, n: usize);
        fn husk_backward(t: *mut f64, m: usize, l: *const f64, k: usize, n: usize);
    }

    // Each asserts what its kernel requires.
    // SAFETY, of all: pointer and length are those of a slice, and a kernel that is called as its
    // contract requires stays within them.

    fn apart(off: usize, n: usize, a: usize, m: usize) -> bool {
        off + n <= a || a + m <= off
    }

    fn below(h: &[u32], rows: usize) -> bool {
        h.iter().all(|&r| (r as usize) < rows)
    }

    pub fn subtract_dense(w: &mut [f64], off: usize, rows: usize, cols: usize, a: usize, b: usize, inner: usize) {
        assert!(rows <= 316 && off + rows * cols <= w.len() && a + rows * inner <= w.len() && b + cols * inner <= w.len());
        assert!(apart(off, rows * cols, a, rows * inner) && apart(off, rows * cols, b, cols * inner));
        unsafe { husk_subtract_dense(w.as_mut_ptr(), w.len(), off, rows, cols, a, b, inner) }
    }

    pub fn rank_sub(w: &mut [f64], off: usize, rows: usize, a: usize, inner: usize) {
        let cells = rows * (rows + 1) / 2;
        assert!(rows <= 316 && off + cells <= w.len() && a + rows * inner <= w.len() && apart(off, cells, a, rows * inner));
        unsafe { husk_rank_sub(w.as_mut_ptr(), w.len(), off, rows, a, inner) }
    }

    pub fn subtract_last(w: &mut [f64], off: usize, rows: usize, a: usize, inner: usize) {
        let cells = rows * (rows + 1) / 2;
        assert!(rows <= 316 && off + cells <= w.len() && a + rows * inner <= w.len() && apart(off, cells, a, rows * inner));
        unsafe { husk_subtract_last(w.as_mut_ptr(), w.len(), off, rows, a, inner) }
    }

    pub fn subtract_sparse(w: &mut [f64], off: usize, rows: usize, cols: usize, a: usize, v: usize, h: &Rows) {
        let inner = h.rows.len();
        assert!(rows <= 316 && off + rows * cols <= w.len() && a + rows * inner <= w.len() && v + inner <= w.len() && h.below <= cols);
        assert!(apart(off, rows * cols, a, rows * inner) && apart(off, rows * cols, v, inner));
        unsafe { husk_subtract_sparse(w.as_mut_ptr(), w.len(), off, rows, cols, a, v, inner, h.rows.as_ptr(), inner, 0) }
    }

    pub fn divide_columns(w: &mut [f64], off: usize, rows: usize, cols: usize, pivots: usize) {
        assert!(off + rows * cols <= w.len() && pivots + cols <= w.len() && apart(off, rows * cols, pivots, cols));
        unsafe { husk_divide_columns(w.as_mut_ptr(), w.len(), off, rows, cols, pivots) }
    }

    pub fn solve_rows(w: &mut [f64], off: usize, rows: usize, cols: usize, l: usize) {
        let cells = cols * (cols + 1) / 2;
        assert!(rows <= 316 && off + rows * cols <= w.len() && l + cells <= w.len() && apart(off, rows * cols, l, cells));
        unsafe { husk_solve_rows(w.as_mut_ptr(), w.len(), off, rows, cols, l) }
    }

    pub fn scale_twice(w: &mut [f64], off: usize, src: usize, cells: usize, column: f64, row: f64) {
        assert!(off + cells <= w.len() && src + cells <= w.len() && apart(off, cells, src, cells));
        unsafe { husk_scale_twice(w.as_mut_ptr(), w.len(), off, src, cells, column, row) }
    }

    /// The loaded block is at src, the working one at a.
    pub fn rank_sub_diagonal(w: &mut [f64], off: usize, n: usize, a: usize, inner: usize, src: usize) {
        assert!(n <= 316 && off + n <= w.len() && a + n * inner <= w.len() && src + n * inner <= w.len());
        assert!(apart(off, n, a, n * inner) && apart(off, n, src, n * inner));
        unsafe { husk_rank_sub_diagonal(w.as_mut_ptr(), w.len(), off, n, a, inner, src) }
    }

    pub fn rank_sub_diagonal_sparse(w: &mut [f64], off: usize, n: usize, a: usize, src: usize, h: &Rows) {
        let inner = h.rows.len();
        assert!(off + n <= w.len() && a + inner <= w.len() && src + inner <= w.len());
        assert!(apart(off, n, a, inner) && apart(off, n, src, inner));
        unsafe { husk_rank_sub_diagonal_sparse(w.as_mut_ptr(), w.len(), off, n, a, inner, src, h.rows.as_ptr(), inner, 0) }
    }

    /// v holds the vector that is changed, then the other.
    pub fn matvec_sub(v: &mut [f64], rows: usize, cols: usize, w: &[f64]) {
        assert!(rows <= 316 && v.len() == rows + cols && w.len() == rows * cols);
        unsafe { husk_matvec_sub(v.as_mut_ptr(), v.len(), 0, rows, rows, cols, w.as_ptr(), w.len(), 0) }
    }

    pub fn matvec_t_sub(v: &mut [f64], rows: usize, cols: usize, w: &[f64]) {
        assert!(v.len() == rows + cols && w.len() == rows * cols);
        unsafe { husk_matvec_t_sub(v.as_mut_ptr(), v.len(), 0, cols, cols, rows, w.as_ptr(), w.len(), 0) }
    }

    pub fn sparse_matvec_sub(v: &mut [f64], rows: usize, w: &[f64], h: &Rows) {
        let cols = h.rows.len();
        assert!(v.len() == rows + cols && w.len() == cols && h.below <= rows);
        unsafe { husk_sparse_matvec_sub(v.as_mut_ptr(), v.len(), 0, rows, rows, cols, w.as_ptr(), w.len(), 0, h.rows.as_ptr(), cols) }
    }

    pub fn sparse_matvec_t_sub(v: &mut [f64], rows: usize, w: &[f64], h: &Rows) {
        let cols = h.rows.len();
        assert!(v.len() == rows + cols && w.len() == cols && h.below <= rows);
        unsafe { husk_sparse_matvec_t_sub(v.as_mut_ptr(), v.len(), 0, cols, cols, rows, w.as_ptr(), w.len(), 0, h.rows.as_ptr(), cols) }
    }

    /// The factor and the sum of the logarithms of its pivots.
    pub fn chol(t: &mut [f64], n: usize) -> f64 {
        assert!(n <= 316 && n * (n + 1) / 2 <= t.len());
        unsafe {
            assert_eq!(husk_chol(t.as_mut_ptr(), t.len(), n), n);
            husk_log_pivots(t.as_ptr(), t.len(), n, 0.0)
        }
    }

    pub fn chol_diagonal(t: &mut [f64]) -> f64 {
        unsafe {
            assert_eq!(husk_chol_diagonal(t.as_mut_ptr(), t.len(), t.len()), t.len());
            husk_log_diagonal(t.as_ptr(), t.len(), t.len(), 0.0)
        }
    }

    pub fn solve_row(t: &mut [f64], l: &[f64]) {
        assert!(t.len() * (t.len() + 1) / 2 <= l.len());
        unsafe { husk_solve_row(t.as_mut_ptr(), t.len(), l.as_ptr(), l.len(), t.len()) }
    }

    pub fn backward(t: &mut [f64], l: &[f64]) {
        assert!(t.len() * (t.len() + 1) / 2 <= l.len());
        unsafe { husk_backward(t.as_mut_ptr(), t.len(), l.as_ptr(), l.len(), t.len()) }
    }

    /// The row of each column's entry of a sparse block.
    pub struct Rows {
        pub rows: Vec<u32>,
        below: usize,
    }

    impl Rows {
        pub fn new(rows: Vec<u32>, below_all: usize) -> Self {
            assert!(below(&rows, below_all));
            Self { rows, below: below_all }
        }
    }
}

/// One side of a row: what it works on, how that is restored, its run, and what the run leaves.
struct Side<'a, S> {
    state: S,
    restore: Box<dyn Fn(&mut S) + 'a>,
    run: Box<dyn Fn(&mut S) + 'a>,
    left: Box<dyn Fn(&S) -> Vec<f64> + 'a>,
}

fn side<'a, S>(state: S, restore: impl Fn(&mut S) + 'a, run: impl Fn(&mut S) + 'a, left: impl Fn(&S) -> Vec<f64> + 'a) -> Side<'a, S> {
    Side { state, restore: Box::new(restore), run: Box::new(run), left: Box::new(left) }
}

impl<S> Side<'_, S> {
    fn timed(&mut self) -> Duration {
        (self.restore)(&mut self.state);
        let start = Instant::now();
        (self.run)(black_box(&mut self.state));
        start.elapsed()
    }
}

/// A number that is asked for and not read.
fn kept(x: f64) {
    black_box(x);
}

struct Table {
    seconds: f64,
    only: String,
    differing: usize,
}

impl Table {
    /// One row. `work` is what each side's time is divided by: the multiply-adds, divisions or
    /// scalings that the step needs.
    fn row<A, B>(&mut self, name: &str, sizes: String, work: usize, mut original: Side<A>, mut husk: Side<B>) {
        if !name.contains(&self.only) {
            return;
        }
        original.timed();
        husk.timed();
        let (left, right) = ((original.left)(&original.state), (husk.left)(&husk.state));
        let same = left.len() == right.len() && left.iter().zip(&right).all(|(a, b)| a.to_bits() == b.to_bits());
        if !same {
            self.differing += 1;
        }
        let (mut best, mut ours) = (Duration::MAX, Duration::MAX);
        let start = Instant::now();
        let mut times = 0;
        while times < 20 || start.elapsed().as_secs_f64() < self.seconds {
            best = best.min(original.timed());
            ours = ours.min(husk.timed());
            times += 1;
        }
        let (best, ours) = (best.as_secs_f64(), ours.as_secs_f64());
        println!(
            "{name:<36} {sizes:<22} {:>9.1} {:>9.1} {:>6.2} {:>7.3} {:>7.3}{}",
            best * 1e6,
            ours * 1e6,
            best / ours,
            best * 1e9 / work as f64,
            ours * 1e9 / work as f64,
            if same { "" } else { "  NOT THE SAME BITS" }
        );
    }
}

/// Numbers in (-1, 1), the same in every run.
struct Numbers(u64);

impl Numbers {
    fn next(&mut self) -> u64 {
        self.0 = self.0.wrapping_mul(6364136223846793005).wrapping_add(1442695040888963407);
        self.0 >> 11
    }

    fn list(&mut self, n: usize) -> Vec<f64> {
        (0..n).map(|_| (self.next() as f64 + 0.5) / (1u64 << 52) as f64 - 1.0).collect()
    }

    /// Numbers in (1, 3).
    fn pivots(&mut self, n: usize) -> Vec<f64> {
        self.list(n).iter().map(|x| x + 2.0).collect()
    }

    /// A packed triangle with this on its diagonal added.
    fn triangle(&mut self, n: usize, pivot: f64) -> Vec<f64> {
        let mut t = self.list(n * (n + 1) / 2);
        for r in 0..n {
            t[r * (r + 1) / 2 + r] += pivot;
        }
        t
    }

    fn rows(&mut self, n: usize, below: usize) -> husk::Rows {
        husk::Rows::new((0..n).map(|_| (self.next() as usize % below) as u32).collect(), below)
    }
}

/// The parts, one after the other, and where each starts.
fn joined<const N: usize>(parts: [&[f64]; N]) -> (Vec<f64>, [usize; N]) {
    let mut at = [0; N];
    let mut list = Vec::new();
    for (start, part) in at.iter_mut().zip(parts) {
        *start = list.len();
        list.extend_from_slice(part);
    }
    (list, at)
}

fn main() {
    let seconds = std::env::var("SECONDS_EACH").ok().and_then(|s| s.parse().ok()).unwrap_or(1.0);
    let mut t = Table { seconds, only: std::env::args().nth(1).unwrap_or_default(), differing: 0 };
    let mut x = Numbers(7);
    println!("us: microseconds of the fastest run; ratio: the Rust's by ours;");
    println!("ns: nanoseconds for each multiply-add, division or scaling that the step needs");
    println!("{:<36} {:<22} {:>9} {:>9} {:>6} {:>7} {:>7}", "step", "sizes", "Rust us", "ours us", "ratio", "Rust ns", "ours ns");

    for (rows, inner) in [(300, 120), (100, 100), (200, 200), (316, 316)] {
        let (target, cross) = (x.triangle(rows, 0.0), x.list(rows * inner));
        let (w, [off, a]) = joined([&target, &cross]);
        let block = Cross::dense(rows, inner, &cross);
        t.row(
            "S, triangle less a dense block",
            format!("{rows} x {inner}"),
            target.len() * inner,
            side(Lower::new(rows, &target), |s| s.restore(&target), |s| s.rank_sub(&block), |s| s.cells().to_vec()),
            side(w, |w| w[off..a].copy_from_slice(&target), |w| husk::rank_sub(w, off, rows, a, inner), |w| w[off..a].to_vec()),
        );
    }

    for (rows, cols, inner) in [(300, 200, 120), (316, 316, 316)] {
        let (target, left, right) = (x.list(rows * cols), x.list(rows * inner), x.list(cols * inner));
        let (w, [off, a, b]) = joined([&target, &left, &right]);
        let block = Cross::dense(rows, cols, &target);
        let solver = Solver::three(Cross::dense(rows, inner, &left), Cross::dense(cols, inner, &right), block.clone());
        t.row(
            "S, dense block",
            format!("{rows} x {inner}, {cols} x {inner}"),
            rows * cols * inner,
            side(solver, |s| s.restore_cross(&block), |s| s.subtract_cross(), |s| s.cross_cells()),
            side(
                w,
                |w| w[off..a].copy_from_slice(&target),
                |w| husk::subtract_dense(w, off, rows, cols, a, b, inner),
                |w| w[off..a].to_vec(),
            ),
        );
    }

    for (rows, cols, inner) in [(2, 316, 316), (4, 316, 316), (4, 120, 300)] {
        let (target, left, right) = (x.list(rows * cols), x.list(rows * inner), x.list(cols * inner));
        let (w, [off, a, b]) = joined([&target, &left, &right]);
        let from = Matrix::new(rows, &target);
        let solver = Solver::fixed_by_cross(rows, &left, &target, Cross::dense(cols, inner, &right));
        t.row(
            "S, fixed rows by a dense block",
            format!("{rows} x {inner}, {cols} x {inner}"),
            rows * cols * inner,
            side(solver, |s| s.restore_fixed(1, &from), |s| s.subtract_fixed(), |s| s.fixed_cells(1)),
            side(
                w,
                |w| w[off..a].copy_from_slice(&target),
                |w| husk::subtract_dense(w, off, rows, cols, a, b, inner),
                |w| w[off..a].to_vec(),
            ),
        );
    }

    for (rows, inner, cols) in [(2, 65_535, 20_000), (4, 65_535, 20_000)] {
        let (target, left, entries) = (x.list(rows * cols), x.list(rows * inner), x.list(inner));
        let h = x.rows(inner, cols);
        let (w, [off, a, v]) = joined([&target, &left, &entries]);
        let from = Matrix::new(rows, &target);
        let solver = Solver::fixed_by_cross(rows, &left, &target, Cross::sparse(cols, &h.rows, &entries));
        t.row(
            "S, fixed rows by a sparse block",
            format!("{rows} x {inner} to {cols}"),
            rows * inner,
            side(solver, |s| s.restore_fixed(1, &from), |s| s.subtract_fixed(), |s| s.fixed_cells(1)),
            side(
                w,
                |w| w[off..a].copy_from_slice(&target),
                |w| husk::subtract_sparse(w, off, rows, cols, a, v, &h),
                |w| w[off..a].to_vec(),
            ),
        );
    }

    for (rows, inner) in [(2, 65_535), (4, 65_535), (33, 10_000)] {
        let (target, fixed) = (x.triangle(rows, 0.0), x.list(rows * inner));
        let (w, [off, a]) = joined([&target, &fixed]);
        t.row(
            "S, last triangle",
            format!("{rows} x {inner}"),
            target.len() * inner,
            side(Solver::fixed_by_diagonal(rows, &fixed, &[]), |s| s.restore_last(&target), |s| s.subtract_last(), |s| s.last_cells()),
            side(w, |w| w[off..a].copy_from_slice(&target), |w| husk::subtract_last(w, off, rows, a, inner), |w| w[off..a].to_vec()),
        );
    }

    {
        let (n, inner) = (316, 316);
        let h = x.rows(inner, n);
        let (target, entries) = (x.list(n), x.list(inner));
        let mut cells = vec![0.0; n * inner];
        for (c, (&r, &e)) in h.rows.iter().zip(&entries).enumerate() {
            cells[c * n + r as usize] = e;
        }
        let (w, [off, a, src]) = joined([&target, &cells, &cells]);
        let block = Cross::dense(n, inner, &cells);
        t.row(
            "S, diagonal by a dense block",
            format!("{n} x {inner}"),
            n * inner,
            side(target.clone(), |d| d.copy_from_slice(&target), |d| block.rank_sub_diagonal(d), |d| d.clone()),
            side(w, |w| w[off..a].copy_from_slice(&target), |w| husk::rank_sub_diagonal(w, off, n, a, inner, src), |w| w[off..a].to_vec()),
        );
    }

    {
        let (n, inner) = (20_000, 65_535);
        let h = x.rows(inner, n);
        let (target, entries) = (x.list(n), x.list(inner));
        let (w, [off, a, src]) = joined([&target, &entries, &entries]);
        let block = Cross::sparse(n, &h.rows, &entries);
        t.row(
            "S, diagonal by a sparse block",
            format!("{n} x {inner}"),
            inner,
            side(target.clone(), |d| d.copy_from_slice(&target), |d| block.rank_sub_diagonal(d), |d| d.clone()),
            side(
                w,
                |w| w[off..a].copy_from_slice(&target),
                |w| husk::rank_sub_diagonal_sparse(w, off, n, a, src, &h),
                |w| w[off..a].to_vec(),
            ),
        );
    }

    for n in [100, 200, 316] {
        let target = x.triangle(n, 2.0 * n as f64);
        t.row(
            "C, triangle, and its logarithms",
            format!("{n}"),
            n * (n + 1) * (n + 2) / 6,
            side(Lower::new(n, &target), |s| s.restore(&target), |s| kept(s.chol()), |s| s.cells().to_vec()),
            side(target.clone(), |w| w.copy_from_slice(&target), |w| kept(husk::chol(w, n)), |w| w.clone()),
        );
    }

    {
        let n = 65_535;
        let target = x.pivots(n);
        t.row(
            "C, diagonal, and its logarithms",
            format!("{n}"),
            n,
            side(Diagonal::new(&target), |s| s.restore(&target), |s| kept(s.chol()), |s| s.cells().to_vec()),
            side(target.clone(), |w| w.copy_from_slice(&target), |w| kept(husk::chol_diagonal(w)), |w| w.clone()),
        );
    }

    for (rows, cols) in [(200, 300), (316, 316)] {
        let (target, cells) = (x.list(rows * cols), x.triangle(cols, 2.0 * cols as f64));
        let (w, [off, l]) = joined([&target, &cells]);
        let from = Cross::dense(rows, cols, &target);
        let lower = Lower::new(cols, &cells);
        t.row(
            "T, dense block by a triangle",
            format!("{rows} x {cols}"),
            rows * cells.len(),
            side((from.clone(), vec![0.0; cols]), |s| s.0.restore(&from), |s| s.0.solve(&lower, &mut s.1), |s| s.0.cells()),
            side(w, |w| w[off..l].copy_from_slice(&target), |w| husk::solve_rows(w, off, rows, cols, l), |w| w[off..l].to_vec()),
        );
    }

    for (rows, cols) in [(2, 316), (4, 316)] {
        let (target, cells) = (x.list(rows * cols), x.triangle(cols, 2.0 * cols as f64));
        let (w, [off, l]) = joined([&target, &cells]);
        let from = Matrix::new(rows, &target);
        t.row(
            "T, fixed rows by a triangle",
            format!("{rows} x {cols}"),
            rows * cells.len(),
            side(
                Solver::fixed_by_lower(rows, &target, Lower::new(cols, &cells)),
                |s| s.restore_fixed(1, &from),
                |s| s.solve_fixed(),
                |s| s.fixed_cells(1),
            ),
            side(w, |w| w[off..l].copy_from_slice(&target), |w| husk::solve_rows(w, off, rows, cols, l), |w| w[off..l].to_vec()),
        );
    }

    {
        let (rows, cols) = (4, 65_535);
        let (target, pivots) = (x.list(rows * cols), x.pivots(cols));
        let (w, [off, at]) = joined([&target, &pivots]);
        let from = Matrix::new(rows, &target);
        t.row(
            "T, fixed rows by a diagonal",
            format!("{rows} x {cols}"),
            rows * cols,
            side(
                Solver::fixed_by_diagonal(rows, &target, &pivots),
                |s| s.restore_fixed(0, &from),
                |s| s.divide_fixed(),
                |s| s.fixed_cells(0),
            ),
            side(w, |w| w[off..at].copy_from_slice(&target), |w| husk::divide_columns(w, off, rows, cols, at), |w| w[off..at].to_vec()),
        );
    }

    {
        let cols = 65_535;
        let (target, pivots) = (x.list(cols), x.pivots(cols));
        let h = x.rows(cols, 20_000);
        let (w, [off, at]) = joined([&target, &pivots]);
        let from = Cross::sparse(20_000, &h.rows, &target);
        t.row(
            "T, sparse block by a diagonal",
            format!("{cols}"),
            cols,
            side(from.clone(), |s| s.restore(&from), |s| s.divide(&pivots), |s| s.cells()),
            side(w, |w| w[off..at].copy_from_slice(&target), |w| husk::divide_columns(w, off, 1, cols, at), |w| w[off..at].to_vec()),
        );
    }

    {
        let (rows, cols) = (316, 316);
        let cells = x.list(rows * cols);
        let from = Cross::dense(rows, cols, &cells);
        let (w, [off, src]) = joined([&cells, &cells]);
        t.row(
            "begin, dense block scaled twice",
            format!("{rows} x {cols}"),
            rows * cols,
            side(from.clone(), |_| (), |s| s.scale_twice(&from, 0.7, 1.1), |s| s.cells()),
            side(w, |_| (), |w| husk::scale_twice(w, off, src, rows * cols, 0.7, 1.1), |w| w[off..src].to_vec()),
        );
    }

    for (rows, cols) in [(316, 316), (120, 300)] {
        let (target, other, cells) = (x.list(rows), x.list(cols), x.list(rows * cols));
        let (v, _) = joined([&target, &other]);
        let block = Cross::dense(rows, cols, &cells);
        t.row(
            "dense block times a vector",
            format!("{rows} x {cols}"),
            rows * cols,
            side(target.clone(), |v| v.copy_from_slice(&target), |v| block.matvec(&other, v), |v| v.clone()),
            side(v, |v| v[..rows].copy_from_slice(&target), |v| husk::matvec_sub(v, rows, cols, &cells), |v| v[..rows].to_vec()),
        );
        let (target, other) = (other, target);
        let (v, _) = joined([&target, &other]);
        t.row(
            "dense transpose times a vector",
            format!("{rows} x {cols}"),
            rows * cols,
            side(target.clone(), |v| v.copy_from_slice(&target), |v| block.matvec_t(&other, v), |v| v.clone()),
            side(v, |v| v[..cols].copy_from_slice(&target), |v| husk::matvec_t_sub(v, rows, cols, &cells), |v| v[..cols].to_vec()),
        );
    }

    {
        let (rows, cols) = (20_000, 65_535);
        let (target, other, entries) = (x.list(rows), x.list(cols), x.list(cols));
        let h = x.rows(cols, rows);
        let (v, _) = joined([&target, &other]);
        let block = Cross::sparse(rows, &h.rows, &entries);
        t.row(
            "sparse block times a vector",
            format!("{rows} x {cols}"),
            cols,
            side(target.clone(), |v| v.copy_from_slice(&target), |v| block.matvec(&other, v), |v| v.clone()),
            side(v, |v| v[..rows].copy_from_slice(&target), |v| husk::sparse_matvec_sub(v, rows, &entries, &h), |v| v[..rows].to_vec()),
        );
        let (target, other) = (other, target);
        let (v, _) = joined([&target, &other]);
        t.row(
            "sparse transpose times a vector",
            format!("{rows} x {cols}"),
            cols,
            side(target.clone(), |v| v.copy_from_slice(&target), |v| block.matvec_t(&other, v), |v| v.clone()),
            side(v, |v| v[..cols].copy_from_slice(&target), |v| husk::sparse_matvec_t_sub(v, rows, &entries, &h), |v| v[..cols].to_vec()),
        );
    }

    {
        let n = 316;
        let (target, cells) = (x.list(n), x.triangle(n, 2.0 * n as f64));
        let lower = Lower::new(n, &cells);
        t.row(
            "triangle, one vector, forward",
            format!("{n}"),
            n * (n + 1) / 2,
            side(target.clone(), |v| v.copy_from_slice(&target), |v| lower.solve_vector(v), |v| v.clone()),
            side(target.clone(), |v| v.copy_from_slice(&target), |v| husk::solve_row(v, &cells), |v| v.clone()),
        );
        t.row(
            "triangle, one vector, backward",
            format!("{n}"),
            n * (n + 1) / 2,
            side(target.clone(), |v| v.copy_from_slice(&target), |v| lower.solve_vector_t(v), |v| v.clone()),
            side(target.clone(), |v| v.copy_from_slice(&target), |v| husk::backward(v, &cells), |v| v.clone()),
        );
    }

    if t.differing > 0 {
        eprintln!("{} rows do not leave the same bits", t.differing);
        std::process::exit(1);
    }
}
