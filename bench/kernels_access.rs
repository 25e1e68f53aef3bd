// Appended by bench/kernels to the copy of the original's access.rs: the steps of the published solver
// that bench/kernels.rs times, on blocks that are given to them. Each step here calls the published
// function and does nothing else.

pub(crate) mod steps {
    use super::*;

    fn matrix(rows: usize, cols: usize, cell: impl Fn(usize, usize) -> f64) -> Array2<f64> {
        let mut m = Array2::zeros((rows, cols));
        for r in 0..rows {
            for c in 0..cols {
                m[[r, c]] = cell(r, c);
            }
        }
        m
    }

    /// The cells of a matrix, column by column.
    fn by_columns(m: &Array2<f64>) -> Vec<f64> {
        let mut list = Vec::with_capacity(m.nrows() * m.ncols());
        for c in 0..m.ncols() {
            for r in 0..m.nrows() {
                list.push(m[[r, c]]);
            }
        }
        list
    }

    /// A cross block.
    #[derive(Clone)]
    pub(crate) struct Cross(CrossBlock);

    impl Cross {
        /// From its cells, column by column.
        pub(crate) fn dense(rows: usize, cols: usize, cells: &[f64]) -> Self {
            Self(CrossBlock::Dense(matrix(rows, cols, |r, c| cells[c * rows + r])))
        }

        /// With one entry to a column.
        pub(crate) fn sparse(rows: usize, row_of: &[u32], entries: &[f64]) -> Self {
            Self(CrossBlock::Sparse {
                nrows: rows,
                ncols: entries.len(),
                col_ptr: (0..=entries.len()).collect(),
                row_idx: row_of.iter().map(|&r| r as usize).collect(),
                vals: entries.to_vec(),
            })
        }

        pub(crate) fn cells(&self) -> Vec<f64> {
            match &self.0 {
                CrossBlock::Dense(d) => by_columns(d),
                CrossBlock::Sparse { vals, .. } => vals.clone(),
            }
        }

        pub(crate) fn restore(&mut self, from: &Self) {
            self.0.assign_from(&from.0);
        }

        pub(crate) fn divide(&mut self, pivots: &[f64]) {
            self.0.trisolve_diag0(pivots).unwrap();
        }

        pub(crate) fn solve(&mut self, lower: &Lower, buffer: &mut [f64]) {
            let ReFactor::Full(l) = &lower.factor else { unreachable!() };
            self.0.trisolve_full_lower(l, buffer).unwrap();
        }

        pub(crate) fn scale_twice(&mut self, from: &Self, column: f64, row: f64) {
            self.0.assign_scaled(&from.0, column);
            self.0.scale(row);
        }

        pub(crate) fn rank_sub_diagonal(&self, diagonal: &mut [f64]) {
            self.0.rank_sub_diagonal(diagonal);
        }

        pub(crate) fn matvec(&self, from: &[f64], to: &mut [f64]) {
            InterceptBlockedChol::cross_matvec_sub(&self.0, from, to);
        }

        pub(crate) fn matvec_t(&self, from: &[f64], to: &mut [f64]) {
            InterceptBlockedChol::cross_matvec_t_sub(&self.0, from, to);
        }
    }

    /// A packed triangle, with the buffer for its S.
    pub(crate) struct Lower {
        factor: ReFactor,
        gram: Array2<f64>,
    }

    impl Lower {
        pub(crate) fn new(n: usize, cells: &[f64]) -> Self {
            Self { factor: ReFactor::Full(ReLower { n, data: cells.to_vec() }), gram: Array2::zeros((n, n)) }
        }

        pub(crate) fn cells(&self) -> &[f64] {
            let ReFactor::Full(l) = &self.factor else { unreachable!() };
            &l.data
        }

        pub(crate) fn restore(&mut self, cells: &[f64]) {
            let ReFactor::Full(l) = &mut self.factor else { unreachable!() };
            l.data.copy_from_slice(cells);
        }

        pub(crate) fn rank_sub(&mut self, cross: &Cross) {
            self.factor.rank_sub_cross(&cross.0, &mut self.gram);
        }

        /// The sum of the logarithms of the pivots.
        pub(crate) fn chol(&mut self) -> f64 {
            self.factor.chol().unwrap()
        }

        pub(crate) fn solve_vector(&self, v: &mut [f64]) {
            self.factor.forward_solve_block(v).unwrap();
        }

        pub(crate) fn solve_vector_t(&self, v: &mut [f64]) {
            self.factor.backward_solve_block(v).unwrap();
        }
    }

    /// A diagonal that is a block's factor.
    pub(crate) struct Diagonal(ReFactor);

    impl Diagonal {
        pub(crate) fn new(cells: &[f64]) -> Self {
            Self(ReFactor::Diagonal(cells.to_vec()))
        }

        pub(crate) fn cells(&self) -> &[f64] {
            let ReFactor::Diagonal(d) = &self.0 else { unreachable!() };
            d
        }

        pub(crate) fn restore(&mut self, cells: &[f64]) {
            self.0.reset_diag(cells);
        }

        pub(crate) fn chol(&mut self) -> f64 {
            self.0.chol().unwrap()
        }
    }

    /// A solver with the blocks that a step reads and writes, and no others.
    pub(crate) struct Solver(InterceptBlockedChol);

    impl Solver {
        fn new(n_re: Vec<usize>, fixed: usize) -> Self {
            let largest = *n_re.iter().max().unwrap();
            Self(InterceptBlockedChol {
                k_re: n_re.len(),
                p: fixed - 1,
                n_re,
                block_row_start: Vec::new(),
                theta_idx: Vec::new(),
                a_diag: Vec::new(),
                a_cross: Vec::new(),
                l_cross: Vec::new(),
                a_xy_re: Vec::new(),
                l_xy_re: Vec::new(),
                a_xy_xy: Array2::zeros((0, 0)),
                l_xy_xy: Array2::zeros((fixed, fixed)),
                l_diag0: Vec::new(),
                l_re_factor: Vec::new(),
                diag_buf: Vec::new(),
                cross_rhs_buf: Vec::new(),
                schur_li_scratch: Array2::zeros((0, 0)),
                schur_lj_scratch: Array2::zeros((0, 0)),
                rank_gram_buf: Array2::zeros((0, 0)),
                xy_trisolve_buf: Array2::zeros((largest, fixed)),
            })
        }

        /// Cross blocks (2,0), (1,0) and (2,1), for S(2,1,0).
        pub(crate) fn three(left: Cross, right: Cross, target: Cross) -> Self {
            let n_re = vec![left.0.ncols(), right.0.nrows(), left.0.nrows()];
            let mut solver = Self::new(n_re, 1);
            solver.0.l_cross = vec![vec![right.0], vec![left.0, target.0]];
            solver
        }

        pub(crate) fn subtract_cross(&mut self) {
            self.0.schur_sub_re_cross(2, 1, 0).unwrap();
        }

        pub(crate) fn cross_cells(&self) -> Vec<f64> {
            Cross(self.0.l_cross[1][1].clone()).cells()
        }

        pub(crate) fn restore_cross(&mut self, from: &Cross) {
            self.0.l_cross[1][1].assign_from(&from.0);
        }

        /// The fixed rows of blocks 0 and 1 and cross block (1,0), for S(k,1,0).
        pub(crate) fn fixed_by_cross(rows: usize, first: &[f64], second: &[f64], cross: Cross) -> Self {
            let n_re = vec![cross.0.ncols(), cross.0.nrows()];
            let mut solver = Self::new(n_re.clone(), rows);
            solver.0.l_xy_re = vec![matrix(rows, n_re[0], |r, c| first[c * rows + r]), matrix(rows, n_re[1], |r, c| second[c * rows + r])];
            solver.0.l_cross = vec![vec![cross.0]];
            solver
        }

        pub(crate) fn subtract_fixed(&mut self) {
            self.0.schur_sub_xy_re(1, 0).unwrap();
        }

        /// The fixed rows of block 1 and its factor, for T(k,1).
        pub(crate) fn fixed_by_lower(rows: usize, second: &[f64], lower: Lower) -> Self {
            let cols = second.len() / rows;
            let mut solver = Self::new(vec![cols, cols], rows);
            solver.0.l_xy_re = vec![Array2::zeros((0, 0)), matrix(rows, cols, |r, c| second[c * rows + r])];
            solver.0.l_re_factor = vec![lower.factor];
            solver
        }

        pub(crate) fn solve_fixed(&mut self) {
            self.0.trisolve_xy_re(1).unwrap();
        }

        pub(crate) fn fixed_cells(&self, block: usize) -> Vec<f64> {
            by_columns(&self.0.l_xy_re[block])
        }

        pub(crate) fn restore_fixed(&mut self, block: usize, from: &Matrix) {
            self.0.l_xy_re[block].assign(&from.0);
        }

        /// The fixed rows of block 0 and its pivots, for T(k,0) and S(k,k,0).
        pub(crate) fn fixed_by_diagonal(rows: usize, first: &[f64], pivots: &[f64]) -> Self {
            let cols = first.len() / rows;
            let mut solver = Self::new(vec![cols], rows);
            solver.0.l_xy_re = vec![matrix(rows, cols, |r, c| first[c * rows + r])];
            solver.0.l_diag0 = pivots.to_vec();
            solver
        }

        pub(crate) fn divide_fixed(&mut self) {
            self.0.trisolve_xy_re(0).unwrap();
        }

        pub(crate) fn subtract_last(&mut self) {
            self.0.schur_sub_xy_xy(0).unwrap();
        }

        /// The last triangle, row by row.
        pub(crate) fn last_cells(&self) -> Vec<f64> {
            let mut list = Vec::new();
            for r in 0..self.0.l_xy_xy.nrows() {
                for c in 0..=r {
                    list.push(self.0.l_xy_xy[[r, c]]);
                }
            }
            list
        }

        pub(crate) fn restore_last(&mut self, cells: &[f64]) {
            for r in 0..self.0.l_xy_xy.nrows() {
                for c in 0..=r {
                    self.0.l_xy_xy[[r, c]] = cells[r * (r + 1) / 2 + c];
                    self.0.l_xy_xy[[c, r]] = cells[r * (r + 1) / 2 + c];
                }
            }
        }
    }

    /// What fixed rows are restored from.
    pub(crate) struct Matrix(Array2<f64>);

    impl Matrix {
        pub(crate) fn new(rows: usize, cells: &[f64]) -> Self {
            Self(matrix(rows, cells.len() / rows, |r, c| cells[c * rows + r]))
        }
    }
}
