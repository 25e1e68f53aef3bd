//! What the calls answer: Record 6's deviance and Record 7's solution.

use crate::refusal::Refusal;

/// How the deviance counts the readings: all n of them, or n - p.
///
/// ```
/// use huskcanyon::{Mode, Workspace, WORKED_SHEET};
///
/// let mut worked = Workspace::load(WORKED_SHEET)?;
/// worked.profile_deviance(&[1.0], Mode::Ml)?;
/// assert_eq!(worked.solve(Mode::Ml)?.sigma2, 1.0 / 3.0);
/// assert_eq!(worked.solve(Mode::Reml)?.sigma2, 1.0 / 2.0);
/// # Ok::<(), huskcanyon::Refusal>(())
/// ```
#[derive(Clone, Copy, Debug, PartialEq, Eq, Hash)]
pub enum Mode {
    /// Maximum likelihood.
    Ml,
    /// Restricted maximum likelihood.
    Reml,
}

/// The profiled deviance (Record 6): these three answers and no other, so a caller that goes through them all needs no further case.
///
/// ```
/// use huskcanyon::{Deviance, Mode, Workspace, WORKED_SHEET};
///
/// let mut worked = Workspace::load(WORKED_SHEET)?;
/// match worked.profile_deviance(&[1.0], Mode::Ml)? {
///     Deviance::Value(deviance) => println!("{deviance}"),
///     Deviance::Pivot { block, row } => println!("no factor at this theta: pivot of block {block}, row {row}"),
///     Deviance::NoScale => println!("too few readings for this mode, at any theta"),
/// }
/// # Ok::<(), huskcanyon::Refusal>(())
/// ```
#[derive(Clone, Copy, Debug, PartialEq)]
pub enum Deviance {
    /// The deviance. It may be NaN or infinite.
    Value(f64),
    /// The factor has a pivot that is at most 0; blocks count from 0 as they are sorted, the last one being fixed effects and response.
    Pivot {
        /// The sorted block.
        block: u64,
        /// The row in it.
        row: u64,
    },
    /// The residual sum of squares or its divisor is at most 0.
    NoScale,
}

impl Deviance {
    /// The value, where there is one.
    ///
    /// ```
    /// use huskcanyon::Deviance;
    ///
    /// assert_eq!(Deviance::Value(7.5).value(), Some(7.5));
    /// assert_eq!(Deviance::NoScale.value(), None);
    /// ```
    pub fn value(self) -> Option<f64> {
        match self {
            Deviance::Value(x) => Some(x),
            Deviance::Pivot { .. } | Deviance::NoScale => None,
        }
    }

    /// The refusal that a step would have given: 26, where a pivot is at most 0.
    ///
    /// ```
    /// use huskcanyon::Deviance;
    ///
    /// let refusal = Deviance::Pivot { block: 1, row: 0 }.refusal().unwrap();
    /// assert_eq!((refusal.number, refusal.places()), (26, [1, 0]));
    /// assert_eq!(Deviance::NoScale.refusal(), None);
    /// ```
    pub fn refusal(self) -> Option<Refusal> {
        match self {
            Deviance::Pivot { block, row } => Some(Refusal { number: 26, first: block, second: row }),
            Deviance::Value(_) | Deviance::NoScale => None,
        }
    }

    /// What the published Rust answers: `f64::MAX` where there is no value.
    ///
    /// ```
    /// use huskcanyon::Deviance;
    ///
    /// assert_eq!(Deviance::Value(7.5).rust_value(), 7.5);
    /// assert_eq!(Deviance::Pivot { block: 1, row: 0 }.rust_value(), f64::MAX);
    /// ```
    pub fn rust_value(self) -> f64 {
        self.value().unwrap_or(f64::MAX)
    }
}

/// The solution of a finished factor (Record 7). Rows are in sheet order. Every NaN has the word 7ff8000000000000, so a solution can be filed by its words.
///
/// ```
/// use huskcanyon::{Mode, Workspace, WORKED_SHEET};
///
/// let mut worked = Workspace::load(WORKED_SHEET)?;
/// worked.profile_deviance(&[1.0], Mode::Ml)?;
/// let solution = worked.solve(Mode::Ml)?;
/// assert_eq!(solution.beta, [1.0]);
/// assert_eq!(solution.b, [0.5]);
/// assert_eq!(solution.u, [0.5]);
/// # Ok::<(), huskcanyon::Refusal>(())
/// ```
#[derive(Clone, Debug, PartialEq)]
#[non_exhaustive]
pub struct Solution {
    /// The deviance, worked out from the solution's own residual sum of squares.
    pub deviance: f64,
    /// The residual variance.
    pub sigma2: f64,
    /// The p fixed effects.
    pub beta: Vec<f64>,
    /// The offset of each of the q random rows: theta times u.
    pub b: Vec<f64>,
    /// The q random rows before they are scaled by theta.
    pub u: Vec<f64>,
    /// The Cholesky factor L_X of the fixed effects: its lower triangle by rows, p(p+1)/2 numbers.
    pub l_x: Vec<f64>,
    /// w of the response: Z'y scaled by theta, and solved with the factor of the random rows and its transpose.
    pub w_y: Vec<f64>,
    /// w of each of the p columns of X: the same of Z'X, q numbers each.
    pub w_x: Vec<Vec<f64>>,
}

impl Solution {
    /// How long the result list is with p fixed effects and q random rows.
    pub(crate) fn list_length(p: usize, q: usize) -> usize {
        p + 2 * q + p * (p + 1) / 2 + q * (p + 1)
    }

    /// The parts of the result list: beta, b, u, L_X, w of y, w of each column.
    pub(crate) fn from_words(deviance: u64, sigma2: u64, words: &[u64], p: usize, q: usize) -> Solution {
        let mut rest = words.iter().map(|&word| f64::from_bits(word));
        let mut part = |length: usize| rest.by_ref().take(length).collect::<Vec<f64>>();
        Solution {
            deviance: f64::from_bits(deviance),
            sigma2: f64::from_bits(sigma2),
            beta: part(p),
            b: part(q),
            u: part(q),
            l_x: part(p * (p + 1) / 2),
            w_y: part(q),
            w_x: (0..p).map(|_| part(q)).collect(),
        }
    }
}
