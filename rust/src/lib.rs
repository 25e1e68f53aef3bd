//! The factor, the deviance and the solution of a linear mixed model with an intercept for each level, from a sheet of cross-products. The work is done by
//! an archive whose every function is proved to meet its contract (the Rattle crate `capi` of this repository): to the last bit the same every time, in
//! whatever order the steps of an update are done. This package lends it memory and gives its answers names; it does no
//! floating-point arithmetic. Sizes and which steps are ready it reads from the workspace's heading. It is tested, not proved.
//!
//! "Document 01" is the specification: the sheet is its Record 1, the steps its Record 4, the deviance its Record 6 and the solution its Record 7, and a
//! [`Refusal`] has the number and the places of its two tables.
//!
//! Dyestuff, beside the answers of R's lme4 (`lmer(Yield ~ 1 + (1 | Batch), Dyestuff, REML = FALSE)`):
//!
//! ```
//! use huskcanyon::{Mode, Workspace};
//!
//! # fn main() -> Result<(), Box<dyn std::error::Error>> {
//! let sheet = std::fs::read("../examples/dyestuff/sheet.txt")?;
//! let mut dyestuff = Workspace::load(&sheet)?;
//! let deviance = dyestuff.profile_deviance(&[0.7525807], Mode::Ml)?;
//! let solution = dyestuff.solve(Mode::Ml)?;
//! println!("{:.4}", deviance.value().unwrap()); // lme4: 327.3271
//! println!("{:.1}", solution.beta[0]); // lme4: 1527.5
//! println!("{:.2}", solution.sigma2.sqrt()); // lme4: 49.51
//! println!("{:.4}", solution.b[5]); // lme4: -42.4943
//! # assert_eq!(format!("{:.4}", deviance.value().unwrap()), "327.3271");
//! # assert_eq!(format!("{:.1}", solution.beta[0]), "1527.5");
//! # assert_eq!(format!("{:.2}", solution.sigma2.sqrt()), "49.51");
//! # assert_eq!(format!("{:.4}", solution.b[5]), "-42.4943");
//! # Ok(())
//! # }
//! ```
//!
//! The optimiser that finds such a theta is the caller's: examples/fit.rs has one.

#![warn(missing_docs)]
#![deny(unsafe_code)]

mod answers;
#[allow(unsafe_code)]
mod raw;
mod refusal;
mod room;
mod step;
mod workspace;

pub use answers::{Deviance, Mode, Solution};
pub use refusal::Refusal;
pub use room::Room;
pub use step::Step;
pub use workspace::{SortedBlock, Workspace};

/// The worked sheet of document 01, for a first try: three readings, one fixed effect, one level. At theta 1 it has the pivots 2; 2, 1.
///
/// ```
/// let worked = huskcanyon::Workspace::load(huskcanyon::WORKED_SHEET)?;
/// assert_eq!(worked.readings(), 3);
/// # Ok::<(), huskcanyon::Refusal>(())
/// ```
pub const WORKED_SHEET: &[u8] = b"size\t3\t1\t1\t1\t1
block\t1\t1
zz\t0\t0\t4008000000000000
zx\t0\t0\t4000000000000000
zy\t0\t4010000000000000
xx\t0\t0\t4014000000000000
xy\t0\t4018000000000000
yy\t4022000000000000
";
