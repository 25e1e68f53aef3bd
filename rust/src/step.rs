//! The steps of an update, and which of them are ready.

/// The name of a step (Record 4). Blocks count from 0 as they are sorted, largest first; the last one is fixed effects and response. Any numbers may be
/// asked for: what is no step's name is refused with 21.
///
/// ```
/// use huskcanyon::{Step, Workspace, WORKED_SHEET};
///
/// let mut worked = Workspace::load(WORKED_SHEET)?;
/// worked.begin(&[1.0])?;
/// for step in [Step::C(0), Step::T(1, 0), Step::S(1, 1, 0), Step::C(1)] {
///     worked.step(step)?;
/// }
/// assert_eq!(worked.steps_left(), 0);
/// # Ok::<(), huskcanyon::Refusal>(())
/// ```
#[derive(Clone, Copy, Debug, PartialEq, Eq, Hash)]
pub enum Step {
    /// S(i, j, h): from block (i, j) subtract block (i, h) times block (j, h) transposed.
    S(u64, u64, u64),
    /// C(j): Cholesky factor of block (j, j).
    C(u64),
    /// T(i, j): forward substitution with factor j in block (i, j).
    T(u64, u64),
}

/// An update under way: `stage(i, j)` is how many steps of block (i, j) are done, its subtractions S(i, j, 0), S(i, j, 1), .. and then C(j) or T(i, j).
pub(crate) struct Progress<F: Fn(u64, u64) -> u64> {
    /// The last block.
    pub last: u64,
    pub stage: F,
}

impl<F: Fn(u64, u64) -> u64> Progress<F> {
    fn is_done(&self, step: Step) -> bool {
        match step {
            Step::S(i, j, h) => (self.stage)(i, j) > h,
            Step::C(j) => (self.stage)(j, j) > j,
            Step::T(i, j) => (self.stage)(i, j) > j,
        }
    }

    /// The next step of block (i, j), if it is not through.
    fn next_of(&self, i: u64, j: u64) -> Option<Step> {
        match (self.stage)(i, j) {
            h if h < j => Some(Step::S(i, j, h)),
            h if h > j => None,
            _ if i == j => Some(Step::C(j)),
            _ => Some(Step::T(i, j)),
        }
    }

    /// Record 4's "After" (crates/step_order/specs/Steps.antt), without the step before it in the same block: a block's next step has that behind it.
    fn others_done(&self, step: Step) -> bool {
        match step {
            Step::S(i, j, h) => self.is_done(Step::T(i, h)) && self.is_done(Step::T(j, h)),
            Step::C(_) => true,
            Step::T(_, j) => self.is_done(Step::C(j)),
        }
    }

    /// The ready steps, in the Rust's order: at most one a block, column by column.
    pub fn ready(&self) -> Vec<Step> {
        let blocks = (0..=self.last).flat_map(|j| (j..=self.last).map(move |i| (i, j)));
        blocks.filter_map(|(i, j)| self.next_of(i, j)).filter(|&step| self.others_done(step)).collect()
    }
}
