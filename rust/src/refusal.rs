//! Refusals by number, as document 01's two tables have them.

use std::{error, fmt};

/// A call that was refused: the number and the two places of document 01's tables, 0 where there is none. Its `Display` says the same in words. Unless the
/// table says otherwise (26) the workspace is as it was before.
///
/// ```
/// use huskcanyon::Workspace;
///
/// let refusal = Workspace::load(b"size\t3\t1\n").unwrap_err();
/// assert_eq!((refusal.number, refusal.places()), (2, [1, 0]));
/// assert_eq!(refusal.to_string(), "refusal 2: line 1 of the sheet is ill-formed, missing or out of sequence");
/// ```
#[derive(Clone, Copy, Debug, PartialEq, Eq, Hash)]
#[non_exhaustive]
pub struct Refusal {
    /// 1 to 14 because of the input, 20 to 27 because of the state.
    pub number: u64,
    /// The first place: a line, a list, a block or a row, as the number says.
    pub first: u64,
    /// The second place: an index, a block or a row, as the number says.
    pub second: u64,
}

impl Refusal {
    /// Both places.
    ///
    /// ```
    /// use huskcanyon::{Workspace, WORKED_SHEET};
    ///
    /// let mut workspace = Workspace::load(WORKED_SHEET)?;
    /// let refusal = workspace.begin(&[f64::NAN]).unwrap_err();
    /// assert_eq!(refusal.number, 14);
    /// assert_eq!(refusal.places(), [0, 0]); // list 0, index 0
    /// # Ok::<(), huskcanyon::Refusal>(())
    /// ```
    pub fn places(&self) -> [u64; 2] {
        [self.first, self.second]
    }
}

impl error::Error for Refusal {}

impl fmt::Display for Refusal {
    fn fmt(&self, f: &mut fmt::Formatter) -> fmt::Result {
        let Refusal { number, first, second } = *self;
        write!(f, "refusal {number}: ")?;
        match number {
            1 => write!(f, "the sheet is longer than 16,777,216 bytes"),
            2 => write!(f, "line {first} of the sheet is ill-formed, missing or out of sequence"),
            3 => write!(f, "the word on line {first} of the sheet is infinite or NaN"),
            4 => write!(f, "a count or an index on line {first} of the sheet is outside its range"),
            5 => write!(f, "the sheet's flag is 0: it is not one of intercepts only"),
            6 => write!(f, "the sheet has no block (k = 0)"),
            7 => write!(f, "a block of the sheet has more than one effect per level (slopes)"),
            8 => write!(f, "q is not the sum of the blocks' levels"),
            9 => write!(f, "the zz entry on line {first} of the sheet is zero, off the diagonal inside a block, or without a mirror of equal bits"),
            10 => write!(f, "of more than two blocks, the pair of sorted blocks ({first}, {second}) has more than 100,000 cells"),
            11 => write!(
                f,
                "the pair of sorted blocks ({first}, {second}) has more than 100,000 cells, and not one entry in each column or too many for its cells"
            ),
            12 => write!(f, "the workspace is too short for the sheet"),
            13 => write!(f, "list {first} has the wrong length (lists count from 0: theta; or Z'y, X'y, y'y)"),
            14 => write!(f, "list {first} holds an infinity or NaN at index {second} (lists count from 0: theta; or Z'y, X'y, y'y)"),
            20 => write!(f, "heading and doubles are no workspace"),
            21 => write!(f, "there is no step of that name"),
            22 => write!(f, "no update is under way"),
            23 => write!(f, "the step is already done"),
            24 => write!(f, "a forerunner of the step is missing"),
            25 => write!(f, "the factor is not finished"),
            26 => write!(f, "the pivot of block {first}, row {second}, is at most 0; the update is given up"),
            27 => write!(f, "the pivot of row {first} of the finish is not above 0"),
            _ => write!(f, "a number that this package does not know, with the places {first} and {second}"),
        }
    }
}
