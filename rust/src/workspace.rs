//! A workspace: the memory of one sheet, and the calls on it.

use std::fmt;

use crate::answers::{Deviance, Mode, Solution};
use crate::raw;
use crate::refusal::Refusal;
use crate::room::{self, Room};
use crate::step::{Progress, Step};

/// The heading's places that are read here (crates/heading_format/specs/Parts.antt): n p q k stand first, then the levels of the sorted blocks.
mod place {
    pub const READINGS: usize = 0;
    pub const FIXED_EFFECTS: usize = 1;
    pub const RANDOM_ROWS: usize = 2;
    pub const BLOCKS: usize = 3;
    pub const LEVELS: usize = 4;
    pub const ORDER: usize = 12;
    pub const SPARSE: usize = 20;
    pub const DIAGONAL: usize = 21;
    pub const STATE: usize = 22;
    pub const STAGES: usize = 24;
    /// What stands at STATE while an update is under way.
    pub const UNDER_WAY: u32 = 1;
}

/// The refusal of a workspace that is too short.
const TOO_SHORT: u64 = 12;

/// A loaded sheet and its working factor. Only the calls below write it, so refusal 20 (no workspace) never comes; it may be sent to another thread.
///
/// ```
/// use huskcanyon::{Mode, Workspace, WORKED_SHEET};
///
/// let mut worked = Workspace::load(WORKED_SHEET)?;
/// let solution = std::thread::spawn(move || {
///     worked.profile_deviance(&[1.0], Mode::Ml)?;
///     worked.solve(Mode::Ml)
/// });
/// assert_eq!(solution.join().unwrap()?.beta, [1.0]);
/// # Ok::<(), huskcanyon::Refusal>(())
/// ```
#[derive(Clone)]
pub struct Workspace {
    heading: Vec<u32>,
    doubles: Vec<f64>,
}

/// A block of random rows, one of those that [`Workspace::sorted_blocks`] lists.
///
/// ```
/// # use huskcanyon::{Workspace, WORKED_SHEET};
/// assert_eq!(Workspace::load(WORKED_SHEET)?.sorted_blocks()[0].sheet_index, 0);
/// # Ok::<(), huskcanyon::Refusal>(())
/// ```
#[derive(Clone, Copy, Debug, PartialEq, Eq)]
#[non_exhaustive]
pub struct SortedBlock {
    /// How many levels it has.
    pub levels: usize,
    /// Which block of the sheet it is; its theta has the same index.
    pub sheet_index: usize,
    /// Whether its factor is a diagonal, and not a packed triangle.
    pub diagonal: bool,
}

// Plain numbers: no pointer is kept, and the archive has no state of its own. This line does not compile once that is no longer so.
const _: fn() = || {
    fn may_be_sent<T: Send + Sync>() {}
    may_be_sent::<Workspace>();
};

impl Workspace {
    /// Loads a sheet (Record 1). Refused with 1 to 11. It takes some 530 KB of the thread's stack.
    ///
    /// A sheet is read and judged from its first line to its last before anything is stored, and that is most of load's price. To ask first how much memory
    /// it needs would be to judge it twice, so the memory is guessed from its `size` and `block` lines; only where load then answers 12, which no sheet
    /// that it accepts should bring about, is it asked, and the sheet loaded again with exactly that. The guess never decides anything: 12 is the last of
    /// load's refusals, so every other one comes whatever the memory.
    ///
    /// ```
    /// use huskcanyon::{Workspace, WORKED_SHEET};
    ///
    /// let workspace = Workspace::load(WORKED_SHEET)?;
    /// assert_eq!(workspace.steps_left(), 4);
    /// assert_eq!(Workspace::load(b"no sheet\n").unwrap_err().number, 2);
    /// # Ok::<(), huskcanyon::Refusal>(())
    /// ```
    pub fn load(sheet: &[u8]) -> Result<Workspace, Refusal> {
        Workspace::load_guessing(sheet, room::guess(sheet))
    }

    /// How much memory the sheet's workspace takes. Refused with 1 to 11. [`load`](Workspace::load) need not be asked first: it finds its memory by itself.
    ///
    /// ```
    /// use huskcanyon::{Workspace, WORKED_SHEET};
    ///
    /// assert_eq!(Workspace::needs(WORKED_SHEET)?.doubles, 14);
    /// assert_eq!(Workspace::needs(b"no sheet\n").unwrap_err().number, 2);
    /// # Ok::<(), huskcanyon::Refusal>(())
    /// ```
    pub fn needs(sheet: &[u8]) -> Result<Room, Refusal> {
        raw::needs(sheet)
    }

    fn load_guessing(sheet: &[u8], guess: Room) -> Result<Workspace, Refusal> {
        match Workspace::load_in(sheet, guess) {
            Err(refusal) if refusal.number == TOO_SHORT => Workspace::load_in(sheet, raw::needs(sheet)?),
            answer => answer,
        }
    }

    fn load_in(sheet: &[u8], room: Room) -> Result<Workspace, Refusal> {
        let mut workspace = Workspace { heading: vec![0; room.numbers], doubles: vec![0.0; room.doubles] };
        raw::load(sheet, &mut workspace.heading, &mut workspace.doubles)?;
        Ok(workspace)
    }

    /// n, the number of readings.
    ///
    /// ```
    /// # use huskcanyon::{Workspace, WORKED_SHEET};
    /// assert_eq!(Workspace::load(WORKED_SHEET)?.readings(), 3);
    /// # Ok::<(), huskcanyon::Refusal>(())
    /// ```
    pub fn readings(&self) -> usize {
        self.heading[place::READINGS] as usize
    }

    /// p, the number of fixed effects.
    ///
    /// ```
    /// # use huskcanyon::{Workspace, WORKED_SHEET};
    /// assert_eq!(Workspace::load(WORKED_SHEET)?.fixed_effects(), 1);
    /// # Ok::<(), huskcanyon::Refusal>(())
    /// ```
    pub fn fixed_effects(&self) -> usize {
        self.heading[place::FIXED_EFFECTS] as usize
    }

    /// q, the number of random rows; today a row for each level of each block.
    ///
    /// ```
    /// # use huskcanyon::{Workspace, WORKED_SHEET};
    /// assert_eq!(Workspace::load(WORKED_SHEET)?.random_rows(), 1);
    /// # Ok::<(), huskcanyon::Refusal>(())
    /// ```
    pub fn random_rows(&self) -> usize {
        self.heading[place::RANDOM_ROWS] as usize
    }

    /// k, the number of blocks of random rows.
    ///
    /// ```
    /// # use huskcanyon::{Workspace, WORKED_SHEET};
    /// assert_eq!(Workspace::load(WORKED_SHEET)?.blocks(), 1);
    /// # Ok::<(), huskcanyon::Refusal>(())
    /// ```
    pub fn blocks(&self) -> usize {
        self.heading[place::BLOCKS] as usize
    }

    /// How many numbers theta has: today one for each block.
    ///
    /// ```
    /// # use huskcanyon::{Workspace, WORKED_SHEET};
    /// let mut workspace = Workspace::load(WORKED_SHEET)?;
    /// workspace.begin(&vec![1.0; workspace.theta_length()])?;
    /// # Ok::<(), huskcanyon::Refusal>(())
    /// ```
    pub fn theta_length(&self) -> usize {
        self.blocks()
    }

    /// The blocks of random rows as they are sorted, largest first (Record 2): steps, pivots and refusals count them so.
    ///
    /// ```
    /// # use huskcanyon::{Workspace, WORKED_SHEET};
    /// let blocks = Workspace::load(WORKED_SHEET)?.sorted_blocks();
    /// assert_eq!((blocks.len(), blocks[0].levels, blocks[0].diagonal), (1, 1, true));
    /// # Ok::<(), huskcanyon::Refusal>(())
    /// ```
    pub fn sorted_blocks(&self) -> Vec<SortedBlock> {
        let block = |j: usize| SortedBlock {
            levels: self.heading[place::LEVELS + j] as usize,
            sheet_index: self.heading[place::ORDER + j] as usize,
            diagonal: j == 0 || (j == 1 && self.heading[place::DIAGONAL] != 0),
        };
        (0..self.blocks()).map(block).collect()
    }

    /// Whether the pair of a sheet of two blocks is stored sparse, one entry a column; every other pair is dense.
    ///
    /// ```
    /// # use huskcanyon::{Workspace, WORKED_SHEET};
    /// assert!(!Workspace::load(WORKED_SHEET)?.has_sparse_pair());
    /// # Ok::<(), huskcanyon::Refusal>(())
    /// ```
    pub fn has_sparse_pair(&self) -> bool {
        self.heading[place::SPARSE] != 0
    }

    /// The heading's numbers, to be looked at: counts, layout and progress (Records 2 and 5), and the rows of a sparse pair.
    ///
    /// ```
    /// # use huskcanyon::{Workspace, WORKED_SHEET};
    /// assert_eq!(Workspace::load(WORKED_SHEET)?.heading()[..4], [3, 1, 1, 1]); // n p q k
    /// # Ok::<(), huskcanyon::Refusal>(())
    /// ```
    pub fn heading(&self) -> &[u32] {
        &self.heading
    }

    /// The doubles, to be looked at: loaded numbers, then theta, the working blocks and the logarithms' sum (Record 2). A NaN has the processor's bits.
    ///
    /// ```
    /// # use huskcanyon::{Workspace, WORKED_SHEET};
    /// assert_eq!(Workspace::load(WORKED_SHEET)?.doubles()[0], 3.0); // Z'Z
    /// # Ok::<(), huskcanyon::Refusal>(())
    /// ```
    pub fn doubles(&self) -> &[f64] {
        &self.doubles
    }

    /// Begins an update at theta, one number for each block in sheet order (Record 4); one that was under way is given up. Refused with 13 (list 0), 14.
    ///
    /// ```
    /// use huskcanyon::{Workspace, WORKED_SHEET};
    ///
    /// let mut workspace = Workspace::load(WORKED_SHEET)?;
    /// workspace.begin(&[1.0])?;
    /// assert_eq!(workspace.begin(&[1.0, 2.0]).unwrap_err().number, 13);
    /// assert_eq!(workspace.begin(&[f64::INFINITY]).unwrap_err().number, 14);
    /// # Ok::<(), huskcanyon::Refusal>(())
    /// ```
    pub fn begin(&mut self, theta: &[f64]) -> Result<(), Refusal> {
        raw::begin(&mut self.heading, &mut self.doubles, theta)
    }

    /// Does one step of the update (Records 4 and 5), in any order that its forerunners allow. Refused with 22, 21, 23, 24, and with 26 (block, row) where a
    /// pivot is at most 0 (NaN passes), which gives the update up.
    ///
    /// ```
    /// use huskcanyon::{Step, Workspace, WORKED_SHEET};
    ///
    /// let mut workspace = Workspace::load(WORKED_SHEET)?;
    /// workspace.begin(&[1.0])?;
    /// assert_eq!(workspace.step(Step::T(1, 0)).unwrap_err().number, 24);
    /// workspace.step(Step::C(0))?;
    /// workspace.step(Step::T(1, 0))?;
    /// # Ok::<(), huskcanyon::Refusal>(())
    /// ```
    pub fn step(&mut self, step: Step) -> Result<(), Refusal> {
        raw::step(&mut self.heading, &mut self.doubles, step)
    }

    /// How many steps are left: 0 once the factor is finished, all of them while no update is under way.
    ///
    /// ```
    /// use huskcanyon::{Step, Workspace, WORKED_SHEET};
    ///
    /// let mut workspace = Workspace::load(WORKED_SHEET)?;
    /// assert_eq!(workspace.steps_left(), 4);
    /// workspace.begin(&[1.0])?;
    /// workspace.step(Step::C(0))?;
    /// assert_eq!(workspace.steps_left(), 3);
    /// # Ok::<(), huskcanyon::Refusal>(())
    /// ```
    pub fn steps_left(&self) -> u64 {
        raw::steps_left(&self.heading).expect("only the archive writes a heading, and it leaves no other")
    }

    /// The steps that may be done now, in the order in which the published Rust would come to them; none while no update is under way. Doing the first one
    /// until there is none left is the Rust's order.
    ///
    /// ```
    /// use huskcanyon::{Step, Workspace, WORKED_SHEET};
    ///
    /// let mut workspace = Workspace::load(WORKED_SHEET)?;
    /// assert_eq!(workspace.ready_steps(), []);
    /// workspace.begin(&[1.0])?;
    /// assert_eq!(workspace.ready_steps(), [Step::C(0)]);
    /// while let Some(&step) = workspace.ready_steps().first() {
    ///     workspace.step(step)?;
    /// }
    /// assert_eq!(workspace.pivots()?, [vec![2.0], vec![2.0, 1.0]]);
    /// # Ok::<(), huskcanyon::Refusal>(())
    /// ```
    pub fn ready_steps(&self) -> Vec<Step> {
        if self.heading[place::STATE] != place::UNDER_WAY {
            return Vec::new();
        }
        let stage = |i: u64, j: u64| u64::from(self.heading[place::STAGES + (i * (i + 1) / 2 + j) as usize]);
        Progress { last: self.blocks() as u64, stage }.ready()
    }

    /// Begins an update at theta, does all its steps and answers the deviance of the factor (Record 6), which stays for [`solve`](Workspace::solve). Refused
    /// with 13 (list 0), 14; a pivot that is at most 0 is no refusal here but the answer [`Deviance::Pivot`], and gives the update up.
    ///
    /// ```
    /// use huskcanyon::{Mode, Workspace, WORKED_SHEET};
    ///
    /// let mut workspace = Workspace::load(WORKED_SHEET)?;
    /// let deviance = workspace.profile_deviance(&[1.0], Mode::Reml)?;
    /// let formula = 2.0 * std::f64::consts::PI.ln() + 4.0 * 2f64.ln() + 2.0;
    /// assert!((deviance.value().unwrap() - formula).abs() < 1e-12);
    /// assert_eq!(workspace.profile_deviance(&[], Mode::Reml).unwrap_err().number, 13);
    /// # Ok::<(), huskcanyon::Refusal>(())
    /// ```
    pub fn profile_deviance(&mut self, theta: &[f64], mode: Mode) -> Result<Deviance, Refusal> {
        raw::profile_deviance(&mut self.heading, &mut self.doubles, theta, mode)
    }

    /// The deviance of the finished factor (Record 6). Refused with 25.
    ///
    /// ```
    /// use huskcanyon::{Mode, Workspace, WORKED_SHEET};
    ///
    /// let mut workspace = Workspace::load(WORKED_SHEET)?;
    /// assert_eq!(workspace.deviance(Mode::Ml).unwrap_err().number, 25);
    /// let deviance = workspace.profile_deviance(&[1.0], Mode::Ml)?;
    /// assert_eq!(workspace.deviance(Mode::Ml)?, deviance);
    /// # Ok::<(), huskcanyon::Refusal>(())
    /// ```
    pub fn deviance(&self, mode: Mode) -> Result<Deviance, Refusal> {
        raw::deviance_from_factor(&self.heading, &self.doubles, mode)
    }

    /// The solution of the finished factor at its theta (Record 7). Refused with 25, and with 27 (row) where a pivot of the fixed effects is not above 0.
    ///
    /// ```
    /// use huskcanyon::{Mode, Workspace, WORKED_SHEET};
    ///
    /// let mut workspace = Workspace::load(WORKED_SHEET)?;
    /// workspace.profile_deviance(&[1.0], Mode::Ml)?;
    /// let solution = workspace.solve(Mode::Ml)?;
    /// assert_eq!((solution.beta[0], solution.sigma2), (1.0, 1.0 / 3.0));
    /// # Ok::<(), huskcanyon::Refusal>(())
    /// ```
    pub fn solve(&self, mode: Mode) -> Result<Solution, Refusal> {
        let (p, q) = (self.fixed_effects(), self.random_rows());
        let mut list = vec![0.0; Solution::list_length(p, q)];
        let mut words = vec![0; list.len()];
        let [deviance, sigma2] = raw::solve_profile_blocked(&self.heading, &self.doubles, mode, &mut list, &mut words)?;
        Ok(Solution::from_words(deviance, sigma2, &words, p, q))
    }

    /// Puts a new response in the place of the old: Z'y, X'y and y'y, the last a list of one number (Record 3). The factor is no longer a finished one;
    /// every later answer is that of the sheet loaded with this response. Refused with 13 (list 0, 1 or 2) and 14 (list, index).
    ///
    /// ```
    /// use huskcanyon::{Mode, Workspace, WORKED_SHEET};
    ///
    /// let mut workspace = Workspace::load(WORKED_SHEET)?;
    /// workspace.replace_response(&[8.0], &[12.0], &[36.0])?; // twice the response
    /// workspace.profile_deviance(&[1.0], Mode::Ml)?;
    /// assert_eq!(workspace.solve(Mode::Ml)?.beta, [2.0]);
    /// # Ok::<(), huskcanyon::Refusal>(())
    /// ```
    pub fn replace_response(&mut self, zty: &[f64], xty: &[f64], yty: &[f64]) -> Result<(), Refusal> {
        raw::replace_response(&mut self.heading, &mut self.doubles, zty, xty, yty)
    }

    /// The log determinant of the finished factor: twice the sum of the logarithms of its random rows' pivots. Refused with 25.
    ///
    /// ```
    /// use huskcanyon::{Mode, Workspace, WORKED_SHEET};
    ///
    /// let mut workspace = Workspace::load(WORKED_SHEET)?;
    /// workspace.profile_deviance(&[1.0], Mode::Ml)?;
    /// assert!((workspace.log_determinant()? - 2.0 * 2f64.ln()).abs() < 1e-15);
    /// # Ok::<(), huskcanyon::Refusal>(())
    /// ```
    pub fn log_determinant(&self) -> Result<f64, Refusal> {
        raw::log_determinant(&self.heading, &self.doubles).map(|value| value.expect("a finished factor has a log determinant"))
    }

    /// The pivot of a row of a sorted block of the finished factor, `None` where there is no such block or row. Refused with 25.
    ///
    /// ```
    /// use huskcanyon::{Mode, Workspace, WORKED_SHEET};
    ///
    /// let mut workspace = Workspace::load(WORKED_SHEET)?;
    /// workspace.profile_deviance(&[1.0], Mode::Ml)?;
    /// assert_eq!(workspace.pivot(1, 0)?, Some(2.0));
    /// assert_eq!(workspace.pivot(1, 7)?, None);
    /// # Ok::<(), huskcanyon::Refusal>(())
    /// ```
    pub fn pivot(&self, block: u64, row: u64) -> Result<Option<f64>, Refusal> {
        raw::pivot(&self.heading, &self.doubles, block, row)
    }

    /// All pivots of the finished factor, by sorted block; the last block is fixed effects and response. Refused with 25. The archive is asked for each by
    /// itself and tests the whole heading each time: with a sparse pair of tens of thousands of columns that takes seconds.
    ///
    /// ```
    /// use huskcanyon::{Mode, Workspace, WORKED_SHEET};
    ///
    /// let mut workspace = Workspace::load(WORKED_SHEET)?;
    /// workspace.profile_deviance(&[1.0], Mode::Ml)?;
    /// assert_eq!(workspace.pivots()?, [vec![2.0], vec![2.0, 1.0]]);
    /// # Ok::<(), huskcanyon::Refusal>(())
    /// ```
    pub fn pivots(&self) -> Result<Vec<Vec<f64>>, Refusal> {
        (0..=self.blocks()).map(|block| self.block_pivots(block)).collect()
    }

    fn block_pivots(&self, block: usize) -> Result<Vec<f64>, Refusal> {
        let rows = if block < self.blocks() { self.heading[place::LEVELS + block] as usize } else { self.fixed_effects() + 1 };
        let pivots = (0..rows).map(|row| self.pivot(block as u64, row as u64));
        pivots.map(|answer| answer.map(|pivot| pivot.expect("a block has a pivot in each of its rows"))).collect()
    }
}

/// The counts and the steps left, not the numbers, of which there may be millions.
impl fmt::Debug for Workspace {
    fn fmt(&self, f: &mut fmt::Formatter) -> fmt::Result {
        f.debug_struct("Workspace")
            .field("readings", &self.readings())
            .field("fixed_effects", &self.fixed_effects())
            .field("random_rows", &self.random_rows())
            .field("blocks", &self.blocks())
            .field("steps_left", &self.steps_left())
            .finish_non_exhaustive()
    }
}

#[cfg(test)]
mod tests {
    use super::*;
    use crate::WORKED_SHEET;

    /// The example sheets, with blocks that are stored in each way that small sheets have.
    fn sheets() -> Vec<Vec<u8>> {
        let mut all = vec![WORKED_SHEET.to_vec()];
        for name in ["dyestuff", "penicillin", "pastes", "sleep-intercept"] {
            let path = format!("{}/../examples/{name}/sheet.txt", env!("CARGO_MANIFEST_DIR"));
            all.push(std::fs::read(&path).unwrap_or_else(|error| panic!("{path}: {error}")));
        }
        all
    }

    fn words(doubles: &[f64]) -> Vec<u64> {
        doubles.iter().map(|x| x.to_bits()).collect()
    }

    /// Blocks of so many levels without an entry; of a nested pair, each column has the one at its own index modulo the second block's levels.
    fn large(levels: &[usize], nested: bool) -> Vec<u8> {
        let q: usize = levels.iter().sum();
        let mut text = format!("size\t9\t1\t{q}\t{}\t1\n", levels.len());
        levels.iter().for_each(|m| text += &format!("block\t{m}\t1\n"));
        if nested {
            let row = |column: usize| levels[0] + column % levels[1];
            (0..levels[0]).for_each(|c| text += &format!("zz\t{c}\t{}\t3ff0000000000000\n", row(c)));
            for r in levels[0]..q {
                (r - levels[0]..levels[0]).step_by(levels[1]).for_each(|c| text += &format!("zz\t{r}\t{c}\t3ff0000000000000\n"));
            }
        }
        (0..q).for_each(|r| text += &format!("zx\t{r}\t0\t0000000000000000\n"));
        (0..q).for_each(|r| text += &format!("zy\t{r}\t0000000000000000\n"));
        (text + "xx\t0\t0\t3ff0000000000000\nxy\t0\t0000000000000000\nyy\t3ff0000000000000\n").into_bytes()
    }

    #[test]
    fn the_guess_is_room_enough() {
        // Dense pairs, a sparse one, and a sparse one whose second block is longer than a packed triangle may be.
        let dense = [large(&[316, 316], false), large(&[1, 250, 400], false), large(&[100; 8], false), large(&[65_535], false)];
        let sparse = [large(&[33_334, 3], true), large(&[40_000, 400], true)];
        assert!(sparse.iter().all(|sheet| raw::needs(sheet).unwrap().numbers > 30_000));
        for sheet in sheets().into_iter().chain(dense).chain(sparse) {
            let (guess, needs) = (room::guess(&sheet), raw::needs(&sheet).unwrap());
            assert!(guess.doubles >= needs.doubles && guess.numbers >= needs.numbers, "{guess:?} {needs:?}");
        }
    }

    #[test]
    fn where_the_guess_is_too_small_the_sheet_gets_exactly_what_it_needs() {
        for sheet in sheets() {
            let needs = raw::needs(&sheet).unwrap();
            let guessed = Workspace::load(&sheet).unwrap();
            for guess in [Room::NONE, Room { doubles: needs.doubles - 1, ..needs }, Room { numbers: needs.numbers - 1, ..needs }] {
                assert_eq!(Workspace::load_in(&sheet, guess).unwrap_err(), Refusal { number: TOO_SHORT, first: 0, second: 0 });
                let loaded = Workspace::load_guessing(&sheet, guess).unwrap();
                assert_eq!((loaded.doubles.len(), loaded.heading.len()), (needs.doubles, needs.numbers));
                assert_eq!(loaded.heading, guessed.heading[..needs.numbers]);
                assert_eq!(words(&loaded.doubles), words(&guessed.doubles[..needs.doubles]));
            }
        }
    }

    #[test]
    fn what_is_needed_of_a_refused_sheet_is_refused_as_load_does() {
        let sheet = &WORKED_SHEET[..WORKED_SHEET.len() - 1];
        assert_eq!(raw::needs(sheet).unwrap_err(), Workspace::load(sheet).unwrap_err());
    }

    /// Refusal 20: a heading that no call wrote. Through the public calls it cannot come, so it is provoked here.
    #[test]
    fn an_altered_heading_is_no_workspace() {
        let refusal = Refusal { number: 20, first: 0, second: 0 };
        let mut altered = Workspace::load(WORKED_SHEET).unwrap();
        altered.profile_deviance(&[1.0], Mode::Ml).unwrap();
        altered.heading[place::BLOCKS] = 9;
        let before = altered.clone();
        assert_eq!(altered.begin(&[1.0]), Err(refusal));
        assert_eq!(altered.step(Step::C(0)), Err(refusal));
        assert_eq!(altered.replace_response(&[4.0], &[6.0], &[9.0]), Err(refusal));
        assert_eq!(altered.profile_deviance(&[1.0], Mode::Ml), Err(refusal));
        assert_eq!(altered.deviance(Mode::Ml), Err(refusal));
        assert_eq!(altered.solve(Mode::Ml), Err(refusal));
        assert_eq!(altered.log_determinant(), Err(refusal));
        assert_eq!(altered.pivot(0, 0), Err(refusal));
        assert_eq!(raw::steps_left(&altered.heading), Err(refusal));
        assert_eq!(altered.heading, before.heading);
        assert_eq!(words(&altered.doubles), words(&before.doubles));
    }

    #[test]
    fn a_workspace_without_its_last_double_is_none() {
        let mut short = Workspace::load_in(WORKED_SHEET, raw::needs(WORKED_SHEET).unwrap()).unwrap();
        short.doubles.pop();
        assert_eq!(short.begin(&[1.0]), Err(Refusal { number: 20, first: 0, second: 0 }));
    }

    /// The result list of the wrong length: `solve` always gives the right one.
    #[test]
    fn a_result_list_of_the_wrong_length_is_refused_with_13() {
        let mut worked = Workspace::load(WORKED_SHEET).unwrap();
        worked.profile_deviance(&[1.0], Mode::Ml).unwrap();
        let (mut list, mut all) = ([7.0; 5], [7; 5]);
        let refused = raw::solve_profile_blocked(&worked.heading, &worked.doubles, Mode::Ml, &mut list, &mut all);
        assert_eq!(refused, Err(Refusal { number: 13, first: 0, second: 0 }));
        assert_eq!((list, all), ([7.0; 5], [7; 5]));
    }
}
