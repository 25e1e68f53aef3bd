//! The C boundary of the archive (include/huskcanyon.h) and, for each function, the same call over slices. Nothing else in this package is unsafe.
//!
//! A list is a pointer and a length. Every function returns a number, 0 where it accepts, and writes words into the answer list: the two places of a
//! refusal, then its values, doubles as their words. The number 26 of a deviance is a case among its values.

use crate::answers::{Deviance, Mode};
use crate::refusal::Refusal;
use crate::room::Room;
use crate::step::Step;

#[rustfmt::skip]
extern "C" {
    fn husk_needs(sheet: *const u8, sheet_length: usize, answer: *mut u64, answer_length: usize) -> u64;
    fn husk_load(sheet: *const u8, sheet_length: usize, heading: *mut u32, heading_length: usize, doubles: *mut f64, doubles_length: usize, answer: *mut u64, answer_length: usize) -> u64;
    fn husk_begin(heading: *mut u32, heading_length: usize, doubles: *mut f64, doubles_length: usize, theta: *const f64, theta_length: usize, answer: *mut u64, answer_length: usize) -> u64;
    fn husk_step(heading: *mut u32, heading_length: usize, doubles: *mut f64, doubles_length: usize, kind: u64, i: u64, j: u64, h: u64, answer: *mut u64, answer_length: usize) -> u64;
    fn husk_replace_response(heading: *mut u32, heading_length: usize, doubles: *mut f64, doubles_length: usize, zty: *const f64, zty_length: usize, xty: *const f64, xty_length: usize, yty: *const f64, yty_length: usize, answer: *mut u64, answer_length: usize) -> u64;
    fn husk_profile_deviance(heading: *mut u32, heading_length: usize, doubles: *mut f64, doubles_length: usize, theta: *const f64, theta_length: usize, mode: u64, answer: *mut u64, answer_length: usize) -> u64;
    fn husk_deviance_from_factor(heading: *const u32, heading_length: usize, doubles: *const f64, doubles_length: usize, mode: u64, answer: *mut u64, answer_length: usize) -> u64;
    fn husk_solve_profile_blocked(heading: *const u32, heading_length: usize, doubles: *const f64, doubles_length: usize, mode: u64, out: *mut f64, out_length: usize, words: *mut u64, words_length: usize, answer: *mut u64, answer_length: usize) -> u64;
    fn husk_steps_left(heading: *const u32, heading_length: usize, answer: *mut u64, answer_length: usize) -> u64;
    fn husk_log_determinant(heading: *const u32, heading_length: usize, doubles: *const f64, doubles_length: usize, answer: *mut u64, answer_length: usize) -> u64;
    fn husk_pivot(heading: *const u32, heading_length: usize, doubles: *const f64, doubles_length: usize, block: u64, row: u64, answer: *mut u64, answer_length: usize) -> u64;
}

// SAFETY, of every call below: each pointer comes with the length of the slice that it was taken from; a slice that is written is borrowed by `&mut`, so it
// overlaps no other, while those that are only read may overlap each other; and the functions are proved for all numbers, lengths and contents. They keep no pointer and have no state of their own.

type Answer<const N: usize> = Result<[u64; N], Refusal>;

/// The answer's words, or the refusal. Numbers from 100 on are for a wrong length, mode or kind at the boundary, which the functions below never give.
fn accepted<const N: usize>(number: u64, answer: [u64; N]) -> Answer<N> {
    assert!(number < 100, "the archive answers {number}: it is not of this package's version (include/huskcanyon.h)");
    match number {
        0 => Ok(answer),
        _ => Err(Refusal { number, first: answer[0], second: answer[1] }),
    }
}

/// Record 6's cases.
fn deviance(number: u64, answer: [u64; 5]) -> Result<Deviance, Refusal> {
    let [block, row, case, word, _] = answer;
    match case {
        1 => Ok(Deviance::Value(f64::from_bits(word))),
        2 => Ok(Deviance::Pivot { block, row }),
        3 => Ok(Deviance::NoScale),
        _ => match accepted(number, answer) {
            Err(refusal) => Err(refusal),
            Ok(_) => panic!("the archive answers no case of a deviance: it is not of this package's version (include/huskcanyon.h)"),
        },
    }
}

fn mode_number(mode: Mode) -> u64 {
    match mode {
        Mode::Ml => 0,
        Mode::Reml => 1,
    }
}

/// What load wants, of a sheet that it accepts.
pub fn needs(sheet: &[u8]) -> Result<Room, Refusal> {
    let mut answer = [0; 4];
    let number = unsafe { husk_needs(sheet.as_ptr(), sheet.len(), answer.as_mut_ptr(), answer.len()) };
    let [_, _, doubles, numbers] = accepted(number, answer)?;
    Ok(Room { doubles: doubles as usize, numbers: numbers as usize })
}

pub fn load(sheet: &[u8], heading: &mut [u32], doubles: &mut [f64]) -> Result<(), Refusal> {
    let mut answer = [0; 2];
    let number = unsafe {
        husk_load(sheet.as_ptr(), sheet.len(), heading.as_mut_ptr(), heading.len(), doubles.as_mut_ptr(), doubles.len(), answer.as_mut_ptr(), answer.len())
    };
    accepted(number, answer).map(|_| ())
}

pub fn begin(heading: &mut [u32], doubles: &mut [f64], theta: &[f64]) -> Result<(), Refusal> {
    let mut answer = [0; 2];
    let number = unsafe {
        husk_begin(heading.as_mut_ptr(), heading.len(), doubles.as_mut_ptr(), doubles.len(), theta.as_ptr(), theta.len(), answer.as_mut_ptr(), answer.len())
    };
    accepted(number, answer).map(|_| ())
}

pub fn step(heading: &mut [u32], doubles: &mut [f64], step: Step) -> Result<(), Refusal> {
    let (kind, i, j, h) = match step {
        Step::S(i, j, h) => (0, i, j, h),
        Step::C(j) => (1, j, 0, 0),
        Step::T(i, j) => (2, i, j, 0),
    };
    let mut answer = [0; 2];
    let number =
        unsafe { husk_step(heading.as_mut_ptr(), heading.len(), doubles.as_mut_ptr(), doubles.len(), kind, i, j, h, answer.as_mut_ptr(), answer.len()) };
    accepted(number, answer).map(|_| ())
}

pub fn replace_response(heading: &mut [u32], doubles: &mut [f64], zty: &[f64], xty: &[f64], yty: &[f64]) -> Result<(), Refusal> {
    let mut answer = [0; 2];
    let number = unsafe {
        husk_replace_response(
            heading.as_mut_ptr(),
            heading.len(),
            doubles.as_mut_ptr(),
            doubles.len(),
            zty.as_ptr(),
            zty.len(),
            xty.as_ptr(),
            xty.len(),
            yty.as_ptr(),
            yty.len(),
            answer.as_mut_ptr(),
            answer.len(),
        )
    };
    accepted(number, answer).map(|_| ())
}

pub fn profile_deviance(heading: &mut [u32], doubles: &mut [f64], theta: &[f64], mode: Mode) -> Result<Deviance, Refusal> {
    let mut answer = [0; 5];
    let number = unsafe {
        husk_profile_deviance(
            heading.as_mut_ptr(),
            heading.len(),
            doubles.as_mut_ptr(),
            doubles.len(),
            theta.as_ptr(),
            theta.len(),
            mode_number(mode),
            answer.as_mut_ptr(),
            answer.len(),
        )
    };
    deviance(number, answer)
}

pub fn deviance_from_factor(heading: &[u32], doubles: &[f64], mode: Mode) -> Result<Deviance, Refusal> {
    let mut answer = [0; 5];
    let number = unsafe {
        husk_deviance_from_factor(heading.as_ptr(), heading.len(), doubles.as_ptr(), doubles.len(), mode_number(mode), answer.as_mut_ptr(), answer.len())
    };
    deviance(number, answer)
}

/// The words of deviance and sigma2; `out` is where the solver works, and `words`, which is as long, gets the word of each of its doubles.
pub fn solve_profile_blocked(heading: &[u32], doubles: &[f64], mode: Mode, out: &mut [f64], words: &mut [u64]) -> Result<[u64; 2], Refusal> {
    let mut answer = [0; 4];
    let number = unsafe {
        husk_solve_profile_blocked(
            heading.as_ptr(),
            heading.len(),
            doubles.as_ptr(),
            doubles.len(),
            mode_number(mode),
            out.as_mut_ptr(),
            out.len(),
            words.as_mut_ptr(),
            words.len(),
            answer.as_mut_ptr(),
            answer.len(),
        )
    };
    let [_, _, deviance, sigma2] = accepted(number, answer)?;
    Ok([deviance, sigma2])
}

pub fn steps_left(heading: &[u32]) -> Result<u64, Refusal> {
    let mut answer = [0; 3];
    let number = unsafe { husk_steps_left(heading.as_ptr(), heading.len(), answer.as_mut_ptr(), answer.len()) };
    let [_, _, steps] = accepted(number, answer)?;
    Ok(steps)
}

/// A value that may be absent.
fn view(number: u64, answer: [u64; 4]) -> Result<Option<f64>, Refusal> {
    let [_, _, present, word] = accepted(number, answer)?;
    Ok((present == 1).then(|| f64::from_bits(word)))
}

pub fn log_determinant(heading: &[u32], doubles: &[f64]) -> Result<Option<f64>, Refusal> {
    let mut answer = [0; 4];
    let number = unsafe { husk_log_determinant(heading.as_ptr(), heading.len(), doubles.as_ptr(), doubles.len(), answer.as_mut_ptr(), answer.len()) };
    view(number, answer)
}

pub fn pivot(heading: &[u32], doubles: &[f64], block: u64, row: u64) -> Result<Option<f64>, Refusal> {
    let mut answer = [0; 4];
    let number = unsafe { husk_pivot(heading.as_ptr(), heading.len(), doubles.as_ptr(), doubles.len(), block, row, answer.as_mut_ptr(), answer.len()) };
    view(number, answer)
}
