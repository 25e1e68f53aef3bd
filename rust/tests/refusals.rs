//! Every refusal of document 01's two tables that can be provoked through the package, with its places and its words.
//!
//! Two cannot be: 12, since `Workspace::load` guesses room enough and else asks what a sheet needs, and 20, since nobody else writes a workspace. Nor can 13 for the result list, since
//! `Workspace::solve` makes it. All three are provoked in src/workspace.rs, which sees the memory, and by the C program (tests/c/).

mod common;

use common::example;
use huskcanyon::{Deviance, Mode, Refusal, Step, Workspace, WORKED_SHEET};

fn worked() -> Workspace {
    Workspace::load(WORKED_SHEET).unwrap()
}

/// The worked sheet with some texts in the place of others.
fn altered(changes: &[(&str, &str)]) -> Vec<u8> {
    let mut sheet = String::from_utf8(WORKED_SHEET.to_vec()).unwrap();
    for (old, new) in changes {
        assert_eq!(sheet.matches(old).count(), 1, "{old:?}");
        sheet = sheet.replace(old, new);
    }
    sheet.into_bytes()
}

fn word(x: f64) -> String {
    format!("{:016x}", x.to_bits())
}

/// A sheet of blocks without entries, readings or anything else but zeros, and 1 for X'X and y'y.
fn empty_sheet(levels: &[usize]) -> Vec<u8> {
    let q: usize = levels.iter().sum();
    let mut sheet = format!("size\t9\t1\t{q}\t{}\t1\n", levels.len());
    levels.iter().for_each(|m| sheet += &format!("block\t{m}\t1\n"));
    (0..q).for_each(|row| sheet += &format!("zx\t{row}\t0\t{}\n", word(0.0)));
    (0..q).for_each(|row| sheet += &format!("zy\t{row}\t{}\n", word(0.0)));
    (sheet + &format!("xx\t0\t0\t{}\nxy\t0\t{}\nyy\t{}\n", word(1.0), word(0.0), word(1.0))).into_bytes()
}

/// The answer has the number and the places, and its text begins with the number and holds these words.
#[track_caller]
fn hold<T: std::fmt::Debug>(answer: Result<T, Refusal>, number: u64, places: [u64; 2], words: &str) {
    let refusal = answer.expect_err("a refusal");
    assert_eq!((refusal.number, refusal.places()), (number, places), "{refusal}");
    let text = refusal.to_string();
    assert!(text.starts_with(&format!("refusal {number}: ")) && text.contains(words), "{text:?}");
}

#[track_caller]
fn hold_load(sheet: &[u8], number: u64, places: [u64; 2], words: &str) {
    hold(Workspace::load(sheet), number, places, words);
}

// ---- because of the input

#[test]
fn number_1_the_sheet_is_too_long() {
    let mut sheet = WORKED_SHEET.to_vec();
    sheet.resize(16_777_217, b'\n');
    hold_load(&sheet, 1, [0, 0], "longer than 16,777,216 bytes");
    sheet.pop();
    hold_load(&sheet, 2, [9, 0], "line 9");
}

#[test]
fn number_2_a_line_is_ill_formed_missing_or_out_of_sequence() {
    hold_load(b"", 2, [1, 0], "line 1 of the sheet is ill-formed, missing or out of sequence");
    hold_load(&altered(&[("zx\t0\t0", "zx 0\t0")]), 2, [4, 0], "line 4");
    hold_load(&altered(&[("xy\t0\t4018000000000000\n", "")]), 2, [7, 0], "line 7");
    hold_load(&WORKED_SHEET[..WORKED_SHEET.len() - 1], 2, [8, 0], "line 8");
    hold_load(&[WORKED_SHEET, b"\n"].concat(), 2, [9, 0], "line 9");
    hold_load(&altered(&[("size\t3", "size\t03")]), 2, [1, 0], "line 1");
    hold_load(b"\xff\xfe\0\n", 2, [1, 0], "line 1");
}

#[test]
fn number_3_a_word_is_infinite_or_nan() {
    hold_load(&altered(&[("4008000000000000", "7ff0000000000000")]), 3, [3, 0], "the word on line 3 of the sheet is infinite or NaN");
    hold_load(&altered(&[("4022000000000000", "fff8000000000001")]), 3, [8, 0], "line 8");
}

#[test]
fn number_4_a_count_or_index_is_outside_its_range() {
    hold_load(&altered(&[("size\t3", "size\t1000000001")]), 4, [1, 0], "a count or an index on line 1 of the sheet is outside its range");
    hold_load(&altered(&[("block\t1\t1", "block\t65536\t1")]), 4, [2, 0], "line 2");
    hold_load(&altered(&[("zz\t0\t0", "zz\t0\t1")]), 4, [3, 0], "line 3");
    hold_load(&altered(&[("size\t3", "size\t18446744073709551617")]), 4, [1, 0], "line 1");
}

#[test]
fn number_5_the_flag_is_0() {
    hold_load(&altered(&[("size\t3\t1\t1\t1\t1", "size\t3\t1\t1\t1\t0")]), 5, [0, 0], "intercepts only");
}

#[test]
fn number_6_there_is_no_block() {
    let sheet = format!("size\t3\t1\t0\t0\t1\nxx\t0\t0\t{}\nxy\t0\t{}\nyy\t{}\n", word(5.0), word(6.0), word(9.0));
    hold_load(sheet.as_bytes(), 6, [0, 0], "no block");
}

#[test]
fn number_7_a_block_has_slopes() {
    hold_load(&altered(&[("block\t1\t1", "block\t1\t2")]), 7, [0, 0], "more than one effect per level");
}

#[test]
fn number_8_q_is_not_the_sum_of_the_levels() {
    hold_load(&altered(&[("block\t1\t1", "block\t2\t1")]), 8, [0, 0], "q is not the sum");
}

#[test]
fn number_9_an_entry_is_zero_misplaced_or_without_mirror() {
    hold_load(&altered(&[("4008000000000000", "0000000000000000")]), 9, [3, 0], "the zz entry on line 3 of the sheet is zero");
    hold_load(&altered(&[("4008000000000000", "8000000000000000")]), 9, [3, 0], "line 3");
    let dyestuff = example("dyestuff/sheet.txt");
    let beside = dyestuff.replacen("zz\t1\t1", "zz\t0\t1\t3ff0000000000000\nzz\t1\t1", 1);
    hold_load(beside.as_bytes(), 9, [4, 0], "off the diagonal inside a block");
    // The first faulty line of the sheet is named; the mirrors stand on different lines.
    let penicillin = example("penicillin/sheet.txt");
    let line = penicillin.lines().position(|line| line.starts_with("zz\t0\t24\t")).unwrap() + 1;
    let without = penicillin.replacen("zz\t24\t0\t3ff0000000000000\n", "", 1);
    hold_load(without.as_bytes(), 9, [line as u64, 0], "without a mirror of equal bits");
    let unequal = penicillin.replacen("zz\t24\t0\t3ff0000000000000\n", "zz\t24\t0\t3ff0000000000001\n", 1);
    hold_load(unequal.as_bytes(), 9, [line as u64, 0], "without a mirror of equal bits");
}

#[test]
fn number_10_a_pair_of_three_blocks_is_too_large() {
    hold_load(&empty_sheet(&[300, 400, 1]), 10, [1, 0], "the pair of sorted blocks (1, 0) has more than 100,000 cells");
    hold_load(&empty_sheet(&[400, 2, 251]), 10, [1, 0], "(1, 0)");
    hold_load(&empty_sheet(&[320, 320, 313]), 10, [1, 0], "(1, 0)");
    assert_eq!(Workspace::load(&empty_sheet(&[250, 400, 1])).unwrap().blocks(), 3);
}

#[test]
fn number_11_a_pair_fails_the_gate() {
    hold_load(&empty_sheet(&[300, 400]), 11, [1, 0], "the pair of sorted blocks (1, 0)");
    assert_eq!(Workspace::load(&empty_sheet(&[316, 316])).unwrap().random_rows(), 632);
    // Document 01's worked case: 2 x 50,000 cells are dense, with 2 x 50,001 and one entry a column the entries are too many.
    let mut random = common::Random(12);
    let mut nested = |m| common::Readings::random(&[m, 2], 1, m, true, &mut random).sheet();
    assert_eq!(Workspace::load(nested(50_000).as_bytes()).unwrap().random_rows(), 50_002);
    hold_load(nested(50_001).as_bytes(), 11, [1, 0], "too many for its cells");
}

#[test]
fn number_13_a_list_has_the_wrong_length() {
    let mut workspace = worked();
    for theta in [&[][..], &[1.0, 1.0], &[f64::NAN, f64::NAN]] {
        hold(workspace.begin(theta), 13, [0, 0], "list 0 has the wrong length");
        hold(workspace.profile_deviance(theta, Mode::Ml), 13, [0, 0], "list 0");
        hold(workspace.profile_deviance(theta, Mode::Reml), 13, [0, 0], "list 0");
    }
    let (right, wrong) = (&[1.0][..], &[1.0, f64::INFINITY][..]);
    hold(workspace.replace_response(&[], right, right), 13, [0, 0], "list 0");
    hold(workspace.replace_response(wrong, right, right), 13, [0, 0], "list 0");
    hold(workspace.replace_response(right, &[], right), 13, [1, 0], "list 1");
    hold(workspace.replace_response(right, wrong, right), 13, [1, 0], "list 1");
    hold(workspace.replace_response(right, right, &[]), 13, [2, 0], "list 2");
    hold(workspace.replace_response(right, right, wrong), 13, [2, 0], "list 2");
    // Every length comes before any word.
    hold(workspace.replace_response(&[f64::NAN], right, &[]), 13, [2, 0], "list 2");
}

#[test]
fn number_14_a_list_holds_an_infinity_or_nan() {
    let mut workspace = Workspace::load(example("penicillin/sheet.txt").as_bytes()).unwrap();
    hold(workspace.begin(&[1.0, f64::NAN]), 14, [0, 1], "list 0 holds an infinity or NaN at index 1");
    hold(workspace.begin(&[f64::NEG_INFINITY, f64::NAN]), 14, [0, 0], "index 0");
    hold(workspace.profile_deviance(&[1.0, f64::INFINITY], Mode::Ml), 14, [0, 1], "index 1");
    let mut zty = vec![1.0; 30];
    hold(workspace.replace_response(&zty, &[1.0], &[f64::INFINITY]), 14, [2, 0], "list 2 holds an infinity or NaN at index 0");
    hold(workspace.replace_response(&zty, &[f64::NAN], &[f64::INFINITY]), 14, [1, 0], "list 1");
    zty[17] = f64::NAN;
    hold(workspace.replace_response(&zty, &[f64::NAN], &[f64::INFINITY]), 14, [0, 17], "list 0 holds an infinity or NaN at index 17");
}

/// A refused list leaves an update as it stands.
#[test]
fn refused_lists_change_nothing() {
    let mut workspace = worked();
    workspace.begin(&[1.0]).unwrap();
    workspace.step(Step::C(0)).unwrap();
    workspace.begin(&[]).unwrap_err();
    workspace.begin(&[f64::NAN]).unwrap_err();
    workspace.profile_deviance(&[2.0, 2.0], Mode::Ml).unwrap_err();
    workspace.replace_response(&[1.0], &[1.0], &[]).unwrap_err();
    workspace.replace_response(&[1.0], &[1.0], &[f64::NAN]).unwrap_err();
    assert_eq!(workspace.ready_steps(), [Step::T(1, 0)]);
    for step in [Step::T(1, 0), Step::S(1, 1, 0), Step::C(1)] {
        workspace.step(step).unwrap();
    }
    let mut fresh = worked();
    fresh.profile_deviance(&[1.0], Mode::Ml).unwrap();
    assert_eq!(common::words(&workspace), common::words(&fresh));
}

// ---- because of the state

#[test]
fn number_21_there_is_no_such_step() {
    let mut workspace = worked();
    workspace.begin(&[1.0]).unwrap();
    for step in [Step::C(2), Step::T(0, 0), Step::T(0, 1), Step::S(1, 1, 1), Step::S(0, 1, 0), Step::S(2, 1, 0), Step::C(u64::MAX)] {
        hold(workspace.step(step), 21, [0, 0], "no step of that name");
    }
}

#[test]
fn number_22_no_update_is_under_way() {
    let mut workspace = worked();
    hold(workspace.step(Step::C(0)), 22, [0, 0], "no update is under way");
    hold(workspace.step(Step::C(9)), 22, [0, 0], "no update is under way");
    workspace.profile_deviance(&[1.0], Mode::Ml).unwrap();
    hold(workspace.step(Step::C(0)), 22, [0, 0], "no update is under way");
    workspace.begin(&[1.0]).unwrap();
    workspace.replace_response(&[4.0], &[6.0], &[9.0]).unwrap();
    hold(workspace.step(Step::C(0)), 22, [0, 0], "no update is under way");
}

#[test]
fn number_23_the_step_is_already_done() {
    let mut workspace = worked();
    workspace.begin(&[1.0]).unwrap();
    workspace.step(Step::C(0)).unwrap();
    hold(workspace.step(Step::C(0)), 23, [0, 0], "already done");
}

#[test]
fn number_24_a_forerunner_is_missing() {
    let mut workspace = worked();
    workspace.begin(&[1.0]).unwrap();
    for step in [Step::T(1, 0), Step::S(1, 1, 0), Step::C(1)] {
        hold(workspace.step(step), 24, [0, 0], "a forerunner of the step is missing");
    }
}

#[test]
fn number_25_the_factor_is_not_finished() {
    let mut workspace = worked();
    for _ in 0..2 {
        for mode in common::MODES {
            hold(workspace.deviance(mode), 25, [0, 0], "the factor is not finished");
            hold(workspace.solve(mode), 25, [0, 0], "the factor is not finished");
        }
        hold(workspace.log_determinant(), 25, [0, 0], "not finished");
        hold(workspace.pivot(0, 0), 25, [0, 0], "not finished");
        hold(workspace.pivot(9, 9), 25, [0, 0], "not finished");
        hold(workspace.pivots(), 25, [0, 0], "not finished");
        workspace.begin(&[1.0]).unwrap();
    }
    workspace.profile_deviance(&[1.0], Mode::Ml).unwrap();
    workspace.replace_response(&[4.0], &[6.0], &[9.0]).unwrap();
    hold(workspace.solve(Mode::Ml), 25, [0, 0], "not finished");
}

#[test]
fn number_26_a_pivot_is_refused() {
    // X'X of 0.5 is less than the 1 that the random row takes from it.
    let mut workspace = Workspace::load(&altered(&[("4014000000000000", &word(0.5))])).unwrap();
    workspace.begin(&[1.0]).unwrap();
    for step in [Step::C(0), Step::T(1, 0), Step::S(1, 1, 0)] {
        workspace.step(step).unwrap();
    }
    hold(workspace.step(Step::C(1)), 26, [1, 0], "the pivot of block 1, row 0, is at most 0");
    hold(workspace.step(Step::C(1)), 22, [0, 0], "no update is under way");
    assert_eq!(workspace.steps_left(), 4);
    // In profile_deviance it is an answer, and no refusal.
    for mode in common::MODES {
        assert_eq!(workspace.profile_deviance(&[1.0], mode), Ok(Deviance::Pivot { block: 1, row: 0 }));
        assert_eq!(workspace.profile_deviance(&[1.0], mode).unwrap().rust_value(), f64::MAX);
    }
    hold(workspace.deviance(Mode::Ml), 25, [0, 0], "not finished");
    // At theta 0 the random row takes nothing, but the fixed effect takes 72 from y'y, which is 9.
    assert_eq!(workspace.profile_deviance(&[0.0], Mode::Ml), Ok(Deviance::Pivot { block: 1, row: 1 }));
    let mut workspace = Workspace::load(&altered(&[("4008000000000000", &word(-3.0))])).unwrap();
    workspace.begin(&[1.0]).unwrap();
    hold(workspace.step(Step::C(0)), 26, [0, 0], "block 0, row 0");
    assert_eq!(workspace.profile_deviance(&[1.0], Mode::Reml), Ok(Deviance::Pivot { block: 0, row: 0 }));
}

/// theta·theta is infinite, and times the absent entry it is NaN, which passes as a pivot; the finish refuses it.
#[test]
fn number_27_a_pivot_of_the_finish_is_refused() {
    let mut workspace = Workspace::load(&altered(&[("zz\t0\t0\t4008000000000000\n", "")])).unwrap();
    assert!(workspace.profile_deviance(&[1e200], Mode::Ml).unwrap().value().unwrap().is_nan());
    assert_eq!(workspace.pivot(0, 0).unwrap().unwrap().to_bits(), 0x7ff8_0000_0000_0000);
    for mode in common::MODES {
        hold(workspace.solve(mode), 27, [0, 0], "the pivot of row 0 of the finish is not above 0");
    }
    // Two fixed effects, of which the second alone is too large: infinity by infinity is NaN.
    let sheet = format!(
        "size\t3\t2\t1\t1\t1\nblock\t1\t1\nzz\t0\t0\t{}\nzx\t0\t0\t{}\nzx\t0\t1\t{}\nzy\t0\t{}\nxx\t0\t0\t{}\nxx\t1\t0\t{}\nxx\t1\t1\t{}\nxy\t0\t{}\nxy\t1\t{}\nyy\t{}\n",
        word(3.0),
        word(2.0),
        word(1e308),
        word(4.0),
        word(5.0),
        word(1.0),
        word(5.0),
        word(6.0),
        word(1.0),
        word(9.0)
    );
    let mut workspace = Workspace::load(sheet.as_bytes()).unwrap();
    workspace.profile_deviance(&[1e160], Mode::Ml).unwrap();
    hold(workspace.solve(Mode::Ml), 27, [1, 0], "the pivot of row 1 of the finish");
}

// ---- what is no refusal

/// REML with as many fixed effects as readings (document 01's worked case).
#[test]
fn no_scale_is_an_answer() {
    let mut workspace = Workspace::load(&altered(&[("size\t3", "size\t1")])).unwrap();
    assert_eq!(workspace.profile_deviance(&[1.0], Mode::Reml), Ok(Deviance::NoScale));
    assert_eq!(workspace.deviance(Mode::Reml), Ok(Deviance::NoScale));
    assert_eq!(workspace.deviance(Mode::Reml).unwrap().rust_value(), f64::MAX);
    assert!(workspace.deviance(Mode::Ml).unwrap().value().is_some());
}

#[test]
fn a_refusal_is_an_error_like_others() {
    let refusal: Box<dyn std::error::Error + Send + Sync> = Box::new(Workspace::load(b"").unwrap_err());
    assert!(refusal.to_string().starts_with("refusal 2: line 1"));
    assert!(refusal.source().is_none());
}

/// After a new response every answer is that of the sheet with that response.
#[test]
fn a_new_response_is_a_new_sheet() {
    let (a, b, c) = (word(1.5), word(-2.25), word(88.0));
    let sheet = altered(&[("4010000000000000", &a), ("4018000000000000", &b), ("4022000000000000", &c)]);
    let mut loaded = Workspace::load(&sheet).unwrap();
    let mut replaced = worked();
    replaced.profile_deviance(&[0.5], Mode::Ml).unwrap();
    replaced.replace_response(&[1.5], &[-2.25], &[88.0]).unwrap();
    for workspace in [&mut loaded, &mut replaced] {
        workspace.profile_deviance(&[2.0], Mode::Reml).unwrap();
    }
    assert_eq!(common::words(&loaded), common::words(&replaced));
}
