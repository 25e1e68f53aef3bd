//! A C program over the header and the archive: compiled with every warning an error, run, and held to its text.

use std::path::Path;
use std::process::Command;

const EXPECTED: &str = "\
needs 0: 0 0 e 80
load, a double too few 12: 0 0
load, a number too few 12: 0 0
load, no workspace 12: 0 0
load, a line too few 2: 8 0
begin, nothing loaded 20: 0 0
load 0: 0 0
step 22: 0 0
begin, no theta 13: 0 0
begin 0: 0 0
T(1,0) 24: 0 0
C(0) 0: 0 0
C(0) 23: 0 0
T(1,0) 0: 0 0
S(1,1,0) 0: 0 0
steps left 0: 0 0 1
deviance 25: 0 0 0 0 0
C(1) 0: 0 0
steps left 0: 0 0 0
pivot 0 0 0: 0 0 1 4000000000000000
pivot 1 0 0: 0 0 1 4000000000000000
pivot 1 1 0: 0 0 1 3ff0000000000000
pivot 1 2 0: 0 0 0 0
log determinant 0: 0 0
2 ln 2: yes
deviance 0: 0 0 1
profile deviance 0: 0 0 1
the same: yes
solve 0: 0 0
sigma2 3fd5555555555555, results 3ff0000000000000 3fe0000000000000 3fe0000000000000 4000000000000000 3ff0000000000000 3fe0000000000000
solve 0: 0 0
sigma2 3fe0000000000000, results 3ff0000000000000 3fe0000000000000 3fe0000000000000 4000000000000000 3ff0000000000000 3fe0000000000000
solve, a short list 13: 0 0 0 0
short answer 100: 0 1 2 3 4
no such mode 101: 0 1 2 3 4
words and results 103: 0 1 2 3 4
no such kind 102: 0 1 2 3 4
no such mode 101: 0 1 2 3 4
new response 0: 0 0
new response, no y'y 13: 2 0
solve 25: 0 0 0 0
profile deviance 0: 0 0 1
solve 0: 0 0
beta 4000000000000000
begin, infinite theta 14: 0 0
load 0: 0 0
no scale 0: 0 0 3 0 7fefffffffffffff
load 0: 0 0
refused pivot 26: 1 0 2 0 7fefffffffffffff
working doubles other than 0: 0
load 0: 0 0
NaN 0: 0 0 1 7ff8000000000000 7ff8000000000000
solve 27: 0 0 0 0
results other than 0: 0
steps left, no workspace 20: 0 0 0
step, no workspace 20: 0 0
root 1.5, logarithm 0
";

#[test]
fn the_worked_sheet_from_c() {
    let package = Path::new(env!("CARGO_MANIFEST_DIR"));
    let program = Path::new(env!("CARGO_TARGET_TMPDIR")).join("worked_sheet");
    let compiler = Command::new("cc")
        .args(["-std=c99", "-Wall", "-Wextra", "-Werror", "-O1"])
        .arg("-I")
        .arg(package.join("../include"))
        .arg(package.join("tests/c/worked_sheet.c"))
        .arg(env!("HUSKCANYON_LINKED_ARCHIVE"))
        .arg("-o")
        .arg(&program)
        .output()
        .expect("cc can be run");
    assert!(compiler.status.success(), "cc: {}", String::from_utf8_lossy(&compiler.stderr));
    let run = Command::new(&program).output().expect("the program can be run");
    assert!(run.status.success(), "{:?}", run.status);
    let printed = String::from_utf8(run.stdout).expect("text");
    for (printed, expected) in printed.lines().zip(EXPECTED.lines()) {
        assert_eq!(printed, expected);
    }
    assert_eq!(printed, EXPECTED);
}
