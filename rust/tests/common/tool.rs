//! Runs `husk` and makes records, for the tests of the tool.

use std::fmt::Write as _;
use std::io::Write as _;
use std::path::{Path, PathBuf};
use std::process::{Command, Stdio};

use huskcanyon::{Deviance, Mode, Workspace};

/// What a run of `husk` came to.
#[derive(Debug)]
pub struct Run {
    pub status: i32,
    pub out: String,
    pub err: String,
}

pub fn husk(arguments: &[&str]) -> Run {
    husk_fed(arguments, b"")
}

/// With something on standard input.
pub fn husk_fed(arguments: &[&str], input: &[u8]) -> Run {
    let mut command = Command::new(env!("CARGO_BIN_EXE_husk"));
    let mut child = command.args(arguments).stdin(Stdio::piped()).stdout(Stdio::piped()).stderr(Stdio::piped()).spawn().expect("husk can be run");
    // A command that does not read its input may be gone already.
    let _ = child.stdin.take().expect("a pipe").write_all(input);
    let output = child.wait_with_output().expect("husk ends");
    let text = |bytes: Vec<u8>| String::from_utf8(bytes).expect("husk writes UTF-8");
    Run { status: output.status.code().expect("husk is not killed"), out: text(output.stdout), err: text(output.stderr) }
}

/// A folder of a test's own, empty at first. It goes with the test, unless that fails.
pub struct Folder(PathBuf);

pub fn folder(name: &str) -> Folder {
    let path = Path::new(env!("CARGO_TARGET_TMPDIR")).join(format!("husk-{name}-{}", std::process::id()));
    let _ = std::fs::remove_dir_all(&path);
    std::fs::create_dir_all(&path).expect("a folder can be made");
    Folder(path)
}

impl std::ops::Deref for Folder {
    type Target = Path;
    fn deref(&self) -> &Path {
        &self.0
    }
}

impl Drop for Folder {
    fn drop(&mut self) {
        if !std::thread::panicking() {
            let _ = std::fs::remove_dir_all(&self.0);
        }
    }
}

/// A file in a folder, and its name as an argument.
pub fn put(folder: &Path, name: &str, bytes: impl AsRef<[u8]>) -> String {
    let path = folder.join(name);
    std::fs::write(&path, bytes).expect("a file can be written");
    path.to_str().expect("a name in UTF-8").to_string()
}

pub fn read(path: &str) -> String {
    std::fs::read_to_string(path).unwrap_or_else(|error| panic!("{path}: {error}"))
}

/// A file of examples/, by its path.
pub fn example_path(path: &str) -> String {
    format!("{}/../examples/{path}", env!("CARGO_MANIFEST_DIR"))
}

/// A record as docs/RECORDS.md says, written here by itself, with the answers that the package gives.
pub fn record(sheet: &str, tries: &[(Mode, Vec<f64>)]) -> String {
    let mut workspace = Workspace::load(sheet.as_bytes()).unwrap();
    let mut text = format!("record\t1\t1\n{sheet}");
    for (mode, theta) in tries {
        writeln!(text, "try\t{}", if *mode == Mode::Ml { "ml" } else { "reml" }).unwrap();
        for (index, number) in theta.iter().enumerate() {
            writeln!(text, "theta\t{index}\t{:016x}", number.to_bits()).unwrap();
        }
        text += &answer(&mut workspace, theta, *mode);
    }
    text
}

fn answer(workspace: &mut Workspace, theta: &[f64], mode: Mode) -> String {
    match workspace.profile_deviance(theta, mode) {
        Err(refusal) => return format!("refused\t{}\t{}\t{}\n", refusal.number, refusal.first, refusal.second),
        Ok(Deviance::Pivot { block, row }) => return format!("refused\t26\t{block}\t{row}\n"),
        Ok(Deviance::NoScale) => return "noscale\n".to_string(),
        Ok(Deviance::Value(_)) => {}
    }
    let solution = match workspace.solve(mode) {
        Err(refusal) => return format!("refused\t{}\t{}\t{}\n", refusal.number, refusal.first, refusal.second),
        Ok(solution) => solution,
    };
    let mut text = format!("deviance\t{:016x}\nsigma2\t{:016x}\n", solution.deviance.to_bits(), solution.sigma2.to_bits());
    for (tag, values) in [("beta", &solution.beta), ("b", &solution.b), ("u", &solution.u)] {
        for (index, value) in values.iter().enumerate() {
            writeln!(text, "{tag}\t{index}\t{:016x}", value.to_bits()).unwrap();
        }
    }
    text
}

/// The worked sheet of document 01 with some texts in the place of others.
pub fn worked(changes: &[(&str, &str)]) -> String {
    let mut sheet = String::from_utf8(huskcanyon::WORKED_SHEET.to_vec()).unwrap();
    for (old, new) in changes {
        assert_eq!(sheet.matches(old).count(), 1, "{old:?}");
        sheet = sheet.replace(old, new);
    }
    sheet
}

/// A sheet whose factor has no pivot in row 0 of block 1: X'X is 0.
pub fn without_pivot() -> String {
    worked(&[("4014000000000000", "0000000000000000")])
}

/// A sheet that REML gives no scale: one reading, one fixed effect.
pub fn without_scale() -> String {
    worked(&[("size\t3", "size\t1")])
}
