//! docs/GUIDE.md, run as it stands: its `sh` blocks in one shell, in turn, and what each prints held to the `text` block behind it.

use std::ffi::OsString;
use std::os::unix::fs::symlink;
use std::path::{Path, PathBuf};
use std::process::{Command, Stdio};
use std::{env, fs, process};

/// The line before a block that is shown, and not run.
const SHOWN: &str = "<!-- shown, not run -->";

/// A block of commands.
struct Block {
    /// The guide's line on which it begins.
    line: usize,
    commands: String,
    run: bool,
    /// What it prints; none where the guide shows nothing behind it.
    printed: Option<String>,
}

/// The blocks of commands in their order. What is not understood is an error, so that no block is passed over by a slip.
fn blocks(guide: &str) -> Vec<Block> {
    let mut blocks: Vec<Block> = Vec::new();
    // The last line outside blocks that is not empty, and whether a block of commands stands right above.
    let (mut above, mut behind_commands) = ("", false);
    let mut lines = guide.lines().enumerate();
    while let Some((index, line)) = lines.next() {
        let Some(kind) = line.strip_prefix("```") else {
            assert!(!line.trim_start().starts_with("```"), "line {}: a fence begins its line", index + 1);
            if !line.is_empty() {
                assert!(above != SHOWN, "line {}: behind {SHOWN} comes a block of commands", index + 1);
                (above, behind_commands) = (line, false);
            }
            continue;
        };
        let mut text = String::new();
        loop {
            let (_, line) = lines.next().unwrap_or_else(|| panic!("line {}: the block has no end", index + 1));
            if line == "```" {
                break;
            }
            text += line;
            text.push('\n');
        }
        let run = above != SHOWN;
        match kind {
            "sh" => blocks.push(Block { line: index + 1, commands: text, run, printed: None }),
            "text" => {
                let commands = blocks.last_mut().filter(|block| behind_commands && block.run);
                commands.unwrap_or_else(|| panic!("line {}: a text block stands right behind commands that are run", index + 1)).printed = Some(text);
            }
            // What other programs print.
            "" => assert!(run, "line {}: only a block of commands can be shown and not run", index + 1),
            _ => panic!("line {}: a block of {kind}, which is not known here", index + 1),
        }
        (above, behind_commands) = ("", kind == "sh");
    }
    blocks
}

/// A folder that looks like the repository's root as far as the guide goes.
fn root() -> PathBuf {
    let root = Path::new(env!("CARGO_TARGET_TMPDIR")).join(format!("guide-{}", process::id()));
    let _ = fs::remove_dir_all(&root);
    fs::create_dir_all(&root).unwrap();
    symlink(Path::new(env!("CARGO_MANIFEST_DIR")).join("../examples"), root.join("examples")).unwrap();
    root
}

/// The path with the folder of the built program in front.
fn path() -> OsString {
    let folder = Path::new(env!("CARGO_BIN_EXE_husk")).parent().unwrap().to_path_buf();
    let rest = env::var_os("PATH").unwrap_or_default();
    env::join_paths(std::iter::once(folder).chain(env::split_paths(&rest))).unwrap()
}

/// The line before what a block prints, with its end.
fn separator(block: &Block) -> String {
    format!("===== docs/GUIDE.md:{} =====\n", block.line)
}

/// Panics with both texts and the first line in which they differ.
fn assert_same(block: &Block, expected: &str, got: &str) {
    if expected == got {
        return;
    }
    let at = expected.lines().zip(got.lines()).take_while(|(expected, got)| expected == got).count();
    let line = |text: &str| text.lines().nth(at).map_or("no line".to_string(), |line| format!("{line:?}"));
    panic!(
        "docs/GUIDE.md:{}: line {} of what the block prints\nexpected: {}\ngot:      {}\n\ncommands:\n{}\nall that was expected:\n{expected}\nall that it printed:\n{got}",
        block.line,
        at + 1,
        line(expected),
        line(got),
        block.commands
    );
}

#[test]
fn the_guide_prints_what_it_shows() {
    let guide = fs::read_to_string(Path::new(env!("CARGO_MANIFEST_DIR")).join("../docs/GUIDE.md")).unwrap();
    let blocks = blocks(&guide);
    let run: Vec<&Block> = blocks.iter().filter(|block| block.run).collect();
    assert!(run.len() > 10 && run.iter().filter(|block| block.printed.is_some()).count() > 10, "the guide runs only {} blocks", run.len());
    for command in ["sheet", "show", "solve", "file", "verify", "orders"] {
        assert!(run.iter().any(|block| block.commands.contains(&format!("husk {command} "))), "the guide does not run husk {command}");
    }

    let script: String = run.iter().map(|block| format!("printf '%s' '{}'\n{}", separator(block), block.commands)).collect();
    let root = root();
    let output = Command::new("sh").args(["-e", "-c", &script]).current_dir(&root).env("PATH", path()).stdin(Stdio::null()).output().unwrap();
    fs::remove_dir_all(root).unwrap();
    let (printed, errors) = (String::from_utf8(output.stdout).unwrap(), String::from_utf8_lossy(&output.stderr));
    let mut rest = printed.as_str();
    for (i, block) in run.iter().enumerate() {
        rest = rest.strip_prefix(separator(block).as_str()).unwrap_or_else(|| panic!("docs/GUIDE.md:{}: the block was not reached\n{errors}", block.line));
        let end = run.get(i + 1).and_then(|next| rest.find(separator(next).as_str()));
        let got = &rest[..end.unwrap_or(rest.len())];
        rest = &rest[got.len()..];
        if end.is_none() && !output.status.success() {
            panic!("docs/GUIDE.md:{}: the block ends with {}\n{errors}\ncommands:\n{}\nit printed:\n{got}", block.line, output.status, block.commands);
        }
        assert_same(block, block.printed.as_deref().unwrap_or(""), got);
    }
}

/// Of the blocks that are not run, that a shell can read them.
#[test]
fn the_blocks_that_are_shown_can_be_read() {
    let guide = fs::read_to_string(Path::new(env!("CARGO_MANIFEST_DIR")).join("../docs/GUIDE.md")).unwrap();
    let shown: Vec<Block> = blocks(&guide).into_iter().filter(|block| !block.run).collect();
    assert_eq!(shown.len(), 4, "building, xargs, parallel, Slurm");
    for block in shown {
        let output = Command::new("sh").args(["-n", "-c", &block.commands]).output().unwrap();
        assert!(output.status.success(), "docs/GUIDE.md:{}: {}", block.line, String::from_utf8_lossy(&output.stderr));
    }
}

#[test]
fn blocks_are_taken_in_turn() {
    let guide = "a\n```sh\none\n```\n\n```text\n1\n```\nb\n```\nother\n```\n\n<!-- shown, not run -->\n```sh\ntwo\n```\n```sh\nthree\n```\n";
    let found = blocks(guide);
    let parts: Vec<_> = found.iter().map(|block| (block.line, block.commands.as_str(), block.run, block.printed.as_deref())).collect();
    assert_eq!(parts, [(2, "one\n", true, Some("1\n")), (15, "two\n", false, None), (18, "three\n", true, None)]);
}

#[test]
fn slips_are_told() {
    let slips = [
        "```sh\none\n",
        "```bash\none\n```\n",
        "```text\n1\n```\n",
        "```sh\none\n```\nb\n```text\n1\n```\n",
        "<!-- shown, not run -->\n```sh\none\n```\n```text\n1\n```\n",
        "<!-- shown, not run -->\nb\n```sh\none\n```\n",
        "- b\n  ```sh\n  one\n  ```\n",
    ];
    for slip in slips {
        assert!(std::panic::catch_unwind(|| blocks(slip)).is_err(), "{slip}");
    }
}
