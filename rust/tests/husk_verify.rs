//! `husk verify`: what is had again, what differs, what cannot be read; whatever is in a folder, in the same words for any number of jobs. The records are
//! written by the tests themselves (tests/common/tool.rs), as docs/RECORDS.md says.

mod common;

use std::os::unix::fs::symlink;
use std::path::Path;
use std::sync::atomic::{AtomicUsize, Ordering};

use common::tool::{example_path, folder, husk, put, read, record, without_pivot, without_scale, worked};
use common::{example, Random, Readings, DATA_SETS};
use huskcanyon::Mode;

/// The records of the data sets at lme4's thetas, in both modes.
fn data_set(name: &str) -> String {
    let mut tries = Vec::new();
    for index in 1..=6 {
        let theta: Vec<f64> = example(&format!("{name}/theta-{index}.txt"))
            .lines()
            .map(|line| f64::from_bits(u64::from_str_radix(line.rsplit('\t').next().unwrap(), 16).unwrap()))
            .collect();
        tries.extend([(Mode::Ml, theta.clone()), (Mode::Reml, theta)]);
    }
    record(&example(&format!("{name}/sheet.txt")), &tries)
}

/// A record with a few lines: three readings, one try.
fn small() -> String {
    record(&worked(&[]), &[(Mode::Ml, vec![1.0])])
}

fn verify(folder: &Path) -> common::tool::Run {
    husk(&["verify", folder.to_str().unwrap()])
}

/// The one line that is told of a record.
#[track_caller]
fn told(text: &str, status: i32, words: &str) {
    static COUNT: AtomicUsize = AtomicUsize::new(0);
    let folder = folder(&format!("told-{}", COUNT.fetch_add(1, Ordering::Relaxed)));
    let path = put(&folder, "x.record", text);
    let run = husk(&["verify", &path]);
    assert_eq!(run.status, status, "{run:?}");
    let line = run.out.lines().next().unwrap();
    assert!(line.starts_with(&path) && line.contains(words), "{words:?} is not in {line:?}");
    let summary = if status == 1 {
        "1 record: 0 had again (0 tries), 1 differ, 0 could not be read"
    } else {
        "1 record: 0 had again (0 tries), 0 differ, 1 could not be read"
    };
    assert_eq!(run.out.lines().nth(1), Some(summary));
}

#[test]
fn data_sets_are_had_again() {
    let folder = folder("data-sets");
    for name in DATA_SETS {
        put(&folder, &format!("{name}.record"), data_set(name));
    }
    let run = verify(&folder);
    assert_eq!(run.status, 0, "{run:?}");
    assert_eq!(run.out, "4 records: 4 had again (48 tries), 0 differ, 0 could not be read\n");
    assert!(run.err.contains(" records a second") && !run.err.contains('\r'), "no bar in a pipe: {:?}", run.err);
}

/// The example of docs/RECORDS.md is a record, and it is what this page's rules make of the worked sheet.
#[test]
fn the_documented_example_is_had_again() {
    let page = read(concat!(env!("CARGO_MANIFEST_DIR"), "/../docs/RECORDS.md"));
    let example = page.split("```text\n").nth(1).unwrap().split("```").next().unwrap();
    assert_eq!(example, record(&worked(&[]), &[(Mode::Ml, vec![1.0]), (Mode::Reml, vec![1.0])]));
    let folder = folder("example");
    assert_eq!(husk(&["verify", &put(&folder, "x.record", example)]).status, 0);
}

/// The text with the first line of a tag changed.
fn with_line(text: &str, tag: &str, change: impl Fn(&str) -> String) -> (String, usize) {
    let at = text.lines().position(|line| line == tag || line.starts_with(&format!("{tag}\t"))).unwrap_or_else(|| panic!("no {tag}"));
    let lines: Vec<String> = text.lines().enumerate().map(|(i, line)| if i == at { change(line) } else { line.to_string() }).collect();
    (lines.join("\n") + "\n", at + 1)
}

/// A line whose last field, a word, is another number.
fn other_word(line: &str) -> String {
    let (start, word) = line.rsplit_once('\t').unwrap();
    let double = f64::from_bits(u64::from_str_radix(word, 16).unwrap());
    format!("{start}\t{:016x}", (double * 1.5 + 1.0).to_bits())
}

#[test]
fn a_change_in_each_kind_of_line_is_found() {
    let pastes = record(&example("pastes/sheet.txt"), &[(Mode::Ml, vec![3.5, 1.25])]);
    // Sheet and theta: the answers are those of another sheet or theta.
    for tag in ["zx", "zy", "xx", "xy", "yy", "theta"] {
        let (text, _) = with_line(&pastes, tag, other_word);
        told(&text, 1, "differs: filed deviance ");
    }
    told(&with_line(&pastes, "size", |line| line.replace("size\t60", "size\t61")).0, 1, "differs: filed deviance ");
    told(&with_line(&pastes, "try", |_| "try\treml".to_string()).0, 1, "differs: filed deviance ");
    let (text, _) = with_line(&pastes, "zz", other_word);
    told(&text, 1, "differs: filed deviance ");
    told(&with_line(&pastes, "block", |line| line.replace("block\t30", "block\t31")).0, 3, "could not be read: its sheet: refusal 8: q is not the sum");
    told(&with_line(&pastes, "block", |line| line.replace("30\t1", "30\t2")).0, 3, "could not be read: its sheet: refusal 7: ");
    // Answers: the line, what is filed and what was had again.
    for tag in ["deviance", "sigma2", "beta", "b", "u"] {
        let (text, line) = with_line(&pastes, tag, other_word);
        let (filed, again) = (text.lines().nth(line - 1).unwrap().replace('\t', " "), pastes.lines().nth(line - 1).unwrap().replace('\t', " "));
        told(&text, 1, &format!("x.record:{line}: differs: filed {filed}, had again {again}"));
        // The last bit is enough.
        let last_bit = |line: &str| {
            let (start, word) = line.rsplit_once('\t').unwrap();
            format!("{start}\t{:016x}", u64::from_str_radix(word, 16).unwrap() ^ 1)
        };
        told(&with_line(&pastes, tag, last_bit).0, 1, &format!("x.record:{line}: differs: filed "));
    }
    let both = with_line(&with_line(&pastes, "sigma2", other_word).0, "beta", other_word).0;
    told(&both, 1, "(the first of 2 lines that differ)");
    // Another kind of answer.
    told(&record(&without_scale(), &[(Mode::Reml, vec![1.0])]).replace("noscale", "refused\t26\t0\t0"), 1, "differs: filed refused 26 0 0, had again noscale");
    told(
        &record(&without_pivot(), &[(Mode::Ml, vec![1.0])]).replace("refused\t26\t1\t0", "refused\t26\t1\t1"),
        1,
        "filed refused 26 1 1, had again refused 26 1 0",
    );
    told(&record(&without_pivot(), &[(Mode::Ml, vec![1.0])]).replace("refused\t26\t1\t0", "noscale"), 1, "filed noscale, had again refused 26 1 0");
    let deviance = small().lines().find(|line| line.starts_with("deviance")).unwrap().replace('\t', " ");
    let (start, _) = small().split_once("deviance").map(|(start, rest)| (start.to_string(), rest.to_string())).unwrap();
    told(&(start + "noscale\n"), 1, &format!("filed noscale, had again {deviance}"));
    // The second of two tries.
    let two = record(&worked(&[]), &[(Mode::Ml, vec![1.0]), (Mode::Reml, vec![1.0])]);
    let last = two.lines().count();
    let changed: Vec<String> = two.lines().enumerate().map(|(i, line)| if i + 1 == last { other_word(line) } else { line.to_string() }).collect();
    told(&(changed.join("\n") + "\n"), 1, &format!("x.record:{last}: differs: filed u 0 "));
}

#[test]
fn other_formats_and_definitions_are_told() {
    told(&small().replace("record\t1\t1", "record\t2\t1"), 3, "x.record:1: could not be read: it is of format 2, and this husk reads format 1");
    told(&small().replace("record\t1\t1", "record\t1\t2"), 3, ":1: could not be read: its answers are of definitions 2, and this husk works out definitions 1");
    for first in [
        "record\t1\n",
        "record\t1\t1\t1\n",
        "record\t01\t1\n",
        "record 1 1\n",
        "Record\t1\t1\n",
        "record\t1\t1\r\n",
        "record\t\t\n",
        "\n",
        "size\t3\t1\t1\t1\t1\n",
    ] {
        told(&small().replace("record\t1\t1\n", first), 3, ":1: could not be read: it is no record");
    }
    told("", 3, ":1: could not be read: it is no record");
    told(&worked(&[]), 3, ":1: could not be read: it is no record");
}

#[test]
fn damaged_records_are_told() {
    let text = small();
    let lines: Vec<&str> = text.lines().collect();
    assert_eq!(lines.len(), 16);
    told(&(lines[..9].join("\n") + "\n"), 3, ":10: could not be read: there is no try");
    told(&text[..text.len() - 1], 3, ":16: could not be read: the last line does not end in a line feed");
    told(&(text.clone() + "\n"), 3, ":17: could not be read: the line is left over");
    told(&(text.clone() + "try\tml\n"), 3, ":18: could not be read: a line is missing");
    told(&text.replace("try\tml", "try\tML"), 3, ":10: could not be read: the line is not `try` and ml or reml");
    told(&text.replace("theta\t0", "theta\t1"), 3, ":11: could not be read: the line is not `theta` 0 and a word");
    told(&text.replace("sigma2\t", "sigma\t"), 3, ":13: could not be read: the line is not `sigma2` and a word");
    told(&text.replace("beta\t0\t", "beta\t1\t"), 3, ":14: could not be read: the line is not `beta` 0 and a word");
    told(&text.replace("beta\t0\t3ff0", "beta\t0\t3FF0"), 3, ":14: could not be read: the line is not `beta` 0 and a word");
    told(&text.replace("deviance\t", "devianze\t"), 3, ":12: could not be read: the line is neither `theta` nor the first of an answer");
    told(&text.replace("deviance\t", "noscale\t"), 3, ":12: could not be read: the line is not `noscale` alone");
    told(&text.replace("deviance\t", "refused\t"), 3, ":12: could not be read: the line is not `refused` and three numbers");
    told(&text.replace("beta\t0\t", &format!("beta\t0\t{}", "0".repeat(300))), 3, ":14: could not be read: the line is too long");
    told(
        &text.replace("zz\t0\t0", "zz\t0\t7"),
        3,
        "x.record:4: could not be read: its sheet: refusal 4: a count or an index on line 3 of the sheet is outside its range",
    );
    told(
        &format!("record\t1\t1\n{}", "zz\t0\t0\t4008000000000000\n".repeat(700_000)),
        3,
        "could not be read: its sheet: refusal 1: the sheet is longer than 16,777,216 bytes",
    );
    let thetas: String = (0..70).map(|i| format!("theta\t{i}\t3ff0000000000000\n")).collect();
    told(&text.replace("theta\t0\t3ff0000000000000\n", &thetas), 3, "a try has at most 64 numbers of theta");
    // A theta of another length is a try that is refused.
    told(&text.replace("theta\t0\t3ff0000000000000\n", ""), 1, "had again refused 13 0 0");
    let folder = folder("bytes");
    std::fs::write(folder.join("x.record"), b"record\t1\t1\n\xff\xfe\0\n").unwrap();
    assert_eq!(verify(&folder).status, 3);
}

/// However a record is cut or its lines are moved, it is never had again.
#[test]
fn no_damage_goes_unseen() {
    let folder = folder("damage");
    let text = record(&example("dyestuff/sheet.txt"), &[(Mode::Ml, vec![0.75])]);
    let lines: Vec<&str> = text.lines().collect();
    let mut count = 0;
    let mut damaged = |lines: Vec<&str>| {
        let name = format!("{count:04}.record");
        let damaged = lines.join("\n") + "\n";
        if damaged != text {
            put(&folder, &name, damaged);
            count += 1;
        }
    };
    for at in 0..lines.len() {
        damaged(lines[..at].to_vec());
        damaged([&lines[..at], &lines[at + 1..]].concat());
        damaged([&lines[..=at], &lines[at..]].concat());
        if at > 0 {
            let mut swapped = lines.clone();
            swapped.swap(at - 1, at);
            damaged(swapped);
        }
    }
    for cut in (0..text.len()).step_by(7) {
        put(&folder, &format!("cut-{cut:04}.record"), &text[..cut]);
        count += 1;
    }
    let run = verify(&folder);
    assert_ne!(run.status, 0);
    assert!(run.out.contains(&format!("{count} records: 0 had again (0 tries), ")), "{}", run.out);
    assert_eq!(run.out.lines().count(), count + 1);
}

/// Bytes changed at random: whatever comes, the run ends with its summary, and a change in an answer is never had again.
#[test]
fn random_damage_ends_in_a_summary() {
    let folder = folder("random");
    let text = record(&example("pastes/sheet.txt"), &[(Mode::Reml, vec![1.0, 2.0])]);
    let answer = text.find("deviance").unwrap();
    let mut random = Random(77);
    for index in 0..400 {
        let mut bytes = text.clone().into_bytes();
        let from = if index % 2 == 0 { answer } else { 0 };
        let at = from + random.below(bytes.len() - from);
        bytes[at] = loop {
            let byte = random.below(256) as u8;
            if byte != bytes[at] {
                break byte;
            }
        };
        put(&folder, &format!("{}{index:03}.record", if from == 0 { "sheet" } else { "answer" }), bytes);
    }
    let run = verify(&folder);
    let summary = run.out.lines().last().unwrap();
    assert!(summary.starts_with("400 records: "), "{summary}");
    assert_eq!(run.out.lines().filter(|line| line.contains("/answer")).count(), 200, "{}", run.out);
}

/// A small record of its own for each index.
fn generated(index: usize) -> String {
    let mut random = Random(index as u64 + 1);
    let sheet = Readings::random(&[6, 3], 2, 24, index % 2 == 0, &mut random).sheet();
    let theta = vec![random.below(3000) as f64 / 1000.0, random.below(3000) as f64 / 1000.0];
    record(&sheet, &[(if index % 3 == 0 { Mode::Reml } else { Mode::Ml }, theta)])
}

#[test]
fn four_thousand_records_in_any_number_of_jobs() {
    let folder = folder("four-thousand");
    for index in 0..4000 {
        let year = folder.join(format!("year-{}", index % 4));
        std::fs::create_dir_all(&year).unwrap();
        put(&year, &format!("campaign-{index:04}.record"), generated(index));
    }
    let run = verify(&folder);
    assert_eq!((run.status, run.out.as_str()), (0, "4000 records: 4000 had again (4000 tries), 0 differ, 0 could not be read\n"));
    // Some are damaged, and the same is told for one job and for eight, in the order of the names.
    let mut damaged = 0;
    for index in (0..4000).step_by(97) {
        let path = folder.join(format!("year-{}/campaign-{index:04}.record", index % 4));
        let text = read(path.to_str().unwrap());
        let changed = if index % 2 == 0 { with_line(&text, "beta", other_word).0 } else { text.replace("try", "tri") };
        std::fs::write(&path, changed).unwrap();
        damaged += 1;
    }
    let one = husk(&["verify", folder.to_str().unwrap(), "--jobs", "1"]);
    let eight = husk(&["verify", folder.to_str().unwrap(), "--jobs", "8"]);
    assert_eq!((one.status, &one.out), (1, &eight.out));
    assert_eq!(eight.status, 1);
    let lines: Vec<&str> = one.out.lines().collect();
    assert_eq!(lines.len(), damaged + 1);
    assert!(lines[..damaged].windows(2).all(|pair| pair[0] < pair[1]), "{lines:?}");
    assert_eq!(lines[damaged], "4000 records: 3958 had again (3958 tries), 21 differ, 21 could not be read");
}

#[test]
fn unreadable_files_and_links_never_end_the_run() {
    let folder = folder("odd");
    put(&folder, "a.record", small());
    put(&folder, "notes.txt", "no record\n");
    put(&folder, ".a.record.1-0", "left over by a run that was killed\n");
    symlink("a.record", folder.join("b.record")).unwrap();
    symlink("nothing", folder.join("c.record")).unwrap();
    std::fs::create_dir(folder.join("d.record")).unwrap();
    put(&folder.join("d.record"), "inner.record", small());
    symlink("e.record", folder.join("e.record")).unwrap();
    symlink(".", folder.join("f")).unwrap();
    let pipe = folder.join("g.record");
    assert!(std::process::Command::new("mkfifo").arg(&pipe).status().unwrap().success());
    put(&folder, "h.record", [0xff, 0xfe, 0x00]);
    let run = verify(&folder);
    let lines: Vec<String> = run.out.lines().map(|line| line.replace(folder.to_str().unwrap(), "")).collect();
    assert_eq!(run.status, 3);
    assert_eq!(lines.len(), 6, "{lines:?}");
    assert!(lines[0].starts_with("/c.record: could not be read: No such file"), "{lines:?}");
    assert!(lines[1].starts_with("/e.record: could not be read: "), "{lines:?}");
    assert_eq!(lines[2], "/g.record: could not be read: it is no regular file");
    assert!(lines[3].starts_with("/h.record:1: could not be read: it is no record"), "{lines:?}");
    assert_eq!(lines[4], "2 other files passed over: the name of a record ends in .record");
    assert_eq!(lines[5], "7 records: 3 had again (3 tries), 0 differ, 4 could not be read");
}

/// A folder behind a link is gone through, once: what differs in it is found, and a circle ends.
#[test]
fn links_to_folders_are_followed_once() {
    let (folder, elsewhere) = (folder("linked"), folder("elsewhere"));
    put(&elsewhere, "x.record", with_line(&small(), "beta", other_word).0);
    symlink(&*elsewhere, folder.join("year")).unwrap();
    symlink(&*elsewhere, folder.join("year.record")).unwrap();
    symlink(&*folder, elsewhere.join("back")).unwrap();
    let run = verify(&folder);
    assert_eq!(run.status, 1);
    assert!(run.out.starts_with(&format!("{}/year/x.record:14: differs", folder.display())), "{}", run.out);
    assert_eq!(run.out.lines().last(), Some("1 record: 0 had again (0 tries), 1 differ, 0 could not be read"));
}

/// What may be a folder, and cannot be looked at, is told: a link that leads to itself. A link to nothing is no record either.
#[test]
fn what_may_be_a_folder_is_told() {
    let folder = folder("perhaps");
    put(&folder, "a.record", small());
    symlink("nothing", folder.join("dangling")).unwrap();
    assert_eq!(verify(&folder).status, 0);
    symlink("loop", folder.join("loop")).unwrap();
    let run = verify(&folder);
    assert_eq!(run.status, 3);
    assert!(run.out.starts_with(&format!("{}/loop: could not be read: ", folder.display())), "{}", run.out);
    assert!(run.out.ends_with("1 record: 1 had again (1 try), 0 differ, 0 could not be read\n1 other path could not be read\n"), "{}", run.out);
}

/// A difference is told also where the record is broken behind it, and where lines end in CR LF that is told.
#[test]
fn differences_before_damage_and_carriage_returns() {
    let two = record(&worked(&[]), &[(Mode::Ml, vec![1.0]), (Mode::Reml, vec![1.0])]);
    let broken = with_line(&two, "beta", other_word).0.replace("try\treml", "try\tREML");
    told(&broken, 1, "; from line 17 on it could not be read");
    let broken = with_line(&small(), "sigma2", other_word).0.replace("u\t0\t", "v\t0\t");
    told(&broken, 1, ":13: differs: filed sigma2 ");
    told(&small().replace('\n', "\r\n"), 3, ":1: could not be read: it is no record: the first line is not `record`, the format's number and the definitions' number, tab-parted; the line ends in a carriage return");
    told(&small().replace("try\tml\n", "try\tml\r\n"), 3, ":10: could not be read: the line is not `try` and ml or reml; the line ends in a carriage return");
    told(
        &small().replace("yy\t4022000000000000\n", "yy\t4022000000000000\r\n"),
        3,
        ":9: could not be read: its sheet: refusal 2: line 8 of the sheet is ill-formed, missing or out of sequence; the line ends in a carriage return",
    );
}

/// A record that takes long comes first by name, and is told first.
#[test]
fn a_slow_record_does_not_change_the_order() {
    let folder = folder("slow");
    let sheet = Readings::random(&[900, 90], 3, 4000, false, &mut Random(8)).sheet();
    let tries: Vec<(Mode, Vec<f64>)> = (1..4).map(|i| (Mode::Ml, vec![i as f64, 0.5])).collect();
    put(&folder, "a.record", with_line(&record(&sheet, &tries), "sigma2", other_word).0);
    for index in 0..40 {
        put(&folder, &format!("b{index:02}.record"), with_line(&small(), "beta", other_word).0);
    }
    let run = husk(&["verify", folder.to_str().unwrap(), "--jobs", "8"]);
    let lines: Vec<&str> = run.out.lines().collect();
    assert_eq!((run.status, lines.len()), (1, 42));
    assert!(lines[..41].windows(2).all(|pair| pair[0] < pair[1]), "{lines:?}");
}

/// A name with a line break is one line, and one that is not UTF-8 is told too.
#[test]
fn odd_names() {
    use std::os::unix::ffi::OsStrExt;
    let folder = folder("names");
    put(&folder, "two\nlines.record", "no record");
    std::fs::write(folder.join(std::ffi::OsStr::from_bytes(b"\xff.record")), "no record").unwrap();
    let run = verify(&folder);
    let lines: Vec<&str> = run.out.lines().collect();
    assert_eq!((run.status, lines.len()), (3, 3));
    assert!(lines[0].contains("/two?lines.record:1: could not be read") && lines[1].contains("\u{fffd}.record:1: could not be read"), "{lines:?}");
}

/// Where nobody reads what is told, the run ends.
#[test]
fn nobody_listens() {
    use std::process::{Command, Stdio};
    let folder = folder("unheard");
    for index in 0..200 {
        put(&folder, &format!("{index}.record"), "no record");
    }
    let mut child = Command::new(env!("CARGO_BIN_EXE_husk")).arg("verify").arg(&*folder).stdout(Stdio::piped()).stderr(Stdio::piped()).spawn().unwrap();
    drop(child.stdout.take());
    let output = child.wait_with_output().unwrap();
    assert_eq!(output.status.code(), Some(3), "{}", String::from_utf8_lossy(&output.stderr));
}

/// What may not be read. To root nothing is shut, so there it is had again.
#[test]
fn files_without_permission() {
    use std::os::unix::fs::PermissionsExt;
    let folder = folder("shut");
    let path = put(&folder, "shut.record", small());
    put(&folder, "open.record", small());
    std::fs::set_permissions(&path, std::fs::Permissions::from_mode(0o000)).unwrap();
    let shut = std::fs::File::open(&path).is_err();
    let run = verify(&folder);
    std::fs::set_permissions(&path, std::fs::Permissions::from_mode(0o600)).unwrap();
    assert_eq!(run.status, if shut { 3 } else { 0 }, "{run:?}");
    assert_eq!(run.out.contains("shut.record: could not be read: Permission denied"), shut);
}

#[test]
fn files_and_folders_by_name() {
    let folder = folder("named");
    let plain = put(&folder, "any.name", small());
    put(&folder, "x.record", small());
    let run = husk(&["verify", &plain]);
    assert_eq!((run.status, run.out.as_str()), (0, "1 record: 1 had again (1 try), 0 differ, 0 could not be read\n"));
    // A record that is named twice is one record.
    let run = husk(&["verify", folder.to_str().unwrap(), &plain, &plain]);
    assert_eq!(run.out.lines().last(), Some("2 records: 2 had again (2 tries), 0 differ, 0 could not be read"));
    let run = husk(&["verify", "no/folder"]);
    assert_eq!(run.status, 3);
    assert!(run.out.starts_with("no/folder: could not be read: No such file"), "{run:?}");
    // A sheet is no record, and an empty folder has none.
    assert_eq!(husk(&["verify", &example_path("dyestuff/sheet.txt")]).status, 3);
    let empty = husk(&["verify", common::tool::folder("empty").to_str().unwrap()]);
    assert_eq!((empty.status, empty.out.as_str()), (3, "0 records: 0 had again (0 tries), 0 differ, 0 could not be read\n"));
    assert!(empty.err.contains("husk: there is no record"), "{}", empty.err);
}

/// Differences weigh more than what could not be read.
#[test]
fn exit_statuses() {
    let folder = folder("statuses");
    put(&folder, "a.record", small());
    assert_eq!(verify(&folder).status, 0);
    put(&folder, "b.record", "nothing");
    assert_eq!(verify(&folder).status, 3);
    put(&folder, "c.record", with_line(&small(), "beta", other_word).0);
    assert_eq!(verify(&folder).status, 1);
}
