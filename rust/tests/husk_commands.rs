//! The commands `sheet`, `solve`, `show`, `file` and `orders` of `husk`, on good and on damaged input, with every exit status. Sheets and answers of real
//! data are those of examples/, which lme4 made.

mod common;

use std::path::Path;

use common::tool::{example_path, folder, husk, husk_fed, put, read, record, without_pivot, without_scale, worked, Run};
use common::{example, DATA_SETS};
use huskcanyon::Mode;

#[track_caller]
fn stops(run: &Run, status: i32, words: &str) {
    assert_eq!(run.status, status, "{run:?}");
    assert!(run.err.starts_with("husk: ") && run.err.contains(words), "{words:?} is not in {:?}", run.err);
}

/// The fields of the first line with this tag and these indexes.
#[track_caller]
fn fields<'a>(text: &'a str, label: &str) -> Vec<&'a str> {
    let prefix = format!("{}\t", label.replace(' ', "\t"));
    let line = text.lines().find(|line| line.starts_with(&prefix)).unwrap_or_else(|| panic!("no {label:?} in {text}"));
    line[prefix.len()..].split('\t').collect()
}

/// The value on such a line, which its word must be.
#[track_caller]
fn value(text: &str, label: &str) -> f64 {
    let fields = fields(text, label);
    let value: f64 = fields[0].parse().unwrap();
    assert_eq!(format!("{:016x}", value.to_bits()), fields[1], "{label}");
    value
}

#[track_caller]
fn near(value: f64, expected: f64) {
    assert!((value - expected).abs() <= 1e-9 * expected.abs().max(1.0), "{value} is not near {expected}");
}

// ---- usage

#[test]
fn usage_texts() {
    let all = husk(&["--help"]);
    assert_eq!(all.status, 0);
    assert!(all.out.contains("usage: husk COMMAND") && all.out.contains("exit status"));
    for name in ["sheet", "solve", "show", "file", "verify", "orders"] {
        assert!(all.out.contains(&format!("\n  {name} ")), "{name}");
        let one = husk(&[name, "--help"]);
        assert_eq!(one.status, 0);
        assert!(one.out.starts_with(&format!("usage: husk {name} ")) && one.out.contains("exit status: 0"), "{}", one.out);
        assert_eq!(husk(&["help", name]).out, one.out);
        assert_eq!(husk(&[name, "whatever", "-h"]).out, one.out);
    }
    stops(&husk(&["help", "frobnicate"]), 2, "there is no command \"frobnicate\"");
    assert_eq!(husk(&["--version"]).out, format!("husk {}, record format 1, definitions 1\n", env!("CARGO_PKG_VERSION")));
}

#[test]
fn bad_usage_has_status_2() {
    stops(&husk(&[]), 2, "which command?");
    stops(&husk(&["frobnicate"]), 2, "there is no command \"frobnicate\"");
    let dyestuff = example_path("dyestuff/sheet.txt");
    let bad: &[(&[&str], &str)] = &[
        (&["sheet"], "DATA.csv is missing"),
        (&["sheet", "x.csv", "--group", "g"], "--response is missing"),
        (&["sheet", "x.csv", "--response", "y"], "--group is missing"),
        (&["sheet", "x.csv", "y.csv", "--response", "y", "--group", "g"], "\"y.csv\" is one argument too many"),
        (&["sheet", "x.csv", "--response", "y", "--group", "g", "--no-intercept"], "neither an intercept nor a fixed column"),
        (&["sheet", "x.csv", "--response", "y", "--group", "a,b,c,d,e,f,g,h,i"], "9 groups: a sheet has at most 8"),
        (&["sheet", "x.csv", "--response", "y", "--group", "g,g"], "column g is asked for twice"),
        (&["sheet", "x.csv", "--response", "y", "--group", "g,"], "a column is asked for without a name"),
        (&["file", &dyestuff, "1", "--out", "-"], "--out wants the name of a file, not -"),
        (&["verify", "-"], "not from standard input"),
        (&["solve"], "SHEET is missing"),
        (&["solve", &dyestuff, "1", "--fast"], "there is no option --fast"),
        (&["solve", &dyestuff], "theta has 0 numbers, and the sheet wants 1"),
        (&["solve", &dyestuff, "1", "2"], "theta has 2 numbers, and the sheet wants 1"),
        (&["solve", &dyestuff, "one"], "\"one\" is neither a number nor a word"),
        (&["solve", &dyestuff, "1", "--svg", "x.svg"], "--svg draws the table of --thetas"),
        (&["solve", &dyestuff, "1", "--thetas", "t"], "either in the arguments or in the file"),
        (&["solve", &dyestuff, "--all", "--thetas", "t"], "--all is for one theta"),
        (&["solve", "-", "--thetas", "-"], "sheet and thetas cannot both come from standard input"),
        (&["show"], "SHEET or RECORD is missing"),
        (&["show", "a", "b"], "\"b\" is one argument too many"),
        (&["file", "s", "1", "--add", "r", "--force"], "--add names the record"),
        (&["file", "s", "1", "--add", "r", "--out", "r"], "--add names the record"),
        (&["verify"], "FILE or FOLDER is missing"),
        (&["verify", ".", "--jobs", "0"], "--jobs wants a whole number from 1 on"),
        (&["verify", ".", "--jobs"], "--jobs wants a value"),
        (&["orders", &dyestuff, "1", "--count", "few"], "--count wants a whole number from 1 on"),
        (&["orders", &dyestuff, "1", "--seed=-1"], "--seed wants a whole number from 0 on"),
    ];
    for (arguments, words) in bad {
        let run = husk(arguments);
        stops(&run, 2, words);
        assert!(run.err.contains(&format!("`husk {} --help` says how it is used", arguments[0])), "{run:?}");
        assert_eq!(run.out, "", "{arguments:?}");
    }
}

#[test]
fn a_file_that_is_not_there_has_status_3() {
    for arguments in [&["solve", "no/sheet", "1"][..], &["show", "no/sheet"], &["file", "no/sheet", "1"], &["orders", "no/sheet", "1"]] {
        stops(&husk(arguments), 3, "no/sheet: No such file");
    }
    stops(&husk(&["sheet", "no/table.csv", "--response", "y", "--group", "g"]), 3, "no/table.csv: No such file");
    stops(&husk(&["show", &example_path("dyestuff")]), 3, "it is a folder");
}

// ---- sheet

/// The formula of each data set, as columns of its table.
fn columns(name: &str) -> Vec<&'static str> {
    match name {
        "dyestuff" => vec!["--response", "Yield", "--group", "Batch"],
        "penicillin" => vec!["--response", "diameter", "--group", "plate,sample"],
        "pastes" => vec!["--response=strength", "--group=sample,batch"],
        _ => vec!["--response", "Reaction", "--fixed", "Days", "--group", "Subject"],
    }
}

#[test]
fn sheets_of_the_data_sets() {
    let folder = folder("sheets");
    for name in DATA_SETS {
        let (table, names) = (example_path(&format!("{name}/data.csv")), put(&folder, "names", ""));
        let mut arguments = vec!["sheet", &table, "--names", &names];
        arguments.extend(columns(name));
        let run = husk(&arguments);
        assert_eq!((run.status, run.err.as_str()), (0, ""), "{name}");
        assert_eq!(read(&names), example(&format!("{name}/names.txt")), "{name}");
        let sheet = example(&format!("{name}/sheet.txt"));
        assert_eq!(run.out.lines().count(), sheet.lines().count());
        for (made, expected) in run.out.lines().zip(sheet.lines()) {
            let apart = |line: &str| line.rsplit_once('\t').map(|(label, last)| (label.to_string(), last.to_string())).unwrap();
            let ((label, last), (expected_label, expected_last)) = (apart(made), apart(expected));
            assert_eq!(label, expected_label);
            if last != expected_last {
                // Sums of rounded products: the script that made the sheet may take them in another order.
                let double = |word: &str| f64::from_bits(u64::from_str_radix(word, 16).unwrap());
                let (a, b) = (double(&last), double(&expected_last));
                assert!((a - b).abs() <= 1e-15 * b.abs(), "{name}: {made}, {expected}");
            }
        }
    }
}

#[test]
fn a_table_from_standard_input_without_an_intercept() {
    let table = b"rig,x,y\r\nb,1,10\r\n\"a\",2,20\r\nb,3,30\r\n";
    let run = husk_fed(&["sheet", "-", "--response", "y", "--fixed", "x", "--group", "rig", "--no-intercept"], table);
    let words = |x: f64| format!("{:016x}", x.to_bits());
    let expected = format!(
        "size\t3\t1\t2\t1\t1\nblock\t2\t1\nzz\t0\t0\t{}\nzz\t1\t1\t{}\nzx\t0\t0\t{}\nzx\t1\t0\t{}\nzy\t0\t{}\nzy\t1\t{}\nxx\t0\t0\t{}\nxy\t0\t{}\nyy\t{}\n",
        words(2.0),
        words(1.0),
        words(4.0),
        words(2.0),
        words(40.0),
        words(20.0),
        words(14.0),
        words(140.0),
        words(1400.0)
    );
    assert_eq!((run.status, run.out), (0, expected));
}

#[test]
fn what_is_wrong_with_a_table_is_told_with_its_line() {
    let tell = |table: &str, words: &str| {
        let run = husk_fed(&["sheet", "-", "--response", "y", "--fixed", "x", "--group", "g"], table.as_bytes());
        stops(&run, 3, &format!("standard input:{words}"));
        assert_eq!(run.out, "");
    };
    tell("g,x,y\na,1,2\na,NA,3\n", "3: column x: \"NA\" is no number");
    tell("g,x,y\na,1,2\na,1,\n", "3: column y: the cell is empty");
    tell("g,x,y\na,1,2\n,1,3\n", "3: column g: the level is empty");
    tell("g,y\na,1\n", "1: there is no column x: the header has g, y");
    tell("g,x,y\na,1,2\na,1\n", "3: 2 fields, where the header has 3");
    tell("g,x,y\n\"a,1,2\n", "2: ");
    tell("g,x,y\n", "2: no readings");
    tell("", "1: the table is empty");
}

#[test]
fn a_table_whose_sheet_would_be_refused() {
    // 317 by 317 levels are more cells than a pair may have, and level 0 has two entries.
    let mut table = "a,b,y\n0,1,1\n".to_string();
    (0..317).for_each(|i| table += &format!("{i},{i},1\n"));
    let run = husk_fed(&["sheet", "-", "--response", "y", "--group", "a,b"], table.as_bytes());
    stops(&run, 1, "the sheet of these readings would be refused: refusal 11: the pair of sorted blocks (1, 0)");
    assert_eq!(run.out, "");
}

// ---- solve

#[test]
fn a_solution_is_lme4s() {
    for name in DATA_SETS {
        let answers = example(&format!("{name}/answer-1.txt"));
        let lme4 = |label: &str| fields(&answers, label)[1].parse::<f64>().unwrap();
        let theta: Vec<String> =
            answers.lines().filter_map(|line| line.strip_prefix("theta\t")).map(|rest| rest.split('\t').nth(2).unwrap().to_string()).collect();
        let words: Vec<String> =
            answers.lines().filter_map(|line| line.strip_prefix("theta\t")).map(|rest| rest.split('\t').nth(1).unwrap().to_string()).collect();
        let sheet = example_path(&format!("{name}/sheet.txt"));
        for (mode, criterion, sigma2) in [("ml", "deviance_ml", "sigma2_ml"), ("reml", "criterion_reml", "sigma2_reml")] {
            let mut arguments = vec!["solve", &sheet, "--all"];
            arguments.extend(theta.iter().map(String::as_str));
            if mode == "reml" {
                arguments.push("--reml");
            }
            let run = husk(&arguments);
            assert_eq!((run.status, run.err.as_str()), (0, ""), "{name}");
            assert!(run.out.starts_with(&format!("try\t{mode}\n")));
            near(value(&run.out, "deviance"), lme4(criterion));
            near(value(&run.out, "deviance_from_factor"), lme4(criterion));
            near(value(&run.out, "sigma2"), lme4(sigma2));
            near(value(&run.out, "logdet"), lme4("logdet"));
            for tag in ["beta", "b", "u"] {
                let count = answers.lines().filter(|line| line.starts_with(&format!("{tag}\t"))).count();
                assert_eq!(run.out.lines().filter(|line| line.starts_with(&format!("{tag}\t"))).count(), count);
                (0..count).for_each(|i| near(value(&run.out, &format!("{tag} {i}")), lme4(&format!("{tag} {i}"))));
            }
            // Theta by words is the same theta.
            let mut by_words = vec!["solve", &sheet, "--all"];
            by_words.extend(words.iter().map(String::as_str));
            by_words.extend(arguments.iter().filter(|argument| **argument == "--reml"));
            assert_eq!(husk(&by_words).out, run.out);
            // Without --all it is the start of that.
            arguments.retain(|argument| *argument != "--all");
            let short = husk(&arguments).out;
            assert!(run.out.starts_with(&short) && short.lines().last().unwrap().starts_with("beta\t"), "{short}");
        }
    }
}

/// README's first command prints what README shows.
#[test]
fn readme_shows_what_is_printed() {
    let root = concat!(env!("CARGO_MANIFEST_DIR"), "/..");
    let readme = read(&format!("{root}/README.md"));
    let command = readme.lines().find_map(|line| line.strip_prefix("rust/target/release/husk ")).unwrap();
    let printed = readme.split("```text\n").nth(1).unwrap().split("```").next().unwrap();
    let output = std::process::Command::new(env!("CARGO_BIN_EXE_husk")).args(command.split(' ')).current_dir(root).output().unwrap();
    assert_eq!((output.status.code(), String::from_utf8(output.stdout).unwrap().as_str()), (Some(0), printed));
}

#[test]
fn the_worked_sheet() {
    let folder = folder("worked");
    let sheet = put(&folder, "sheet.txt", worked(&[]));
    let run = husk(&["solve", &sheet, "1", "--all", "--reml"]);
    for (label, expected) in
        [("theta 0", 1.0), ("sigma2", 0.5), ("beta 0", 1.0), ("b 0", 0.5), ("u 0", 0.5), ("pivot 0 0", 2.0), ("pivot 1 0", 2.0), ("pivot 1 1", 1.0)]
    {
        assert_eq!(value(&run.out, label), expected, "{label}");
    }
    assert_eq!(husk_fed(&["solve", "-", "1", "--all", "--reml"], worked(&[]).as_bytes()).out, run.out);
    // A number below 0 is no option.
    assert_eq!(value(&husk(&["solve", &sheet, "-1"]).out, "b 0".replace("b 0", "theta 0").as_str()), -1.0);
}

#[test]
fn answers_without_a_value() {
    let run = husk_fed(&["solve", "-", "1", "--reml"], without_scale().as_bytes());
    stops(&run, 1, "no scale");
    assert_eq!(run.out, "try\treml\ntheta\t0\t1.0\t3ff0000000000000\nnoscale\n");
    let run = husk_fed(&["solve", "-", "1"], without_pivot().as_bytes());
    stops(&run, 1, "refusal 26: the pivot of block 1, row 0, is at most 0");
    assert!(run.out.ends_with("\nrefused\t26\t1\t0\n"), "{}", run.out);
    // theta·theta is infinite, and times the absent entry NaN: the finish refuses it.
    let run = husk_fed(&["solve", "-", "1e200"], worked(&[("zz\t0\t0\t4008000000000000\n", "")]).as_bytes());
    stops(&run, 1, "refusal 27: the pivot of row 0");
    let run = husk_fed(&["solve", "-", "inf"], worked(&[]).as_bytes());
    stops(&run, 1, "refusal 14: list 0 holds an infinity or NaN at index 0");
    let run = husk_fed(&["solve", "-", "1"], b"size\t3\n");
    stops(&run, 1, "standard input:1: refusal 2: line 1");
}

#[test]
fn a_table_of_thetas_and_its_curve() {
    let folder = folder("thetas");
    let (sheet, svg) = (example_path("dyestuff/sheet.txt"), put(&folder, "curve.svg", "to be replaced"));
    let thetas = put(&folder, "thetas.txt", "# from 0 on\n0\n\n0.5 # half\n3fe815241ec339a6\n\t2\n");
    let run = husk(&["solve", &sheet, "--thetas", &thetas, "--svg", &svg]);
    assert_eq!((run.status, run.err.as_str()), (0, ""));
    let lines: Vec<Vec<&str>> = run.out.lines().map(|line| line.split('\t').collect()).collect();
    assert_eq!(lines.len(), 5);
    assert_eq!(lines[0], ["theta_0", "theta_0_word", "deviance", "deviance_word"]);
    for (line, theta) in lines[1..].iter().zip(["0", "0.5", "0.7525807", "2"]) {
        let solved = husk(&["solve", &sheet, theta]).out;
        assert_eq!(line[..2], fields(&solved, "theta 0")[..]);
        assert_eq!(line[2..], fields(&solved, "deviance")[..]);
    }
    let drawn = read(&svg);
    assert!(drawn.starts_with("<?xml") && drawn.contains("<svg ") && drawn.trim_end().ends_with("</svg>"), "{drawn}");
    assert!(drawn.contains("327.327"), "the least value is marked");
    // Thetas without a deviance stand in the table and are told by the status.
    let run = husk_fed(&["solve", "-", "--thetas", &put(&folder, "one.txt", "1\n"), "--reml"], without_scale().as_bytes());
    assert_eq!(run.out.lines().last().unwrap(), "1.0\t3ff0000000000000\tNA\tnoscale");
    stops(&run, 1, "standard input: 1 of 1 theta without a deviance");
    // In REML the axis says so; what was read is not overwritten.
    let run = husk(&["solve", &sheet, "--thetas", &thetas, "--svg", &svg, "--reml"]);
    assert_eq!(run.status, 0, "{run:?}");
    assert!(read(&svg).contains("REML criterion"));
    stops(&husk(&["solve", &sheet, "--thetas", &thetas, "--svg", &thetas]), 3, "thetas.txt: it is what was read, and would be overwritten");
    assert_eq!(read(&thetas).lines().count(), 6);
}

#[test]
fn what_is_wrong_with_a_list_of_thetas_is_told() {
    let folder = folder("bad-thetas");
    let sheet = example_path("pastes/sheet.txt");
    let tell = |text: &str, words: &str| stops(&husk(&["solve", &sheet, "--thetas", &put(&folder, "t", text)]), 3, words);
    tell("1 1\n1\n", "t:2: theta has 1 number, and the sheet wants 2");
    tell("1 x\n", "t:1: a theta is a number");
    tell("# nothing\n\n", "t: there is no theta in it");
    stops(&husk(&["solve", &sheet, "--thetas", "no/file"]), 3, "no/file: No such file");
    let thetas = put(&folder, "t", "1 1\n");
    stops(&husk(&["solve", &sheet, "--thetas", &thetas, "--svg", "x.svg"]), 2, "--svg draws a curve over one theta, and this sheet has 2");
    let one = put(&folder, "one", "1\n");
    stops(&husk(&["solve", &example_path("dyestuff/sheet.txt"), "--thetas", &one, "--svg", "no/folder/x.svg"]), 3, "no/folder/x.svg: there is no such folder");
}

// ---- show

#[test]
fn a_sheet_is_shown() {
    let run = husk(&["show", &example_path("penicillin/sheet.txt")]);
    assert_eq!(run.status, 0);
    for line in [
        "readings\t144",
        "fixed effects\t1",
        "random rows\t30",
        "numbers of theta\t2",
        "block\t0\t24 levels\tdiagonal\tits theta: 0",
        "block\t1\t6 levels\tpacked triangle\tits theta: 1",
        "pair\t1\t0\t6 by 24 cells\tdense",
        "steps\t10",
    ] {
        assert!(run.out.lines().any(|shown| shown == line), "{line:?} is not in {}", run.out);
    }
    // Blocks are sorted by size: theta 1 is the sheet's second block.
    let sheet = common::Readings::random(&[3, 5], 1, 20, false, &mut common::Random(5)).sheet();
    let run = husk_fed(&["show", "-"], sheet.as_bytes());
    assert!(run.out.contains("block\t0\t5 levels\tdiagonal\tits theta: 1\n"), "{}", run.out);
    // q + k + D + 2X + 2F + 1 of the worked sheet, which one double for each number of a response would follow.
    let run = husk_fed(&["show", "-"], worked(&[]).as_bytes());
    assert!(run.out.contains("room\t14 doubles\t128 numbers\n"), "{}", run.out);
}

#[test]
fn a_sparse_pair_is_shown() {
    let sheet = common::Readings::random(&[33_334, 3], 1, 33_334, true, &mut common::Random(9)).sheet();
    let run = husk_fed(&["show", "-"], sheet.as_bytes());
    assert!(run.out.contains("block\t1\t3 levels\tdiagonal\tits theta: 1\npair\t1\t0\t3 by 33334 cells\tsparse\n"), "{}", run.out);
}

#[test]
fn a_refused_sheet_is_told_in_words() {
    let show = |sheet: &str, words: &str| stops(&husk_fed(&["show", "-"], sheet.as_bytes()), 1, words);
    show(&worked(&[("zz\t0\t0", "zz\t0\t1")]), "refusal 4: a count or an index on line 3 of the sheet is outside its range");
    show(&worked(&[]).replace('\n', "\r\n"), "refusal 2: line 1 of the sheet is ill-formed, missing or out of sequence; the line ends in a carriage return");
    show(
        &worked(&[("4010000000000000\n", "4010000000000000\r\n")]),
        "line 5 of the sheet is ill-formed, missing or out of sequence; the line ends in a carriage return",
    );
    show(&format!("\u{feff}{}", worked(&[])), "byte order mark");
    show("", "refusal 2: line 1");
    show(&" ".repeat(16_777_217), "refusal 1: the sheet is longer than 16,777,216 bytes");
}

#[test]
fn a_record_is_shown() {
    let folder = folder("show-record");
    let text = record(&worked(&[]), &[(Mode::Ml, vec![1.0]), (Mode::Reml, vec![-0.5])]);
    let path = put(&folder, "one", &text);
    let run = husk(&["show", &path]);
    assert_eq!(run.status, 0);
    assert!(run.out.starts_with(&format!("record\t{path}\tformat 1\tdefinitions 1\nsheet bytes\t{}\n", worked(&[]).len())), "{}", run.out);
    let tries: Vec<&str> = run.out.lines().filter(|line| line.starts_with("try\t")).collect();
    assert_eq!(tries.len(), 2);
    assert!(tries[0].starts_with("try\tline 10\tml\ttheta 1.0\tdeviance ") && tries[1].starts_with("try\tline 17\treml\ttheta -0.5\tdeviance "), "{tries:?}");
    assert_eq!(husk_fed(&["show", "-"], text.as_bytes()).out.lines().skip(1).collect::<Vec<_>>(), run.out.lines().skip(1).collect::<Vec<_>>());
    stops(&husk_fed(&["show", "-"], text.replace("try\treml", "try\tmap").as_bytes()), 3, "standard input:17: the line is not `try` and ml or reml");
    let refused = husk_fed(&["show", "-"], text.replacen("zx\t0\t0", "zx\t0\t1", 1).as_bytes());
    stops(&refused, 1, "standard input:5: refusal 2: line 4 of the sheet is ill-formed, missing or out of sequence");
    // A sheet is wanted where a record is given.
    stops(&husk(&["solve", &path, "1"]), 1, "this is a record, and a sheet is wanted");
}

// ---- file

fn names_in(folder: &Path) -> Vec<String> {
    let mut names: Vec<String> = std::fs::read_dir(folder).unwrap().map(|entry| entry.unwrap().file_name().into_string().unwrap()).collect();
    names.sort();
    names
}

#[test]
fn a_record_is_filed_and_added_to() {
    let folder = folder("file");
    for name in DATA_SETS {
        let sheet = put(&folder, &format!("{name}.txt"), example(&format!("{name}/sheet.txt")));
        let filed = folder.join(format!("{name}.record"));
        let filed = filed.to_str().unwrap();
        let theta: Vec<f64> = (0..if columns(name).join(" ").contains(',') { 2 } else { 1 }).map(|i| 0.75 + i as f64).collect();
        let theta_text: Vec<String> = theta.iter().map(|number| number.to_string()).collect();
        let mut arguments = vec!["file", &sheet];
        arguments.extend(theta_text.iter().map(String::as_str));
        let run = husk(&arguments);
        assert_eq!((run.status, run.err.as_str()), (0, ""), "{name}");
        assert!(run.out.contains(".record: filed ml at theta 0.75"), "{}", run.out);
        let sheet_text = example(&format!("{name}/sheet.txt"));
        assert_eq!(read(filed), record(&sheet_text, &[(Mode::Ml, theta.clone())]));
        arguments.extend(["--reml", "--add", filed]);
        assert_eq!(husk(&arguments).status, 0);
        assert_eq!(read(filed), record(&sheet_text, &[(Mode::Ml, theta.clone()), (Mode::Reml, theta)]));
        assert_eq!(husk(&["verify", filed]).status, 0);
    }
    // Nothing is left beside the sheets and the records.
    assert_eq!(names_in(&folder).len(), 2 * DATA_SETS.len(), "{:?}", names_in(&folder));
}

#[test]
fn nothing_is_overwritten_unless_asked() {
    let folder = folder("overwrite");
    let sheet = put(&folder, "sheet.txt", worked(&[]));
    let path = put(&folder, "kept.record", "something else\n");
    stops(&husk(&["file", &sheet, "1", "--out", &path]), 3, "it is there already, and nothing was written");
    assert_eq!(read(&path), "something else\n");
    assert_eq!(husk(&["file", &sheet, "1", "--out", &path, "--force"]).status, 0);
    let first = record(&worked(&[]), &[(Mode::Ml, vec![1.0])]);
    assert_eq!(read(&path), first);
    // The same try again, another sheet, a damaged record: nothing is added.
    stops(&husk(&["file", &sheet, "1", "--add", &path]), 3, "kept.record:10: this try is filed here already");
    let other = put(&folder, "other.txt", worked(&[("size\t3", "size\t4")]));
    stops(&husk(&["file", &other, "2", "--add", &path]), 3, "it is the record of another sheet");
    let cut = put(&folder, "cut.record", &first[..first.len() - 1]);
    stops(&husk(&["file", &sheet, "2", "--add", &cut]), 3, "cut.record:16: the last line does not end in a line feed");
    stops(&husk(&["file", &sheet, "2", "--add", "no/record"]), 3, "no/record: No such file");
    stops(&husk(&["file", &sheet, "2", "--out", "no/folder/x.record"]), 3, "no/folder/x.record: there is no such folder");
    assert_eq!((read(&path), read(&cut).len()), (first.clone(), first.len() - 1));
    // A theta or a sheet that is refused is not filed.
    stops(&husk(&["file", &sheet, "nan", "--add", &path]), 1, "refusal 14: list 0 holds an infinity or NaN at index 0");
    let refused = put(&folder, "refused.txt", "size\n");
    stops(&husk(&["file", &refused, "1"]), 1, "refused.txt:1: refusal 2: line 1");
    stops(&husk_fed(&["file", "-", "1"], worked(&[]).as_bytes()), 2, "--out RECORD says where");
    assert_eq!(names_in(&folder), ["cut.record", "kept.record", "other.txt", "refused.txt", "sheet.txt"]);
    // From standard input, by a name.
    let piped = folder.join("piped.record");
    assert_eq!(husk_fed(&["file", "-", "1", "--out", piped.to_str().unwrap()], worked(&[]).as_bytes()).status, 0);
    assert_eq!(read(piped.to_str().unwrap()), first);
}

#[test]
fn links_and_permissions_are_kept() {
    use std::os::unix::fs::{symlink, PermissionsExt};
    let folder = folder("links");
    let sheet = put(&folder, "sheet.txt", worked(&[]));
    let real = put(&folder, "real.record", record(&worked(&[]), &[(Mode::Ml, vec![1.0])]));
    std::fs::set_permissions(&real, std::fs::Permissions::from_mode(0o640)).unwrap();
    let link = folder.join("link.record");
    symlink("real.record", &link).unwrap();
    assert_eq!(husk(&["file", &sheet, "2", "--add", link.to_str().unwrap()]).status, 0);
    assert!(link.symlink_metadata().unwrap().file_type().is_symlink());
    assert_eq!(read(&real), record(&worked(&[]), &[(Mode::Ml, vec![1.0]), (Mode::Ml, vec![2.0])]));
    assert_eq!(std::fs::metadata(&real).unwrap().permissions().mode() & 0o777, 0o640);
    // What is no file is never replaced, and neither is what is write-protected.
    stops(&husk(&["file", &sheet, "1", "--out", "/dev/null", "--force"]), 3, "/dev/null: it is no regular file");
    std::fs::set_permissions(&real, std::fs::Permissions::from_mode(0o440)).unwrap();
    stops(&husk(&["file", &sheet, "3", "--add", &real]), 3, "real.record: it is write-protected");
    // A link to nothing is there already, too.
    let empty = folder.join("empty.record");
    symlink("nothing", &empty).unwrap();
    stops(&husk(&["file", &sheet, "1", "--out", empty.to_str().unwrap()]), 3, "it is there already");
}

#[test]
fn no_scale_and_a_refused_pivot_are_filed() {
    let folder = folder("answers");
    for (name, sheet, theta, reml, line, words) in [
        ("noscale", without_scale(), "1", true, "noscale", "no scale"),
        ("pivot", without_pivot(), "1", false, "refused\t26\t1\t0", "refusal 26"),
        ("finish", worked(&[("zz\t0\t0\t4008000000000000\n", "")]), "1e200", false, "refused\t27\t0\t0", "refusal 27"),
    ] {
        let path = put(&folder, name, &sheet);
        let mut arguments = vec!["file", &path, theta];
        arguments.extend(reml.then_some("--reml"));
        let run = husk(&arguments);
        assert_eq!(run.status, 0, "{run:?}");
        assert!(run.out.contains(words), "{}", run.out);
        let filed = format!("{path}.record");
        assert_eq!(read(&filed).lines().last(), Some(line));
        assert_eq!(husk(&["verify", &filed]).status, 0);
    }
}

/// Adding at the same time: everyone has his turn, and no try is lost.
#[test]
fn tries_that_are_added_at_once() {
    let folder = folder("at-once");
    let sheet = put(&folder, "sheet.txt", worked(&[]));
    let path = put(&folder, "x.record", record(&worked(&[]), &[(Mode::Ml, vec![1.0])]));
    std::thread::scope(|scope| {
        for theta in 2..10 {
            let (sheet, path) = (&sheet, &path);
            scope.spawn(move || assert_eq!(husk(&["file", sheet, &theta.to_string(), "--add", path]).status, 0));
        }
    });
    assert_eq!(read(&path).lines().filter(|line| *line == "try\tml").count(), 9);
    assert_eq!(husk(&["verify", &path]).status, 0);
    assert_eq!(names_in(&folder), ["sheet.txt", "x.record"]);
}

/// One block of so many levels and eight fixed effects, a little more than a sheet may have, with these entries left out; n has so many digits more than one.
fn long_sheet(left_out: &[usize], digits: usize) -> String {
    let (m, p) = (59_950, 8);
    let (one, zero) = ("3ff0000000000000", "0000000000000000");
    let mut text = format!("size\t9{}\t{p}\t{m}\t1\t1\nblock\t{m}\t1\n", "0".repeat(digits));
    (0..m).filter(|row| !left_out.contains(row)).for_each(|row| text += &format!("zz\t{row}\t{row}\t{one}\n"));
    (0..m).for_each(|row| (0..p).for_each(|c| text += &format!("zx\t{row}\t{c}\t{zero}\n")));
    (0..m).for_each(|row| text += &format!("zy\t{row}\t{zero}\n"));
    (0..p).for_each(|r| (0..=r).for_each(|c| text += &format!("xx\t{r}\t{c}\t{}\n", if r == c { one } else { zero })));
    (0..p).for_each(|r| text += &format!("xy\t{r}\t{zero}\n"));
    text + &format!("yy\t{one}\n")
}

/// The long sheet, which has `whole` bytes, cut to exactly so many. The line of an entry has 24, 26, 28, 30 or 32 bytes, by the digits of its row, so any even number from 72 on can be
/// left out; a digit of n makes the number even.
fn sheet_of_length(length: usize, whole: usize) -> String {
    let excess = whole - length;
    assert!(excess >= 72);
    let digits = excess % 2;
    let without = excess + digits;
    let lines = (without + 31) / 32;
    // Nearly all of them have the most digits, and the last few make up the difference.
    let mut more = (without - 24 * lines) / 2;
    let mut next = [0, 10, 100, 1000, 10_000];
    let mut left_out = Vec::new();
    for _ in 0..lines {
        let digits = more.min(4);
        more -= digits;
        left_out.push(next[digits]);
        next[digits] += 1;
    }
    long_sheet(&left_out, digits)
}

/// Sheets up to exactly the most bytes that are allowed are filed, shown and had again; one byte more is refused.
#[test]
fn the_longest_sheets() {
    let folder = folder("longest");
    let (longest, whole) = (16_777_216, long_sheet(&[], 0).len());
    for (less, reml) in [(0, false), (7, true)] {
        let sheet = sheet_of_length(longest - less, whole);
        assert_eq!(sheet.len(), longest - less);
        let path = put(&folder, "long.txt", &sheet);
        let filed = folder.join("long.record");
        let filed = filed.to_str().unwrap();
        let mut arguments = vec!["file", &path, "0.5", "--out", filed, "--force"];
        arguments.extend(reml.then_some("--reml"));
        let run = husk(&arguments);
        assert_eq!(run.status, 0, "{run:?}");
        let run = husk(&["verify", filed]);
        assert_eq!(run.status, 0, "{run:?}");
        assert!(husk(&["show", filed]).out.contains(&format!("sheet bytes\t{}\n", longest - less)));
    }
    let path = put(&folder, "long.txt", sheet_of_length(longest + 1, whole));
    stops(&husk(&["show", &path]), 1, "refusal 1: the sheet is longer than 16,777,216 bytes");
}

// ---- orders

#[test]
fn orders_come_to_the_same_words() {
    for name in DATA_SETS {
        let sheet = example_path(&format!("{name}/sheet.txt"));
        let two = columns(name).join(" ").contains(',');
        let mut arguments = vec!["orders", &sheet, "1.25", "--count", "30", "--seed", "7"];
        arguments.extend(two.then_some("-0.5"));
        let run = husk(&arguments);
        assert_eq!((run.status, run.err.as_str()), (0, ""), "{name}: {}", run.out);
        assert!(run.out.starts_with("30 orders from seed 7: ") && run.out.contains("all the same as in the Rust's order"), "{}", run.out);
        assert!(run.out.contains("updates abandoned") && !run.out.contains(" 0 calls refused"), "{}", run.out);
        // The same seed gives the same run.
        assert_eq!(husk(&arguments).out, run.out);
    }
}

#[test]
fn orders_of_three_blocks_and_of_refused_pivots() {
    let sheet = common::Readings::random(&[4, 9, 6], 2, 60, false, &mut common::Random(3)).sheet();
    let run = husk_fed(&["orders", "-", "1", "0.5", "2", "--count", "20", "--seed", "0"], sheet.as_bytes());
    assert_eq!(run.status, 0, "{run:?}");
    let run = husk_fed(&["orders", "-", "1", "--count", "5"], without_pivot().as_bytes());
    assert_eq!(run.status, 0, "{run:?}");
    assert!(run.out.contains("all the same as in the Rust's order, each refused: refusal 26: the pivot of block 1, row 0"), "{}", run.out);
    stops(&husk_fed(&["orders", "-", "nan"], worked(&[]).as_bytes()), 1, "refusal 14");
    stops(&husk_fed(&["orders", "-", "1"], b"size\n"), 1, "refusal 2");
}

// ---- output

/// A reader that goes away ends the command without a word.
#[test]
fn nobody_listens() {
    use std::process::{Command, Stdio};
    let folder = folder("unheard");
    let sheet = common::Readings::random(&[9000], 1, 9000, false, &mut common::Random(4)).sheet();
    let sheet = put(&folder, "long.txt", sheet);
    let mut child =
        Command::new(env!("CARGO_BIN_EXE_husk")).args(["solve", &sheet, "1", "--all"]).stdout(Stdio::piped()).stderr(Stdio::piped()).spawn().unwrap();
    drop(child.stdout.take());
    let output = child.wait_with_output().unwrap();
    assert_eq!((output.status.code(), output.stderr.len()), (Some(3), 0), "{}", String::from_utf8_lossy(&output.stderr));
}
