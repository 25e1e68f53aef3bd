//! `husk verify`: works every try of every record out again from the record's own sheet, and compares the words.

use std::any::Any;
use std::collections::BTreeMap;
use std::ffi::OsString;
use std::io::{self, BufReader, IsTerminal, Write};
use std::panic::{self, AssertUnwindSafe};
use std::path::{Path, PathBuf};
use std::sync::atomic::{AtomicBool, AtomicUsize, Ordering};
use std::sync::mpsc::{self, Receiver, Sender};
use std::thread;
use std::time::{Duration, Instant};

use huskcanyon::Workspace;

use crate::collection::{self, Found, EXTENSION};
use crate::lines::counted;
use crate::options::Options;
use crate::output::Output;
use crate::record::{Comparison, Fault, Reader};
use crate::stop::{Outcome, Stop, REFUSED, UNREADABLE};
use crate::{input, tries, Status};

/// What came of a record. The texts stand behind its name.
enum Report {
    Same { tries: u64 },
    Differs { text: String },
    Unreadable { text: String },
}

/// How many records came to what.
#[derive(Default)]
struct Summary {
    same: u64,
    tries: u64,
    differ: u64,
    unreadable: u64,
}

/// Runs the command.
pub fn run(arguments: Vec<OsString>) -> Outcome<Status> {
    let options = Options::parse(arguments, &[], &["--jobs"])?;
    if options.rest.is_empty() {
        return Err(Stop::usage("FILE or FOLDER is missing"));
    }
    if options.rest.iter().any(|path| path == "-") {
        return Err(Stop::usage("records are verified by their names, and not from standard input"));
    }
    let processors = thread::available_parallelism().map_or(1, |number| number.get());
    let jobs = options.number("--jobs", 1)?.map_or(processors, |jobs| usize::try_from(jobs).unwrap_or(usize::MAX));
    let paths: Vec<PathBuf> = options.rest.iter().map(PathBuf::from).collect();
    verify(collection::find(&paths), jobs)
}

fn verify(found: Found, jobs: usize) -> Outcome<Status> {
    let start = Instant::now();
    let mut out = Output::new();
    let mut summary = Summary::default();
    for (folder, why) in &found.unreadable {
        out.text(format!("{}: could not be read: {why}\n", input::name(folder)))?;
    }
    let records = &found.records;
    let (next, end) = (AtomicUsize::new(0), AtomicBool::new(false));
    let reported = thread::scope(|scope| {
        let (sender, receiver) = mpsc::channel();
        for started in 0..jobs.min(records.len()) {
            let (sender, next, end) = (sender.clone(), &next, &end);
            let worker = thread::Builder::new().stack_size(crate::STACK).spawn_scoped(scope, move || work(records, next, end, &sender));
            match worker {
                Ok(_) => {}
                Err(error) if started == 0 => return Err(Stop { status: UNREADABLE, message: Some(format!("no thread can be started: {error}")) }),
                // Fewer will do.
                Err(_) => break,
            }
        }
        drop(sender);
        let reported = report(records, &receiver, &mut out, &mut summary);
        // Where the output could not be written the workers need not go on; else they are through.
        end.store(true, Ordering::Relaxed);
        reported
    });
    reported?;
    let Summary { same, differ, unreadable, tries } = summary;
    if found.others > 0 {
        out.text(format!("{} passed over: the name of a record ends in .{EXTENSION}\n", counted(found.others, "other file")))?;
    }
    let (all, tries) = (counted(records.len() as u64, "record"), counted(tries, "try"));
    out.text(format!("{all}: {same} had again ({tries}), {differ} differ, {unreadable} could not be read\n"))?;
    let folders = found.unreadable.len() as u64;
    if folders > 0 {
        out.text(format!("{} could not be read\n", counted(folders, "other path")))?;
    }
    out.end()?;
    let seconds = start.elapsed().as_secs_f64();
    let rate = records.len() as f64 / seconds.max(1e-9);
    // That the rate cannot be told changes nothing.
    let _ = writeln!(io::stderr(), "{seconds:.2} seconds, {rate:.0} records a second, {}", counted(jobs.min(records.len()).max(1) as u64, "job"));
    if records.is_empty() && folders == 0 {
        return Err(Stop { status: UNREADABLE, message: Some("there is no record".to_string()) });
    }
    Ok(match (differ, unreadable + folders) {
        (0, 0) => 0,
        (0, _) => UNREADABLE,
        _ => REFUSED,
    })
}

/// Reports are handed over together: one by one they would cost as much as a small record.
type Reports = Vec<(usize, Report)>;
const TOGETHER: Duration = Duration::from_millis(20);

/// Takes one record after another until there is none left.
fn work(records: &[PathBuf], next: &AtomicUsize, end: &AtomicBool, sender: &Sender<Reports>) {
    let (mut reports, mut sent) = (Reports::new(), Instant::now());
    while !end.load(Ordering::Relaxed) {
        let index = next.fetch_add(1, Ordering::Relaxed);
        if index >= records.len() {
            break;
        }
        // Whatever is in a record, the others have their turn.
        let answer = panic::catch_unwind(AssertUnwindSafe(|| record(&records[index])));
        let report = answer.unwrap_or_else(|panic| Report::Unreadable { text: format!(": could not be read: husk broke off: {}", reason(&*panic)) });
        // What there is to be told does not wait for the next record.
        let at_once = !matches!(report, Report::Same { .. });
        reports.push((index, report));
        if at_once || sent.elapsed() >= TOGETHER {
            if sender.send(std::mem::take(&mut reports)).is_err() {
                return;
            }
            sent = Instant::now();
        }
    }
    // Where nobody listens any more there is nothing to be said.
    let _ = sender.send(reports);
}

fn reason(panic: &(dyn Any + Send)) -> &str {
    panic.downcast_ref::<String>().map(String::as_str).or_else(|| panic.downcast_ref::<&str>().copied()).unwrap_or("for no reason that is known")
}

/// A record, verified.
fn record(path: &Path) -> Report {
    let (mut tries, mut all) = (0, Comparison::default());
    let fault = compare(path, &mut tries, &mut all).err();
    match (all.first, fault) {
        (None, None) => Report::Same { tries },
        (None, Some(fault)) => {
            let place = if fault.line > 0 { format!(":{}", fault.line) } else { String::new() };
            Report::Unreadable { text: format!("{place}: could not be read: {}", fault.why) }
        }
        // A difference weighs more than what is behind it.
        (Some(first), fault) => {
            let more = if all.lines == 1 { String::new() } else { format!(" (the first of {} lines that differ)", all.lines) };
            let broken = fault.map_or_else(String::new, |fault| format!("; from line {} on it could not be read", fault.line));
            Report::Differs { text: format!(":{}: differs: filed {}, had again {}{more}{broken}", first.line, first.filed, first.again) }
        }
    }
}

/// Counts the tries of a record, and how they compare.
fn compare(path: &Path, tries: &mut u64, all: &mut Comparison) -> Result<(), Fault> {
    let (mut reader, sheet) = Reader::open(BufReader::with_capacity(1 << 16, input::open(path)?))?;
    // The sheet begins on the second line.
    let refused = |refusal| Fault {
        line: input::line_of(refusal).map_or(0, |line| line + 1),
        why: format!("its sheet: {}", input::refusal_in_words(&sheet, 2, refusal)),
    };
    let mut workspace = Workspace::load(&sheet).map_err(refused)?;
    drop(sheet);
    let (p, q) = (workspace.fixed_effects(), workspace.random_rows());
    while let Some(filed) = reader.next_try()? {
        let again = tries::work_out(&mut workspace, &filed.theta, filed.mode);
        reader.compare(p, q, &again, all)?;
        *tries += 1;
    }
    Ok(())
}

/// Writes what there is to be told, in the order of the names, whatever is finished first.
fn report(records: &[PathBuf], receiver: &Receiver<Reports>, out: &mut Output, summary: &mut Summary) -> Outcome<()> {
    let mut bar = Bar::new(records.len());
    let mut waiting = BTreeMap::new();
    let (mut done, mut told) = (0, 0);
    for reports in receiver.iter() {
        done += reports.len();
        waiting.extend(reports);
        while let Some(report) = waiting.remove(&told) {
            let text = match report {
                Report::Same { tries } => {
                    summary.same += 1;
                    summary.tries += tries;
                    None
                }
                Report::Differs { text } => {
                    summary.differ += 1;
                    Some(text)
                }
                Report::Unreadable { text } => {
                    summary.unreadable += 1;
                    Some(text)
                }
            };
            if let Some(text) = text {
                bar.clear();
                out.text(format!("{}{text}\n", input::name(&records[told])))?;
                out.flush()?;
            }
            told += 1;
        }
        bar.show(done, summary);
    }
    bar.clear();
    Ok(())
}

/// A progress bar on a terminal, none in a pipe.
struct Bar {
    all: usize,
    shown: Option<Instant>,
    on: bool,
}

impl Bar {
    fn new(all: usize) -> Bar {
        Bar { all, shown: None, on: io::stderr().is_terminal() }
    }

    fn show(&mut self, done: usize, summary: &Summary) {
        let now = Instant::now();
        if !self.on || self.shown.is_some_and(|shown| now - shown < Duration::from_millis(100)) {
            return;
        }
        self.shown = Some(now);
        const WIDTH: usize = 20;
        let filled = WIDTH * done / self.all.max(1);
        // That the bar cannot be seen is no reason to end.
        let _ = write!(
            io::stderr(),
            "\r\x1b[K[{}{}] {done} of {}, {} differ, {} unreadable",
            "#".repeat(filled),
            ".".repeat(WIDTH - filled),
            self.all,
            summary.differ,
            summary.unreadable
        );
    }

    fn clear(&mut self) {
        if self.on && self.shown.is_some() {
            let _ = write!(io::stderr(), "\r\x1b[K");
        }
    }
}
