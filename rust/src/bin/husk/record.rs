//! Records (docs/RECORDS.md): a first line, a sheet as it is, and tries with their answers. A record is read line by line, so that a long one takes no more
//! memory than its sheet.

use std::io::{self, BufRead, Read};

use huskcanyon::Mode;

use crate::input::{CR_HINT, LONGEST_SHEET};
use crate::lines;
use crate::tries::{label, Answer, Kind};

/// The number of the records' grammar.
pub const FORMAT: u64 = 1;
/// The number of the definitions by which answers are worked out: it goes up with a request that changes bits.
pub const DEFINITIONS: u64 = 1;

/// No line behind the sheet is as long as this.
const LONGEST_LINE: u64 = 256;
/// More numbers of theta no try has.
const MOST_THETA: usize = 64;

/// Why a record cannot be read, and on which line.
#[derive(Debug)]
pub struct Fault {
    /// The line, from 1; 0 where no line is at fault.
    pub line: u64,
    /// What is wrong with it.
    pub why: String,
}

impl Fault {
    fn at(line: u64, why: impl Into<String>) -> Fault {
        Fault { line, why: why.into() }
    }
}

impl From<io::Error> for Fault {
    fn from(error: io::Error) -> Fault {
        Fault::at(0, error.to_string())
    }
}

/// The first line of a record.
pub fn first_line() -> String {
    format!("record\t{FORMAT}\t{DEFINITIONS}\n")
}

/// A try and its answer, as a record has them.
pub fn try_text(mode: Mode, theta: &[f64], answer: &Answer) -> String {
    let mut text = format!("try\t{}\n", lines::mode(mode));
    for (index, &number) in theta.iter().enumerate() {
        text += &format!("theta\t{index}\t{:016x}\n", number.to_bits());
    }
    text + &answer.text()
}

/// Whether bytes begin as a record does.
pub fn is_record(bytes: &[u8]) -> bool {
    bytes.starts_with(b"record\t")
}

/// A try of a record, without its answer.
pub struct Try {
    /// The line on which it begins.
    pub line: u64,
    /// Its mode.
    pub mode: Mode,
    /// Its theta.
    pub theta: Vec<f64>,
}

/// A line that does not hold what was had again.
#[derive(Debug, PartialEq, Eq)]
pub struct Difference {
    /// The record's line.
    pub line: u64,
    /// What it says.
    pub filed: String,
    /// What it would have to say.
    pub again: String,
}

/// How filed answers compare with those that were had again.
#[derive(Debug, Default)]
pub struct Comparison {
    /// The first line that differs.
    pub first: Option<Difference>,
    /// How many lines differ.
    pub lines: u64,
}

/// A record that is being read. At rest the line that comes next stands in `line`.
pub struct Reader<R> {
    input: R,
    line: Vec<u8>,
    /// The number of the line that comes next.
    number: u64,
}

impl<R: BufRead> Reader<R> {
    /// Reads a record's first line and its sheet: what stands before the first line with the tag `try`.
    pub fn open(input: R) -> Result<(Reader<R>, Vec<u8>), Fault> {
        let mut reader = Reader { input, line: Vec::new(), number: 0 };
        reader.next_line()?;
        reader.check_first_line()?;
        let sheet = reader.read_sheet()?;
        Ok((reader, sheet))
    }

    fn check_first_line(&self) -> Result<(), Fault> {
        let text = std::str::from_utf8(&self.line).unwrap_or("");
        let fields: Vec<&str> = text.strip_suffix('\n').unwrap_or("").split('\t').collect();
        let numbers = match fields[..] {
            ["record", format, definitions] => lines::number(format).zip(lines::number(definitions)),
            _ => None,
        };
        match numbers {
            Some((FORMAT, DEFINITIONS)) => Ok(()),
            Some((FORMAT, other)) => Err(Fault::at(1, format!("its answers are of definitions {other}, and this husk works out definitions {DEFINITIONS}"))),
            Some((other, _)) => Err(Fault::at(1, format!("it is of format {other}, and this husk reads format {FORMAT}"))),
            None => Err(self.fault("it is no record: the first line is not `record`, the format's number and the definitions' number, tab-parted")),
        }
    }

    /// Leaves the first line of the first try as the next.
    fn read_sheet(&mut self) -> Result<Vec<u8>, Fault> {
        let mut sheet = Vec::new();
        loop {
            let start = sheet.len();
            self.number += 1;
            // As much as tells a sheet that is too long, or the longest sheet and the line behind it.
            (&mut self.input).take(LONGEST_SHEET + LONGEST_LINE - start as u64).read_until(b'\n', &mut sheet)?;
            let line = &sheet[start..];
            if line.starts_with(b"try\t") {
                self.line.clear();
                self.line.extend_from_slice(line);
                sheet.truncate(start);
                return Ok(sheet);
            }
            if line.is_empty() {
                return Err(Fault::at(self.number, "there is no try"));
            }
            if sheet.len() as u64 > LONGEST_SHEET {
                return Err(Fault::at(0, "its sheet: refusal 1: the sheet is longer than 16,777,216 bytes"));
            }
        }
    }

    fn next_line(&mut self) -> Result<(), Fault> {
        self.line.clear();
        self.number += 1;
        (&mut self.input).take(LONGEST_LINE).read_until(b'\n', &mut self.line)?;
        Ok(())
    }

    /// What is wrong with the next line.
    fn fault(&self, why: impl Into<String>) -> Fault {
        let hint = if self.line.ends_with(b"\r\n") { CR_HINT } else { "" };
        Fault::at(self.number, why.into() + hint)
    }

    /// The next line without its end; an error where it has none.
    fn text(&self) -> Result<&str, Fault> {
        match self.line.strip_suffix(b"\n") {
            Some(line) => std::str::from_utf8(line).map_err(|_| self.fault("the line is not text")),
            None if self.line.is_empty() => Err(self.fault("a line is missing")),
            None if self.line.len() as u64 == LONGEST_LINE => Err(self.fault("the line is too long")),
            None => Err(self.fault("the last line does not end in a line feed")),
        }
    }

    /// The next try, `None` at the record's end. Behind it stands its answer.
    pub fn next_try(&mut self) -> Result<Option<Try>, Fault> {
        if self.line.is_empty() {
            return Ok(None);
        }
        let line = self.number;
        let mode = self.text()?.strip_prefix("try\t").and_then(lines::from_mode);
        let mode = mode.ok_or_else(|| self.fault("the line is not `try` and ml or reml"))?;
        self.next_line()?;
        let mut theta = Vec::new();
        while self.line.starts_with(b"theta\t") {
            let number = self.word_behind(&format!("theta\t{}\t", theta.len()));
            theta.push(number.ok_or_else(|| self.fault(format!("the line is not `theta` {} and a word", theta.len())))?);
            if theta.len() > MOST_THETA {
                return Err(self.fault(format!("a try has at most {MOST_THETA} numbers of theta")));
            }
            self.next_line()?;
        }
        Ok(Some(Try { line, mode, theta }))
    }

    fn word_behind(&self, prefix: &str) -> Option<f64> {
        self.text().ok()?.strip_prefix(prefix).and_then(lines::from_word)
    }

    /// What kind of answer comes next.
    pub fn kind(&self) -> Result<Kind, Fault> {
        let tag = self.text()?.split('\t').next().unwrap_or("");
        Kind::of_tag(tag).ok_or_else(|| self.fault("the line is neither `theta` nor the first of an answer (`deviance`, `noscale`, `refused`)"))
    }

    /// Goes through the lines of an answer, with p fixed effects and q random rows; `each` is given an index and its text.
    pub fn answer(&mut self, p: usize, q: usize, mut each: impl FnMut(usize, &str)) -> Result<(), Fault> {
        let kind = self.kind()?;
        for i in 0..kind.lines(p, q) {
            each(i, self.answer_line(kind, i, p, q)?);
            self.next_line()?;
        }
        self.check_end()
    }

    /// Compares the answer that comes next with the one that was had again, and adds what differs, also where the answer breaks off behind it.
    pub fn compare(&mut self, p: usize, q: usize, again: &Answer, comparison: &mut Comparison) -> Result<(), Fault> {
        let kind = self.kind()?;
        let mut line = String::new();
        for i in 0..kind.lines(p, q) {
            // Of another kind of answer the first line says all.
            let compared = kind == again.kind() || i == 0;
            if compared {
                again.line(i, &mut line);
            }
            // A line that was had again is in form, so only others are looked at.
            if !compared || self.line.strip_suffix(b"\n") != Some(line.as_bytes()) {
                let number = self.number;
                let filed = self.answer_line(kind, i, p, q)?;
                if compared {
                    comparison.lines += 1;
                    let difference = || Difference { line: number, filed: filed.replace('\t', " "), again: line.replace('\t', " ") };
                    comparison.first.get_or_insert_with(difference);
                }
            }
            self.next_line()?;
        }
        self.check_end()
    }

    /// The next line, which must be in the form of line i of an answer.
    fn answer_line(&self, kind: Kind, i: usize, p: usize, q: usize) -> Result<&str, Fault> {
        let text = self.text()?;
        let (in_form, wanted) = match kind {
            Kind::Solved => match label(i, p, q) {
                (tag, None) => (self.word_behind(&format!("{tag}\t")).is_some(), format!("`{tag}` and a word")),
                (tag, Some(index)) => (self.word_behind(&format!("{tag}\t{index}\t")).is_some(), format!("`{tag}` {index} and a word")),
            },
            Kind::NoScale => (text == "noscale", "`noscale` alone".to_string()),
            Kind::Refused => (is_refusal(text), "`refused` and three numbers".to_string()),
        };
        if in_form {
            Ok(text)
        } else {
            Err(self.fault(format!("the line is not {wanted}")))
        }
    }

    /// Behind an answer comes a try or the end.
    fn check_end(&self) -> Result<(), Fault> {
        if self.line.is_empty() || self.line.starts_with(b"try\t") {
            return Ok(());
        }
        Err(self.fault("the line is left over: behind an answer comes a `try` or the end"))
    }
}

fn is_refusal(text: &str) -> bool {
    let fields: Vec<&str> = text.split('\t').collect();
    fields.len() == 4 && fields[1..].iter().all(|field| lines::number(field).is_some())
}
