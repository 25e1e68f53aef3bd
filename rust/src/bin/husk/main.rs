//! `husk`: the tool for a collection of records. It makes sheets from tables, solves them, files what came out, and works every record of a collection out
//! again, to the last bit. All numbers of an answer come from the proved archive; what is here reads, writes and compares text. It is tested, not proved.

#![deny(unsafe_code)]
#![warn(missing_docs)]

mod collection;
mod csv;
mod file;
mod input;
mod lines;
mod options;
mod orders;
mod output;
mod readings;
mod record;
mod sheet;
mod show;
mod solve;
mod stop;
mod svg;
mod table;
mod tries;
mod usage;
mod verify;
mod writing;

use std::ffi::OsString;
use std::io::{self, Write};
use std::process::ExitCode;
use std::thread;

use stop::{Outcome, Stop};

/// The exit status of a command that ran to its end.
type Status = u8;

/// The commands, each with its usage text.
type Command = fn(Vec<OsString>) -> Outcome<Status>;
const COMMANDS: [(&str, Command, &str); 6] = [
    ("sheet", sheet::run, usage::SHEET),
    ("solve", solve::run, usage::SOLVE),
    ("show", show::run, usage::SHOW),
    ("file", file::run, usage::FILE),
    ("verify", verify::run, usage::VERIFY),
    ("orders", orders::run, usage::ORDERS),
];

/// The stack of every thread: load takes some 530 KB, more than a shell's limit may leave to the first one.
const STACK: usize = 1 << 23;

fn main() -> ExitCode {
    let command = || run(std::env::args_os().skip(1).collect());
    let outcome = match thread::Builder::new().stack_size(STACK).spawn(command).map(|thread| thread.join()) {
        Ok(Ok(outcome)) => outcome,
        // The panic has told why.
        Ok(Err(_)) => return ExitCode::from(101),
        Err(_) => command(),
    };
    match outcome {
        Ok(status) => ExitCode::from(status),
        Err(stop) => {
            if let Some(message) = &stop.message {
                // Where it cannot be told, the status says it.
                let _ = writeln!(io::stderr(), "husk: {message}");
            }
            ExitCode::from(stop.status)
        }
    }
}

fn run(mut arguments: Vec<OsString>) -> Outcome<Status> {
    if arguments.is_empty() {
        return Err(Stop::usage(format!("which command?\n\n{}", usage::HUSK.trim_end())));
    }
    let first = arguments.remove(0);
    match first.to_str() {
        Some("--help" | "-h" | "help") => return help(&arguments),
        Some("--version" | "-V") => return version(),
        _ => {}
    }
    let Some((name, command, text)) = COMMANDS.iter().find(|(name, ..)| first.to_str() == Some(name)) else {
        return Err(no_command(&first));
    };
    if options::asks_for_help(&arguments) {
        return print(text);
    }
    command(arguments).map_err(|stop| stop.in_command(name))
}

fn help(arguments: &[OsString]) -> Outcome<Status> {
    let Some(name) = arguments.first() else { return print(usage::HUSK) };
    match COMMANDS.iter().find(|(command, ..)| name.to_str() == Some(command)) {
        Some((_, _, text)) => print(text),
        None => Err(no_command(name)),
    }
}

fn no_command(name: &OsString) -> Stop {
    Stop::usage(format!("there is no command {name:?}; `husk --help` lists them"))
}

fn version() -> Outcome<Status> {
    print(&format!("husk {}, record format {}, definitions {}\n", env!("CARGO_PKG_VERSION"), record::FORMAT, record::DEFINITIONS))
}

fn print(text: &str) -> Outcome<Status> {
    let mut out = output::Output::new();
    out.text(text)?;
    out.end()?;
    Ok(0)
}
