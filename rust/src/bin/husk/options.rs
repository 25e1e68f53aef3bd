//! The arguments of a command: options by name, and the rest in turn.

use std::ffi::OsString;
use std::path::PathBuf;

use crate::stop::{Outcome, Stop};

/// What a command was given.
pub struct Options {
    flags: Vec<&'static str>,
    values: Vec<(&'static str, OsString)>,
    /// What is no option, in turn.
    pub rest: Vec<OsString>,
}

/// Whether a usage text is asked for, before anything that might be wrong with the other arguments.
pub fn asks_for_help(arguments: &[OsString]) -> bool {
    arguments.iter().take_while(|argument| *argument != "--").any(|argument| argument == "--help" || argument == "-h")
}

/// A number below 0 is no option, and neither is `-`, standard input.
fn is_option(argument: &str) -> bool {
    argument.len() > 1 && argument.starts_with('-') && argument.parse::<f64>().is_err()
}

impl Options {
    /// Takes the arguments apart: `flags` stand alone, `values` have a value behind them, as `--name value` or `--name=value`. Behind `--` there are no
    /// options.
    pub fn parse(arguments: Vec<OsString>, flags: &[&'static str], values: &[&'static str]) -> Outcome<Options> {
        let mut options = Options { flags: Vec::new(), values: Vec::new(), rest: Vec::new() };
        let mut arguments = arguments.into_iter();
        while let Some(argument) = arguments.next() {
            let text = argument.to_string_lossy().into_owned();
            if text == "--" {
                options.rest.extend(arguments);
                break;
            }
            if !is_option(&text) {
                options.rest.push(argument);
                continue;
            }
            let (name, inner) = match text.split_once('=') {
                // The value's bytes as they were given, which need not be UTF-8.
                Some((name, _)) => (name.to_string(), Some(behind(&argument, name.len() + 1))),
                None => (text, None),
            };
            options.take(&name, inner, &mut arguments, flags, values)?;
        }
        Ok(options)
    }

    fn take(
        &mut self,
        name: &str,
        inner: Option<OsString>,
        arguments: &mut impl Iterator<Item = OsString>,
        flags: &[&'static str],
        values: &[&'static str],
    ) -> Outcome<()> {
        if self.flags.contains(&name) || self.values.iter().any(|(value, _)| *value == name) {
            return Err(Stop::usage(format!("{name} is given twice")));
        }
        if let Some(flag) = flags.iter().find(|flag| **flag == name) {
            if inner.is_some() {
                return Err(Stop::usage(format!("{name} has no value")));
            }
            self.flags.push(flag);
            return Ok(());
        }
        let Some(value) = values.iter().find(|value| **value == name) else {
            return Err(Stop::usage(format!("there is no option {name}")));
        };
        let Some(given) = inner.or_else(|| arguments.next()) else {
            return Err(Stop::usage(format!("{name} wants a value")));
        };
        self.values.push((value, given));
        Ok(())
    }

    /// Whether a flag was given.
    pub fn has(&self, flag: &str) -> bool {
        self.flags.contains(&flag)
    }

    /// An option's value, as it was given.
    pub fn value(&self, name: &str) -> Option<&OsString> {
        self.values.iter().find(|(given, _)| *given == name).map(|(_, value)| value)
    }

    /// An option's value as a path.
    pub fn path(&self, name: &str) -> Option<PathBuf> {
        self.value(name).map(PathBuf::from)
    }

    /// An option's value as the path of a file that is written.
    pub fn target(&self, name: &str) -> Outcome<Option<PathBuf>> {
        match self.path(name) {
            Some(path) if path.as_os_str() == "-" => Err(Stop::usage(format!("{name} wants the name of a file, not -"))),
            path => Ok(path),
        }
    }

    /// An option's value as text.
    pub fn text(&self, name: &str) -> Outcome<Option<String>> {
        let Some(value) = self.value(name) else { return Ok(None) };
        match value.to_str() {
            Some(text) => Ok(Some(text.to_string())),
            None => Err(Stop::usage(format!("the value of {name} is not UTF-8"))),
        }
    }

    /// An option's value as a whole number from `least` on.
    pub fn number(&self, name: &str, least: u64) -> Outcome<Option<u64>> {
        let Some(text) = self.text(name)? else { return Ok(None) };
        match text.parse() {
            Ok(number) if number >= least => Ok(Some(number)),
            _ => Err(Stop::usage(format!("{name} wants a whole number from {least} on, not {text:?}"))),
        }
    }

    /// The first argument that is no option: a path, or `-`.
    pub fn take_path(&mut self, what: &str) -> Outcome<PathBuf> {
        if self.rest.is_empty() {
            return Err(Stop::usage(format!("{what} is missing")));
        }
        Ok(PathBuf::from(self.rest.remove(0)))
    }

    /// There must be nothing else.
    pub fn nothing_else(&self) -> Outcome<()> {
        match self.rest.first() {
            Some(argument) => Err(Stop::usage(format!("{argument:?} is one argument too many"))),
            None => Ok(()),
        }
    }
}

/// What stands in an argument from a byte on.
fn behind(argument: &OsString, from: usize) -> OsString {
    use std::os::unix::ffi::{OsStrExt, OsStringExt};
    OsString::from_vec(argument.as_bytes()[from..].to_vec())
}

#[cfg(test)]
mod tests {
    use super::*;

    fn parsed(arguments: &[&str]) -> Outcome<Options> {
        Options::parse(arguments.iter().map(OsString::from).collect(), &["--reml", "--all"], &["--count", "--svg"])
    }

    fn message(arguments: &[&str]) -> String {
        let stop = parsed(arguments).err().expect("bad usage");
        assert_eq!(stop.status, 2);
        stop.message.unwrap()
    }

    #[test]
    fn options_and_the_rest_in_any_order() {
        let options = parsed(&["a", "--count", "7", "-0.5", "--reml", "-", "--svg=x=y", "-.5", "-inf", "--", "--all"]).ok().unwrap();
        assert_eq!(options.rest, ["a", "-0.5", "-", "-.5", "-inf", "--all"]);
        assert!(options.has("--reml") && !options.has("--all"));
        assert_eq!(options.number("--count", 1).ok().unwrap(), Some(7));
        assert_eq!(options.path("--svg"), Some(PathBuf::from("x=y")));
    }

    #[test]
    fn bad_usage_is_told() {
        assert_eq!(message(&["--lots"]), "there is no option --lots");
        assert_eq!(message(&["-x"]), "there is no option -x");
        assert_eq!(message(&["--count"]), "--count wants a value");
        assert_eq!(message(&["--reml", "--reml"]), "--reml is given twice");
        assert_eq!(message(&["--count", "1", "--count=2"]), "--count is given twice");
        assert_eq!(message(&["--reml=1"]), "--reml has no value");
        let few = parsed(&["--count", "0"]).ok().unwrap().number("--count", 1).err().unwrap();
        assert_eq!(few.message.unwrap(), "--count wants a whole number from 1 on, not \"0\"");
    }

    #[test]
    fn help_is_asked_for_anywhere_before_two_dashes() {
        let asks = |arguments: &[&str]| asks_for_help(&arguments.iter().map(OsString::from).collect::<Vec<_>>());
        assert!(asks(&["a", "--help"]) && asks(&["-h"]));
        assert!(!asks(&["a", "--", "--help"]) && !asks(&[]));
    }
}
