//! The words after a command's name, taken apart: options with their values, switches, and what is left. Names of files need not be
//! in UTF-8.

use std::collections::BTreeMap;
use std::ffi::{OsStr, OsString};
use std::os::unix::ffi::OsStrExt;

use crate::command::Failure;
use crate::notation::nearest;
use crate::problem::shown_name;

/// What a command was given.
#[derive(Default)]
pub struct Given {
    pub operands: Vec<OsString>,
    values: BTreeMap<String, OsString>,
    switches: Vec<String>,
}

/// Said of a file's name that is no name.
const EMPTY: &str = "the name of a file is empty";

impl Given {
    /// Options that take a value have it as the next word or after a =, and after -- there are none.
    pub fn of(args: &[OsString], options: &[&str], switches: &[&str]) -> Result<Given, Failure> {
        let mut taken = Given::default();
        let mut rest = args.iter();
        while let Some(word) = rest.next() {
            if word == "--" {
                taken.operands.extend(rest.by_ref().cloned());
                break;
            }
            let bytes = word.as_bytes();
            if word == "-" || !bytes.starts_with(b"-") {
                taken.operands.push(word.clone());
                continue;
            }
            let end = bytes.iter().position(|byte| *byte == b'=');
            let name = String::from_utf8_lossy(&bytes[..end.unwrap_or(bytes.len())]).into_owned();
            let joined = end.map(|end| OsStr::from_bytes(&bytes[end + 1..]).to_os_string());
            if switches.contains(&name.as_str()) {
                taken.switch(name, joined)?;
            } else if options.contains(&name.as_str()) {
                taken.option(name, joined.or_else(|| rest.next().cloned()))?;
            } else {
                return Err(Failure::Usage(unknown(
                    "option",
                    &name,
                    options.iter().chain(switches).copied(),
                )));
            }
        }
        match taken.operands.iter().any(|operand| operand.is_empty()) {
            true => Err(Failure::Usage(EMPTY.to_string())),
            false => Ok(taken),
        }
    }

    fn switch(&mut self, name: String, value: Option<OsString>) -> Result<(), Failure> {
        match value {
            Some(_) => Err(Failure::Usage(format!("{name} takes no value"))),
            None => {
                self.switches.push(name);
                Ok(())
            }
        }
    }

    fn option(&mut self, name: String, value: Option<OsString>) -> Result<(), Failure> {
        let fault = |what: &str| Err(Failure::Usage(format!("{name} {what}")));
        match value {
            None => fault("needs a value"),
            Some(value) if value.is_empty() => fault("is given, and nothing stands after it"),
            Some(_) if self.values.contains_key(&name) => fault("is given twice"),
            Some(value) => {
                self.values.insert(name, value);
                Ok(())
            }
        }
    }

    pub fn has(&self, switch: &str) -> bool {
        self.switches.iter().any(|given| given == switch)
    }

    pub fn value(&self, option: &str) -> Option<&OsStr> {
        self.values.get(option).map(OsString::as_os_str)
    }

    /// The two files that a command takes.
    pub fn two_files(&self, [first, second]: [&str; 2]) -> Result<[&OsStr; 2], Failure> {
        match self.operands.as_slice() {
            [] => Err(Failure::Usage(format!("{first} and {second} are missing"))),
            [_] => Err(Failure::Usage(format!("{second} is missing"))),
            [one, other] => Ok([one, other]),
            [_, _, third, ..] => {
                Err(Failure::Usage(format!("two files only, and {} is one more", shown_name(third))))
            }
        }
    }

    /// The one file that a command takes.
    pub fn one_file(&self, what: &str) -> Result<&OsStr, Failure> {
        match self.operands.as_slice() {
            [] => Err(Failure::Usage(format!("a {what} is missing"))),
            [file] => Ok(file),
            [_, second, ..] => {
                Err(Failure::Usage(format!("one {what} only, and {} is one more", shown_name(second))))
            }
        }
    }
}

/// What is not known, with what was likely meant.
pub fn unknown<'a>(noun: &str, name: &str, known: impl Iterator<Item = &'a str>) -> String {
    let meant = nearest(name, known).map_or(String::new(), |near| format!("; did you mean {near}?"));
    format!("no {noun} {}{meant}", shown_name(name))
}

#[cfg(test)]
mod tests {
    use super::*;

    fn taken(words: &[&str]) -> Result<Given, String> {
        let words: Vec<OsString> = words.iter().map(OsString::from).collect();
        Given::of(&words, &["--words", "-o"], &["--svg"]).map_err(|failure| failure.to_string())
    }

    #[test]
    fn options_have_values_and_what_is_left_are_files() {
        let given = taken(&["--words", "0,1", "a", "--svg", "-o=x=y", "-", "--", "--words", "-b"])
            .expect("good words");
        assert_eq!(given.operands, ["a", "-", "--words", "-b"]);
        assert_eq!(given.value("--words"), Some(OsStr::new("0,1")));
        assert_eq!(given.value("-o"), Some(OsStr::new("x=y")));
        assert!(given.has("--svg"));
        assert_eq!(
            taken(&["--words=count"]).expect("a good word").value("--words"),
            Some(OsStr::new("count"))
        );
    }

    #[test]
    fn faults_are_told() {
        for (words, told) in [
            (&["--words"][..], "--words needs a value"),
            (&["--words", ""], "--words is given, and nothing stands after it"),
            (&["--words="], "--words is given, and nothing stands after it"),
            (&["--words=1", "--words", "2"], "--words is given twice"),
            (&["--svg=yes"], "--svg takes no value"),
            (&["--wrods=1"], "no option --wrods; did you mean --words?"),
            (&["--pdf\u{1b}[31m"], "no option --pdf\\u{1b}[31m"),
            (&["a", ""], "the name of a file is empty"),
        ] {
            assert_eq!(taken(words).err().as_deref(), Some(told), "{words:?}");
        }
    }
}
