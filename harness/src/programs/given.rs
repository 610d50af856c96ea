//! What a program is given, and what the model says that it prints.

use crate::model::commands::{self, Mode};
use crate::model::programs;
use crate::processes::Scratch;
use std::ffi::OsString;

/// The programs' inputs, by the names of docs/commands.md.
#[derive(Clone)]
pub enum Given {
    List {
        image: Vec<u8>,
    },
    Asm {
        config: Vec<u8>,
        source: Vec<u8>,
    },
    Check {
        image: Vec<u8>,
        certificate: Vec<u8>,
    },
    /// STEPS is a decimal of any length.
    Run {
        mode: Mode,
        image: Vec<u8>,
        steps: String,
        inputs: Option<Vec<u8>>,
    },
    Pack {
        config: Vec<u8>,
        words: Vec<u8>,
    },
    Config {
        image: Vec<u8>,
        words: bool,
    },
}

pub struct Case {
    pub name: String,
    pub given: Given,
}

impl Case {
    pub fn new(name: impl Into<String>, given: Given) -> Case {
        Case { name: name.into(), given }
    }
}

/// How a mode is called as an argument.
pub fn mode_name(mode: Mode) -> &'static str {
    match mode {
        Mode::Run => "run",
        Mode::Trace => "trace",
    }
}

impl Given {
    pub fn program(&self) -> &'static str {
        match self {
            Given::List { .. } => "yam_list",
            Given::Asm { .. } => "yam_asm",
            Given::Check { .. } => "yam_check",
            Given::Run { .. } => "yam_run",
            Given::Pack { .. } => "yam_pack",
            Given::Config { .. } => "yam_config",
        }
    }

    /// What the program reads on standard input.
    pub fn input(&self) -> &[u8] {
        match self {
            Given::List { image } | Given::Check { image, .. } | Given::Run { image, .. } | Given::Config { image, .. } => image,
            Given::Asm { source, .. } => source,
            Given::Pack { config, .. } => config,
        }
    }

    /// The file that an argument names.
    pub fn file(&self) -> Option<&[u8]> {
        match self {
            Given::Asm { config: file, .. }
            | Given::Check { certificate: file, .. }
            | Given::Run { inputs: Some(file), .. }
            | Given::Pack { words: file, .. } => Some(file),
            _ => None,
        }
    }

    /// The program's arguments; the file is put into the folder.
    pub fn arguments(&self, scratch: &Scratch) -> Result<Vec<OsString>, String> {
        let mut arguments: Vec<OsString> = match self {
            Given::Run { mode, steps, .. } => vec![mode_name(*mode).into(), steps.into()],
            Given::Config { words: true, .. } => vec!["words".into()],
            _ => vec![],
        };
        if let Some(bytes) = self.file() {
            arguments.push(scratch.file("argument", bytes)?.into());
        }
        Ok(arguments)
    }

    /// What the model says that the program prints.
    pub fn wanted(&self) -> Vec<u8> {
        match self {
            Given::List { image } => programs::list(image),
            Given::Asm { config, source } => programs::asm(config, source),
            Given::Check { image, certificate } => commands::check(image, certificate),
            // A number that no machine word holds is above every limit.
            Given::Run { mode, image, steps, inputs } => {
                commands::run(*mode, image, steps.parse().unwrap_or(u64::MAX), inputs.as_deref())
            }
            Given::Pack { config, words } => commands::pack(config, words),
            Given::Config { image, words } => commands::config(image, *words),
        }
    }

    /// In a word, what was printed.
    pub fn outcome(&self, output: &[u8]) -> Outcome {
        Outcome::of(output, matches!(self, Given::Run { .. }))
    }
}

/// What a program's output comes to.
#[derive(Clone, Debug, PartialEq, Eq)]
pub enum Outcome {
    Passed,
    /// A refusal's number, and the rule of 17.
    Refused {
        number: u32,
        rule: Option<u32>,
    },
    /// A report, with the number that ended the run.
    Ended(u32),
    /// A text that is not in its form: what is named, and its number.
    Malformed {
        what: String,
        number: u32,
    },
}

impl Outcome {
    fn of(output: &[u8], report: bool) -> Outcome {
        let first = output.split(|&byte| byte == b'\n').next().unwrap_or_default();
        let line = String::from_utf8_lossy(first);
        let words: Vec<&str> = line.split(' ').collect();
        let number = |word: &str| word.parse().ok();
        let told = match words[..] {
            ["refused", n, "address", _, "rule", rule] => {
                number(n).map(|number| Outcome::Refused { number, rule: rule.parse().ok() })
            }
            ["refused", n, ..] => number(n).map(|number| Outcome::Refused { number, rule: None }),
            ["malformed", what, n] => number(n).map(|number| Outcome::Malformed { what: what.to_string(), number }),
            _ if report => ended(output).map(Outcome::Ended),
            _ => None,
        };
        told.unwrap_or(Outcome::Passed)
    }
}

/// The number of the line `ended`, the first of the report.
fn ended(output: &[u8]) -> Option<u32> {
    let digits = output.split(|&byte| byte == b'\n').find_map(|line| line.strip_prefix(b"ended "))?;
    std::str::from_utf8(digits).ok()?.parse().ok()
}

#[cfg(test)]
mod tests {
    use super::*;

    #[test]
    fn outcomes_are_told_apart() {
        let of = |text: &str, report: bool| Outcome::of(text.as_bytes(), report);
        assert_eq!(of("000000 00000000 TST %00,%00,S\n", false), Outcome::Passed);
        assert_eq!(of("refused 19\n", true), Outcome::Refused { number: 19, rule: None });
        assert_eq!(of("refused 26 line 3\n", false), Outcome::Refused { number: 26, rule: None });
        assert_eq!(of("refused 17 address 00000a rule 4\n..", false), Outcome::Refused { number: 17, rule: Some(4) });
        assert_eq!(of("1 2 000000 ..\nended 13\nsteps 1\n", true), Outcome::Ended(13));
        assert_eq!(of("malformed entry 7\n", false), Outcome::Malformed { what: "entry".to_string(), number: 7 });
    }
}
