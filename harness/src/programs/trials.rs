//! Trials of the cases: programs that are wrong on purpose, which one case at least must tell from the model.

use super::cases;
use super::given::{Case, Given, Outcome};
use super::seen::ProgramsSeen;
use crate::model::commands::Mode;
use std::sync::OnceLock;

/// What a wrong program prints: an edit of what the model says, by what it was given.
type Wrong = fn(&Given, &str) -> Option<String>;

/// The cases with what the model says, but for those that print an image.
fn cases_printed() -> &'static [(Case, String)] {
    static CASES: OnceLock<Vec<(Case, String)>> = OnceLock::new();
    CASES.get_or_init(|| {
        let printed = |case: Case| String::from_utf8(case.given.wanted()).ok().map(|text| (case, text));
        cases::all().into_iter().filter_map(printed).collect()
    })
}

#[test]
fn the_cases_meet_every_outcome_and_every_change() {
    let mut seen = ProgramsSeen::default();
    for case in cases::all() {
        seen.count(&case.given, &case.given.wanted());
    }
    assert_eq!(seen.unmet(), Vec::<String>::new());
}

/// How many cases tell a wrong program from the model.
fn telling(wrong: Wrong) -> usize {
    cases_printed().iter().filter(|(case, text)| wrong(&case.given, text).is_some_and(|other| other != *text)).count()
}

/// Leaves out the changes of a kind from a trace.
fn without(given: &Given, text: &str, kind: fn(&str) -> bool) -> Option<String> {
    let Given::Run { mode: Mode::Trace, .. } = given else { return None };
    let line = |line: &str| match line.split_once(" ;") {
        Some((step, changes)) => {
            let kept: String =
                changes.split_whitespace().filter(|change| !kind(change)).map(|change| format!(" {change}")).collect();
            format!("{step} ;{kept}\n")
        }
        None => format!("{line}\n"),
    };
    Some(text.lines().map(line).collect())
}

/// Leaves a line out of a report.
fn without_line(given: &Given, text: &str, name: &str) -> Option<String> {
    matches!(given, Given::Run { .. }).then(|| {
        let other = |line: &&str| line.split(' ').next() != Some(name);
        text.lines().filter(other).map(|line| format!("{line}\n")).collect()
    })
}

const TRACES: [(&str, Wrong); 12] = [
    ("Z", |given, text| without(given, text, |change| change.starts_with("Z="))),
    ("IMask", |given, text| without(given, text, |change| change.starts_with("IMask="))),
    ("saved", |given, text| without(given, text, |change| change.starts_with("saved="))),
    ("SPR7", |given, text| without(given, text, |change| change.starts_with("SPR7="))),
    ("port", |given, text| without(given, text, |change| change.starts_with("port="))),
    ("loaded", |given, text| without(given, text, |change| change.starts_with("loaded="))),
    ("stack", |given, text| without(given, text, |change| change.starts_with("stack="))),
    ("a register beyond the first bank", |given, text| {
        without(given, text, |change| change.len() > 4 && change.as_bytes()[4] == b'=' && change >= "%010")
    }),
    ("a cell from 4000 hex on", |given, text| without(given, text, |change| change.starts_with('&') && change >= "&4000")),
    ("the log", |given, text| without(given, text, |change| change.starts_with("log="))),
    ("every other change of a step", |given, text| {
        let Given::Run { mode: Mode::Trace, .. } = given else { return None };
        let first = |line: &str| {
            line.split_once(" ;").map_or(line.to_string(), |(step, changes)| {
                format!("{step} ;{}", changes.split_inclusive(' ').take(2).collect::<String>())
            })
        };
        Some(text.lines().map(|line| first(line).trim_end_matches(' ').to_string() + "\n").collect())
    }),
    ("a step without a change", |given, text| {
        let Given::Run { mode: Mode::Trace, .. } = given else { return None };
        Some(text.lines().filter(|line| !line.ends_with(" ;")).map(|line| format!("{line}\n")).collect())
    }),
];

const REPORTS: [(&str, Wrong); 5] = [
    ("taken", |given, text| without_line(given, text, "taken")),
    ("stack", |given, text| without_line(given, text, "stack")),
    ("the last registers", |given, text| without_line(given, text, "%3f8")),
    ("log", |given, text| without_line(given, text, "log")),
    ("saved", |given, text| without_line(given, text, "saved")),
];

#[test]
fn what_a_trace_or_a_report_leaves_out_is_found() {
    for (what, wrong) in TRACES.into_iter().chain(REPORTS) {
        assert!(telling(wrong) > 0, "left out, and not found: {what}");
    }
}

fn malformed(what: &str, number: usize) -> Option<String> {
    Some(format!("malformed {what} {number}\n"))
}

/// Readers of texts that take too little or too much.
const READERS: [(&str, Wrong); 9] = [
    ("capital digits of inputs are refused", |given, _| match given {
        Given::Run { inputs: Some(text), .. } if text.iter().any(u8::is_ascii_uppercase) => malformed("line", 1),
        _ => None,
    }),
    ("a last line without its newline is refused", |given, text| match given {
        Given::Run { inputs: Some(words), .. } | Given::Pack { words, .. } if !words.is_empty() && !words.ends_with(b"\n") => {
            (!text.starts_with("malformed")).then(|| "malformed line 1\n".to_string())
        }
        _ => None,
    }),
    ("an empty last line is taken", |given, text| match given {
        Given::Run { inputs: Some(words), .. } if words.ends_with(b"\n\n") && text.starts_with("malformed line") => {
            Some("ended 0\n".to_string())
        }
        _ => None,
    }),
    ("inputs may have as many bytes less one", |given, _| match given {
        Given::Run { inputs: Some(text), .. } if text.len() == 1_048_576 => malformed("length", 1_048_576),
        _ => None,
    }),
    ("CONFIG may have as many bytes less one", |given, _| match given {
        Given::Pack { config, .. } if config.len() == 4_096 => malformed("length", 4_096),
        _ => None,
    }),
    ("CONFIG may have a byte more", |given, _| match given {
        Given::Pack { config, .. } if config.len() == 4_097 => Some("refused 2\n".to_string()),
        _ => None,
    }),
    ("ten digits wrap around", |given, text| match given {
        Given::Pack { config, .. } if config.ends_with(b"REG_WIDTH=4294967328") => {
            (!text.starts_with("refused")).then(String::new)
        }
        _ => None,
    }),
    ("entries are counted from 0", |given, text| match given {
        Given::Pack { .. } => {
            text.strip_prefix("malformed entry ")?.trim().parse().ok().and_then(|n: usize| malformed("entry", n - 1))
        }
        _ => None,
    }),
    ("lines are counted from 0", |given, text| match given {
        Given::Run { .. } => {
            text.strip_prefix("malformed line ")?.trim().parse().ok().and_then(|n: usize| malformed("line", n - 1))
        }
        _ => None,
    }),
];

/// What is refused in another order, or not at all.
const ORDERS: [(&str, Wrong); 6] = [
    ("16 before the inputs' form", |given, text| match given {
        Given::Run { steps, .. } if steps == "1000001" && text.starts_with("malformed") => Some("refused 16\n".to_string()),
        _ => None,
    }),
    ("16 before the image", |given, text| match given {
        Given::Run { steps, .. } if steps == "1000001" && text.starts_with("refused 19") => Some("refused 16\n".to_string()),
        _ => None,
    }),
    ("STEPS cut to 32 bits", |given, text| match given {
        Given::Run { steps, .. } if steps == "4294967297" && text.starts_with("refused 16") => {
            Some("ended 0\nsteps 1\n".to_string())
        }
        _ => None,
    }),
    ("1 before the words' form", |given, text| match given {
        Given::Pack { config, .. } if config == b"IM_SIZE=2 DM_PIPE=3" && text.starts_with("malformed") => {
            Some("refused 1\n".to_string())
        }
        _ => None,
    }),
    ("a rule's line is left out", |given, text| match (given, given.outcome(text.as_bytes())) {
        (_, Outcome::Refused { number: 17, .. }) => text.lines().next().map(|line| format!("{line}\n")),
        _ => None,
    }),
    ("a longer certificate is cut", |given, text| match given {
        Given::Check { certificate, .. } if certificate.len() > 8_192 && text == "refused 2\n" => {
            Some("passes level 0\n".to_string())
        }
        _ => None,
    }),
];

#[test]
fn readers_and_orders_that_are_wrong_are_found() {
    for (what, wrong) in READERS.into_iter().chain(ORDERS) {
        assert!(telling(wrong) > 0, "not found: {what}");
    }
}
