//! What the programs printed, counted: every number that each can print, and every kind of change that a trace can name.

use super::given::{mode_name, Given, Outcome};
use crate::model::commands::Mode;
use std::collections::BTreeMap;

/// How often each outcome was met, by program, and each kind of change, by name.
#[derive(Default)]
pub struct ProgramsSeen {
    outcomes: BTreeMap<&'static str, BTreeMap<String, u64>>,
    changes: BTreeMap<String, u64>,
}

const IMAGE: [u32; 6] = [1, 2, 19, 20, 21, 22];
const SOURCE: [u32; 6] = [6, 7, 24, 25, 26, 36];
/// What ends a run from reset with zeroed memories: 1, 2, 3 and 16 come before it.
const STOPS: [u32; 14] = [0, 4, 5, 6, 7, 8, 9, 10, 11, 12, 13, 14, 15, 27];
const BUDGET: u32 = 16;
const RULES: u32 = 8;

/// The kinds of change, as `kind_of` names them.
const CHANGES: [&str; 21] = [
    "WP",
    "RX",
    "RY",
    "N",
    "Z",
    "SPR7",
    "IMask",
    "saved",
    "mode",
    "posted",
    "port",
    "loaded",
    "taken",
    "logged",
    "depth",
    "stack",
    "register",
    "register in banks",
    "memory",
    "log",
    "none",
];

fn refused(number: &u32) -> String {
    format!("refused {number}")
}

/// The outcomes that each program can have, as `name_of` has them.
fn possible() -> Vec<(&'static str, Vec<String>)> {
    let passes = || vec!["passes".to_string()];
    let image = || passes().into_iter().chain(IMAGE.iter().map(refused)).collect::<Vec<_>>();
    let texts = |what: &[&str]| what.iter().map(|what| format!("malformed {what}")).collect::<Vec<_>>();
    let asm = [image(), SOURCE.iter().map(refused).collect()].concat();
    let check = [image(), (1..=RULES).map(|rule| format!("refused 17 rule {rule}")).collect()].concat();
    let ended = |mode| STOPS.iter().map(move |number| format!("{} ended {number}", mode_name(mode)));
    let run = [
        ended(Mode::Run).chain(ended(Mode::Trace)).collect(),
        IMAGE.iter().chain([&BUDGET]).map(refused).collect(),
        texts(&["line", "length 1048576"]),
    ]
    .concat();
    let pack =
        [passes(), [1, 2].iter().map(refused).collect(), texts(&["entry", "line", "length 4096", "length 1048576"])].concat();
    vec![
        ("yam_list", image()),
        ("yam_asm", asm),
        ("yam_check", check),
        ("yam_run", run),
        ("yam_pack", pack),
        ("yam_config", image()),
    ]
}

/// An outcome, in a word.
pub fn name_of(given: &Given, outcome: &Outcome) -> String {
    match (given, outcome) {
        (_, Outcome::Passed) => "passes".to_string(),
        (_, Outcome::Refused { number, rule: None }) => refused(number),
        (_, Outcome::Refused { number, rule: Some(rule) }) => format!("refused {number} rule {rule}"),
        (Given::Run { mode, .. }, Outcome::Ended(number)) => format!("{} ended {number}", mode_name(*mode)),
        (_, Outcome::Ended(number)) => format!("ended {number}"),
        (_, Outcome::Malformed { what, number }) if what == "length" => format!("malformed length {number}"),
        (_, Outcome::Malformed { what, .. }) => format!("malformed {what}"),
    }
}

/// The kind of a change as a trace names it.
fn kind_of(change: &str) -> &str {
    let name = change.split('=').next().unwrap_or_default();
    match (name.as_bytes().first(), name.len()) {
        (Some(b'%'), 3) => "register",
        (Some(b'%'), 4) => "register in banks",
        (Some(b'&'), _) => "memory",
        _ => name,
    }
}

impl ProgramsSeen {
    pub fn count(&mut self, given: &Given, output: &[u8]) {
        let name = name_of(given, &given.outcome(output));
        *self.outcomes.entry(given.program()).or_default().entry(name).or_default() += 1;
        if matches!(given, Given::Run { mode: Mode::Trace, .. }) {
            self.count_changes(&String::from_utf8_lossy(output));
        }
    }

    fn count_changes(&mut self, trace: &str) {
        for (_, changes) in trace.lines().filter_map(|line| line.split_once(" ;")) {
            let kinds = changes.split_whitespace().map(kind_of);
            for kind in if changes.is_empty() { vec!["none"] } else { kinds.collect() } {
                *self.changes.entry(kind.to_string()).or_default() += 1;
            }
        }
    }

    /// What was never met, and what was met though it is not known to be possible.
    pub fn unmet(&self) -> Vec<String> {
        let mut unmet = Vec::new();
        for (program, names) in possible() {
            let counts = self.outcomes.get(program).cloned().unwrap_or_default();
            unmet.extend(names.iter().filter(|name| !counts.contains_key(*name)).map(|name| format!("{program} never: {name}")));
            let unknown = counts.keys().filter(|name| !names.contains(name));
            unmet.extend(unknown.map(|name| format!("{program}, not known to be possible: {name}")));
        }
        let never = CHANGES.iter().filter(|kind| !self.changes.contains_key(**kind));
        unmet.extend(never.map(|kind| format!("a trace never named a change of this kind: {kind}")));
        let unknown = self.changes.keys().filter(|kind| !CHANGES.contains(&kind.as_str()));
        unmet.extend(unknown.map(|kind| format!("a trace names what is not known: {kind}")));
        unmet
    }

    pub fn print(&self) {
        let each = |counts: &BTreeMap<String, u64>| {
            counts.iter().map(|(name, count)| format!("{name}: {count}")).collect::<Vec<_>>().join(", ")
        };
        for (program, counts) in &self.outcomes {
            println!("{program:10} {:6}   {}", counts.values().sum::<u64>(), each(counts));
        }
        println!("changes that the traces name: {}", each(&self.changes));
    }
}

#[cfg(test)]
mod tests {
    use super::*;

    #[test]
    fn what_was_never_met_is_told() {
        let mut seen = ProgramsSeen::default();
        let image = Vec::new();
        let trace = Given::Run { mode: Mode::Trace, image, steps: "1".to_string(), inputs: None };
        seen.count(&trace, b"1 2 000000 a2860010 MOV %06,#0010 ; %06=00000010\nended 13\n");
        let unmet = seen.unmet();
        let told = |what: &str| unmet.iter().any(|line| line == what);
        for never in
            ["yam_check never: refused 17 rule 8", "yam_run never: run ended 13", "yam_pack never: malformed length 4096"]
        {
            assert!(told(never), "{unmet:?}");
        }
        assert!(!told("yam_run never: trace ended 13"));
        assert!(told("a trace never named a change of this kind: register in banks"));
        assert!(!told("a trace never named a change of this kind: register"));
        seen.count(&trace, b"1 2 000000 a2860010 MOV %06,#0010 ; PC=000001\nended 28\n");
        assert!(seen.unmet().iter().any(|line| line == "a trace names what is not known: PC"));
        assert!(seen.unmet().iter().any(|line| line == "yam_run, not known to be possible: trace ended 28"));
    }
}
