//! Calls `./yam` as a user would, and compares status, standard output and standard error with docs/commands.md.

mod call;
mod given;
mod outputs;
#[cfg(test)]
mod trials;
mod wrong;

use crate::model::commands::{Mode, DEFAULT_STEPS};
use crate::model::step::BUDGET_LIMIT;
use crate::programs::{cases, given::Given, runs, seen};
use call::{Argument, Call, Caller, How, UNNAMED};
use std::collections::BTreeMap;
use std::path::Path;

/// How many of the programs' cases of each outcome are called through `./yam`.
const OF_EACH: u32 = 3;

/// How many calls that do not end by themselves are waited for.
const ENDLESS: u32 = 3;

/// The commands, and the statuses that each must have been met with.
const COMMANDS: [&str; 7] = ["list", "asm", "check", "run", "trace", "pack", "config"];
const STATUSES: [i32; 4] = [0, 1, 2, 3];

/// How often each status was met, by command.
#[derive(Default)]
struct CallsSeen(BTreeMap<String, BTreeMap<i32, u64>>);

impl CallsSeen {
    fn count(&mut self, call: &Call, status: Option<i32>) {
        if let (Some(Argument::Text(command)), Some(status)) = (call.arguments.first(), status) {
            *self.0.entry(command.clone()).or_default().entry(status).or_default() += 1;
        }
    }

    fn unmet(&self) -> Vec<String> {
        let met = |command: &str, status: &i32| self.0.get(command).is_some_and(|counts| counts.contains_key(status));
        let all = COMMANDS.iter().flat_map(|command| STATUSES.map(|status| (command, status)));
        all.filter(|(command, status)| !met(command, status))
            .map(|(command, status)| format!("{command} never ended with {status}"))
            .collect()
    }

    fn print(&self) {
        for command in COMMANDS {
            let counts = self.0.get(command).cloned().unwrap_or_default();
            let each: Vec<String> = counts.iter().map(|(status, count)| format!("status {status}: {count}")).collect();
            println!("yam {command:6} {:5}   {}", counts.values().sum::<u64>(), each.join(", "));
        }
    }
}

/// The small calls in every way that a file can be given.
fn ways() -> Result<Vec<Call>, String> {
    let mut list = Vec::new();
    for given in wrong::passing().iter().chain(&wrong::refused()) {
        list.push(given::call(given.program(), given, None, How::Named)?);
        for place in given::files(&given::arguments(given)) {
            for how in UNNAMED {
                list.push(given::call(&format!("{}, argument {place}", given.program()), given, Some(place), how)?);
            }
        }
    }
    Ok(list)
}

/// Some of the programs' cases of each outcome, the ways of giving a file by turns.
fn outcomes() -> Result<Vec<Call>, String> {
    let mut met: BTreeMap<(&str, String), u32> = BTreeMap::new();
    let mut list = Vec::new();
    for case in cases::all() {
        let outcome = seen::name_of(&case.given, &case.given.outcome(&case.given.wanted()));
        let count = met.entry((case.given.program(), outcome)).or_default();
        *count += 1;
        if *count > OF_EACH {
            continue;
        }
        let files = given::files(&given::arguments(&case.given));
        let number = list.len();
        let how = if number % 2 == 0 { How::Named } else { UNNAMED[number / 2 % UNNAMED.len()] };
        list.push(given::call(&case.name, &case.given, Some(files[number % files.len()]), how)?);
    }
    Ok(list)
}

/// As many steps as there may be, traced.
fn longest() -> Result<Call, String> {
    let image = runs::image("", "loop: ADD %00,#0001,S\nJMP loop,NZ");
    let given = Given::Run { mode: Mode::Trace, image, steps: BUDGET_LIMIT.to_string(), inputs: None };
    given::call("the longest trace", &given, None, How::Named)
}

/// `run` and `trace` without STEPS.
fn without_steps() -> Result<Vec<Call>, String> {
    let mut list = Vec::new();
    for given in wrong::passing().into_iter().chain(wrong::refused()) {
        let Given::Run { mode, image, inputs, .. } = given else { continue };
        let given = Given::Run { mode, image, inputs, steps: DEFAULT_STEPS.to_string() };
        let mut call = given::call("no STEPS", &given, None, How::Named)?;
        call.arguments.pop();
        list.push(call);
    }
    Ok(list)
}

/// How calls came to something else than they should.
fn run_calls(caller: &Caller, calls: &[Call], seen: &mut CallsSeen) -> Result<Vec<String>, String> {
    let (mut differences, mut endless) = (Vec::new(), 0);
    for call in calls {
        let (printed, left) = caller.make(call)?;
        seen.count(call, printed.status);
        endless += u32::from(printed.status.is_none());
        if let Some(how) = call.wanted.difference(&printed).or(left) {
            let shown: Vec<String> = call.arguments.iter().map(shown).collect();
            differences.push(format!("{} (yam {} {}): {how}", call.name, shown.join(" "), call.redirections));
        }
        if endless == ENDLESS {
            differences.insert(0, format!("after {ENDLESS} calls that did not end by themselves no more were made"));
            break;
        }
    }
    Ok(differences)
}

/// An argument as it is printed.
fn shown(argument: &Argument) -> String {
    const SHOWN: usize = 40;
    match argument {
        Argument::Text(text) => format!("{:?}", text.chars().take(SHOWN).collect::<String>()),
        Argument::File(bytes, how) => {
            let start = String::from_utf8_lossy(&bytes[..bytes.len().min(SHOWN)]).into_owned();
            format!("{how:?}({} bytes {start:?})", bytes.len())
        }
    }
}

/// Tests a `./yam`. True where every call comes to what docs/commands.md says.
pub fn run(yam: &Path) -> Result<bool, String> {
    let caller = Caller::new(yam)?;
    std::fs::create_dir_all(caller.scratch.folder.join("folder")).map_err(|e| e.to_string())?;
    let mut seen = CallsSeen::default();
    let lists = [vec![longest()?], ways()?, outcomes()?, without_steps()?, wrong::all()?, outputs::failing()?];
    let calls: Vec<Call> = lists.into_iter().flatten().collect();
    let mut differences = run_calls(&caller, &calls, &mut seen)?;
    differences.extend(outputs::told(&caller)?);
    differences.extend(outputs::packed_again(&caller)?);
    println!("{} calls of yam beside the model:", calls.len());
    seen.print();
    let unmet = seen.unmet();
    for what in &unmet {
        println!("not met: {what}");
    }
    for difference in differences.iter().take(crate::SHOWN) {
        println!("differs: {difference}");
    }
    println!("{} differences, {} not met", differences.len(), unmet.len());
    caller.scratch.remove();
    caller.temporary.remove();
    Ok(unmet.is_empty() && differences.is_empty())
}
