//! Calls of `./yam` whose output cannot be written, its help and its version, and what is packed again.

use super::call::{Argument, Call, Caller, How, Text, Wanted};
use super::given::{arguments, wanted};
use super::wrong::{passing, refused};
use crate::programs::given::Given;
use crate::programs::runs::image;
use std::process::Command;

/// The commands as help must name them, each with an example.
const COMMANDS: [&str; 8] = ["list", "asm", "check", "run", "trace", "pack", "config", "--version"];

fn text(arguments: &[&str]) -> Vec<Argument> {
    arguments.iter().map(|text| Argument::Text(text.to_string())).collect()
}

/// Standard output that is full or closed: status 3, said on standard error, whatever there was to print. Standard error that is full or
/// closed changes neither status nor standard output.
pub fn failing() -> Result<Vec<Call>, String> {
    let mut list = Vec::new();
    let calls = passing().into_iter().chain(refused()).map(|given| Ok((arguments(&given), wanted(&given)?)));
    let more = [&["help"][..], &["--help"], &["--version"]].map(|arguments| {
        let passed = Wanted { status: 0, output: Text::With(vec![]), error: Text::nothing() };
        Ok((text(arguments), passed))
    });
    for (number, call) in calls.chain(more).enumerate() {
        let (arguments, whole) = call.map_err(|how: String| how)?;
        let name = |what: &str| format!("{what}: {}", format!("{arguments:?}").chars().take(60).collect::<String>());
        for redirections in [">/dev/full", ">&-"] {
            let wanted = Wanted { status: 3, output: Text::nothing(), error: Text::With(vec!["yam".to_string()]) };
            list.push(Call { name: name(redirections), arguments: arguments.clone(), redirections, wanted });
        }
        let redirections = ["2>/dev/full", "2>&-"][number % 2];
        let wanted = Wanted { error: Text::nothing(), ..whole };
        list.push(Call { name: name(redirections), arguments: arguments.clone(), redirections, wanted });
    }
    Ok(list)
}

/// Whether a text has a line with a command and something behind it.
fn has_example(help: &str, command: &str) -> bool {
    help.lines().any(|line| {
        line.split_once(&format!("yam {command}")).is_some_and(|(_, rest)| command.starts_with('-') || rest.starts_with(' '))
    })
}

fn status_0(arguments: &[&str]) -> Call {
    let wanted = Wanted { status: 0, output: Text::With(vec![]), error: Text::nothing() };
    Call { name: arguments.join(" "), arguments: text(arguments), redirections: "", wanted }
}

/// How help, --help and --version are not as they should be.
pub fn told(caller: &Caller) -> Result<Vec<String>, String> {
    let mut differences = Vec::new();
    let mut printed = Vec::new();
    for arguments in [["help"], ["--help"], ["--version"]] {
        let call = status_0(&arguments);
        let (said, left) = caller.make(&call)?;
        differences.extend(call.wanted.difference(&said).or(left).map(|how| format!("{}: {how}", call.name)));
        printed.push(String::from_utf8_lossy(&said.output).into_owned());
    }
    let [help, same, version] = &printed[..] else { return Err("three calls were made".to_string()) };
    if help != same {
        differences.push("help and --help differ".to_string());
    }
    let missing = COMMANDS.iter().filter(|command| !has_example(help, command));
    differences.extend(missing.map(|command| format!("help: no example of {command}: {help:?}")));
    for identity in identities(caller) {
        if !version.contains(&identity) {
            differences.push(format!("--version: {version:?} does not say {identity:?}"));
        }
    }
    Ok(differences)
}

/// The first letters of the commit, and the toolchain's name for itself, where the machine can tell them.
fn identities(caller: &Caller) -> Vec<String> {
    let line = |program: &str, arguments: &[&str]| {
        let output = Command::new(program).args(arguments).current_dir(caller.yam.parent()?).output().ok()?;
        let text = String::from_utf8_lossy(&output.stdout).trim().to_string();
        (output.status.success() && !text.is_empty()).then_some(text)
    };
    [line("git", &["rev-parse", "--short=7", "HEAD"]), line("rt", &["version"])].into_iter().flatten().collect()
}

/// "Packed again, the two give the same file": how they do not.
pub fn packed_again(caller: &Caller) -> Result<Vec<String>, String> {
    let banks = "REG_SIZE=128 RM_SIZE=1024 PC_STACK=64 DM_SIZE=32768 DM_PIPE=2 ALU_LEVEL=2 YAM_CLK=1023 YAM_SREG3=65535";
    let files = [
        image("", "RET"),
        image(banks, &"JSRWP 0000,010\nRETWP\n".repeat(100)),
        image("REG_WIDTH=8 DM_SIZE=0 REG_SIZE=64 RM_SIZE=64 ALU_MULT=1 ALU_SPR=1 IOP_IF=1 IOP_RMW=1", "MUL %00,%3f\nSPR_ON"),
    ];
    let mut differences = Vec::new();
    for (number, file) in files.iter().enumerate() {
        let back = |words: bool| -> Result<Vec<u8>, String> {
            let given = Given::Config { image: file.clone(), words };
            let call = Call { name: String::new(), arguments: arguments(&given), redirections: "", wanted: wanted(&given)? };
            Ok(caller.make(&call)?.0.output)
        };
        let (config, words) = (back(false)?, back(true)?);
        let arguments =
            vec![Argument::Text("pack".to_string()), Argument::File(config, How::Named), Argument::File(words, How::InputPipe)];
        let wanted = Wanted { status: 0, output: Text::Exactly(file.clone()), error: Text::nothing() };
        let call = Call { name: format!("file {number} packed again"), arguments, redirections: "", wanted };
        let (printed, left) = caller.make(&call)?;
        differences.extend(call.wanted.difference(&printed).or(left).map(|how| format!("{}: {how}", call.name)));
    }
    Ok(differences)
}
