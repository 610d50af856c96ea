//! Reads and writes that fail: a program must say so on standard error, and print no refusal, which would be a word about its input.

use super::{runs, Place};
use crate::processes::{wait, Printed};
use std::process::{Command, Stdio};

/// What is wrong, as a shell's redirections; what the program is given: `$1` an image of six words, `$2` one that is refused, `$3` a source,
/// `$4` a certificate that passes and `$5` one that does not, `$6` six words as a text, `$7` entries.
struct Failing {
    name: &'static str,
    program: &'static str,
    arguments: &'static str,
    /// True where a write fails: what standard output took before is not looked at.
    writing: bool,
}

const fn reading(name: &'static str, program: &'static str, arguments: &'static str) -> Failing {
    Failing { name, program, arguments, writing: false }
}

const fn writing(name: &'static str, program: &'static str, arguments: &'static str) -> Failing {
    Failing { name, program, arguments, writing: true }
}

const FAILING: &[Failing] = &[
    reading("standard input is a folder", "yam_list", "</"),
    reading("standard input is closed", "yam_list", "<&-"),
    reading("standard input can only be written", "yam_list", "0>/dev/null"),
    writing("standard output is full", "yam_list", "<\"$1\" >/dev/full"),
    writing("standard output is closed", "yam_list", "<\"$1\" >&-"),
    writing("standard output is full at a refusal", "yam_list", "<\"$2\" >/dev/full"),
    reading("standard input is a folder", "yam_asm", "\"$1\" </"),
    reading("standard input is closed", "yam_asm", "\"$1\" <&-"),
    reading("the configuration is not there", "yam_asm", "\"$1.not_there\" <\"$3\""),
    reading("the configuration's name is empty", "yam_asm", "'' <\"$3\""),
    reading("the configuration is a folder", "yam_asm", "/ <\"$3\""),
    reading("no argument", "yam_asm", "<\"$3\""),
    reading("two arguments", "yam_asm", "\"$1\" \"$1\" <\"$3\""),
    writing("standard output is full", "yam_asm", "\"$1\" <\"$3\" >/dev/full"),
    writing("standard output is closed", "yam_asm", "\"$1\" <\"$3\" >&-"),
    writing("standard output is full at a refusal", "yam_asm", "\"$2\" <\"$3\" >/dev/full"),
    writing("standard output is closed at a refusal", "yam_asm", "\"$2\" <\"$3\" >&-"),
    writing("standard output is full at a refused source", "yam_asm", "\"$1\" <\"$1\" >/dev/full"),
    reading("standard input is a folder", "yam_check", "\"$4\" </"),
    reading("standard input is closed", "yam_check", "\"$4\" <&-"),
    reading("the certificate is not there", "yam_check", "\"$4.not_there\" <\"$1\""),
    reading("the certificate is a folder", "yam_check", "/ <\"$1\""),
    reading("the certificate's name is empty", "yam_check", "'' <\"$1\""),
    reading("no argument", "yam_check", "<\"$1\""),
    reading("two arguments", "yam_check", "\"$4\" \"$4\" <\"$1\""),
    writing("standard output is full", "yam_check", "\"$4\" <\"$1\" >/dev/full"),
    writing("standard output is closed", "yam_check", "\"$4\" <\"$1\" >&-"),
    writing("standard output is full at a refusal", "yam_check", "\"$4\" <\"$2\" >/dev/full"),
    writing("standard output is full at a broken rule", "yam_check", "\"$5\" <\"$1\" >/dev/full"),
    reading("standard input is a folder", "yam_run", "run 5 </"),
    reading("standard input is closed", "yam_run", "run 5 <&-"),
    reading("standard input can only be written", "yam_run", "trace 5 0>/dev/null"),
    reading("the inputs are not there", "yam_run", "run 5 \"$6.not_there\" <\"$1\""),
    reading("the inputs are a folder", "yam_run", "trace 5 / <\"$1\""),
    reading("no argument", "yam_run", "<\"$1\""),
    reading("no STEPS", "yam_run", "run <\"$1\""),
    reading("four arguments", "yam_run", "run 5 \"$6\" \"$6\" <\"$1\""),
    reading("neither run nor trace", "yam_run", "walk 5 <\"$1\""),
    writing("standard output is full", "yam_run", "run 5 <\"$1\" >/dev/full"),
    writing("standard output is full", "yam_run", "trace 1000 \"$6\" <\"$1\" >/dev/full"),
    writing("standard output is closed", "yam_run", "trace 1000 <\"$1\" >&-"),
    writing("standard output is full at a refusal", "yam_run", "run 1000001 <\"$1\" >/dev/full"),
    writing("standard output is full at a bad line", "yam_run", "run 5 \"$3\" <\"$1\" >/dev/full"),
    reading("standard input is a folder", "yam_pack", "\"$6\" </"),
    reading("standard input is closed", "yam_pack", "\"$6\" <&-"),
    reading("the words are not there", "yam_pack", "\"$6.not_there\" <\"$7\""),
    reading("the words are a folder", "yam_pack", "/ <\"$7\""),
    reading("no argument", "yam_pack", "<\"$7\""),
    reading("two arguments", "yam_pack", "\"$6\" \"$6\" <\"$7\""),
    writing("standard output is full", "yam_pack", "\"$6\" <\"$7\" >/dev/full"),
    writing("standard output is closed", "yam_pack", "\"$6\" <\"$7\" >&-"),
    writing("standard output is full at a refusal", "yam_pack", "/dev/null <\"$7\" >/dev/full"),
    writing("standard output is full at a bad entry", "yam_pack", "\"$6\" <\"$3\" >/dev/full"),
    reading("standard input is a folder", "yam_config", "</"),
    reading("standard input is closed", "yam_config", "words <&-"),
    writing("standard output is full", "yam_config", "<\"$1\" >/dev/full"),
    writing("standard output is full", "yam_config", "words <\"$1\" >/dev/full"),
    writing("standard output is closed", "yam_config", "<\"$1\" >&-"),
    writing("standard output is full at a refusal", "yam_config", "<\"$2\" >/dev/full"),
];

fn difference(failing: &Failing, printed: &Printed) -> Option<String> {
    let output = String::from_utf8_lossy(&printed.output);
    if printed.error.is_empty() {
        return Some(format!("it says nothing on standard error, and on standard output {output:?}"));
    }
    let tells = ["refused", "malformed"].iter().any(|word| output.contains(word));
    (tells || !failing.writing && !output.is_empty()).then(|| format!("it prints {output:?}"))
}

/// How the programs do not say that a read or a write failed.
pub(super) fn run(place: &Place) -> Result<Vec<String>, String> {
    let image = runs::image("", "loop: JMP loop\nRET\nRET\nRET\nRET\nRET");
    let files: [(&str, &[u8]); 7] = [
        ("whole.img", &image),
        ("refused.img", b"no image"),
        ("source", b"RET\n"),
        ("passing", &[0, 255, 255, 255, 255, 255]),
        ("broken", &[255; 6]),
        ("words", b"0\n0\n0\n0\n0\n0\n"),
        ("entries", b"IM_SIZE=6"),
    ];
    let paths = files.iter().map(|(name, bytes)| place.scratch.file(name, bytes)).collect::<Result<Vec<_>, _>>()?;
    let mut differences = Vec::new();
    for failing in FAILING {
        let script = format!("exec \"$0\" {}", failing.arguments);
        let mut shell = Command::new("sh");
        shell.arg("-c").arg(script).arg(place.programs.join(failing.program)).args(&paths);
        let printed = wait(shell.stdin(Stdio::null()), &[])?;
        let said = difference(failing, &printed);
        differences.extend(said.map(|how| format!("{}, {}: {how}", failing.program, failing.name)));
    }
    println!("reads and writes that fail, {}: {} not told as they should be", FAILING.len(), differences.len());
    Ok(differences)
}
