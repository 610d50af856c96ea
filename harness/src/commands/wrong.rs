//! Calls of `./yam` that go wrong before a program runs: usage, and files that cannot be read; and texts on the command line.

use super::call::{Argument, Call, How, Text, Wanted};
use super::given::{arguments, call, files, wanted};
use crate::model::forms::{ENTRIES_BYTES, WORDS_BYTES};
use crate::model::programs::FILE_BYTES;
use crate::programs::given::{mode_name, Given};
use crate::programs::runs::image;

/// A small call of each command that passes; those with a text that may be left out, with it and without.
pub fn passing() -> Vec<Given> {
    use crate::model::commands::Mode::{Run, Trace};
    let ports = image("REG_SIZE=8 RM_SIZE=8 IOP_IF=1", "MOVIO %00,@%01\nMOV &0002,%00\nRET\nloop: JMP loop");
    let endless = image("DM_SIZE=0", "loop: ADD %00,#0001,S\nJMP loop");
    let run = |mode, image: &Vec<u8>, inputs: Option<&[u8]>| Given::Run {
        mode,
        image: image.clone(),
        steps: "2".to_string(),
        inputs: inputs.map(<[u8]>::to_vec),
    };
    vec![
        Given::List { image: ports.clone() },
        Given::Asm { config: ports.clone(), source: b"loop: JMP loop\nRET".to_vec() },
        Given::Check { image: endless.clone(), certificate: vec![0, 0] },
        run(Run, &endless, None),
        run(Run, &ports, Some(b"ABC\n")),
        run(Trace, &endless, None),
        run(Trace, &ports, Some(b"abc\n1")),
        Given::Pack { config: b"IM_SIZE=2\n".to_vec(), words: b"A\nb\n".to_vec() },
        Given::Config { image: ports.clone(), words: false },
        Given::Config { image: ports, words: true },
    ]
}

/// One call of each command that is refused, or stopped.
pub fn refused() -> Vec<Given> {
    use crate::model::commands::Mode::{Run, Trace};
    let empty = image("", "RET");
    let run = |mode, image: &[u8]| Given::Run { mode, image: image.to_vec(), steps: "9".to_string(), inputs: None };
    vec![
        Given::List { image: vec![] },
        Given::Asm { config: empty.clone(), source: b"\nRETURN".to_vec() },
        Given::Check { image: empty.clone(), certificate: vec![0] },
        Given::Check { image: empty.clone(), certificate: vec![] },
        run(Run, &empty),
        run(Run, &[0]),
        run(Trace, &empty),
        Given::Pack { config: b"IM_SIZE=1".to_vec(), words: vec![] },
        Given::Config { image: vec![0; 512], words: true },
    ]
}

fn usage(name: impl Into<String>, arguments: Vec<Argument>) -> Call {
    let wanted = Wanted { status: 2, output: Text::nothing(), error: Text::With(vec![]) };
    Call { name: name.into(), arguments, redirections: "", wanted }
}

fn texts(list: &[&str]) -> Vec<Argument> {
    list.iter().map(|text| Argument::Text(text.to_string())).collect()
}

/// What `-` stands for in two places at once, an argument too many, and too few.
fn counts(list: &mut Vec<Call>) {
    for given in passing() {
        let whole = arguments(&given);
        let called = format!("{whole:?}").chars().take(40).collect::<String>();
        let mut more = whole.clone();
        more.push(Argument::Text("1".to_string()));
        list.push(usage(format!("an argument too many: {called}"), more));
        if let [first, second, ..] = files(&whole)[..] {
            let mut twice = whole.clone();
            for place in [first, second] {
                twice[place] = Argument::Text("-".to_string());
            }
            list.push(usage(format!("- given twice: {called}"), twice));
        }
        // STEPS may be left out; all else may not.
        let last = files(&whole).last().copied().unwrap_or(1);
        for length in 1..=last {
            list.push(usage(format!("{length} arguments: {called}"), whole[..length].to_vec()));
        }
    }
}

/// STEPS that are no number, as `decimal` is said to be.
const NO_STEPS: [&str; 16] =
    ["x", "-1", "+1", "1.5", "", " 1", "1 ", "0x10", "１", "1\n", "1e3", "ten", "1,000", "007", "00", "1000001x"];

fn steps(list: &mut Vec<Call>) {
    for given in passing() {
        let Given::Run { mode, .. } = given else { continue };
        for text in NO_STEPS {
            let mut arguments = arguments(&given);
            *arguments.last_mut().expect("STEPS") = Argument::Text(text.to_string());
            let mut call = usage(format!("{} with STEPS {text:?}", mode_name(mode)), arguments);
            call.wanted.error = Text::With(vec!["STEPS".to_string()]);
            list.push(call);
        }
    }
}

/// Calls of no command.
fn unknown(list: &mut Vec<Call>) {
    for arguments in [
        &[][..],
        &[""],
        &["lists"],
        &["LIST"],
        &["list "],
        &["-"],
        &["--list"],
        &["yam_list"],
        &["walk", "x"],
        &["--inputs"],
        &["*"],
    ] {
        list.push(usage(format!("{arguments:?}"), texts(arguments)));
    }
    for arguments in [
        &["config", "--word", "-"][..],
        &["config", "words", "-"],
        &["run", "--input", "x", "-"],
        &["trace", "--words", "-"],
        &["run", "--inputs"],
        &["run", "--inputs", "-"],
        &["run", "--inputs", "-", "-"],
        &["check", "-", "-"],
    ] {
        list.push(usage(format!("{arguments:?}"), texts(arguments)));
    }
}

/// Names of what cannot be read; `folder` is there.
const UNREADABLE: [&str; 6] = ["not there", "folder", "folder/not_there", "file 0/x", "", "/proc/self/mem"];

fn unreadable(list: &mut Vec<Call>) {
    for given in passing() {
        let whole = arguments(&given);
        for (place, name) in files(&whole).into_iter().flat_map(|place| UNREADABLE.map(|name| (place, name))) {
            let mut arguments = whole.clone();
            arguments[place] = Argument::Text(name.to_string());
            let wanted = Wanted { status: 3, output: Text::nothing(), error: Text::With(vec![name.to_string()]) };
            let called = format!("{} with argument {place} {name:?}", given.program());
            list.push(Call { name: called.clone(), arguments: arguments.clone(), redirections: "", wanted });
            if name == "folder" {
                arguments[place] = Argument::Text("-".to_string());
                for redirections in ["<folder", "<&-"] {
                    let wanted = Wanted { status: 3, output: Text::nothing(), error: Text::With(vec![]) };
                    let name = format!("{called} as standard input, {redirections}");
                    list.push(Call { name, arguments: arguments.clone(), redirections, wanted });
                }
            }
        }
    }
}

/// Longer than any file may be.
const TOO_LONG: usize = 2_000_000;

/// A device that never ends is read as far as a file may be long.
fn endless(list: &mut Vec<Call>) -> Result<(), String> {
    for given in passing() {
        let whole = arguments(&given);
        for (number, place) in files(&whole).into_iter().enumerate() {
            let given = with_file(&given, number, &vec![0; TOO_LONG]);
            let mut arguments = whole.clone();
            arguments[place] = Argument::Text("/dev/zero".to_string());
            let name = format!("{} with argument {place} without an end", given.program());
            list.push(Call { name, arguments, redirections: "", wanted: wanted(&given)? });
        }
    }
    Ok(())
}

/// Empty files, and ones a byte longer than an image, a text or CONFIG may be.
fn lengths(list: &mut Vec<Call>) -> Result<(), String> {
    let texts = [vec![], vec![b' '; ENTRIES_BYTES + 1], vec![0; FILE_BYTES + 1], vec![b'\n'; WORDS_BYTES + 1]];
    for (given, text) in passing().iter().flat_map(|given| texts.each_ref().map(|text| (given, text))) {
        for (number, place) in files(&arguments(given)).into_iter().enumerate() {
            let given = with_file(given, number, text);
            for how in [How::Named, How::Input, How::InputPipe, How::Fifo] {
                list.push(call(&format!("{} bytes as argument {place}", text.len()), &given, Some(place), how)?);
            }
        }
    }
    Ok(())
}

/// The same with another file in one of its places, as they stand on the command line.
fn with_file(given: &Given, place: usize, bytes: &[u8]) -> Given {
    let mut given = given.clone();
    let slots: Vec<&mut Vec<u8>> = match &mut given {
        Given::List { image } | Given::Config { image, .. } => vec![image],
        Given::Asm { config, source } => vec![config, source],
        Given::Check { image, certificate } => vec![image, certificate],
        Given::Run { image, inputs, .. } => inputs.iter_mut().chain([image]).collect(),
        Given::Pack { config, words } => vec![config, words],
    };
    if let Some(slot) = slots.into_iter().nth(place) {
        *slot = bytes.to_vec();
    }
    given
}

/// CONFIG on the command line, with what a shell could take for something else.
const ENTRIES: [&str; 18] = [
    "IM_SIZE=2",
    " IM_SIZE=2  PC_STACK=64 ",
    "IM_SIZE=2\nDM_SIZE=8\n\n",
    "IM_SIZE=02 REG_WIDTH=16 RM_SIZE=8 REG_SIZE=8",
    "IM_SIZE=2 DM_PIPE=3",
    "IM_SIZE=3",
    "IM_SIZE=",
    "=",
    "IM_SIZE=2 IM_SIZE=2",
    "IM_SIZE=2\\nPC_STACK=1",
    "IM_SIZE=2\\c",
    "-n IM_SIZE=2",
    "-=2",
    "IM_SIZE=2 %s=1",
    "IM_SIZE=2 $HOME=1",
    "IM_SIZE=2 *=1",
    "IM_SIZE=2\tPC_STACK=1",
    "IM_SIZE=4294967296",
];

fn on_the_command_line(list: &mut Vec<Call>) -> Result<(), String> {
    let mut texts: Vec<String> = ENTRIES.iter().map(|text| text.to_string()).collect();
    for length in [4_096, 4_097, 20_000] {
        texts.push(format!("{:>length$}", "IM_SIZE=2"));
    }
    for (text, words) in texts.iter().flat_map(|text| [(text, &b"1\n2"[..]), (text, b"1\n2\nx")]) {
        let given = Given::Pack { config: text.as_bytes().to_vec(), words: words.to_vec() };
        for how in [How::Named, How::InputPipe] {
            let arguments =
                vec![Argument::Text("pack".to_string()), Argument::Text(text.clone()), Argument::File(words.to_vec(), how)];
            let name = format!("pack {:?}, {how:?}", &text[..text.len().min(40)]);
            list.push(Call { name, arguments, redirections: "", wanted: wanted(&given)? });
        }
    }
    Ok(())
}

pub fn all() -> Result<Vec<Call>, String> {
    let mut list = Vec::new();
    counts(&mut list);
    steps(&mut list);
    unknown(&mut list);
    unreadable(&mut list);
    endless(&mut list)?;
    lengths(&mut list)?;
    on_the_command_line(&mut list)?;
    Ok(list)
}
