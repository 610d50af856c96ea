//! What the programs are given, as calls of `./yam`: its status and standard error follow from what the model says that the program prints.

use super::call::{Argument, Call, How, Text, Wanted};
use crate::programs::given::{mode_name, Given, Outcome};
use crate::refusals::meaning;

fn text(text: impl ToString) -> Argument {
    Argument::Text(text.to_string())
}

fn file(bytes: &[u8]) -> Argument {
    Argument::File(bytes.to_vec(), How::Named)
}

/// The arguments of a command, all files by name.
pub fn arguments(given: &Given) -> Vec<Argument> {
    match given {
        Given::List { image } => vec![text("list"), file(image)],
        Given::Asm { config, source } => vec![text("asm"), file(config), file(source)],
        Given::Check { image, certificate } => vec![text("check"), file(image), file(certificate)],
        Given::Run { mode, image, steps, inputs } => {
            let mut list = vec![text(mode_name(*mode))];
            list.extend(inputs.iter().flat_map(|inputs| [text("--inputs"), file(inputs)]));
            list.extend([file(image), text(steps)]);
            list
        }
        Given::Pack { config, words } => vec![text("pack"), file(config), file(words)],
        Given::Config { image, words } => {
            let mut list = vec![text("config")];
            list.extend(words.then(|| text("--words")));
            list.push(file(image));
            list
        }
    }
}

/// The places of the files among a command's arguments.
pub fn files(arguments: &[Argument]) -> Vec<usize> {
    let is_file = |place: &usize| matches!(arguments[*place], Argument::File(..));
    (0..arguments.len()).filter(is_file).collect()
}

/// What a command must come to where its program prints this.
pub fn wanted(given: &Given) -> Result<Wanted, String> {
    let output = given.wanted();
    let told = |how: &str, number: u32| {
        Ok::<_, String>(Text::Exactly(format!("yam: {how} {number}: {}\n", meaning(number)?).into_bytes()))
    };
    Ok(match given.outcome(&output) {
        Outcome::Passed | Outcome::Ended(0) => Wanted { status: 0, output: Text::Exactly(output), error: Text::nothing() },
        Outcome::Ended(number) => Wanted { status: 1, output: Text::Exactly(output), error: told("stopped by", number)? },
        Outcome::Refused { number, .. } => Wanted { status: 1, output: Text::Exactly(output), error: told("refused", number)? },
        Outcome::Malformed { number, .. } => {
            Wanted { status: 2, output: Text::nothing(), error: Text::Line(vec![number.to_string()]) }
        }
    })
}

/// The call with the file at a place given in another way; by name where there is no such place.
pub fn call(name: &str, given: &Given, place: Option<usize>, how: How) -> Result<Call, String> {
    let mut arguments = arguments(given);
    if let Some(Argument::File(_, way)) = place.map(|place| &mut arguments[place]) {
        *way = how;
    }
    let name = format!("{name}, {how:?}");
    Ok(Call { name, arguments, redirections: "", wanted: wanted(given)? })
}
