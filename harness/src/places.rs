//! Whether the enums of include/yam.h name the places at which crates/yam_c/src/flat.rt reads the
//! words of a record, and include/yam_structs.h copies each word from and to the field of its name.

use crate::signatures::{defined, without_comments};

const SOURCE: &str = include_str!("../../crates/yam_c/src/flat.rt");
const HEADER: &str = include_str!("../../include/yam.h");
const STRUCTS: &str = include_str!("../../include/yam_structs.h");

/// A record: the function that reads it, its enum and the prefix of its names, and what a wrapper
/// for structs calls it.
struct Kind {
    function: &'static str,
    prefix: &'static str,
    variable: &'static str,
}

const KINDS: [Kind; 3] = [
    Kind { function: "config_in", prefix: "YAM_CONFIG_", variable: "config" },
    Kind { function: "instruction_in", prefix: "YAM_INSTRUCTION_", variable: "instruction" },
    Kind { function: "core_in", prefix: "YAM_MACHINE_", variable: "machine" },
];

/// Names with their places, in the order of the places.
type Places = Vec<(String, usize)>;

/// A name of the header or the source without what tells them apart: IM_SIZE and imsize.
fn plain(name: &str) -> String {
    name.to_lowercase().replace('_', "")
}

/// The value of a constant of the source.
fn constant(source: &str, name: &str) -> Result<usize, String> {
    let value = source.lines().find_map(|line| {
        line.trim_start_matches("pub ").strip_prefix("const ")?.strip_prefix(name)?.strip_prefix(": usize = ")?.strip_suffix(';')
    });
    value.and_then(|value| value.parse().ok()).ok_or(format!("flat.rt: no constant {name}"))
}

/// A place as the source writes it, a number or a constant.
fn place(source: &str, text: &str) -> Result<usize, String> {
    text.parse().or_else(|_| constant(source, text))
}

/// The fields that a function of the source reads, with the places of their words.
fn read(source: &str, function: &str) -> Result<Places, String> {
    let body = source.split_once(&format!("fn {function}(")).and_then(|(_, rest)| rest.split_once("\n}\n"));
    let (body, _) = body.ok_or(format!("flat.rt: no function {function}"))?;
    let mut places = Places::new();
    for line in body.lines().filter(|line| line.contains("(flat, ")) {
        let (name, value) = line.trim().split_once(':').ok_or(format!("flat.rt: {line}"))?;
        let words: Result<Vec<usize>, String> =
            value.split("(flat, ").skip(1).map(|word| place(source, word.split_once(')').map_or("", |(text, _)| text))).collect();
        match words?[..] {
            [only] => places.push((plain(name), only)),
            [low, high] => places.extend([(plain(name) + "low", low), (plain(name) + "high", high)]),
            _ => return Err(format!("flat.rt: {line}")),
        }
    }
    places.sort_by_key(|(_, at)| *at);
    Ok(places)
}

/// What the header's enums name with a prefix.
fn named(header: &str, prefix: &str) -> Result<Places, String> {
    let text = without_comments(header);
    let entries = text.lines().filter_map(|line| line.trim().trim_end_matches(',').strip_prefix(prefix)?.split_once(" = "));
    entries
        .map(|(name, value)| Ok((name.to_string(), value.parse().map_err(|_| format!("yam.h: {prefix}{name} = {value}"))?)))
        .collect()
}

/// The wrappers copy a word of this name both ways. A count of two words, the stack and the zeros
/// behind it are not of this form.
fn is_copied(structs: &str, kind: &Kind, name: &str) -> bool {
    let (Kind { prefix, variable, .. }, field) = (kind, plain(name));
    structs.contains(&format!("words[{prefix}{name}] = {variable}->{field};"))
        && structs.contains(&format!("{variable}->{field} = words[{prefix}{name}];"))
}

/// How the headers are not what the source reads; how many places they name where they are.
pub fn compare(source: &str, header: &str, structs: &str) -> Result<usize, String> {
    let mut count = 0;
    for kind in &KINDS {
        let mut wanted = read(source, kind.function)?;
        if kind.variable == "machine" {
            wanted.extend([
                ("stack".to_string(), constant(source, "STACK_FROM")?),
                ("zeros".to_string(), constant(source, "ZEROS_FROM")?),
            ]);
            wanted.sort_by_key(|(_, at)| *at);
        }
        let found = named(header, kind.prefix)?;
        let found_plain: Places = found.iter().map(|(name, at)| (plain(name), *at)).collect();
        if found_plain != wanted {
            return Err(format!("yam.h: {}.. are {found_plain:?}, and the source has {wanted:?}", kind.prefix));
        }
        let in_parts = |name: &str| name.ends_with("_LOW") || name.ends_with("_HIGH") || name == "STACK" || name == "ZEROS";
        if let Some((name, _)) = found.iter().find(|(name, _)| !in_parts(name) && !is_copied(structs, kind, name)) {
            return Err(format!("yam_structs.h: {}{name} is not copied both ways", kind.prefix));
        }
        count += found.len();
    }
    let stack = constant(source, "STACK_TO")?.checked_sub(constant(source, "STACK_FROM")?);
    if defined(header, "YAM_STACK_WORDS") != stack {
        return Err("yam.h: YAM_STACK_WORDS is not the length of the source's stack".to_string());
    }
    Ok(count)
}

/// The same of the files as they are.
pub fn as_they_are() -> Result<usize, String> {
    compare(SOURCE, HEADER, STRUCTS)
}

#[cfg(test)]
mod tests {
    use super::*;

    #[test]
    fn the_places_are_right() {
        assert_eq!(as_they_are(), Ok(45));
    }

    /// One place of a file changed: each must be found.
    #[test]
    fn a_changed_place_is_found() {
        for (old, new) in [
            ("YAM_CONFIG_IOP_IF = 10", "YAM_CONFIG_IOP_IF = 11"),
            ("YAM_CONFIG_IOP_IF = 10", "YAM_CONFIG_IOP_RMW = 10"),
            ("YAM_INSTRUCTION_NUMBER = 4", "YAM_INSTRUCTION_BYTE = 4"),
            ("    YAM_MACHINE_RY = 3,\n", ""),
            ("YAM_MACHINE_LOADED = 80", "YAM_MACHINE_LOADED = 79"),
            ("YAM_MACHINE_TAKEN_HIGH = 14", "YAM_MACHINE_TAKEN_HIGH = 15"),
            ("YAM_MACHINE_STACK = 17", "YAM_MACHINE_STACK = 18"),
            ("#define YAM_STACK_WORDS 63", "#define YAM_STACK_WORDS 64"),
        ] {
            assert!(HEADER.contains(old), "{old}");
            assert!(compare(SOURCE, &HEADER.replacen(old, new, 1), STRUCTS).is_err(), "{old} as {new}");
        }
        for (old, new) in [
            ("iopif: cell(flat, 10)", "iopif: cell(flat, 11)"),
            ("taken: wide(word(flat, 13), word(flat, 14))", "taken: wide(word(flat, 14), word(flat, 13))"),
            ("const LOADED_AT: usize = 80;", "const LOADED_AT: usize = 81;"),
            ("rx: word(flat, 2)", "rx: word(flat, 3)"),
        ] {
            assert!(SOURCE.contains(old), "{old}");
            assert!(compare(&SOURCE.replacen(old, new, 1), HEADER, STRUCTS).is_err(), "{old} as {new}");
        }
        for (old, new) in [
            ("words[YAM_CONFIG_IOP_IF] = config->iopif;", "words[YAM_CONFIG_IOP_IF] = config->ioprmw;"),
            ("machine->rx = words[YAM_MACHINE_RX];", "machine->rx = words[YAM_MACHINE_RY];"),
            ("instruction->flag = words[YAM_INSTRUCTION_FLAG];", ""),
        ] {
            assert!(STRUCTS.contains(old), "{old}");
            assert!(compare(SOURCE, HEADER, &STRUCTS.replacen(old, new, 1)).is_err(), "{old} as {new}");
        }
    }
}
