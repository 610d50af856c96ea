//! Whether include/yam.h, and bindings/rust/src/raw.rs with it, declare what crates/yam_c/src/lib.rt exports: names, parameters in their order,
//! types, answers.

use crate::model::config::CONFIG_WORDS;
use crate::model::machine::MACHINE_WORDS;
use crate::model::rows::rows;
use crate::model::words::Instruction;
use crate::places;
use std::collections::BTreeMap;

const SOURCE: &str = include_str!("../../crates/yam_c/src/lib.rt");
const HEADER: &str = include_str!("../../include/yam.h");
const ROWS: &str = include_str!("../../include/yam_rows.h");
const RAW: &str = include_str!("../../bindings/rust/src/raw.rs");
const EVERY_CALL: &str = include_str!("../header/every_call.c");

/// Parameters that have a longer name in C.
const LONGER: [(&str, &str); 2] = [("addresses", "log_addresses"), ("values", "log_values")];

/// A function as C declares it: its parameters and its answer, types and names with single spaces.
#[derive(Debug, PartialEq, Eq)]
struct Function {
    parameters: Vec<String>,
    answer: String,
}

type Functions = BTreeMap<String, Function>;

/// The C type of a number.
fn c_number(rattle: &str) -> Result<&'static str, String> {
    match rattle {
        "u8" => Ok("uint8_t"),
        "u32" => Ok("uint32_t"),
        "u64" => Ok("uint64_t"),
        _ => Err(format!("{rattle}: no such type crosses the interface")),
    }
}

/// The C parameters of a parameter: a number, or a pointer and its length.
fn c_parameters(parameter: &str) -> Result<Vec<String>, String> {
    let (name, rattle) = parameter.split_once(':').ok_or(format!("{parameter}: no parameter"))?;
    let (name, rattle) = (name.trim(), rattle.trim());
    let name = LONGER.iter().find(|(short, _)| *short == name).map_or(name, |(_, long)| long);
    let element = |opening: &str| rattle.strip_prefix(opening)?.strip_suffix(']');
    let pointer = match (element("&["), element("&mut [")) {
        (Some(element), _) => format!("const {} *{name}", c_number(element)?),
        (_, Some(element)) => format!("{} *{name}", c_number(element)?),
        _ => return Ok(vec![format!("{} {name}", c_number(rattle)?)]),
    };
    Ok(vec![pointer, format!("size_t {name}_length")])
}

/// The exported functions of the Rattle source, as C must declare them.
fn exported(source: &str) -> Result<Functions, String> {
    let mut functions = Functions::new();
    for part in source.split("extern \"C\"").skip(1) {
        let part = part.strip_prefix(" fn ").ok_or("an extern \"C\" that is no function")?;
        let (name, rest) = part.split_once('(').ok_or("a function without parameters")?;
        let (parameters, rest) = rest.split_once(')').ok_or(format!("{name}: no end of parameters"))?;
        let answer = rest.trim_start().strip_prefix("->").ok_or(format!("{name}: no answer"))?;
        let answer = answer.split_whitespace().next().unwrap_or("");
        let parameters = parameters.split(',').map(str::trim).filter(|parameter| !parameter.is_empty());
        let parameters: Result<Vec<Vec<String>>, String> = parameters.map(c_parameters).collect();
        let function = Function { parameters: parameters?.concat(), answer: c_number(answer)?.to_string() };
        functions.insert(name.to_string(), function);
    }
    // Each must have its own name in the library.
    let unmangled = source.matches("#[unsafe(no_mangle)]\npub extern \"C\" fn ").count();
    if unmangled != functions.len() {
        return Err(format!("{} functions, {unmangled} of them public with #[unsafe(no_mangle)]", functions.len()));
    }
    Ok(functions)
}

/// Text without comments.
pub fn without_comments(header: &str) -> String {
    let parts = header.split("/*").enumerate();
    parts.map(|(index, part)| if index == 0 { part } else { part.split_once("*/").map_or("", |(_, after)| after) }).collect()
}

/// The declarations of the header. Everything between its braces for C++ must be one.
fn declared(header: &str) -> Result<Functions, String> {
    let text = without_comments(header);
    let lines = text.lines().filter(|line| !line.trim_start().starts_with('#'));
    let text = lines.collect::<Vec<_>>().join(" ");
    let inside = text.split_once("extern \"C\" {").and_then(|(_, rest)| rest.split_once('}'));
    let (inside, after) = inside.ok_or("no extern \"C\" with braces")?;
    if !after.trim().is_empty() {
        return Err(format!("behind the declarations: {after}"));
    }
    let mut functions = Functions::new();
    for declaration in inside.split(';').map(str::trim).filter(|declaration| !declaration.is_empty()) {
        let spaced = declaration.split_whitespace().collect::<Vec<_>>().join(" ");
        let parts = spaced.strip_suffix(')').and_then(|rest| rest.split_once('('));
        let (head, parameters) = parts.ok_or(format!("{spaced}: no declaration of a function"))?;
        let (answer, name) = head.rsplit_once(' ').ok_or(format!("{head}: no answer and name"))?;
        let parameters = parameters.split(',').map(|parameter| parameter.trim().to_string()).collect();
        let before = functions.insert(name.to_string(), Function { parameters, answer: answer.to_string() });
        if before.is_some() {
            return Err(format!("{name} is declared twice"));
        }
    }
    Ok(functions)
}

/// The number that a header defines.
pub fn defined(header: &str, name: &str) -> Option<usize> {
    header.lines().find_map(|line| line.strip_prefix("#define ")?.strip_prefix(name)?.strip_prefix(' ')?.trim().parse().ok())
}

/// How the header is not what the source exports; how many functions there are where it is.
fn compare(source: &str, header: &str) -> Result<usize, String> {
    let (exported, declared) = (exported(source)?, declared(header)?);
    for (name, wanted) in &exported {
        let found = declared.get(name).ok_or(format!("{name} is not declared"))?;
        if found != wanted {
            return Err(format!("{name} is declared as {found:?}, and exported as {wanted:?}"));
        }
    }
    if let Some(name) = declared.keys().find(|name| !exported.contains_key(*name)) {
        return Err(format!("{name} is declared, and not exported"));
    }
    let lengths = [
        ("YAM_CONFIG_WORDS", CONFIG_WORDS),
        ("YAM_MACHINE_WORDS", MACHINE_WORDS),
        ("YAM_INSTRUCTION_WORDS", Instruction::default().to_words().len()),
    ];
    for (name, wanted) in lengths {
        if defined(header, name) != Some(wanted) {
            return Err(format!("{name} is not {wanted}"));
        }
    }
    Ok(exported.len())
}

/// A parameter or an answer of C as Rust writes its type.
fn rust_type(c: &str) -> Result<&'static str, String> {
    match c {
        "uint8_t" => Ok("u8"),
        "uint32_t" => Ok("u32"),
        "uint64_t" => Ok("u64"),
        "size_t" => Ok("usize"),
        _ => Err(format!("{c}: no such type crosses the interface")),
    }
}

/// A parameter of C as Rust declares it.
fn rust_parameter(c: &str) -> Result<String, String> {
    let (head, name) = c.rsplit_once(' ').ok_or(format!("{c}: no parameter"))?;
    Ok(match (head.strip_prefix("const "), name.strip_prefix('*')) {
        (Some(element), Some(name)) => format!("{name}: *const {}", rust_type(element)?),
        (None, Some(name)) => format!("{name}: *mut {}", rust_type(head)?),
        _ => format!("{name}: {}", rust_type(head)?),
    })
}

/// How the bindings for Rust do not declare what the source exports; how many functions there are where they do.
fn compare_rust(source: &str, raw: &str) -> Result<usize, String> {
    let lines = raw.lines().filter(|line| !line.trim_start().starts_with("//"));
    let text = lines.collect::<Vec<_>>().join(" ");
    let inside = text.split_once("extern \"C\" {").and_then(|(_, rest)| rest.split_once('}'));
    let (inside, after) = inside.ok_or("raw.rs: no extern \"C\" with braces")?;
    let found: Vec<String> = inside.split(';').map(|declaration| declaration.split_whitespace().collect()).collect();
    let mut wanted = Vec::new();
    for (name, function) in exported(source)? {
        let parameters: Result<Vec<String>, String> = function.parameters.iter().map(|c| rust_parameter(c)).collect();
        let declaration = format!("pub fn {name}({}) -> {}", parameters?.join(", "), rust_type(&function.answer)?);
        let spaceless: String = declaration.split_whitespace().collect();
        // With or without a comma behind the last parameter.
        let with_comma = spaceless.replace(")->", ",)->");
        if !found.iter().any(|found| *found == spaceless || *found == with_comma) {
            return Err(format!("raw.rs does not have {declaration}"));
        }
        wanted.push(name);
    }
    let declared = found.iter().filter(|declaration| !declaration.is_empty()).count();
    if declared != wanted.len() || !after.trim().is_empty() {
        return Err(format!("raw.rs declares {declared} functions, and {} are exported", wanted.len()));
    }
    Ok(wanted.len())
}

/// The rows' numbers, from 0 in the model's order, each name with the row's own at its start, and how many there are.
fn row_numbers(header: &str) -> Result<(), String> {
    let mut names = header.lines().filter_map(|line| line.strip_prefix("#define YAM_ROW_"));
    for (number, row) in rows().iter().enumerate() {
        // A byte number, which the model's text has at its name's end, is in no row's name.
        let own = row.text.split(' ').next().unwrap_or("").trim_end_matches('n');
        let line = names.next().unwrap_or("");
        let named = line.strip_suffix(&format!(" {number}")).and_then(|name| name.strip_prefix(own));
        if !named.is_some_and(|rest| rest.is_empty() || rest.starts_with('_')) {
            return Err(format!("yam_rows.h: {line:?} is not row {number}, {}", row.text));
        }
    }
    let count = format!("COUNT {}", rows().len());
    if names.eq([count.as_str()]) {
        Ok(())
    } else {
        Err(format!("yam_rows.h: the rows are not followed by {count}"))
    }
}

/// How many functions and places there are, where all declarations are right and each function is called from C and C++.
fn checked() -> Result<(usize, usize), String> {
    let functions = compare(SOURCE, HEADER)?;
    compare_rust(SOURCE, RAW)?;
    row_numbers(ROWS)?;
    let places = places::as_they_are()?;
    match exported(SOURCE)?.keys().find(|name| !EVERY_CALL.contains(&format!("{name}("))) {
        Some(name) => Err(format!("every_call.c does not call {name}")),
        None => Ok((functions, places)),
    }
}

/// Whether the declarations are right; says so.
pub fn report() -> bool {
    let result = checked();
    match &result {
        Ok((functions, places)) => {
            println!("include/yam.h and the bindings for Rust declare the {functions} functions that yam_c exports, as it exports them;");
            println!("include/yam.h names {places} words of records as yam_c reads them");
        }
        Err(how) => println!("include/yam.h: {how}"),
    }
    result.is_ok()
}

#[cfg(test)]
mod tests {
    use super::*;

    #[test]
    fn the_header_is_right() {
        assert_eq!(compare(SOURCE, HEADER), Ok(11));
        assert_eq!(row_numbers(ROWS), Ok(()));
    }

    /// One place of the header changed: each must be found.
    #[test]
    fn a_changed_header_is_found() {
        let changes = [
            // an answer, a number's width, an element's width, a length's type
            ("uint32_t yam_reset(", "uint64_t yam_reset("),
            ("uint64_t budget", "uint32_t budget"),
            ("const uint8_t *certificate", "const uint32_t *certificate"),
            ("size_t machine_length);", "uint32_t machine_length);"),
            // const lost, const added
            ("const uint8_t *file, size_t file_length, uint32_t *config", "uint8_t *file, size_t file_length, uint32_t *config"),
            ("uint32_t *machine, size_t machine_length);", "const uint32_t *machine, size_t machine_length);"),
            // another order: of numbers, of lists of one type, of a list and its length
            (
                "uint64_t first, uint8_t *page,\n                  size_t page_length, uint64_t place",
                "uint64_t place, uint8_t *page,\n                  size_t page_length, uint64_t first",
            ),
            (
                "const uint32_t *config, size_t config_length, const uint32_t *image, size_t image_length, uint8_t *file",
                "const uint32_t *image, size_t image_length, const uint32_t *config, size_t config_length, uint8_t *file",
            ),
            ("uint32_t *machine, size_t machine_length);", "size_t machine_length, uint32_t *machine);"),
            // a parameter left out, one too many, one without its name, a pointer to a pointer
            ("uint64_t *answers,\n                   size_t answers_length);", "uint64_t *answers);"),
            ("size_t machine_length);", "size_t machine_length, uint32_t more);"),
            ("uint32_t *machine, size_t machine_length);", "uint32_t *, size_t);"),
            ("uint32_t *machine, size_t machine_length);", "uint32_t **machine, size_t machine_length);"),
            // another name, one function too many, one too few, one twice
            ("uint32_t yam_store(", "uint32_t yam_save("),
            ("uint32_t yam_reset(", "uint32_t yam_more(void);\nuint32_t yam_reset("),
            ("uint32_t yam_reset(uint32_t *machine, size_t machine_length);", ""),
            (
                "uint32_t yam_reset(uint32_t *machine, size_t machine_length);",
                "/* uint32_t yam_reset(uint32_t *machine, size_t machine_length); */",
            ),
            ("uint32_t yam_reset(", "uint32_t yam_reset(void);\nuint32_t yam_reset("),
            // a length of a record
            ("#define YAM_CONFIG_WORDS 19", "#define YAM_CONFIG_WORDS 18"),
            ("#define YAM_MACHINE_WORDS 100", "#define YAM_MACHINE_WORDS 10"),
        ];
        for (old, new) in changes {
            assert!(HEADER.contains(old), "{old}");
            assert!(compare(SOURCE, &HEADER.replacen(old, new, 1)).is_err(), "{old} as {new}");
        }
    }

    #[test]
    fn changed_rows_are_found() {
        for (old, new) in [
            ("TST_REGISTER 0", "TST_REGISTER 1"),
            ("ADD_SIGNED 41", "SUB_SIGNED 41"),
            ("RET 124", "RETWP 124"),
            ("COUNT 131", "COUNT 130"),
        ] {
            assert!(ROWS.contains(old) && row_numbers(&ROWS.replacen(old, new, 1)).is_err(), "{old} as {new}");
        }
    }

    #[test]
    fn changed_bindings_are_found() {
        assert_eq!(compare_rust(SOURCE, RAW), Ok(11));
        for (old, new) in [
            ("machine: *mut u32, machine_length: usize) -> u32;", "machine: *const u32, machine_length: usize) -> u32;"),
            ("machine: *mut u32, machine_length: usize) -> u32;", "machine: *mut u32, machine_length: usize) -> u64;"),
            ("machine: *mut u32, machine_length: usize) -> u32;", "machine: *mut u32) -> u32;"),
            ("        budget: u64,\n", "        budget: u32,\n"),
            ("        certificate: *const u8,\n", "        certificate: *const u32,\n"),
            ("pub fn yam_store(", "pub fn yam_save("),
            ("pub fn yam_store(", "pub fn yam_more();\n    pub fn yam_store("),
            ("        text_length: usize,\n", "        text_length: u32,\n"),
        ] {
            assert!(RAW.contains(old), "{old}");
            assert!(compare_rust(SOURCE, &RAW.replacen(old, new, 1)).is_err(), "{old} as {new}");
        }
    }

    /// One place of the source changed.
    #[test]
    fn a_changed_source_is_found() {
        let changes = [
            ("pub extern \"C\" fn yam_reset(machine: &mut [u32])", "pub extern \"C\" fn yam_reset(machine: &[u32])"),
            (
                "pub extern \"C\" fn yam_reset(machine: &mut [u32]) -> u32",
                "pub extern \"C\" fn yam_reset(machine: &mut [u32]) -> u64",
            ),
            (
                "fn yam_load(file: &[u8], config: &mut [u32], image: &mut [u32])",
                "fn yam_load(file: &[u8], image: &mut [u32], config: &mut [u32])",
            ),
            ("fn yam_read(config: &[u32], word: u32", "fn yam_read(config: &[u32], word: u16"),
            ("#[unsafe(no_mangle)]\npub extern \"C\" fn yam_reset", "pub extern \"C\" fn yam_reset"),
            ("#[unsafe(no_mangle)]\npub extern \"C\" fn yam_reset", "#[unsafe(no_mangle)]\nextern \"C\" fn yam_reset"),
            ("pub extern \"C\" fn yam_reset", "pub fn yam_reset"),
        ];
        for (old, new) in changes {
            assert!(SOURCE.contains(old), "{old}");
            assert!(compare(&SOURCE.replacen(old, new, 1), HEADER).is_err(), "{old} as {new}");
        }
    }
}
