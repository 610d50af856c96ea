//! Whether the fields of a configuration, an instruction and a record stand for the words that
//! include/yam.h names.

use yam::{Config, Instruction, Record};

const HEADER: &str = include_str!("../../../include/yam.h");
/// Words that all differ start here.
const FIRST: u32 = 1000;

fn differing<const N: usize>() -> [u32; N] {
    std::array::from_fn(|at| FIRST + at as u32)
}

/// The header's names with this prefix, in small letters, and their places.
fn named(prefix: &str) -> Vec<(String, u32)> {
    let entries = HEADER.lines().filter_map(|line| {
        line.trim().trim_end_matches(',').strip_prefix(prefix)?.split_once(" = ")
    });
    entries.map(|(name, at)| (name.to_lowercase(), at.parse().expect("a place"))).collect()
}

/// Each name is a field that holds the word of its place. A struct is printed as `Config { im_size:
/// 1000, .. }`.
fn fields_are_words(printed: &str, prefix: &str, but: &[&str]) -> usize {
    let printed = printed.replace(" }", ", ").replace('{', ",");
    let names: Vec<_> =
        named(prefix).into_iter().filter(|(name, _)| !but.contains(&name.as_str())).collect();
    for (name, at) in &names {
        let field = format!(", {name}: {}, ", FIRST + at);
        assert!(printed.contains(&field), "{field:?} is not in {printed}");
    }
    names.len()
}

#[test]
fn fields_stand_for_the_words_of_the_header() {
    let config = format!("{:?}", Config::from_words(&differing()));
    assert_eq!(fields_are_words(&config, "YAM_CONFIG_", &[]), yam::CONFIG_WORDS);
    let instruction = format!("{:?}", Instruction::from_words(&differing()));
    assert_eq!(fields_are_words(&instruction, "YAM_INSTRUCTION_", &[]), yam::INSTRUCTION_WORDS);
    let words = differing();
    let record = Record::from_words(&words);
    let wide = ["taken_low", "taken_high", "logged_low", "logged_high", "stack", "zeros"];
    assert_eq!(fields_are_words(&format!("{record:?}"), "YAM_MACHINE_", &wide), 14);
    let place = |wanted: &str| {
        named("YAM_MACHINE_")
            .iter()
            .find(|(name, _)| name == wanted)
            .map(|(_, at)| *at as usize)
            .expect(wanted)
    };
    let count = |low: &str, high: &str| {
        u64::from(words[place(low)]) + (u64::from(words[place(high)]) << 32)
    };
    assert_eq!(record.taken, count("taken_low", "taken_high"));
    assert_eq!(record.logged, count("logged_low", "logged_high"));
    assert_eq!(record.stack, words[place("stack")..place("loaded")]);
    assert_eq!(record.to_words()[..place("zeros")], words[..place("zeros")]);
    assert!(record.to_words()[place("zeros")..].iter().all(|&word| word == 0));
}

#[test]
fn the_lengths_and_the_version_are_the_headers() {
    for (name, value) in [
        ("YAM_CONFIG_WORDS", yam::CONFIG_WORDS.to_string()),
        ("YAM_MACHINE_WORDS", yam::MACHINE_WORDS.to_string()),
        ("YAM_INSTRUCTION_WORDS", yam::INSTRUCTION_WORDS.to_string()),
        ("YAM_STACK_WORDS", yam::STACK_WORDS.to_string()),
        ("YAM_VERSION", format!("\"{}\"", yam::VERSION)),
    ] {
        assert!(HEADER.contains(&format!("#define {name} {value}\n")), "{name} {value}");
    }
}
