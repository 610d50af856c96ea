//! Runs the examples of docs/refusals.md, whose head says what an example means.

use crate::calls::{Calls, State};
use crate::model::forms::NAMES as GENERICS;
use crate::model::machine::Machine;

const PAGE: &str = include_str!("../../docs/refusals.md");

/// A line of the page's table.
pub struct Line {
    pub number: u32,
    pub meaning: String,
    pub calls: Vec<String>,
    /// None where the page says that there is none.
    pub example: Option<String>,
}

/// The table's lines: a number, what it means, calls, example.
pub fn lines() -> Result<Vec<Line>, String> {
    let mut lines = Vec::new();
    for line in PAGE.lines() {
        let cells: Vec<&str> = line.split('|').map(str::trim).collect();
        let Some(number) = cells.get(1).and_then(|cell| cell.parse().ok()) else { continue };
        let [_, _, meaning, calls, example, _] = cells[..] else { return Err(format!("docs/refusals.md: {line}")) };
        let code = example.strip_prefix('`').and_then(|rest| rest.strip_suffix('`'));
        if code.is_none() && !example.starts_with("none: ") {
            return Err(format!("docs/refusals.md: {number} has no example"));
        }
        lines.push(Line {
            number,
            meaning: meaning.to_string(),
            calls: calls.split_whitespace().map(str::to_string).collect(),
            example: code.map(str::to_string),
        });
    }
    Ok(lines)
}

/// What a number means: "the meaning that docs/refusals.md has in the first line for N".
pub fn meaning(number: u32) -> Result<String, String> {
    let line = lines()?.into_iter().find(|line| line.number == number);
    line.map(|line| line.meaning).ok_or(format!("docs/refusals.md: no line for {number}"))
}

fn value(text: &str) -> Result<u64, String> {
    let parsed = match text.strip_prefix("0x") {
        Some(digits) => u64::from_str_radix(digits, 16),
        None => text.parse(),
    };
    parsed.map_err(|_| format!("{text} is no number"))
}

fn word(text: &str) -> Result<u32, String> {
    value(text)?.try_into().map_err(|_| format!("{text} is no 32-bit word"))
}

fn set<T>(list: &mut [T], pairs: &str, read: impl Fn(&str) -> Result<T, String>) -> Result<(), String> {
    for pair in pairs.split(',') {
        let (at, new) = pair.split_once(':').ok_or(format!("{pair} is no I:V"))?;
        *list.get_mut(value(at)? as usize).ok_or(format!("no place {at}"))? = read(new)?;
    }
    Ok(())
}

/// The words of a file, and back.
fn words_of(file: &[u8]) -> Vec<u32> {
    file.chunks_exact(4).map(|b| u32::from_le_bytes([b[0], b[1], b[2], b[3]])).collect()
}

fn bytes_of(words: &[u32]) -> Vec<u8> {
    words.iter().flat_map(|w| w.to_le_bytes()).collect()
}

/// The number that a call answers to an example.
pub fn answer(calls: &dyn Calls, example: &str) -> Result<u32, String> {
    let mut fields = example.split_whitespace();
    let call = fields.next().ok_or("an empty example")?;
    let options: Vec<(&str, &str)> =
        fields.map(|f| f.split_once('=').ok_or(format!("{f} is no NAME=VALUE"))).collect::<Result<_, _>>()?;
    let given = |name: &str| options.iter().find(|(n, _)| *n == name).map(|(_, v)| *v);
    let known = [
        "image",
        "word",
        "machine",
        "registers",
        "budget",
        "page",
        "certificate",
        "file",
        "repair",
        "file_length",
        "text",
        "repeat",
        "words",
        "line",
    ];
    if let Some((name, _)) = options.iter().find(|(n, _)| !known.contains(n) && !GENERICS.contains(n)) {
        return Err(format!("{name} is no option"));
    }
    let image: Vec<u32> = given("image").unwrap_or("0").split(',').map(word).collect::<Result<_, _>>()?;
    let mut config = [image.len() as u32, 32, 16, 64, 1, 32, 0, 2, 1, 1, 1, 1, 0, 0, 0, 0, 0, 32, 0];
    let mut machine = Machine::at_reset().to_words();
    let (mut registers, mut memory) = (vec![0; 64], vec![0; 32]);
    let mut file = vec![0; 1024];
    if calls.store(&config, &image, &mut file) != 0 {
        return Err("the example's file cannot be made".to_string());
    }
    let mut words = words_of(&file);
    if let Some(pairs) = given("file") {
        set(&mut words, pairs, word)?;
    }
    if given("repair").is_some() {
        words[127] = words[..127].iter().fold(512, |sum: u32, w| sum.wrapping_add(*w));
    }
    let mut file = bytes_of(&words);
    file.truncate(given("file_length").map_or(Ok(1024), value)? as usize);
    if let Some(pairs) = given("machine") {
        set(&mut machine, pairs, word)?;
    }
    if let Some(pairs) = given("registers") {
        set(&mut registers, pairs, word)?;
    }
    for (at, name) in GENERICS.iter().enumerate() {
        config[at] = given(name).map_or(Ok(config[at]), word)?;
    }
    let certificate: Vec<u8> = match given("certificate") {
        Some(bytes) => bytes.split(',').map(|b| value(b).map(|v| v as u8)).collect::<Result<_, _>>()?,
        None => vec![0; image.len()],
    };
    let mut page = vec![0; given("page").map_or(Ok(40), value)? as usize];
    let budget = given("budget").map_or(Ok(1), value)?;
    let w = given("word").map_or(Ok(0), word)?;
    let text = given("text").unwrap_or("").replace('_', " ").replace('/', "\n");
    let text = text.repeat(given("repeat").map_or(Ok(1), value)? as usize);
    let mut lent = vec![0; given("words").map_or(Ok(4), value)? as usize];
    let mut answers = [0; 2];
    let state = State {
        machine: &mut machine,
        registers: &mut registers,
        memory: &mut memory,
        log_addresses: &mut [],
        log_values: &mut [],
    };
    let number = match call {
        "read" => calls.read(&config, w, &mut [0; 6]),
        "step" => calls.step(&config, &image, &[], state, &mut answers),
        "run" => calls.run(&config, &image, &[], state, budget, &mut answers),
        "check" => calls.check(&config, &image, &certificate, &mut answers),
        "text" => calls.text(&config, w, &mut page, 0, &mut answers),
        "list" => calls.list(&config, &image, 0, &mut page, 0, &mut answers),
        "load" => calls.load(&file, &mut config, &mut [0; 1]),
        "assemble" => calls.assemble(&config, text.as_bytes(), &mut lent, &mut answers),
        _ => return Err(format!("{call}: no examples of this call are known")),
    };
    if call == "assemble" && answers != [0, given("line").map_or(Ok(0), value)?] {
        return Err(format!("`{example}` answers {number} and {answers:?}"));
    }
    Ok(number)
}

/// The numbers that the table has, some with more than one example.
fn numbers() -> Vec<u32> {
    (1..=27).chain([36]).collect()
}

/// Every number, in order, and each example answered by its number.
pub fn run(calls: &dyn Calls) -> Result<usize, String> {
    let lines = lines()?;
    let mut said: Vec<u32> = lines.iter().map(|line| line.number).collect();
    said.dedup();
    if said != numbers() {
        return Err("docs/refusals.md: not the numbers 1 to 27 and 36".to_string());
    }
    let mut count = 0;
    for line in &lines {
        let Some(example) = &line.example else { continue };
        let got = answer(calls, example).map_err(|how| format!("docs/refusals.md, {}: {how}", line.number))?;
        if got != line.number {
            return Err(format!("docs/refusals.md, {}: `{example}` answers {got}", line.number));
        }
        count += 1;
    }
    Ok(count)
}
