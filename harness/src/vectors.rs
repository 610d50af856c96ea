//! Runs outside vectors (a folder of JSON lines and image files) through a set of calls and reports differences.

use crate::calls::{Calls, State};
use crate::json::Json;
use crate::model::config::{FILE_FIELDS, FIXED_FIELDS};
use crate::model::machine::{LOADED_AT, MACHINE_WORDS, STACK_CELLS};
use crate::superseded;
use crate::vector_parts::{from_vector, to_vector};
use std::collections::BTreeMap;
use std::path::Path;

/// What came of one folder: lines compared by file and number, differences, lines that the calls cannot be given, and how many lines and
/// images of before K2 it answers otherwise.
#[derive(Default)]
pub struct Report {
    pub counts: BTreeMap<String, BTreeMap<u32, u32>>,
    pub differences: Vec<String>,
    pub left_out: Vec<String>,
    pub superseded: u32,
}

/// A difference, or why a line cannot be given.
enum Trouble {
    Differs(String),
    LeftOut(String),
}

impl From<String> for Trouble {
    fn from(text: String) -> Trouble {
        Trouble::Differs(text)
    }
}

type Outcome = Result<(), Trouble>;
type Check = fn(&dyn Calls, &Json) -> Outcome;
/// Whether a later request answers a line otherwise.
type Superseded = fn(&Json) -> Result<bool, String>;

fn same<T: PartialEq + std::fmt::Debug>(what: &str, got: T, wanted: T) -> Result<(), String> {
    if got == wanted {
        Ok(())
    } else {
        Err(format!("{what}: got {got:?}, wanted {wanted:?}"))
    }
}

pub fn run(calls: &dyn Calls, folder: &Path) -> Result<Report, String> {
    let mut report = Report::default();
    let none: Superseded = |_| Ok(false);
    let files: [(&str, Check, Superseded); 16] = [
        ("read", read, superseded::line),
        ("write", write, superseded::line),
        ("step", step, superseded::line),
        ("run", run_line, superseded::line),
        ("sheet", sheet, superseded::line),
        ("sheet_tiny", sheet, superseded::line),
        ("listing", listing, superseded::line),
        ("load", load, superseded::line),
        ("k1/read", read, superseded::line),
        ("k1/text", assemble, superseded::source),
        ("k1-k2/read", read, none),
        ("k1-k2/step", step, none),
        ("k1-k2/text", assemble, none),
        ("k1-k2-k4/read", read, none),
        ("k1-k2-k4/step", marked_step, none),
        ("k1-k2-k4/text", assemble, none),
    ];
    for (name, check, superseded) in files {
        report.lines(calls, folder, name, check, superseded)?;
    }
    images(calls, folder, "images", true, &mut report)?;
    images(calls, folder, "k1-k2/img", false, &mut report)?;
    Ok(report)
}

impl Report {
    /// The lines of one file, but for those that are superseded.
    fn lines(
        &mut self,
        calls: &dyn Calls,
        folder: &Path,
        name: &str,
        check: Check,
        superseded: Superseded,
    ) -> Result<(), String> {
        let path = folder.join(format!("{name}.jsonl"));
        let text = std::fs::read_to_string(&path).map_err(|e| format!("{}: {e}", path.display()))?;
        for (index, line) in text.lines().enumerate() {
            let place = format!("{name}.jsonl:{}", index + 1);
            let json = Json::parse(line).map_err(|e| format!("{place}: {e}"))?;
            if superseded(&json)? {
                self.superseded += 1;
                continue;
            }
            let number = json.field("no").word()?;
            self.add(name, place, number, check(calls, &json));
        }
        Ok(())
    }

    fn add(&mut self, name: &str, place: String, number: u32, outcome: Outcome) {
        match outcome {
            Err(Trouble::LeftOut(why)) => return self.left_out.push(format!("{place}: {why}")),
            Err(Trouble::Differs(how)) => self.differences.push(format!("{place}: {how}")),
            Ok(()) => {}
        }
        *self.counts.entry(name.to_string()).or_default().entry(number).or_default() += 1;
    }
}

/// The configuration as the calls take it: block 0's fields, or three more with them.
fn config_of(json: &Json) -> Result<Vec<u32>, String> {
    let mut words = json.field("cfg").words()?;
    let more = words.len().saturating_sub(FILE_FIELDS).min(FIXED_FIELDS.len());
    words.extend(&FIXED_FIELDS[more..]);
    Ok(words)
}

fn read(calls: &dyn Calls, json: &Json) -> Outcome {
    let (config, word) = (config_of(json)?, json.field("word").word()?);
    let wanted = json.field("no").word()?;
    let mut parts = [u32::MAX; 6];
    same("number", calls.read(&config, word, &mut parts), wanted)?;
    if wanted == 0 {
        let named = to_vector(&parts);
        for (name, value) in named.into_iter().filter(|_| json.field("instr") != &Json::Null) {
            same(name, Some(&value), Some(json.field("instr").field(name)))?;
        }
    } else {
        same("parts", parts, [u32::MAX; 6])?;
    }
    let (mut page, mut answers) = ([b'.'; 40], [7]);
    let number = calls.text(&config, word, &mut page, 3, &mut answers);
    same("text's number", number, wanted)?;
    let text = match wanted {
        0 => String::from_utf8_lossy(&page[3..answers[0] as usize]).into_owned(),
        _ => format!("?{number}"),
    };
    if wanted != 1 {
        same("text", text.as_str(), json.field("text").text()?)?;
    }
    Ok(())
}

fn write(calls: &dyn Calls, json: &Json) -> Outcome {
    let parts = from_vector(json.field("instr"))?;
    let mut answers = [7];
    let number = calls.write(&config_of(json)?, &parts, &mut answers);
    same("number", number, json.field("no").word()?)?;
    same("word", answers[0], json.field("word").number()?)?;
    Ok(())
}

struct Lists {
    machine: Vec<u32>,
    registers: Vec<u32>,
    memory: Vec<u32>,
    log_addresses: Vec<u32>,
    log_values: Vec<u32>,
}

fn sparse(json: &Json) -> Result<Vec<u32>, String> {
    let mut cells = vec![0; json.field("len").number()? as usize];
    if let Json::Record(fields) = json.field("set") {
        for (place, value) in fields {
            let place: usize = place.parse().map_err(|_| format!("{place} is no place"))?;
            cells[place] = value.word()?;
        }
    }
    Ok(cells)
}

/// K4's mark. Vectors of before it have none: "01's MOVX case has them loaded", and so have they, before and after.
fn loaded_of(m: &Json) -> Result<Option<u32>, String> {
    match m.field("loaded") {
        Json::Null => Ok(None),
        mark => mark.word().map(Some),
    }
}

fn lists_of(json: &Json) -> Result<Lists, Trouble> {
    let m = json.field("m");
    let mut machine = Vec::new();
    for name in ["pc", "wp", "rx", "ry", "n", "z", "spr7", "depth", "imask", "saved", "mode", "posted", "paddr"] {
        machine.push(m.field(name).word().map_err(|why| Trouble::LeftOut(format!("{name}: {why}")))?);
    }
    for name in ["rpos", "lpos"] {
        let position = m.field(name).number()?;
        machine.extend([position as u32, (position >> 32) as u32]);
    }
    let stack = m.field("stack").words()?;
    if stack.len() > STACK_CELLS && stack[STACK_CELLS..].iter().any(|&cell| cell != 0) && machine[7] <= 63 {
        return Err(Trouble::LeftOut("the stack has more than 63 cells".to_string()));
    }
    machine.extend(stack.iter().take(STACK_CELLS));
    machine.resize(MACHINE_WORDS, 0);
    machine[LOADED_AT] = loaded_of(m)?.unwrap_or(1);
    Ok(Lists {
        machine,
        registers: sparse(json.field("regs"))?,
        memory: sparse(json.field("dm"))?,
        log_addresses: json.field("log_a").words()?,
        log_values: json.field("log_v").words()?,
    })
}

impl Lists {
    fn state(&mut self) -> State<'_> {
        State {
            machine: &mut self.machine,
            registers: &mut self.registers,
            memory: &mut self.memory,
            log_addresses: &mut self.log_addresses,
            log_values: &mut self.log_values,
        }
    }
}

fn same_lists(got: &Lists, wanted: &Lists) -> Result<(), String> {
    same("machine", &got.machine, &wanted.machine)?;
    same("registers", &got.registers, &wanted.registers)?;
    same("memory", &got.memory, &wanted.memory)?;
    same("log addresses", &got.log_addresses, &wanted.log_addresses)?;
    same("log values", &got.log_values, &wanted.log_values)
}

fn step(calls: &dyn Calls, json: &Json) -> Outcome {
    let (config, image) = (config_of(json)?, json.field("image").words()?);
    let inputs = json.field("before").field("readings").words()?;
    let mut lists = lists_of(json.field("before"))?;
    let mut answers = [7];
    let number = calls.step(&config, &image, &inputs, lists.state(), &mut answers);
    same("number", number, json.field("no").word()?)?;
    same("cycles", answers[0], json.field("cycles").number()?)?;
    same_lists(&lists, &lists_of(json.field("after"))?)?;
    Ok(())
}

/// A step whose records have the mark.
fn marked_step(calls: &dyn Calls, json: &Json) -> Outcome {
    for side in ["before", "after"] {
        same("the mark is there", loaded_of(json.field(side).field("m"))?.is_some(), true)?;
    }
    step(calls, json)
}

fn run_line(calls: &dyn Calls, json: &Json) -> Outcome {
    let (config, image) = (config_of(json)?, json.field("image").words()?);
    let inputs = json.field("before").field("readings").words()?;
    let mut lists = lists_of(json.field("before"))?;
    let (mut answers, budget) = ([7, 7], json.field("budget").number()?);
    let number = calls.run(&config, &image, &inputs, lists.state(), budget, &mut answers);
    same("number", number, json.field("no").word()?)?;
    same("steps", answers[0], json.field("steps").number()?)?;
    same("cycles", answers[1], json.field("cycles").number()?)?;
    same_lists(&lists, &lists_of(json.field("after"))?)?;
    Ok(())
}

fn sheet(calls: &dyn Calls, json: &Json) -> Outcome {
    let (config, image) = (config_of(json)?, json.field("image").words()?);
    let sheet: Vec<u8> = json.field("sheet").words()?.iter().map(|&byte| byte as u8).collect();
    let mut answers = [7, 7];
    let number = calls.check(&config, &image, &sheet, &mut answers);
    same("number", number, json.field("no").word()?)?;
    let wanted = match number {
        0 => [json.field("level").number()?, 0],
        _ => [json.field("address").number()?, json.field("rule").number()?],
    };
    same("answers", answers, wanted)?;
    Ok(())
}

fn listing(calls: &dyn Calls, json: &Json) -> Outcome {
    let (config, image) = (config_of(json)?, json.field("image").words()?);
    let mut page = vec![b'.'; json.field("page_len").number()? as usize];
    let (first, place) = (json.field("start").number()?, json.field("place").number()?);
    let mut answers = [7, 7];
    let number = calls.list(&config, &image, first, &mut page, place, &mut answers);
    same("number", number, json.field("no").word()?)?;
    same("answers", answers, [json.field("place_after").number()?, json.field("next").number()?])?;
    same("page", String::from_utf8_lossy(&page).as_ref(), json.field("page").text()?)?;
    Ok(())
}

/// A source text, one byte a character; `answer` is the count of words, or the line.
fn assemble(calls: &dyn Calls, json: &Json) -> Outcome {
    let text = json.field("text").text()?;
    let bytes = text.chars().map(|c| u8::try_from(c).map_err(|_| format!("{c:?} is no byte")));
    let text: Vec<u8> = bytes.collect::<Result<_, _>>()?;
    let mut words = vec![0xa5a5_a5a5; json.field("lent").number()? as usize];
    let mut wanted = words.clone();
    let (mut answers, answer) = ([7, 7], json.field("answer").number()?);
    let number = calls.assemble(&config_of(json)?, &text, &mut words, &mut answers);
    same("number", number, json.field("no").word()?)?;
    same("answers", answers, if number == 0 { [answer, 0] } else { [0, answer] })?;
    if number == 0 {
        let written = json.field("words").words()?;
        same("count", written.len() as u64, answer)?;
        wanted[..written.len()].copy_from_slice(&written);
    }
    same("words", words, wanted)?;
    Ok(())
}

fn load(calls: &dyn Calls, json: &Json) -> Outcome {
    let hex = json.field("data").text()?.as_bytes();
    let digit = |byte: u8| (byte as char).to_digit(16).ok_or_else(|| "no hex digit".to_string());
    let mut file = Vec::new();
    for pair in hex.chunks(2) {
        file.push((16 * digit(pair[0])? + digit(pair[1])?) as u8);
    }
    let old = 0xa5a5_a5a5;
    let (mut config, mut image) = (vec![old; 19], vec![old; json.field("slice_len").number()? as usize]);
    let mut wanted = (config.clone(), image.clone());
    let number = calls.load(&file, &mut config, &mut image);
    same("number", number, json.field("no").word()?)?;
    if number == 0 {
        wanted.0 = config_of(json)?;
        let words = json.field("words").words()?;
        wanted.1[..words.len()].copy_from_slice(&words);
    }
    same("configuration and image", (config, image), wanted)?;
    Ok(())
}

/// "The programs hold 8,192 words; past 34,304 bytes of input they print the line "refused 2"".
fn listing_program(calls: &dyn Calls, file: &[u8]) -> (u32, Vec<u8>) {
    let refused = |number: u32| (number, format!("refused {number}\n").into_bytes());
    if file.len() > 34304 {
        return refused(2);
    }
    let (mut config, mut image, mut answers) = ([0; 19], vec![0; 8192], [0, 0]);
    match calls.load(file, &mut config, &mut image) {
        0 => {}
        number => return refused(number),
    }
    image.truncate(config[0] as usize);
    let mut page = vec![0; 37 * image.len()];
    match calls.list(&config, &image, 0, &mut page, 0, &mut answers) {
        0 => {}
        number => return refused(number),
    }
    page.truncate(answers[0] as usize);
    (0, page)
}

fn images(calls: &dyn Calls, folder: &Path, name: &str, before_k2: bool, report: &mut Report) -> Result<(), String> {
    let folder = folder.join(name);
    let entries = std::fs::read_dir(&folder).map_err(|e| format!("{}: {e}", folder.display()))?;
    let mut paths: Vec<_> = entries.filter_map(|entry| entry.ok().map(|e| e.path())).collect();
    paths.retain(|path| path.extension().is_some_and(|e| e == "img"));
    paths.sort();
    for path in paths {
        let bytes = |path: &Path| std::fs::read(path).map_err(|e| format!("{}: {e}", path.display()));
        let (file, wanted) = (bytes(&path)?, bytes(&path.with_extension("out"))?);
        if before_k2 && superseded::file(&file) {
            report.superseded += 1;
            continue;
        }
        let (number, got) = listing_program(calls, &file);
        let text = |bytes: &[u8]| String::from_utf8_lossy(bytes).into_owned();
        let place = format!("{name}/{}", path.file_name().unwrap_or_default().to_string_lossy());
        let outcome = if got == wanted {
            Ok(())
        } else {
            let (got, wanted) = (text(&got), text(&wanted));
            let differing = got.lines().zip(wanted.lines()).find(|(a, b)| a != b);
            Err(Trouble::Differs(format!("first differing lines (got, wanted): {differing:?}")))
        };
        report.add(name, place, number, outcome);
    }
    Ok(())
}
