//! Direct targets at the image's edge (K2): the last address, which passes, and IM_SIZE, which is 7.

use crate::model::config::Config;
use crate::model::rows::{Condition, Kind};
use crate::model::words::{read, write, Instruction};
use std::collections::BTreeMap;

/// How a word is met.
const WAYS: [&str; 6] = ["read", "written", "printed", "listed", "stepped", "checked"];

/// The rows that have a direct target, by name.
const NAMES: [&str; 5] = ["JMP", "JMP by condition", "JMP BIO", "JSR", "JSRWP"];

const LARGEST_IMAGE: u32 = 32_768;

fn name_of(kind: Kind) -> Option<&'static str> {
    match kind {
        Kind::Jump(Condition::Always) => Some("JMP"),
        Kind::Jump(Condition::Bio) => Some("JMP BIO"),
        Kind::Jump(_) => Some("JMP by condition"),
        Kind::Call => Some("JSR"),
        Kind::CallBank => Some("JSRWP"),
        _ => None,
    }
}

/// How often each was met: the last address that passed, and IM_SIZE refused; by whether IM_SIZE is a power of two.
#[derive(Default)]
pub struct Edges {
    counts: BTreeMap<(&'static str, &'static str), [[u64; 2]; 2]>,
}

impl Edges {
    fn note_parts(&mut self, way: &'static str, c: &Config, instruction: &Instruction, refused: bool) {
        let Some(name) = name_of(instruction.row().kind) else { return };
        let side = match (instruction.value, refused) {
            (value, false) if value + 1 == c.im_size => 0,
            (value, true) if value == c.im_size => 1,
            _ => return,
        };
        self.counts.entry((way, name)).or_default()[usize::from(c.im_size.is_power_of_two())][side] += 1;
    }

    /// A word that was refused by 7, or not at all. Its parts are read as in the largest image, so that a target beyond the image can be told.
    pub fn note_word(&mut self, way: &'static str, c: &Config, word: u32, refused: bool) {
        if let Ok(instruction) = read(&Config { im_size: LARGEST_IMAGE, ..*c }, word) {
            self.note_parts(way, c, &instruction, refused);
        }
    }

    /// Parts that were given for writing; those refused for another part say nothing.
    pub fn note_written(&mut self, c: &Config, parts: &[u32], refused: bool) {
        let instruction = Instruction::from_words(parts);
        if let Some(instruction) = instruction.filter(|i| write(&Config { im_size: LARGEST_IMAGE, ..*c }, i).is_ok()) {
            self.note_parts("written", c, &instruction, refused);
        }
    }

    /// What must be met and never was.
    pub fn unmet(&self) -> Vec<String> {
        let mut unmet = Vec::new();
        for (way, name) in ways() {
            let counts = self.counts.get(&(way, name)).copied().unwrap_or_default();
            for (counts, size) in counts.iter().zip(["no power of two", "a power of two"]) {
                for (_, target) in counts.iter().zip(["the last address", "IM_SIZE"]).filter(|(&count, _)| count == 0) {
                    unmet.push(format!("{name} to {target}, where IM_SIZE is {size}, was never {way}"));
                }
            }
        }
        unmet
    }

    pub fn print(&self) {
        let least = |way: &str| {
            let counts = ways().filter(|(of, _)| *of == way).map(|key| self.counts.get(&key).copied().unwrap_or_default());
            counts.flatten().flatten().min().unwrap_or_default()
        };
        let each: Vec<String> = WAYS.iter().map(|way| format!("{way} {}", least(way))).collect();
        println!("direct targets at the last address and at IM_SIZE, each at least so often: {}", each.join(", "));
    }
}

/// A JSRWP that passes is barred from a program that is checked, so it is not counted there.
fn ways() -> impl Iterator<Item = (&'static str, &'static str)> {
    let all = WAYS.iter().flat_map(|&way| NAMES.iter().map(move |&name| (way, name)));
    all.filter(|&key| key != ("checked", "JSRWP"))
}
