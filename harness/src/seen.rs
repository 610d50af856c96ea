//! What the compared calls met: the numbers of each call, the rules of 17, the rows and the conditions of jumps.

use crate::edges::Edges;
use crate::indexes::Indexes;
use crate::inputs::{Call, Input, Output, MACHINE};
use crate::model::config::Config;
use crate::model::rows::{rows, Condition, Field, Kind, Need};
use crate::model::words::{read, Instruction};
use std::collections::BTreeMap;

/// How often each call answered each number.
pub type Counts = BTreeMap<&'static str, BTreeMap<u32, u64>>;

/// What is done with a row's word, and counted for each row.
#[derive(Clone, Copy, Debug, PartialEq, Eq)]
pub enum Done {
    /// Read and written as parts.
    Read,
    Written,
    /// Printed as a text, and in a line of a listing.
    Printed,
    Listed,
    Assembled,
    /// Carried out by a step, and in a run.
    Stepped,
    Run,
}

const ALL_DONE: [(Done, &str); 7] = [
    (Done::Read, "read"),
    (Done::Written, "written"),
    (Done::Printed, "printed"),
    (Done::Listed, "listed"),
    (Done::Assembled, "assembled"),
    (Done::Stepped, "stepped"),
    (Done::Run, "run"),
];

const RULES: usize = 8;
/// What a listing may print in a text's place.
const MARKS: [u32; 3] = [5, 6, 7];

/// A row, with bit 26 where it has one, at a width.
#[derive(Clone, Copy, Debug, PartialEq, Eq)]
struct Form {
    row: usize,
    flag: usize,
    width: usize,
}

const WIDTHS: [u32; 3] = [8, 16, 32];

impl Form {
    fn of(c: &Config, instruction: &Instruction) -> Form {
        let width = WIDTHS.iter().position(|&width| width == c.reg_width).expect("a lawful width");
        Form { row: instruction.row as usize, flag: instruction.flag as usize, width }
    }

    /// Every form that some lawful configuration has.
    fn all() -> impl Iterator<Item = Form> {
        let forms = (0..rows().len())
            .flat_map(|row| [0, 1].map(|flag| (row, flag)))
            .flat_map(|(row, flag)| [0, 1, 2].map(|width| Form { row, flag, width }));
        forms.filter(|form| {
            let (row, width) = (&rows()[form.row], WIDTHS[form.width]);
            let least = match row.need {
                Need::Level1 | Need::Level2 | Need::Level2Memory => 16,
                Need::Banks => 32,
                _ => 8,
            };
            row.need != Need::Unsupported && width >= least && (form.flag == 0 || row.uses(Field::Flag))
        })
    }

    fn index(self) -> usize {
        (2 * self.row + self.flag) * WIDTHS.len() + self.width
    }

    fn name(self) -> String {
        let row = &rows()[self.row];
        let updates = if row.uses(Field::Flag) && self.flag == 0 { ",S" } else { "" };
        format!("{}{updates} at W {}", row.text, WIDTHS[self.width])
    }
}

/// A jump: how it was carried out, whether by register, its condition.
type Jump = (&'static str, bool, &'static str);

#[derive(Default)]
pub struct Seen {
    pub numbers: Counts,
    rules: [u64; RULES],
    marks: BTreeMap<u32, u64>,
    /// By `Form::index`.
    forms: BTreeMap<&'static str, Vec<u64>>,
    /// Taken, not taken.
    jumps: BTreeMap<Jump, [u64; 2]>,
    edges: Edges,
    pub indexes: Indexes,
}

fn name_of(done: Done) -> &'static str {
    ALL_DONE.iter().find(|(other, _)| *other == done).expect("all are there").1
}

/// Each condition that is no unsupported one, and whether it can be taken and not taken.
const CONDITIONS: [(Condition, &str, [bool; 2]); 8] = [
    (Condition::Always, "always", [true, false]),
    (Condition::Z, "Z", [true, true]),
    (Condition::Nz, "NZ", [true, true]),
    (Condition::Gt, "GT", [true, true]),
    (Condition::Lt, "LT", [true, true]),
    (Condition::Ge, "GE", [true, true]),
    (Condition::Le, "LE", [true, true]),
    // "BIO is never taken."
    (Condition::Bio, "BIO", [false, true]),
];

/// The words of a machine record that are looked at.
const PC: usize = 0;
const WP: usize = 1;
/// The mark of an address that is not used.
const UNUSED: u8 = 255;

impl Seen {
    /// Counts a call by what it was given and what both sides answered.
    pub fn note(&mut self, input: &Input, output: &Output) {
        *self.numbers.entry(input.call.name()).or_default().entry(output.number).or_default() += 1;
        self.note_edges(input, output);
        let given = |place: usize| &input.arguments[place].value;
        match (input.call, output.number) {
            (Call::Check, 17) => self.note_rule(output.values[3].wides()),
            (Call::Read, 0) => self.note_parts(Done::Read, given(0).words(), output.values[2].words()),
            (Call::Write, 0) => self.note_parts(Done::Written, given(0).words(), given(1).words()),
            (Call::Text, 0) => self.note_word(Done::Printed, given(0).words(), given(1).number() as u32),
            (Call::List, 0 | 18) => {
                if let [_, next] = *output.values[5].wides() {
                    self.note_lines(given(0).words(), given(1).words(), given(2).number(), next);
                }
            }
            (Call::Assemble, 0) => {
                if let Some(&count) = output.values[3].wides().first() {
                    for &word in &output.values[2].words()[..count as usize] {
                        self.note_word(Done::Assembled, given(0).words(), word);
                    }
                }
            }
            (Call::Step, 0) => {
                let [config, image, registers] = [0, 1, 4].map(|place| given(place).words());
                let (before, after) = (given(MACHINE).words(), output.values[MACHINE].words());
                self.note_step(Done::Stepped, config, image, registers, before, after);
            }
            (Call::Step | Call::Run, 3 | 8 | 13 | 27) => {
                let Some(c) = Config::lawful_from_words(given(0).words()) else { return };
                // What a call leaves is what its refused step was given.
                match output.number {
                    3 => self.indexes.note_ranges(input.call.name(), &c, input.lists()),
                    stop => self.indexes.note_stop(input.call.name(), &c, &Input::left(output), stop),
                }
            }
            _ => {}
        }
    }

    /// Direct targets at the image's edge, where 7 or nothing is answered.
    fn note_edges(&mut self, input: &Input, output: &Output) {
        let given = |place: usize| &input.arguments[place].value;
        let (edges, number, refused) = (&mut self.edges, output.number, output.number == 7);
        let places = [Call::Read, Call::Write, Call::Text, Call::Step, Call::Check];
        let Some(c) = places.contains(&input.call).then(|| Config::lawful_from_words(given(0).words())).flatten() else { return };
        match (input.call, number) {
            (Call::Read, 0 | 7) => edges.note_word("read", &c, given(1).number() as u32, refused),
            (Call::Text, 0 | 7) => edges.note_word("printed", &c, given(1).number() as u32, refused),
            (Call::Write, 0 | 7) => edges.note_written(&c, given(1).words(), refused),
            (Call::Step, 0 | 7) => {
                edges.note_word("stepped", &c, given(1).words()[given(MACHINE).words()[PC] as usize], refused);
            }
            (Call::Check, 0) => {
                let marked = given(1).words().iter().zip(given(2).bytes());
                marked.filter(|(_, &mark)| mark != UNUSED).for_each(|(&word, _)| edges.note_word("checked", &c, word, false));
            }
            (Call::Check, 17) => {
                if let [address, 3] = *output.values[3].wides() {
                    edges.note_word("checked", &c, given(1).words()[address as usize], true);
                }
            }
            _ => {}
        }
    }

    fn note_rule(&mut self, answers: &[u64]) {
        if let Some(count) = answers.get(1).and_then(|&rule| self.rules.get_mut((rule as usize).wrapping_sub(1))) {
            *count += 1;
        }
    }

    fn note_form(&mut self, done: Done, form: Form) {
        let counts = self.forms.entry(name_of(done)).or_insert_with(|| vec![0; 2 * rows().len() * WIDTHS.len()]);
        counts[form.index()] += 1;
    }

    fn note_parts(&mut self, done: Done, config: &[u32], parts: &[u32]) {
        if let Some((c, instruction)) = Config::lawful_from_words(config).zip(Instruction::from_words(parts)) {
            self.note_form(done, Form::of(&c, &instruction));
        }
    }

    fn note_word(&mut self, done: Done, config: &[u32], word: u32) {
        let Some(c) = Config::lawful_from_words(config) else { return };
        if let Ok(instruction) = read(&c, word) {
            self.note_form(done, Form::of(&c, &instruction));
        }
    }

    /// The lines of the addresses from `first` up to `next`.
    fn note_lines(&mut self, config: &[u32], image: &[u32], first: u64, next: u64) {
        let Some(c) = Config::lawful_from_words(config) else { return };
        let lines = image.iter().zip(0u64..).filter(|(_, address)| (first..next).contains(address));
        for (&word, _) in lines {
            let answer = read(&c, word);
            if matches!(answer, Ok(_) | Err(7)) {
                self.edges.note_word("listed", &c, word, answer.is_err());
            }
            match answer {
                Ok(instruction) => self.note_form(Done::Listed, Form::of(&c, &instruction)),
                Err(number) => *self.marks.entry(number).or_default() += 1,
            }
        }
    }

    /// A step that was carried out, from one record to the next; `registers` as they were before it.
    pub fn note_step(&mut self, done: Done, config: &[u32], image: &[u32], registers: &[u32], before: &[u32], after: &[u32]) {
        let (pc, after) = (before[PC], after[PC]);
        let Some((c, &word)) = Config::lawful_from_words(config).zip(image.get(pc as usize)) else { return };
        let Ok(instruction) = read(&c, word) else { return };
        self.note_form(done, Form::of(&c, &instruction));
        self.indexes.note_done(if done == Done::Run { "run" } else { "step" }, &instruction, before);
        let (register, condition, target) = match instruction.row().kind {
            Kind::Jump(condition) => (false, condition, instruction.value),
            Kind::JumpRegister(condition) => {
                (true, condition, registers[(before[WP] + instruction.destination) as usize] % (1 << 23))
            }
            _ => return,
        };
        // A jump to the next address tells nothing.
        if target != pc + 1 {
            let name = CONDITIONS.iter().find(|(other, ..)| *other == condition).expect("all are there").1;
            let [taken, not_taken] = self.jumps.entry((name_of(done), register, name)).or_default();
            *(if after == pc + 1 { not_taken } else { taken }) += 1;
        }
    }

    /// What must be met and never was.
    pub fn unmet(&self) -> Vec<String> {
        let mut unmet = self.edges.unmet();
        unmet.extend(self.indexes.unmet());
        for (rule, _) in (1..).zip(&self.rules).filter(|(_, &count)| count == 0) {
            unmet.push(format!("17 never named rule {rule}"));
        }
        for mark in MARKS.iter().filter(|mark| !self.marks.contains_key(mark)) {
            unmet.push(format!("no listing had ?{mark}"));
        }
        for (_, name) in ALL_DONE {
            let counts = self.forms.get(name);
            for form in Form::all().filter(|form| counts.is_none_or(|counts| counts[form.index()] == 0)) {
                unmet.push(format!("{} was never {name}", form.name()));
            }
        }
        for (how, register, condition, able) in jumps() {
            let counts = self.jumps.get(&(how, register, condition)).copied().unwrap_or_default();
            for ((able, count), which) in able.into_iter().zip(counts).zip(["taken", "not taken"]) {
                let operand = if register { "@%d" } else { "target" };
                if able != (count > 0) {
                    let met = if able { "never" } else { "ever" };
                    unmet.push(format!("JMP {operand}, {condition}, was {met} {which} when {how}"));
                }
            }
        }
        unmet
    }

    /// The counts, in a few lines.
    pub fn print(&self) {
        let each = |counts: Vec<String>| counts.join(", ");
        let rules = (1..).zip(&self.rules).map(|(rule, count): (u32, _)| format!("{rule}: {count}"));
        println!("17 by rule: {}", each(rules.collect()));
        self.edges.print();
        self.indexes.print();
        let fewest = |counts: &Vec<u64>| Form::all().map(|form| (counts[form.index()], form.name())).min();
        let fewest_each = ALL_DONE.iter().filter_map(|(_, name)| {
            let (count, form) = self.forms.get(name).and_then(fewest)?;
            Some(format!("{name} {count} ({form})"))
        });
        let supported = rows().iter().filter(|row| row.need != Need::Unsupported).count();
        println!(
            "{supported} rows, {} with bit 26 and W, each at least so often: {}",
            Form::all().count(),
            each(fewest_each.collect())
        );
        for (done, register) in [("stepped", false), ("stepped", true), ("run", false), ("run", true)] {
            let conditions = jumps().filter(|(how, by, ..)| (*how, *by) == (done, register)).map(|(.., condition, _)| {
                let [taken, not_taken] = self.jumps.get(&(done, register, condition)).copied().unwrap_or_default();
                format!("{condition} {taken}/{not_taken}")
            });
            let operand = if register { "JMP @%d" } else { "JMP" };
            println!("{operand} {done}, taken/not: {}", each(conditions.collect()));
        }
    }
}

/// Every jump that is counted, and whether it can be taken and not taken.
fn jumps() -> impl Iterator<Item = (&'static str, bool, &'static str, [bool; 2])> {
    let ways = [Done::Stepped, Done::Run].into_iter().flat_map(|done| [(name_of(done), false), (name_of(done), true)]);
    ways.flat_map(|(how, register)| CONDITIONS.iter().map(move |&(_, name, able)| (how, register, name, able)))
}
