//! Trials of the harness itself: sides that are wrong on purpose, which it must find, and make small.

use crate::calls::{Calls, State};
use crate::cases::SUBJECTS;
use crate::compare::Pair;
use crate::contexts::ContextsSeen;
use crate::demand::DemandSeen;
use crate::generate::configs::{self, Size};
use crate::generate::states;
use crate::inputs::{Call, Input, Value};
use crate::model::config::Config;
use crate::model::Model;
use crate::random::Random;
use crate::runs::{self, RunsSeen};
use crate::seen::Seen;
use crate::shrink::shrink;
use crate::sums_seen::SumsSeen;
use crate::{document_bytes, document_index};

/// What is wrong with a side that else answers as the model does.
#[derive(Clone, Copy, PartialEq, Eq)]
enum Fault {
    /// SUBS takes N the other way round.
    SubsFlag,
    /// BLDS takes byte 80 for a positive one (K3).
    SignedByte,
    /// A run of three steps or more counts a cycle too many.
    RunCycle,
    /// Reading takes a direct target at IM_SIZE (K2).
    Target,
    /// 13 is tested before 27 (K4).
    IndexOrder,
    /// A MOVX that 27 refuses sets the mark; one is carried out in 27's place, and sets it.
    RefusedLoads,
    MovxLoads,
    /// Reset has the mark set.
    ResetLoaded,
    /// RX is free while the mark is 0.
    FreeIndex,
    /// A breach of rule 8 is called one of rule 7.
    Rule,
    /// A source with "RLD" in it is refused.
    Source,
    /// What a text's page has before it and behind it is written.
    Before,
    Behind,
    /// An image that is lent for reading is written.
    LentToRead,
}

struct Wrong(Fault);

const WP: usize = 1;
const RX: usize = 2;
const N: usize = 4;
const LOADED: usize = 80;
const SUBS: u32 = 0b00111;
const LEVEL_2: u32 = 0b10011;
const BLDS: u32 = 0x06;
const MOVX_TO: u32 = 0x18;
const DM_SIZE: usize = 5;

/// Writes beside a list, whose neighbours are the guards of the same allocation.
fn write_beside(list: &[u8], place: isize) {
    let beside = list.as_ptr().wrapping_offset(place).cast_mut();
    unsafe { beside.write_volatile(0) };
}

/// The data address of a MOVX that 27 refused.
fn movx_address(word: u32, machine: &[u32], registers: &[u32]) -> u32 {
    let register = if word >> 8 & 0xff == MOVX_TO { word >> 16 } else { word };
    registers[(machine[WP] + (register & 0x7f)) as usize] % 0x1_0000
}

impl Calls for Wrong {
    fn read(&self, config: &[u32], word: u32, instruction: &mut [u32]) -> u32 {
        match (self.0, config) {
            (Fault::Target, [im_size @ 1..=32_767, rest @ ..]) => Model.read(&[&[im_size + 1], rest].concat(), word, instruction),
            _ => Model.read(config, word, instruction),
        }
    }
    fn write(&self, config: &[u32], instruction: &[u32], answers: &mut [u64]) -> u32 {
        Model.write(config, instruction, answers)
    }
    fn reset(&self, machine: &mut [u32]) -> u32 {
        let number = Model.reset(machine);
        if self.0 == Fault::ResetLoaded && number == 0 {
            machine[LOADED] = 1;
        }
        number
    }
    fn step(&self, config: &[u32], image: &[u32], inputs: &[u32], state: State, answers: &mut [u64]) -> u32 {
        let State { machine, registers, memory, log_addresses, log_values } = state;
        let word = machine.first().and_then(|&pc| image.get(pc as usize)).copied().unwrap_or(0);
        let mut step = |machine: &mut [u32], registers: &mut [u32]| {
            let (memory, log_addresses, log_values) = (&mut *memory, &mut *log_addresses, &mut *log_values);
            Model.step(config, image, inputs, State { machine, registers, memory, log_addresses, log_values }, answers)
        };
        // A free RX is hidden from the model, and put back where no LDYX was carried out.
        let free = self.0 == Fault::FreeIndex && machine.get(LOADED) == Some(&0);
        let rx = if free { std::mem::take(&mut machine[RX]) } else { 0 };
        let number = step(machine, registers);
        match (self.0, number) {
            (Fault::SubsFlag, 0) if word >> 27 == SUBS => machine[N] ^= 1,
            (Fault::SignedByte, 0) if word >> 27 == LEVEL_2 && word >> 8 & 0xff == BLDS => {
                let destination = &mut registers[(machine[WP] + (word >> 16 & 0x7f)) as usize];
                if [0xff80, 0xffff_ff80].contains(destination) {
                    *destination = 0x80;
                }
            }
            (Fault::IndexOrder, 27) if movx_address(word, machine, registers) >= config[DM_SIZE] => return 13,
            (Fault::RefusedLoads, 27) => machine[LOADED] = 1,
            (Fault::MovxLoads, 27) => {
                machine[LOADED] = 1;
                return step(machine, registers);
            }
            (Fault::FreeIndex, _) if free && machine[LOADED] == 0 => machine[RX] = rx,
            _ => {}
        }
        number
    }
    fn run(&self, config: &[u32], image: &[u32], inputs: &[u32], state: State, budget: u64, answers: &mut [u64]) -> u32 {
        let number = Model.run(config, image, inputs, state, budget, answers);
        if let (Fault::RunCycle, [steps, cycles]) = (self.0, answers) {
            *cycles += u64::from(*steps >= 3);
        }
        number
    }
    fn check(&self, config: &[u32], image: &[u32], sheet: &[u8], answers: &mut [u64]) -> u32 {
        let number = Model.check(config, image, sheet, answers);
        if let (Fault::Rule, 17, [_, rule @ 8]) = (self.0, number, answers) {
            *rule = 7;
        }
        number
    }
    fn text(&self, config: &[u32], word: u32, page: &mut [u8], place: u64, answers: &mut [u64]) -> u32 {
        match self.0 {
            Fault::Before => write_beside(page, -1),
            Fault::Behind => write_beside(page, page.len() as isize),
            _ => {}
        }
        Model.text(config, word, page, place, answers)
    }
    fn list(&self, config: &[u32], image: &[u32], first: u64, page: &mut [u8], place: u64, answers: &mut [u64]) -> u32 {
        let number = Model.list(config, image, first, page, place, answers);
        if self.0 == Fault::LentToRead && image.len() > 2 {
            unsafe { image.as_ptr().cast_mut().add(2).write_volatile(7) };
        }
        number
    }
    fn load(&self, file: &[u8], config: &mut [u32], image: &mut [u32]) -> u32 {
        Model.load(file, config, image)
    }
    fn store(&self, config: &[u32], image: &[u32], file: &mut [u8]) -> u32 {
        Model.store(config, image, file)
    }
    fn assemble(&self, config: &[u32], text: &[u8], words: &mut [u32], answers: &mut [u64]) -> u32 {
        if self.0 == Fault::Source && text.windows(3).any(|part| part == b"RLD") {
            return 26;
        }
        Model.assemble(config, text, words, answers)
    }
}

fn differ(wrong: &Wrong, input: &Input) -> bool {
    input.difference(["model", "library"], &input.make(&Model), &input.make(wrong)).is_some()
}

/// What the cases of a subject say of a side that is wrong, on the first seed that finds it.
fn found(fault: Fault, subject: &str) -> String {
    let subject = SUBJECTS.iter().find(|other| other.name == subject).expect("a subject");
    let wrong = Wrong(fault);
    let mut pair = Pair::new(&Model, &wrong);
    let said = (0..2_000).find_map(|seed| (subject.case)(&mut pair, &mut Random::new(seed)).err());
    said.expect("the fault is found")
}

/// The lines of the smaller input.
pub(crate) fn smaller(said: &str) -> Vec<&str> {
    let lines = said.lines().skip_while(|line| !line.starts_with("  given: "));
    lines.take_while(|line| !line.starts_with("  made smaller from: ")).map(str::trim).collect()
}

#[test]
fn a_wrong_step_is_found_and_made_small() {
    let said = found(Fault::SubsFlag, "states");
    let config = "config [1, 32, 8, 8, 1, 0, 0, 0, 0, 0, 0, 0, 0, 0, 0, 0, 0, 32, 0]";
    let [call, given, image, inputs, machine] = smaller(&said)[..5] else { panic!("{said}") };
    assert_eq!([call, given, inputs, machine], ["given: step", config, "inputs []", "machine [0 x 100]"], "{said}");
    let word = image.strip_prefix("image [").and_then(|rest| rest.strip_suffix("]")).expect("an image");
    assert_eq!(u32::from_str_radix(word, 16).map(|word| word >> 27), Ok(SUBS), "{said}");
    assert!(said.contains("machine[4]: 0x0 and 0x1"), "{said}");
}

#[test]
fn a_byte_with_the_wrong_sign_is_found() {
    let said = document_bytes::run(&Wrong(Fault::SignedByte)).expect_err("the fault is found");
    assert!(said.starts_with("BLDS0 of 00000080 at W = 16: (0, 80, 0, 1), "), "{said}");
}

#[test]
fn index_pointers_taken_otherwise_are_found_and_made_small() {
    for (fault, subject, wanted, by_hand) in [
        (Fault::IndexOrder, "states", "the number: 27 and 13", "98061800, address 20, mark 0: (d, [0]), "),
        (Fault::RefusedLoads, "states", "machine[80]: 0x0 and 0x1", "98061800 from reset: machine[80] after it: 1, "),
        (Fault::MovxLoads, "states", "the number: 27 and 0", "98061800 from reset: (0, [2]), "),
        (Fault::ResetLoaded, "reset", "machine[80]: 0x0 and 0x1", "word 80 at reset: 1, "),
        (Fault::FreeIndex, "states", "the number: 3 and 0", "a0000000 with [(2, 1)]: (0, [2]), "),
    ] {
        let said = found(fault, subject);
        assert!(said.starts_with(&format!("model and library: {wanted}")), "{said}");
        let words = smaller(&said).into_iter().find(|line| line.starts_with("image [")).unwrap_or_default();
        assert!(!words.contains(','), "{said}");
        let said = document_index::run(&Wrong(fault)).expect_err("the fault is found");
        assert!(said.starts_with(by_hand), "{said}");
    }
}

#[test]
fn a_target_at_im_size_is_found() {
    let said = found(Fault::Target, "words");
    assert!(said.starts_with("model and library: the number: 7 and 0"), "{said}");
    assert!(said.lines().any(|line| line.trim().starts_with("word c") || line.trim().starts_with("word f")), "{said}");
}

#[test]
fn a_run_that_is_not_its_steps_is_found_and_made_small() {
    // Both sides have the same run, so that only the single steps tell.
    let wrong = Wrong(Fault::RunCycle);
    let mut pair = Pair::new(&wrong, &wrong);
    let mut r = Random::new(3);
    let config = configs::lawful(&mut r, Size::Small);
    let c = Config::lawful_from_words(&config).expect("a lawful configuration");
    let mut lists = states::lists(&mut r, &c, vec![0xc000_0000; c.im_size as usize]);
    let said = runs::run(&mut pair, &config, &mut lists, 500).err().expect("the fault is found");
    assert!(said.starts_with("the library's run answers (0, [3, 7]), its single steps (0, 3, 6)"), "{said}");
    assert!(smaller(&said).contains(&"image [c0000000]") && smaller(&said).contains(&"budget 3"), "{said}");
}

#[test]
fn a_wrong_rule_is_found_and_made_small() {
    let said = found(Fault::Rule, "sheets");
    let lines = smaller(&said);
    assert_eq!(lines[0], "given: check");
    // A port write, a port read, and one more address for the read to go on to at most.
    let image = lines.iter().find_map(|line| line.strip_prefix("image [")).expect("an image");
    assert!(image.split(", ").count() <= 3, "{said}");
}

#[test]
fn a_wrong_source_is_found_and_made_small() {
    let said = found(Fault::Source, "texts");
    let text = smaller(&said).into_iter().find(|line| line.starts_with("text ")).expect("a text");
    assert!(text.contains("RLD") && text.len() <= "text \"RLD %00,#0000\"".len(), "{said}");
}

#[test]
fn writes_beside_a_list_and_to_one_lent_for_reading_are_found() {
    for (fault, subject, wanted) in [
        (Fault::Before, "words", "page: a guard before or behind the list was written"),
        (Fault::Behind, "words", "page: a guard before or behind the list was written"),
        (Fault::LentToRead, "listings", "image: lent for reading, and was written"),
    ] {
        let said = found(fault, subject);
        assert!(said.contains(wanted), "{said}");
    }
}

#[test]
fn a_smaller_input_still_differs() {
    let wrong = Wrong(Fault::SubsFlag);
    let mut r = Random::new(5);
    let mut tried = 0;
    while tried < 5 {
        let config = configs::lawful(&mut r, Size::Small);
        let c = Config::lawful_from_words(&config).expect("a lawful configuration");
        let image = (0..c.im_size).map(|_| SUBS << 27 | r.below(8) << 16 | r.below(8)).collect();
        let mut lists = states::lists(&mut r, &c, image);
        lists.machine = states::machine(&mut r, &c, &lists);
        let input = Input::advance(&config, &lists, None, &[0; 1]);
        if differ(&wrong, &input) {
            let small = shrink(input, &|input| differ(&wrong, input));
            assert!(differ(&wrong, &small) && small.call == Call::Step);
            let Value::Words(image) = &small.arguments[1].value else { panic!("an image") };
            assert_eq!(image.list(), [SUBS << 27]);
            tried += 1;
        }
    }
}

#[test]
fn what_was_never_met_is_told() {
    assert!(!RunsSeen::default().all_met() && !DemandSeen::default().all_met() && !ContextsSeen::default().all_met());
    assert!(!SumsSeen::default().all_met());
    let unmet = Seen::default().unmet();
    for what in [
        "17 never named rule 8",
        "no listing had ?6",
        "RETWP at W 32 was never stepped",
        "JMP target, GE, was never not taken when run",
        "MOVX from past DM_SIZE: 27 was never met by a step",
        "RY though not loaded was never met by a run",
    ] {
        assert!(unmet.iter().any(|told| told == what), "{what}");
    }
}
