//! Trials of K6: sides that are wrong on purpose in JSRWP or RETWP, which the cases by hand, the comparison and the claim must find.

use crate::c_interface::Plain;
use crate::calls::{Calls, State};
use crate::compare::Pair;
use crate::contexts;
use crate::document_contexts;
use crate::model::Model;
use crate::random::Random;
use crate::trials_steps::{found_in, lent, WrongStep};
use std::cell::RefCell;
use std::collections::HashMap;
use std::hash::{DefaultHasher, Hash, Hasher};

#[derive(Clone, Copy, Debug, PartialEq, Eq)]
enum Fault {
    None,
    /// JSRWP puts WP and PC+1 on a stack of the model's own as well, and RETWP takes them from there.
    PrivateStack,
    /// RETWP takes N from bit 20, or the mask from 25-22.
    NegativeBit,
    MaskBits,
    /// JSRWP saves PC and not PC+1; the new WP; or puts the context into the old bank.
    OwnAddress,
    NewBank,
    OldBank,
}

/// WP and PC+1 of the calls that have not been returned from, newest last.
type Stack = Vec<(u32, u32)>;

/// A side with the fault. No list has room for a private stack: it is kept beside each state, as it was when that was first met.
struct Wrong {
    fault: Fault,
    stacks: RefCell<HashMap<u64, Stack>>,
}

const PC: usize = 0;
const WP: usize = 1;
const N: usize = 4;
const MASK: usize = 8;
const RETWP: u32 = 0xf001_0000;
const WP_BITS: u32 = 0x3f << 26;

impl Wrong {
    fn new(fault: Fault) -> Wrong {
        Wrong { fault, stacks: RefCell::default() }
    }

    fn stack(&self, machine: &[u32], registers: &[u32], at_first: Stack) -> Stack {
        let mut hasher = DefaultHasher::new();
        (machine, registers).hash(&mut hasher);
        self.stacks.borrow_mut().entry(hasher.finish()).or_insert(at_first).clone()
    }
}

/// RETWP by the private stack; WP and PC are not looked for in register zero.
fn return_by_stack(stack: &mut Stack, state: &mut State, step: impl FnOnce(&mut State) -> u32) -> u32 {
    let Some((wp, pc)) = stack.pop() else { return step(state) };
    let zero = state.machine[WP] as usize;
    let kept = state.registers[zero];
    state.registers[zero] = (wp / 16) << 26 | kept & 0x03ff_0000 | pc;
    let number = step(state);
    state.registers[zero] = kept;
    number
}

impl WrongStep for Wrong {
    fn wrong_step(&self, config: &[u32], image: &[u32], inputs: &[u32], state: State, answers: &mut [u64]) -> u32 {
        let mut state = state;
        let word = state.machine.first().and_then(|&pc| image.get(pc as usize)).copied().unwrap_or(0);
        let (is_jsrwp, is_retwp) = (word >> 23 == 0b1_1110_0010, word == RETWP);
        let before = (state.machine.to_vec(), state.registers.to_vec());
        let mut step = |state: &mut State| Model.step(config, image, inputs, lent(state), answers);
        let mut stack = self.stack(&before.0, &before.1, Vec::new());
        let number = match self.fault {
            Fault::PrivateStack if is_retwp => return_by_stack(&mut stack, &mut state, step),
            _ => step(&mut state),
        };
        if number != 0 {
            return number;
        }
        let State { machine, registers, .. } = state;
        let (from, to) = (before.0[WP] as usize, machine[WP] as usize);
        match self.fault {
            Fault::NegativeBit if is_retwp => machine[N] = before.1[from] >> 20 & 1,
            Fault::MaskBits if is_retwp => machine[MASK] = before.1[from] >> 22 & 15,
            Fault::OwnAddress if is_jsrwp => registers[to] -= 1,
            Fault::NewBank if is_jsrwp => registers[to] = registers[to] & !WP_BITS | (machine[WP] / 16) << 26,
            Fault::OldBank if is_jsrwp => {
                let context = registers[to];
                registers[to] = before.1[to];
                registers[from] = context;
            }
            Fault::PrivateStack => {
                stack.extend(is_jsrwp.then(|| (before.0[WP], before.0[PC] + 1)));
                self.stack(machine, registers, stack);
            }
            _ => {}
        }
        0
    }
}

fn found(model: &dyn Calls, wrong: &dyn Calls) -> Option<String> {
    found_in(contexts::case, model, wrong)
}

/// By hand, beside the model, and by the claim alone.
fn found_by_all(fault: Fault) -> [String; 3] {
    let (by_hand, beside_model, alone) = (Wrong::new(fault), Wrong::new(fault), Wrong::new(fault));
    let told = [document_contexts::run(&by_hand).err(), found(&Model, &beside_model), found(&alone, &alone)];
    told.map(|said| said.unwrap_or_else(|| panic!("{fault:?} is found")))
}

#[test]
fn sides_without_a_fault_pass() {
    let right = Wrong::new(Fault::None);
    assert_eq!([found(&Model, &right), found(&right, &right), found(&Model, &Plain)], [None, None, None]);
    assert_eq!(document_contexts::run(&right), document_contexts::run(&Plain));
    assert!(document_contexts::run(&Plain).is_ok());
}

/// The old model: "A routine overwrote register zero. The model returned to the right bank; the core did not."
#[test]
fn a_private_stack_is_found_and_made_small() {
    let [by_hand, beside_model, alone] = found_by_all(Fault::PrivateStack);
    assert!(by_hand.starts_with("0c1a0025 in register zero, RETWP: PC, WP, N, Z and mask: [1, 0, 0, 1, a], "), "{by_hand}");
    assert!(beside_model.starts_with("model and library: ") && beside_model.contains("f0010000"), "{beside_model}");
    // The claim finds it where a RETWP belongs to another JSRWP than the newest that has not been returned from.
    assert!(alone.starts_with("K6: the RETWP at "), "{alone}");
    // Where one run has them all: a JSRWP, a word that overwrites register zero, and RETWP.
    let image = (0..200).find_map(|seed| {
        let (wrong, mut r) = (Wrong::new(Fault::PrivateStack), Random::new(seed));
        let said = contexts::case(&mut Pair::new(&Model, &wrong), &mut r).err()?;
        said.lines().find_map(|line| line.trim().strip_prefix("image [")).filter(|image| image.contains("f1")).map(str::to_string)
    });
    let image = image.expect("the fault is found in a run");
    let words: Vec<&str> = image.trim_end_matches(']').split(", ").filter(|word| !word.starts_with("0 x ")).collect();
    assert!(words.len() <= 3 && words.contains(&"f0010000"), "{image}");
}

#[test]
fn contexts_saved_or_taken_otherwise_are_found() {
    for (fault, by_hand, beside_model) in [
        (Fault::NegativeBit, "nested switches, RETWP from bank 0: PC, WP, N, Z and mask: [22, 20, 0, 0, 9], ", "machine[4]: "),
        (Fault::MaskBits, "nested switches, RETWP from bank 0: PC, WP, N, Z and mask: [22, 20, 1, 0, 0], ", "machine[8]: "),
        (Fault::OwnAddress, "nested switches, JSRWP 0010,010: cell 16: 250000, ", "registers["),
        (Fault::NewBank, "nested switches, JSRWP 0010,010: cell 16: 4250001, ", "registers["),
        (Fault::OldBank, "nested switches, JSRWP 0010,010: cell 16: 110, ", "registers["),
    ] {
        let wanted = [by_hand, &format!("model and library: {beside_model}"), "K6: the RETWP at "];
        for (said, wanted) in found_by_all(fault).iter().zip(wanted) {
            assert!(said.starts_with(wanted), "{fault:?}: {said}");
        }
    }
}

/// A few hundred programs meet everything that is counted of them.
#[test]
fn everything_counted_is_met() {
    let mut pair = Pair::new(&Model, &Model);
    (0..600).for_each(|seed| contexts::case(&mut pair, &mut Random::new(seed)).expect("the model answers as itself"));
    assert!(pair.contexts.all_met(), "{:?}", pair.contexts);
}
