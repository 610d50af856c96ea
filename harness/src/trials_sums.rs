//! Trials of K8: sides that are wrong on purpose in ADD, ADDC, SUB or SUBC, which the cases by hand, the comparison and, where it speaks of
//! them, the claim must find.

use crate::c_interface::Plain;
use crate::calls::{Calls, State};
use crate::compare::Pair;
use crate::document_sums;
use crate::model::Model;
use crate::random::Random;
use crate::sums::{self, bank, Operand, Operation, SHIFTED, SIGNED};
use crate::trials::smaller;
use crate::trials_steps::{found_in, lent, WrongStep};

#[derive(Clone, Copy, Debug, PartialEq, Eq)]
enum Fault {
    None,
    /// ADDC adds no N; SUBC subtracts none, or adds it.
    CarryDropped,
    BorrowDropped,
    BorrowAdded,
    /// An ADDC or SUBC that stands behind another takes no N.
    LateDropped,
    /// ADDC and SUBC take N only where they update the flags; ADD and SUB take it too.
    OnlyWithFlags,
    TakenByFirst,
    /// Bit 26 at 1 does not keep ADDC and SUBC, or ADD and SUB, from updating the flags.
    SecondUpdates,
    FirstUpdates,
    /// N is 1 where there is no borrow: SUB and SUBC leave it so, and SUBC takes it so; or SUB alone leaves it so.
    InvertedBorrow,
    InvertedBySub,
    /// N of ADDC and SUBC is decided without the N they take; or with it, added to the second operand modulo 2^W.
    CarryOfTwo,
    OperandWraps,
    /// N of SUB and SUBC is the result's top bit: "sign of result (SUB case)".
    SignOfResult,
    /// Z of ADDC and SUBC is 1 only where it was before, so that it says whether the whole is 0.
    ZeroOfWhole,
    /// ADDC and SUBC take # for >, at W = 32; or shift < at W = 16 too.
    Unsigned,
    ShiftedAway,
}

/// A side with the fault. What the four leave is worked out here, also without a fault.
struct Wrong(Fault);

const PC: usize = 0;
const WP: usize = 1;
const N: usize = 4;
const Z: usize = 5;
const REG_WIDTH: usize = 1;

impl Fault {
    /// The second operand.
    fn second(self, operation: &Operation, width: u32, right: u32) -> u32 {
        match (self, operation.operand) {
            (Fault::Unsigned, Operand::Immediate(SIGNED, word)) if operation.takes_n && width == 32 => word & 0xffff,
            (Fault::ShiftedAway, Operand::Immediate(SHIFTED, _)) if operation.takes_n && width == 16 => 0,
            _ => right,
        }
    }

    /// The N that is added to a sum, or subtracted.
    fn taken(self, operation: &Operation, n: i64) -> i64 {
        let Operation { subtracts, takes_n, keeps, .. } = *operation;
        match self {
            Fault::TakenByFirst => n,
            _ if !takes_n => 0,
            Fault::CarryDropped if !subtracts => 0,
            Fault::BorrowDropped if subtracts => 0,
            Fault::BorrowAdded if subtracts => -n,
            Fault::OnlyWithFlags if keeps => 0,
            Fault::InvertedBorrow if subtracts => 1 - n,
            _ => n,
        }
    }

    fn updates(self, operation: &Operation) -> bool {
        match self {
            _ if !operation.keeps => true,
            Fault::SecondUpdates => operation.takes_n,
            Fault::FirstUpdates => !operation.takes_n,
            _ => false,
        }
    }

    /// %d, N and Z, from its word, the second operand, N and Z before.
    fn left(self, operation: &Operation, width: u32, words: [u32; 2], flags: [u32; 2]) -> [u32; 3] {
        let Operation { subtracts, takes_n, .. } = *operation;
        let [a, b] = words.map(i64::from);
        let (limit, sign, taken) = (1 << width, if subtracts { -1 } else { 1 }, self.taken(operation, flags[0].into()));
        let exact = a + sign * (b + taken);
        let value = exact.rem_euclid(limit);
        let leaves = |exact: i64| !(0..limit).contains(&exact);
        let n = match self {
            Fault::InvertedBorrow if subtracts => !leaves(exact),
            Fault::InvertedBySub if subtracts && !takes_n => !leaves(exact),
            Fault::CarryOfTwo => leaves(a + sign * b),
            Fault::OperandWraps => leaves(a + sign * ((b + taken) % limit)),
            Fault::SignOfResult if subtracts => value >= limit / 2,
            _ => leaves(exact),
        };
        let z = value == 0 && (self != Fault::ZeroOfWhole || !takes_n || flags[1] == 1);
        let [n, z] = if self.updates(operation) { [n, z].map(u32::from) } else { flags };
        [value as u32, n, z]
    }
}

impl WrongStep for Wrong {
    fn wrong_step(&self, config: &[u32], image: &[u32], inputs: &[u32], state: State, answers: &mut [u64]) -> u32 {
        let mut state = state;
        let before = (state.machine.to_vec(), state.registers.to_vec());
        let number = Model.step(config, image, inputs, lent(&mut state), answers);
        if number != 0 {
            return number;
        }
        let (word, width) = (image[before.0[PC] as usize], config[REG_WIDTH]);
        if let Some(mut operation) = Operation::of(word, width) {
            let from = bank(&before.0, &before.1);
            let behind = before.0[PC].checked_sub(1).and_then(|pc| Operation::of(image[pc as usize], width));
            operation.takes_n &= self.0 != Fault::LateDropped || behind.is_none_or(|behind| !behind.takes_n);
            let words = [operation.result(from), self.0.second(&operation, width, operation.second(from))];
            let [value, n, z] = self.0.left(&operation, width, words, [before.0[N], before.0[Z]]);
            state.registers[(before.0[WP] + operation.destination) as usize] = value;
            (state.machine[N], state.machine[Z]) = (n, z);
        }
        0
    }
}

fn found(model: &dyn Calls, wrong: &dyn Calls) -> Option<String> {
    found_in(sums::case, model, wrong)
}

/// By hand and beside the model.
fn found_by_both(fault: Fault) -> [String; 2] {
    let told = [document_sums::run(&Wrong(fault)).err(), found(&Model, &Wrong(fault))];
    told.map(|said| said.unwrap_or_else(|| panic!("{fault:?} is found")))
}

#[test]
fn sides_without_a_fault_pass() {
    let right = Wrong(Fault::None);
    assert_eq!([found(&Model, &right), found(&right, &right), found(&Model, &Plain)], [None, None, None]);
    assert_eq!(document_sums::run(&right), document_sums::run(&Plain));
    assert!(document_sums::run(&Plain).is_ok());
}

#[test]
fn sums_worked_out_otherwise_are_found() {
    for (fault, by_hand, beside_model, alone) in [
        (Fault::CarryDropped, "W = 8, 12f0 + 2320 = 3610, ADDC %01,%03,S: cell 1: 35, ", "machine[5]: ", "K8: the ADDC at "),
        (Fault::BorrowDropped, "W = 8, 3610 - 12f0 = 2320, SUBC %01,%03,S: cell 1: 24, ", "machine[4]: ", "K8: the SUBC at "),
        (Fault::BorrowAdded, "W = 8, 3610 - 12f0 = 2320, SUBC %01,%03,S: cell 1: 25, ", "machine[4]: ", "K8: the SUBC at "),
        (Fault::OnlyWithFlags, "W = 8, 12f0 + 2320 = 3610, ADDC %01,%03: cell 1: 35, ", "registers[", "K8: the "),
        (Fault::TakenByFirst, "W = 8, 1234 + 2345 = 3579, ADD %00,%02,S: cell 0: 7a, ", "machine[5]: ", "K8: the "),
        (Fault::SecondUpdates, "W = 8, 12f0 + 2320 = 3610, ADDC %01,%03: PC, WP, N, Z and mask: ", "machine[4]: ", "K8: the "),
        (Fault::InvertedBorrow, "W = 8, 3579 - 1234 = 2345, SUB %00,%02,S: PC, WP, N, Z ", "machine[4]: ", "K8: the SUBC at "),
        (Fault::InvertedBySub, "W = 8, 3579 - 1234 = 2345, SUB %00,%02,S: PC, WP, N, Z ", "machine[4]: ", "K8: the SUBC at "),
        (Fault::CarryOfTwo, "W = 8, ffff + 0001 = 1 0000, ADDC %01,%03,S: PC, WP, N, Z ", "machine[4]: ", "K8: the "),
        (Fault::OperandWraps, "W = 8, 01ff + ff01 = 1 0100, ADDC %01,%03,S: PC, WP, N, Z ", "machine[4]: ", "K8: the "),
        (Fault::SignOfResult, "W = 8, f079 - 1034 = e045, SUBC %01,%03,S: PC, WP, N, Z ", "machine[4]: ", "K8: the SUBC at "),
        (Fault::Unsigned, "W = 32, 1000, ffffffff + ffff8765, 1, ADDC %01,#8765,S: cell 1: 9766, ", "registers[", "K8: the "),
        (Fault::ShiftedAway, "W = 16, 1000ffff + 87650001, ADDC %01,<8765,S: cell 1: 1001, ", "machine[5]: ", "K8: the "),
        (Fault::LateDropped, "W = 8, ffffffff + 1, ADDC %02,%06,S: PC, WP, N, Z ", "machine[", "K8: the "),
    ] {
        let [said_by_hand, said_beside_model] = found_by_both(fault);
        let said_alone = found(&Wrong(fault), &Wrong(fault)).unwrap_or_else(|| panic!("{fault:?} breaks the claim"));
        assert!(said_by_hand.starts_with(by_hand), "{fault:?}: {said_by_hand}");
        assert!(said_beside_model.starts_with(&format!("model and library: {beside_model}")), "{fault:?}: {said_beside_model}");
        assert!(said_alone.starts_with(alone), "{fault:?}: {said_alone}");
        // Each pair stands as claimed where only the third word of a number is wrong: the chain tells.
        assert_eq!(said_alone.contains(": a chain of "), fault == Fault::LateDropped, "{said_alone}");
    }
}

/// The claim says nothing where the first leaves the flags, nor anything of Z: these two break none of it.
#[test]
fn faults_that_the_claim_does_not_speak_of_are_found_without_it() {
    for (fault, by_hand) in [
        (Fault::FirstUpdates, "W = 8, 12f0 + 2320 without a carry, ADD %00,%02: PC, WP, N, Z and mask: [1, 0, 1, 0, 0], "),
        (Fault::ZeroOfWhole, "W = 8, 0000 + 0001 = 0001, ADDC %01,%03,S: PC, WP, N, Z and mask: [2, 0, 0, 0, 0], "),
    ] {
        let [said_by_hand, said_beside_model] = found_by_both(fault);
        assert!(said_by_hand.starts_with(by_hand), "{fault:?}: {said_by_hand}");
        assert!(said_beside_model.starts_with("model and library: machine[5]: "), "{fault:?}: {said_beside_model}");
        assert_eq!(found(&Wrong(fault), &Wrong(fault)), None, "{fault:?}");
    }
}

#[test]
fn a_broken_claim_is_made_small() {
    for (fault, words, budget) in
        [(Fault::CarryDropped, 2, "budget 2"), (Fault::BorrowAdded, 2, "budget 2"), (Fault::LateDropped, 3, "budget 3")]
    {
        let said = found(&Wrong(fault), &Wrong(fault)).unwrap_or_else(|| panic!("{fault:?} breaks the claim"));
        let image = smaller(&said).into_iter().find_map(|line| line.strip_prefix("image [")).expect("an image");
        assert!(image.split(", ").count() == words && smaller(&said).contains(&budget), "{said}");
    }
}

/// A few hundred programs meet everything that is counted of them.
#[test]
fn everything_counted_is_met() {
    let mut pair = Pair::new(&Model, &Model);
    (0..600).for_each(|seed| sums::case(&mut pair, &mut Random::new(seed)).expect("the model answers as itself"));
    assert!(pair.sums.all_met(), "{:?}", pair.sums);
}
