//! K8: programs that add and subtract numbers of several words, under lists of step and run calls, and its claim on the library's own
//! answers: where an ADD that updates the flags is carried out and straight after it an ADDC, whose registers are apart from the ADD's %d,
//! the two %d hold the two-word sum modulo the square of 2^W, and N is its carry where the ADDC updates the flags too. The same for SUB,
//! SUBC and the borrow. Nothing is claimed of Z.

use crate::calls::Calls;
use crate::compare::Pair;
use crate::generate::states::Lists;
use crate::generate::sums;
use crate::inputs::Input;
use crate::model::config::Config;
use crate::random::Random;
use crate::runs::{self, Moment};
use crate::sums_seen::{Aside, OfKind, SumsSeen, BY_EACH, WIDTHS};

/// The places of a configuration and of a machine record that are looked at.
const REG_WIDTH: usize = 1;
const PC: usize = 0;
const WP: usize = 1;
const N: usize = 4;
const Z: usize = 5;

/// Bits 31-27 of the four.
const ADD: u32 = 0b01000;
const ADDC: u32 = 0b01001;
const SUB: u32 = 0b00110;
const SUBC: u32 = 0b01010;

/// The places of the marks #, > and < where they are counted.
pub const SIGNED: usize = 0;
pub const UNSIGNED: usize = 1;
pub const SHIFTED: usize = 2;

/// The second operand.
#[derive(Clone, Copy, Debug, PartialEq, Eq)]
pub enum Operand {
    Register(u32),
    /// The place of its mark, and the word that it stands for.
    Immediate(usize, u32),
}

/// An ADD, ADDC, SUB or SUBC.
#[derive(Clone, Copy, Debug)]
pub struct Operation {
    pub subtracts: bool,
    /// ADDC or SUBC.
    pub takes_n: bool,
    /// Bit 26 is 1: the flags are left.
    pub keeps: bool,
    pub destination: u32,
    pub operand: Operand,
}

impl Operation {
    /// What a word that can be read is at a width; None where it is none of the four.
    pub fn of(word: u32, width: u32) -> Option<Operation> {
        let (subtracts, takes_n) = match word >> 27 {
            ADD => (false, false),
            ADDC => (false, true),
            SUB => (true, false),
            SUBC => (true, true),
            _ => return None,
        };
        let low = word & 0xffff;
        let signed = i32::from(low as u16 as i16) as u32;
        let immediate =
            |mark: usize, wide: u32| Operand::Immediate(mark, if width == 32 { wide } else { low & ((1 << width) - 1) });
        let operand = match word >> 23 & 0b111 {
            0b000 => Operand::Register(word & 0x7f),
            0b101 => immediate(SIGNED, signed),
            0b110 => immediate(UNSIGNED, low),
            0b111 => immediate(SHIFTED, low << 16),
            _ => return None,
        };
        Some(Operation { subtracts, takes_n, keeps: word >> 26 & 1 == 1, destination: word >> 16 & 0x7f, operand })
    }

    pub fn name(&self) -> &'static str {
        [["ADD", "ADDC"], ["SUB", "SUBC"]][usize::from(self.subtracts)][usize::from(self.takes_n)]
    }

    /// What %d holds, and what the second operand is, in the registers of a bank.
    pub fn result(&self, bank: &[u32]) -> u32 {
        bank[self.destination as usize]
    }

    pub fn second(&self, bank: &[u32]) -> u32 {
        match self.operand {
            Operand::Register(source) => bank[source as usize],
            Operand::Immediate(_, word) => word,
        }
    }

    fn reads(&self, register: u32) -> bool {
        self.operand == Operand::Register(register)
    }
}

/// The registers from the active bank's first on.
pub fn bank<'a>(machine: &[u32], registers: &'a [u32]) -> &'a [u32] {
    &registers[machine[WP] as usize..]
}

/// Why nothing is claimed of two steps in a row of which the second takes N; None where the claim speaks of them.
fn aside(first: &Operation, second: &Operation) -> Option<Aside> {
    let same = (second.destination == first.destination, second.reads(first.destination));
    match same {
        _ if first.keeps => Some(Aside::FirstKeeps),
        (true, true) => Some(Aside::Both),
        (true, false) => Some(Aside::Destination),
        (false, true) => Some(Aside::Source),
        (false, false) => None,
    }
}

/// The sum of two numbers below `limit` modulo it, and its carry; or their difference and its borrow.
fn exact(subtracts: bool, x: u128, y: u128, limit: u128) -> (u128, bool) {
    if subtracts {
        ((limit + x - y) % limit, x < y)
    } else {
        ((x + y) % limit, x + y >= limit)
    }
}

/// A number of many words as its bytes, the lowest first.
fn bytes(words: impl Iterator<Item = u32>, width: u32) -> Vec<u8> {
    words.flat_map(|word| word.to_le_bytes().into_iter().take(width as usize / 8)).collect()
}

/// The sum of two numbers of as many bytes, in as many, and its carry.
fn sum(a: &[u8], b: &[u8]) -> (Vec<u8>, bool) {
    let mut carry = 0;
    let add = |(a, b): (&u8, &u8)| {
        let digit = u16::from(*a) + u16::from(*b) + carry;
        carry = digit >> 8;
        digit as u8
    };
    let sum = a.iter().zip(b).map(add).collect();
    (sum, carry == 1)
}

/// A step of one of the four: in a run or not, and N and the bank before it.
struct Done {
    operation: Operation,
    in_run: bool,
    n: u32,
    bank: Vec<u32>,
}

/// ADD, ADDC, ADDC and so on, or SUB and SUBC, that were carried out in a row: all update the flags, each %d is another, and none reads an
/// earlier %d. The bank is as it was before the first.
struct Chain {
    operations: Vec<Operation>,
    bank: Vec<u32>,
    carry: bool,
}

impl Chain {
    fn goes_on(&self, next: &Operation) -> bool {
        let apart = |earlier: &Operation| earlier.destination != next.destination && !next.reads(earlier.destination);
        next.takes_n && !next.keeps && self.operations.iter().all(|earlier| earlier.subtracts == next.subtracts && apart(earlier))
    }

    /// How the words and N that are left are not the sum or difference and its carry; None where they are. What is left of a difference and
    /// the second number make the first, and it has a borrow where the first is less.
    fn broken(&mut self, bank: &[u32], n: u32, width: u32) -> Option<String> {
        let of = |word: &dyn Fn(&Operation) -> u32| bytes(self.operations.iter().map(word), width);
        let (x, y, left) = (of(&|o| o.result(&self.bank)), of(&|o| o.second(&self.bank)), of(&|o| o.result(bank)));
        let subtracts = self.operations[0].subtracts;
        let (right, carry) = if subtracts {
            (sum(&left, &y).0 == x, x.iter().rev().lt(y.iter().rev()))
        } else {
            let (whole, carry) = sum(&x, &y);
            (left == whole, carry)
        };
        self.carry = carry;
        let wrong = !right || n != u32::from(carry);
        wrong.then(|| {
            let (name, words) = (self.operations[0].name(), self.operations.len());
            format!("a chain of {words} words, {name} first: {x:x?} and {y:x?}, lowest byte first, leave {left:x?} and N {n}")
        })
    }
}

/// A list of calls, step by step.
struct Walk<'a> {
    image: &'a [u32],
    width: u32,
    /// The last step, where it was one of the four; and the one before it, where that was ADD or SUB.
    last: Option<Done>,
    older: Option<Operation>,
    chain: Option<Chain>,
    seen: SumsSeen,
    broken: Option<String>,
}

impl<'a> Walk<'a> {
    fn new(config: &[u32], image: &'a [u32], seen: SumsSeen) -> Walk<'a> {
        let width = config.get(REG_WIDTH).copied().unwrap_or(0);
        Walk { image, width, last: None, older: None, chain: None, seen, broken: None }
    }

    fn of(&mut self, subtracts: bool) -> &mut OfKind {
        let place = WIDTHS.iter().position(|&width| width == self.width).expect("a width at which a step was carried out");
        &mut self.seen.of[place][usize::from(subtracts)]
    }

    /// Tests the claim on an ADD or SUB and an ADDC or SUBC straight after it.
    fn pair(&mut self, one: &Done, second: &Operation, in_run: bool, before: Moment, after: Moment) {
        let (first, width, of) = (&one.operation, self.width, self.of(second.subtracts));
        if first.subtracts != second.subtracts {
            of.crossed += 1;
            return;
        }
        if let Some(why) = aside(first, second) {
            of.aside[why as usize] += 1;
            return;
        }
        let two = |high: u32, low: u32| u128::from(high) << width | u128::from(low);
        let x = two(second.result(&one.bank), first.result(&one.bank));
        let y = two(second.second(&one.bank), first.second(&one.bank));
        let now = bank(after.machine, after.registers);
        let (left, n) = (two(second.result(now), first.result(now)), after.machine[N]);
        let (whole, carry) = exact(second.subtracts, x, y, 1 << (2 * width));
        let (limit, as_left) = (1 << width, before.machine[N]);
        let (_, low_carry) = exact(second.subtracts, x % limit, y % limit, limit);
        let claimed_n = if second.keeps { as_left } else { u32::from(carry) };

        of.carries[usize::from(low_carry)][usize::from(carry)] += 1;
        of.kept[usize::from(as_left != u32::from(carry))] += u64::from(second.keeps);
        for (operation, marks) in [first, second].into_iter().zip(&mut of.immediates) {
            if let Operand::Immediate(mark, _) = operation.operand {
                marks[mark] += 1;
            }
        }
        let one_source = matches!(first.operand, Operand::Register(_)) && first.operand == second.operand;
        let own = [first, second].map(|operation| operation.reads(operation.destination));
        let alike = [one_source, own[0], own[1], first.reads(second.destination)];
        let seen = &mut self.seen;
        seen.alike.iter_mut().zip(alike).for_each(|(count, alike)| *count += u64::from(alike));
        seen.made[if one.in_run == in_run { usize::from(in_run) } else { BY_EACH }] += 1;
        seen.before[one.n as usize] += 1;
        seen.other_z += u64::from(after.machine[Z] != u32::from(whole == 0));
        if (left, n) != (whole, claimed_n) && self.broken.is_none() {
            let (pc, sign) = (before.machine[PC], if second.subtracts { '-' } else { '+' });
            self.broken = Some(format!(
                "K8: the {} at {pc:x}, after {}, leaves {left:x} and N {n}, and the claim at W {width} is {x:x} {sign} {y:x} = {whole:x}, N \
                 {claimed_n}",
                second.name(),
                first.name()
            ));
        }
    }

    /// Lengthens the chain and tests it, or begins another.
    fn chain(&mut self, operation: Option<Operation>, before: Moment, after: Moment) {
        let (width, pc) = (self.width, before.machine[PC]);
        let next = operation.filter(|next| self.chain.as_ref().is_some_and(|chain| chain.goes_on(next)));
        if let (Some(chain), Some(next)) = (&mut self.chain, next) {
            chain.operations.push(next);
            let wrong = chain.broken(bank(after.machine, after.registers), after.machine[N], width);
            self.broken = self.broken.take().or(wrong.map(|how| format!("K8: the {} at {pc:x}: {how}", next.name())));
            return;
        }
        self.end_chain();
        let begins = operation.filter(|first| !first.takes_n && !first.keeps);
        let bank = || bank(before.machine, before.registers).to_vec();
        self.chain = begins.map(|first| Chain { operations: vec![first], bank: bank(), carry: false });
    }

    fn end_chain(&mut self) {
        if let Some(Chain { operations, carry, .. }) = self.chain.take() {
            self.of(operations[0].subtracts).note_chain(operations.len(), carry);
        }
    }
}

impl runs::Walk for Walk<'_> {
    fn step(&mut self, in_run: bool, before: Moment, after: Moment) {
        let word = self.image[before.machine[PC] as usize];
        let (last, operation) = (self.last.take(), Operation::of(word, self.width));
        if let Some(second) = operation.filter(|second| second.takes_n) {
            match &last {
                Some(first) if !first.operation.takes_n => self.pair(first, &second, in_run, before, after),
                None if self.older.is_some_and(|older| older.subtracts == second.subtracts) => {
                    self.of(second.subtracts).between += 1
                }
                _ => {}
            }
        }
        self.chain(operation, before, after);
        self.older = last.map(|last| last.operation).filter(|older| !older.takes_n);
        let bank = || bank(before.machine, before.registers).to_vec();
        self.last = operation.map(|operation| Done { operation, in_run, n: before.machine[N], bank: bank() });
    }

    fn broken(&mut self) -> Option<String> {
        self.broken.take()
    }
}

fn broken(library: &dyn Calls, input: &Input) -> Option<String> {
    let (config, image) = (input.arguments[0].value.words(), input.arguments[1].value.words());
    runs::broken(Walk::new(config, image, SumsSeen::default()), library, input)
}

/// A list of calls from what `lists` hold.
fn list(pair: &mut Pair, r: &mut Random, config: &[u32], lists: &mut Lists) -> Result<(), String> {
    let image = lists.image.clone();
    let mut walk = Walk::new(config, &image, pair.sums);
    runs::list(pair, r, config, lists, &mut walk, broken)?;
    walk.end_chain();
    pair.sums = walk.seen;
    Ok(())
}

pub fn case(pair: &mut Pair, r: &mut Random) -> Result<(), String> {
    let config = sums::config(r);
    let c = Config::lawful_from_words(&config).expect("a lawful configuration");
    let image = sums::program(r, &c);
    let mut lists = runs::lists(r, &c, image);
    pair.sums.programs += 1;
    for _ in 0..3 {
        sums::plant(r, &c, &mut lists.registers);
        lists.machine = sums::machine(r, &c, &lists);
        list(pair, r, &config, &mut lists)?;
    }
    Ok(())
}
