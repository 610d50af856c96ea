//! K6: programs that switch contexts, under lists of step and run calls, and its claim on the library's own answers: wherever a RETWP is
//! carried out while WP has the value that an earlier JSRWP set and that bank's register zero holds what it stored there, PC is the call's
//! address plus one, and WP, N, Z and the interrupt mask are as before the call.

use crate::calls::Calls;
use crate::compare::Pair;
use crate::generate::contexts;
use crate::generate::states::Lists;
use crate::inputs::Input;
use crate::model::config::Config;
use crate::random::Random;
use crate::runs::{self, Moment};

/// The places of a configuration and of a machine record that are looked at.
const REG_SIZE: usize = 2;
const PC: usize = 0;
const WP: usize = 1;
const N: usize = 4;
const Z: usize = 5;
const MASK: usize = 8;
const RETWP: u32 = 0xf001_0000;
const REG_SIZES: [u32; 5] = [8, 16, 32, 64, 128];

fn is_jsrwp(word: u32) -> bool {
    word >> 23 == 0b1_1110_0010
}

/// What a context is made of, in a machine record.
#[derive(Clone, Copy, Debug, PartialEq, Eq)]
struct Context {
    pc: u32,
    wp: u32,
    n: u32,
    z: u32,
    mask: u32,
}

impl Context {
    fn of(machine: &[u32]) -> Context {
        Context { pc: machine[PC], wp: machine[WP], n: machine[N], z: machine[Z], mask: machine[MASK] }
    }
}

/// What the lists of calls came to. A pair is a RETWP that was carried out and a JSRWP that was, earlier in the same list.
#[derive(Clone, Copy, Debug, Default)]
pub struct ContextsSeen {
    pub programs: u64,
    pub switches: u64,
    pub returns: u64,
    pub pairs: u64,
    /// Pairs that meet the claim's premises, by a step and by a run that made the RETWP.
    pub met: [u64; 2],
    /// Of them, those with another JSRWP between the two.
    pub nested: u64,
    /// Of them, those with a JSRWP between the two whose %00 is another register of the bank, or of whose bank the %00 is another register.
    pub overlapping: [u64; 2],
    /// Of them, those where N, Z or the mask was another one just before the RETWP than before the call.
    pub changed: [u64; 3],
    /// Of them, those whose JSRWP stands in the image's last word, and those of each of `REG_SIZES`.
    pub last_word: u64,
    pub sizes: [u64; REG_SIZES.len()],
    /// Of them, those that a model with a private stack would break, since another JSRWP is the newest that has not been returned from.
    pub not_newest: u64,
    /// Pairs that do not: another word in register zero, another WP.
    pub other_zero: u64,
    pub other_bank: u64,
    /// RETWP that went elsewhere than such a model would: since register zero was overwritten, and since another bank was active than the
    /// newest JSRWP set; and those of both that went to another WP.
    pub astray: [u64; 2],
    pub astray_bank: u64,
    /// RETWP that 12 stopped, where such a model would have returned.
    pub stopped: u64,
}

impl ContextsSeen {
    /// Whether everything that is counted was met.
    pub fn all_met(&self) -> bool {
        let ContextsSeen { programs, switches, returns, pairs, met, nested, overlapping, .. } = *self;
        let ContextsSeen { changed, last_word, sizes, not_newest, other_zero, other_bank, astray, astray_bank, stopped, .. } =
            *self;
        let single =
            [programs, switches, returns, pairs, nested, last_word, not_newest, other_zero, other_bank, astray_bank, stopped];
        let lists = met.iter().chain(&overlapping).chain(&changed).chain(&sizes).chain(&astray);
        single.iter().chain(lists).all(|&count| count > 0)
    }

    pub fn print(&self) {
        let each = |counts: &[u64]| counts.iter().map(u64::to_string).collect::<Vec<_>>().join("/");
        let ContextsSeen { programs, switches, returns, pairs, nested, last_word, not_newest, .. } = self;
        let [by_step, by_run] = self.met;
        let [above, below] = self.overlapping;
        let [n, z, mask] = self.changed;
        let [overwritten, elsewhere] = self.astray;
        println!(
            "K6: {programs} programs, {switches} JSRWP and {returns} RETWP carried out; {} of {pairs} pairs came back as claimed, {by_step} by a \
             step and {by_run} in a run: {nested} with another JSRWP between, {above} and {below} with a bank that overlaps from above and from \
             below, {n} with N changed, {z} with Z, {mask} with the mask, {last_word} from the last word, {} at REG_SIZE {}, {not_newest} where \
             a private stack would break the claim",
            by_step + by_run,
            each(&self.sizes),
            each(&REG_SIZES.map(u64::from))
        );
        println!(
            "  nothing claimed: {} with another register zero, {} with another WP; a private stack would return elsewhere: {overwritten} with \
             register zero overwritten, {elsewhere} in another bank, {} of them to another WP, and {} where 12 stops",
            self.other_zero, self.other_bank, self.astray_bank, self.stopped
        );
    }
}

/// A JSRWP that was carried out.
struct Switch {
    /// Before it.
    before: Context,
    /// The workspace pointer that it set, and what that bank's register zero held after it.
    wp: u32,
    stored: u32,
    /// Whether a JSRWP since then was into a bank that overlaps from above, or from below.
    overlapped: [bool; 2],
}

/// A list of calls, step by step.
struct Walk<'a> {
    image: &'a [u32],
    reg_size: u32,
    switches: Vec<Switch>,
    /// Those of `switches` that a private stack would hold.
    unreturned: Vec<usize>,
    seen: ContextsSeen,
    broken: Option<String>,
}

impl<'a> Walk<'a> {
    fn new(config: &[u32], image: &'a [u32], seen: ContextsSeen) -> Walk<'a> {
        let reg_size = config.get(REG_SIZE).copied().unwrap_or(0);
        Walk { image, reg_size, switches: Vec::new(), unreturned: Vec::new(), seen, broken: None }
    }

    fn switch(&mut self, before: Context, wp: u32, stored: u32) {
        self.seen.switches += 1;
        for earlier in &mut self.switches {
            earlier.overlapped[0] |= (earlier.wp + 1..earlier.wp + self.reg_size).contains(&wp);
            earlier.overlapped[1] |= (wp + 1..wp + self.reg_size).contains(&earlier.wp);
        }
        self.unreturned.push(self.switches.len());
        self.switches.push(Switch { before, wp, stored, overlapped: [false; 2] });
    }

    /// Tests the claim against every JSRWP so far. `zero` is what register zero held before the RETWP.
    fn returns(&mut self, in_run: bool, from: Context, zero: u32, to: Context) {
        let (seen, newest) = (&mut self.seen, self.unreturned.pop().map(|newest| &self.switches[newest]));
        let by_stack = newest.map_or((to.pc, to.wp), |newest| (newest.before.pc + 1, newest.before.wp));
        seen.returns += 1;
        for (place, Switch { before, wp, stored, overlapped }) in self.switches.iter().enumerate() {
            seen.pairs += 1;
            if *wp != from.wp {
                seen.other_bank += 1;
                continue;
            }
            if *stored != zero {
                seen.other_zero += 1;
                continue;
            }
            let claimed = Context { pc: before.pc + 1, ..*before };
            let changed = [from.n != before.n, from.z != before.z, from.mask != before.mask];
            seen.met[usize::from(in_run)] += 1;
            seen.nested += u64::from(place + 1 < self.switches.len());
            seen.last_word += u64::from(claimed.pc as usize == self.image.len());
            seen.sizes.iter_mut().zip(REG_SIZES).for_each(|(count, size)| *count += u64::from(size == self.reg_size));
            seen.not_newest += u64::from((claimed.pc, claimed.wp) != by_stack);
            seen.overlapping.iter_mut().zip(overlapped).for_each(|(count, overlapped)| *count += u64::from(*overlapped));
            seen.changed.iter_mut().zip(changed).for_each(|(count, changed)| *count += u64::from(changed));
            if to != claimed && self.broken.is_none() {
                self.broken = Some(format!(
                    "K6: the RETWP at {:x} comes back to {to:x?}, and the claim for the JSRWP at {:x}, which stored {stored:08x}, is {claimed:x?}",
                    from.pc, before.pc
                ));
            }
        }
        if let Some(newest) = newest.filter(|_| (to.pc, to.wp) != by_stack) {
            seen.astray[usize::from(from.wp != newest.wp)] += 1;
            seen.astray_bank += u64::from(to.wp != newest.before.wp);
        }
    }
}

impl runs::Walk for Walk<'_> {
    fn step(&mut self, in_run: bool, before: Moment, after: Moment) {
        let (from, to) = (Context::of(before.machine), Context::of(after.machine));
        let word = self.image[from.pc as usize];
        if is_jsrwp(word) {
            self.switch(from, to.wp, after.registers[to.wp as usize]);
        } else if word == RETWP {
            self.returns(in_run, from, before.registers[from.wp as usize], to);
        }
    }

    fn broken(&mut self) -> Option<String> {
        self.broken.take()
    }
}

fn broken(library: &dyn Calls, input: &Input) -> Option<String> {
    let (config, image) = (input.arguments[0].value.words(), input.arguments[1].value.words());
    runs::broken(Walk::new(config, image, ContextsSeen::default()), library, input)
}

/// A list of calls from what `lists` hold.
fn list(pair: &mut Pair, r: &mut Random, config: &[u32], lists: &mut Lists) -> Result<(), String> {
    let image = lists.image.clone();
    let mut walk = Walk::new(config, &image, pair.contexts);
    let number = runs::list(pair, r, config, lists, &mut walk, broken)?;
    let at_return = image.get(lists.machine[PC] as usize) == Some(&RETWP);
    walk.seen.stopped += u64::from(number == 12 && at_return && !walk.unreturned.is_empty());
    pair.contexts = walk.seen;
    Ok(())
}

pub fn case(pair: &mut Pair, r: &mut Random) -> Result<(), String> {
    let config = contexts::config(r);
    let c = Config::lawful_from_words(&config).expect("a lawful configuration");
    let program = contexts::program(r, &c);
    let mut lists = runs::lists(r, &c, program.image.clone());
    contexts::plant(r, &c, &program, &mut lists.registers);
    pair.contexts.programs += 1;
    for _ in 0..3 {
        lists.machine = contexts::machine(r, &c, &program, &lists);
        list(pair, r, &config, &mut lists)?;
    }
    Ok(())
}
