//! Runs beside the model, and beside as many single steps of the library itself.

use crate::calls::{Calls, State};
use crate::cases::config;
use crate::compare::{Advanced, Pair};
use crate::generate::configs::{self, Size};
use crate::generate::spread::spread;
use crate::generate::states::{self, Lists};
use crate::generate::words;
use crate::inputs::{Input, Output, BUDGET, MACHINE};
use crate::model::config::Config;
use crate::model::machine::LOADED_AT;
use crate::model::step::BUDGET_LIMIT;
use crate::random::Random;
use crate::seen::Done;

/// What the runs came to.
#[derive(Clone, Copy, Debug, Default)]
pub struct RunsSeen {
    /// Runs that were made again by single steps, and their steps.
    pub runs: u64,
    pub steps: u64,
    /// Steps into special-register mode, and out of it.
    pub entered: u64,
    pub left: u64,
    /// Runs that stopped by each of `LATE_STOPS` after at least `LATE` steps.
    pub late: [u64; LATE_STOPS.len()],
    /// Runs from a machine that was not loaded in which a MOVX was carried out, after an LDYX of the same run (K4).
    pub loaded: u64,
    /// Steps off the image from its last address.
    pub off_end: u64,
    /// Steps to an address at least 4,096 away, and of them those to one that is nearly alike modulo 512.
    pub leaps: u64,
    pub leaps_alike: u64,
}

pub const LATE: u64 = 50;
const LATE_STOPS: [u32; 4] = [5, 6, 7, 27];
/// How far apart two addresses are that are called far.
const FAR: u32 = 4_096;

impl RunsSeen {
    /// Whether everything that is counted was met.
    pub fn all_met(&self) -> bool {
        let RunsSeen { runs, steps, entered, left, late, loaded, off_end, leaps, leaps_alike } = *self;
        [runs, steps, entered, left, loaded, off_end, leaps, leaps_alike].iter().chain(&late).all(|&count| count > 0)
    }

    /// A step that was carried out, from one record to the next.
    fn note(&mut self, config: &[u32], before: &[u32], after: &[u32]) {
        let (from, to) = (before[PC], after[PC]);
        self.entered += u64::from(before[MODE] < after[MODE]);
        self.left += u64::from(before[MODE] > after[MODE]);
        self.off_end += u64::from(from + 1 == config[0] && to == config[0]);
        self.leaps += u64::from(from.abs_diff(to) >= FAR);
        self.leaps_alike += u64::from(from.abs_diff(to) >= FAR && landed_alike(from, to));
    }
}

/// Whether two addresses lie within a few words of each other modulo 512.
fn landed_alike(a: u32, b: u32) -> bool {
    let apart = a.abs_diff(b) % 512;
    apart.min(512 - apart) < 16
}

/// Budgets at which something in the library might change, beside small ones.
fn budget(r: &mut Random) -> u64 {
    match r.below(3) {
        0 => u64::from(r.from_to(1, 20)),
        1 => r.pick(&[63, 64, 65, 255, 256, 257, 1_000]),
        _ => u64::from(r.below(1_000)),
    }
}

/// A run's steps one by one: the number that ended them, how many, their cycles, the most addresses that the return stack held after any of
/// them, and what they leave.
pub struct Stepped {
    pub number: u32,
    pub steps: u64,
    pub cycles: u64,
    pub deepest: u32,
    left: Lists,
}

/// The words of a machine record that are looked at.
const PC: usize = 0;
const DEPTH: usize = 7;
const MODE: usize = 10;

/// A machine and its registers, before a step or after it.
#[derive(Clone, Copy)]
pub struct Moment<'a> {
    pub machine: &'a [u32],
    pub registers: &'a [u32],
}

/// As many single steps of the library as the run may have; `watch` is shown what was before each that was carried out, and after it.
pub fn single_steps(library: &dyn Calls, input: &Input, mut watch: impl FnMut(Moment, Moment)) -> Stepped {
    let (config, budget) = (input.arguments[0].value.words(), input.arguments[BUDGET].value.number());
    let left = input.lists();
    let mut stepped = Stepped { number: 0, steps: 0, cycles: 0, deepest: 0, left };
    let lists = &mut stepped.left;
    while stepped.steps < budget {
        let (mut answers, machine, registers) = ([0; 1], lists.machine.clone(), lists.registers.clone());
        let state = State {
            machine: &mut lists.machine,
            registers: &mut lists.registers,
            memory: &mut lists.memory,
            log_addresses: &mut lists.log_addresses,
            log_values: &mut lists.log_values,
        };
        stepped.number = library.step(config, &lists.image, &lists.inputs, state, &mut answers);
        if stepped.number != 0 {
            break;
        }
        stepped.steps += 1;
        stepped.cycles += answers[0];
        stepped.deepest = stepped.deepest.max(lists.machine[DEPTH]);
        let before = Moment { machine: &machine, registers: &registers };
        watch(before, Moment { machine: &lists.machine, registers: &lists.registers });
    }
    stepped
}

/// How the library's run, given as its output, is not the library's single steps; None where it is.
fn not_its_steps(input: &Input, ran: &Output, stepped: &Stepped) -> Option<String> {
    let run = Advanced::of(ran);
    if run.number != stepped.number || run.answers != [stepped.steps, stepped.cycles] {
        let told = (run.number, run.answers);
        let one_by_one = (stepped.number, stepped.steps, stepped.cycles);
        return Some(format!("the library's run answers {told:?}, its single steps {one_by_one:?}"));
    }
    let after = Input::advance(input.arguments[0].value.words(), &stepped.left, Some(0), &[]);
    let other = (MACHINE..BUDGET).find(|&place| ran.values[place] != after.arguments[place].value);
    other.map(|place| format!("the library's run leaves another {} than its single steps", input.arguments[place].name))
}

/// A run, compared with the model, and its library side with as many single steps of the library: number, steps, cycles and lists must
/// be the same. `lists` is left as the run leaves it.
pub fn run(pair: &mut Pair, config: &[u32], lists: &mut Lists, budget: u64) -> Result<(Advanced, Stepped), String> {
    watched(pair, config, lists, budget, |_, _| ())
}

/// The same, where `watch` is shown the single steps.
pub fn watched(
    pair: &mut Pair,
    config: &[u32],
    lists: &mut Lists,
    budget: u64,
    mut watch: impl FnMut(Moment, Moment),
) -> Result<(Advanced, Stepped), String> {
    let input = Input::advance(config, lists, Some(budget), &[0; 2]);
    let ran = pair.compare(&input)?;
    let (library, runs, seen) = (pair.library, &mut pair.runs, &mut pair.seen);
    let movx_before = seen.indexes.carried_out();
    let stepped = single_steps(library, &input, |before, after| {
        runs.note(config, before.machine, after.machine);
        seen.note_step(Done::Run, config, &lists.image, before.registers, before.machine, after.machine);
        watch(before, after);
    });
    pair.compared += 1;
    if let Some(said) = not_its_steps(&input, &ran, &stepped) {
        // Where it may do no step, a run can be refused where no step was asked for; and its answers must have room.
        let comparable = |input: &&Input| {
            let [.., budget, answers] = &input.arguments[..] else { return false };
            (1..=BUDGET_LIMIT).contains(&budget.value.number()) && answers.value.wides().len() == 2
        };
        let again = |input: &Input| not_its_steps(input, &input.make(library), &single_steps(library, input, |_, _| ()));
        return Err(pair.tell(&input, said, &|input| Some(input).filter(comparable).and_then(again)));
    }
    let movx_done = pair.seen.indexes.carried_out() > movx_before;
    pair.runs.loaded += u64::from(lists.machine.get(LOADED_AT) == Some(&0) && movx_done);
    pair.runs.runs += 1;
    pair.runs.steps += stepped.steps;
    if let Some(late) = LATE_STOPS.iter().position(|&late| late == stepped.number).filter(|_| stepped.steps >= LATE) {
        pair.runs.late[late] += 1;
    }
    let advanced = Advanced::of(&ran);
    *lists = input.after(ran).lists();
    Ok((advanced, stepped))
}

/// What looks at the steps of a list of calls, in their order, and tests a claim on them.
pub trait Walk {
    /// A step that was carried out, by a step call or in a run.
    fn step(&mut self, in_run: bool, before: Moment, after: Moment);
    /// How the steps so far break the claim; None where they do not.
    fn broken(&mut self) -> Option<String>;
}

/// How a run of the library, made by single steps, breaks the claim of a walk that has seen no step yet; None where it does not.
pub fn broken(mut walk: impl Walk, library: &dyn Calls, input: &Input) -> Option<String> {
    single_steps(library, input, |before, after| walk.step(true, before, after));
    walk.broken()
}

/// A list of step and run calls from what `lists` hold, each compared with the model, until one is stopped: `walk` sees every step. Where it
/// says that the claim is broken, `again` must find that in a run. Answers the last number.
pub fn list(
    pair: &mut Pair,
    r: &mut Random,
    config: &[u32],
    lists: &mut Lists,
    walk: &mut impl Walk,
    again: fn(&dyn Calls, &Input) -> Option<String>,
) -> Result<u32, String> {
    let start = lists.clone();
    let (mut stepping, mut steps) = (0, 0);
    for _ in 0..r.from_to(2, 24) {
        if stepping == 0 && r.chance(30) {
            stepping = r.from_to(1, 30);
        }
        let number = if stepping > 0 {
            stepping -= 1;
            let (machine, registers) = (lists.machine.clone(), lists.registers.clone());
            let number = pair.advance(config, lists, None, &[0; 1])?.number;
            if number == 0 {
                steps += 1;
                let before = Moment { machine: &machine, registers: &registers };
                walk.step(false, before, Moment { machine: &lists.machine, registers: &lists.registers });
            }
            number
        } else {
            let budget = u64::from(r.from_to(1, 60));
            let (ran, stepped) = watched(pair, config, lists, budget, |before, after| walk.step(true, before, after))?;
            steps += stepped.steps;
            ran.number
        };
        if let Some(said) = walk.broken() {
            // A list of calls is one run of all its steps.
            let (library, input) = (pair.library, Input::advance(config, &start, Some(steps), &[0; 2]));
            return Err(pair.tell(&input, said, &|input| again(library, input)));
        }
        if number != 0 {
            return Ok(number);
        }
    }
    Ok(0)
}

/// Lists with inputs and log enough for many steps.
pub fn lists(r: &mut Random, c: &Config, image: Vec<u32>) -> Lists {
    let mut lists = states::lists(r, c, image);
    if r.chance(80) {
        lists.inputs = (0..600).map(|_| r.odd()).collect();
        lists.log_addresses = vec![0; 600];
        lists.log_values = vec![0; 600];
    }
    lists
}

/// Runs of a program that is spread over an image, from reset, from one of its stretches and from where the last one ended.
fn runs(pair: &mut Pair, r: &mut Random, config: &[u32], c: &Config) -> Result<(), String> {
    let program = spread(r, c);
    let mut lists = lists(r, c, program.image);
    for _ in 0..3 {
        if r.chance(60) {
            lists.machine = states::machine(r, c, &lists);
            lists.machine[0] = r.pick(&program.places);
        }
        for _ in 0..r.from_to(1, 3) {
            let budget = budget(r);
            if run(pair, config, &mut lists, budget)?.0.number != 0 {
                break;
            }
        }
    }
    Ok(())
}

/// Images of 32,768 words, or nearly so many, with data memories that are small enough for single steps.
pub fn far_case(pair: &mut Pair, r: &mut Random) -> Result<(), String> {
    let mut config = configs::lawful(r, Size::Small);
    config[0] = r.pick(&[32_768, 32_768, 32_768, 32_767, 8_192, 4_097]);
    let c = Config::lawful_from_words(&config).expect("a lawful configuration");
    runs(pair, r, &config, &c)
}

/// The same in small images, where a run meets the same words many times.
pub fn near_case(pair: &mut Pair, r: &mut Random) -> Result<(), String> {
    let (config, c) = config(r, 0);
    runs(pair, r, &config, &c)
}

/// Short runs in images of any readable words, from machines at random: rows that the other programs leave out, as jumps by register.
pub fn any_case(pair: &mut Pair, r: &mut Random) -> Result<(), String> {
    let (config, c) = config(r, 0);
    let image = (0..c.im_size).map(|_| words::readable(r, &c)).collect();
    let mut lists = lists(r, &c, image);
    for _ in 0..12 {
        lists.machine = states::machine(r, &c, &lists);
        let budget = u64::from(r.from_to(1, 40));
        run(pair, &config, &mut lists, budget)?;
    }
    Ok(())
}
