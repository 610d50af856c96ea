//! Demand 3: a program that passes the check, under a list of step and run calls from reset.

use crate::compare::Pair;
use crate::generate::configs::{self, Size};
use crate::generate::programs;
use crate::generate::states;
use crate::model::config::Config;
use crate::model::step;
use crate::random::Random;
use crate::runs;

/// What a step may answer; a run of too many steps also 16.
pub const POSSIBLE: [u32; 5] = [0, 13, 14, 15, 27];

/// Where a machine record says how many addresses the return stack holds.
const DEPTH: usize = 7;

/// What the cases came to.
#[derive(Clone, Copy, Debug, Default)]
pub struct DemandSeen {
    /// Programs that passed the check, and of them those whose stack reached the level at address 0, where that is above 0.
    pub programs: u64,
    pub reached: u64,
    /// Calls and steps in them.
    pub calls: u64,
    pub steps: u64,
    /// How often a step and a run answered each of the numbers that are possible.
    pub answered: [[u64; POSSIBLE.len()]; 2],
    /// MOVX that were carried out, each after an LDYX, since the lists start at reset (K4).
    pub movx: u64,
}

impl DemandSeen {
    /// Whether everything that is counted was met.
    pub fn all_met(&self) -> bool {
        let DemandSeen { programs, reached, calls, steps, answered, movx } = *self;
        [programs, reached, calls, steps, movx].iter().chain(answered.as_flattened()).all(|&count| count > 0)
    }
}

pub fn case(pair: &mut Pair, r: &mut Random) -> Result<(), String> {
    let config = configs::lawful(r, Size::Small);
    let c = Config::from_words(&config).expect("nineteen words");
    let mut program = programs::passing(r, &c);
    if r.chance(50) {
        programs::add_indexes(r, &c, &mut program);
    }
    if r.chance(20) {
        programs::damage(r, &c, &mut program);
    }
    let (number, answers) = pair.check(&config, &program.image, &program.sheet, &[0; 2])?;
    if number != 0 {
        return Ok(());
    }
    let level = answers[0];
    let mut lists = states::lists(r, &c, program.image.clone());
    let mut deepest = 0;
    pair.demand.programs += 1;
    let movx_before = pair.seen.indexes.carried_out();
    for _ in 0..r.from_to(2, 12) {
        let budget = r.chance(60).then(|| states::budget(r));
        let before = lists.clone();
        let within = budget.filter(|&budget| budget <= step::BUDGET_LIMIT);
        let (advanced, stepped) = match within {
            Some(budget) => runs::run(pair, &config, &mut lists, budget).map(|(advanced, stepped)| (advanced, Some(stepped)))?,
            None => (pair.advance(&config, &mut lists, budget, &[0; 2])?, None),
        };
        let number = advanced.number;
        let told = || format!("config {config:?}, sheet {:?}, budget {budget:?}, {before:?}", program.sheet);
        let too_many = budget.is_some_and(|budget| budget > step::BUDGET_LIMIT);
        if too_many != (number == 16) || !(too_many || POSSIBLE.contains(&number)) {
            return Err(format!("demand 3: a call answers {number}\n  given: {}", told()));
        }
        if let Some(place) = POSSIBLE.iter().position(|&possible| possible == number) {
            pair.demand.answered[usize::from(budget.is_some())][place] += 1;
        }
        let held = stepped.as_ref().map_or(0, |stepped| stepped.deepest).max(lists.machine[DEPTH]);
        if u64::from(held) > level {
            return Err(format!("demand 3: the stack holds {held}, the level at 0 is {level}\n  given: {}", told()));
        }
        deepest = deepest.max(u64::from(held));
        pair.demand.calls += 1;
        pair.demand.steps += stepped.as_ref().map_or(u64::from(number == 0), |stepped| stepped.steps);
        if stepped.is_some_and(|stepped| !(2 * stepped.steps..=3 * stepped.steps).contains(&stepped.cycles)) {
            return Err(format!("demand 2: the cycles do not lie between 2 and 3 times the steps\n  given: {}", told()));
        }
    }
    pair.demand.movx += pair.seen.indexes.carried_out() - movx_before;
    pair.demand.reached += u64::from(level > 0 && deepest == level);
    Ok(())
}
