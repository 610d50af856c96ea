//! A traced run: a line for each step that was carried out (docs/commands.md, 'yam trace').

use super::config::Config;
use super::listing;
use super::machine::{Env, Lists, Machine};
use super::report::{address, cell, hex, record, register_name};
use super::step::{step, Ran};

const DATA_DIGITS: usize = 4;

/// The cells that hold another value than before, by their places.
fn changed<'a>(before: &'a [u32], after: &'a [u32]) -> impl Iterator<Item = (usize, u32)> + 'a {
    let cells = before.iter().zip(after).enumerate();
    cells.filter(|(_, (before, after))| before != after).map(|(place, (_, &after))| (place, after))
}

/// What a step changed, each as name, `=` and value; PC is left out.
fn changes(c: &Config, old: &State, m: &Machine, lists: &Lists) -> Vec<String> {
    let mut list = Vec::new();
    let values = record(c, &old.machine).into_iter().zip(record(c, m));
    for ((name, before), (_, after)) in values.filter(|((name, _), _)| *name != "PC") {
        if before != after {
            list.push(format!("{name}={after}"));
        }
    }
    for &pushed in m.stack.iter().take(m.depth as usize).skip(old.machine.depth as usize) {
        list.push(format!("stack={}", address(pushed)));
    }
    for (place, value) in changed(&old.registers, lists.registers) {
        list.push(format!("{}={}", register_name(c, place), cell(c, value)));
    }
    for (place, value) in changed(&old.memory, lists.memory) {
        list.push(format!("&{}={}", hex(place as u32, DATA_DIGITS), cell(c, value)));
    }
    for place in old.machine.log_position as usize..m.log_position as usize {
        list.push(format!("log={}:{}", cell(c, lists.log_addresses[place]), cell(c, lists.log_values[place])));
    }
    list
}

/// What a step may change, as it was before it.
struct State {
    machine: Machine,
    registers: Vec<u32>,
    memory: Vec<u32>,
}

/// A run of at most so many steps, and its lines.
pub fn traced(env: &Env, m: &mut Machine, lists: &mut Lists, budget: u64) -> (Ran, String) {
    let (mut ran, mut text) = (Ran::default(), String::new());
    while ran.steps < budget {
        let old = State { machine: m.clone(), registers: lists.registers.to_vec(), memory: lists.memory.to_vec() };
        match step(env, m, lists) {
            Err(number) => {
                ran.number = number;
                break;
            }
            Ok(cycles) => {
                ran.steps += 1;
                ran.cycles += cycles;
            }
        }
        let at = old.machine.pc as usize;
        let line = listing::line(env.config, at, env.image[at]);
        let changes: String = changes(env.config, &old, m, lists).iter().map(|change| format!(" {change}")).collect();
        text += &format!("{} {} {} ;{changes}\n", ran.steps, ran.cycles, line.trim_end_matches('\n'));
    }
    (ran, text)
}
