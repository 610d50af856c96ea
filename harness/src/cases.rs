//! Cases by their subject. Each is made from a seed alone, so that it can be made again.

use crate::compare::Pair;
use crate::generate::configs::{self, Size};
use crate::generate::{files, programs, states, words};
use crate::model::config::Config;
use crate::model::words::assemble;
use crate::random::Random;
use crate::{runs, texts};

/// A subject: its name, how often it comes in a round, and its case.
pub struct Subject {
    pub name: &'static str,
    pub weight: u32,
    pub case: fn(&mut Pair, &mut Random) -> Result<(), String>,
}

pub const SUBJECTS: [Subject; 18] = [
    Subject { name: "configs", weight: 30, case: configs_case },
    Subject { name: "words", weight: 60, case: words_case },
    Subject { name: "sweep", weight: 1, case: sweep_case },
    Subject { name: "states", weight: 60, case: states_case },
    Subject { name: "sheets", weight: 60, case: sheets_case },
    Subject { name: "listings", weight: 30, case: listings_case },
    Subject { name: "files", weight: 20, case: files_case },
    Subject { name: "demand", weight: 60, case: crate::demand::case },
    Subject { name: "reset", weight: 2, case: reset_case },
    Subject { name: "long", weight: 1, case: long_case },
    Subject { name: "far_runs", weight: 8, case: runs::far_case },
    Subject { name: "near_runs", weight: 30, case: runs::near_case },
    Subject { name: "any_runs", weight: 30, case: runs::any_case },
    Subject { name: "contexts", weight: 20, case: crate::contexts::case },
    Subject { name: "sums", weight: 20, case: crate::sums::case },
    Subject { name: "texts", weight: 70, case: texts::short_case },
    Subject { name: "long_texts", weight: 4, case: texts::long_case },
    Subject { name: "read_back", weight: 20, case: texts::back_case },
];

const MARK: u64 = 0x0123_4567_89ab_cdef;

/// A lent list of answers, mostly as long as it should be.
pub fn answers(r: &mut Random, count: usize) -> Vec<u64> {
    let length = if r.chance(92) { count } else { r.below(4) as usize };
    vec![MARK; length]
}

/// A configuration for a call and the lawful one it was made from.
pub fn config(r: &mut Random, damaged: u32) -> (Vec<u32>, Config) {
    let mut words = configs::lawful(r, Size::Small);
    let lawful = Config::from_words(&words).expect("nineteen words");
    if r.chance(damaged) {
        configs::damage(r, &mut words);
    }
    (words, lawful)
}

/// Lawful configurations damaged in a field or two, given to the call that looks at nothing else.
fn configs_case(pair: &mut Pair, r: &mut Random) -> Result<(), String> {
    let size = if r.chance(50) { Size::Small } else { Size::Large };
    let lawful = configs::lawful(r, size);
    let ret = 0xf000_0000;
    if pair.read(&lawful, ret, &[0; 6])?.0 != 0 {
        return Err(format!("RET cannot be read under {lawful:?}"));
    }
    for _ in 0..16 {
        let mut damaged = lawful.clone();
        configs::damage(r, &mut damaged);
        pair.read(&damaged, ret, &[0; 6])?;
    }
    Ok(())
}

fn words_case(pair: &mut Pair, r: &mut Random) -> Result<(), String> {
    let (config, lawful) = config(r, 12);
    for _ in 0..12 {
        let word = words::any(r, &lawful);
        let length = if r.chance(96) { 6 } else { r.below(9) as usize };
        let (number, parts) = pair.read(&config, word, &vec![0xfefe_fefe; length])?;
        let page = vec![b'.'; r.pick(&[0, 5, 12, 16, 17, 20, 40, 40, 40, 40, 40])];
        let place = match r.below(10) {
            0 => r.wide(),
            1 => page.len() as u64,
            2 => u64::MAX - u64::from(r.below(8)),
            _ => u64::from(r.below(6)),
        };
        let lent = answers(r, 1);
        pair.text(&config, word, &page, place, &lent)?;
        if number == 0 {
            let (number, back) = pair.write(&config, &parts, &[MARK])?;
            if (number, back) != (0, u64::from(word)) {
                return Err(format!("writing {parts:?}, read from {word:08x}, gives {back:08x} and {number}"));
            }
        }
        let parts = words::parts(r, &lawful);
        let lent = answers(r, 1);
        let (number, word) = pair.write(&config, &parts, &lent)?;
        if number == 0 && lent.len() == 1 {
            let (number, back) = pair.read(&config, word as u32, &[0; 6])?;
            if number != 0 || back != parts {
                return Err(format!("reading {word:08x}, written from {parts:?}, gives {back:?} and {number}"));
            }
        }
    }
    Ok(())
}

/// Sixteen values of bits 31 to 23 under one configuration: no lower bit set, each of them alone, and the codes 00 to 1F in 15-8.
fn sweep_case(pair: &mut Pair, r: &mut Random) -> Result<(), String> {
    let (config, _) = config(r, 0);
    let from = 16 * r.below(32);
    for top in from..from + 16 {
        let alone = (0..23).map(|bit| 1 << bit);
        let codes = (0..32).map(|code| code << 8);
        for low in std::iter::once(0).chain(alone).chain(codes) {
            pair.read(&config, top << 23 | low, &[0; 6])?;
        }
    }
    Ok(())
}

fn reset_case(pair: &mut Pair, r: &mut Random) -> Result<(), String> {
    let length = if r.chance(60) { 100 } else { r.below(130) as usize };
    let machine: Vec<u32> = (0..length).map(|_| r.word()).collect();
    pair.reset(&machine).map(|_| ())
}

/// An image for random steps: words that mostly can be read.
fn image(r: &mut Random, c: &Config, special: bool) -> Vec<u32> {
    (0..c.im_size)
        .map(|_| match r.below(10) {
            _ if special && r.chance(60) => words::special(r, c),
            0 | 1 => words::any(r, c),
            2 if r.chance(50) => assemble(&words::edge(r, c)),
            _ => words::readable(r, c),
        })
        .collect()
}

fn states_case(pair: &mut Pair, r: &mut Random) -> Result<(), String> {
    let (config, lawful) = config(r, 5);
    let special = r.chance(12);
    let words = image(r, &lawful, special);
    let mut lists = states::lists(r, &lawful, words);
    for _ in 0..16 {
        lists.machine = states::machine(r, &lawful, &lists);
        if special && r.chance(70) {
            lists.machine[10] = 1;
        }
        if r.chance(12) {
            let mut damaged = lists.clone();
            for _ in 0..r.from_to(1, 2) {
                states::damage(r, &mut damaged);
            }
            let (budget, lent) = (r.chance(50).then(|| states::budget(r)), answers(r, 2));
            pair.advance(&config, &mut damaged, budget, &lent)?;
            continue;
        }
        // A few calls, each from what the last one left.
        for _ in 0..r.from_to(1, 8) {
            let budget = r.chance(25).then(|| states::budget(r));
            let lent = answers(r, if budget.is_some() { 2 } else { 1 });
            if pair.advance(&config, &mut lists, budget, &lent)?.number != 0 {
                break;
            }
        }
    }
    Ok(())
}

fn sheets_case(pair: &mut Pair, r: &mut Random) -> Result<(), String> {
    let (config, lawful) = config(r, 6);
    let tiny = lawful.im_size <= 6 && r.chance(60);
    let whole = if tiny { programs::tiny(r, &lawful) } else { programs::passing(r, &lawful) };
    let lent = answers(r, 2);
    pair.check(&config, &whole.image, &whole.sheet, &lent)?;
    for _ in 0..12 {
        let mut program = if tiny && r.chance(60) { programs::tiny(r, &lawful) } else { whole.clone() };
        programs::damage(r, &lawful, &mut program);
        let lent = answers(r, 2);
        pair.check(&config, &program.image, &program.sheet, &lent)?;
    }
    Ok(())
}

fn listings_case(pair: &mut Pair, r: &mut Random) -> Result<(), String> {
    let (config, lawful) = config(r, 8);
    let mut words: Vec<u32> = (0..lawful.im_size).map(|_| words::any(r, &lawful)).collect();
    if r.chance(5) {
        words.push(0);
    } else if r.chance(5) {
        words.pop();
    }
    for _ in 0..4 {
        let whole = 40 * lawful.im_size;
        let length = r.pick(&[0, 10, 19, 20, 30, 33, 37, 60, 100, 200, 400, whole, whole, whole]);
        let page = vec![b'.'; length as usize];
        let place = match r.below(8) {
            0 => r.wide(),
            1 => u64::from(length),
            2 => u64::from(length) + 1,
            3 => u64::from(r.below(30)),
            _ => 0,
        };
        let first = match r.below(8) {
            0 => r.wide(),
            1 => u64::from(lawful.im_size),
            2 => u64::from(lawful.im_size) + 1,
            3 => (1 << 32) + u64::from(r.below(3)),
            _ => u64::from(r.below(lawful.im_size)),
        };
        let lent = answers(r, 2);
        pair.list(&config, &words, first, &page, place, &lent)?;
    }
    Ok(())
}

fn files_case(pair: &mut Pair, r: &mut Random) -> Result<(), String> {
    let mut config = configs::lawful(r, Size::Small);
    if r.chance(70) {
        config[0] = r.pick(&[1, 2, 125, 126, 127, 130, 252, 253]);
    }
    let size = config[0] as usize;
    let words: Vec<u32> = (0..size).map(|_| r.word()).collect();
    let whole = files::file(&config, &words);
    for _ in 0..4 {
        let (mut config, mut image, mut file) = (config.clone(), words.clone(), vec![b'.'; whole.len()]);
        match r.below(8) {
            0 => configs::damage(r, &mut config),
            1 => image.push(1),
            2 => {
                image.pop();
            }
            3 => file.push(0),
            4 => file.truncate(r.below(file.len() as u32) as usize),
            5 => file.resize(file.len() + 512, 0),
            _ => {}
        }
        pair.store(&config, &image, &file)?;
    }
    for _ in 0..8 {
        let mut file = whole.clone();
        if r.chance(85) {
            for _ in 0..r.from_to(1, 2) {
                files::damage(r, &mut file);
            }
        }
        let room = match r.below(8) {
            0 => size - 1,
            1 => r.below(300) as usize,
            2..=4 => size + r.below(5) as usize,
            _ => size,
        };
        let fields = if r.chance(96) { 19 } else { r.below(25) as usize };
        pair.load(&file, &vec![0xa5a5_a5a5; fields], &vec![0x5a5a_5a5a; room])?;
    }
    Ok(())
}

/// The greatest sizes, and runs of up to a million steps.
fn long_case(pair: &mut Pair, r: &mut Random) -> Result<(), String> {
    let config = configs::lawful(r, Size::Large);
    let c = Config::from_words(&config).expect("nineteen words");
    let program = programs::passing(r, &c);
    let mut damaged = program.clone();
    programs::damage(r, &c, &mut damaged);
    pair.check(&config, &program.image, &program.sheet, &[MARK; 2])?;
    pair.check(&config, &damaged.image, &damaged.sheet, &[MARK; 2])?;
    let mut lists = states::lists(r, &c, program.image.clone());
    for _ in 0..3 {
        let budget = if r.chance(10) { 1_000_000 } else { u64::from(r.below(20_000)) };
        pair.advance(&config, &mut lists, Some(budget), &[MARK; 2])?;
        let at_random = states::machine(r, &c, &lists);
        lists.machine = at_random;
        pair.advance(&config, &mut lists, None, &[MARK; 1])?;
    }
    let page = vec![b'.'; r.pick(&[0, 1000, 37 * c.im_size as usize])];
    pair.list(&config, &program.image, u64::from(r.below(c.im_size)), &page, 0, &[MARK; 2])?;
    let mut file = files::file(&config, &program.image);
    pair.store(&config, &program.image, &vec![b'.'; file.len()])?;
    pair.load(&file, &[0; 19], &vec![1; c.im_size as usize + 1])?;
    files::damage(r, &mut file);
    pair.load(&file, &[0; 19], &vec![1; c.im_size as usize])?;
    Ok(())
}
