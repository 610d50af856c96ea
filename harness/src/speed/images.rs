//! Times reading words one by one, and the check, the loader and the listing of whole images.

use super::programs::config;
use super::times::Times;
use crate::c_interface::Plain;
use crate::calls::Calls;
use crate::generate::programs::{self, Program};
use crate::generate::{files, words};
use crate::model::config::Config;
use crate::random::Random;

/// A word at a time, through the library's call and the plain one.
pub fn read_words<L: Calls>(library: &L, rounds: usize) -> Result<Times, String> {
    let config = config(1000, 1024);
    let c = Config::from_words(&config).expect("nineteen words");
    let mut r = Random::new(7);
    let list: Vec<u32> = (0..20_000).map(|_| words::any(&mut r, &c)).collect();
    let mut times = Times::default();
    for _ in 0..rounds {
        let (mut a, mut b) = (0u64, 0u64);
        let sum = |number: u32, parts: &[u32; 6]| u64::from(number) + parts.iter().map(|&p| u64::from(p)).sum::<u64>();
        times.round(
            list.len() as f64,
            &mut || {
                for &word in &list {
                    let mut parts = [0; 6];
                    let number = library.read(&config, word, &mut parts);
                    a += sum(number, &parts);
                }
            },
            &mut || {
                for &word in &list {
                    let mut parts = [0; 6];
                    let number = Plain.read(&config, word, &mut parts);
                    b += sum(number, &parts);
                }
            },
        );
        if a != b {
            return Err("the readers differ".to_string());
        }
    }
    Ok(times)
}

/// A program that passes the check, and its image file.
pub struct Whole {
    pub config: [u32; 19],
    pub program: Program,
    pub file: Vec<u8>,
}

impl Whole {
    pub fn new(size: u32) -> Whole {
        let config = config(size, 1024);
        let c = Config::from_words(&config).expect("nineteen words");
        let program = programs::passing(&mut Random::new(11), &c);
        Whole { config, file: files::file(&config, &program.image), program }
    }

    /// A page for its listing.
    pub fn page(&self) -> Vec<u8> {
        vec![b'.'; 37 * self.program.image.len()]
    }
}

/// The check, the loader and the listing of an image of `size` words, in nanoseconds a word.
pub fn whole_images<L: Calls>(library: &L, size: u32, rounds: usize) -> Result<Vec<(&'static str, Times)>, String> {
    let whole = Whole::new(size);
    let Whole { config, program, file } = &whole;
    let (mut check, mut load, mut list) = (Times::default(), Times::default(), Times::default());
    let units = f64::from(size);
    for _ in 0..rounds {
        let (mut a, mut b) = ((0, [0; 2]), (0, [0; 2]));
        check.round(units, &mut || a.0 = library.check(config, &program.image, &program.sheet, &mut a.1), &mut || {
            b.0 = Plain.check(config, &program.image, &program.sheet, &mut b.1)
        });
        if a != b || a.0 != 0 {
            return Err(format!("the checks answer {a:?} and {b:?}"));
        }
        let (mut a, mut b) = ((9, [0; 19], vec![0; size as usize]), (9, [0; 19], vec![0; size as usize]));
        load.round(units, &mut || a.0 = library.load(file, &mut a.1, &mut a.2), &mut || {
            b.0 = Plain.load(file, &mut b.1, &mut b.2)
        });
        if a != b || a.0 != 0 {
            return Err("the loaders differ".to_string());
        }
        let page = whole.page();
        let (mut a, mut b) = ((9, [0; 2], page.clone()), (9, [0; 2], page));
        list.round(units, &mut || a.0 = library.list(config, &program.image, 0, &mut a.2, 0, &mut a.1), &mut || {
            b.0 = Plain.list(config, &program.image, 0, &mut b.2, 0, &mut b.1)
        });
        if a != b || a.0 != 0 {
            return Err("the listings differ".to_string());
        }
    }
    Ok(vec![("check", check), ("load", load), ("list", list)])
}
