//! How much stack each call takes (include/yam.h: at most 64 KB): every call in a thread of 128 KB, at the largest sizes, in a process of
//! its own, since a call that takes more than the thread has ends its process.

use crate::calls::{Calls, State};
use crate::generate::programs::{self, Program};
use crate::generate::sources::numbered_label;
use crate::generate::{files, words};
use crate::model::config::{Config, FIXED_FIELDS};
use crate::model::machine::Machine;
use crate::random::Random;
use std::collections::BTreeMap;
use std::ffi::c_void;
use std::process::Command;

/// What yam.h allows a call, and what its thread has.
pub const ALLOWED: usize = 64 * 1024;
const THREAD: usize = 128 * 1024;
const CALLS: usize = 11;

/// The argument with which the program tries every call and prints its bytes, a line each.
pub const INSIDE: &str = "--stack-inside";

extern "C" {
    fn stack_used(size: usize, work: extern "C" fn(*mut c_void), argument: *mut c_void) -> usize;
}

extern "C" fn call_work(work: *mut c_void) {
    // The pointer is the one that `Bytes::of` lends for as long as the thread lasts.
    let work = unsafe { &mut *work.cast::<&mut dyn FnMut()>() };
    work();
}

/// The most bytes by call.
#[derive(Default)]
struct Bytes(BTreeMap<&'static str, usize>);

impl Bytes {
    /// Tries a call. It may stop, but must not be refused by what it was given. The last line on standard error is its name, should it end
    /// the process.
    fn of(&mut self, name: &'static str, mut call: impl FnMut() -> u32) {
        eprintln!("{name}");
        let mut number = u32::MAX;
        let mut work: &mut dyn FnMut() = &mut || number = call();
        let argument: *mut &mut dyn FnMut() = &mut work;
        let bytes = unsafe { stack_used(THREAD, call_work, argument.cast()) };
        assert!(![1, 2, 3, 16, u32::MAX].contains(&number), "{name} answers {number}");
        let most = self.0.entry(name).or_default();
        *most = bytes.max(*most);
    }
}

/// The largest sizes, and a program that passes the check.
struct Inputs {
    config: Vec<u32>,
    c: Config,
    program: Program,
}

impl Inputs {
    fn new(r: &mut Random, width: u32) -> Inputs {
        let rm_size = if width == 32 { 1024 } else { 128 };
        let mut config = vec![32_768, width, 128, rm_size, 64, 32_768, 1, 2, 1, 1, 1, 1, 100, 0x1234];
        config.extend(FIXED_FIELDS);
        let c = Config::lawful_from_words(&config).expect("a lawful configuration");
        Inputs { program: programs::passing(r, &c), config, c }
    }

    /// A step, or a run, of an image from reset.
    fn advance(&self, bytes: &mut Bytes, calls: &dyn Calls, image: &[u32], budget: Option<u64>) {
        let (inputs, mut answers) = (vec![1; 100_000], [0; 2]);
        let (mut log_addresses, mut log_values) = (vec![0; 100_000], vec![0; 100_000]);
        let mut machine = Machine::at_reset().to_words();
        let (mut registers, mut memory) = (vec![0; self.c.rm_size as usize], vec![0; self.c.dm_size as usize]);
        bytes.of(if budget.is_some() { "run" } else { "step" }, || {
            let (log_addresses, log_values) = (&mut log_addresses, &mut log_values);
            let state =
                State { machine: &mut machine, registers: &mut registers, memory: &mut memory, log_addresses, log_values };
            match budget {
                None => calls.step(&self.config, image, &inputs, state, &mut answers),
                Some(budget) => calls.run(&self.config, image, &inputs, state, budget, &mut answers),
            }
        })
    }

    /// Images that a run may take in different ways: a program, jumps between far ends with special-register mode, jumps that meet every
    /// word, and one straight way to the end.
    fn images(&self) -> Vec<Vec<u32>> {
        let jump = |target: u32| 0xc000_0000 | target;
        let (spr_on, spr_off) = (0xf005_0000, 0xf004_0000);
        let mut far = vec![0; 32_768];
        far[0] = jump(30_000);
        far[30_000] = jump(5_000);
        far[5_000..5_003].copy_from_slice(&[spr_on, spr_off, jump(32_766)]);
        far[32_766..].copy_from_slice(&[0, jump(0)]);
        let leaps = (0..32_768).map(|at| jump((at + 501) % 32_768)).collect();
        vec![self.program.image.clone(), far, leaps, vec![0; 32_768]]
    }

    /// The most that each call takes.
    fn each(&self, bytes: &mut Bytes, r: &mut Random, calls: &dyn Calls) {
        let Inputs { config, c, program: Program { image, sheet } } = self;
        let mut answers = [0; 2];
        for _ in 0..500 {
            let (word, parts) = (words::any(r, c), words::parts(r, c));
            bytes.of("read", || calls.read(config, word, &mut [0; 6]));
            bytes.of("write", || calls.write(config, &parts, &mut answers));
            bytes.of("text", || calls.text(config, word, &mut [0; 40], 0, &mut answers));
        }
        bytes.of("reset", || calls.reset(&mut [7; 100]));
        for image in self.images() {
            self.advance(bytes, calls, &image, None);
            for budget in [1, 12, 100, 1_000, 1_000_000] {
                self.advance(bytes, calls, &image, Some(budget));
            }
        }
        bytes.of("check", || calls.check(config, image, sheet, &mut answers));
        let mut page = vec![0; 37 * image.len()];
        bytes.of("list", || calls.list(config, image, 0, &mut page, 0, &mut answers));
        let mut file = files::file(config, image);
        bytes.of("store", || calls.store(config, image, &mut file));
        let (mut read, mut words) = ([0; 19], vec![0; image.len()]);
        bytes.of("load", || calls.load(&file, &mut read, &mut words));
        let source = source(r);
        bytes.of("assemble", || calls.assemble(config, &source, &mut words, &mut answers));
    }
}

/// 32,768 lines, 1,024 labels, jumps to them.
fn source(r: &mut Random) -> Vec<u8> {
    let label = |line: u32| if line % 32 == 0 { numbered_label(line / 32) + ": " } else { String::new() };
    let lines = (0..32_768).map(|line| format!("{}JMP {}\n", label(line), numbered_label(r.below(1024))));
    lines.collect::<String>().into_bytes()
}

/// Tries every call and prints its bytes, a line each.
pub fn inside(calls: &dyn Calls) {
    let (mut bytes, mut r) = (Bytes::default(), Random::new(17));
    for width in [32, 16] {
        Inputs::new(&mut r, width).each(&mut bytes, &mut r, calls);
    }
    for (call, most) in bytes.0 {
        println!("{call} {most}");
    }
}

/// Tries every call in this program started again. True where none takes more than is allowed.
pub fn report() -> Result<bool, String> {
    let program = std::env::current_exe().map_err(|e| format!("this program's own file: {e}"))?;
    let output = Command::new(&program).arg(INSIDE).output().map_err(|e| format!("{}: {e}", program.display()))?;
    let printed = String::from_utf8_lossy(&output.stdout);
    let lines: Vec<&str> = printed.lines().collect();
    println!("stack of each call in a thread of {THREAD} bytes, at most {ALLOWED} allowed: {}", lines.join(", "));
    let within =
        |line: &&str| line.rsplit(' ').next().and_then(|bytes| bytes.parse().ok()).is_some_and(|bytes: usize| bytes <= ALLOWED);
    let over: Vec<&str> = lines.iter().copied().filter(|line| !within(line)).collect();
    if !over.is_empty() {
        println!("too much stack: {}", over.join(", "));
    }
    if !output.status.success() {
        let said = String::from_utf8_lossy(&output.stderr);
        println!("the process ended ({}), last: {}", output.status, said.lines().last().unwrap_or(""));
    }
    Ok(over.is_empty() && output.status.success() && lines.len() == CALLS)
}
