//! Document 01's own cases and its listing, run through a set of calls.

use crate::calls::{Calls, State};
use crate::model::machine::Machine;

/// W, level 2 where it may be, every option on; 16 registers, in banks at W = 32.
fn config(width: u32, dm_size: u32, im_size: u32) -> [u32; 19] {
    let (rm_size, level) = (if width == 32 { 64 } else { 16 }, if width == 8 { 0 } else { 2 });
    [im_size, width, 16, rm_size, 16, dm_size, 0, level, 1, 1, 1, 1, 0, 0, 0, 0, 0, 32, 0]
}

/// A machine and its lists.
struct Setup {
    config: [u32; 19],
    image: Vec<u32>,
    machine: Machine,
    registers: Vec<u32>,
    memory: Vec<u32>,
}

impl Setup {
    fn new(width: u32, dm_size: u32, image: &[u32]) -> Setup {
        let config = config(width, dm_size, image.len() as u32);
        let registers = vec![0; config[3] as usize];
        Setup { config, image: image.to_vec(), machine: Machine::at_reset(), registers, memory: vec![0; dm_size as usize] }
    }

    /// A run; answers number, steps and cycles, and keeps the rest.
    fn run(&mut self, calls: &dyn Calls, budget: u64) -> Result<(u32, u64, u64), String> {
        let mut machine = self.machine.to_words();
        let mut answers = [0; 2];
        let state = State {
            machine: &mut machine,
            registers: &mut self.registers,
            memory: &mut self.memory,
            log_addresses: &mut [],
            log_values: &mut [],
        };
        let number = calls.run(&self.config, &self.image, &[], state, budget, &mut answers);
        self.machine = Machine::from_words(&machine).ok_or("no record")?;
        Ok((number, answers[0], answers[1]))
    }
}

fn same<T: PartialEq + std::fmt::Debug>(what: &str, got: T, wanted: T) -> Result<(), String> {
    if got == wanted {
        Ok(())
    } else {
        Err(format!("{what}: {got:x?}, and document 01 says {wanted:x?}"))
    }
}

/// One instruction on %01 and %02: what, width, word, %01, %02, result in %01, Z and N where they are said.
type Case = (&'static str, u32, u32, u32, u32, u32, Option<u32>, Option<u32>);

const CASES: [Case; 10] = [
    ("ADD FFFFFFFF+1", 32, 0x4001_0002, 0xffff_ffff, 1, 0, Some(1), Some(1)),
    ("SUB 0-1", 32, 0x3001_0002, 0, 1, 0xffff_ffff, None, Some(1)),
    ("SUBS 80000000-1", 32, 0x3801_0002, 0x8000_0000, 1, 0x7fff_ffff, None, Some(1)),
    ("SUB 80000000-1", 32, 0x3001_0002, 0x8000_0000, 1, 0x7fff_ffff, None, Some(0)),
    ("SHR #1 of 1", 32, 0x8101_0001, 1, 0, 0, Some(0), None),
    ("SHL #1 of 1", 32, 0x8301_0001, 1, 0, 2, Some(1), None),
    ("CLZ 0000FFFF", 32, 0x9181_0002, 9, 0x0000_ffff, 16, Some(1), None),
    ("CLZ 00010000", 32, 0x9181_0002, 9, 0x0001_0000, 15, Some(0), None),
    ("ABS 80000000", 32, 0x9081_0002, 9, 0x8000_0000, 0x8000_0000, None, Some(1)),
    ("MUL C8*C8, W = 8", 8, 0x7001_0002, 0xc8, 0xc8, 0x40, None, None),
];

fn arithmetic(calls: &dyn Calls) -> Result<(), String> {
    for (what, width, word, first, second, result, z, n) in CASES {
        let mut setup = Setup::new(width, 32, &[word]);
        setup.registers[1] = first;
        setup.registers[2] = second;
        same(what, setup.run(calls, 1)?, (0, 1, 2))?;
        same(what, setup.registers[1], result)?;
        same(what, z.unwrap_or(setup.machine.z), setup.machine.z)?;
        same(what, n.unwrap_or(setup.machine.n), setup.machine.n)?;
        same(what, setup.machine.spr7, if width == 8 { 0x9c } else { 0 })?;
    }
    Ok(())
}

fn words(calls: &dyn Calls) -> Result<(), String> {
    let config = config(32, 32, 1);
    same("word 58000000", calls.read(&config, 0x5800_0000, &mut [0; 6]), 5)?;
    same("word 00000080", calls.read(&config, 0x0000_0080, &mut [0; 6]), 7)
}

fn context(calls: &dyn Calls) -> Result<(), String> {
    let mut image = vec![0; 0x41];
    image[0x12] = 0xf102_0040;
    let mut setup = Setup::new(32, 32, &image);
    setup.machine.pc = 0x12;
    setup.machine.n = 1;
    same("JSRWP F1020040", setup.run(calls, 1)?, (0, 1, 2))?;
    same("its context", setup.registers[0x20], 0x002f_0013)?;
    same("its PC and WP", (setup.machine.pc, setup.machine.wp), (0x40, 0x20))
}

/// "01's MOVX case has them loaded" (document 02, K4).
fn movx(calls: &dyn Calls) -> Result<(), String> {
    for (address, number) in [(0x20, 13), (0x1f, 0)] {
        let mut setup = Setup::new(32, 0x20, &[0x9806_1800]);
        setup.machine.loaded = 1;
        setup.registers[6] = address;
        same("MOVX", setup.run(calls, 1)?.0, number)?;
    }
    Ok(())
}

const LISTED: &str = "\
000000 a2860010 MOV %06,#0010
000001 9c041402 LDYX %04,%02
000002 98061800 MOVX @%06,@%X+,S
000003 46860001 ADD %06,#0001
000004 c1000002 JMP 000002,NZ
000005 c0000005 JMP 000005
";

/// The six words: stored, loaded, listed and run.
fn six_words(calls: &dyn Calls) -> Result<(), String> {
    let words = [0xa286_0010, 0x9c04_1402, 0x9806_1800, 0x4686_0001, 0xc100_0002, 0xc000_0005];
    let mut setup = Setup::new(32, 32, &words);
    let (mut file, mut config, mut image) = (vec![0; 1024], [0; 19], [0; 6]);
    same("storing", calls.store(&setup.config, &words, &mut file), 0)?;
    same("loading", calls.load(&file, &mut config, &mut image), 0)?;
    same("what is loaded", (config, image), (setup.config, words))?;
    let (mut page, mut answers) = (vec![0; 6 * 37], [0; 2]);
    same("listing", calls.list(&config, &image, 0, &mut page, 0, &mut answers), 0)?;
    same("what is listed", &page[..answers[0] as usize], LISTED.as_bytes())?;
    setup.registers[2..5].copy_from_slice(&[7, 8, 9]);
    same("11 steps", setup.run(calls, 11)?, (0, 11, 22))?;
    same("PC and RX", (setup.machine.pc, setup.machine.rx), (5, 5))?;
    same("16 to 18, %06", (&setup.memory[16..19], setup.registers[6]), (&[7, 8, 9][..], 19))
}

pub fn run(calls: &dyn Calls) -> Result<(), String> {
    arithmetic(calls)?;
    words(calls)?;
    context(calls)?;
    movx(calls)?;
    six_words(calls)
}
