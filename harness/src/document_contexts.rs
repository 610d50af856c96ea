//! Document 02's K6 by hand: coming back from nested context switches in banks that overlap, and from a register zero that a routine has
//! overwritten. "The new bank's %00 gets WP/16 in 31-26, SR in 25-20 (N bit 21, Z bit 20, others 0), IMask 19-16, PC+1 in 15-0. RETWP takes
//! them back from %00, ignoring 25-22."

use crate::calls::{Calls, State};
use crate::document_targets::same;

const PC: usize = 0;
const WP: usize = 1;
const N: usize = 4;
const Z: usize = 5;
const MASK: usize = 8;
const SAVED: usize = 9;

const RETWP: u32 = 0xf001_0000;
const SPR_OFF: u32 = 0xf004_0000;
const SET_N: u32 = 0x2283_0001; // CMP %03,#0001,S: of 0 it leaves N 1, Z 0
const SET_Z: u32 = 0x2003_0003; // CMP %03,%03,S: N 0, Z 1
const SET_NEITHER: u32 = 0x2284_0000; // CMP %04,#0000,S: of FFFFFFFF N 0, Z 0
const SET_BOTH: u32 = 0x4284_0001; // ADD %04,#0001,S: of FFFFFFFF N 1, Z 1

/// JSRWP to an address, WP/16 beside it.
const fn jsrwp(address: u32, unit: u32) -> u32 {
    0xf100_0000 | unit << 16 | address
}

/// MOV %00,<high; OR %00,>low (flags left): a word put into register zero.
fn overwrite(word: u32) -> [u32; 2] {
    [0xa380_0000 | word >> 16, 0x1700_0000 | word & 0xffff]
}

/// PC, WP, N, Z and the interrupt mask.
type Context = [u32; 5];
const CONTEXT: [usize; 5] = [PC, WP, N, Z, MASK];

/// A machine without data memory and ports.
#[derive(Clone)]
pub(crate) struct Setup {
    pub config: [u32; 19],
    pub image: Vec<u32>,
    pub machine: Vec<u32>,
    pub registers: Vec<u32>,
}

impl Setup {
    /// W = 32; `sizes` of image, bank and register memory; words from their addresses on, the others TST %00,%00,S. The saved mask is 9, %03
    /// of every bank 0, %04 FFFFFFFF; other cells hold 256 plus their place.
    fn new(sizes: [u32; 3], code: &[(u32, &[u32])], context: Context) -> Setup {
        let [im_size, reg_size, rm_size] = sizes;
        let mut image = vec![0; im_size as usize];
        for (address, words) in code {
            image[*address as usize..][..words.len()].copy_from_slice(words);
        }
        let mut machine = vec![0; 100];
        machine[SAVED] = 9;
        let cell = |place: u32| match place % 16 {
            3 => 0,
            4 => u32::MAX,
            _ => 0x100 + place,
        };
        let config = [im_size, 32, reg_size, rm_size, 2, 0, 0, 0, 0, 1, 0, 0, 0, 0, 0, 0, 0, 32, 0];
        let mut setup = Setup { config, image, machine, registers: (0..rm_size).map(cell).collect() };
        setup.set(context);
        setup
    }

    fn set(&mut self, context: Context) {
        for (place, word) in CONTEXT.into_iter().zip(context) {
            self.machine[place] = word;
        }
    }

    fn context(&self) -> Context {
        CONTEXT.map(|place| self.machine[place])
    }

    /// That a call left this record and these registers; says the first word that is another.
    fn is_left(&self, what: &str, wanted: &Setup) -> Result<(), String> {
        let lists = [("machine", &self.machine, &wanted.machine), ("registers", &self.registers, &wanted.registers)];
        for (name, got, wanted) in lists {
            for (place, (got, wanted)) in got.iter().zip(wanted).enumerate() {
                same(&format!("{what}: {name}[{place}] after it"), got, wanted)?;
            }
        }
        Ok(())
    }

    fn lent(&mut self) -> State<'_> {
        State {
            machine: &mut self.machine,
            registers: &mut self.registers,
            memory: &mut [],
            log_addresses: &mut [],
            log_values: &mut [],
        }
    }
}

/// 32 registers in 128 cells, so that each bank shares cells with the next; units 0 to 6.
const OVERLAPPING: [u32; 3] = [0x40, 32, 128];
/// 16 registers in 1,024 cells: units 0 to 63.
const APART: [u32; 3] = [0x40, 16, 1_024];

/// What a step is to leave: PC, WP, N, Z and mask, and a cell that it writes, as its number and word.
pub(crate) type Wanted = (&'static str, Context, Option<(usize, u32)>);

pub(crate) struct Cases<'a> {
    pub calls: &'a dyn Calls,
    pub count: u32,
}

impl Cases<'_> {
    /// Steps one by one, each of which leaves what is wanted and nothing else; then the same by one run. Answers what they leave.
    pub fn go(&mut self, what: &str, start: &Setup, steps: &[Wanted]) -> Result<Setup, String> {
        let (mut now, mut wanted) = (start.clone(), start.clone());
        for (name, context, cell) in steps {
            let (config, image, mut answers) = (now.config, now.image.clone(), [0x77]);
            let number = self.calls.step(&config, &image, &[], now.lent(), &mut answers);
            let what = format!("{what}, {name}");
            same(&what, (number, answers), (0, [2]))?;
            same(&format!("{what}: PC, WP, N, Z and mask"), now.context(), *context)?;
            wanted.set(*context);
            if let Some((place, word)) = *cell {
                same(&format!("{what}: cell {place}"), now.registers[place], word)?;
                wanted.registers[place] = word;
            }
            now.is_left(&what, &wanted)?;
        }
        let (mut ran, budget, mut answers) = (start.clone(), steps.len() as u64, [0x77; 2]);
        let (config, image) = (ran.config, ran.image.clone());
        let number = self.calls.run(&config, &image, &[], ran.lent(), budget, &mut answers);
        same(&format!("{what}, by a run"), (number, answers), (0, [budget, 2 * budget]))?;
        ran.is_left(&format!("{what}, by a run"), &wanted)?;
        self.count += 1;
        Ok(wanted)
    }

    /// A step and a run that are refused with this number and change nothing.
    fn refused(&mut self, what: &str, start: &Setup, number: u32) -> Result<(), String> {
        let (mut stepped, mut ran, mut answers) = (start.clone(), start.clone(), [0x77; 2]);
        let (config, image) = (start.config, start.image.clone());
        same(what, self.calls.step(&config, &image, &[], stepped.lent(), &mut answers[..1]), number)?;
        same(&format!("{what}, by a run"), self.calls.run(&config, &image, &[], ran.lent(), 3, &mut answers), number)?;
        same(&format!("{what}: answers"), answers, [0, 0])?;
        stepped.is_left(what, start)?;
        ran.is_left(&format!("{what}, by a run"), start)?;
        self.count += 1;
        Ok(())
    }

    /// Bank 0 calls bank 1, that bank 2, that bank 0 again: each %00 is a register of another bank, and none is overwritten.
    fn nested(&mut self) -> Result<(), String> {
        let code: [(u32, &[u32]); 4] = [
            (0x00, &[jsrwp(0x10, 1)]),
            (0x10, &[SET_Z, SPR_OFF, jsrwp(0x20, 2), RETWP]),
            (0x20, &[SET_N, jsrwp(0x30, 0), RETWP]),
            (0x30, &[SET_Z, RETWP]),
        ];
        let start = Setup::new(OVERLAPPING, &code, [0, 0, 1, 0, 5]);
        let steps: [Wanted; 11] = [
            ("JSRWP 0010,010", [0x10, 16, 1, 0, 5], Some((16, 0x0025_0001))),
            ("CMP", [0x11, 16, 0, 1, 5], None),
            ("SPR_OFF", [0x12, 16, 0, 1, 9], None),
            ("JSRWP 0020,020", [0x20, 32, 0, 1, 9], Some((32, 0x0419_0013))),
            ("CMP", [0x21, 32, 1, 0, 9], None),
            ("JSRWP 0030,000", [0x30, 0, 1, 0, 9], Some((0, 0x0829_0022))),
            ("CMP", [0x31, 0, 0, 1, 9], None),
            ("RETWP from bank 0", [0x22, 32, 1, 0, 9], None),
            ("RETWP from bank 2", [0x13, 16, 0, 1, 9], None),
            ("RETWP from bank 1", [0x01, 0, 1, 0, 5], None),
            ("TST", [0x02, 0, 1, 0, 5], None),
        ];
        self.go("nested switches", &start, &steps)?;
        // Into its own bank and back: register zero was the caller's, the rest of the context is right.
        let code: [(u32, &[u32]); 2] = [(0x08, &[jsrwp(0x10, 3)]), (0x10, &[SET_N, RETWP])];
        let start = Setup::new(OVERLAPPING, &code, [8, 48, 0, 1, 0xc]);
        let steps: [Wanted; 3] = [
            ("JSRWP 0010,030", [0x10, 48, 0, 1, 0xc], Some((48, 0x0c1c_0009))),
            ("CMP", [0x11, 48, 1, 0, 0xc], None),
            ("RETWP", [0x09, 48, 0, 1, 0xc], None),
        ];
        self.go("a switch into the caller's own bank", &start, &steps)?;
        // A RETWP that another routine reaches, by JMP: it belongs to whom WP and register zero say.
        let code: [(u32, &[u32]); 3] =
            [(0x00, &[jsrwp(0x10, 1)]), (0x10, &[jsrwp(0x20, 5), RETWP]), (0x20, &[SET_Z, 0xc000_0011])];
        let start = Setup::new(OVERLAPPING, &code, [0, 0, 1, 1, 0]);
        let steps: [Wanted; 6] = [
            ("JSRWP 0010,010", [0x10, 16, 1, 1, 0], Some((16, 0x0030_0001))),
            ("JSRWP 0020,050", [0x20, 80, 1, 1, 0], Some((80, 0x0430_0011))),
            ("CMP", [0x21, 80, 0, 1, 0], None),
            ("JMP 000011", [0x11, 80, 0, 1, 0], None),
            ("RETWP in bank 5", [0x11, 16, 1, 1, 0], None),
            ("RETWP in bank 1", [0x01, 0, 1, 1, 0], None),
        ];
        self.go("a RETWP of another routine", &start, &steps).map(|_| ())
    }

    /// "A routine overwrote register zero": the return goes where the overwritten word says, whatever 25-22 hold.
    fn overwritten(&mut self) -> Result<(), String> {
        for ignored in 0..16 {
            let word = 0x0c1a_0025 | ignored << 22; // unit 3, N 0, Z 1, mask a, PC 25
            let [high, low] = overwrite(word);
            let code: [(u32, &[u32]); 2] = [(0x00, &[jsrwp(0x10, 1)]), (0x10, &[high, low, RETWP])];
            let start = Setup::new(OVERLAPPING, &code, [0, 0, 1, 0, 5]);
            let steps: [Wanted; 4] = [
                ("JSRWP 0010,010", [0x10, 16, 1, 0, 5], Some((16, 0x0025_0001))),
                ("MOV", [0x11, 16, 1, 0, 5], Some((16, word & 0xffff_0000))),
                ("OR", [0x12, 16, 1, 0, 5], Some((16, word))),
                ("RETWP", [0x25, 48, 0, 1, 0xa], None),
            ];
            self.go(&format!("{word:08x} in register zero"), &start, &steps)?;
        }
        // ADD %00,#0002 and ADD %00,<0401 (flags left): two words further; the next bank and the next mask.
        let code: [(u32, &[u32]); 2] = [(0x00, &[jsrwp(0x10, 1)]), (0x10, &[0x4680_0002, 0x4780_0401, RETWP])];
        let start = Setup::new(OVERLAPPING, &code, [0, 0, 1, 0, 5]);
        let steps: [Wanted; 4] = [
            ("JSRWP 0010,010", [0x10, 16, 1, 0, 5], Some((16, 0x0025_0001))),
            ("ADD", [0x11, 16, 1, 0, 5], Some((16, 0x0025_0003))),
            ("ADD <", [0x12, 16, 1, 0, 5], Some((16, 0x0426_0003))),
            ("RETWP", [0x03, 16, 1, 0, 6], None),
        ];
        self.go("sums in register zero", &start, &steps)?;
        // By a JSRWP into the same bank: its context stays there, and each later RETWP takes it again.
        let code: [(u32, &[u32]); 3] = [(0x00, &[jsrwp(0x10, 1)]), (0x10, &[jsrwp(0x18, 1), RETWP]), (0x18, &[SET_N, RETWP])];
        let start = Setup::new(OVERLAPPING, &code, [0, 0, 0, 1, 5]);
        let steps: [Wanted; 6] = [
            ("JSRWP 0010,010", [0x10, 16, 0, 1, 5], Some((16, 0x0015_0001))),
            ("JSRWP 0018,010", [0x18, 16, 0, 1, 5], Some((16, 0x0415_0011))),
            ("CMP", [0x19, 16, 1, 0, 5], None),
            ("RETWP", [0x11, 16, 0, 1, 5], None),
            ("RETWP", [0x11, 16, 0, 1, 5], None),
            ("RETWP", [0x11, 16, 0, 1, 5], None),
        ];
        self.go("a JSRWP into the same bank", &start, &steps)?;
        // From bank 0, whose %10 is register zero of bank 1: MOV %10,#0031.
        let code: [(u32, &[u32]); 3] =
            [(0x00, &[jsrwp(0x10, 1)]), (0x10, &[jsrwp(0x20, 0), RETWP]), (0x20, &[0xa290_0031, RETWP])];
        let start = Setup::new(OVERLAPPING, &code, [0, 0x60, 0, 1, 5]);
        let steps: [Wanted; 5] = [
            ("JSRWP 0010,010", [0x10, 16, 0, 1, 5], Some((16, 0x1815_0001))),
            ("JSRWP 0020,000", [0x20, 0, 0, 1, 5], Some((0, 0x0415_0011))),
            ("MOV %10,#0031", [0x21, 0, 0, 1, 5], Some((16, 0x31))),
            ("RETWP in bank 0", [0x11, 16, 0, 1, 5], None),
            ("RETWP in bank 1", [0x31, 0, 0, 0, 0], None),
        ];
        self.go("register zero overwritten from another bank", &start, &steps).map(|_| ())
    }

    /// Register zero put back from a copy before RETWP: the first call is returned from, though a second has not been. And a copy in %10,
    /// where a JSRWP into the next bank has stored its own context.
    fn put_back(&mut self) -> Result<(), String> {
        let code: [(u32, &[u32]); 3] =
            [(0x00, &[jsrwp(0x10, 1)]), (0x10, &[0xa005_0000, jsrwp(0x18, 1)]), (0x18, &[0xa000_0005, SET_Z, RETWP])];
        let start = Setup::new(OVERLAPPING, &code, [0, 64, 1, 0, 5]);
        let steps: [Wanted; 6] = [
            ("JSRWP 0010,010", [0x10, 16, 1, 0, 5], Some((16, 0x1025_0001))),
            ("MOV %05,%00", [0x11, 16, 1, 0, 5], Some((21, 0x1025_0001))),
            ("JSRWP 0018,010", [0x18, 16, 1, 0, 5], Some((16, 0x0425_0012))),
            ("MOV %00,%05", [0x19, 16, 1, 0, 5], Some((16, 0x1025_0001))),
            ("CMP", [0x1a, 16, 0, 1, 5], None),
            ("RETWP", [0x01, 64, 1, 0, 5], None),
        ];
        self.go("register zero put back", &start, &steps)?;
        let code: [(u32, &[u32]); 3] =
            [(0x00, &[jsrwp(0x10, 1)]), (0x10, &[0xa010_0000, jsrwp(0x20, 2), 0xa000_0010, RETWP]), (0x20, &[RETWP])];
        let start = Setup::new(OVERLAPPING, &code, [0, 64, 1, 0, 5]);
        let steps: [Wanted; 6] = [
            ("JSRWP 0010,010", [0x10, 16, 1, 0, 5], Some((16, 0x1025_0001))),
            ("MOV %10,%00", [0x11, 16, 1, 0, 5], Some((32, 0x1025_0001))),
            ("JSRWP 0020,020", [0x20, 32, 1, 0, 5], Some((32, 0x0425_0012))),
            ("RETWP in bank 2", [0x12, 16, 1, 0, 5], None),
            ("MOV %00,%10", [0x13, 16, 1, 0, 5], Some((16, 0x0425_0012))),
            ("RETWP in bank 1", [0x12, 16, 1, 0, 5], None),
        ];
        self.go("a copy that a JSRWP overwrote", &start, &steps).map(|_| ())
    }

    /// A RETWP in another bank than the routine's takes that bank's register zero.
    fn other_bank(&mut self) -> Result<(), String> {
        let [high, low] = overwrite(0x1400_0012); // unit 5, and the RETWP's own address
        let code: [(u32, &[u32]); 2] = [(0x00, &[jsrwp(0x10, 1)]), (0x10, &[high, low, RETWP])];
        let mut start = Setup::new(OVERLAPPING, &code, [0, 0, 1, 0, 5]);
        (start.registers[80], start.registers[96]) = (0x1bb7_0012, 0x0bf3_003f); // units 6 and 2, 25-22 set
        let steps: [Wanted; 6] = [
            ("JSRWP 0010,010", [0x10, 16, 1, 0, 5], Some((16, 0x0025_0001))),
            ("MOV", [0x11, 16, 1, 0, 5], Some((16, 0x1400_0000))),
            ("OR", [0x12, 16, 1, 0, 5], Some((16, 0x1400_0012))),
            ("RETWP in bank 1", [0x12, 80, 0, 0, 0], None),
            ("RETWP in bank 5", [0x12, 96, 1, 1, 7], None),
            ("RETWP in bank 6", [0x3f, 32, 1, 1, 3], None),
        ];
        self.go("RETWP in another bank", &start, &steps)?;
        let mut start = Setup::new(OVERLAPPING, &[(0, &[RETWP])], [0, 48, 1, 1, 15]);
        start.registers[48] = 0x0008_0007;
        self.go("RETWP without any JSRWP", &start, &[("RETWP", [7, 0, 0, 0, 8], None)]).map(|_| ())
    }

    /// An overwritten word with WP out of range: 12; with an address at or past IM_SIZE: carried out, then 4.
    fn out_of_range(&mut self) -> Result<(), String> {
        for (unit, address) in (0..64).flat_map(|unit| [(unit, 0), (unit, 0x3f), (unit, 0x40), (unit, 0x41), (unit, 0xffff)]) {
            let word = unit << 26 | 0x03f4_0000 | address;
            let [high, low] = overwrite(word);
            let code: [(u32, &[u32]); 2] = [(0x00, &[jsrwp(0x10, 1)]), (0x10, &[high, low, RETWP])];
            let start = Setup::new(OVERLAPPING, &code, [0, 0, 0, 0, 5]);
            let what = format!("{word:08x} in register zero");
            let mut steps: Vec<Wanted> = vec![
                ("JSRWP 0010,010", [0x10, 16, 0, 0, 5], Some((16, 0x0005_0001))),
                ("MOV", [0x11, 16, 0, 0, 5], Some((16, word & 0xffff_0000))),
                ("OR", [0x12, 16, 0, 0, 5], Some((16, word))),
            ];
            if unit > 6 {
                let at_return = self.go(&what, &start, &steps)?;
                self.refused(&what, &at_return, 12)?;
                continue;
            }
            steps.push(("RETWP", [address, 16 * unit, 1, 1, 4], None));
            let after = self.go(&what, &start, &steps)?;
            if address >= 0x40 {
                self.refused(&what, &after, 4)?;
            }
        }
        // JSRWP's own unit, in the greatest bank and past it.
        for unit in [7, 8, 63] {
            self.refused("JSRWP past RM_SIZE", &Setup::new(OVERLAPPING, &[(0, &[jsrwp(1, unit)])], [0, 0, 0, 0, 0]), 12)?;
        }
        self.refused("JSRWP, unit 64", &Setup::new(APART, &[(0, &[jsrwp(1, 64)])], [0, 0, 0, 0, 0]), 7)
    }

    /// A JSRWP in the image's last word, and the greatest units: PC+1 is IM_SIZE, and 31-26 are ones.
    fn last_word(&mut self) -> Result<(), String> {
        for (im_size, stored) in [(2, 0xfc3f_0002), (0x40, 0xfc3f_0040), (32_768, 0xfc3f_8000)] {
            for (unit, cell) in [(63, 1_008), (62, 992), (0, 0)] {
                let code: [(u32, &[u32]); 2] = [(im_size - 1, &[jsrwp(0, unit)]), (0, &[RETWP])];
                let start = Setup::new([im_size, 16, 1_024], &code, [im_size - 1, 1_008, 1, 1, 15]);
                let steps: [Wanted; 2] =
                    [("JSRWP", [0, 16 * unit, 1, 1, 15], Some((cell, stored))), ("RETWP", [im_size, 1_008, 1, 1, 15], None)];
                let what = format!("JSRWP at {:x}, unit {unit}", im_size - 1);
                let after = self.go(&what, &start, &steps)?;
                self.refused(&what, &after, 4)?;
                // And to the last word, which returns.
                let code: [(u32, &[u32]); 2] = [(0, &[jsrwp(im_size - 1, unit)]), (im_size - 1, &[RETWP])];
                let start = Setup::new([im_size, 16, 1_024], &code, [0, 1_008, 1, 1, 15]);
                let steps: [Wanted; 2] = [
                    ("JSRWP", [im_size - 1, 16 * unit, 1, 1, 15], Some((cell, 0xfc3f_0001))),
                    ("RETWP", [1, 1_008, 1, 1, 15], None),
                ];
                self.go(&format!("JSRWP to {:x}, unit {unit}", im_size - 1), &start, &steps)?;
            }
        }
        Ok(())
    }

    /// Each mask with N and Z as 0 and as 1: back after the routine has changed all three.
    fn every_mask(&mut self) -> Result<(), String> {
        for (mask, n, z) in (0..16).flat_map(|mask| [(mask, 0, 0), (mask, 0, 1), (mask, 1, 0), (mask, 1, 1)]) {
            let change = [[SET_BOTH, SET_N], [SET_Z, SET_NEITHER]][n as usize][z as usize];
            let code: [(u32, &[u32]); 2] = [(0x05, &[jsrwp(0x10, 2)]), (0x10, &[change, SPR_OFF, RETWP])];
            let mut start = Setup::new(APART, &code, [5, 64, n, z, mask]);
            start.machine[SAVED] = 15 - mask;
            // ADD leaves 0 in %04.
            let sum = (change == SET_BOTH).then_some((36, 0));
            let steps: [Wanted; 4] = [
                ("JSRWP 0010,020", [0x10, 32, n, z, mask], Some((32, 0x1000_0006 | n << 21 | z << 20 | mask << 16))),
                ("its flags", [0x11, 32, 1 - n, 1 - z, mask], sum),
                ("SPR_OFF", [0x12, 32, 1 - n, 1 - z, 15 - mask], None),
                ("RETWP", [6, 64, n, z, mask], None),
            ];
            self.go(&format!("mask {mask:x}, N {n}, Z {z}"), &start, &steps)?;
        }
        Ok(())
    }
}

/// Answers how many cases there are.
pub fn run(calls: &dyn Calls) -> Result<u32, String> {
    let mut cases = Cases { calls, count: 0 };
    cases.nested()?;
    cases.overwritten()?;
    cases.put_back()?;
    cases.other_bank()?;
    cases.out_of_range()?;
    cases.last_word()?;
    cases.every_mask()?;
    Ok(cases.count)
}
