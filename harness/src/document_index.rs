//! Document 02's K4: MOVX before and after an LDYX has run, the record's mark, and where 27 stands among the numbers.

use crate::calls::{Calls, State};
use crate::document_targets::same;

const PC: usize = 0;
const RX: usize = 2;
const RY: usize = 3;
const N: usize = 4;
const Z: usize = 5;
const DEPTH: usize = 7;
const MODE: usize = 10;
const POSTED: usize = 11;
const POSTED_ADDRESS: usize = 12;
const LOADED: usize = 80;

const MOVX_TO: u32 = 0x9806_1800; // MOVX @%06,@%X+,S
const MOVX_FROM: u32 = 0x9800_1c06; // MOVX @%X+,@%06,S
const LDYX: u32 = 0x9804_1402; // LDYX %04,%02,S
const KEEP_FLAGS: u32 = 1 << 26;
const NOTHING: u32 = 0xa000_0000; // MOV %00,%00
const PORT_READ: u32 = 0xb107_0006; // MOVIO %07,@%06

/// Both ways, with the flags updated and left.
const MOVX: [u32; 4] = [MOVX_TO, MOVX_FROM, MOVX_TO | KEEP_FLAGS, MOVX_FROM | KEEP_FLAGS];

/// A machine and its lists: level 2, 16 registers, 20 (hex) data cells, every option on; in banks at W = 32.
#[derive(Clone)]
struct Setup {
    config: [u32; 19],
    image: Vec<u32>,
    inputs: Vec<u32>,
    machine: Vec<u32>,
    registers: Vec<u32>,
    memory: Vec<u32>,
    log_addresses: Vec<u32>,
    log_values: Vec<u32>,
}

/// The number, and what is answered beside it: cycles of a step, steps and cycles of a run.
type Answer<const COUNT: usize> = (u32, [u64; COUNT]);

impl Setup {
    fn at_reset(calls: &dyn Calls, width: u32, image: &[u32]) -> Setup {
        let rm_size = if width == 32 { 64 } else { 16 };
        let mut machine = vec![0x5a5a_5a5a; 100];
        calls.reset(&mut machine);
        Setup {
            config: [image.len() as u32, width, 16, rm_size, 2, 0x20, 0, 2, 1, 1, 1, 1, 0, 0, 0, 0, 0, 32, 0],
            image: image.to_vec(),
            inputs: vec![7],
            machine,
            registers: (0..rm_size).collect(),
            memory: (0..0x20).map(|cell| 0x100 + cell).collect(),
            log_addresses: vec![0; 2],
            log_values: vec![0; 2],
        }
    }

    /// At W = 32, with words of the record set.
    fn with(calls: &dyn Calls, image: &[u32], words: &[(usize, u32)]) -> Setup {
        let mut setup = Setup::at_reset(calls, 32, image);
        for &(place, word) in words {
            setup.machine[place] = word;
        }
        setup
    }

    fn lent(&mut self) -> State<'_> {
        State {
            machine: &mut self.machine,
            registers: &mut self.registers,
            memory: &mut self.memory,
            log_addresses: &mut self.log_addresses,
            log_values: &mut self.log_values,
        }
    }

    fn step(&mut self, calls: &dyn Calls) -> Answer<1> {
        let (config, image, inputs, mut answers) = (self.config, self.image.clone(), self.inputs.clone(), [0x77]);
        (calls.step(&config, &image, &inputs, self.lent(), &mut answers), answers)
    }

    fn run(&mut self, calls: &dyn Calls, budget: u64) -> Answer<2> {
        let (config, image, inputs, mut answers) = (self.config, self.image.clone(), self.inputs.clone(), [0x77; 2]);
        (calls.run(&config, &image, &inputs, self.lent(), budget, &mut answers), answers)
    }

    /// That a call left these lists; says the first word that is another.
    fn is_left(&self, what: &str, wanted: &Setup) -> Result<(), String> {
        let lists = |setup: &Setup| {
            let Setup { machine, registers, memory, log_addresses, log_values, .. } = setup.clone();
            [machine, registers, memory, log_addresses, log_values]
        };
        let names = ["machine", "registers", "memory", "log_addresses", "log_values"];
        for ((name, got), wanted) in names.iter().zip(lists(self)).zip(lists(wanted)) {
            for (place, (got, wanted)) in got.iter().zip(&wanted).enumerate() {
                same(&format!("{what}: {name}[{place}] after it"), got, wanted)?;
            }
        }
        Ok(())
    }

    fn indexes(&self) -> [u32; 3] {
        [RX, RY, LOADED].map(|place| self.machine[place])
    }
}

/// Counts the cases that are as document 02 says.
struct Cases<'a> {
    calls: &'a dyn Calls,
    count: u32,
}

impl Cases<'_> {
    /// A step and a run that are refused with this number and change nothing.
    fn refused(&mut self, what: &str, setup: Setup, number: u32) -> Result<(), String> {
        let (mut stepped, mut ran) = (setup.clone(), setup.clone());
        same(what, stepped.step(self.calls), (number, [0]))?;
        same(&format!("{what}, by a run"), ran.run(self.calls, 3), (number, [0, 0]))?;
        stepped.is_left(what, &setup)?;
        ran.is_left(&format!("{what}, by a run"), &setup)?;
        self.count += 1;
        Ok(())
    }

    /// A step that passes, and what it leaves in RX, RY and the mark.
    fn passes(&mut self, what: &str, setup: &mut Setup, indexes: [u32; 3]) -> Result<(), String> {
        same(what, setup.step(self.calls), (0, [2]))?;
        same(&format!("{what}: RX, RY and the mark"), setup.indexes(), indexes)?;
        self.count += 1;
        Ok(())
    }

    /// "The machine now remembers if an LDYX has run since reset; MOVX before that is a stop."
    fn before_ldyx(&mut self) -> Result<(), String> {
        for width in [16, 32] {
            let reset = Setup::at_reset(self.calls, width, &[NOTHING]);
            for (place, &word) in reset.machine.iter().enumerate() {
                same(&format!("word {place} at reset"), word, if [8, 9].contains(&place) { 15 } else { 0 })?;
            }
            for movx in MOVX {
                let setup = Setup::at_reset(self.calls, width, &[movx]);
                self.refused(&format!("{movx:x} from reset"), setup, 27)?;
            }
        }
        // Whatever else has run, a refused LDYX too.
        for before in [NOTHING, 0x4686_0001, PORT_READ, 0xb806_0000, 0xa007_0006, 0xc000_0001, 0xf080_0001, 0xf101_0001] {
            let mut setup = Setup::with(self.calls, &[before, MOVX_TO], &[]);
            same(&format!("{before:x} from reset, then MOVX"), setup.run(self.calls, 9).0, 27)?;
            same("PC, and no index", (setup.machine[PC], setup.indexes()), (1, [0, 0, 0]))?;
            self.count += 1;
        }
        self.refused("LDYX %10,%02", Setup::with(self.calls, &[LDYX | 0x10 << 16], &[]), 7)?;
        self.refused("LDYX in special-register mode", Setup::with(self.calls, &[LDYX], &[(MODE, 1)]), 8)
    }

    /// LDYX loads with bit 26 as 0 and as 1, and the mark stays over what comes after it.
    fn after_ldyx(&mut self) -> Result<(), String> {
        for keep in [0, KEEP_FLAGS] {
            let image = [
                LDYX | keep,
                MOVX_TO,
                MOVX_FROM,
                0x980f_140f | keep, // LDYX %0f,%0f
                MOVX_TO | KEEP_FLAGS,
                0xf005_0000, // SPR_ON
                0xf004_0000, // SPR_OFF
                0xf101_000a, // JSRWP 000a,010
                0xf080_000b, // JSR 00000b
                NOTHING,
                0xf001_0000, // RETWP
                0x9800_1400, // LDYX %00,%00
                0xf000_0000, // RET
            ];
            let mut setup = Setup::with(self.calls, &image, &[(N, 1), (Z, 1)]);
            self.passes("LDYX %04,%02", &mut setup, [2, 4, 1])?;
            let flags = if keep == 0 { (0, 0) } else { (1, 1) };
            same("N and Z after it", (setup.machine[N], setup.machine[Z]), flags)?;
            self.passes("MOVX to", &mut setup, [3, 4, 1])?;
            same("what it moved", setup.memory[6], 2)?;
            self.passes("MOVX from", &mut setup, [4, 4, 1])?;
            same("what it moved", setup.registers[3], 2)?;
            self.passes("a second LDYX", &mut setup, [0xf, 0xf, 1])?;
            self.passes("MOVX with RX at REG_SIZE-1", &mut setup, [0, 0xf, 1])?;
            for what in ["SPR_ON", "SPR_OFF", "JSRWP", "RETWP", "JSR"] {
                self.passes(what, &mut setup, [0, 0xf, 1])?;
            }
            self.passes("a third LDYX", &mut setup, [0, 0, 1])?;
            self.passes("RET", &mut setup, [0, 0, 1])?;
            // The first LDYX, whatever it loads.
            for (ry, rx) in [(0, 0), (0, 1), (1, 0), (15, 15)] {
                let mut setup = Setup::with(self.calls, &[0x9800_1400 | keep | ry << 16 | rx, MOVX_TO], &[]);
                self.passes("a first LDYX", &mut setup, [rx, ry, 1])?;
                self.passes("MOVX after it", &mut setup, [(rx + 1) % 16, ry, 1])?;
            }
        }
        Ok(())
    }

    /// "MOVX address 20 with DM_SIZE 20: 13; 1F passes", where an LDYX has run; before that 27 either way.
    fn addresses(&mut self) -> Result<(), String> {
        for movx in MOVX {
            for (address, past) in [(0x1f, false), (0x20, true), (0x1_001f, false), (0x1_0020, true), (0xffff_ffff, true)] {
                for loaded in [0, 1] {
                    let mut setup = Setup::with(self.calls, &[movx], &[(LOADED, loaded)]);
                    setup.registers[6] = address;
                    let what = format!("{movx:x}, address {address:x}, mark {loaded}");
                    match (loaded, past) {
                        (0, _) => self.refused(&what, setup, 27)?,
                        (_, true) => self.refused(&what, setup, 13)?,
                        _ => self.passes(&what, &mut setup, [1, 0, 1])?,
                    }
                }
            }
        }
        Ok(())
    }

    /// "The record says loaded or not, and RX and RY are 0 until loaded": else 3, after 1 and 2, before 16 and all stops.
    fn ranges(&mut self) -> Result<(), String> {
        let mut broken = vec![vec![(RX, 1)], vec![(RY, 1)], vec![(RX, 15), (RY, 15)], vec![(LOADED, 2), (RX, 1)]];
        broken.extend([2, 3, 0x100, u32::MAX].map(|mark| vec![(LOADED, mark)]));
        broken.extend((81..100).flat_map(|place| [vec![(place, 1)], vec![(place, 1 << 31), (LOADED, 1)]]));
        for words in broken {
            for word in [NOTHING, MOVX_TO, LDYX] {
                let setup = Setup::with(self.calls, &[word], &words);
                self.refused(&format!("{word:x} with {words:x?}"), setup.clone(), 3)?;
                let (mut wide, mut long) = (setup.clone(), setup.clone());
                wide.config[18] = 1;
                long.memory.push(0);
                self.refused(&format!("the same, and YAM_DBG 1, with {words:x?}"), wide, 1)?;
                self.refused(&format!("the same, and a data memory too long, with {words:x?}"), long, 2)?;
                same("a budget too great with it", setup.clone().run(self.calls, 1_000_001), (3, [0, 0]))?;
            }
        }
        for length in [0, 80, 81, 99, 101] {
            let mut setup = Setup::with(self.calls, &[NOTHING], &[]);
            setup.machine.resize(length, 0);
            self.refused(&format!("a record of {length} words"), setup, 3)?;
        }
        for words in [[(LOADED, 1), (RX, 0), (RY, 0)], [(LOADED, 1), (RX, 15), (RY, 1)], [(LOADED, 0), (RX, 0), (RY, 0)]] {
            let indexes = [words[1].1, words[2].1, words[0].1];
            self.passes("a record in its ranges", &mut Setup::with(self.calls, &[NOTHING], &words), indexes)?;
        }
        let mut setup = Setup::with(self.calls, &[MOVX_TO], &[]);
        same("no step at MOVX from reset", setup.run(self.calls, 0), (0, [0, 0]))?;
        same("1,000,001 steps there", setup.run(self.calls, 1_000_001), (16, [0, 0]))
    }

    /// "27, after 9 and before 10": numbers before it at a MOVX that is not loaded, and the others at words that do not ask for it.
    fn order(&mut self) -> Result<(), String> {
        let calls = self.calls;
        let not_loaded = |word: u32, words: &[(usize, u32)]| Setup::with(calls, &[word], words);
        let past = |setup: Setup| {
            let mut setup = setup;
            setup.registers[6] = 0x20;
            setup
        };
        for movx in [MOVX_TO, MOVX_FROM] {
            let setup = not_loaded(movx, &[]);
            let (mut without, mut level_1) = (setup.clone(), setup.clone());
            (without.config[5], without.memory) = (0, vec![]);
            level_1.config[7] = 1;
            self.refused("MOVX past the image", not_loaded(movx, &[(PC, 1)]), 4)?;
            self.refused("MOVX with 25-23 not 000", not_loaded(movx | 1 << 23, &[]), 5)?;
            self.refused("MOVX with DM_SIZE 0", without, 6)?;
            self.refused("MOVX at level 1", level_1, 6)?;
            let (own, other) = if movx == MOVX_TO { (0x10 << 16, 1) } else { (0x10, 1 << 16) };
            self.refused("MOVX of %16", not_loaded(movx | own, &[]), 7)?;
            self.refused("MOVX with its other field not zero", not_loaded(movx | other, &[]), 7)?;
            self.refused("MOVX in special-register mode", not_loaded(movx, &[(MODE, 1)]), 8)?;
            self.refused("MOVX after a posted write", not_loaded(movx, &[(POSTED, 1), (POSTED_ADDRESS, 9)]), 27)?;
            self.refused("MOVX past DM_SIZE, the stack full", past(not_loaded(movx, &[(DEPTH, 1)])), 27)?;
        }
        self.refused("a port read after another's write", not_loaded(PORT_READ, &[(POSTED, 1), (POSTED_ADDRESS, 9)]), 9)?;
        self.refused("JSR with the stack full", not_loaded(0xf080_0000, &[(DEPTH, 1)]), 10)?;
        self.refused("RET with it empty", not_loaded(0xf000_0000, &[]), 11)?;
        self.refused("JSRWP past RM_SIZE", not_loaded(0xf104_0000, &[]), 12)?;
        self.refused("MOV @%06,%00 past DM_SIZE", past(not_loaded(0xa806_0000, &[])), 13)?;
        self.refused("a port read, no reading left", not_loaded(PORT_READ, &[(13, 1)]), 14)?;
        self.refused("a port write, no room in the log", not_loaded(0xb806_0000, &[(15, 2)]), 15)
    }

    /// The six words from reset; and without their LDYX a run that keeps its steps.
    fn six_words(&mut self) -> Result<(), String> {
        let words = [0xa286_0010, 0x9c04_1402, 0x9806_1800, 0x4686_0001, 0xc100_0002, 0xc000_0005];
        let mut setup = Setup::with(self.calls, &words, &[]);
        same("11 steps", setup.run(self.calls, 11), (0, [11, 22]))?;
        same("PC, RX, RY and the mark", (setup.machine[PC], setup.indexes()), (5, [5, 4, 1]))?;
        same("16 to 18, %06", (&setup.memory[16..19], setup.registers[6]), (&[2, 3, 4][..], 19))?;
        let mut without = words;
        without[1] = NOTHING;
        let mut setup = Setup::with(self.calls, &without, &[]);
        let mut wanted = setup.clone();
        same("without LDYX", setup.run(self.calls, 11), (27, [2, 4]))?;
        (wanted.machine[PC], wanted.registers[6]) = (2, 0x10);
        setup.is_left("without LDYX", &wanted)?;
        self.refused("from there on", setup, 27)?;
        // The check does not ask for an LDYX: "Demand 3's possible stops gain this one."
        for image in [words, without] {
            let mut answers = [7; 2];
            let number = self.calls.check(&Setup::with(self.calls, &image, &[]).config, &image, &[0; 6], &mut answers);
            same("the check", (number, answers), (0, [0, 0]))?;
        }
        self.count += 2;
        Ok(())
    }
}

/// Answers how many cases there are.
pub fn run(calls: &dyn Calls) -> Result<u32, String> {
    let mut cases = Cases { calls, count: 0 };
    cases.before_ldyx()?;
    cases.after_ldyx()?;
    cases.addresses()?;
    cases.ranges()?;
    cases.order()?;
    cases.six_words()?;
    Ok(cases.count)
}
