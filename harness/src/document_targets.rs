//! Cases of document 02's K2: direct targets and JSRWP addresses at the image's edge, and where stop 4 remains.

use crate::calls::{Calls, State};

/// W = 32, 16 registers in four banks, 32 data cells, level 2, every option on.
fn config(im_size: u32) -> [u32; 19] {
    [im_size, 32, 16, 64, 16, 32, 0, 2, 1, 1, 1, 1, 0, 0, 0, 0, 0, 32, 0]
}

/// The words with a direct target, which is to be added: JMP always, by its conditions and BIO, JSR, JSRWP into bank 1.
const DIRECT: [u32; 10] = [
    0xc000_0000,
    0xc080_0000,
    0xc100_0000,
    0xc180_0000,
    0xc200_0000,
    0xc280_0000,
    0xc300_0000,
    0xc600_0000,
    0xf080_0000,
    0xf101_0000,
];

const RET: u32 = 0xf000_0000;
const RETWP: u32 = 0xf001_0000;
const PC: usize = 0;
const DEPTH: usize = 7;
const STACK: usize = 17;

pub fn same<T: PartialEq + std::fmt::Debug>(what: &str, got: T, wanted: T) -> Result<(), String> {
    if got == wanted {
        Ok(())
    } else {
        Err(format!("{what}: {got:x?}, and document 02 says {wanted:x?}"))
    }
}

/// A word by every call that reads it: its number, where nothing else of it is refused.
fn read_everywhere(calls: &dyn Calls, im_size: u32, word: u32, wanted: u32) -> Result<(), String> {
    let (config, what) = (config(im_size), |call: &str| format!("{call} of {word:08x} in an image of {im_size} words"));
    let (mut parts, mut page, mut answers) = ([0; 6], [b'.'; 40], [0; 2]);
    let line = format!("000000 {word:08x} ?{wanted}\n");
    same(&what("reading"), calls.read(&config, word, &mut parts), wanted)?;
    same(&what("text"), calls.text(&config, word, &mut page, 0, &mut answers[..1]), wanted)?;
    let mut image = vec![RET; im_size as usize];
    image[0] = word;
    calls.list(&config, &image, 0, &mut page, 0, &mut answers);
    same(&what("the mark in a listing"), page.starts_with(line.as_bytes()), wanted != 0)?;
    let mut machine = [0; 100];
    calls.reset(&mut machine);
    let before = machine;
    let (mut registers, mut memory) = ([0; 64], [0; 32]);
    let state = State {
        machine: &mut machine,
        registers: &mut registers,
        memory: &mut memory,
        log_addresses: &mut [],
        log_values: &mut [],
    };
    same(&what("step"), calls.step(&config, &image, &[], state, &mut answers[..1]), wanted)?;
    same(&what("the machine after a refused step, as it was"), wanted == 0 || (machine == before && registers == [0; 64]), true)
}

/// "A direct JMP or JSR target at or above IM_SIZE is to be refused when the word is read or written, and so is a JSRWP address."
fn edges(calls: &dyn Calls) -> Result<(), String> {
    for im_size in [1, 2, 6, 63, 64, 65, 100, 32_767, 32_768] {
        for direct in DIRECT {
            let (last, mut parts, mut answers) = (direct | (im_size - 1), [0; 6], [0]);
            read_everywhere(calls, im_size, last, 0)?;
            same("reading the last address", calls.read(&config(im_size), last, &mut parts), 0)?;
            same("writing it", (calls.write(&config(im_size), &parts, &mut answers), answers[0]), (0, u64::from(last)))?;
            let largest = if direct == 0xf101_0000 { 0xffff } else { 0x7f_ffff };
            for target in [im_size, im_size + 1, 0x8000, 0xffff, largest] {
                read_everywhere(calls, im_size, direct | target, 7)?;
                parts[5] = target;
                same("writing what is past the image", calls.write(&config(im_size), &parts, &mut answers), 7)?;
            }
        }
    }
    Ok(())
}

/// "Refusals: 7, in its old place": after 5 and 6, and after 1.
fn order(calls: &dyn Calls) -> Result<(), String> {
    let mut parts = [0; 6];
    same("JMP by condition 13", calls.read(&config(6), 0xc680_0006, &mut parts), 5)?;
    same("JMP by condition 8", calls.read(&config(6), 0xc400_0006, &mut parts), 6)?;
    let mut off = config(6);
    (off[3], off[10], off[11]) = (16, 0, 0);
    same("JMP BIO without ports", calls.read(&off, 0xc600_0006, &mut parts), 6)?;
    same("JSRWP without banks", calls.read(&off, 0xf101_0006, &mut parts), 6)?;
    same("a target in no lawful image", calls.read(&config(0), 0xc000_0006, &mut parts), 1)
}

/// "In the six-word case a JMP 000006 is now "?7"".
fn six_words(calls: &dyn Calls) -> Result<(), String> {
    let image = [0xa286_0010, 0x9c04_1402, 0x9806_1800, 0x4686_0001, 0xc100_0002, 0xc000_0006];
    let (mut page, mut answers) = (vec![0; 37], [0; 2]);
    same("listing", calls.list(&config(6), &image, 5, &mut page, 0, &mut answers), 0)?;
    same("line 5", &page[..answers[0] as usize], &b"000005 c0000006 ?7\n"[..])
}

/// "rule 3, no longer rule 4, catches such a target": the sheet of four words, all main and used.
fn rules(calls: &dyn Calls) -> Result<(), String> {
    let cases: [([u32; 4], u64, u64); 7] = [
        ([0, 0, 0, 0xc000_0004], 3, 3),           // JMP 000004
        ([0, 0, 0, 0xc080_0004], 3, 3),           // JMP 000004,Z, and its next is past the end as well
        ([0xf080_0004, 0, 0, 0xc000_0003], 0, 3), // JSR 000004
        ([0xc600_0004, 0, 0, 0xc000_0003], 0, 3), // JMP 000004,BIO
        ([0, 0, 0, 0], 3, 4),                     // TST: next is past the end
        ([0, 0, 0, 0xc080_0003], 3, 4),           // JMP 000003,Z: so is its next
        ([0, 0, 0, 0xc07f_ffff], 3, 3),
    ];
    for (image, address, rule) in cases {
        let mut answers = [0; 2];
        let number = calls.check(&config(4), &image, &[0; 4], &mut answers);
        same(&format!("the check of {image:x?}"), (number, answers), (17, [address, rule]))?;
    }
    let mut answers = [7; 2];
    let number = calls.check(&config(4), &[0, 0, 0, 0xc000_0003], &[0; 4], &mut answers);
    same("a jump to the last address", (number, answers), (0, [0, 0]))
}

/// "Stop 4 remains": JMP @, JSR @, RETWP, a return to IM_SIZE, and running off the end; a step each, and then 4.
fn stop_4(calls: &dyn Calls) -> Result<(), String> {
    for (what, word) in [("JMP @", 0xc801_0000), ("JSR @", 0xf881_0000), ("RETWP", RETWP), ("RET", RET), ("TST", 0)] {
        let (mut machine, mut registers, mut memory, mut answers) = ([0; 100], [0; 64], [0; 32], [0; 2]);
        calls.reset(&mut machine);
        (registers[0], registers[1]) = (3, 3);
        (machine[PC], machine[DEPTH], machine[STACK]) = (2, 1, 3);
        let state = State {
            machine: &mut machine,
            registers: &mut registers,
            memory: &mut memory,
            log_addresses: &mut [],
            log_values: &mut [],
        };
        let number = calls.run(&config(3), &[0, 0, word], &[], state, 5, &mut answers);
        same(&format!("{what} to IM_SIZE"), (number, answers, machine[PC]), (4, [1, 2], 3))?;
    }
    Ok(())
}

pub fn run(calls: &dyn Calls) -> Result<(), String> {
    edges(calls)?;
    order(calls)?;
    six_words(calls)?;
    rules(calls)?;
    stop_4(calls)
}
