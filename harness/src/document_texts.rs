//! Cases of document 02's K1, each with the words, or the number and line, that its rules give.

use crate::calls::Calls;
use crate::generate::sources::numbered_label;

/// The largest image, W = 32, 16 registers in four banks, 32 data cells, level 2, every option on.
const CONFIG: [u32; 19] = [32_768, 32, 16, 64, 16, 32, 0, 2, 1, 1, 1, 1, 0, 0, 0, 0, 0, 32, 0];
/// The places of generics in it.
const IM_SIZE: usize = 0;
const REG_WIDTH: usize = 1;
const RM_SIZE: usize = 3;
const DM_SIZE: usize = 5;
const ALU_LEVEL: usize = 7;
const ALU_MULT: usize = 8;
const ALU_SPR: usize = 9;
const IOP_IF: usize = 10;
const IOP_RMW: usize = 11;

const PASSES: [(&str, &[u32]); 20] = [
    ("", &[]),
    ("\n", &[]),
    ("\n\n\n", &[]),
    ("RET", &[0xf000_0000]),
    ("RET\n", &[0xf000_0000]),
    ("\n\nRET\n\nRETWP\n", &[0xf000_0000, 0xf001_0000]),
    ("loop:", &[]),
    ("g:\nfacz:\nabcdefghijkl:\n", &[]),
    ("loop:\nJMP loop", &[0xc000_0000]),
    ("JMP loop\nloop:", &[0xc000_0001]),
    ("loop: JMP loop,NZ\n", &[0xc100_0000]),
    ("one:\ntwo:\nRET\n\nthree: RET\nJSR three\nJSR two", &[0xf000_0000, 0xf000_0000, 0xf080_0001, 0xf080_0000]),
    ("RET\nabcdeg: JMP abcdeg\nJMP 007bcd\n", &[0xf000_0000, 0xc000_0001, 0xc000_7bcd]),
    ("JMP 007fff\nJMP 006def", &[0xc000_7fff, 0xc000_6def]),
    ("JSRWP 0040,020\nJSRWP 7fff,3f0", &[0xf102_0040, 0xf13f_7fff]),
    ("BST3 %00,%01\nBLDS2 %0f,%01,S", &[0x9d80_0101, 0x990f_0601]),
    ("MOV &001f,%0f\nMOV %0f,&001f\nMOV @%01,%02", &[0xac0f_001f, 0xa18f_001f, 0xa801_0002]),
    ("MUL %00,%01,S\nMUL %00,<ffff", &[0x7000_0001, 0x7780_ffff]),
    ("MOVIO @%01,>1234\nIORMW %06,@%02\nJMP @%03,BIO", &[0xbb01_1234, 0xb106_8002, 0xce03_0000]),
    (
        "MOV %06,#0010\nLDYX %04,%02\nMOVX @%06,@%X+,S\nADD %06,#0001\nJMP 000002,NZ\nJMP 000005",
        &[0xa286_0010, 0x9c04_1402, 0x9806_1800, 0x4686_0001, 0xc100_0002, 0xc000_0005],
    ),
];

/// Text, number and line.
const REFUSALS: [(&str, u32, u64); 72] = [
    // The form of a line.
    ("FOO", 26, 1),
    ("RET\n\nret", 26, 3),
    ("RET ", 26, 1),
    (" RET", 26, 1),
    ("RET\r\n", 26, 1),
    ("RET\n\r\n", 26, 2),
    (" ", 26, 1),
    ("\0", 26, 1),
    ("\0RET", 26, 1),
    ("RET,S", 26, 1),
    ("MOV %00,%01,S", 26, 1),
    ("ADD %00,%01,S,S", 26, 1),
    ("ADD %0A,%01", 26, 1),
    ("ADD %00, %01", 26, 1),
    ("ADD  %00,%01", 26, 1),
    ("?5", 26, 1),
    ("000000 f0000000 RET", 26, 1),
    ("MOV %0a,#loop\nloop:", 26, 1),
    ("RLD %00,>0001", 26, 1),
    ("SHL %00,>0001", 26, 1),
    ("MOV @%00,#0001", 26, 1),
    // Starts of lines.
    ("face:", 26, 1),
    ("face: RET", 26, 1),
    ("abcdefghijklm:", 26, 1),
    ("Loop: RET", 26, 1),
    ("loop1: RET", 26, 1),
    (": RET", 26, 1),
    ("loop:RET", 26, 1),
    ("loop:  RET", 26, 1),
    ("loop: ", 26, 1),
    ("loop: loop: RET", 26, 1),
    ("loop: FOO", 26, 1),
    // Unsupported.
    ("COP0 %04,#0012,1", 26, 1),
    ("RETI", 26, 1),
    ("IRQ_ON 1", 26, 1),
    ("IRQM_SS", 26, 1),
    ("JMP 000000,NIRQ", 26, 1),
    ("JMP @%00,B0", 26, 1),
    ("ADD %00,%01,#05", 26, 1),
    // Digits and offsets.
    ("BST4 %00,%01", 26, 1),
    ("BLDS9 %80,%01", 26, 1),
    ("BST %00,%01", 26, 1),
    ("JSRWP 0040,021", 26, 1),
    ("JSRWP 0040,401", 26, 1),
    // Targets.
    ("JMP face", 26, 1),
    ("JMP 00000", 26, 1),
    ("JMP abcdefghijklm", 26, 1),
    ("loop:\nJSRWP loop,020", 26, 2),
    ("JMP nowhere,NIRQ", 26, 1),
    ("JSR nowhere,Z", 26, 1),
    ("JMP nowhere", 25, 1),
    ("loop: JSR lop", 25, 1),
    // Limits.
    ("JMP abcdef", 7, 1),
    ("JMP 800000,Z", 7, 1),
    ("JSR ffffff", 7, 1),
    ("MOV %10,%00", 7, 1),
    ("MOV %80,%00", 7, 1),
    ("MOV %00,%ff", 7, 1),
    ("SHR %00,#0010", 7, 1),
    ("MOV %00,&0020", 7, 1),
    ("JSRWP 0040,400", 7, 1),
    ("JMP 008000", 7, 1),
    ("JSR 7fffff", 7, 1),
    ("JSRWP 8000,020", 7, 1),
    // Which comes first.
    ("JMP 800000\nFOO", 7, 1),
    ("JMP nowhere\nFOO", 25, 1),
    ("FOO\nJMP nowhere", 26, 1),
    ("JMP loop\nloop:RET", 26, 2),
    ("FOO\nloop:\n\nloop: RET", 24, 4),
    ("loop:RET\nloop:RET", 24, 2),
    ("x:\ny:\ny:\nx:\nx:", 24, 3),
    ("loop:\nFOO\nloop:", 24, 3),
];

/// Generics that are changed, text, number and line.
type Changed = (&'static [(usize, u32)], &'static str, u32, u64);

const CHANGED: [Changed; 24] = [
    // K2: targets go by IM_SIZE, not by how many words the text has.
    (&[(IM_SIZE, 6)], "JMP 000005\nJMP 000006", 7, 2),
    (&[(IM_SIZE, 6)], "JMP 000005,Z\nJMP 000006,Z", 7, 2),
    (&[(IM_SIZE, 6)], "JSR 000005\nJSR 000006", 7, 2),
    (&[(IM_SIZE, 6)], "JSRWP 0005,020\nJSRWP 0006,020", 7, 2),
    (&[(IM_SIZE, 2)], "JMP on\non: JMP off\noff:", 7, 2),
    (&[(IM_SIZE, 1)], "RET\nRET\nJMP on\non:\nFOO", 7, 3),
    (&[(IM_SIZE, 6), (IOP_IF, 0), (IOP_RMW, 0)], "JMP 000006,BIO", 6, 1),
    (&[(IM_SIZE, 0)], "x:\nx:\nFOO", 1, 0),
    (&[(ALU_MULT, 0)], "RET\nMUL %00,%01", 6, 2),
    (&[(ALU_MULT, 0)], "MUL %80,%01", 6, 1),
    (&[(ALU_MULT, 0)], "MUL %00,%0", 26, 1),
    (&[(IOP_IF, 0), (IOP_RMW, 0)], "JMP 000000,BIO", 6, 1),
    (&[(IOP_IF, 0), (IOP_RMW, 0)], "JMP nowhere,BIO", 25, 1),
    (&[(IOP_RMW, 0)], "MOVIO %06,@%02\nIORMW %06,@%02", 6, 2),
    (&[(RM_SIZE, 16)], "JSRWP 0040,020", 6, 1),
    (&[(RM_SIZE, 16)], "JSRWP 0040,400", 6, 1),
    (&[(RM_SIZE, 16)], "JSRWP 0040,021", 26, 1),
    (&[(DM_SIZE, 0)], "MOVX @%00,@%X+", 6, 1),
    (&[(DM_SIZE, 0)], "MOV %00,&0000", 6, 1),
    (&[(ALU_SPR, 0)], "SPR_ON", 6, 1),
    (&[(REG_WIDTH, 16), (RM_SIZE, 16)], "BST1 %00,%01\nBST2 %00,%01", 7, 2),
    (&[(REG_WIDTH, 16), (RM_SIZE, 16)], "BST4 %00,%01", 26, 1),
    (&[(ALU_LEVEL, 0)], "SHR %00,#0001\nSHR %00,#0002", 7, 2),
    (&[(ALU_LEVEL, 0)], "SHR %00,%01", 6, 1),
];

/// Text, how many words are lent, and the number: 36 and 0 have no line.
const LENT: [(&str, usize, u32); 7] = [
    ("loop:\n\n", 0, 0),
    ("RET\nRET", 1, 36),
    ("FOO\nFOO", 1, 36),
    ("x:\nx:\nRET\nRET", 1, 36),
    ("loop: ", 0, 36),
    ("face:", 0, 36),
    ("JMP nowhere", 0, 36),
];

/// What words hold that were lent and not written.
const OLD: u32 = 0xa5a5_a5a5;

fn case(calls: &dyn Calls, config: &[u32], text: &str, lent: usize, wanted: Result<&[u32], (u32, u64)>) -> Result<(), String> {
    let (mut words, mut answers) = (vec![OLD; lent], [7, 7]);
    let number = calls.assemble(config, text.as_bytes(), &mut words, &mut answers);
    let mut left = vec![OLD; lent];
    let said = match wanted {
        Ok(written) => {
            left[..written.len()].copy_from_slice(written);
            (0, [written.len() as u64, 0])
        }
        Err((number, line)) => (number, [0, line]),
    };
    if (number, answers) == said && words == left {
        return Ok(());
    }
    let text: String = text.chars().take(200).collect();
    Err(format!("{text:?}: {number} {answers:?} {words:x?}, and document 02 says {said:?} {left:x?}"))
}

/// Lone labels, all different.
fn label_lines(count: u32) -> String {
    (0..count).map(|n| format!("{}:\n", numbered_label(n))).collect()
}

/// How many cases were run, all as document 02 says.
pub fn run(calls: &dyn Calls) -> Result<usize, String> {
    for (text, words) in PASSES {
        case(calls, &CONFIG, text, words.len() + 2, Ok(words))?;
        case(calls, &CONFIG, text, words.len(), Ok(words))?;
    }
    for (text, number, line) in REFUSALS {
        case(calls, &CONFIG, text, 8, Err((number, line)))?;
    }
    for (generics, text, number, line) in CHANGED {
        let mut config = CONFIG;
        generics.iter().for_each(|&(place, value)| config[place] = value);
        case(calls, &config, text, 8, Err((number, line)))?;
    }
    for (text, lent, number) in LENT {
        case(calls, &CONFIG, text, lent, if number == 0 { Ok(&[]) } else { Err((number, 0)) })?;
    }
    let (most, again) = (label_lines(1024), label_lines(1));
    case(calls, &CONFIG, &most, 0, Ok(&[]))?;
    case(calls, &CONFIG, &label_lines(1025), 0, Err((36, 0)))?;
    case(calls, &CONFIG, &format!("{most}{again}FOO"), 8, Err((36, 0)))?;
    case(calls, &CONFIG, &format!("{most}FOO"), 8, Err((26, 1025)))?;
    Ok(PASSES.len() + REFUSALS.len() + CHANGED.len() + LENT.len() + 4)
}
