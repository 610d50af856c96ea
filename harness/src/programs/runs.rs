//! Runs and traces: each stop and each kind of change by a program of its own, inputs in and out of their form, and programs at random.

use super::given::{Case, Given};
use crate::generate::configs::{self, Size};
use crate::generate::spread::spread;
use crate::generate::{files, programs, words};
use crate::model::assemble::{assemble, word_count};
use crate::model::commands::Mode;
use crate::model::config::Config;
use crate::model::forms::{entries, WORDS_BYTES};
use crate::model::programs::WORDS;
use crate::random::Random;

/// Every option of a width on, no banks.
const W32: &str = "REG_SIZE=16 RM_SIZE=16 DM_SIZE=32 DM_PIPE=1 ALU_LEVEL=2 ALU_MULT=1 ALU_SPR=1 IOP_IF=1 IOP_RMW=1 YAM_CLK=100";
const W16: &str =
    "REG_WIDTH=16 REG_SIZE=8 RM_SIZE=8 DM_SIZE=64 ALU_LEVEL=2 ALU_MULT=1 ALU_SPR=1 IOP_IF=1 IOP_RMW=1 YAM_SREG3=51966";
const W8: &str = "REG_WIDTH=8 REG_SIZE=128 RM_SIZE=128 DM_SIZE=32768 DM_PIPE=2 ALU_MULT=1 ALU_SPR=1 IOP_IF=1 IOP_RMW=1";
const BANKS: &str = "REG_SIZE=16 RM_SIZE=64 PC_STACK=1 DM_SIZE=2 ALU_LEVEL=2 ALU_MULT=1 ALU_SPR=1 IOP_IF=1 IOP_RMW=1";
const MOST_BANKS: &str = "REG_SIZE=128 RM_SIZE=1024 PC_STACK=64 DM_SIZE=32768 ALU_LEVEL=2 ALU_MULT=1 ALU_SPR=1 IOP_IF=1";

/// The image file of a source under named generics, IM_SIZE as many words as it has.
pub fn image(config: &str, source: &str) -> Vec<u8> {
    let mut fields = entries(config.as_bytes()).expect("entries");
    fields[0] = word_count(source.as_bytes()) as u32;
    let c = Config::lawful_from_words(&fields).expect("a lawful configuration");
    let words = assemble(&c, source.as_bytes(), c.im_size as usize).expect("a source that is taken");
    files::file(&fields, &words)
}

/// The image file of words under named generics.
fn image_of_words(config: &str, words: &[u32]) -> Vec<u8> {
    let mut fields = entries(config.as_bytes()).expect("entries");
    fields[0] = words.len() as u32;
    files::file(&fields, words)
}

fn case(name: impl Into<String>, mode: Mode, image: &[u8], steps: impl ToString, inputs: Option<&[u8]>) -> Case {
    let given = Given::Run { mode, image: image.to_vec(), steps: steps.to_string(), inputs: inputs.map(<[u8]>::to_vec) };
    Case::new(name, given)
}

fn both(list: &mut Vec<Case>, name: &str, image: &[u8], steps: u32, inputs: Option<&[u8]>) {
    for mode in [Mode::Run, Mode::Trace] {
        list.push(case(name, mode, image, steps, inputs));
    }
}

/// An image file, run or traced for some steps.
pub fn of_image(name: &str, number: usize, image: &[u8]) -> Case {
    let mode = if number % 2 == 0 { Mode::Run } else { Mode::Trace };
    case(format!("run of {name}"), mode, image, 100, None)
}

/// A program for each stop, whatever the inputs are.
const STOPPED: [(&str, &str, &str); 17] = [
    ("all steps done", W32, "loop: JMP loop"),
    ("4 behind the last word", W8, "MOV %01,#0003\nADD %01,%01,S"),
    ("4 by a jump to a register's address", W32, "MOV %00,<7fff\nJMP @%00"),
    ("8", W16, "SPR_ON\nMOV %01,%00\nMOV %02,%07\nADD %00,%00"),
    ("9", W32, "MOV %00,#0001\nMOVIO @%00,#0005\nMOVIO %02,@%01"),
    ("10 with one place", BANKS, "loop: JSR loop"),
    ("10 with 63 places", MOST_BANKS, "loop: JSR loop"),
    ("11 by RET", W8, "RET"),
    ("11 by RLD after a return", W32, "JSR sub\nRLD %01,#ffff\nsub: RLD %02,#8000"),
    ("12 by JSRWP", BANKS, "JSRWP 0001,030\nJSRWP 0000,040"),
    ("12 by RETWP", MOST_BANKS, "MOV %00,<ffff\nRETWP"),
    ("13 by a write", W32, "MOV %00,#0020\nMOV @%00,%01"),
    ("13 by a read", W16, "MOV %00,#0040\nMOV %01,@%00"),
    ("14", W16, "MOVIO %00,@%01\nMOVIO %02,@%01\nMOVIO %03,@%01\nIORMW %04,@%03"),
    ("15", W8, "loop: ADD %00,#0003,S\nMOVIO @%00,%01\nADD %01,#0007\nJMP loop"),
    ("27", W32, "MOVX @%00,@%X+"),
    ("27 from", W16, "ADD %00,#0001,S\nMOVX @%X+,@%00"),
];

/// Words that cannot be read, which no source gives.
const UNREADABLE: [(&str, &str, [u32; 2]); 3] =
    [("5", W32, [0, 0x5800_0000]), ("6", "REG_SIZE=16 RM_SIZE=16", [0xa286_0010, 0x7000_0000]), ("7", W8, [0, 0x0000_0080])];

/// Programs that change what a trace can name.
const CHANGING: [(&str, &str, &str); 9] = [
    // IMask 5, N and Z by RETWP from a context that was made by hand; a mask saved and taken back; a bank, a memory cell there.
    (
        "masks and banks",
        BANKS,
        "MOV %00,<0035\nADD %00,#0003\nRETWP\nSPR_ON\nMOV %01,%03\nMOV %06,%00\nSPR_OFF\nJSRWP 0008,020\nADD %05,#ffff,S\nMOV @%01,%05\n\
         MOV &0001,%00\nRETWP",
    ),
    // SPR_ON with one mask after another, and with the one that is saved already.
    (
        "masks saved again",
        BANKS,
        "MOV %00,<0003\nADD %00,#0003\nRETWP\nSPR_ON\nSPR_OFF\nSPR_ON\nSPR_OFF\nMOV %00,<000c\nADD %00,#000a\nRETWP\nSPR_ON\nMOV %02,%01\nSPR_OFF",
    ),
    ("banks that overlap", "REG_SIZE=32 RM_SIZE=64", "JSRWP 0001,010\nMOV %0f,#1234\nMOV %10,#5678\nJSRWP 0004,020\nADD %00,#0001,S\nRETWP"),
    (
        "the largest register memory",
        MOST_BANKS,
        "MOV %7f,>8000\nJSRWP 0002,380\nMOV %7f,>8000\nMOV %01,>7fff\nMOV @%01,%7f\nMOV &4000,%01\nJSR sub\nRETWP\nsub: MOVIO @%7f,%01\n\
         MOVIO %02,@%7f\nRET",
    ),
    ("a product's upper half", W8, "MOV %00,#00c8\nMOV %7f,#00c8\nMUL %00,%7f\nMUL %7f,#0002\nMOV %01,#0000\nMUL %01,%7f"),
    ("a product's upper half", W16, "MOV %00,#c8c8\nMUL %00,#c8c8\nSPR_ON\nMOV %01,%07\nMOV %02,%03\nSPR_OFF\nMUL %00,#0000"),
    (
        "index pointers and memory",
        W32,
        "MOV %06,#0010\nLDYX %01,%0f\nMOV %0f,<abcd\nMOV %00,>ef01\nloop: MOVX @%06,@%X+,S\nADD %06,#0001\nJMP loop,NZ\n\
         LDYX %03,%03,S\nMOV %06,#0011\nMOVX @%X+,@%06\nMOVX @%X+,@%06,S",
    ),
    (
        "ports",
        W16,
        "MOV %01,#8001\nMOVIO @%01,#1234\nMOVIO %02,@%01\nIORMW %03,@%01\nIORMW %04,@%01\nMOVIO @%03,%04\nMOV %00,%00\nMOVIO %05,@%00",
    ),
    ("calls", W8, "JSR outer\nJSR outer\nMOV %20,#0005\nJSR @%20\nouter: JSR inner\ninner: RLD %21,#0080"),
];

fn by_hand() -> Vec<Case> {
    let mut list = Vec::new();
    for (name, config, source) in STOPPED {
        both(&mut list, &format!("ended by {name}"), &image(config, source), 2_000, None);
    }
    for (name, config, words) in UNREADABLE {
        both(&mut list, &format!("ended by {name}"), &image_of_words(config, &words), 10, None);
    }
    for (name, config, source) in CHANGING {
        let image = image(config, source);
        for steps in [3, 40] {
            both(&mut list, name, &image, steps, Some(b"ABCD1234\n0\nffff8000\n7\n80"));
        }
    }
    list
}

/// STEPS at its edges, of an image that does not end.
fn steps() -> Vec<Case> {
    let endless = image(W32, "loop: ADD %00,#0001,S\nJMP loop,NZ");
    let mut list = Vec::new();
    for steps in ["0", "1", "999", "1000", "1001", "1000001", "9999999", "4294967295", "4294967296", "4294967297", "4295967296"] {
        for mode in [Mode::Run, Mode::Trace] {
            list.push(case(format!("{steps} steps"), mode, &endless, steps, None));
        }
    }
    for steps in ["18446744073709551615", "18446744073709551616", "18446744073709551626", "100000000000000000000000000000000"] {
        list.push(case(format!("{steps} steps"), Mode::Run, &endless, steps, None));
    }
    list.push(case("1000000 steps", Mode::Run, &endless, "1000000", None));
    list.push(case("1000000 steps", Mode::Trace, &endless, "1000000", None));
    list
}

/// Lines that are no word.
const BAD_LINES: [&str; 17] = [
    "",
    "123456789",
    "000000001",
    "g",
    "0x1",
    "1 ",
    " 1",
    "1\r",
    "+1",
    "-1",
    "1,2",
    "#1",
    "\t",
    "\0",
    "abcdefgh",
    "１",
    "1\u{b}",
];

/// Inputs in their form and out of it, beside what is refused before them and after them.
fn inputs() -> Vec<Case> {
    let reader = image(W16, "loop: MOVIO %00,@%01\nADD %02,%00,S\nJMP loop");
    let list: [&[u8]; 12] = [
        b"",
        b"0",
        b"0\n",
        b"ABCDEF01\nabcdef01\naBcDeF\n",
        b"00000000\n00000001\n1\n01\n",
        b"ffffffff\nFFFFFFFF\n7fff\n8000\n8001\nFfFf",
        b"\n",
        b"\n\n",
        b"1\n\n",
        b"1\n\n1\n",
        &[0xff, b'\n'],
        &[b'1', b'\n', 0],
    ];
    let mut cases = Vec::new();
    for text in list {
        both(&mut cases, &format!("inputs {text:?}"), &reader, 50, Some(text));
    }
    for (place, bad) in BAD_LINES.iter().flat_map(|bad| [0, 1, 30, 2_000].map(|place| (place, bad))) {
        for end in ["", "\n", "\n5\nx\n"] {
            let text = "7\n".repeat(place) + bad + end;
            // The empty text has no line, and a last line may lack its newline.
            cases.push(case(format!("inputs' line {} {bad:?}{end:?}", place + 1), Mode::Run, &reader, 5, Some(text.as_bytes())));
        }
    }
    let whole = b"1\n".repeat(WORDS_BYTES / 2);
    for length in [WORDS_BYTES - 1, WORDS_BYTES, WORDS_BYTES + 1, WORDS_BYTES + 5_000] {
        let mut text = whole.clone();
        text.resize(length, b'2');
        cases.push(case(format!("{length} bytes of inputs"), Mode::Trace, &reader, 10, Some(&text)));
        text[0] = b'\n';
        cases.push(case(format!("{length} bytes of inputs, the first line empty"), Mode::Run, &reader, 10, Some(&text)));
        cases.push(case(format!("{length} newlines"), Mode::Run, &reader, 10, Some(&vec![b'\n'; length])));
    }
    cases.push(case("all inputs taken", Mode::Run, &reader, 1_000_000, Some(&whole[..200_000])));
    // "In this order: an IMAGE that is refused; inputs that are not in their form; 16; the run."
    let damaged = &reader[1..];
    for (image, inputs, steps) in [
        (damaged, Some(&b"x"[..]), "1000001"),
        (damaged, None, "1000001"),
        (&reader, Some(b"x"), "1000001"),
        (&reader, Some(b"1"), "1000001"),
        (&reader, Some(b"x"), "0"),
        (&reader, Some(&vec![b'1'; WORDS_BYTES + 1]), "1000001"),
        (damaged, Some(&vec![b'1'; WORDS_BYTES + 1]), "1"),
    ] {
        for mode in [Mode::Run, Mode::Trace] {
            cases.push(case("more than one thing wrong", mode, image, steps, inputs));
        }
    }
    cases
}

/// A text of words at random, in either case, with and without zeros before them and the last newline.
pub fn words_text(r: &mut Random, words: &[u32]) -> Vec<u8> {
    let mut text = String::new();
    for &word in words {
        let digits = r.from_to(1, 8) as usize;
        let line = format!("{word:0digits$x}\n");
        text += &if r.chance(50) { line.to_uppercase() } else { line };
    }
    if r.chance(30) {
        text.pop();
    }
    text.into_bytes()
}

/// Registers are given values first, since a run starts with zeros.
fn lively(r: &mut Random, c: &Config, image: &mut [u32]) {
    let set = r.below(image.len() as u32 / 2 + 1) as usize;
    for word in &mut image[..set] {
        *word = 0xa280_0000 | r.pick(&[0, 0, 1, 2]) << 23 | r.below(c.reg_size) << 16 | r.odd() & 0xffff;
    }
}

fn at_random(r: &mut Random, number: u32, size: Size) -> Case {
    let mut config = configs::lawful(r, size);
    config[0] = config[0].min(WORDS as u32);
    let c = Config::lawful_from_words(&config).expect("a lawful configuration");
    let mut image = match r.below(4) {
        0 => (0..c.im_size).map(|_| words::any(r, &c)).collect(),
        1 => (0..c.im_size).map(|_| programs::straight(r, &c)).collect(),
        2 if size == Size::Large => spread(r, &c).image,
        _ => {
            let mut program = programs::passing(r, &c);
            programs::add_indexes(r, &c, &mut program);
            program.image
        }
    };
    if r.chance(60) {
        lively(r, &c, &mut image);
    }
    let count = r.pick(&[0, 1, 3, 12, 40]);
    let inputs: Vec<u32> = (0..count).map(|_| r.odd()).collect();
    let text = words_text(r, &inputs);
    let mode = r.pick(&[Mode::Run, Mode::Trace, Mode::Trace]);
    let steps = r.pick(&[1, 5, 20, 100, 500, 2_000]);
    case(format!("run {number} at random"), mode, &files::file(&config, &image), steps, (count > 0).then_some(&text))
}

pub fn all(r: &mut Random) -> Vec<Case> {
    let mut list = by_hand();
    list.extend(steps());
    list.extend(inputs());
    list.extend((0..900).map(|number| at_random(r, number, Size::Small)));
    list.extend((0..40).map(|number| at_random(r, number, Size::Large)));
    list
}
