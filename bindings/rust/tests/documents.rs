//! Document 01's six words and its cases, through the safe wrappers.

use yam::{Change, Config, Image, Instruction, Machine, Place, Ran, Refusal, Refused};

const FILE: &[u8] = include_bytes!("../../../examples/six_words.img");
const WORDS: [u32; 6] =
    [0xa286_0010, 0x9c04_1402, 0x9806_1800, 0x4686_0001, 0xc100_0002, 0xc000_0005];
const LISTED: &str = "\
000000 a2860010 MOV %06,#0010
000001 9c041402 LDYX %04,%02
000002 98061800 MOVX @%06,@%X+,S
000003 46860001 ADD %06,#0001
000004 c1000002 JMP 000002,NZ
000005 c0000005 JMP 000005
";
const SOURCE: &str = "\
MOV %06,#0010
LDYX %04,%02
loop:
MOVX @%06,@%X+,S
ADD %06,#0001
JMP loop,NZ

halt: JMP halt
";

fn six_words() -> Image {
    Image::load(FILE).expect("the example is an image file")
}

/// W, level 2 where it may be, every option on; 16 registers, in banks at W = 32.
fn all_on(width: u32, words: &[u32]) -> Image {
    let config = Config {
        im_size: words.len() as u32,
        reg_width: width,
        reg_size: 16,
        rm_size: if width == 32 { 64 } else { 16 },
        alu_level: if width == 8 { 0 } else { 2 },
        alu_mult: 1,
        alu_spr: 1,
        iop_if: 1,
        iop_rmw: 1,
        ..Config::default()
    };
    Image { config, words: words.to_vec() }
}

fn machine(image: &Image) -> Machine {
    Machine::new(image).expect("the image has a machine")
}

fn refused<T: std::fmt::Debug>(answer: Result<T, Refused>) -> (Refusal, Option<Place>) {
    let refused = answer.expect_err("this is refused");
    (refused.refusal, refused.place)
}

#[test]
fn the_file_is_loaded_and_stored() {
    let image = six_words();
    assert_eq!(image.words, WORDS);
    let wanted =
        Config { im_size: 6, reg_size: 16, rm_size: 16, alu_level: 2, ..Config::default() };
    assert_eq!(image.config, wanted);
    assert_eq!(image.store().as_deref(), Ok(FILE));
    assert_eq!(Config::from_words(&wanted.to_words()), wanted);
}

#[test]
fn the_words_are_listed_and_assembled() {
    let image = six_words();
    assert_eq!(image.listing().as_deref(), Ok(LISTED));
    assert_eq!(image.config.assemble(SOURCE), Ok(WORDS.to_vec()));
    assert_eq!(image.config.assemble(SOURCE.as_bytes()), Ok(WORDS.to_vec()));
    assert_eq!(Image::assemble(&image.config, SOURCE), Ok(image.clone()));
    let longer = Config { im_size: 8, ..image.config };
    assert_eq!(
        Image::assemble(&longer, SOURCE).map(|image| image.words),
        Ok([&WORDS[..], &[0, 0]].concat())
    );
    assert_eq!(image.config.text(WORDS[2]).as_deref(), Ok("MOVX @%06,@%X+,S"));
}

#[test]
fn words_are_read_and_written_back() {
    let config = six_words().config;
    for word in WORDS {
        let instruction = config.read(word).expect("it can be read");
        assert_eq!(config.write(&instruction), Ok(word));
        assert_eq!(Instruction::from_words(&instruction.to_words()), instruction);
    }
    let add = config.read(WORDS[3]).expect("it can be read");
    assert_eq!((add.flag, add.destination, add.source, add.number, add.value), (1, 6, 0, 0, 1));
    assert_eq!(refused(config.read(0x5800_0000)), (Refusal::NoRow, None));
    assert_eq!(refused(config.read(0x0000_0080)), (Refusal::BeyondLimit, None));
}

#[test]
fn eleven_steps_are_run_stepped_and_traced() {
    let image = six_words();
    let mut start = machine(&image);
    start.registers_mut()[2..5].copy_from_slice(&[7, 8, 9]);
    let mut run = start.clone();
    assert_eq!(run.run(11), Ok(Ran { steps: 11, cycles: 22 }));
    let record = run.record();
    assert_eq!((record.pc, record.rx, record.loaded, run.registers()[6]), (5, 5, 1, 19));
    assert_eq!(run.memory()[16..19], [7, 8, 9]);
    let mut stepped = start.clone();
    let cycles: u64 = (0..11).map(|_| stepped.step().expect("a step")).sum();
    assert_eq!((cycles, &stepped), (22, &run));
    let mut traced = start.clone();
    let steps: Result<Vec<_>, _> = traced.trace(11).collect();
    let steps = steps.expect("eleven steps");
    assert_eq!((steps.len(), &traced), (11, &run));
    // docs/commands.md
    assert_eq!(steps[0].to_string(), "1 2 000000 a2860010 MOV %06,#0010 ; %06=00000010");
    assert_eq!(steps[1].to_string(), "2 4 000001 9c041402 LDYX %04,%02 ; RX=02 RY=04 loaded=1");
    assert_eq!(
        steps[2].changes,
        [Change::Record { name: "RX", value: 3 }, Change::Memory { place: 16, value: 7 }]
    );
    assert_eq!(steps[2].to_string(), "3 6 000002 98061800 MOVX @%06,@%X+,S ; RX=03 &0010=00000007");
}

#[test]
fn the_certificate_is_checked() {
    let image = six_words();
    assert_eq!(image.check(&[0; 6]), Ok(0));
    assert_eq!(
        refused(image.check(&[0, 0, 0, 255, 0, 0])),
        (Refusal::RuleBroken, Some(Place::Rule { address: 2, rule: 4 }))
    );
    assert_eq!(refused(image.check(&[0; 5])), (Refusal::WrongLength, None));
    let text = image.check(&[0, 0, 0, 255, 0, 0]).expect_err("rule 4").to_string();
    assert!(text.starts_with("refused 17 address 000002 rule 4: "), "{text}");
}

/// One instruction on %01 and %02: what, width, word, %01, %02, result in %01, Z and N where they
/// are said.
type Case = (&'static str, u32, u32, u32, u32, u32, Option<u32>, Option<u32>);

const CASES: [Case; 10] = [
    ("ADD FFFFFFFF+1", 32, 0x4001_0002, 0xffff_ffff, 1, 0, Some(1), Some(1)),
    ("SUB 0-1", 32, 0x3001_0002, 0, 1, 0xffff_ffff, None, Some(1)),
    ("SUBS 80000000-1", 32, 0x3801_0002, 0x8000_0000, 1, 0x7fff_ffff, None, Some(1)),
    ("SUB 80000000-1", 32, 0x3001_0002, 0x8000_0000, 1, 0x7fff_ffff, None, Some(0)),
    ("SHR #1 of 1", 32, 0x8101_0001, 1, 0, 0, Some(0), None),
    ("SHL #1 of 1", 32, 0x8301_0001, 1, 0, 2, Some(1), None),
    ("CLZ 0000FFFF", 32, 0x9181_0002, 9, 0x0000_ffff, 16, Some(1), None),
    ("CLZ 00010000", 32, 0x9181_0002, 9, 0x0001_0000, 15, Some(0), None),
    ("ABS 80000000", 32, 0x9081_0002, 9, 0x8000_0000, 0x8000_0000, None, Some(1)),
    ("MUL C8*C8, W = 8", 8, 0x7001_0002, 0xc8, 0xc8, 0x40, None, None),
];

#[test]
fn the_cases_of_arithmetic() {
    for (what, width, word, first, second, result, z, n) in CASES {
        let mut machine = machine(&all_on(width, &[word]));
        machine.registers_mut()[1..3].copy_from_slice(&[first, second]);
        assert_eq!(machine.step(), Ok(2), "{what}");
        let record = machine.record();
        assert_eq!(machine.registers()[1], result, "{what}");
        assert_eq!(z.unwrap_or(record.z), record.z, "{what}");
        assert_eq!(n.unwrap_or(record.n), record.n, "{what}");
        assert_eq!(record.spr7, if width == 8 { 0x9c } else { 0 }, "{what}");
    }
}

#[test]
fn the_context_of_jsrwp() {
    let mut words = [0; 0x41];
    words[0x12] = 0xf102_0040;
    let mut machine = machine(&all_on(32, &words));
    let mut record = machine.record();
    (record.pc, record.n) = (0x12, 1);
    machine.set_record(&record);
    let step = machine.trace(1).next().expect("a step").expect("it is carried out");
    assert_eq!(step.to_string(), "1 2 000012 f1020040 JSRWP 0040,020 ; WP=020 %020=002f0013");
    assert_eq!((machine.record().pc, machine.record().wp), (0x40, 0x20));
}

#[test]
fn the_addresses_of_movx() {
    for (address, wanted) in [(0x20, Err(Refusal::DataAddress)), (0x1f, Ok(2))] {
        let mut machine = machine(&all_on(32, &[0x9806_1800]));
        machine.set_record(&yam::Record { loaded: 1, ..machine.record() });
        machine.registers_mut()[6] = address;
        assert_eq!(machine.step().map_err(|refused| refused.refusal), wanted);
    }
}

/// A port is read, another one written and the return stack pushed: inputs, log and stack in a
/// trace.
#[test]
fn ports_and_calls_are_traced() {
    let source = "MOVIO %01,@%00\nMOVIO @%02,%01\nJSR 000003\nRET";
    let config = all_on(32, &[0; 4]).config;
    let mut machine =
        machine(&Image::assemble(&config, source).expect("it is assembled")).with_inputs([0xabc]);
    machine.registers_mut()[2] = 5;
    let lines: Vec<String> = machine
        .trace(5)
        .map(|step| step.map_or_else(|refused| refused.to_string(), |step| step.to_string()))
        .collect();
    let wanted = [
        "1 3 000000 b1010000 MOVIO %01,@%00 ; taken=1 %001=00000abc",
        "2 5 000001 b8020001 MOVIO @%02,%01 ; posted=1 port=00000005 logged=1 log=00000005:00000abc",
        "3 7 000002 f0800003 JSR 000003 ; posted=0 port=00000000 depth=1 stack=000003",
        "4 9 000003 f0000000 RET ; depth=0",
        "refused 11 after 4 steps, 9 cycles: A return with the return stack empty",
    ];
    assert_eq!(lines, wanted);
    assert_eq!(machine.log().collect::<Vec<_>>(), [(5, 0xabc)]);
    assert_eq!(machine.record().returns(), [0; 0]);
}
