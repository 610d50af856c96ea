//! What is refused, with its number and place; odd lengths and values of every kind, none of which
//! panics.

use yam::{Config, Image, Instruction, Machine, Place, Record, Refusal, Refused};

const FILE: &[u8] = include_bytes!("../../../examples/six_words.img");
const MOST_STEPS: u64 = 1_000_000;

fn six_words() -> Image {
    Image::load(FILE).expect("the example is an image file")
}

fn machine() -> Machine {
    Machine::new(&six_words()).expect("the image has a machine")
}

fn refusal<T: std::fmt::Debug>(answer: Result<T, Refused>) -> Refusal {
    answer.expect_err("this is refused").refusal
}

/// A small generator of numbers (xorshift), so that the same ones are tried each time.
struct Numbers(u64);

impl Numbers {
    fn next(&mut self) -> u64 {
        self.0 ^= self.0 << 13;
        self.0 ^= self.0 >> 7;
        self.0 ^= self.0 << 17;
        self.0
    }

    /// Small, at an edge, or any.
    fn word(&mut self) -> u32 {
        let any = self.next() as u32;
        match self.next() % 4 {
            0 => any % 40,
            1 => [0, 1, u32::MAX, 1 << 31, 1 << 23, 32768, 32769, 65536][any as usize % 8],
            2 => 1 << (any % 32),
            _ => any,
        }
    }
}

#[test]
fn every_number_has_its_name_and_meaning() {
    let numbers: Vec<u32> = Refusal::ALL.iter().map(|refusal| refusal.number()).collect();
    assert_eq!(numbers, (1..=27).chain([36]).collect::<Vec<_>>());
    for refusal in Refusal::ALL {
        assert_eq!(Refusal::from_number(refusal.number()), Some(refusal));
        assert!(refusal.meaning().len() > 10);
    }
    assert_eq!(Refusal::from_number(0), None);
    assert_eq!(Refusal::from_number(28), Some(Refusal::Unknown(28)));
    assert_eq!(Refusal::Unknown(28).number(), 28);
    let error: Box<dyn std::error::Error> =
        Box::new(Refused { refusal: Refusal::Budget, place: None });
    assert_eq!(error.to_string(), "refused 16: A budget above 1,000,000");
}

#[test]
fn unlawful_configurations_are_refused_everywhere() {
    let unlawful =
        |im_size, rm_size, dm_size| Config { im_size, rm_size, dm_size, ..six_words().config };
    for config in [
        unlawful(0, 16, 32),
        unlawful(u32::MAX, 16, 32),
        unlawful(6, u32::MAX, 32),
        unlawful(6, 16, u32::MAX),
    ] {
        let image = Image { config, words: vec![0; 6] };
        assert_eq!(refusal(config.read(0)), Refusal::UnlawfulConfig);
        assert_eq!(refusal(config.write(&Instruction::default())), Refusal::UnlawfulConfig);
        assert_eq!(refusal(config.text(0)), Refusal::UnlawfulConfig);
        assert_eq!(refusal(config.assemble("RET")), Refusal::UnlawfulConfig);
        assert_eq!(refusal(Image::assemble(&config, "RET")), Refusal::UnlawfulConfig);
        assert_eq!(refusal(image.listing()), Refusal::UnlawfulConfig);
        assert_eq!(refusal(image.check(&[0; 6])), Refusal::UnlawfulConfig);
        assert_eq!(refusal(image.store()), Refusal::UnlawfulConfig);
        assert_eq!(refusal(Machine::new(&image)), Refusal::UnlawfulConfig);
    }
}

#[test]
fn images_of_another_length_are_refused() {
    for length in [0, 1, 5, 7, 32769] {
        let image = Image { config: six_words().config, words: vec![0; length] };
        assert_eq!(refusal(image.listing()), Refusal::WrongLength);
        assert_eq!(refusal(image.check(&vec![0; length])), Refusal::WrongLength);
        assert_eq!(refusal(image.store()), Refusal::WrongLength);
        assert_eq!(refusal(Machine::new(&image)), Refusal::WrongLength);
    }
}

#[test]
fn damaged_files_are_refused() {
    for length in (0..FILE.len()).chain([FILE.len() + 1, FILE.len() + 512, 1 << 20]) {
        let file: Vec<u8> = FILE.iter().copied().chain(std::iter::repeat(0)).take(length).collect();
        assert_eq!(refusal(Image::load(&file)), Refusal::FileLength, "{length} bytes");
    }
    for (byte, wanted) in [
        (0, Refusal::BlockNumber),
        (4, Refusal::BlockCheck),
        (512, Refusal::BlockNumber),
        (600, Refusal::BlockCheck),
    ] {
        let mut file = FILE.to_vec();
        file[byte] ^= 1;
        assert_eq!(refusal(Image::load(&file)), wanted, "byte {byte}");
    }
}

#[test]
fn the_assembler_says_the_line() {
    let config = six_words().config;
    for (wanted, source, line) in [
        (Refusal::SourceTooLong, "RET\n".repeat(7), None),
        (Refusal::LabelRepeated, "RET\nloop:\nFOO\nloop: RET".to_string(), Some(4)),
        (Refusal::LineForm, "RET\n\nRET ".to_string(), Some(3)),
        (Refusal::LabelUnknown, "RET\nloop: JMP lop".to_string(), Some(2)),
        (Refusal::OptionOff, "RET\nMUL %00,%01".to_string(), Some(2)),
        (Refusal::BeyondLimit, "RET\nJMP 000006".to_string(), Some(2)),
    ] {
        let refused = config.assemble(&source).expect_err("this is refused");
        assert_eq!((refused.refusal, refused.place), (wanted, line.map(Place::Line)), "{source}");
    }
    assert_eq!(config.assemble(""), Ok(vec![]));
    assert_eq!(refusal(config.assemble([0xff, 0x00, 0x80])), Refusal::LineForm);
}

#[test]
fn a_refused_step_changes_nothing() {
    let record = machine().record();
    let changes: [(Refusal, Record); 6] = [
        (Refusal::PcOutside, Record { pc: 6, ..record }),
        (Refusal::OutOfRange, Record { pc: 1 << 23, ..record }),
        (Refusal::OutOfRange, Record { depth: u32::MAX, ..record }),
        (Refusal::OutOfRange, Record { taken: u64::MAX, logged: u64::MAX, ..record }),
        (Refusal::OutOfRange, Record { loaded: 2, ..record }),
        (Refusal::IndexNotLoaded, Record { pc: 2, ..record }),
    ];
    for (wanted, changed) in changes {
        let mut machine = machine();
        machine.set_record(&changed);
        let before = machine.clone();
        assert_eq!(refusal(machine.step()), wanted);
        assert_eq!(machine, before);
        assert_eq!(machine.record(), changed);
        // What can be asked of such a record.
        assert!(machine.log().count() <= 256 && machine.record().returns().len() <= 63);
        let refused = machine.trace(1).next().expect("an item").expect_err("this is refused");
        assert_eq!(
            (refused.refusal, refused.place),
            (wanted, Some(Place::Run { steps: 0, cycles: 0 }))
        );
        assert_eq!(machine, before);
    }
}

#[test]
fn a_budget_above_the_limit_is_refused_at_once() {
    for budget in [MOST_STEPS + 1, u64::MAX] {
        let mut machine = machine();
        let before = machine.clone();
        assert_eq!(refusal(machine.run(budget)), Refusal::Budget);
        let items: Vec<_> = machine.trace(budget).collect();
        assert_eq!(items.len(), 1);
        assert_eq!(items[0].as_ref().map_err(|refused| refused.refusal), Err(Refusal::Budget));
        assert_eq!(machine, before);
    }
    assert_eq!(machine().run(MOST_STEPS).map(|ran| ran.steps), Ok(MOST_STEPS));
    assert_eq!(machine().trace(0).count(), 0);
}

#[test]
fn a_run_keeps_the_steps_before_its_stop() {
    let mut image = six_words();
    image.words[1] = 0;
    let mut machine = Machine::new(&image).expect("the image has a machine");
    let refused = machine.run(11).expect_err("MOVX before LDYX");
    assert_eq!((refused.number(), refused.place), (27, Some(Place::Run { steps: 2, cycles: 4 })));
    assert_eq!((machine.record().pc, machine.registers()[6]), (2, 16));
    let mut trace = machine.trace(11);
    assert!(trace.next().is_some_and(|item| item.is_err()));
    assert!(trace.next().is_none());
    machine.reset();
    assert_eq!((machine.record().pc, machine.registers()[6]), (0, 16));
}

#[test]
fn a_log_of_unlike_lists_is_refused() {
    let mut machine = machine().with_log([0; 2], [0; 1]);
    assert_eq!(refusal(machine.step()), Refusal::WrongLength);
    assert_eq!(refusal(machine.run(1)), Refusal::WrongLength);
    assert_eq!(machine.log().count(), 0);
    let mut empty = machine.with_log([], []);
    assert_eq!(empty.step(), Ok(2));
}

#[test]
fn cells_beyond_the_width_are_refused() {
    let config = Config { im_size: 1, reg_width: 8, ..Config::default() };
    let mut machine =
        Machine::new(&Image { config, words: vec![0] }).expect("the image has a machine");
    machine.memory_mut()[31] = 256;
    assert_eq!(refusal(machine.step()), Refusal::OutOfRange);
    machine.memory_mut()[31] = 255;
    assert_eq!(machine.step(), Ok(2));
}

/// Configurations, words, records and texts of every kind through every call.
#[test]
fn nothing_panics() {
    let mut numbers = Numbers(0x9e37_79b9_7f4a_7c15);
    let mut passed = [0; 8];
    for _ in 0..20_000 {
        let lawful = numbers.next() % 8 != 0;
        let mut fields = [0; yam::CONFIG_WORDS];
        fields.fill_with(|| numbers.word());
        let config = if lawful { six_words().config } else { Config::from_words(&fields) };
        assert_eq!(Config::from_words(&fields).to_words(), fields);
        let count = if lawful { 6 } else { numbers.next() as usize % 8 };
        let image = Image { config, words: (0..count).map(|_| numbers.word()).collect() };
        let word = numbers.next() as u32;
        // Random parts, or those of ADD %06,#0001 with one of them changed.
        let mut parts = [0; yam::INSTRUCTION_WORDS];
        parts.fill_with(|| numbers.word());
        if numbers.next() % 2 == 0 {
            let (at, part) = (numbers.next() as usize % parts.len(), parts[0]);
            parts = six_words().config.read(0x4686_0001).expect("it can be read").to_words();
            parts[at] = part;
        }
        let bytes: Vec<u8> = (0..numbers.next() % 40)
            .map(|_| b"RET\nloop:JMP 0%#,@ \x00\xff"[numbers.next() as usize % 21])
            .collect();
        passed[0] += usize::from(config.read(word).is_ok());
        passed[1] += usize::from(config.write(&Instruction::from_words(&parts)).is_ok());
        passed[2] += usize::from(config.text(word).is_ok());
        passed[3] += usize::from(config.assemble(&bytes).is_ok());
        passed[4] += usize::from(image.listing().is_ok());
        passed[5] += usize::from(image.store().is_ok());
        let _ = image.check(&bytes);
        assert!(Image::load(&bytes).is_err());
        let Ok(machine) = Machine::new(&image) else { continue };
        passed[6] += 1;
        let mut machine = machine.with_inputs([numbers.word()]);
        machine.registers_mut().fill_with(|| numbers.word());
        if numbers.next() % 2 == 0 {
            let mut words = [0; yam::MACHINE_WORDS];
            words.fill_with(|| numbers.word());
            let record = Record::from_words(&words);
            assert_eq!(record.to_words()[..=80], words[..=80]);
            machine.set_record(&record);
        }
        passed[7] += machine.trace(numbers.next() % 20).filter(|step| step.is_ok()).count();
        let _ = machine.run(numbers.next() % 20);
        let _ = (machine.log().count(), machine.record().returns().len());
    }
    assert!(passed.iter().all(|&count| count > 0), "each call passes for some: {passed:?}");
}
