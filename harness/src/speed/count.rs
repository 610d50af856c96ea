//! Counts instructions: this program runs itself under callgrind, does each work at two sizes between marks, and takes the difference of the
//! two counts, so that what does not grow with the size falls out.

use super::images::Whole;
use super::programs::{
    chain, config, image, narrow_config, program, signed_bytes, spread_programs, CHAIN, LONG_IMAGE, NAMES, ODD_IMAGE, SHORT_IMAGE,
};
use super::runs::Work;
use super::texts::text;
use crate::c_interface::Plain;
use crate::calls::Calls;
use crate::model::config::Config;
use crate::random::Random;
use std::process::Command;

/// The argument that makes the program do the works and nothing else.
pub const INSIDE: &str = "--count-inside";

/// What is done `size` times.
enum What {
    /// One step of one run.
    Steps(Work),
    /// A call of `step` that answers this number.
    StepCall(Work, u32),
    /// A call of `run` with this budget.
    RunCall(Work, u64),
    /// A call for a whole image or text.
    Check(Whole),
    List(Whole),
    Load(Whole),
    /// A word read.
    Read(Whole),
    Assemble(Vec<u8>),
}

/// A work with its name, the sizes it is done at, and how many units one of `size` has.
pub struct Case {
    pub name: String,
    sizes: (u64, u64),
    units: u64,
    what: What,
}

/// Instructions a unit.
#[derive(Clone, Copy)]
pub struct Counted {
    pub library: f64,
    pub plain: f64,
}

/// Steps of the arithmetic program, and short runs, one call each.
fn call_cases() -> Vec<Case> {
    let case = |name: String, what: What| Case { name, sizes: (200, 400), units: 1, what };
    let work = |width: u32, dm_size: u32| {
        let config = if width == 32 { config(SHORT_IMAGE, dm_size) } else { narrow_config(SHORT_IMAGE, dm_size) };
        Work::new(config, image(SHORT_IMAGE, &[(0, &program("arithmetic", dm_size))]), 0)
    };
    let mut list: Vec<Case> = [(32, 32), (32, 32_768), (16, 32), (16, 32_768)]
        .map(|(width, dm_size)| {
            case(format!("step, W {width}, DM_SIZE {dm_size}, a call"), What::StepCall(work(width, dm_size), 0))
        })
        .into();
    for number in [1, 2] {
        let name = format!("step refused by {number}, W 16, DM_SIZE 32768, a call");
        list.push(case(name, What::StepCall(work(16, 32_768).refused(number), number)));
    }
    let mut places = vec![];
    for im_size in [SHORT_IMAGE, LONG_IMAGE] {
        places.push(("arithmetic", im_size, image(im_size, &[(0, &program("arithmetic", 32))])));
    }
    places.extend(spread_programs().into_iter().map(|(name, image)| (name, LONG_IMAGE, image)));
    for (name, im_size, image) in places {
        for budget in [10, 100, 1_000] {
            let work = Work::new(config(im_size, 32), image.clone(), 0);
            list.push(case(format!("run of {budget} steps, {name}, IM_SIZE {im_size}, a call"), What::RunCall(work, budget)));
        }
    }
    list
}

/// Every case, in the order in which they are done and printed.
pub fn cases() -> Vec<Case> {
    const STEPS: (u64, u64) = (20_000, 120_000);
    let steps = |name: String, im_size: u32, image: Vec<u32>| {
        let what = What::Steps(Work::new(config(im_size, 32), image, STEPS.1));
        Case { name: format!("run, {name}, IM_SIZE {im_size}, a step"), sizes: STEPS, units: 1, what }
    };
    let mut list = Vec::new();
    for im_size in [SHORT_IMAGE, LONG_IMAGE] {
        list.extend(NAMES.map(|name| steps(name.to_string(), im_size, image(im_size, &[(0, &program(name, 32))]))));
    }
    list.push(steps("calls".to_string(), ODD_IMAGE, image(ODD_IMAGE, &[(0, &program("calls", 32))])));
    list.push(steps("byte loads with sign".to_string(), SHORT_IMAGE, image(SHORT_IMAGE, &[(0, &signed_bytes())])));
    list.extend(spread_programs().into_iter().map(|(name, image)| steps(name.to_string(), LONG_IMAGE, image)));
    let decoded = What::Steps(Work::new(config(CHAIN, 32), chain(), 0));
    let name = format!("run, each word a JMP to be decoded, IM_SIZE {CHAIN}, a step");
    list.push(Case { name, sizes: (500, u64::from(CHAIN)), units: 1, what: decoded });
    list.extend(call_cases());
    let once = |name: &str, units: u64, what: What| Case { name: name.to_string(), sizes: (1, 2), units, what };
    let size = 8_192;
    let whole = || Whole::new(size);
    list.push(once("check, an address", u64::from(size), What::Check(whole())));
    list.push(once("list, a line", u64::from(size), What::List(whole())));
    list.push(once("load, a word", u64::from(size), What::Load(whole())));
    list.push(Case { name: "read, a word".to_string(), sizes: (2_000, 4_000), units: 1, what: What::Read(whole()) });
    let c = Config::from_words(&config(size, 1024)).expect("nineteen words");
    for (name, with_labels) in [("assemble, a line without labels", false), ("assemble, a line with labels in a quarter", true)] {
        let source = text(&mut Random::new(13), &c, size as usize, with_labels);
        list.push(once(name, u64::from(size), What::Assemble(source)));
    }
    list
}

/// Callgrind writes out what it counted whenever this is entered. The number keeps two marks from being made one.
#[no_mangle]
#[inline(never)]
pub extern "C" fn yam_bench_mark(place: u32) {
    std::hint::black_box(place);
}
const MARK: &str = "yam_bench_mark";
/// Parts that a work on one side leaves: what came before it, the smaller size, the larger one.
const PARTS: usize = 3;

/// Does a work at both sizes, with marks before, between and after. The answer of each call is looked at.
fn counted<C: Calls>(calls: &C, case: &Case) {
    let sizes = [case.sizes.0, case.sizes.1];
    let between_marks = |work: &mut dyn FnMut(u64) -> bool| {
        yam_bench_mark(0);
        for (index, size) in sizes.into_iter().enumerate() {
            assert!(work(size), "{}: not the number that is expected", case.name);
            yam_bench_mark(index as u32 + 1);
        }
    };
    let mut answers = [0; 2];
    match &case.what {
        What::Steps(work) => between_marks(&mut |size| {
            let mut lists = work.start.clone();
            work.run(calls, &mut lists, size, &mut answers) == 0
        }),
        What::StepCall(work, number) => {
            let mut lists = work.start.clone();
            between_marks(&mut |size| (0..size).all(|_| work.step(calls, &mut lists, &mut answers) == *number))
        }
        What::RunCall(work, budget) => {
            let mut lists = work.start.clone();
            between_marks(&mut |size| (0..size).all(|_| work.run(calls, &mut lists, *budget, &mut answers) == 0))
        }
        What::Check(w) => between_marks(&mut |size| {
            (0..size).all(|_| calls.check(&w.config, &w.program.image, &w.program.sheet, &mut answers) == 0)
        }),
        What::List(w) => {
            let mut page = w.page();
            between_marks(&mut |size| {
                (0..size).all(|_| calls.list(&w.config, &w.program.image, 0, &mut page, 0, &mut answers) == 0)
            })
        }
        What::Load(w) => {
            let (mut config, mut image) = ([0; 19], w.program.image.clone());
            between_marks(&mut |size| (0..size).all(|_| calls.load(&w.file, &mut config, &mut image) == 0))
        }
        What::Read(w) => between_marks(&mut |size| {
            let words = &w.program.image[..size as usize];
            words.iter().fold(0, |sum, &word| sum | calls.read(&w.config, word, &mut [0; 6])) < 8
        }),
        What::Assemble(text) => {
            let mut words = vec![0; case.units as usize];
            let config = config(words.len() as u32, 1024);
            between_marks(&mut |size| (0..size).all(|_| calls.assemble(&config, text, &mut words, &mut answers) == 0))
        }
    }
}

/// Every work on both sides: what the program does under callgrind.
pub fn count_all<L: Calls>(library: &L) {
    for case in cases() {
        counted(library, &case);
        counted(&Plain, &case);
    }
}

/// Whether valgrind is on the machine.
pub fn can_count() -> bool {
    Command::new("valgrind").arg("--version").output().is_ok_and(|said| said.status.success())
}

/// The totals of all parts that callgrind wrote, in order.
fn parts() -> Result<Vec<u64>, String> {
    let program = std::env::current_exe().map_err(|e| format!("this program's own file: {e}"))?;
    let file = std::env::temp_dir().join(format!("yam_bench.{}.callgrind", std::process::id()));
    let said = Command::new("valgrind")
        .args(["--tool=callgrind", "--combine-dumps=yes", "--compress-strings=yes"])
        .arg(format!("--dump-before={MARK}"))
        .arg(format!("--callgrind-out-file={}", file.display()))
        .arg(program)
        .arg(INSIDE)
        .output()
        .map_err(|e| format!("valgrind: {e}"))?;
    let written = std::fs::read_to_string(&file);
    let _ = std::fs::remove_file(&file);
    if !said.status.success() {
        return Err(format!("counting failed: {}", String::from_utf8_lossy(&said.stderr)));
    }
    let written = written.map_err(|e| format!("{}: {e}", file.display()))?;
    let totals = written.lines().filter_map(|line| line.strip_prefix("totals:"));
    totals.map(|total| total.trim().parse().map_err(|_| format!("callgrind's total is {total}"))).collect()
}

/// Counts every case.
pub fn count() -> Result<Vec<(Case, Counted)>, String> {
    let (cases, parts) = (cases(), parts()?);
    let wanted = 2 * PARTS * cases.len();
    if parts.len() < wanted {
        return Err(format!("callgrind wrote {} parts, {wanted} are wanted", parts.len()));
    }
    let mut list = Vec::new();
    for (case, of_case) in cases.into_iter().zip(parts.chunks(2 * PARTS)) {
        let units = ((case.sizes.1 - case.sizes.0) * case.units) as f64;
        let side = |parts: &[u64]| (parts[2] as f64 - parts[1] as f64) / units;
        let counted = Counted { library: side(&of_case[..PARTS]), plain: side(&of_case[PARTS..]) };
        list.push((case, counted));
    }
    Ok(list)
}
