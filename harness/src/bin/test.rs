//! Compares the library with the model call by call.
//!
//! usage: test [--count N] [--seed S] [--vectors DIR] [--programs DIR] [--yam PATH] [--walk FILE] [--case SUBJECT:SEED]
//!   --count    how many comparisons, at least (2,200,000)
//!   --seed     where the cases start from (1)
//!   --vectors  runs outside vectors as well, through the model and through the library
//!   --programs runs the programs of that folder as well, those of docs/commands.md
//!   --yam      calls that ./yam as a user would
//!   --walk     runs the commands that this document shows; may be given more than once
//!   --case     runs one case again, as a difference names it
//!
//! Exit status 1 on any difference, or where something that is counted was never met.

use std::path::{Path, PathBuf};
use std::process::ExitCode;
use yam_harness::calls::Calls;
use yam_harness::cases::{Subject, SUBJECTS};
use yam_harness::compare::Pair;
use yam_harness::contexts::ContextsSeen;
use yam_harness::demand::{DemandSeen, POSSIBLE as POSSIBLE_BY_DEMAND};
use yam_harness::model::Model;
use yam_harness::random::Random;
use yam_harness::runs::{RunsSeen, LATE};
use yam_harness::seen::{Counts, Seen};
#[cfg(any(feature = "library", feature = "plain"))]
use yam_harness::stack;
use yam_harness::sums_seen::SumsSeen;
use yam_harness::{
    commands, document, document_bytes, document_contexts, document_index, document_sums, document_targets, document_texts,
    programs, refusals, signatures, vectors, walk, LIBRARY, LIBRARY_NAME, SHOWN,
};

/// How much of a difference is printed.
const SHOWN_BYTES: usize = 3000;

struct Options {
    count: u64,
    seed: u64,
    vectors: Option<PathBuf>,
    programs: Option<PathBuf>,
    yam: Option<PathBuf>,
    walk: Vec<PathBuf>,
    case: Option<(String, u64)>,
}

fn options() -> Result<Options, String> {
    let mut options =
        Options { count: 2_200_000, seed: 1, vectors: None, programs: None, yam: None, walk: Vec::new(), case: None };
    let mut arguments = std::env::args().skip(1);
    while let Some(name) = arguments.next() {
        let value = arguments.next().ok_or(format!("{name} wants a value"))?;
        match name.as_str() {
            "--count" => options.count = number(&value)?,
            "--seed" => options.seed = number(&value)?,
            "--vectors" => options.vectors = Some(PathBuf::from(value)),
            "--programs" => options.programs = Some(PathBuf::from(value)),
            "--yam" => options.yam = Some(PathBuf::from(value)),
            "--walk" => options.walk.push(PathBuf::from(value)),
            "--case" => {
                let (subject, seed) = value.split_once(':').ok_or("a case is SUBJECT:SEED")?;
                options.case = Some((subject.to_string(), number(seed)?));
            }
            _ => {
                let known = "--count N, --seed S, --vectors DIR, --programs DIR, --yam PATH, --walk FILE, --case SUBJECT:SEED";
                return Err(format!("{name} is no option: {known}"));
            }
        }
    }
    Ok(options)
}

fn number(text: &str) -> Result<u64, String> {
    let parsed = match text.strip_prefix("0x") {
        Some(digits) => u64::from_str_radix(digits, 16),
        None => text.parse(),
    };
    parsed.map_err(|_| format!("{text} is no number"))
}

fn main() -> ExitCode {
    #[cfg(any(feature = "library", feature = "plain"))]
    if std::env::args().nth(1).is_some_and(|argument| argument == stack::INSIDE) {
        stack::inside(&yam_harness::c_interface::Library);
        return ExitCode::SUCCESS;
    }
    match options().and_then(|options| test(&options)) {
        Ok(true) => ExitCode::SUCCESS,
        Ok(false) => ExitCode::FAILURE,
        Err(why) => {
            eprintln!("{why}");
            ExitCode::from(2)
        }
    }
}

/// True where nothing differs.
fn test(options: &Options) -> Result<bool, String> {
    let mut good = run_document("model", &Model) & run_refusals("model", &Model) & refusals_name_calls() & signatures::report();
    if let Some(library) = LIBRARY {
        good &= run_document(LIBRARY_NAME, library) & run_refusals(LIBRARY_NAME, library);
    }
    #[cfg(any(feature = "library", feature = "plain"))]
    {
        good &= stack::report()?;
    }
    if let Some(folder) = &options.vectors {
        good &= run_vectors("model", &Model, folder)?;
        if let Some(library) = LIBRARY {
            good &= run_vectors(LIBRARY_NAME, library, folder)?;
        }
    }
    match &options.programs {
        Some(folder) => good &= programs::run(folder)?,
        None => println!("the programs were not given (--programs DIR): not run"),
    }
    match &options.yam {
        Some(yam) => good &= commands::run(yam)?,
        None => println!("yam was not given (--yam PATH): not called"),
    }
    for document in &options.walk {
        good &= walk::run(document)?;
    }
    if options.walk.is_empty() {
        println!("no document was given (--walk FILE): none walked through");
    }
    let Some(library) = LIBRARY else {
        println!("the library was left out of this build: nothing is compared with the model");
        let given = [&options.vectors, &options.programs, &options.yam].iter().any(|path| path.is_some());
        return if given || !options.walk.is_empty() { Ok(good) } else { Err("nothing was done".to_string()) };
    };
    println!("the model beside the {LIBRARY_NAME}:");
    let mut pair = Pair::new(&Model, library);
    let differences = match &options.case {
        Some((subject, seed)) => one_case(&mut pair, subject, *seed)?,
        None => many_cases(&mut pair, options),
    };
    for (index, difference) in differences.iter().enumerate().take(SHOWN) {
        let whole = options.case.is_some() || difference.len() <= SHOWN_BYTES;
        let shown: String = if whole { difference.clone() } else { difference.chars().take(SHOWN_BYTES).collect() };
        println!("difference {}: {shown}{}", index + 1, if whole { "" } else { " ..." });
    }
    print_counts(&pair.seen.numbers);
    pair.seen.print();
    let seen = pair.demand;
    println!(
        "demand 3: {} programs passed, {} of them reached the level at 0 (where above 0), {} calls, {} steps",
        seen.programs, seen.reached, seen.calls, seen.steps
    );
    for (call, counts) in ["step", "run"].iter().zip(seen.answered) {
        let each = POSSIBLE_BY_DEMAND.iter().zip(counts).map(|(number, count)| format!("{number}: {count}"));
        println!("  by {call}: {}", each.collect::<Vec<_>>().join(", "));
    }
    println!("  MOVX carried out: {}", seen.movx);
    let texts = pair.texts;
    println!(
        "source text: plain C's assembler as the model on {} texts; {} listings of {} words read back, {} refused by 26; {} texts \
         without labels give {} words whose texts are their lines",
        texts.plain, texts.back, texts.back_words, texts.unreadable, texts.printed, texts.printed_lines
    );
    let runs = pair.runs;
    println!(
        "runs made again by single steps: {}, {} steps, {} into special-register mode and {} out of it, {} off the image's end, {} to far \
         addresses, {} of them alike modulo 512; {} with a MOVX after their first LDYX; after {LATE} steps or more {} were stopped by 5, \
         {} by 6, {} by 7, {} by 27",
        runs.runs,
        runs.steps,
        runs.entered,
        runs.left,
        runs.off_end,
        runs.leaps,
        runs.leaps_alike,
        runs.loaded,
        runs.late[0],
        runs.late[1],
        runs.late[2],
        runs.late[3]
    );
    let contexts = pair.contexts;
    contexts.print();
    let sums = pair.sums;
    sums.print();
    println!("{} comparisons, {} cases with a difference", pair.compared, differences.len());
    let met = options.case.is_some()
        || every_number_met(&pair.seen.numbers)
            & all_met(&pair.seen)
            & runs_met(&runs)
            & demand_met(&seen)
            & contexts_met(&contexts)
            & sums_met(&sums);
    Ok(good && met && differences.is_empty())
}

fn run_case(pair: &mut Pair, subject: &Subject, seed: u64) -> Result<(), String> {
    (subject.case)(pair, &mut Random::new(seed)).map_err(|how| format!("--case {}:{seed:#x}\n  {how}", subject.name))
}

fn one_case(pair: &mut Pair, name: &str, seed: u64) -> Result<Vec<String>, String> {
    let subject = SUBJECTS.iter().find(|s| s.name == name).ok_or(format!("{name} is no subject"))?;
    Ok(run_case(pair, subject, seed).err().into_iter().collect())
}

fn many_cases(pair: &mut Pair, options: &Options) -> Vec<String> {
    let mut seeds = Random::new(options.seed);
    let mut differences = Vec::new();
    while pair.compared < options.count {
        for subject in &SUBJECTS {
            for _ in 0..subject.weight {
                differences.extend(run_case(pair, subject, seeds.wide()).err());
            }
        }
    }
    differences
}

fn print_counts(counts: &Counts) {
    for (call, numbers) in counts {
        let all: u64 = numbers.values().sum();
        let each: Vec<String> = numbers.iter().map(|(number, count)| format!("{number}: {count}")).collect();
        println!("{call:8} {all:8}   {}", each.join(", "));
    }
}

/// The numbers that each call can answer; 23 is none of them, since no text is that long.
const POSSIBLE: [(&str, &[u32]); 11] = [
    ("read", &[0, 1, 5, 6, 7]),
    ("write", &[0, 1, 5, 6, 7]),
    ("reset", &[0, 3]),
    ("step", &[0, 1, 2, 3, 4, 5, 6, 7, 8, 9, 10, 11, 12, 13, 14, 15, 27]),
    ("run", &[0, 1, 2, 3, 4, 5, 6, 7, 8, 9, 10, 11, 12, 13, 14, 15, 16, 27]),
    ("check", &[0, 1, 2, 17]),
    ("text", &[0, 1, 5, 6, 7, 18]),
    ("list", &[0, 1, 2, 18]),
    ("load", &[0, 1, 2, 19, 20, 21, 22]),
    ("store", &[0, 1, 2, 19]),
    ("assemble", &[0, 1, 6, 7, 24, 25, 26, 36]),
];

fn every_number_met(counts: &Counts) -> bool {
    let mut met = true;
    for (call, numbers) in POSSIBLE {
        let seen = |number: &&u32| counts.get(call).is_some_and(|answered| answered.contains_key(number));
        for number in numbers.iter().filter(|number| !seen(number)) {
            println!("{call} never answered {number}");
            met = false;
        }
        for number in counts.get(call).into_iter().flat_map(|answered| answered.keys()).filter(|number| !numbers.contains(number))
        {
            println!("{call} answered {number}, which it is not known to");
            met = false;
        }
    }
    if met {
        println!("every call answered every number that it can, 0 to 22, 24 to 27 and 36, and no other");
    }
    met
}

fn all_met(seen: &Seen) -> bool {
    let unmet = seen.unmet();
    for what in unmet.iter().take(SHOWN) {
        println!("never met: {what}");
    }
    if unmet.len() > SHOWN {
        println!("never met: {} more", unmet.len() - SHOWN);
    }
    unmet.is_empty()
}

fn runs_met(runs: &RunsSeen) -> bool {
    if !runs.all_met() {
        println!("the runs never met something that is counted of them: {runs:?}");
    }
    runs.all_met()
}

fn demand_met(seen: &DemandSeen) -> bool {
    if !seen.all_met() {
        println!("the lists of demand 3 never met something that is counted of them: {seen:?}");
    }
    seen.all_met()
}

fn contexts_met(seen: &ContextsSeen) -> bool {
    if !seen.all_met() {
        println!("the programs of K6 never met something that is counted of them: {seen:?}");
    }
    seen.all_met()
}

fn sums_met(seen: &SumsSeen) -> bool {
    if !seen.all_met() {
        println!("the programs of K8 never met something that is counted of them: {seen:?}");
    }
    seen.all_met()
}

fn run_document(name: &str, calls: &dyn Calls) -> bool {
    let result = document::run(calls);
    match &result {
        Ok(()) => println!("document 01's cases, {name}: as it says"),
        Err(how) => println!("document 01's cases, {name}: {how}"),
    }
    let texts = document_texts::run(calls);
    match &texts {
        Ok(count) => println!("source texts by document 02, {name}: all {count} as it says"),
        Err(how) => println!("source texts by document 02, {name}: {how}"),
    }
    let targets = document_targets::run(calls);
    match &targets {
        Ok(()) => println!("direct targets by document 02, {name}: as it says"),
        Err(how) => println!("direct targets by document 02, {name}: {how}"),
    }
    let bytes = document_bytes::run(calls);
    match &bytes {
        Ok(count) => println!("BLDS of every byte by document 02, {name}: all {count} as it says"),
        Err(how) => println!("BLDS of every byte by document 02, {name}: {how}"),
    }
    let index = document_index::run(calls);
    match &index {
        Ok(count) => println!("index pointers by document 02, {name}: all {count} as it says"),
        Err(how) => println!("index pointers by document 02, {name}: {how}"),
    }
    let contexts = document_contexts::run(calls);
    match &contexts {
        Ok(count) => println!("context switches by document 02, {name}: all {count} as it says"),
        Err(how) => println!("context switches by document 02, {name}: {how}"),
    }
    let sums = document_sums::run(calls);
    match &sums {
        Ok(count) => println!("double-length sums by document 02, {name}: all {count} as it says"),
        Err(how) => println!("double-length sums by document 02, {name}: {how}"),
    }
    result.is_ok() && texts.is_ok() && targets.is_ok() && bytes.is_ok() && index.is_ok() && contexts.is_ok() && sums.is_ok()
}

fn run_refusals(name: &str, calls: &dyn Calls) -> bool {
    let result = refusals::run(calls);
    match &result {
        Ok(count) => println!("the examples of docs/refusals.md, {name}: all {count} as they say"),
        Err(how) => println!("the examples of docs/refusals.md, {name}: {how}"),
    }
    result.is_ok()
}

/// Whether docs/refusals.md names, beside each number, exactly the calls that can answer it.
fn refusals_name_calls() -> bool {
    let lines = match refusals::lines() {
        Ok(lines) => lines,
        Err(how) => {
            println!("{how}");
            return false;
        }
    };
    let mut right = true;
    for line in lines {
        let able: Vec<&str> =
            POSSIBLE.iter().filter(|(_, numbers)| numbers.contains(&line.number)).map(|(call, _)| *call).collect();
        if line.calls != able {
            println!("docs/refusals.md, {}: calls {:?}, and they are {able:?}", line.number, line.calls);
            right = false;
        }
    }
    right
}

fn run_vectors(name: &str, calls: &dyn Calls, folder: &Path) -> Result<bool, String> {
    let report = vectors::run(calls, folder)?;
    println!("vectors, {name}:");
    for (file, numbers) in &report.counts {
        let all: u32 = numbers.values().sum();
        let each: Vec<String> = numbers.iter().map(|(number, count)| format!("{number}: {count}")).collect();
        println!("  {file:13} {all:4}   {}", each.join(", "));
    }
    for line in &report.left_out {
        println!("  left out, since the interface cannot say it: {line}");
    }
    println!("  {} lines and images of before K2 left out, since it may answer them otherwise", report.superseded);
    for difference in report.differences.iter().take(SHOWN) {
        println!("  differs: {}", difference.chars().take(SHOWN_BYTES).collect::<String>());
    }
    println!("  {} differences", report.differences.len());
    Ok(report.differences.is_empty())
}
