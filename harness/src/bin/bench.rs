//! The library beside plain C programs that do the same. Times, in one process and by turns: the best nanoseconds a unit of each, and the
//! median of the rounds' ratios (library to plain). Then instructions, counted under callgrind, with their bounds.
//!
//! usage: bench [--rounds N] [--times | --counts]
//!   --rounds   how many rounds are timed (21)
//!   --times    times only
//!   --counts   counts only
//!
//! Exit status 1 where a count is more than 3% above its bound, 3 where valgrind is not on the machine, so that nothing was counted, 2 where
//! something else is wrong.

use std::process::ExitCode;

const USAGE: &str = "usage: bench [--rounds N] [--times | --counts]";

struct Options {
    rounds: usize,
    times: bool,
    counts: bool,
}

fn options(arguments: &[String]) -> Result<Options, String> {
    let mut options = Options { rounds: 21, times: true, counts: true };
    let mut arguments = arguments.iter();
    while let Some(name) = arguments.next() {
        match name.as_str() {
            "--rounds" => match arguments.next().map(|value| value.parse()) {
                Some(Ok(rounds)) if rounds > 0 => options.rounds = rounds,
                _ => return Err(USAGE.to_string()),
            },
            "--times" => options.counts = false,
            "--counts" => options.times = false,
            _ => return Err(USAGE.to_string()),
        }
    }
    if options.times || options.counts {
        Ok(options)
    } else {
        Err(USAGE.to_string())
    }
}

fn main() -> ExitCode {
    let arguments: Vec<String> = std::env::args().skip(1).collect();
    match bench(&arguments) {
        Ok(status) => status,
        Err(why) => {
            eprintln!("{why}");
            ExitCode::from(2)
        }
    }
}

#[cfg(any(feature = "library", feature = "plain"))]
fn bench(arguments: &[String]) -> Result<ExitCode, String> {
    use yam_harness::{c_interface::Library, speed};
    if arguments == [speed::INSIDE] {
        speed::count_all(&Library);
        return Ok(ExitCode::SUCCESS);
    }
    let options = options(arguments)?;
    if options.times {
        speed::report_times(&Library, options.rounds)?;
    }
    if !options.counts {
        return Ok(ExitCode::SUCCESS);
    }
    Ok(match speed::report_counts()? {
        speed::Verdict::Within => ExitCode::SUCCESS,
        speed::Verdict::Over => ExitCode::FAILURE,
        speed::Verdict::NotCounted => ExitCode::from(3),
    })
}

#[cfg(not(any(feature = "library", feature = "plain")))]
fn bench(arguments: &[String]) -> Result<ExitCode, String> {
    let Options { .. } = options(arguments)?;
    Err("the library was left out of this build: there is nothing to time".to_string())
}
