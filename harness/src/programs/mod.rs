//! Runs the programs of docs/commands.md, and compares what they print with what the model says; and lets their reads and writes fail.

pub mod cases;
mod certificates;
mod failing;
pub mod given;
mod packs;
mod replay;
pub mod runs;
pub mod seen;
#[cfg(test)]
mod trials;

use crate::model::commands::Mode;
use crate::processes::{bytes_differ, Printed, Scratch, Way};
use given::{Given, Outcome};
use seen::ProgramsSeen;
use std::path::{Path, PathBuf};
use std::process::Command;

/// Where the programs are, and a folder for what they are given.
struct Place {
    programs: PathBuf,
    scratch: Scratch,
}

/// How what was printed is not what the model says; None where it is.
fn difference(printed: &Printed, wanted: &[u8]) -> Option<String> {
    if let Some(how) = bytes_differ(&printed.output, wanted) {
        return Some(how);
    }
    if !printed.error.is_empty() {
        return Some(format!("on standard error it prints {:?}", String::from_utf8_lossy(&printed.error)));
    }
    (printed.status != Some(0)).then(|| format!("it ends with status {:?}", printed.status))
}

impl Place {
    /// What a program prints for what it is given.
    fn printed(&self, given: &Given, way: Way) -> Result<Printed, String> {
        let mut command = Command::new(self.programs.join(given.program()));
        command.args(given.arguments(&self.scratch)?);
        self.scratch.run(&mut command, given.input(), way)
    }

    /// Keeps what a program was given, and says where.
    fn keep(&self, given: &Given, number: usize) -> Result<String, String> {
        let input = self.scratch.file(&format!("case_{number}"), given.input())?;
        let argument = given.file().map(|bytes| self.scratch.file(&format!("case_{number}_argument"), bytes)).transpose()?;
        let more = argument.map_or(String::new(), |path| format!(", argument {}", path.display()));
        Ok(format!("{}{more}", input.display()))
    }
}

/// How a trace does not come to its own report.
fn not_replayed(given: &Given, printed: &Printed) -> Option<String> {
    let Given::Run { mode: Mode::Trace, .. } = given else { return None };
    let Outcome::Ended(_) = given.outcome(&printed.output) else { return None };
    replay::difference(&String::from_utf8_lossy(&printed.output))
}

/// Runs every case in both ways.
fn run_cases(place: &Place, seen: &mut ProgramsSeen) -> Result<Vec<String>, String> {
    let mut differences = Vec::new();
    for case in cases::all() {
        let wanted = case.given.wanted();
        for way in [Way::File, Way::Pipe] {
            let printed = place.printed(&case.given, way)?;
            seen.count(&case.given, &printed.output);
            if let Some(how) = difference(&printed, &wanted).or_else(|| not_replayed(&case.given, &printed)) {
                let kept = place.keep(&case.given, differences.len())?;
                differences.push(format!("{}, {} ({way:?}, {kept}): {how}", case.given.program(), case.name));
            }
        }
    }
    Ok(differences)
}

/// Runs the programs of a folder. True where they print what they should, and each number and change that they can was met.
pub fn run(folder: &Path) -> Result<bool, String> {
    let place = Place { programs: folder.to_path_buf(), scratch: Scratch::new()? };
    let mut seen = ProgramsSeen::default();
    let mut differences = run_cases(&place, &mut seen)?;
    println!("the programs beside the model, standard input from a file and from a pipe:");
    seen.print();
    let unmet = seen.unmet();
    for what in unmet.iter().take(crate::SHOWN) {
        println!("not met: {what}");
    }
    differences.extend(failing::run(&place)?);
    for difference in differences.iter().take(crate::SHOWN) {
        println!("differs: {difference}");
    }
    println!("{} differences, {} not met", differences.len(), unmet.len());
    if differences.is_empty() {
        place.scratch.remove();
    }
    Ok(unmet.is_empty() && differences.is_empty())
}

#[cfg(test)]
mod tests {
    use super::*;

    fn printed(output: &str, error: &str, status: i32) -> Printed {
        Printed { output: output.into(), error: error.into(), status: Some(status) }
    }

    #[test]
    fn what_is_printed_otherwise_is_found() {
        let wanted = b"refused 19\n";
        assert_eq!(difference(&printed("refused 19\n", "", 0), wanted), None);
        for other in [
            printed("refused 19", "", 0),
            printed("refused 19\n\n", "", 0),
            printed("", "", 0),
            printed("refused 20\n", "", 0),
            printed("refused 19\n", "a word", 0),
            printed("refused 19\n", "", 1),
        ] {
            assert!(difference(&other, wanted).is_some());
        }
    }
}
