//! Starts programs with a standard input and waits for what they print; a folder for the files that they are given.

use std::fs::File;
use std::io::Write;
use std::path::{Path, PathBuf};
use std::process::{Command, Stdio};
use std::sync::atomic::{AtomicU32, Ordering};
use std::thread;

/// The bytes of the pieces in which a pipe gives a program its input, by turns.
const PIECES: [usize; 4] = [1, 511, 4_096, 70_000];

/// How a program is given its standard input.
#[derive(Clone, Copy, Debug, PartialEq, Eq)]
pub enum Way {
    File,
    Pipe,
}

/// What a program printed, and its exit status.
#[derive(Clone, Debug, PartialEq, Eq)]
pub struct Printed {
    pub output: Vec<u8>,
    pub error: Vec<u8>,
    pub status: Option<i32>,
}

/// A folder of its own for files; kept where it is not removed.
pub struct Scratch {
    pub folder: PathBuf,
}

impl Scratch {
    pub fn new() -> Result<Scratch, String> {
        static MADE: AtomicU32 = AtomicU32::new(0);
        let number = MADE.fetch_add(1, Ordering::Relaxed);
        let folder = std::env::temp_dir().join(format!("yam_harness_{}_{number}", std::process::id()));
        std::fs::create_dir_all(&folder).map_err(|e| format!("{}: {e}", folder.display()))?;
        Ok(Scratch { folder })
    }

    pub fn file(&self, name: &str, bytes: &[u8]) -> Result<PathBuf, String> {
        let path = self.folder.join(name);
        std::fs::write(&path, bytes).map_err(|e| format!("{}: {e}", path.display()))?;
        Ok(path)
    }

    pub fn remove(&self) {
        let _ = std::fs::remove_dir_all(&self.folder);
    }

    /// Starts a program with this standard input and waits for its end.
    pub fn run(&self, command: &mut Command, input: &[u8], way: Way) -> Result<Printed, String> {
        match way {
            Way::File => {
                let path = self.file("input", input)?;
                command.stdin(open(&path)?);
                wait(command, &[])
            }
            Way::Pipe => {
                command.stdin(Stdio::piped());
                wait(command, input)
            }
        }
    }
}

pub fn open(path: &Path) -> Result<File, String> {
    File::open(path).map_err(|e| format!("{}: {e}", path.display()))
}

/// Starts a program whose standard input was chosen, and waits for its end. The input is written to it where it is a pipe.
pub fn wait(command: &mut Command, input: &[u8]) -> Result<Printed, String> {
    command.stdout(Stdio::piped()).stderr(Stdio::piped());
    let mut child = command.spawn().map_err(|e| format!("{command:?}: {e}"))?;
    let pipe = child.stdin.take();
    let output = thread::scope(|scope| {
        if let Some(mut pipe) = pipe {
            // A program that has read as much as it takes may end before the rest is written.
            scope.spawn(move || pieces(input).try_for_each(|piece| pipe.write_all(piece)));
        }
        child.wait_with_output()
    });
    let output = output.map_err(|e| format!("{command:?}: {e}"))?;
    Ok(Printed { output: output.stdout, error: output.stderr, status: output.status.code() })
}

/// The input in pieces of different lengths.
pub fn pieces(input: &[u8]) -> impl Iterator<Item = &[u8]> {
    let mut rest = input;
    PIECES.into_iter().cycle().map_while(move |length| {
        let (piece, after) = rest.split_at(length.min(rest.len()));
        rest = after;
        (!piece.is_empty()).then_some(piece)
    })
}

/// How bytes that were printed are not the wanted ones; None where they are.
pub fn bytes_differ(printed: &[u8], wanted: &[u8]) -> Option<String> {
    const SHOWN: usize = 60;
    if printed == wanted {
        return None;
    }
    let place = printed.iter().zip(wanted).take_while(|(a, b)| a == b).count();
    let shown = |bytes: &[u8]| String::from_utf8_lossy(&bytes[place..bytes.len().min(place + SHOWN)]).into_owned();
    let lengths = (printed.len(), wanted.len());
    Some(format!("from byte {place} on it prints {:?}, the model {:?} (lengths {lengths:?})", shown(printed), shown(wanted)))
}

#[cfg(test)]
mod tests {
    use super::*;

    #[test]
    fn pieces_are_the_input() {
        let input: Vec<u8> = (0..200_000u32).map(|i| (i % 251) as u8).collect();
        assert_eq!(pieces(&input).collect::<Vec<_>>().concat(), input);
        assert_eq!(pieces(&[]).count(), 0);
    }
}
