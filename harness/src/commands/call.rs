//! A call of `./yam` as a user would make it, and what it must come to.

use crate::processes::{bytes_differ, open, pieces, Printed, Scratch};
use std::fs::File;
use std::io::{Read, Write};
use std::os::unix::process::CommandExt;
use std::path::{Path, PathBuf};
use std::process::{Child, Command, Stdio};
use std::thread;
use std::time::{Duration, Instant};

/// How long a call may take, and how often it is asked for its end.
const LIMIT: Duration = Duration::from_secs(60);
const PAUSE: Duration = Duration::from_millis(1);

/// How a command is given one of its files.
#[derive(Clone, Copy, Debug, PartialEq, Eq)]
pub enum How {
    Named,
    Fifo,
    /// `-`, standard input from a file and from a pipe.
    Input,
    InputPipe,
    /// Standard input by the name of its device, from a pipe.
    Device,
}

/// Every way but by name.
pub const UNNAMED: [How; 4] = [How::Fifo, How::Input, How::InputPipe, How::Device];

#[derive(Clone, Debug)]
pub enum Argument {
    Text(String),
    File(Vec<u8>, How),
}

/// What standard output or standard error must hold.
#[derive(Clone, Debug, PartialEq, Eq)]
pub enum Text {
    Exactly(Vec<u8>),
    /// One line that starts with `yam: ` and has each of these in it, as words of their own.
    Line(Vec<String>),
    /// Something, with each of these in it.
    With(Vec<String>),
}

#[derive(Clone, Debug)]
pub struct Wanted {
    pub status: i32,
    pub output: Text,
    pub error: Text,
}

pub struct Call {
    pub name: String,
    pub arguments: Vec<Argument>,
    /// What a shell does with the standard streams, as `>/dev/full`; empty for nothing.
    pub redirections: &'static str,
    pub wanted: Wanted,
}

impl Text {
    pub fn nothing() -> Text {
        Text::Exactly(Vec::new())
    }

    fn difference(&self, stream: &str, printed: &[u8]) -> Option<String> {
        let text = String::from_utf8_lossy(printed);
        let lacks = |wanted: &[String], has: &dyn Fn(&str) -> bool| wanted.iter().find(|word| !has(word)).cloned();
        let how = match self {
            Text::Exactly(wanted) => bytes_differ(printed, wanted),
            Text::With(wanted) => match lacks(wanted, &|word| text.contains(word)) {
                _ if text.is_empty() => Some("it says nothing".to_string()),
                Some(word) => Some(format!("it does not say {word:?}: {text:?}")),
                None => None,
            },
            Text::Line(wanted) => match lacks(wanted, &|word| has_word(&text, word)) {
                _ if !text.starts_with("yam: ") || !text.ends_with('\n') || text.lines().count() != 1 => {
                    Some(format!("it is not one line from \"yam: \" on: {text:?}"))
                }
                Some(word) => Some(format!("it does not say {word:?}: {text:?}")),
                None => None,
            },
        };
        how.map(|how| format!("standard {stream}: {how}"))
    }
}

/// Whether a text has a word with no letter or digit beside it; commas within numbers are left out.
fn has_word(text: &str, word: &str) -> bool {
    let text = text.replace(',', "");
    let beside = |c: Option<char>| c.is_some_and(|c| c.is_ascii_alphanumeric());
    let alone =
        |(at, _): (usize, &str)| !beside(text[..at].chars().next_back()) && !beside(text[at + word.len()..].chars().next());
    let mut places = text.match_indices(word);
    places.any(alone)
}

impl Wanted {
    /// How a call came to something else.
    pub fn difference(&self, printed: &Printed) -> Option<String> {
        if printed.status != Some(self.status) {
            let error = String::from_utf8_lossy(&printed.error);
            return Some(format!("status {:?}, wanted {}; standard error: {error:?}", printed.status, self.status));
        }
        self.output.difference("output", &printed.output).or_else(|| self.error.difference("error", &printed.error))
    }
}

/// Where `./yam` is, a folder to call it in, and one for what it may put down meanwhile.
pub struct Caller {
    pub yam: PathBuf,
    pub scratch: Scratch,
    pub temporary: Scratch,
}

impl Caller {
    pub fn new(yam: &Path) -> Result<Caller, String> {
        let yam = yam.canonicalize().map_err(|e| format!("{}: {e}", yam.display()))?;
        Ok(Caller { yam, scratch: Scratch::new()?, temporary: Scratch::new()? })
    }

    /// What a call prints; with whatever is wrong with it beside that.
    pub fn make(&self, call: &Call) -> Result<(Printed, Option<String>), String> {
        let script = format!("exec \"$0\" \"$@\" {}", call.redirections);
        let mut command = Command::new("sh");
        command.arg("-c").arg(script).arg(&self.yam);
        command.current_dir(&self.scratch.folder).env("TMPDIR", &self.temporary.folder).stdin(Stdio::null());
        let mut input: &[u8] = &[];
        let mut fifo = None;
        for (number, argument) in call.arguments.iter().enumerate() {
            let name = format!("file {number}");
            match argument {
                Argument::Text(text) => command.arg(text),
                Argument::File(bytes, How::Named) => {
                    self.scratch.file(&name, bytes)?;
                    command.arg(name)
                }
                Argument::File(bytes, How::Input) => command.stdin(open(&self.scratch.file("input", bytes)?)?).arg("-"),
                Argument::File(bytes, How::InputPipe | How::Device) => {
                    input = bytes;
                    let device = matches!(argument, Argument::File(_, How::Device));
                    command.stdin(Stdio::piped()).arg(if device { "/dev/stdin" } else { "-" })
                }
                Argument::File(bytes, How::Fifo) => {
                    fifo = Some((self.fifo()?, bytes.as_slice()));
                    command.arg("fifo")
                }
            };
        }
        let printed = within_limit(&mut command, input, fifo)?;
        let left = self.left_behind()?;
        Ok((printed, left))
    }

    fn fifo(&self) -> Result<PathBuf, String> {
        let path = self.scratch.folder.join("fifo");
        let _ = std::fs::remove_file(&path);
        let status = Command::new("mkfifo").arg(&path).status().map_err(|e| format!("mkfifo: {e}"))?;
        if status.success() {
            Ok(path)
        } else {
            Err(format!("mkfifo: {status}"))
        }
    }

    /// Whether a call left a file behind, where it was made or in the folder for temporary files.
    fn left_behind(&self) -> Result<Option<String>, String> {
        let ours = |name: &str| name.starts_with("file ") || ["input", "fifo", "folder"].contains(&name);
        for folder in [&self.scratch.folder, &self.temporary.folder] {
            for entry in std::fs::read_dir(folder).map_err(|e| format!("{}: {e}", folder.display()))? {
                let path = entry.map_err(|e| e.to_string())?.path();
                let name = path.file_name().unwrap_or_default().to_string_lossy().into_owned();
                if !ours(&name) {
                    let _ = std::fs::remove_file(&path).or_else(|_| std::fs::remove_dir_all(&path));
                    return Ok(Some(format!("it leaves {} behind", path.display())));
                }
            }
        }
        Ok(None)
    }
}

/// Starts a command, gives it its input and what a FIFO holds, and waits for its end; ends it where it takes too long.
fn within_limit(command: &mut Command, input: &[u8], fifo: Option<(PathBuf, &[u8])>) -> Result<Printed, String> {
    command.stdout(Stdio::piped()).stderr(Stdio::piped()).process_group(0);
    let mut child = command.spawn().map_err(|e| format!("{command:?}: {e}"))?;
    let (stdin, stdout, stderr) = (child.stdin.take(), child.stdout.take(), child.stderr.take());
    thread::scope(|scope| {
        if let Some(mut pipe) = stdin {
            scope.spawn(move || pieces(input).try_for_each(|piece| pipe.write_all(piece)));
        }
        let writer = fifo.as_ref().map(|(path, bytes)| {
            scope.spawn(move || File::options().write(true).open(path).and_then(|mut file| file.write_all(bytes)))
        });
        let output = scope.spawn(move || all_of(stdout));
        let error = scope.spawn(move || all_of(stderr));
        let status = wait_or_end(&mut child);
        // A FIFO that was never read keeps its writer waiting until someone opens it.
        while writer.as_ref().is_some_and(|writer| !writer.is_finished()) {
            drop(fifo.as_ref().map(|(path, _)| File::options().read(true).write(true).open(path)));
            thread::sleep(PAUSE);
        }
        let taken = |bytes: thread::ScopedJoinHandle<Vec<u8>>| bytes.join().map_err(|_| "a reader failed".to_string());
        Ok(Printed { output: taken(output)?, error: taken(error)?, status: status? })
    })
}

fn all_of(stream: Option<impl Read>) -> Vec<u8> {
    let mut bytes = Vec::new();
    if let Some(mut stream) = stream {
        let _ = stream.read_to_end(&mut bytes);
    }
    bytes
}

/// The exit status; None where the call did not end in time and was ended with all that it had started.
fn wait_or_end(child: &mut Child) -> Result<Option<i32>, String> {
    let started = Instant::now();
    loop {
        match child.try_wait().map_err(|e| e.to_string())? {
            Some(status) => return Ok(status.code()),
            None if started.elapsed() < LIMIT => thread::sleep(PAUSE),
            None => {
                let group = format!("-{}", child.id());
                let _ = Command::new("kill").args(["-KILL", "--", &group]).status();
                let _ = child.wait();
                return Ok(None);
            }
        }
    }
}

#[cfg(test)]
mod tests {
    use super::*;

    fn printed(output: &str, error: &str, status: i32) -> Printed {
        Printed { output: output.into(), error: error.into(), status: Some(status) }
    }

    #[test]
    fn other_texts_and_statuses_are_found() {
        let error = Text::Exactly(b"yam: refused 19: The length of the image file\n".to_vec());
        let wanted = Wanted { status: 1, output: Text::Exactly(b"refused 19\n".to_vec()), error };
        let good = printed("refused 19\n", "yam: refused 19: The length of the image file\n", 1);
        assert_eq!(wanted.difference(&good), None);
        for other in [
            Printed { status: Some(0), ..good.clone() },
            Printed { status: None, ..good.clone() },
            Printed { output: b"refused 20\n".to_vec(), ..good.clone() },
            Printed { output: Vec::new(), ..good.clone() },
            Printed { error: b"yam: refused 19\n".to_vec(), ..good.clone() },
            Printed { error: Vec::new(), ..good.clone() },
        ] {
            assert!(wanted.difference(&other).is_some(), "{other:?}");
        }
    }

    #[test]
    fn a_line_has_its_number_as_a_word() {
        let line = Text::Line(vec!["12".to_string()]);
        let differs = |text: &str| line.difference("error", text.as_bytes()).is_some();
        assert!(!differs("yam: inputs: line 12 is no word\n"));
        assert!(!differs("yam: inputs:12: no word\n"));
        for other in
            ["", "yam: line 120\n", "yam: line 112\n", "yam: line 12", "line 12\n", "yam: line 12\nusage\n", "yam: line 1\n"]
        {
            assert!(differs(other), "{other:?}");
        }
        assert!(has_word("yam: longer than 1,048,576 bytes\n", "1048576"));
    }
}
