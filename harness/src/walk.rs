//! Runs the commands that a document shows, and compares what they print with what it shows.
//!
//! A fenced block that begins with ```console holds commands, each a line from `$ ` on, and below each what it prints: standard output, then
//! standard error. The commands of a block run one after another in one `sh`; all blocks of a document in one fresh folder, in which what
//! stands at the root of the tree is reachable by its name.

use crate::processes::{bytes_differ, wait, Scratch};
use std::path::{Path, PathBuf};
use std::process::{Command, Stdio};

const FENCE: &str = "```";
const START: &str = "```console";
const PROMPT: &str = "$ ";
/// A command's place in its script; what it prints is kept under it in a folder of its own.
const KEPT: &str = "YAM_WALK_KEPT";

/// A command as a document shows it.
#[derive(Clone, Debug, PartialEq, Eq)]
struct Shown {
    /// The line's number in the document.
    line: usize,
    command: String,
    printed: String,
}

type Block = Vec<Shown>;

/// The blocks of a document.
fn blocks(document: &str) -> Result<Vec<Block>, String> {
    let mut blocks = Vec::new();
    let mut open: Option<Block> = None;
    for (number, line) in (1..).zip(document.lines()) {
        match &mut open {
            None if line.trim_end() == START => open = Some(Vec::new()),
            None => {}
            Some(_) if line.starts_with(FENCE) => blocks.extend(open.take()),
            Some(block) => match (line.strip_prefix(PROMPT), block.last_mut()) {
                (Some(command), _) => block.push(Shown { line: number, command: command.to_string(), printed: String::new() }),
                (None, Some(last)) => last.printed += &format!("{line}\n"),
                (None, None) => return Err(format!("line {number}: a console block does not start with a command: {line:?}")),
            },
        }
    }
    match open {
        Some(_) => Err("a console block does not end".to_string()),
        None if blocks.is_empty() => Err("no console block".to_string()),
        None => {
            blocks.iter().all(|block| !block.is_empty()).then_some(blocks).ok_or("a console block without a command".to_string())
        }
    }
}

/// The script of a block: each command with its streams kept apart, and the status of the one before it in `$?`.
fn script(block: &Block) -> String {
    let mut script = String::new();
    for (place, shown) in block.iter().enumerate() {
        script +=
            &format!("yam_walk_status=$?; exec >\"${KEPT}/{place}.out\" 2>\"${KEPT}/{place}.err\"; (exit $yam_walk_status)\n");
        script += &format!("{}\n", shown.command);
    }
    script
}

/// Makes what stands at the root of the tree reachable in a folder by its name.
fn link_tree(tree: &Path, folder: &Path) -> Result<(), String> {
    let tree = tree.canonicalize().map_err(|e| format!("{}: {e}", tree.display()))?;
    for entry in std::fs::read_dir(&tree).map_err(|e| format!("{}: {e}", tree.display()))? {
        let entry = entry.map_err(|e| e.to_string())?;
        let link = folder.join(entry.file_name());
        std::os::unix::fs::symlink(entry.path(), &link).map_err(|e| format!("{}: {e}", link.display()))?;
    }
    Ok(())
}

/// How many commands ran, and how what they print is not what the document shows.
fn walk(document: &str, tree: &Path) -> Result<(usize, Vec<String>), String> {
    let blocks = blocks(document)?;
    let folder = Scratch::new()?;
    link_tree(tree, &folder.folder)?;
    let mut differences = Vec::new();
    for block in &blocks {
        let kept = Scratch::new()?;
        let mut shell = Command::new("sh");
        shell.arg("-c").arg(script(block)).current_dir(&folder.folder).env(KEPT, &kept.folder).env("LC_ALL", "C");
        let outside = wait(shell.stdin(Stdio::null()), &[])?;
        for (place, shown) in block.iter().enumerate() {
            let stream = |name: &str| std::fs::read(kept.folder.join(format!("{place}.{name}")));
            let printed = match (stream("out"), stream("err")) {
                (Ok(output), Ok(error)) => [output, error].concat(),
                _ => {
                    let why = String::from_utf8_lossy(&outside.error).into_owned();
                    differences.push(format!("line {}: {}: it was not run: {why}", shown.line, shown.command));
                    continue;
                }
            };
            let how = bytes_differ(&printed, shown.printed.as_bytes()).map(|how| how.replace("the model", "the document"));
            differences.extend(how.map(|how| format!("line {}: {}: {how}", shown.line, shown.command)));
        }
        kept.remove();
    }
    folder.remove();
    Ok((blocks.iter().map(Vec::len).sum(), differences))
}

/// The tree of a document: the nearest folder above it that has `yam`.
fn tree_of(document: &Path) -> Result<PathBuf, String> {
    let whole = document.canonicalize().map_err(|e| format!("{}: {e}", document.display()))?;
    let tree = whole.ancestors().skip(1).find(|folder| folder.join("yam").is_file());
    tree.map(Path::to_path_buf).ok_or(format!("{}: no folder above it has yam", document.display()))
}

/// Runs the commands of a document. True where they print what it shows.
pub fn run(document: &Path) -> Result<bool, String> {
    let text = std::fs::read_to_string(document).map_err(|e| format!("{}: {e}", document.display()))?;
    let name = document.display();
    let (commands, differences) = match walk(&text, &tree_of(document)?) {
        Ok(walked) => walked,
        Err(how) => {
            println!("{name}: {how}");
            return Ok(false);
        }
    };
    for difference in differences.iter().take(crate::SHOWN) {
        println!("{name}, {difference}");
    }
    println!("{name}: {commands} commands, {} print something else", differences.len());
    Ok(differences.is_empty())
}

#[cfg(test)]
mod tests {
    use super::*;

    fn walked(document: &str) -> Result<(usize, Vec<String>), String> {
        walk(document, Path::new(env!("CARGO_MANIFEST_DIR")))
    }

    const GOOD: &str = "# A walk\n\n```console\n$ echo one; echo two >&2; echo three\none\nthree\ntwo\n$ x=5\n$ (exit 7)\n$ echo $? $x\n7 5\n```\n\
                        text\n```\n$ not a console\n```\n```console\n$ echo made > made; ls Cargo.toml\nCargo.toml\n```\n\
                        ```console\n$ cat made; printf '%s\\n' 'a  b'\nmade\na  b\n```\n";

    #[test]
    fn a_document_as_its_commands_print_passes() {
        assert_eq!(walked(GOOD), Ok((6, vec![])));
    }

    #[test]
    fn a_document_that_shows_something_else_is_found() {
        for (from, to) in [
            ("one\nthree\ntwo\n", "one\ntwo\nthree\n"),
            ("one\nthree\ntwo\n", "one\nthree\n"),
            ("7 5\n", "0 5\n"),
            ("a  b\n", "a b\n"),
            ("Cargo.toml\n```", "```"),
            ("$ x=5\n", "$ x=5\n\n"),
            ("(exit 7)", "if"),
        ] {
            let (commands, differences) = walked(&GOOD.replacen(from, to, 1)).expect("it runs");
            assert!(commands == 6 && !differences.is_empty(), "{from:?} {to:?}");
        }
    }

    #[test]
    fn a_document_without_commands_is_no_pass() {
        for document in [
            "",
            "# A walk\n",
            "```\n$ echo\n```\n",
            "```console\n```\n",
            "```console\nout\n$ echo\n```\n",
            "```console\n$ echo\n",
        ] {
            assert!(walked(document).is_err(), "{document:?}");
        }
    }
}
