//! Document 02's K1: source text into words, written from its words alone. Clear rather than fast.

use super::config::Config;
use super::rows::{rows, Field, Need, Row};
use super::words::{write, Instruction};
use std::collections::BTreeMap;

/// "At most 1,024 lines may start with a label."
pub const LABEL_LINES: usize = 1024;

/// Why a text is refused: the number, and the line of those that give one, else 0.
#[derive(Clone, Copy, Debug, PartialEq, Eq)]
pub struct Refusal {
    pub number: u32,
    pub line: u64,
}

fn refuse<T>(number: u32, line: u64) -> Result<T, Refusal> {
    Err(Refusal { number, line })
}

/// "Labels of 1 to 12 small letters, at least one of them beyond f."
fn is_label(name: &[u8]) -> bool {
    (1..=12).contains(&name.len()) && name.iter().all(|byte| byte.is_ascii_lowercase()) && name.iter().any(|&byte| byte > b'f')
}

/// The label that a line starts with, "followed by a colon", and what follows the colon.
fn label_of(line: &[u8]) -> Option<(&[u8], &[u8])> {
    let colon = line.iter().position(|&byte| byte == b':')?;
    is_label(&line[..colon]).then(|| (&line[..colon], &line[colon + 1..]))
}

/// "All but empty lines and lone labels count as one word."
fn counts(line: &[u8]) -> bool {
    let lone = label_of(line).is_some_and(|(_, rest)| rest.is_empty());
    !line.is_empty() && !lone
}

/// "Newlines part lines, numbered from 1"
fn lines(text: &[u8]) -> impl Iterator<Item = (u64, &[u8])> {
    (1..).zip(text.split(|&byte| byte == b'\n'))
}

/// How many words a text counts, good or bad.
pub fn word_count(text: &[u8]) -> usize {
    lines(text).filter(|(_, line)| counts(line)).count()
}

/// A target: its digits, or a label.
#[derive(Clone, Copy, Debug, PartialEq, Eq)]
enum Target<'a> {
    Number,
    Label(&'a [u8]),
}

/// A line in the form: its instruction, whose value is still 0 where a label stands for it.
#[derive(Clone, Copy, Debug, PartialEq, Eq)]
struct Form<'a> {
    instruction: Instruction,
    target: Target<'a>,
}

/// What is left of a line while it is read.
struct Rest<'a>(&'a [u8]);

impl<'a> Rest<'a> {
    fn literal(&mut self, byte: u8) -> Option<()> {
        let (&first, rest) = self.0.split_first()?;
        self.0 = rest;
        (first == byte).then_some(())
    }

    /// So many digits, "small letters for digits".
    fn digits(&mut self, count: usize) -> Option<u32> {
        let digits = self.0.get(..count)?;
        self.0 = &self.0[count..];
        digits.iter().try_fold(0, |number, byte| {
            let digit = b"0123456789abcdef".iter().position(|d| d == byte)?;
            Some(16 * number + digit as u32)
        })
    }

    /// Small letters and digits, up to a comma or the end: six digits, or a label.
    fn target(&mut self) -> Option<(u32, Target<'a>)> {
        let end = self.0.iter().position(|&byte| byte == b',').unwrap_or(self.0.len());
        let (operand, rest) = self.0.split_at(end);
        self.0 = rest;
        if is_label(operand) {
            return Some((0, Target::Label(operand)));
        }
        let mut digits = Rest(operand);
        let number = digits.digits(6)?;
        digits.0.is_empty().then_some((number, Target::Number))
    }
}

/// The line as the row's text, or None where it is not.
fn form_of_row<'a>(index: usize, row: &Row, line: &'a [u8]) -> Option<Form<'a>> {
    let mut rest = Rest(line);
    let mut form = Form { instruction: Instruction { row: index as u32, ..Instruction::default() }, target: Target::Number };
    let parts = &mut form.instruction;
    for letter in row.text.bytes() {
        match letter {
            b'd' | b's' => {
                rest.literal(b'%')?;
                let number = rest.digits(2)?;
                *(if letter == b'd' { &mut parts.destination } else { &mut parts.source }) = number;
            }
            b'v' => parts.value = rest.digits(4)?,
            b't' => (parts.value, form.target) = rest.target()?,
            // "an offset no multiple of 16"
            b'o' => parts.destination = rest.digits(3).filter(|offset| offset % 16 == 0)? / 16,
            // "a name's digit too wide for its field"
            b'n' => parts.byte = rest.digits(1).filter(|&byte| byte <= 3)?,
            other => rest.literal(other)?,
        }
    }
    if row.uses(Field::Flag) {
        parts.flag = u32::from(rest.0 != b",S");
        if parts.flag == 0 {
            rest.0 = b"";
        }
    }
    rest.0.is_empty().then_some(form)
}

/// The form of an instruction's line; None for 26. Unsupported rows have no text to be read.
fn form_of(line: &[u8]) -> Option<Form<'_>> {
    let supported = rows().iter().enumerate().filter(|(_, row)| row.need != Need::Unsupported);
    let mut forms = supported.filter_map(|(index, row)| form_of_row(index, row, line));
    let form = forms.next()?;
    assert!(forms.next().is_none(), "a line of two rows: {line:?}");
    Some(form)
}

/// The word of a line that counts as one, or its number: 26, 25, then as writing a word gives them.
fn word_of(c: &Config, labels: &BTreeMap<&[u8], u64>, line: &[u8]) -> Result<u32, u32> {
    let instruction = match label_of(line) {
        // "one space before an instruction"
        Some((_, rest)) => rest.strip_prefix(b" ").ok_or(26u32)?,
        None => line,
    };
    let mut form = form_of(instruction).ok_or(26u32)?;
    if let Target::Label(name) = form.target {
        let address = *labels.get(name).ok_or(25u32)?;
        form.instruction.value = u32::try_from(address).unwrap_or(u32::MAX);
    }
    write(c, &form.instruction)
}

/// The words of a text, of which there may be `lent`. The configuration is lawful.
pub fn assemble(c: &Config, text: &[u8], lent: usize) -> Result<Vec<u32>, Refusal> {
    let label_lines = lines(text).filter(|(_, line)| label_of(line).is_some()).count();
    if label_lines > LABEL_LINES || word_count(text) > lent {
        return refuse(36, 0);
    }
    let (mut labels, mut address) = (BTreeMap::new(), 0u64);
    for (number, line) in lines(text) {
        if let Some((name, _)) = label_of(line) {
            if labels.insert(name, address).is_some() {
                return refuse(24, number);
            }
        }
        address += u64::from(counts(line));
    }
    let mut words = Vec::new();
    for (line_number, line) in lines(text).filter(|(_, line)| counts(line)) {
        match word_of(c, &labels, line) {
            Ok(word) => words.push(word),
            Err(number) => return refuse(number, line_number),
        }
    }
    Ok(words)
}
