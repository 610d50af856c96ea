//! The texts that the commands take: "on each line one word", and "entries `NAME=VALUE`" (docs/commands.md).

use super::config::CONFIG_WORDS;

/// "So does a file above 1,048,576 bytes."
pub const WORDS_BYTES: usize = 1_048_576;
/// "So does a CONFIG above 4,096 bytes."
pub const ENTRIES_BYTES: usize = 4_096;

const WORD_DIGITS: usize = 8;
const VALUE_DIGITS: usize = 10;

/// The generics' names, in the order of a configuration's words, which is that of `yam config`.
pub const NAMES: [&str; CONFIG_WORDS] = [
    "IM_SIZE",
    "REG_WIDTH",
    "REG_SIZE",
    "RM_SIZE",
    "PC_STACK",
    "DM_SIZE",
    "DM_PIPE",
    "ALU_LEVEL",
    "ALU_MULT",
    "ALU_SPR",
    "IOP_IF",
    "IOP_RMW",
    "YAM_CLK",
    "YAM_SREG3",
    "ALU_3OP",
    "IRQ_IF",
    "COPM_SIZE",
    "IM_WIDTH",
    "YAM_DBG",
];

/// "What is missing has the manual's default (2.2)"; all else is 0.
const DEFAULTS: [(&str, u32); 7] = [
    ("IM_SIZE", 2048),
    ("REG_WIDTH", 32),
    ("REG_SIZE", 32),
    ("RM_SIZE", 32),
    ("PC_STACK", 16),
    ("DM_SIZE", 32),
    ("IM_WIDTH", 32),
];

/// How a text is not in its form; lines and entries are counted from 1.
#[derive(Clone, Copy, Debug, PartialEq, Eq)]
pub enum Malformed {
    Line(usize),
    Entry(usize),
    /// The text is longer than these bytes.
    Length(usize),
}

/// "1 to 8 hex digits, small or capital."
fn word(line: &[u8]) -> Option<u32> {
    if !(1..=WORD_DIGITS).contains(&line.len()) {
        return None;
    }
    line.iter().try_fold(0, |word: u32, &byte| Some(word << 4 | char::from(byte).to_digit(16)?))
}

/// The words of a text. "The last line may lack its newline; the empty text has no line."
pub fn words(text: &[u8]) -> Result<Vec<u32>, Malformed> {
    if text.len() > WORDS_BYTES {
        return Err(Malformed::Length(WORDS_BYTES));
    }
    let lines = text.split_inclusive(|&byte| byte == b'\n').map(|line| line.strip_suffix(b"\n").unwrap_or(line));
    (1..).zip(lines).map(|(number, line)| word(line).ok_or(Malformed::Line(number))).collect()
}

/// "VALUE is 1 to 10 decimal digits, at most 4,294,967,295."
fn value(digits: &[u8]) -> Option<u32> {
    if !(1..=VALUE_DIGITS).contains(&digits.len()) {
        return None;
    }
    let value = digits.iter().try_fold(0, |value: u64, &byte| Some(10 * value + u64::from(char::from(byte).to_digit(10)?)))?;
    u32::try_from(value).ok()
}

/// The generic that an entry names, by its place, and its value.
fn entry(bytes: &[u8]) -> Option<(usize, u32)> {
    let sign = bytes.iter().position(|&byte| byte == b'=')?;
    let place = NAMES.iter().position(|name| name.as_bytes() == &bytes[..sign])?;
    Some((place, value(&bytes[sign + 1..])?))
}

/// The default of a generic, by its place.
pub fn default_of(place: usize) -> u32 {
    DEFAULTS.iter().find(|(name, _)| *name == NAMES[place]).map_or(0, |&(_, value)| value)
}

/// The configuration of a text of entries "with one or more spaces or newlines between them".
pub fn entries(text: &[u8]) -> Result<[u32; CONFIG_WORDS], Malformed> {
    if text.len() > ENTRIES_BYTES {
        return Err(Malformed::Length(ENTRIES_BYTES));
    }
    let mut given = [None; CONFIG_WORDS];
    let parts = text.split(|&byte| byte == b' ' || byte == b'\n').filter(|part| !part.is_empty());
    for (number, part) in (1..).zip(parts) {
        let (place, value) = entry(part).filter(|&(place, _)| given[place].is_none()).ok_or(Malformed::Entry(number))?;
        given[place] = Some(value);
    }
    let mut config = [0; CONFIG_WORDS];
    for place in 0..CONFIG_WORDS {
        config[place] = given[place].unwrap_or(default_of(place));
    }
    Ok(config)
}

#[cfg(test)]
mod tests {
    use super::*;

    #[test]
    fn words_are_read_line_by_line() {
        assert_eq!(words(b""), Ok(vec![]));
        assert_eq!(words(b"0\nFfFfFfFf\nabc"), Ok(vec![0, 0xffff_ffff, 0xabc]));
        assert_eq!(words(b"00000001\n"), Ok(vec![1]));
        for (text, line) in
            [("\n", 1), ("1\n\n", 2), ("1\n\n2", 2), ("123456789", 1), ("1\n2\n0x3", 3), ("1\r\n", 1), (" 1", 1), ("+1", 1)]
        {
            assert_eq!(words(text.as_bytes()), Err(Malformed::Line(line)), "{text:?}");
        }
        assert_eq!(words(&[b'\n'; WORDS_BYTES + 1]), Err(Malformed::Length(1_048_576)));
        assert_eq!(words(&b"1\n".repeat(WORDS_BYTES / 2)).map(|words| words.len()), Ok(WORDS_BYTES / 2));
    }

    #[test]
    fn entries_are_read_by_name() {
        let defaults = [2048, 32, 32, 32, 16, 32, 0, 0, 0, 0, 0, 0, 0, 0, 0, 0, 0, 32, 0];
        for empty in ["", " ", "\n \n"] {
            assert_eq!(entries(empty.as_bytes()), Ok(defaults));
        }
        let config = entries(b"\nYAM_DBG=0004294967295 IM_SIZE=6 ");
        assert_eq!(config, Err(Malformed::Entry(1)));
        let config = entries(b"  YAM_DBG=4294967295\n\nIM_SIZE=0000000006").expect("two entries");
        assert_eq!((config[0], config[18], config[17]), (6, u32::MAX, 32));
        for (text, number) in [
            ("IM_SIZE=1 IM_SIZE=1", 2),
            ("IM_SIZE", 1),
            ("IM_SIZE=", 1),
            ("=1", 1),
            ("IM_SIZE=1=1", 1),
            ("IM_SIZE=1 DM_SIZE=4294967296", 2),
            ("im_size=1", 1),
            ("IM_SIZE=1\tDM_SIZE=2", 1),
            ("IM_SIZE =1", 1),
            ("IM_SIZE=+1", 1),
            ("IM_SIZE=a", 1),
        ] {
            assert_eq!(entries(text.as_bytes()), Err(Malformed::Entry(number)), "{text:?}");
        }
        assert_eq!(entries(&[b' '; ENTRIES_BYTES]), Ok(defaults));
        assert_eq!(entries(&[b' '; ENTRIES_BYTES + 1]), Err(Malformed::Length(4_096)));
    }
}
