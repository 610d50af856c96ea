//! "The programs hold 8,192 words": what the programs yam_list and yam_asm print for what they are given.

use super::assemble::{assemble, Refusal};
use super::config::Config;
use super::{image, listing};

/// "The programs hold 8,192 words; past 34,304 bytes of input they print the line "refused 2"".
pub const WORDS: usize = 8_192;
pub const FILE_BYTES: usize = 34_304;
/// docs/commands.md: "A source above 1,048,576 bytes is `refused 2`".
pub const SOURCE_BYTES: usize = 1_048_576;

/// "on any other refusal "refused", a space and its number"; docs/commands.md: "A refusal of a line is `refused N line L`".
fn refused(refusal: Refusal) -> Vec<u8> {
    let line = if refusal.line == 0 { String::new() } else { format!(" line {}", refusal.line) };
    format!("refused {}{line}\n", refusal.number).into_bytes()
}

fn without_line(number: u32) -> Refusal {
    Refusal { number, line: 0 }
}

/// An image file's configuration, its fields and its words; or the number of its refusal.
pub fn load(file: &[u8]) -> Result<(Config, Vec<u32>, Vec<u32>), u32> {
    if file.len() > FILE_BYTES {
        return Err(2);
    }
    let (fields, words) = image::load(file, WORDS)?;
    let config = Config::lawful_from_words(&fields).ok_or(1u32)?;
    Ok((config, fields.to_vec(), words))
}

/// The listing of an image file, or the line of its refusal.
pub fn list(file: &[u8]) -> Vec<u8> {
    match load(file) {
        Err(number) => refused(without_line(number)),
        Ok((config, _, words)) => {
            let lines = words.iter().enumerate().map(|(address, &word)| listing::line(&config, address, word));
            lines.collect::<String>().into_bytes()
        }
    }
}

/// The image file of a source for the configuration of an image file, zeros after the source's words; or the line of the refusal, the
/// configuration's first.
pub fn asm(config: &[u8], source: &[u8]) -> Vec<u8> {
    let made = load(config).map_err(without_line).and_then(|(config, fields, _)| {
        if source.len() > SOURCE_BYTES {
            return Err(without_line(2));
        }
        let mut words = assemble(&config, source, config.im_size as usize)?;
        words.resize(config.im_size as usize, 0);
        Ok(image::file_of(&fields, &words))
    });
    made.unwrap_or_else(refused)
}
