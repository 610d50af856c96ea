//! Source text into words: short and long texts, and listings read back.

use crate::c_interface::Plain;
use crate::cases::{answers, config};
use crate::compare::{Assembled, Pair};
use crate::generate::configs::{self, Size};
use crate::generate::{sources, words};
use crate::inputs::Input;
use crate::model::assemble::word_count;
use crate::model::config::{Config, CONFIG_WORDS};
use crate::random::Random;

/// What the cases came to.
#[derive(Clone, Copy, Debug, Default)]
pub struct TextsSeen {
    /// Texts that the plain assembler answered as the model does.
    pub plain: u64,
    /// Texts without labels that passed, each line the text of its word, and their lines.
    pub printed: u64,
    pub printed_lines: u64,
    /// Listings whose words all can be read, read back, and their words; listings with one that
    /// cannot.
    pub back: u64,
    pub back_words: u64,
    pub unreadable: u64,
}

/// Lent words for a text that counts so many: mostly enough, each with a content of its own.
fn lent(r: &mut Random, needed: usize) -> Vec<u32> {
    let length = match r.below(20) {
        0 => needed.saturating_sub(1),
        1 => r.below(needed as u32 + 1) as usize,
        2..=5 => needed + 1 + r.below(6) as usize,
        _ => needed,
    };
    let mark = r.word();
    (0..length as u32).map(|place| mark.wrapping_add(place)).collect()
}

/// One text through model, library and plain program, which takes a configuration of its own length alone.
fn compare(pair: &mut Pair, r: &mut Random, config: &[u32], text: &[u8]) -> Result<Assembled, String> {
    let (words, places) = (lent(r, word_count(text)), answers(r, 2));
    let assembled = pair.assemble(config, text, &words, &places)?;
    if config.len() == CONFIG_WORDS {
        let (input, model) = (Input::assemble(config, text, &words, &[7; 2]), pair.model);
        let differs = |input: &Input| input.difference(["plain C", "model"], &input.make(&Plain), &input.make(model));
        if let Some(said) = differs(&input) {
            let whole = |input: &&Input| {
                let [config, .., answers] = &input.arguments[..] else { return false };
                config.value.words().len() == CONFIG_WORDS && answers.value.wides().len() == 2
            };
            return Err(pair.tell(&input, said, &|input| Some(input).filter(whole).and_then(differs)));
        }
        pair.texts.plain += 1;
    }
    Ok(assembled)
}

/// "The text of each word that was written is the line it came from", where no label stands in it.
fn lines_are_texts(pair: &mut Pair, config: &[u32], text: &[u8], words: &[u32]) -> Result<(), String> {
    let lines = text.split(|&byte| byte == b'\n').filter(|line| !line.is_empty());
    for (line, &word) in lines.zip(words) {
        let (mut page, mut place) = ([0; 40], [0]);
        let number = pair.library.text(config, word, &mut page, 0, &mut place);
        if number != 0 || &page[..place[0] as usize] != line {
            let line = String::from_utf8_lossy(line);
            return Err(format!("{line:?} gives {word:08x}, whose text is another ({number})\n  given: {config:?}"));
        }
        pair.texts.printed_lines += 1;
    }
    pair.texts.printed += 1;
    Ok(())
}

pub fn short_case(pair: &mut Pair, r: &mut Random) -> Result<(), String> {
    let (config, lawful) = config(r, 4);
    for _ in 0..12 {
        let text = sources::short(r, &lawful);
        let assembled = compare(pair, r, &config, &text)?;
        if assembled.number == 0 && !text.contains(&b':') {
            lines_are_texts(pair, &config, &text, &assembled.words)?;
        }
    }
    Ok(())
}

pub fn long_case(pair: &mut Pair, r: &mut Random) -> Result<(), String> {
    let (config, lawful) = config(r, 2);
    let text = sources::long(r, &lawful);
    compare(pair, r, &config, &text).map(|_| ())
}

/// The texts of a listing, one a line, give the words back; a "?" and its number is 26 at its line.
pub fn back_case(pair: &mut Pair, r: &mut Random) -> Result<(), String> {
    let config = configs::lawful(r, Size::Small);
    let c = Config::from_words(&config).expect("nineteen words");
    let any = r.chance(15);
    let image: Vec<u32> = (0..c.im_size)
        .map(|_| match words::readable(r, &c) {
            _ if any => words::any(r, &c),
            word if crate::model::words::read(&c, word).is_ok() => word,
            _ => 0xf000_0000,
        })
        .collect();
    let (mut page, mut places) = (vec![0; 37 * image.len()], [0; 2]);
    if pair.library.list(&config, &image, 0, &mut page, 0, &mut places) != 0 {
        return Err(format!("the listing of {image:x?} is refused under {config:?}"));
    }
    page.truncate(places[0] as usize);
    let lines: Vec<&[u8]> = page.split(|&byte| byte == b'\n').filter_map(|line| line.get(16..)).collect();
    let text = lines.join(&b'\n');
    let assembled = pair.assemble(&config, &text, &vec![7; image.len()], &[0; 2])?;
    let unreadable = lines.iter().position(|line| line.starts_with(b"?"));
    let wanted = match unreadable {
        None => Assembled { number: 0, words: image.clone(), answers: vec![image.len() as u64, 0] },
        Some(place) => Assembled { number: 26, words: vec![7; image.len()], answers: vec![0, place as u64 + 1] },
    };
    if assembled != wanted {
        return Err(format!("the listing of {image:x?}, read back, gives {assembled:x?}\n  given: {config:?}"));
    }
    match unreadable {
        None => (pair.texts.back, pair.texts.back_words) = (pair.texts.back + 1, pair.texts.back_words + image.len() as u64),
        Some(_) => pair.texts.unreadable += 1,
    }
    Ok(())
}
