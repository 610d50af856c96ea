//! Which outside vectors of before K2 it answers otherwise: "A direct JMP or JSR target at or above IM_SIZE is to be refused when the word is
//! read or written, and so is a JSRWP address." This is told from what a line or a file gives, before anything is compared.

use crate::calls::Calls;
use crate::json::Json;
use crate::model::Model;

/// Whether a word has such a target.
pub fn word(im_size: u32, word: u32) -> bool {
    match word >> 23 {
        0b1_1000_0000..=0b1_1000_1111 | 0b1_1110_0001 => word & 0x7f_ffff >= im_size,
        0b1_1110_0010 => word & 0xffff >= im_size,
        _ => false,
    }
}

fn im_size(json: &Json) -> Result<u32, String> {
    json.field("cfg").words()?.first().copied().ok_or_else(|| "no IM_SIZE".to_string())
}

/// Whether a word of the line has: the word that is read or written, the one at PC, or any of the image.
pub fn line(json: &Json) -> Result<bool, String> {
    let mut words = match (json.field("word"), json.field("image")) {
        (Json::Null, Json::Null) => return Ok(false),
        (Json::Null, image) => image.words()?,
        (word, _) => vec![word.word()?],
    };
    if json.field("before") != &Json::Null && json.field("budget") == &Json::Null {
        let pc = json.field("before").field("m").field("pc").number()? as usize;
        words = words.get(pc).copied().into_iter().collect();
    }
    let im_size = im_size(json)?;
    Ok(words.iter().any(|&w| word(im_size, w)))
}

/// Whether a word of an image file has, as the model loads it.
pub fn file(bytes: &[u8]) -> bool {
    let (mut config, mut image) = ([0; 19], vec![0; 32_768]);
    Model.load(bytes, &mut config, &mut image) == 0 && image[..config[0] as usize].iter().any(|&w| word(config[0], w))
}

/// Whether a source may name such a target: by digits, or by a label where it has so many lines that one may stand past the image.
pub fn source(json: &Json) -> Result<bool, String> {
    let (im_size, lines) = (im_size(json)?, json.field("text").text()?.split('\n'));
    let long = lines.clone().count() >= im_size as usize;
    Ok(lines.into_iter().any(|line| {
        let instruction = line.split_once(": ").map_or(line, |(_, instruction)| instruction);
        let operands = ["JMP ", "JSR ", "JSRWP "].iter().find_map(|name| instruction.strip_prefix(name));
        operands.and_then(|operands| operands.split(',').next()).is_some_and(|target| match u32::from_str_radix(target, 16) {
            Ok(address) => address >= im_size,
            Err(_) => long && !target.starts_with('@'),
        })
    }))
}

#[cfg(test)]
mod tests {
    use super::*;

    fn told(by: fn(&Json) -> Result<bool, String>, json: &str) -> bool {
        by(&Json::parse(json).expect("JSON")).expect("a line of vectors")
    }

    #[test]
    fn only_targets_past_the_image_are_left_out() {
        let given =
            [(0xc000_0005_u32, false), (0xc000_0006, true), (0xc800_0006, false), (0xf080_0006, true), (0xf102_0006, true)];
        for (word, past) in given {
            assert_eq!(told(line, &format!("{{\"cfg\": [6, 32], \"word\": {word}}}")), past, "{word:x}");
        }
        let step = |pc: u32| format!("{{\"cfg\": [6, 32], \"image\": [0, 3221225478], \"before\": {{\"m\": {{\"pc\": {pc}}}}}}}");
        assert_eq!([step(0), step(1)].map(|json| told(line, &json)), [false, true]);
    }

    #[test]
    fn only_sources_that_write_such_a_target_are_left_out() {
        let given = [
            ("RET\\nMOV %00,#ffff", false),
            ("JMP 000005,NZ\\nJSRWP 0005,010\\nJMP @%0f", false),
            ("JMP 000006", true),
            ("loop: JSR 000006", true),
            ("RET\\nJSRWP 0006,010", true),
            ("JMP loop\\nloop:", false),
            ("RET\\nRET\\nRET\\nRET\\nRET\\nJMP loop\\nloop:", true),
        ];
        for (text, past) in given {
            assert_eq!(told(source, &format!("{{\"cfg\": [6, 32], \"text\": \"{text}\"}}")), past, "{text}");
        }
    }
}
