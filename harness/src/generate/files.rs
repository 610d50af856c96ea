//! Image files: whole ones, and ones damaged in a place or two.

use crate::model::image::{file_of, BLOCK_BYTES};
use crate::random::Random;

/// The file of a configuration and an image, as its blocks hold them; neither need be lawful.
pub fn file(config: &[u32], image: &[u32]) -> Vec<u8> {
    let mut fields = config.to_vec();
    fields.resize(19, 0);
    file_of(&fields, image)
}

fn word_at(file: &[u8], place: usize) -> u32 {
    u32::from_le_bytes(file[place..place + 4].try_into().expect("four bytes"))
}

fn put_word(file: &mut [u8], place: usize, word: u32) {
    file[place..place + 4].copy_from_slice(&word.to_le_bytes());
}

/// Makes a block's check right again.
pub fn mend(file: &mut [u8], block: usize) {
    let start = block * BLOCK_BYTES;
    let words = (0..127).map(|i| word_at(file, start + 4 * i));
    let check = words.fold(512u32, u32::wrapping_add);
    put_word(file, start + BLOCK_BYTES - 4, check);
}

/// One damage; a change of a word is mended half of the time, so that what comes after the check is met too.
pub fn damage(r: &mut Random, file: &mut Vec<u8>) {
    let blocks = file.len() / BLOCK_BYTES;
    match r.below(16) {
        0 => {
            let length = r.pick(&[0, 1, 511, 512, 513, 1023, 1024]);
            file.resize(length, 0);
        }
        1 => {
            file.pop();
        }
        2 => file.push(0),
        3 => file.resize(file.len() + BLOCK_BYTES, 0),
        4 => file.truncate(file.len().saturating_sub(BLOCK_BYTES)),
        _ if blocks == 0 => {}
        5 => {
            let place = r.below(file.len() as u32) as usize;
            file[place] ^= 1 << r.below(8);
        }
        6..=8 => {
            let field = r.from_to(1, 16) as usize;
            let word = if r.chance(50) { r.odd() } else { word_at(file, 4 * field).wrapping_add(1) };
            put_word(file, 4 * field, word);
            mend(file, 0);
        }
        9 => {
            put_word(file, 4 * r.from_to(15, 126) as usize, r.odd());
            mend(file, 0);
        }
        kind => {
            let block = if r.chance(40) { blocks - 1 } else { r.below(blocks as u32) as usize };
            let place = match kind {
                10 | 11 => 0,
                12 => 127,
                13 => 126,
                _ => r.below(128) as usize,
            };
            let at = block * BLOCK_BYTES + 4 * place;
            let word = if r.chance(50) { r.odd() } else { word_at(file, at) ^ 1 << r.below(32) };
            put_word(file, at, word);
            if place != 127 && r.chance(70) {
                mend(file, block);
            }
        }
    }
}
