//! "File": the image file, its loader and its writer.

use super::config::{Config, CONFIG_WORDS, FILE_FIELDS, FIXED_FIELDS};

pub const BLOCK_BYTES: usize = 512;
const BLOCK_WORDS: usize = 128;
/// How many words a block holds beside its number and its check.
pub const HELD_WORDS: usize = 126;

type Block = [u32; BLOCK_WORDS];

fn blocks_of(file: &[u8]) -> Vec<Block> {
    file.chunks_exact(BLOCK_BYTES)
        .map(|bytes| {
            let mut block = [0; BLOCK_WORDS];
            for (word, four) in block.iter_mut().zip(bytes.chunks_exact(4)) {
                *word = u32::from_le_bytes(four.try_into().expect("four bytes"));
            }
            block
        })
        .collect()
}

/// "check = sum of the first 127 words plus 512, mod 2^32".
fn check_of(block: &Block) -> u32 {
    block[..BLOCK_WORDS - 1].iter().fold(512, |sum, &word| sum.wrapping_add(word))
}

/// 20 and 21 of one block.
fn block_number(block: &Block, number: usize) -> Result<(), u32> {
    if u64::from(block[0]) != number as u64 {
        return Err(20);
    }
    if block[BLOCK_WORDS - 1] != check_of(block) {
        return Err(21);
    }
    Ok(())
}

fn all_zero(words: &[u32]) -> Result<(), u32> {
    if words.iter().all(|&word| word == 0) {
        Ok(())
    } else {
        Err(22)
    }
}

/// What a file holds; `room` is the length of the lent image. The order is document 01's.
pub fn load(file: &[u8], room: usize) -> Result<([u32; CONFIG_WORDS], Vec<u32>), u32> {
    if file.is_empty() || file.len() % BLOCK_BYTES != 0 {
        return Err(19);
    }
    let blocks = blocks_of(file);
    let head = &blocks[0];
    block_number(head, 0)?;
    all_zero(&head[1 + FILE_FIELDS..BLOCK_WORDS - 1])?;
    let mut config = [0; CONFIG_WORDS];
    config[..FILE_FIELDS].copy_from_slice(&head[1..1 + FILE_FIELDS]);
    config[FILE_FIELDS..].copy_from_slice(&FIXED_FIELDS);
    let size = Config::lawful_from_words(&config).ok_or(1u32)?.im_size as usize;
    if blocks.len() != 1 + size.div_ceil(HELD_WORDS) {
        return Err(19);
    }
    if room < size {
        return Err(2);
    }
    let mut held = Vec::new();
    for (number, block) in blocks.iter().enumerate().skip(1) {
        block_number(block, number)?;
        held.extend_from_slice(&block[1..1 + HELD_WORDS]);
    }
    all_zero(&held[size..])?;
    held.truncate(size);
    Ok((config, held))
}

/// The file of a lawful configuration and an image of IM_SIZE words.
pub fn file_of(config: &[u32], image: &[u32]) -> Vec<u8> {
    let mut file = Vec::new();
    let held = std::iter::once(&config[..FILE_FIELDS]).chain(image.chunks(HELD_WORDS));
    for (number, words) in held.enumerate() {
        let mut block = [0; BLOCK_WORDS];
        block[0] = number as u32;
        block[1..1 + words.len()].copy_from_slice(words);
        block[BLOCK_WORDS - 1] = check_of(&block);
        file.extend(block.iter().flat_map(|word| word.to_le_bytes()));
    }
    file
}
