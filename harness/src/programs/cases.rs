//! What the programs are given: image files and sources that are whole, damaged, at an edge and at random; and all cases together.

use super::given::{Case, Given};
use super::{certificates, packs, runs};
use crate::generate::configs::{self, Size};
use crate::generate::{files, sources, words};
use crate::model::config::{Config, FIXED_FIELDS};
use crate::model::image::{BLOCK_BYTES, HELD_WORDS};
use crate::model::programs::{FILE_BYTES, SOURCE_BYTES, WORDS};
use crate::random::Random;

/// Every option on, W 32.
pub fn config(im_size: usize) -> Vec<u32> {
    let mut config = vec![im_size as u32, 32, 16, 64, 16, 32, 1, 2, 1, 1, 1, 1, 100, 0x1234];
    config.extend(FIXED_FIELDS);
    config
}

/// The file of an image of so many words at random.
pub fn file_of(r: &mut Random, im_size: usize) -> Vec<u8> {
    let config = config(im_size);
    let c = Config::lawful_from_words(&config).expect("a lawful configuration");
    let image: Vec<u32> = (0..im_size).map(|_| words::any(r, &c)).collect();
    files::file(&config, &image)
}

/// A file of zeros for its image.
pub fn blank(im_size: usize) -> Vec<u8> {
    files::file(&config(im_size), &vec![0; im_size])
}

fn random_bytes(r: &mut Random, length: usize) -> Vec<u8> {
    (0..length).map(|_| r.word() as u8).collect()
}

/// Files at the edges of what may be read, and with one thing wrong.
fn edge_files(r: &mut Random) -> Vec<(String, Vec<u8>)> {
    let mut list: Vec<(String, Vec<u8>)> = Vec::new();
    let largest = file_of(r, WORDS);
    for length in [0, 1, 511, 512, 513, 1_024, FILE_BYTES - 512, FILE_BYTES - 1, FILE_BYTES, FILE_BYTES + 1, FILE_BYTES + 512] {
        let mut cut = largest.clone();
        cut.resize(length, 0);
        list.push((format!("{length} bytes of the largest image's file"), cut));
        list.push((format!("{length} zero bytes"), vec![0; length]));
        list.push((format!("{length} random bytes"), random_bytes(r, length)));
    }
    list.push(("100,000 random bytes".to_string(), random_bytes(r, 100_000)));
    let last_in_67_blocks = 66 * HELD_WORDS;
    for size in [1, 2, 125, 126, 127, 252, WORDS - 1, WORDS, WORDS + 1, last_in_67_blocks, last_in_67_blocks + 1, 32_767, 32_768]
    {
        let file = file_of(r, size);
        list.push((format!("an image of {size} words"), file.clone()));
        if file.len() > FILE_BYTES {
            list.push((format!("{FILE_BYTES} bytes of the file of {size} words"), file[..FILE_BYTES].to_vec()));
        }
    }
    let last = largest.len() / BLOCK_BYTES - 1;
    for (block, where_) in [(0, "first"), (1, "second"), (last, "last")] {
        for (word, what) in [(0, "number"), (127, "check"), (1, "first word"), (126, "last held word")] {
            let mut file = largest.clone();
            file[block * BLOCK_BYTES + 4 * word] ^= 0x40;
            list.push((format!("{what} of the {where_} block changed"), file.clone()));
            if word != 127 {
                files::mend(&mut file, block);
                list.push((format!("{what} of the {where_} block changed, its check mended"), file));
            }
        }
    }
    list
}

/// Files of small images of any configuration, half of them damaged.
fn random_files(r: &mut Random, count: u32) -> Vec<(String, Vec<u8>)> {
    let file = |number: u32| {
        let config = configs::lawful(r, Size::Small);
        let c = Config::lawful_from_words(&config).expect("a lawful configuration");
        let image: Vec<u32> = (0..c.im_size).map(|_| words::any(r, &c)).collect();
        let mut file = files::file(&config, &image);
        if number % 2 == 1 {
            files::damage(r, &mut file);
        }
        (format!("file {number} at random"), file)
    };
    (0..count).map(file).collect()
}

/// So many bytes: this line, and newlines before it.
fn line_at_end(length: usize, line: &str) -> Vec<u8> {
    let mut source = vec![b'\n'; length - line.len()];
    source.extend(line.bytes());
    source
}

fn asm(name: String, config: &[u8], source: &[u8]) -> Case {
    Case::new(name, Given::Asm { config: config.to_vec(), source: source.to_vec() })
}

/// Sources at the edges of what may be read.
fn edge_sources() -> Vec<Case> {
    let blank = blank(20);
    let mut list = Vec::new();
    for length in [SOURCE_BYTES - 1, SOURCE_BYTES, SOURCE_BYTES + 1, SOURCE_BYTES + 5_000] {
        for line in ["RET", "RET\n", "WRONG", "JMP far"] {
            list.push(asm(format!("{length} bytes, {line:?} at the end"), &blank, &line_at_end(length, line)));
        }
    }
    let lines = |count: usize| "RET\n".repeat(count).into_bytes();
    for (size, count) in [(1, 0), (1, 1), (1, 2), (20, 20), (20, 21), (WORDS, WORDS), (WORDS, WORDS + 1), (126, 126)] {
        list.push(asm(format!("{count} words for an image of {size}"), &self::blank(size), &lines(count)));
    }
    let labels = |count: u32| (0..count).map(|label| format!("{}:\n", sources::numbered_label(label))).collect::<String>();
    for count in [1_024, 1_025] {
        list.push(asm(format!("{count} labels"), &blank, labels(count).as_bytes()));
    }
    list.push(asm("a label twice".to_string(), &blank, b"loop:\nRET\nloop: RET\n"));
    list.push(asm("bytes that are no text".to_string(), &blank, &[0, 255, 10, 13, 128]));
    list
}

/// Sources at random for configurations at random.
fn random_sources(r: &mut Random, count: u32) -> Vec<Case> {
    let source = |number: u32| {
        let config = configs::lawful(r, Size::Small);
        let c = Config::lawful_from_words(&config).expect("a lawful configuration");
        let file = files::file(&config, &vec![0; c.im_size as usize]);
        let source = if number % 50 == 0 { sources::long(r, &c) } else { sources::short(r, &c) };
        asm(format!("source {number} at random"), &file, &source)
    };
    (0..count).map(source).collect()
}

pub fn all() -> Vec<Case> {
    let r = &mut Random::new(1);
    let mut files = edge_files(r);
    files.extend(random_files(r, 150));
    let mut cases = Vec::new();
    for (number, (name, image)) in files.into_iter().enumerate() {
        // A file that the configuration is taken from is loaded as one that is listed; too long a source behind it changes nothing of that.
        let source = if number % 3 == 0 { vec![b'\n'; SOURCE_BYTES + 1] } else { b"loop: JMP loop\n".to_vec() };
        cases.push(asm(format!("configuration: {name}"), &image, &source));
        cases.push(certificates::of_image(&name, number, &image));
        cases.push(runs::of_image(&name, number, &image));
        cases.push(Case::new(&name, Given::Config { image: image.clone(), words: number % 2 == 0 }));
        cases.push(Case::new(name, Given::List { image }));
    }
    cases.extend(edge_sources());
    cases.extend(random_sources(r, 250));
    cases.extend(certificates::all(r));
    cases.extend(runs::all(r));
    cases.extend(packs::all(r));
    cases
}
