//! Certificates: of a wrong length, that pass, and that break each rule.

use super::cases::{blank, file_of};
use super::given::{Case, Given};
use crate::generate::configs::{self, Size};
use crate::generate::{files, programs};
use crate::model::config::Config;
use crate::model::image::HELD_WORDS;
use crate::model::programs::{load, WORDS};
use crate::random::Random;

const UNUSED: u8 = 255;

fn case(name: String, image: &[u8], certificate: &[u8]) -> Case {
    Case::new(name, Given::Check { image: image.to_vec(), certificate: certificate.to_vec() })
}

/// An image file with a certificate as long as its image, or of six bytes where it is refused.
pub fn of_image(name: &str, number: usize, image: &[u8]) -> Case {
    let length = load(image).map_or(6, |(_, _, words)| words.len());
    let certificate = vec![if number % 4 == 0 { UNUSED } else { 0 }; length];
    case(format!("certificate of zeros or unused, {name}"), image, &certificate)
}

/// Certificates of other lengths than IM_SIZE, and of that.
fn lengths() -> Vec<Case> {
    let mut list = Vec::new();
    for size in [1, 6, HELD_WORDS, HELD_WORDS + 1, WORDS] {
        let image = blank(size);
        for length in [0, 1, size - 1, size, size + 1, 2 * size, WORDS, WORDS + 1, 1 << 17] {
            list.push(case(format!("{length} bytes for {size} addresses"), &image, &vec![0; length]));
        }
    }
    list
}

/// A program and its certificate: made to pass, damaged, or tiny and at random.
fn at_random(r: &mut Random, number: u32, size: Size) -> Case {
    let mut config = configs::lawful(r, size);
    config[0] = config[0].min(WORDS as u32);
    let c = Config::lawful_from_words(&config).expect("a lawful configuration");
    let mut program = if size == Size::Small && r.chance(40) { programs::tiny(r, &c) } else { programs::passing(r, &c) };
    if r.chance(50) {
        programs::add_indexes(r, &c, &mut program);
    }
    if r.chance(50) {
        programs::damage(r, &c, &mut program);
    }
    case(format!("certificate {number} at random"), &files::file(&config, &program.image), &program.sheet)
}

pub fn all(r: &mut Random) -> Vec<Case> {
    let mut list = lengths();
    list.extend((0..600).map(|number| at_random(r, number, Size::Small)));
    list.extend((0..20).map(|number| at_random(r, number, Size::Large)));
    let largest = file_of(r, WORDS);
    list.push(case("the largest image, all unused but the first".to_string(), &largest, &{
        let mut certificate = vec![UNUSED; WORDS];
        certificate[0] = 0;
        certificate
    }));
    list
}
