//! CONFIG and WORDS for yam_pack: in their form and out of it, lawful and not, at the edges of their lengths; and its way back.

use super::given::{Case, Given};
use super::runs::words_text;
use crate::generate::configs::{self, Size};
use crate::generate::{files, words};
use crate::model::config::{Config, CONFIG_WORDS};
use crate::model::forms::{default_of, ENTRIES_BYTES, NAMES, WORDS_BYTES};
use crate::model::programs::WORDS;
use crate::random::Random;

fn case(name: impl Into<String>, config: impl AsRef<[u8]>, words: impl AsRef<[u8]>) -> Case {
    Case::new(name, Given::Pack { config: config.as_ref().to_vec(), words: words.as_ref().to_vec() })
}

/// Values that are 1 to 10 decimal digits, at most 4,294,967,295, and such that are not.
const VALUES: [&str; 25] = [
    "0",
    "1",
    "2",
    "8",
    "16",
    "32",
    "1024",
    "32768",
    "00000000",
    "0000000032",
    "00000000032",
    "4294967295",
    "4294967296",
    "4294967328",
    "9999999999",
    "10000000000",
    "18446744073709551648",
    "",
    "+1",
    "-1",
    "0x10",
    "a",
    "1_0",
    "1=1",
    "32\0",
];

/// CONFIG of one or a few entries, beside one word.
fn entries() -> Vec<Case> {
    let mut list = Vec::new();
    for (name, value) in NAMES.iter().flat_map(|name| VALUES.map(|value| (name, value))) {
        let more = if *name == "IM_SIZE" { "" } else { "IM_SIZE=1 " };
        list.push(case(format!("{name}={value}"), format!("{more}{name}={value}"), "0"));
    }
    for name in NAMES {
        for (text, what) in [
            (format!("{name}=1 {name}=1"), "twice"),
            (format!("IM_WIDTH=32 PC_STACK=2\n{name}=3 DM_SIZE=4 {name}=3"), "twice or again"),
            (format!("{name}"), "alone"),
            (format!("{}=1", name.to_lowercase()), "in small letters"),
            (format!("{name}X=1"), "with a letter more"),
            (format!("{}=1", &name[1..]), "without its first letter"),
            (format!("{name} =1"), "a space behind it"),
            (format!("{name}= 1"), "a space behind its sign"),
        ] {
            list.push(case(format!("{name} {what}"), text, "0"));
        }
    }
    list
}

/// Texts of entries by their separators, and entries that are none.
const TEXTS: [&str; 26] = [
    "",
    " ",
    "\n",
    " \n \n\n ",
    "IM_SIZE=2",
    "IM_SIZE=2\n",
    " IM_SIZE=2 ",
    "\n\nIM_SIZE=2\n\n\n",
    "IM_SIZE=2 PC_STACK=1",
    "IM_SIZE=2   PC_STACK=1",
    "IM_SIZE=2 \n PC_STACK=1\n",
    "PC_STACK=1\nIM_SIZE=2\n",
    "IM_SIZE=2\tPC_STACK=1",
    "IM_SIZE=2\r\nPC_STACK=1\r\n",
    "IM_SIZE=2,PC_STACK=1",
    "IM_SIZE=2PC_STACK=1",
    "IM_SIZE=2 =1",
    "=",
    "IM_SIZE=2 =",
    "IM_SIZE=2 1",
    "IM_SIZE=2 # words",
    "IM_SIZE:2",
    "IM_SIZE==2",
    "\0IM_SIZE=2",
    "IM_SIZE=2\0",
    "DM2_WIDTH=1 IM_SIZE=2",
];

/// WORDS in its form and out of it.
const WORDS_TEXTS: [&str; 16] = [
    "",
    "1\n2",
    "1\n2\n",
    "ABCDEF01\nabcdef01\n",
    "00000001\n2\n",
    "1\n2\n3\n",
    "1\n",
    "\n",
    "1\n\n",
    "1\n\n2\n",
    "1\n2\n\n",
    "123456789\n2\n",
    "1\ng\n",
    "1 2\n",
    "1\r\n2\r\n",
    "0x1\n2\n",
];

fn texts() -> Vec<Case> {
    let mut list = Vec::new();
    for config in TEXTS {
        list.push(case(format!("CONFIG {config:?}"), config, "1\n2\n"));
        list.push(case(format!("CONFIG {config:?}, WORDS not in their form"), config, "1\n2\nx"));
    }
    for (config, words) in ["IM_SIZE=2", "IM_SIZE=2 DM_PIPE=3", "IM_SIZE"].iter().flat_map(|c| WORDS_TEXTS.map(|w| (c, w))) {
        list.push(case(format!("CONFIG {config:?}, WORDS {words:?}"), config, words));
    }
    let defaults = "0\n".repeat(2_048);
    list.push(case("all defaults", "", &defaults));
    list.push(case("all defaults, a word less", "", &defaults[2..]));
    for byte in 0..=255u8 {
        if byte % 5 == 0 || byte.is_ascii_punctuation() || byte < b' ' {
            list.push(case(
                format!("byte {byte} in CONFIG"),
                [b"IM_SIZE=2 PC_STACK=4", &[byte][..], b"DM_SIZE=2"].concat(),
                "1\n2",
            ));
            list.push(case(format!("byte {byte} in WORDS"), "IM_SIZE=2", [b"1\n", &[byte][..], b"2"].concat()));
        }
    }
    list
}

/// Texts at their longest and a byte beyond; as many words as the programs hold, and one more.
fn lengths() -> Vec<Case> {
    let mut list = Vec::new();
    for length in [ENTRIES_BYTES - 1, ENTRIES_BYTES, ENTRIES_BYTES + 1, ENTRIES_BYTES + 600, 100_000] {
        for (start, end) in [("IM_SIZE=2", ""), ("", "IM_SIZE=2"), ("IM_SIZE=2 x", ""), ("", "IM_SIZE=2 x"), ("", " IM_SIZE=")] {
            let mut config = vec![b' '; length];
            config[..start.len()].copy_from_slice(start.as_bytes());
            config[length - end.len()..].copy_from_slice(end.as_bytes());
            list.push(case(format!("{length} bytes of CONFIG, {start:?} to {end:?}"), &config, "1\n2"));
            list.push(case(format!("{length} bytes of CONFIG, {start:?} to {end:?}, no word"), &config, "x"));
        }
        list.push(case(format!("{length} letters of CONFIG"), vec![b'A'; length], "1"));
        list.push(case(format!("{length} digits of a value"), [b"IM_SIZE=", &vec![b'1'; length - 8][..]].concat(), "1"));
    }
    for length in [WORDS_BYTES - 1, WORDS_BYTES, WORDS_BYTES + 1, WORDS_BYTES + 5_000] {
        let mut words = b"1\n".repeat(length.div_ceil(2));
        words.truncate(length);
        list.push(case(format!("{length} bytes of WORDS"), "IM_SIZE=2", &words));
        list.push(case(format!("{length} bytes of WORDS, IM_SIZE 0"), "IM_SIZE=0", &words));
        list.push(case(format!("{length} bytes of WORDS, no entry"), "IM_SIZE", &words));
        words[length - 1] = b'x';
        list.push(case(format!("{length} bytes of WORDS, the last not in its form"), "IM_SIZE=2", &words));
    }
    for (size, count) in
        [(1, 1), (WORDS, WORDS), (WORDS, WORDS + 1), (WORDS + 1, WORDS + 1), (WORDS + 1, WORDS), (32_768, 32_768)]
    {
        list.push(case(format!("{count} words for IM_SIZE {size}"), format!("IM_SIZE={size}"), "C0000000\n".repeat(count)));
    }
    list.push(case("32,769 words", "IM_SIZE=32769", "0\n".repeat(32_769)));
    list
}

/// The entries of a configuration in any order, some of those that are as by default left out.
fn entries_text(r: &mut Random, config: &[u32]) -> String {
    let mut order: Vec<usize> = (0..CONFIG_WORDS).collect();
    for place in (1..CONFIG_WORDS).rev() {
        order.swap(place, r.below(place as u32 + 1) as usize);
    }
    let separator = |r: &mut Random| r.pick(&[" ", "\n", "  ", " \n", "\n\n "]);
    let mut text = if r.chance(30) { separator(r).to_string() } else { String::new() };
    for place in order {
        let value = config[place];
        if value != default_of(place) || r.chance(50) {
            let digits = r.from_to(1, 10) as usize;
            text += &format!("{}={value:0digits$}{}", NAMES[place], separator(r));
        }
    }
    text.pop();
    text
}

/// Configurations at random, some damaged, with as many words as they say or one more or less.
fn at_random(r: &mut Random, number: u32) -> [Case; 3] {
    let size = if number % 25 == 0 { Size::Large } else { Size::Small };
    let mut config = configs::lawful(r, size);
    let c = Config::lawful_from_words(&config).expect("a lawful configuration");
    let image: Vec<u32> = (0..c.im_size + u32::from(r.chance(5))).map(|_| words::any(r, &c)).collect();
    let file = files::file(&config, &image[..c.im_size as usize]);
    if r.chance(25) {
        configs::damage(r, &mut config);
        config.resize(CONFIG_WORDS, 0);
    }
    let (entries, words) = (entries_text(r, &config), words_text(r, &image));
    [
        case(format!("pack {number} at random"), entries, words),
        Case::new(format!("generics {number} at random"), Given::Config { image: file.clone(), words: false }),
        Case::new(format!("words {number} at random"), Given::Config { image: file, words: true }),
    ]
}

pub fn all(r: &mut Random) -> Vec<Case> {
    let mut list = entries();
    list.extend(texts());
    list.extend(lengths());
    list.extend((0..250).flat_map(|number| at_random(r, number)));
    list
}
