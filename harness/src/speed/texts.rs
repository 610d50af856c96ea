//! Times source text into words: the same lines as one long text and as many short ones.

use super::programs::config;
use super::times::{grown, line, Times};
use crate::c_interface::Plain;
use crate::calls::Calls;
use crate::generate::sources::{numbered_label, readable};
use crate::model::config::Config;
use crate::random::Random;

const LONG: usize = 32_768;
const SHORT: usize = 1_000;
/// With labels, one line in so many starts with one: 1,024 of the long text's.
const LABEL_EVERY: usize = 32;

/// A text of so many lines, each a word. With labels, a quarter of the lines jump to one or call
/// it.
pub fn text(r: &mut Random, c: &Config, lines: usize, with_labels: bool) -> Vec<u8> {
    let labels = (lines / LABEL_EVERY) as u32;
    let mut text = String::new();
    for at in 0..lines {
        let number = (at / LABEL_EVERY) as u32;
        if with_labels && at % LABEL_EVERY == 0 && number < labels {
            text += &format!("{}: ", numbered_label(number));
        }
        if with_labels && r.chance(25) {
            let label = numbered_label(r.below(labels));
            let end = r.pick(&["", "", ",Z", ",NZ", ",LT"]);
            text += &if r.chance(50) { format!("JSR {label}") } else { format!("JMP {label}{end}") };
        } else {
            text += &readable(r, c);
        }
        text.push('\n');
    }
    text.into_bytes()
}

/// Texts of one length; a round goes through all of them.
struct TextsBench {
    texts: Vec<Vec<u8>>,
    lines: usize,
    times: Times,
}

impl TextsBench {
    fn new(c: &Config, count: usize, lines: usize, with_labels: bool) -> TextsBench {
        let mut r = Random::new(13);
        let texts = (0..count).map(|_| text(&mut r, c, lines, with_labels)).collect();
        TextsBench { texts, lines, times: Times::default() }
    }

    fn round<L: Calls>(&mut self, library: &L, config: &[u32; 19]) -> Result<(), String> {
        let TextsBench { texts, lines, times } = self;
        let (mut a, mut b) = (vec![0; *lines], vec![0; *lines]);
        let (mut from_library, mut from_plain) = ((0, [0; 2]), (0, [0; 2]));
        let mut refused = 0;
        times.round(
            (*lines * texts.len()) as f64,
            &mut || {
                for text in texts.iter() {
                    from_library.0 = library.assemble(config, text, &mut a, &mut from_library.1);
                    refused += from_library.0;
                }
            },
            &mut || {
                for text in texts.iter() {
                    from_plain.0 = Plain.assemble(config, text, &mut b, &mut from_plain.1);
                }
            },
        );
        if from_library != from_plain || a != b || refused != 0 {
            return Err(format!("the assemblers answer {from_library:?} and {from_plain:?}, or their words differ"));
        }
        Ok(())
    }
}

/// Times both kinds of text at both lengths and prints it.
pub fn report<L: Calls>(library: &L, rounds: usize) -> Result<(), String> {
    let config = config(LONG as u32, 1024);
    let c = Config::from_words(&config).expect("nineteen words");
    for (what, with_labels) in [("labels", true), ("no labels", false)] {
        let mut long = TextsBench::new(&c, 1, LONG, with_labels);
        let mut short = TextsBench::new(&c, LONG / SHORT, SHORT, with_labels);
        for _ in 0..rounds {
            long.round(library, &config)?;
            short.round(library, &config)?;
        }
        line(&format!("assemble {LONG}, {what}"), "line", &long.times, None);
        line(&format!("assemble {SHORT}, {what}"), "line", &short.times, None);
        let (library, plain) = grown(&short.times, &long.times);
        println!("assemble, {what}, {LONG} to {SHORT} lines: library {library:.2}, plain {plain:.2}");
    }
    Ok(())
}
