//! An image: a configuration and the words of the instruction memory, with its file, listing and
//! check.

use crate::calls;
use crate::config::{printed, Config, TEXT_BYTES};
use crate::refusals::Refusal;
use crate::refused::{passed, Place, Refused};
use crate::{CONFIG_WORDS, MOST_WORDS};

/// An image file has blocks of so many bytes: the first has the configuration, each other one so
/// many words.
const BLOCK_BYTES: usize = 512;
const BLOCK_WORDS: usize = 126;
/// A line of a listing: address, word, text, with a space or a newline behind each.
const LINE_BYTES: usize = 6 + 1 + 8 + 1 + TEXT_BYTES + 1;

/// Any words may be given: a call refuses an image that has not IM_SIZE words by 2.
#[derive(Clone, Debug, PartialEq, Eq, Hash)]
pub struct Image {
    pub config: Config,
    pub words: Vec<u32>,
}

impl Image {
    /// The image of an image file's bytes.
    pub fn load(file: &[u8]) -> Result<Image, Refused> {
        let mut config = [0; CONFIG_WORDS];
        let mut words =
            vec![0; (file.len() / BLOCK_BYTES).saturating_mul(BLOCK_WORDS).min(MOST_WORDS)];
        passed(calls::load(file, &mut config, &mut words), None)?;
        let config = Config::from_words(&config);
        words.truncate(config.words_lent());
        Ok(Image { config, words })
    }

    /// The bytes of its image file.
    pub fn store(&self) -> Result<Vec<u8>, Refused> {
        let blocks = 1 + self.config.words_lent().div_ceil(BLOCK_WORDS);
        let mut file = vec![0; BLOCK_BYTES * blocks];
        passed(calls::store(&self.config.to_words(), &self.words, &mut file), None)?;
        Ok(file)
    }

    /// The image of a source text, with zeros behind its words.
    pub fn assemble(config: &Config, source: impl AsRef<[u8]>) -> Result<Image, Refused> {
        let mut words = config.assemble(source)?;
        words.resize(config.words_lent(), 0);
        Ok(Image { config: *config, words })
    }

    /// Its listing, a line for each word.
    pub fn listing(&self) -> Result<String, Refused> {
        self.config.takes(&self.words)?;
        let mut page = vec![0; LINE_BYTES * self.config.words_lent()];
        let mut answers = [0; 2];
        passed(
            calls::list(&self.config.to_words(), &self.words, 0, &mut page, 0, &mut answers),
            None,
        )?;
        Ok(printed(&page, answers[0]))
    }

    /// The level at address 0, where the image passes with this certificate, a byte an address; a
    /// broken rule says where.
    pub fn check(&self, certificate: &[u8]) -> Result<u64, Refused> {
        let mut answers = [0; 2];
        let number = calls::check(&self.config.to_words(), &self.words, certificate, &mut answers);
        let [first, rule] = answers;
        let broken = number == Refusal::RuleBroken.number();
        passed(number, broken.then_some(Place::Rule { address: first, rule }))?;
        Ok(first)
    }
}
