//! One call made of the model and of the library: answers and every list compared, what was met counted, a difference made smaller.

use crate::calls::Calls;
use crate::contexts::ContextsSeen;
use crate::demand::DemandSeen;
use crate::generate::states::Lists;
use crate::inputs::{self, Call, Input, Output};
use crate::runs::RunsSeen;
use crate::seen::Seen;
use crate::shrink::shrink;
use crate::sums_seen::SumsSeen;
use crate::texts::TextsSeen;
use crate::SHOWN;

/// Both sides, and what was seen so far.
pub struct Pair<'a> {
    pub model: &'a dyn Calls,
    pub library: &'a dyn Calls,
    pub compared: u64,
    pub seen: Seen,
    pub demand: DemandSeen,
    pub texts: TextsSeen,
    pub runs: RunsSeen,
    pub contexts: ContextsSeen,
    pub sums: SumsSeen,
    /// How many differences were made smaller: as many as are shown, of others what was given is said as it was.
    made_smaller: usize,
}

/// How two sides answer an input differently; None where they do not.
pub type Differs<'a> = &'a dyn Fn(&Input) -> Option<String>;

impl<'a> Pair<'a> {
    pub fn new(model: &'a dyn Calls, library: &'a dyn Calls) -> Pair<'a> {
        Pair {
            model,
            library,
            compared: 0,
            seen: Seen::default(),
            demand: DemandSeen::default(),
            texts: TextsSeen::default(),
            runs: RunsSeen::default(),
            contexts: ContextsSeen::default(),
            sums: SumsSeen::default(),
            made_smaller: 0,
        }
    }

    /// Makes the call of both sides. Answers what the library did where the model did the same.
    pub fn compare(&mut self, input: &Input) -> Result<Output, String> {
        let (model, library) = (self.model, self.library);
        let sides = |input: &Input| (input.make(model), input.make(library));
        let difference = |input: &Input, (a, b): &(Output, Output)| input.difference(["model", "library"], a, b);
        self.compared += 1;
        let outputs = sides(input);
        if let Some(said) = difference(input, &outputs) {
            return Err(self.tell(input, said, &|input| difference(input, &sides(input))));
        }
        self.seen.note(input, &outputs.1);
        Ok(outputs.1)
    }

    /// A difference, on an input that was made smaller.
    pub fn tell(&mut self, input: &Input, said: String, differs: Differs) -> String {
        if self.made_smaller == SHOWN {
            return format!("{said}\n  given: {input}");
        }
        self.made_smaller += 1;
        let smaller = shrink(input.clone(), &|input| differs(input).is_some());
        let said_of_smaller = differs(&smaller).unwrap_or_else(|| "nothing the second time".to_string());
        format!("{said_of_smaller}\n  given: {smaller}\n  made smaller from: {said}\n  given: {input}")
    }

    pub fn read(&mut self, config: &[u32], word: u32, instruction: &[u32]) -> Result<(u32, Vec<u32>), String> {
        let arguments = vec![
            inputs::read_words("config", config),
            inputs::number("word", word),
            inputs::written_words("instruction", instruction),
        ];
        let output = self.compare(&Input { call: Call::Read, arguments })?;
        Ok((output.number, output.values[2].words().to_vec()))
    }

    pub fn write(&mut self, config: &[u32], instruction: &[u32], answers: &[u64]) -> Result<(u32, u64), String> {
        let arguments =
            vec![inputs::read_words("config", config), inputs::read_words("instruction", instruction), inputs::answers(answers)];
        let output = self.compare(&Input { call: Call::Write, arguments })?;
        Ok((output.number, output.values[2].wides().first().copied().unwrap_or(0)))
    }

    pub fn reset(&mut self, machine: &[u32]) -> Result<u32, String> {
        let arguments = vec![inputs::written_words("machine", machine)];
        Ok(self.compare(&Input { call: Call::Reset, arguments })?.number)
    }

    /// A step, or a run where there is a budget. `lists` is left as the library leaves it.
    pub fn advance(
        &mut self,
        config: &[u32],
        lists: &mut Lists,
        budget: Option<u64>,
        answers: &[u64],
    ) -> Result<Advanced, String> {
        let input = Input::advance(config, lists, budget, answers);
        let output = self.compare(&input)?;
        let advanced = Advanced::of(&output);
        *lists = Input::after(&input, output).lists();
        Ok(advanced)
    }

    pub fn check(&mut self, config: &[u32], image: &[u32], sheet: &[u8], answers: &[u64]) -> Result<(u32, Vec<u64>), String> {
        let arguments = vec![
            inputs::read_words("config", config),
            inputs::read_words("image", image),
            inputs::read_bytes("certificate", sheet),
            inputs::answers(answers),
        ];
        let output = self.compare(&Input { call: Call::Check, arguments })?;
        Ok((output.number, output.values[3].wides().to_vec()))
    }

    pub fn text(&mut self, config: &[u32], word: u32, page: &[u8], place: u64, answers: &[u64]) -> Result<u32, String> {
        let arguments = vec![
            inputs::read_words("config", config),
            inputs::number("word", word),
            inputs::written_bytes("page", page),
            inputs::number("place", place),
            inputs::answers(answers),
        ];
        Ok(self.compare(&Input { call: Call::Text, arguments })?.number)
    }

    pub fn list(
        &mut self,
        config: &[u32],
        image: &[u32],
        first: u64,
        page: &[u8],
        place: u64,
        answers: &[u64],
    ) -> Result<u32, String> {
        let arguments = vec![
            inputs::read_words("config", config),
            inputs::read_words("image", image),
            inputs::number("first", first),
            inputs::written_bytes("page", page),
            inputs::number("place", place),
            inputs::answers(answers),
        ];
        Ok(self.compare(&Input { call: Call::List, arguments })?.number)
    }

    pub fn load(&mut self, file: &[u8], config: &[u32], image: &[u32]) -> Result<u32, String> {
        let arguments = vec![
            inputs::read_bytes("file", file),
            inputs::written_words("config", config),
            inputs::written_words("image", image),
        ];
        Ok(self.compare(&Input { call: Call::Load, arguments })?.number)
    }

    pub fn store(&mut self, config: &[u32], image: &[u32], file: &[u8]) -> Result<u32, String> {
        let arguments =
            vec![inputs::read_words("config", config), inputs::read_words("image", image), inputs::written_bytes("file", file)];
        Ok(self.compare(&Input { call: Call::Store, arguments })?.number)
    }

    pub fn assemble(&mut self, config: &[u32], text: &[u8], words: &[u32], answers: &[u64]) -> Result<Assembled, String> {
        let input = Input::assemble(config, text, words, answers);
        let output = self.compare(&input)?;
        Ok(Assembled {
            number: output.number,
            words: output.values[2].words().to_vec(),
            answers: output.values[3].wides().to_vec(),
        })
    }
}

/// What a step or a run answered.
pub struct Advanced {
    pub number: u32,
    pub answers: Vec<u64>,
}

impl Advanced {
    pub fn of(output: &Output) -> Advanced {
        let answers = output.values.last().expect("the answers are its last argument");
        Advanced { number: output.number, answers: answers.wides().to_vec() }
    }
}

/// What assembling answered, and the lent words after it.
#[derive(Clone, Debug, PartialEq, Eq)]
pub struct Assembled {
    pub number: u32,
    pub words: Vec<u32>,
    pub answers: Vec<u64>,
}
