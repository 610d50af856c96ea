//! What a call is given, as data: its arguments in the order of include/yam.h, so that a call can be made again, changed and made smaller.

use crate::calls::{Calls, State};
use crate::generate::states::Lists;
use std::fmt::{Debug, Display, Formatter};

#[derive(Clone, Copy, Debug, PartialEq, Eq)]
pub enum Call {
    Read,
    Write,
    Reset,
    Step,
    Run,
    Check,
    Text,
    List,
    Load,
    Store,
    Assemble,
}

impl Call {
    pub fn name(self) -> &'static str {
        match self {
            Call::Read => "read",
            Call::Write => "write",
            Call::Reset => "reset",
            Call::Step => "step",
            Call::Run => "run",
            Call::Check => "check",
            Call::Text => "text",
            Call::List => "list",
            Call::Load => "load",
            Call::Store => "store",
            Call::Assemble => "assemble",
        }
    }
}

/// How many elements stand before and behind each lent list, to see that a call writes neither.
const GUARDS: usize = 4;
const BYTE_GUARD: u8 = 0xb5;
const WORD_GUARD: u32 = 0x5bad_5bad;
const WIDE_GUARD: u64 = 0x5bad_5bad_5bad_5bad;

/// A list between its guards.
#[derive(Clone, PartialEq, Eq)]
pub struct Guarded<T> {
    cells: Vec<T>,
    guard: T,
}

impl<T: Copy + PartialEq> Guarded<T> {
    fn new(list: &[T], guard: T) -> Guarded<T> {
        let mut cells = Vec::with_capacity(list.len() + 2 * GUARDS);
        cells.extend([guard; GUARDS]);
        cells.extend_from_slice(list);
        cells.extend([guard; GUARDS]);
        Guarded { cells, guard }
    }

    pub fn list(&self) -> &[T] {
        &self.cells[GUARDS..self.cells.len() - GUARDS]
    }

    pub fn lent(&mut self) -> &mut [T] {
        let end = self.cells.len() - GUARDS;
        &mut self.cells[GUARDS..end]
    }

    pub fn set(&mut self, list: &[T]) {
        *self = Guarded::new(list, self.guard);
    }

    fn guards_stand(&self) -> bool {
        let (before, rest) = self.cells.split_at(GUARDS);
        let behind = &rest[rest.len() - GUARDS..];
        before.iter().chain(behind).all(|cell| *cell == self.guard)
    }
}

/// A number, or a list by the width of its elements.
#[derive(Clone, PartialEq, Eq)]
pub enum Value {
    Number(u64),
    Bytes(Guarded<u8>),
    Words(Guarded<u32>),
    Wides(Guarded<u64>),
}

const OTHER: &str = "the argument is of another type";

impl Value {
    pub fn number(&self) -> u64 {
        let Value::Number(number) = self else { panic!("{OTHER}") };
        *number
    }

    fn narrow(&self) -> u32 {
        u32::try_from(self.number()).expect("a 32-bit number")
    }

    pub fn bytes(&self) -> &[u8] {
        let Value::Bytes(bytes) = self else { panic!("{OTHER}") };
        bytes.list()
    }

    pub fn words(&self) -> &[u32] {
        let Value::Words(words) = self else { panic!("{OTHER}") };
        words.list()
    }

    pub fn wides(&self) -> &[u64] {
        let Value::Wides(wides) = self else { panic!("{OTHER}") };
        wides.list()
    }

    fn lent_bytes(&mut self) -> &mut [u8] {
        let Value::Bytes(bytes) = self else { panic!("{OTHER}") };
        bytes.lent()
    }

    fn lent_words(&mut self) -> &mut [u32] {
        let Value::Words(words) = self else { panic!("{OTHER}") };
        words.lent()
    }

    fn lent_wides(&mut self) -> &mut [u64] {
        let Value::Wides(wides) = self else { panic!("{OTHER}") };
        wides.lent()
    }

    fn guards_stand(&self) -> bool {
        match self {
            Value::Number(_) => true,
            Value::Bytes(list) => list.guards_stand(),
            Value::Words(list) => list.guards_stand(),
            Value::Wides(list) => list.guards_stand(),
        }
    }

    /// The first place in which two lists of one length differ, and what stands there.
    fn first_difference(&self, other: &Value) -> Option<String> {
        fn first<T: PartialEq + Debug>(a: &[T], b: &[T]) -> Option<String> {
            if a.len() != b.len() {
                return Some(format!(" has {} and {} elements", a.len(), b.len()));
            }
            let place = a.iter().zip(b).position(|(a, b)| a != b)?;
            Some(format!("[{place}]: {:#x?} and {:#x?}", a[place], b[place]))
        }
        match (self, other) {
            (Value::Number(a), Value::Number(b)) => (a != b).then(|| format!(": {a} and {b}")),
            (Value::Bytes(a), Value::Bytes(b)) => first(a.list(), b.list()),
            (Value::Words(a), Value::Words(b)) => first(a.list(), b.list()),
            (Value::Wides(a), Value::Wides(b)) => first(a.list(), b.list()),
            _ => panic!("{OTHER}"),
        }
    }
}

#[derive(Clone, Copy, Debug, PartialEq, Eq)]
pub enum Lent {
    ToRead,
    ToWrite,
}

#[derive(Clone, PartialEq, Eq)]
pub struct Argument {
    pub name: &'static str,
    pub lent: Lent,
    pub value: Value,
}

pub fn number(name: &'static str, value: impl Into<u64>) -> Argument {
    Argument { name, lent: Lent::ToRead, value: Value::Number(value.into()) }
}

pub fn read_words(name: &'static str, list: &[u32]) -> Argument {
    Argument { name, lent: Lent::ToRead, value: Value::Words(Guarded::new(list, WORD_GUARD)) }
}

pub fn read_bytes(name: &'static str, list: &[u8]) -> Argument {
    Argument { name, lent: Lent::ToRead, value: Value::Bytes(Guarded::new(list, BYTE_GUARD)) }
}

pub fn written_words(name: &'static str, list: &[u32]) -> Argument {
    Argument { lent: Lent::ToWrite, ..read_words(name, list) }
}

pub fn written_bytes(name: &'static str, list: &[u8]) -> Argument {
    Argument { lent: Lent::ToWrite, ..read_bytes(name, list) }
}

pub fn answers(list: &[u64]) -> Argument {
    Argument { name: "answers", lent: Lent::ToWrite, value: Value::Wides(Guarded::new(list, WIDE_GUARD)) }
}

/// A call and its arguments.
#[derive(Clone, PartialEq, Eq)]
pub struct Input {
    pub call: Call,
    pub arguments: Vec<Argument>,
}

/// What a call answered, its arguments after it, and what it wrote that it must not.
pub struct Output {
    pub number: u32,
    pub values: Vec<Value>,
    pub faults: Vec<String>,
}

/// The places of the arguments of a step and a run.
pub const MACHINE: usize = 3;
pub const BUDGET: usize = 8;

impl Input {
    /// A step, or a run where there is a budget.
    pub fn advance(config: &[u32], lists: &Lists, budget: Option<u64>, answered: &[u64]) -> Input {
        let mut arguments = vec![
            read_words("config", config),
            read_words("image", &lists.image),
            read_words("inputs", &lists.inputs),
            written_words("machine", &lists.machine),
            written_words("registers", &lists.registers),
            written_words("memory", &lists.memory),
            written_words("log_addresses", &lists.log_addresses),
            written_words("log_values", &lists.log_values),
        ];
        arguments.extend(budget.map(|budget| number("budget", budget)));
        arguments.push(answers(answered));
        Input { call: if budget.is_some() { Call::Run } else { Call::Step }, arguments }
    }

    pub fn assemble(config: &[u32], text: &[u8], words: &[u32], answered: &[u64]) -> Input {
        let arguments =
            vec![read_words("config", config), read_bytes("text", text), written_words("words", words), answers(answered)];
        Input { call: Call::Assemble, arguments }
    }

    /// The same call with its arguments as it left them.
    pub fn after(&self, output: Output) -> Input {
        let left = self.arguments.iter().zip(output.values).map(|(argument, value)| Argument { value, ..*argument });
        Input { call: self.call, arguments: left.collect() }
    }

    /// The lists of a step or a run.
    pub fn lists(&self) -> Lists {
        lists_by(|place| &self.arguments[place].value)
    }

    /// The lists of a step or a run as it left them.
    pub fn left(output: &Output) -> Lists {
        lists_by(|place| &output.values[place])
    }

    /// Makes the call, each of its lists between guards.
    pub fn make(&self, calls: &dyn Calls) -> Output {
        let mut values: Vec<Value> = self.arguments.iter().map(|argument| argument.value.clone()).collect();
        let number = dispatch(self.call, &mut values, calls);
        let mut faults = Vec::new();
        for (argument, value) in self.arguments.iter().zip(&values) {
            if !value.guards_stand() {
                faults.push(format!("{}: a guard before or behind the list was written", argument.name));
            } else if argument.lent == Lent::ToRead && argument.value != *value {
                faults.push(format!("{}: lent for reading, and was written", argument.name));
            }
        }
        Output { number, values, faults }
    }

    /// Says how two answers to this input differ; None where they do not.
    pub fn difference(&self, names: [&str; 2], a: &Output, b: &Output) -> Option<String> {
        let [left, right] = names;
        let mut said = Vec::new();
        if a.number != b.number {
            said.push(format!("the number: {} and {}", a.number, b.number));
        }
        for ((argument, one), other) in self.arguments.iter().zip(&a.values).zip(&b.values) {
            if argument.lent == Lent::ToWrite {
                said.extend(one.first_difference(other).map(|how| format!("{}{how}", argument.name)));
            }
        }
        for (name, output) in [(left, a), (right, b)] {
            said.extend(output.faults.iter().map(|fault| format!("{name}, {fault}")));
        }
        (!said.is_empty()).then(|| format!("{left} and {right}: {}", said.join("; ")))
    }
}

fn lists_by<'a>(value: impl Fn(usize) -> &'a Value) -> Lists {
    let words = |place: usize| value(place).words().to_vec();
    Lists {
        image: words(1),
        inputs: words(2),
        machine: words(MACHINE),
        registers: words(4),
        memory: words(5),
        log_addresses: words(6),
        log_values: words(7),
    }
}

fn dispatch(call: Call, lent: &mut [Value], calls: &dyn Calls) -> u32 {
    match (call, lent) {
        (Call::Read, [config, word, instruction]) => calls.read(config.words(), word.narrow(), instruction.lent_words()),
        (Call::Write, [config, instruction, answers]) => calls.write(config.words(), instruction.words(), answers.lent_wides()),
        (Call::Reset, [machine]) => calls.reset(machine.lent_words()),
        (Call::Step, [config, image, inputs, machine, registers, memory, log_addresses, log_values, answers]) => {
            let state = state_of(machine, registers, memory, log_addresses, log_values);
            calls.step(config.words(), image.words(), inputs.words(), state, answers.lent_wides())
        }
        (Call::Run, [config, image, inputs, machine, registers, memory, log_addresses, log_values, budget, answers]) => {
            let state = state_of(machine, registers, memory, log_addresses, log_values);
            calls.run(config.words(), image.words(), inputs.words(), state, budget.number(), answers.lent_wides())
        }
        (Call::Check, [config, image, sheet, answers]) => {
            calls.check(config.words(), image.words(), sheet.bytes(), answers.lent_wides())
        }
        (Call::Text, [config, word, page, place, answers]) => {
            calls.text(config.words(), word.narrow(), page.lent_bytes(), place.number(), answers.lent_wides())
        }
        (Call::List, [config, image, first, page, place, answers]) => {
            let (first, place) = (first.number(), place.number());
            calls.list(config.words(), image.words(), first, page.lent_bytes(), place, answers.lent_wides())
        }
        (Call::Load, [file, config, image]) => calls.load(file.bytes(), config.lent_words(), image.lent_words()),
        (Call::Store, [config, image, file]) => calls.store(config.words(), image.words(), file.lent_bytes()),
        (Call::Assemble, [config, text, words, answers]) => {
            calls.assemble(config.words(), text.bytes(), words.lent_words(), answers.lent_wides())
        }
        _ => panic!("{call:?} has other arguments"),
    }
}

fn state_of<'a>(
    machine: &'a mut Value,
    registers: &'a mut Value,
    memory: &'a mut Value,
    log_addresses: &'a mut Value,
    log_values: &'a mut Value,
) -> State<'a> {
    State {
        machine: machine.lent_words(),
        registers: registers.lent_words(),
        memory: memory.lent_words(),
        log_addresses: log_addresses.lent_words(),
        log_values: log_values.lent_words(),
    }
}

/// A list with its stretches of one element shortened, "0 x 63".
fn shortened<T: PartialEq>(list: &[T], show: impl Fn(&T) -> String) -> String {
    let stretches = list.chunk_by(|a, b| a == b).map(|stretch| match stretch {
        [one] => show(one),
        [one, ..] => format!("{} x {}", show(one), stretch.len()),
        [] => String::new(),
    });
    format!("[{}]", stretches.collect::<Vec<_>>().join(", "))
}

/// A line an argument; numbers and configurations decimal, lists else hexadecimal, a source as text.
impl Display for Input {
    fn fmt(&self, f: &mut Formatter) -> std::fmt::Result {
        write!(f, "{}", self.call.name())?;
        for Argument { name, value, .. } in &self.arguments {
            let shown = match value {
                Value::Number(number) if *name == "word" => format!("{number:08x}"),
                Value::Number(number) => number.to_string(),
                Value::Words(words) if *name == "config" => format!("{:?}", words.list()),
                Value::Bytes(bytes) if *name == "text" => format!("{:?}", String::from_utf8_lossy(bytes.list())),
                Value::Bytes(bytes) => shortened(bytes.list(), |byte| format!("{byte:02x}")),
                Value::Words(words) => shortened(words.list(), |word| format!("{word:x}")),
                Value::Wides(wides) => shortened(wides.list(), |wide| format!("{wide:x}")),
            };
            write!(f, "\n    {name} {shown}")?;
        }
        Ok(())
    }
}
