//! Makes an input smaller while two sides still answer it differently.

use crate::inputs::{Guarded, Input, Value};
use std::ops::Range;

/// How often the two sides are asked at most.
const TRIALS: u32 = 6_000;

/// What a configuration is made of where nothing asks for more: one word of image, W 32, eight registers, no option.
const PLAIN: [u32; 19] = [1, 32, 8, 8, 1, 0, 0, 0, 0, 0, 0, 0, 0, 0, 0, 0, 0, 32, 0];
const IM_SIZE: usize = 0;
const REG_SIZE: usize = 2;
const RM_SIZE: usize = 3;
const DM_SIZE: usize = 5;
/// The lists that are IM_SIZE long.
const IM_SIZED: [&str; 2] = ["image", "certificate"];

/// A smallest input that `differs` still holds of, as far as single changes lead.
pub fn shrink(input: Input, differs: &dyn Fn(&Input) -> bool) -> Input {
    let mut smaller = Smaller { input, differs, left: TRIALS };
    loop {
        let before = smaller.input.clone();
        smaller.sizes();
        smaller.plain_options();
        smaller.shorter_lists();
        smaller.zeros();
        smaller.numbers();
        smaller.fewer_bits();
        if smaller.input == before || smaller.left == 0 {
            return smaller.input;
        }
    }
}

/// An element that can be made smaller.
trait Element: Copy + Default + PartialEq {
    /// Each with one of the bits that are set cleared.
    fn with_fewer_bits(self) -> Vec<Self>;
}

macro_rules! element {
    ($($width:ty),*) => {$(
        impl Element for $width {
            fn with_fewer_bits(self) -> Vec<$width> {
                (0..<$width>::BITS).rev().map(|bit| self & !(1 << bit)).filter(|&fewer| fewer != self).collect()
            }
        }
    )*};
}

element!(u8, u32, u64);

/// The same change of a list, whatever its elements.
trait Edit {
    /// None where there is nothing to change.
    fn edited<T: Element>(&self, list: &[T]) -> Option<Vec<T>>;
}

fn edit(value: &mut Value, how: &impl Edit) -> bool {
    fn within<T: Element>(list: &mut Guarded<T>, how: &impl Edit) -> bool {
        let edited = how.edited(list.list());
        edited.map(|edited| list.set(&edited)).is_some()
    }
    match value {
        Value::Number(_) => false,
        Value::Bytes(list) => within(list, how),
        Value::Words(list) => within(list, how),
        Value::Wides(list) => within(list, how),
    }
}

struct Cut(usize);

impl Edit for Cut {
    fn edited<T: Element>(&self, list: &[T]) -> Option<Vec<T>> {
        (self.0 < list.len()).then(|| list[..self.0].to_vec())
    }
}

/// Drops so many elements from a place on.
struct Drop(usize, usize);

impl Edit for Drop {
    fn edited<T: Element>(&self, list: &[T]) -> Option<Vec<T>> {
        let Drop(from, count) = *self;
        let end = list.len().min(from + count);
        (from < end).then(|| [&list[..from], &list[end..]].concat())
    }
}

/// Sets so many elements from a place on to 0.
struct Zero(usize, usize);

impl Edit for Zero {
    fn edited<T: Element>(&self, list: &[T]) -> Option<Vec<T>> {
        let Zero(from, count) = *self;
        let end = list.len().min(from + count);
        let mut edited = list.to_vec();
        edited.get_mut(from..end)?.fill(T::default());
        (edited != list).then_some(edited)
    }
}

/// The n-th way to clear a bit of the element at a place.
struct Clear(usize, usize);

impl Edit for Clear {
    fn edited<T: Element>(&self, list: &[T]) -> Option<Vec<T>> {
        let fewer = *list.get(self.0)?.with_fewer_bits().get(self.1)?;
        let mut edited = list.to_vec();
        edited[self.0] = fewer;
        Some(edited)
    }
}

struct Smaller<'a> {
    input: Input,
    differs: &'a dyn Fn(&Input) -> bool,
    left: u32,
}

impl Smaller<'_> {
    /// Keeps a change where the sides still differ.
    fn attempt(&mut self, change: impl FnOnce(&mut Input) -> bool) -> bool {
        let mut changed = self.input.clone();
        if self.left == 0 || !change(&mut changed) || changed == self.input {
            return false;
        }
        self.left -= 1;
        let kept = (self.differs)(&changed);
        if kept {
            self.input = changed;
        }
        kept
    }

    fn length(&self, argument: usize) -> usize {
        match &self.input.arguments[argument].value {
            Value::Number(_) => 0,
            Value::Bytes(list) => list.list().len(),
            Value::Words(list) => list.list().len(),
            Value::Wides(list) => list.list().len(),
        }
    }

    /// Sizes of the configuration, with the lists that are so long.
    fn sizes(&mut self) {
        let halves = |most: u32| (0..16).rev().map(move |back| most >> back);
        for size in halves(self.field(IM_SIZE)) {
            self.attempt(|input| set_field(input, IM_SIZE, size) && cut(input, &IM_SIZED, size as usize));
        }
        let mut count = self.field(IM_SIZE) / 2;
        while count > 0 && self.left > 0 {
            let mut end = self.field(IM_SIZE);
            while end > 0 {
                let from = end.saturating_sub(count);
                self.attempt(|input| drop_addresses(input, from..end));
                end = from;
            }
            count /= 2;
        }
        for size in [0, 2].into_iter().chain(halves(self.field(DM_SIZE))) {
            self.attempt(|input| set_field(input, DM_SIZE, size) && cut(input, &["memory"], size as usize));
        }
        for size in halves(self.field(RM_SIZE)) {
            self.attempt(|input| set_field(input, RM_SIZE, size) && cut(input, &["registers"], size as usize));
            let both = |input: &mut Input| set_field(input, REG_SIZE, size) && set_field(input, RM_SIZE, size);
            self.attempt(|input| both(input) && cut(input, &["registers"], size as usize));
        }
        for length in [0, 1, 2, 4, 8, 16, 32] {
            self.attempt(|input| cut(input, &["log_addresses", "log_values"], length));
        }
    }

    fn field(&self, place: usize) -> u32 {
        self.config().and_then(|config| config.get(place)).copied().unwrap_or(0)
    }

    fn config(&self) -> Option<&[u32]> {
        let config = self.input.arguments.iter().find(|argument| argument.name == "config")?;
        Some(config.value.words())
    }

    fn plain_options(&mut self) {
        for (place, &plain) in PLAIN.iter().enumerate() {
            self.attempt(|input| set_field(input, place, plain));
        }
    }

    /// Drops stretches of each list, long ones first.
    fn shorter_lists(&mut self) {
        for argument in 0..self.input.arguments.len() {
            for length in [0, 1] {
                self.attempt(|input| edit(&mut input.arguments[argument].value, &Cut(length)));
            }
            self.by_stretches(argument, |from, count| Drop(from, count));
        }
    }

    fn zeros(&mut self) {
        for argument in 0..self.input.arguments.len() {
            // A source of zeros would be no easier to read.
            if self.input.arguments[argument].name != "text" {
                self.by_stretches(argument, |from, count| Zero(from, count));
            }
        }
    }

    fn by_stretches<E: Edit>(&mut self, argument: usize, change: impl Fn(usize, usize) -> E) {
        let mut count = self.length(argument);
        while count > 0 && self.left > 0 {
            let mut end = self.length(argument);
            while end > 0 {
                let from = end.saturating_sub(count);
                self.attempt(|input| edit(&mut input.arguments[argument].value, &change(from, count)));
                end = from;
            }
            count /= 2;
        }
    }

    fn numbers(&mut self) {
        for argument in 0..self.input.arguments.len() {
            while let Value::Number(number) = self.input.arguments[argument].value {
                let smaller = [0, 1, number / 2, number.saturating_sub(1)].into_iter().filter(|&smaller| smaller < number);
                let bits = number.with_fewer_bits();
                let kept = smaller.chain(bits).any(|smaller| {
                    self.attempt(|input| {
                        input.arguments[argument].value = Value::Number(smaller);
                        true
                    })
                });
                if !kept {
                    break;
                }
            }
        }
    }

    /// Clears single bits of what is left in short lists.
    fn fewer_bits(&mut self) {
        const SHORT: usize = 200;
        for argument in 0..self.input.arguments.len() {
            let name = self.input.arguments[argument].name;
            for place in 0..self.length(argument).min(SHORT) {
                let mut way = 0;
                while name != "text" && name != "config" && way < u64::BITS as usize {
                    if !self.attempt(|input| edit(&mut input.arguments[argument].value, &Clear(place, way))) {
                        way += 1;
                    }
                }
            }
        }
    }
}

fn set_field(input: &mut Input, place: usize, value: u32) -> bool {
    let Some(config) = input.arguments.iter_mut().find(|argument| argument.name == "config") else { return false };
    let Value::Words(words) = &mut config.value else { return false };
    words.lent().get_mut(place).map(|field| *field = value).is_some()
}

/// Cuts the lists of these names that are longer.
fn cut(input: &mut Input, names: &[&str], length: usize) -> bool {
    for argument in input.arguments.iter_mut().filter(|argument| names.contains(&argument.name)) {
        edit(&mut argument.value, &Cut(length));
    }
    true
}

/// The bits 31 to 23 of a word, without a jump's condition, that has a target: JMP and JSR.
fn has_target(word: u32) -> bool {
    word >> 27 == 0b11000 || word >> 23 == 0b1111_00001
}

/// Drops addresses from the image and its certificate; PC and targets behind them follow.
fn drop_addresses(input: &mut Input, dropped: Range<u32>) -> bool {
    let count = dropped.end - dropped.start;
    let moved = |address: u32| if address >= dropped.end { address - count } else { address };
    const TARGET: u32 = (1 << 23) - 1;
    let mut size = 0;
    for argument in input.arguments.iter_mut() {
        match (&mut argument.value, argument.name) {
            (Value::Words(config), "config") => size = config.list().first().copied().unwrap_or(0),
            (Value::Words(machine), "machine") => machine.lent().iter_mut().take(1).for_each(|pc| *pc = moved(*pc)),
            (value, name) if IM_SIZED.contains(&name) => {
                edit(value, &Drop(dropped.start as usize, count as usize));
            }
            _ => {}
        }
        if let (Value::Words(image), "image") = (&mut argument.value, argument.name) {
            let jumps = image.lent().iter_mut().filter(|word| has_target(**word));
            jumps.for_each(|word| *word = *word & !TARGET | moved(*word & TARGET));
        }
    }
    size > count && set_field(input, IM_SIZE, size - count)
}
