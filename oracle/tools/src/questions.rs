//! Questions from a seed: for each function an endless stream of lines (README.md, "Lines").
//!
//! A stream depends on the seed and on the function's name alone. Where few questions are possible,
//! or few that are short, it goes through all of them in an order that the seed gives, with random
//! ones between, as far as the count lets it: to go through all takes 1,539 questions for payloads
//! of up to one byte and all values of a telling byte, 18,660 for short sequences of binds and unbinds, and up to 200,000 for a
//! server mask or the two bytes of a power descriptor.

pub mod bindings;
mod descriptors;
mod device;
pub mod dice;
mod fields;
mod replies;
mod requests;
mod words;

use dice::Dice;

/// The questions about one function.
pub struct Questions {
    name: String,
    arguments: Arguments,
    dice: Dice,
    /// How many questions were asked before.
    turn: usize,
    /// Where this stream's orders begin, and how far their steps go.
    order: (usize, usize),
}

/// Makes the arguments of the next question, as one text.
type Arguments = fn(&mut Questions) -> String;

/// The questions that a seed gives about a function, which is one of functions.txt.
pub fn questions(seed: u64, name: &str) -> Questions {
    let arguments = fields::arguments(name)
        .or_else(|| descriptors::arguments(name))
        .or_else(|| requests::arguments(name))
        .or_else(|| replies::arguments(name))
        .or_else(|| device::arguments(name))
        .or_else(|| bindings::arguments(name))
        .unwrap_or_else(|| panic!("{name}: no function of functions.txt"));
    let mut dice = Dice::new(seed, name);
    let order = (dice.below(1 << 20), dice.below(1 << 20));
    Questions {
        name: name.to_string(),
        arguments,
        dice,
        turn: 0,
        order,
    }
}

impl Iterator for Questions {
    type Item = String;

    fn next(&mut self) -> Option<String> {
        let arguments = (self.arguments)(self);
        self.turn += 1;
        Some(match arguments.as_str() {
            "" => self.name.clone(),
            _ => format!("{} {arguments}", self.name),
        })
    }
}

impl Questions {
    /// A number of `0..count`: each question takes the next, through all of them again and again.
    fn walked(&self, count: usize) -> usize {
        self.ordered(self.turn, count)
    }

    /// A number of `0..count` at the first question of every three, until all were taken.
    fn early(&self, count: usize) -> Option<usize> {
        self.walked_at(0, count).filter(|_| self.turn / 3 < count)
    }

    /// A number of `0..count` at the question of every three that has this place among them.
    fn walked_at(&self, place: usize, count: usize) -> Option<usize> {
        (self.turn % 3 == place).then(|| self.ordered(self.turn / 3, count))
    }

    /// The number at a place of this stream's order of `0..count`.
    fn ordered(&self, place: usize, count: usize) -> usize {
        let (first, step) = self.order;
        let reaches_all = |step: &usize| common_divisor(*step, count) == 1;
        let step = (step % count..).find(reaches_all).unwrap_or(1);
        (first + place % count * step) % count
    }
}

/// The greatest common divisor.
fn common_divisor(a: usize, b: usize) -> usize {
    if b == 0 { a } else { common_divisor(b, a % b) }
}
