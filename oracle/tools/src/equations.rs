//! A question and the oracle's answer as equations about the definitions: what a definition says of the question on one side,
//! and the answer, as literals, on the other. The number of a refusal, which the oracle does not tell, is document 01's.

mod bindings;
pub mod damage;
mod descriptors;
mod fields;
mod page;
pub mod prover;
mod replies;
mod requests;
pub mod samples;
mod tables;
mod terms;

use terms::Words;

/// One equation: a definition applied to what was asked, and a literal.
#[derive(Clone, Debug)]
pub struct Part {
    pub left: String,
    pub right: String,
}

/// From the words behind a question's name and from the answer, the equations. `None` where one of them has another shape.
type Claim = fn(Words, &str) -> Option<Vec<Part>>;

/// The function's own way to make equations; `None` where no definition speaks of it.
fn claim(name: &str) -> Option<Claim> {
    fields::claim(name)
        .or_else(|| descriptors::claim(name))
        .or_else(|| requests::claim(name))
        .or_else(|| replies::claim(name))
        .or_else(|| tables::claim(name))
        .or_else(|| bindings::claim(name))
}

/// Does a definition speak of a function?
pub fn has_definition(name: &str) -> bool {
    claim(name).is_some()
}

/// What a question and its answer say of the definitions; all of it must hold. `None` where one of them has another shape.
pub fn equations(question: &str, answer: &str) -> Option<Vec<Part>> {
    let mut words = Words::of(question);
    claim(words.word()?)?(words, answer)
}

fn part(left: impl Into<String>, right: impl Into<String>) -> Part {
    Part {
        left: left.into(),
        right: right.into(),
    }
}

/// An outcome is a refusal of this number.
fn refused(outcome: String, number: u8) -> Part {
    part(outcome, format!("refusal {number}"))
}

/// A writer that comes to an outcome: how many bytes it tells, and the buffer that it leaves. A refusal has this number, and
/// leaves the buffer as it was.
fn wrote(outcome: &str, buffer: &str, answer: &str, refusal: u8) -> Option<Vec<Part>> {
    let before = terms::bytes(buffer)?;
    let (told, after) = told_and_left(&before, answer, refusal)?;
    Some(vec![
        part(format!("told ({outcome}) {before}"), told),
        part(format!("left ({outcome}) {before}"), after),
    ])
}

/// What a writer's answer tells, and the buffer then. What the Rust leaves in the buffer when it refuses is not taken: that
/// the buffer is as it was is document 01's, a listed difference.
fn told_and_left(before: &str, answer: &str, refusal: u8) -> Option<(String, String)> {
    if refuses(answer) {
        return Some((format!("refusal {refusal}"), before.to_string()));
    }
    let mut words = Words::of(answer);
    let told = format!("answer {}", words.decimal()?);
    let after = words.bytes()?;
    words.end()?;
    Some((told, after))
}

/// Is a writer's answer a refusal: `R`, or `R` and the buffer?
fn refuses(answer: &str) -> bool {
    let behind = answer.strip_prefix("R ").map(terms::bytes);
    answer == "R" || behind.is_some_and(|buffer| buffer.is_some())
}

/// Why nothing is said of a question and its answer, if so.
pub fn outside(question: &str, answer: &str) -> Option<&'static str> {
    let words: Vec<&str> = question.split(' ').collect();
    match words[..] {
        [name, ..] if fields::claim(name).is_some() && refuses(answer) => {
            Some("no room, which the functions require")
        }
        ["links", limit, ..] if crate::words::decimal(limit)? > 32 => Some("a limit above 32"),
        ["EndpointDescriptor::write", _, inputs, outputs, ..] => {
            descriptors::crowded(inputs, outputs).then_some("more than 28 clusters")
        }
        _ => tables::outside(&words),
    }
}
