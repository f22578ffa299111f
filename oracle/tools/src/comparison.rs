//! What was expected held against what a program answered, question by question.

mod answer;
mod functions;
mod readers;
pub mod table;
pub mod tally;

use crate::answer::model::lines;

/// A question with its two answers, and the cell in which it is counted.
pub struct Exchange<'a> {
    pub row: String,
    pub kind: String,
    pub question: &'a [u8],
    pub expected: &'a [u8],
    pub actual: &'a [u8],
    pub differs: bool,
}

/// The exchanges of a comparison, and what is wrong besides: an end that differs, a line too many.
pub struct Compared<'a> {
    pub exchanges: Vec<Exchange<'a>>,
    pub faults: Vec<String>,
}

/// The comparisons of cells.txt.
pub const COMPARISONS: [&str; 3] = ["functions", "readers", "answer"];

/// Compares three texts: questions, what is expected, and what was answered.
pub fn compared<'a>(comparison: &str, texts: [&'a [u8]; 3]) -> Result<Compared<'a>, String> {
    match comparison {
        "functions" => Ok(functions::compared(texts)),
        "readers" => Ok(readers::compared(texts)),
        "answer" => Ok(answer::compared(texts)),
        _ => Err(format!("{comparison}: no comparison")),
    }
}

/// The three texts by lines. Where there are fewer answers than questions, the others are empty lines.
fn triples<'a>(texts: [&'a [u8]; 3]) -> (Vec<[&'a [u8]; 3]>, Vec<String>) {
    let [questions, expected, actual] = texts.map(lines);
    let mut faults = Vec::new();
    for (answers, whose) in [(&expected, "expected"), (&actual, "given")] {
        if answers.len() != questions.len() {
            let (asked, told) = (questions.len(), answers.len());
            faults.push(format!("{asked} questions, and {told} answers {whose}"));
        }
    }
    let at = |answers: &[&'a [u8]], place: usize| answers.get(place).copied().unwrap_or_default();
    let triple = |(place, question)| [question, at(&expected, place), at(&actual, place)];
    (
        questions.into_iter().enumerate().map(triple).collect(),
        faults,
    )
}
