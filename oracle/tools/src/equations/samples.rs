//! Which questions are written as equations.

use std::collections::{BTreeMap, HashSet};

use super::{Part, equations, has_definition, outside};
use crate::functions::functions;
use crate::kinds::kind;

/// A question and an answer, and what they say of the definitions.
#[derive(Clone)]
pub struct Sample {
    pub function: &'static str,
    pub question: String,
    pub answer: String,
    pub parts: Vec<Part>,
}

impl Sample {
    /// `None` where question or answer have another shape.
    pub fn new(function: &'static str, question: &str, answer: &str) -> Option<Sample> {
        let parts = equations(question, answer)?;
        Some(Sample {
            function,
            question: question.to_string(),
            answer: answer.to_string(),
            parts,
        })
    }

    /// The kind of the answer.
    pub fn kind(&self) -> &'static str {
        kind(&self.question, &self.answer)
    }
}

/// How many questions of a function were skipped, by reason.
pub type Skipped = BTreeMap<(&'static str, &'static str), usize>;

/// A question is skipped that has more characters than this together with its answer: the prover would take long for it.
const LONGEST: usize = 6_000;

/// So many different questions of each function that has a definition, in the order of the table. An error tells a question
/// or an answer of another shape.
pub fn chosen(lines: &[(&str, &str)], each: usize) -> Result<(Vec<Sample>, Skipped), String> {
    let mut samples = Vec::new();
    let mut skipped = Skipped::new();
    for function in functions().iter().filter(|f| has_definition(f.name)) {
        let own = lines
            .iter()
            .filter(|(question, _)| question.split(' ').next() == Some(function.name));
        let mut seen = HashSet::new();
        let mut usable = Vec::new();
        for (question, answer) in own.filter(|(question, _)| seen.insert(*question)) {
            let long = (question.len() + answer.len() > LONGEST).then_some("too long");
            if let Some(reason) = outside(question, answer).or(long) {
                *skipped.entry((function.name, reason)).or_default() += 1;
                continue;
            }
            let sample = Sample::new(function.name, question, answer);
            usable.push(
                sample.ok_or_else(|| format!("not understood: {question}\n  answered {answer}"))?,
            );
        }
        samples.extend(of_all_kinds(usable, each));
    }
    Ok((samples, skipped))
}

/// So many of these, of each kind of answer in turn.
fn of_all_kinds(samples: Vec<Sample>, each: usize) -> Vec<Sample> {
    let mut ranks: BTreeMap<&str, usize> = BTreeMap::new();
    let mut ranked: Vec<(usize, Sample)> = Vec::new();
    for sample in samples {
        let rank = ranks.entry(sample.kind()).or_default();
        ranked.push((*rank, sample));
        *rank += 1;
    }
    ranked.sort_by_key(|(rank, _)| *rank);
    ranked
        .into_iter()
        .take(each)
        .map(|(_, sample)| sample)
        .collect()
}

/// One sample of each kind of answer of a function: the one with the longest answer, but of those that are not very long.
pub fn one_of_each_kind<'a>(samples: &'a [Sample], function: &str) -> Vec<&'a Sample> {
    let mut kinds: BTreeMap<&str, &Sample> = BTreeMap::new();
    let weight = |s: &Sample| {
        if s.answer.len() > 300 {
            0
        } else {
            s.answer.len()
        }
    };
    for sample in samples.iter().filter(|s| s.function == function) {
        let best = kinds.entry(sample.kind()).or_insert(sample);
        if weight(sample) > weight(best) {
            *best = sample;
        }
    }
    kinds.into_values().collect()
}
