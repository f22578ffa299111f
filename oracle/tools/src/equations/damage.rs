//! Wrong answers, to see that the prover refuses them.

use super::samples::{Sample, Skipped, one_of_each_kind};
use crate::functions::functions;

/// Wrong answers to questions of each function: of one answer of each kind, each digit changed, one at a time, and an answer
/// of each other kind in its place. Counted as skipped are digits in whose place no other makes an answer.
pub fn damaged(samples: &[Sample]) -> (Vec<Sample>, Skipped) {
    let mut wrong = Vec::new();
    let mut skipped = Skipped::new();
    for function in functions() {
        let right = one_of_each_kind(samples, function.name);
        for sample in &right {
            let (changed, fixed) = digits_changed(sample);
            wrong.extend(changed);
            if fixed > 0 {
                *skipped
                    .entry((function.name, "digits that can be no other"))
                    .or_default() += fixed;
            }
            let others = right
                .iter()
                .filter(|o| o.kind() != sample.kind() && o.answer != sample.answer);
            wrong.extend(
                others.filter_map(|o| Sample::new(sample.function, &sample.question, &o.answer)),
            );
        }
    }
    (wrong, skipped)
}

/// Every sample that differs in one digit of its answer, and at how many places there is none. What stands behind a refusal
/// is no part of it.
fn digits_changed(sample: &Sample) -> (Vec<Sample>, usize) {
    if sample.answer.starts_with('R') {
        return (Vec::new(), 0);
    }
    let places =
        (0..sample.answer.len()).filter(|i| sample.answer.as_bytes()[*i].is_ascii_hexdigit());
    let tried: Vec<Option<Sample>> = places.map(|i| digit_changed(sample, i)).collect();
    let fixed = tried.iter().filter(|t| t.is_none()).count();
    (tried.into_iter().flatten().collect(), fixed)
}

/// The sample with another digit at a place of its answer: the next one that still makes an answer.
fn digit_changed(sample: &Sample, at: usize) -> Option<Sample> {
    let digit = (sample.answer.as_bytes()[at] as char).to_digit(16)?;
    (1..16).find_map(|more| {
        let other = char::from_digit((digit + more) % 16, 16)?.to_ascii_uppercase();
        let changed = format!(
            "{}{other}{}",
            &sample.answer[..at],
            &sample.answer[at + 1..]
        );
        Sample::new(sample.function, &sample.question, &changed)
    })
}
