//! Checks answers of the oracle against the definitions: definitions FOLDER EACH QUESTIONS ANSWERS [damaged]
//!
//! FOLDER has a copy of the repository's crates.txt and crates/. Of each function EACH questions are taken, written into one
//! more crate there as equations, and proved by `rt check`. With `damaged`, wrong answers are written instead, and each must
//! be refused.

use std::collections::BTreeMap;
use std::fs;
use std::path::Path;
use std::process::ExitCode;

use tools::equations::damage::damaged;
use tools::equations::has_definition;
use tools::equations::prover::{Fault, refusals};
use tools::equations::samples::{Sample, Skipped, chosen};
use tools::functions::functions;
use tools::kinds::{PARTS, part_of};

fn main() -> ExitCode {
    match run() {
        Ok(true) => ExitCode::SUCCESS,
        Ok(false) => ExitCode::FAILURE,
        Err(fault) => {
            eprintln!("definitions: {fault}");
            ExitCode::from(2)
        }
    }
}

fn run() -> Result<bool, Fault> {
    let args: Vec<String> = std::env::args().skip(1).collect();
    let (files, damage) = match &args[..] {
        [files @ .., last] if last == "damaged" => (files, true),
        files => (files, false),
    };
    let [folder, each, questions, answers] = files else {
        return Err("usage: definitions FOLDER EACH QUESTIONS ANSWERS [damaged]".into());
    };
    let (questions, answers) = (fs::read_to_string(questions)?, fs::read_to_string(answers)?);
    if questions.lines().count() != answers.lines().count() {
        return Err("there are not as many answers as questions".into());
    }
    let lines: Vec<(&str, &str)> = questions.lines().zip(answers.lines()).collect();
    let (samples, skipped) = chosen(&lines, each.parse()?)?;
    if damage {
        let (wrong, skipped) = damaged(&samples);
        let refused = refusals(Path::new(folder), &wrong)?;
        return Ok(damage_told(&wrong, &skipped, &refused));
    }
    let refused = refusals(Path::new(folder), &samples)?;
    Ok(told(&samples, &skipped, &refused))
}

/// The samples of a function, each with what the prover says against it.
fn own<'a>(
    samples: &'a [Sample],
    refused: &'a BTreeMap<usize, String>,
    function: &str,
) -> Vec<(&'a Sample, Option<&'a String>)> {
    let all = samples
        .iter()
        .enumerate()
        .map(|(i, sample)| (sample, refused.get(&i)));
    all.filter(|(sample, _)| sample.function == function)
        .collect()
}

/// Prints what held and what did not. Did all hold, and is there something of each function?
fn told(samples: &[Sample], skipped: &Skipped, refused: &BTreeMap<usize, String>) -> bool {
    let mut whole = refused.is_empty();
    for function in functions() {
        let own = own(samples, refused, function.name);
        let bad = own.iter().filter(|(_, message)| message.is_some()).count();
        let verdict = match (own.len(), bad) {
            _ if !has_definition(function.name) => "no definition".to_string(),
            (0, _) => "NONE".to_string(),
            (_, 0) => format!("all held of {}", kinds(&own)),
            (_, bad) => format!("{bad} REFUSED of {}", kinds(&own)),
        };
        println!("{:42} {verdict}", function.name);
        own.iter()
            .filter_map(|(sample, message)| Some((sample, (*message)?)))
            .for_each(|(sample, message)| show(sample, message));
        whole &= !own.is_empty() || !has_definition(function.name);
    }
    show_skipped(skipped);
    for (part, title) in PARTS.iter().enumerate() {
        let own = samples
            .iter()
            .filter(|sample| part_of_sample(sample) == Some(part));
        println!("{:6} {title}", own.count());
    }
    println!("{} equations, {} refused", samples.len(), refused.len());
    whole
}

/// The part in which a sample is counted.
fn part_of_sample(sample: &Sample) -> Option<usize> {
    let functions = functions();
    let function = functions.iter().find(|f| f.name == sample.function)?;
    Some(part_of(function, sample.kind()))
}

/// How many samples there are, and of which kinds.
fn kinds(own: &[(&Sample, Option<&String>)]) -> String {
    let mut kinds: BTreeMap<&str, usize> = BTreeMap::new();
    own.iter()
        .for_each(|(sample, _)| *kinds.entry(sample.kind()).or_default() += 1);
    let kinds: Vec<String> = kinds
        .iter()
        .map(|(kind, n)| format!("{n} {kind}"))
        .collect();
    format!("{}: {}", own.len(), kinds.join("; "))
}

/// A question, its answer, and the beginning of what the prover says.
fn show(sample: &Sample, message: &str) {
    let message: String = message.chars().take(500).collect();
    println!(
        "  asked    {}\n  answered {}\n  prover   {message}",
        sample.question, sample.answer
    );
}

fn show_skipped(skipped: &Skipped) {
    for ((function, reason), count) in skipped {
        println!("skipped: {count} of {function}: {reason}");
    }
}

/// Prints which wrong answers were refused because the two sides differ. Were all, and is there something of each function?
fn damage_told(wrong: &[Sample], skipped: &Skipped, refused: &BTreeMap<usize, String>) -> bool {
    let differs = |message: Option<&String>| {
        message.is_some_and(|m| m.contains("(expected)") && m.contains("(found)"))
    };
    let mut missed = 0;
    let mut whole = true;
    for function in functions().iter().filter(|f| has_definition(f.name)) {
        let own = own(wrong, refused, function.name);
        let not: Vec<_> = own
            .iter()
            .filter(|(_, message)| !differs(*message))
            .collect();
        println!(
            "{:42} {} wrong answers, {} not refused",
            function.name,
            own.len(),
            not.len()
        );
        not.iter()
            .for_each(|(sample, message)| show(sample, message.map_or("held", |m| m)));
        missed += not.len();
        whole &= not.is_empty() && !own.is_empty();
    }
    show_skipped(skipped);
    println!("{} wrong answers, {missed} not refused", wrong.len());
    whole
}
