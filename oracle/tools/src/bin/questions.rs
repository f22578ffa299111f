//! The questions that a seed gives: `questions SEED COUNT [FUNCTION..]`, each function in turn. `spoken` stands for all that
//! replay speaks.

use std::io::{BufWriter, Write, stdout};
use std::process::ExitCode;

use tools::functions::functions;
use tools::questions::{Questions, questions};

fn main() -> ExitCode {
    let words: Vec<String> = std::env::args().skip(1).collect();
    let Some((streams, count)) = streams(&words) else {
        eprintln!(
            "questions SEED COUNT [FUNCTION..]: two decimal numbers, and names of functions.txt"
        );
        return ExitCode::from(2);
    };
    match print(streams, count) {
        Ok(()) => ExitCode::SUCCESS,
        Err(error) => {
            eprintln!("questions: {error}");
            ExitCode::FAILURE
        }
    }
}

/// The streams of the functions that are named, or of all, and how many questions to print.
fn streams(words: &[String]) -> Option<(Vec<Questions>, usize)> {
    let [seed, count, names @ ..] = words else {
        return None;
    };
    let seed = seed.parse().ok()?;
    let names = functions_named(names)?;
    let streams = names.iter().map(|name| questions(seed, name)).collect();
    Some((streams, count.parse().ok()?))
}

/// The functions that words name; none if one of them is unknown.
fn functions_named(words: &[String]) -> Option<Vec<&'static str>> {
    let functions = functions();
    let named = |word: &String| functions.iter().find(|f| f.name == word).map(|f| f.name);
    match words {
        [] => Some(functions.iter().map(|f| f.name).collect()),
        [word] if word == "spoken" => {
            let spoken = functions.iter().filter(|f| f.spoken);
            Some(spoken.map(|f| f.name).collect())
        }
        _ => words.iter().map(named).collect(),
    }
}

/// Prints so many questions, of each stream in turn.
fn print(mut streams: Vec<Questions>, count: usize) -> std::io::Result<()> {
    let mut out = BufWriter::new(stdout().lock());
    let among = streams.len();
    for place in 0..count {
        if let Some(line) = streams[place % among].next() {
            writeln!(out, "{line}")?;
        }
    }
    out.flush()
}
