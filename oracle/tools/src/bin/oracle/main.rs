//! The oracle: answers each question on standard input with what the Rust does (README.md, "Lines").

mod bindings;
mod descriptors;
mod device;
mod fields;
mod replies;
mod requests;

use std::io::{self, BufRead, BufWriter, Write};

use tools::words::show_bytes;

fn main() -> io::Result<()> {
    let mut out = BufWriter::new(io::stdout().lock());
    for line in io::stdin().lock().split(b'\n') {
        let line = line?;
        let answer = str::from_utf8(&line).ok().and_then(answer);
        writeln!(out, "{}", answer.as_deref().unwrap_or("?"))?;
    }
    out.flush()
}

/// The most characters of a line.
const LONGEST: usize = 16_384;

/// The answer to a question, or none where it is no question.
fn answer(line: &str) -> Option<String> {
    if line.len() > LONGEST {
        return None;
    }
    let mut words = line.split(' ');
    let name = words.next()?;
    let words: Vec<&str> = words.collect();
    fields::answer(name, &words)
        .or_else(|| descriptors::answer(name, &words))
        .or_else(|| requests::answer(name, &words))
        .or_else(|| replies::answer(name, &words))
        .or_else(|| device::answer(name, &words))
        .or_else(|| bindings::answer(name, &words))
}

/// A refusal.
fn refused() -> String {
    "R".to_string()
}

/// What a writer says, and the buffer that it leaves: after a refusal only where it is not as it was.
fn wrote(before: Vec<u8>, write: impl FnOnce(&mut [u8]) -> Result<usize, byte::Error>) -> String {
    let mut buffer = before.clone();
    match write(&mut buffer) {
        Ok(n) => format!("{n} {}", show_bytes(&buffer)),
        Err(_) if buffer == before => refused(),
        Err(_) => format!("R {}", show_bytes(&buffer)),
    }
}
