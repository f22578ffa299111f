//! The model of the program `answer`, and what holds the program against it:
//! `answer model`, what the program shall write for standard input; `answer session SEED LINES`, a fresh input; `answer cases
//! FILE`, the model against answers that were derived by hand; `answer recorded FILE`, the input of the project's test, which begins with
//! those cases; `answer ends FOLDER`, short inputs that end in different ways, a file for each.

use std::io::{Read, Write, stdin, stdout};
use std::path::Path;
use std::process::ExitCode;

use tools::answer::cases::{Run, runs};
use tools::answer::ends::ends;
use tools::answer::model::output;
use tools::answer::sessions::{Session, session};

const USAGE: &str = "model, session SEED LINES, cases FILE, recorded FILE, or ends FOLDER";

/// The random part of the recorded input: its seed, which is one that reaches all kinds of answers, and how many lines it has.
const RECORDED: (u64, usize) = (73, 300);

/// The last line of the recorded input, which has no line feed: an entry that no other line of it has, so that the count at the end
/// tells whether the line was taken.
const LAST: &[u8] = b"0021 FF080706050403020102CDaB035AA55AA55AA55AA5aB";

fn main() -> ExitCode {
    let words: Vec<String> = std::env::args().skip(1).collect();
    let words: Vec<&str> = words.iter().map(String::as_str).collect();
    let done = match words[..] {
        ["model"] => model(),
        ["session", seed, lines] => fresh(seed, lines),
        ["cases", file] => cases(file),
        ["recorded", file] => recorded(file),
        ["ends", folder] => write_ends(folder),
        _ => Err(USAGE.to_string()),
    };
    match done {
        Ok(()) => ExitCode::SUCCESS,
        Err(why) => {
            eprintln!("answer: {why}");
            ExitCode::FAILURE
        }
    }
}

/// Writes to standard output.
fn print(bytes: &[u8]) -> Result<(), String> {
    let mut out = stdout().lock();
    out.write_all(bytes)
        .and_then(|()| out.flush())
        .map_err(|error| error.to_string())
}

/// What a file has.
fn read(path: &str) -> Result<Vec<u8>, String> {
    std::fs::read(path).map_err(|error| format!("{path}: {error}"))
}

/// The runs of a list of cases.
fn listed(path: &str) -> Result<Vec<Run>, String> {
    let list = String::from_utf8(read(path)?).map_err(|error| format!("{path}: {error}"))?;
    runs(&list).map_err(|error| format!("{path}: {error}"))
}

fn model() -> Result<(), String> {
    let mut input = Vec::new();
    stdin()
        .read_to_end(&mut input)
        .map_err(|error| error.to_string())?;
    print(&output(&input))
}

fn fresh(seed: &str, lines: &str) -> Result<(), String> {
    let seed = seed.parse().map_err(|_| format!("{seed}: no number"))?;
    let lines = lines.parse().map_err(|_| format!("{lines}: no number"))?;
    print(&session(seed, lines))
}

/// Holds the model against a list of cases.
fn cases(path: &str) -> Result<(), String> {
    let runs = listed(path)?;
    let count: usize = runs.iter().map(Run::cases).sum();
    let differences: Vec<String> = runs.iter().flat_map(Run::differences).collect();
    differences.iter().for_each(|d| println!("{d}"));
    match differences.len() {
        0 if count > 0 => println!("{count} cases of `answer`, no difference"),
        _ => return Err(format!("{count} cases, and the model differs")),
    }
    Ok(())
}

/// The input lines of the first run of a list of cases, then a random session, and a last line without an end.
fn recorded(path: &str) -> Result<(), String> {
    let runs = listed(path)?;
    let mut input = runs.into_iter().next().ok_or("no cases")?.input;
    let (seed, lines) = RECORDED;
    let mut session = Session::new(seed);
    for _ in 0..lines {
        input.extend(session.line());
        input.push(b'\n');
    }
    input.extend(LAST);
    print(&input)
}

/// Writes the short inputs into a folder, by their numbers.
fn write_ends(folder: &str) -> Result<(), String> {
    for (place, input) in ends().iter().enumerate() {
        let path = Path::new(folder).join(format!("{place:02}"));
        std::fs::write(&path, input).map_err(|error| format!("{}: {error}", path.display()))?;
    }
    Ok(())
}
