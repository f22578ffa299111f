//! The readers of replies that document 01 adds, asked about what the Rust wrote:
//! `readers questions SEED COUNT WRITTEN REPLIES`, COUNT questions, made from questions to the Rust's writers and the oracle's
//! answers to them; `readers sample` with the same words, the first of them of each writer, kind of copy and kind of answer;
//! `readers answers`, the model's answers to questions on standard input; `readers writers`, the names of the writers.

use std::collections::{HashMap, HashSet};
use std::io::{BufRead, BufWriter, Write, stdin, stdout};
use std::process::ExitCode;

use tools::questions::dice::Dice;
use tools::readers::copies::{COPIES, copy, far_behind};
use tools::readers::given::{Given, WRITERS, given, question, reply_of};
use tools::readers::kind;
use tools::readers::model::{answer, read};

fn main() -> ExitCode {
    let words: Vec<String> = std::env::args().skip(1).collect();
    let words: Vec<&str> = words.iter().map(String::as_str).collect();
    let done = match words[..] {
        ["questions", seed, count, written, replies] => {
            questions([seed, count, written, replies], false)
        }
        ["sample", seed, count, written, replies] => {
            questions([seed, count, written, replies], true)
        }
        ["answers"] => answers(),
        ["writers"] => {
            println!("{}", WRITERS.join(" "));
            Ok(())
        }
        _ => Err("questions or sample SEED COUNT WRITTEN REPLIES, answers, or writers".to_string()),
    };
    match done {
        Ok(()) => ExitCode::SUCCESS,
        Err(why) => {
            eprintln!("readers: {why}");
            ExitCode::FAILURE
        }
    }
}

/// The lines of a file.
fn lines(path: &str) -> Result<Vec<String>, String> {
    let text = std::fs::read_to_string(path).map_err(|error| format!("{path}: {error}"))?;
    Ok(text.split_terminator('\n').map(str::to_string).collect())
}

/// A question to a reader, the kind of copy that it is, and the writer of the reply.
struct Made {
    writer: String,
    copy: &'static str,
    reader: &'static str,
    question: String,
}

impl Made {
    /// What it is told apart by in a sample: the kinds of copy and of answer, and the writer, or the reader where it is another.
    fn cell(&self) -> (String, &'static str, &'static str) {
        let answer = answer(&self.question).unwrap_or_default();
        let asked = match self.copy {
            "to another reader" => self.reader.to_string(),
            _ => self.writer.clone(),
        };
        (asked, self.copy, kind(self.reader, &answer))
    }
}

/// So many questions: of each reply that was written one, as it is or a damaged copy, each kind of copy in turn for each writer.
/// Fails if the model does not read from each of the replies what was given to its writer.
fn make(words: [&str; 4]) -> Result<Vec<Made>, String> {
    let [seed, count, written, replies] = words;
    let seed = seed.parse().map_err(|_| format!("{seed}: no number"))?;
    let count = count.parse().map_err(|_| format!("{count}: no number"))?;
    let mut dice = Dice::new(seed, "readers");
    let mut far = Dice::new(seed, "far behind");
    let mut turns: HashMap<String, usize> = HashMap::new();
    let mut made = Vec::new();
    for (asked, told) in lines(written)?.into_iter().zip(lines(replies)?) {
        let given = given(&asked).ok_or_else(|| format!("no writer's question: {asked}"))?;
        let Some(reply) = reply_of(&told) else {
            continue;
        };
        reads_back(&given, &reply).map_err(|why| format!("{asked}\n  {why}"))?;
        let writer = asked.split(' ').next().unwrap_or("").to_string();
        let turn = turns.entry(writer.clone()).or_default();
        let kind = COPIES[*turn % COPIES.len()];
        let reader = given.readers[*turn % given.readers.len()];
        let round = *turn / COPIES.len();
        *turn += 1;
        let (reader, mut bytes) = copy(kind, reader, &reply, &mut dice);
        if kind == "bytes behind it" && round % 8 == 7 {
            far_behind(&mut far, &mut bytes);
        }
        made.push(Made {
            writer,
            copy: kind,
            reader,
            question: question(reader, &bytes),
        });
        if made.len() == count {
            return Ok(made);
        }
    }
    Err(format!("{} replies are too few", made.len()))
}

/// Sees that the model reads from a reply what was given to its writer, for each of its readers.
fn reads_back(given: &Given, reply: &[u8]) -> Result<(), String> {
    for reader in given.readers {
        let model = read(reader, reply).flatten();
        let refused = "R".to_string();
        let words = model.as_ref().map_or(refused, |read| read.words.join(" "));
        let lists = model.map_or(vec![], |read| read.lists);
        let lists: Vec<Vec<u8>> = lists.into_iter().map(|l| reply[l].to_vec()).collect();
        if words != given.answer || lists != given.lists {
            return Err(format!("given {}\n  {reader} {words}", given.answer));
        }
    }
    Ok(())
}

/// Prints questions, and of a sample only the first of each cell. Says how many there are of each kind of copy.
fn questions(words: [&str; 4], sample: bool) -> Result<(), String> {
    let mut made = make(words)?;
    let replies = made.len();
    let mut cells = HashSet::new();
    made.retain(|made| !sample || cells.insert(made.cell()));
    let mut out = BufWriter::new(stdout().lock());
    for made in &made {
        writeln!(out, "{}", made.question).map_err(|error| error.to_string())?;
    }
    out.flush().map_err(|error| error.to_string())?;
    eprintln!(
        "{replies} replies of the Rust: the model reads from each what was given to its writer"
    );
    for kind in COPIES {
        let count = made.iter().filter(|made| made.copy == kind).count();
        eprintln!("  {kind:<24}{count:>10}");
    }
    Ok(())
}

/// Answers each question on standard input by the model.
fn answers() -> Result<(), String> {
    let mut out = BufWriter::new(stdout().lock());
    for line in stdin().lock().lines() {
        let line = line.map_err(|error| error.to_string())?;
        let answer = answer(&line);
        let answer = answer.as_deref().unwrap_or("?");
        writeln!(out, "{answer}").map_err(|error| error.to_string())?;
    }
    out.flush().map_err(|error| error.to_string())
}
