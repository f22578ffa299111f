//! Answers that were derived by hand from document 01 (answer_cases.txt): a list of runs of the program.

use super::model::{lines, output};

/// One run of the program: its input, what it prints, and in which line of the list each printed line stands.
#[derive(Default)]
pub struct Run {
    pub input: Vec<u8>,
    printed: Vec<String>,
    places: Vec<usize>,
}

/// The runs of a list.
pub fn runs(list: &str) -> Result<Vec<Run>, String> {
    let mut runs = Vec::new();
    let mut run = Run::default();
    for (place, line) in list.lines().enumerate() {
        if line.is_empty() || line.starts_with('#') {
            continue;
        }
        let (given, printed) = line
            .split_once(" => ")
            .ok_or_else(|| format!("line {}: no case", place + 1))?;
        run.printed.push(printed.to_string());
        run.places.push(place + 1);
        if run
            .take(given)
            .map_err(|e| format!("line {}: {e}", place + 1))?
        {
            runs.push(std::mem::take(&mut run));
        }
    }
    match run.places.first() {
        Some(place) => Err(format!("line {place}: a run without an end")),
        None => Ok(runs),
    }
}

impl Run {
    /// Takes an input line, or an end. True if it is an end.
    fn take(&mut self, given: &str) -> Result<bool, String> {
        match given {
            "(end)" => return Ok(true),
            "(cut)" => {
                self.input.pop().ok_or("nothing to cut")?;
                return Ok(true);
            }
            _ => self.input.extend(written_out(given)?),
        }
        self.input.push(b'\n');
        Ok(false)
    }

    /// How many cases it has.
    pub fn cases(&self) -> usize {
        self.printed.len()
    }

    /// Where the model prints something else: what it prints, and what the list says.
    pub fn differences(&self) -> Vec<String> {
        let output = output(&self.input);
        let model: Vec<String> = lines(&output)
            .into_iter()
            .map(|line| line.escape_ascii().to_string())
            .collect();
        if model.len() != self.printed.len() {
            let counts = (model.len(), self.printed.len());
            return vec![format!("{} lines printed, {} cases", counts.0, counts.1)];
        }
        (0..model.len())
            .filter(|n| model[*n] != self.printed[*n])
            .map(|n| (self.places[n], &model[n], &self.printed[n]))
            .map(|(place, model, printed)| format!("line {place}: {printed}, the model {model}"))
            .collect()
    }
}

/// The bytes of an input line: `\r`, `\t` and `\xNN` are one byte, `{N*TEXT}` is N times TEXT, and all else is as it stands.
fn written_out(mut text: &str) -> Result<Vec<u8>, String> {
    let mut bytes = Vec::new();
    while let Some(first) = text.chars().next() {
        let (piece, rest) = match first {
            '\\' => escaped(&text[1..])?,
            '{' => repeated(&text[1..])?,
            _ => {
                let (front, rest) = text.split_at(first.len_utf8());
                (front.as_bytes().to_vec(), rest)
            }
        };
        bytes.extend(piece);
        text = rest;
    }
    Ok(bytes)
}

/// The byte of what stands behind a `\`, and what follows.
fn escaped(text: &str) -> Result<(Vec<u8>, &str), String> {
    let wrong = || format!("no byte: \\{text}");
    let (byte, length) = match text.bytes().next() {
        Some(b'r') => (b'\r', 1),
        Some(b't') => (b'\t', 1),
        Some(b'x') => {
            let digits = text.get(1..3).ok_or_else(wrong)?;
            (u8::from_str_radix(digits, 16).map_err(|_| wrong())?, 3)
        }
        _ => return Err(wrong()),
    };
    Ok((vec![byte], &text[length..]))
}

/// The bytes of what stands behind a `{`, and what follows its `}`.
fn repeated(text: &str) -> Result<(Vec<u8>, &str), String> {
    let wrong = || format!("nothing repeated: {{{text}");
    let (inner, rest) = text.split_once('}').ok_or_else(wrong)?;
    let (times, piece) = inner.split_once('*').ok_or_else(wrong)?;
    let times = times.parse().map_err(|_| wrong())?;
    Ok((written_out(piece)?.repeat(times), rest))
}
