//! The model of the program `answer` and the program, on sessions. The texts of several sessions stand one behind the other; where one
//! ends is told by the line that is expected there.

use super::{Compared, Exchange};
use crate::answer::kinds::{Held, row};
use crate::answer::model::{lines, request};

/// There is an exchange for each line of the input, and one for each end: its question is the whole session.
pub fn compared<'a>([input, expected, actual]: [&'a [u8]; 3]) -> Compared<'a> {
    let [asked, told, printed] = [input, expected, actual].map(lines);
    let mut inputs = Inputs::new(input);
    let mut exchanges = Vec::new();
    for (place, expected) in told.iter().copied().enumerate() {
        let (question, row, kind) = match expected.starts_with(b"bindings ") {
            true => inputs.end(expected),
            false => inputs.line(expected),
        };
        let actual = printed.get(place).copied().unwrap_or_default();
        exchanges.push(Exchange {
            row: row.to_string(),
            kind,
            question,
            expected,
            actual,
            differs: expected != actual,
        });
    }
    let faults = [
        (
            inputs.lines != asked.len() || !inputs.ended(),
            "expected is not one line for each of the input, and the ends",
        ),
        (printed.len() > told.len(), "too many lines were printed"),
        (
            actual.last() != Some(&b'\n'),
            "the last line has another end",
        ),
    ];
    let faults = faults.into_iter().filter(|(wrong, _)| *wrong);
    Compared {
        exchanges,
        faults: faults.map(|(_, fault)| fault.to_string()).collect(),
    }
}

/// The input, line by line. Kept are where the session began, how far it was taken, how many lines were, and the entries that are held
/// by the statuses expected.
struct Inputs<'a> {
    input: &'a [u8],
    begin: usize,
    taken: usize,
    lines: usize,
    held: Held,
}

impl<'a> Inputs<'a> {
    fn new(input: &'a [u8]) -> Inputs<'a> {
        Inputs {
            input,
            begin: 0,
            taken: 0,
            lines: 0,
            held: Held::default(),
        }
    }

    /// The next line, its row, and the kind of what is expected for it.
    fn line(&mut self, expected: &[u8]) -> (&'a [u8], &'static str, String) {
        let rest = self.input.get(self.taken..).unwrap_or_default();
        let line = rest.split(|byte| *byte == b'\n').next().unwrap_or_default();
        self.taken += line.len() + 1;
        self.lines += 1;
        let request = request(line);
        let kind = self.held.kind(&request, &String::from_utf8_lossy(expected));
        (line, row(&request), kind)
    }

    /// The session, and whether the count that is expected at its end is the binds that added less the unbinds that removed.
    fn end(&mut self, expected: &[u8]) -> (&'a [u8], &'static str, String) {
        let session = self.input.get(self.begin..self.taken).unwrap_or(self.input);
        let right = expected == format!("bindings {}", self.held.count()).as_bytes();
        self.begin = self.taken;
        self.held = Held::default();
        let kind = if right { "bindings" } else { "another count" };
        (session, "the end", kind.to_string())
    }

    /// Was each session ended?
    fn ended(&self) -> bool {
        self.begin == self.taken
    }
}
