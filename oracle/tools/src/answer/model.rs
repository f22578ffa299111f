//! The program `answer` as document 01 says it ("Counter-cases", at the end; docs/DECISIONS.md, "A line of `answer`"): from the bytes
//! of standard input to those of standard output.

use super::dispatcher::{Answer, Dispatcher};

/// "4,096 characters at most": of the whole line, without its line feed.
pub const LONGEST: usize = 4096;

/// What the program prints for an input.
pub fn output(input: &[u8]) -> Vec<u8> {
    let mut dispatcher = Dispatcher::default();
    let mut printed: Vec<String> = lines(input)
        .into_iter()
        .map(|line| answer(&mut dispatcher, line))
        .collect();
    printed.push(end(&dispatcher));
    let mut output = printed.join("\n");
    output.push('\n');
    output.into_bytes()
}

/// The lines of an input. Only a line feed ends a line. "A last line without an end counts if it has a character."
pub fn lines(input: &[u8]) -> Vec<&[u8]> {
    let mut lines: Vec<&[u8]> = input.split(|byte| *byte == b'\n').collect();
    if lines.last().is_some_and(|last| last.is_empty()) {
        lines.pop();
    }
    lines
}

/// "A reply prints its cluster, a space and its bytes in capitals; a refusal `R` and its number; leave `leave`; a line that isn't hex
/// (either case) of this shape, an empty or too long one too, prints `?`."
fn answer(dispatcher: &mut Dispatcher, line: &[u8]) -> String {
    let Some((cluster, payload)) = request(line) else {
        return "?".to_string();
    };
    match dispatcher.dispatch(cluster, &payload) {
        Ok(Answer::Reply(cluster, bytes)) => {
            let bytes: String = bytes.iter().map(|byte| format!("{byte:02X}")).collect();
            format!("{cluster:04X} {bytes}")
        }
        Ok(Answer::Leave(_)) => "leave".to_string(),
        Err(refusal) => format!("R{}", refusal as u8),
    }
}

/// "At the end of input come `bindings`, a space and the count in decimal."
fn end(dispatcher: &Dispatcher) -> String {
    format!("bindings {}", dispatcher.bindings())
}

/// "Four hex digits, a space, then a payload of one byte or more, 4,096 characters at most": a cluster and a payload, or none where
/// the line has another shape. A cluster's high digit comes first; a byte of the payload has two digits.
pub fn request(line: &[u8]) -> Option<(u16, Vec<u8>)> {
    if line.len() > LONGEST {
        return None;
    }
    let (cluster, rest) = line.split_first_chunk::<4>()?;
    let (b' ', payload) = rest.split_first()? else {
        return None;
    };
    let payload = bytes(payload).filter(|bytes| !bytes.is_empty())?;
    match bytes(cluster)?[..] {
        [high, low] => Some((u16::from_be_bytes([high, low]), payload)),
        _ => None,
    }
}

/// The bytes of a text of hexadecimal digits, two for each; none where it is something else.
fn bytes(text: &[u8]) -> Option<Vec<u8>> {
    let (pairs, []) = text.as_chunks::<2>() else {
        return None;
    };
    let byte = |[high, low]: &[u8; 2]| Some(digit(*high)? << 4 | digit(*low)?);
    pairs.iter().map(byte).collect()
}

/// A digit of either case.
fn digit(character: u8) -> Option<u8> {
    match character {
        b'0'..=b'9' => Some(character - b'0'),
        b'A'..=b'F' => Some(character - b'A' + 10),
        b'a'..=b'f' => Some(character - b'a' + 10),
        _ => None,
    }
}
