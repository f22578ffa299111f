//! What document 01 says that a reader gives ("Reply readers", "Replies", modules 2 to 4; docs/DECISIONS.md, "How document 01 is
//! read"). Written from that text.

use std::ops::Range;

use crate::words::bytes;

/// What was read from a reply: the words of the answer, and where the lists stand in the reply.
#[derive(Debug, PartialEq, Eq)]
pub struct Read {
    pub words: Vec<String>,
    pub lists: Vec<Range<usize>>,
}

/// The answer to a question, or none where it is no question about a reader.
pub fn answer(question: &str) -> Option<String> {
    let (reader, word) = question.split_once(' ')?;
    let reply = bytes(word)?;
    Some(match read(reader, &reply)? {
        Some(read) => read.words.join(" "),
        None => "R".to_string(),
    })
}

/// What a reader gives of a reply, none where it refuses; and none where there is no such reader.
pub fn read(reader: &str, reply: &[u8]) -> Option<Option<Read>> {
    Some(match reader {
        "NodeReply::try_read" => node(reply),
        "PowerReply::try_read" => power(reply),
        "ListReply::try_read" => list(reply),
        "MatchReply::try_read" => matched(reply),
        "SimpleReply::try_read" => simple(reply),
        "AddrReply::try_read" => addr(reply),
        "StatusReply::try_read" => status(reply).map(alone),
        _ => return None,
    })
}

/// Words without lists.
fn alone(words: Vec<String>) -> Read {
    let lists = Vec::new();
    Read { words, lists }
}

/// A little-endian number.
fn number(bytes: &[u8]) -> u64 {
    bytes.iter().rev().fold(0, |n, b| n << 8 | u64::from(*b))
}

/// A number as it is written.
fn hex(bytes: &[u8]) -> String {
    format!("{:0digits$X}", number(bytes), digits = 2 * bytes.len())
}

/// The value that a number reads as: the one of that name, or the reserved one.
pub fn named(number: u8, names: &[u8]) -> String {
    let reserved = !names.contains(&number);
    format!("{:02X}{number:02X}", u8::from(reserved))
}

/// "Bind, unbind, leave: seq, status."
fn status(reply: &[u8]) -> Option<Vec<String>> {
    let front = reply.get(..2)?;
    Some(front.iter().map(|byte| format!("{byte:02X}")).collect())
}

/// Node, power, active, simple, and match with status 0: "seq, status, short".
fn header(reply: &[u8]) -> Option<Vec<String>> {
    let mut words = status(reply)?;
    words.push(hex(reply.get(2..4)?));
    Some(words)
}

/// Is the status 0?
fn succeeded(reply: &[u8]) -> bool {
    reply.get(1) == Some(&0)
}

/// "Node: seq, status, short, then the descriptor ... from byte 4 on; 17 bytes." "Node and power replies of other status need 4
/// bytes and have no descriptor."
fn node(reply: &[u8]) -> Option<Read> {
    let mut words = header(reply)?;
    words.push(match succeeded(reply) {
        true => node_descriptor(reply.get(4..17)?),
        false => "-".to_string(),
    });
    Some(alone(words))
}

/// "Type in bits 0 to 2 of byte 0, complex bit 3, user bit 4; band (5 bits) in bits 3 to 7 of byte 1; MAC flags; manufacturer (2);
/// buffer size; incoming size (2); server mask (2); outgoing size (2); capabilities."
fn node_descriptor(bytes: &[u8]) -> String {
    let [first, bits] = [bytes[0], bytes[1]];
    let mut word = named(first % 8, &[0, 1, 2]);
    for field in [first / 8 % 2, first / 16 % 2, bits / 8] {
        word += &format!("{field:02X}");
    }
    for field in [2..3, 3..5, 5..6, 6..8, 8..10, 10..12, 12..13] {
        word += &hex(&bytes[field]);
    }
    word
}

/// "Power the same, 6."
fn power(reply: &[u8]) -> Option<Read> {
    let mut words = header(reply)?;
    match succeeded(reply) {
        true => words.extend(power_descriptor(reply.get(4..6)?)?),
        false => words.push("-".to_string()),
    }
    Some(alone(words))
}

/// "Byte 0: mode low, sources high. Byte 1: source low, level high. The reader refuses ... a current source other than 1, 2 or 4,
/// and one not among the available."
fn power_descriptor(bytes: &[u8]) -> Option<[String; 2]> {
    let [mode, sources] = [bytes[0] % 16, bytes[0] / 16];
    let [source, level] = [bytes[1] % 16, bytes[1] / 16];
    if ![1, 2, 4].contains(&source) || sources & source == 0 {
        return None;
    }
    let mode = named(mode, &[0, 1, 2]);
    let level = named(level, &[0, 4, 8, 12]);
    Some([
        format!("{mode}00{source:02X}{level}"),
        format!("{sources:02X}"),
    ])
}

/// "Active and match: seq, status, short, count, list; 5 plus the list." "Active, simple and successful match replies need their
/// list whole."
fn list(reply: &[u8]) -> Option<Read> {
    let mut words = header(reply)?;
    let count = usize::from(*reply.get(4)?);
    reply.get(5..5 + count)?;
    words.extend(["5".to_string(), count.to_string()]);
    let lists = vec![5..5 + count];
    Some(Read { words, lists })
}

/// "A match reply with a status other than 0 is read in the 3-byte form, its third byte ignored."
fn matched(reply: &[u8]) -> Option<Read> {
    let [seq, status, _, ..] = reply else {
        return None;
    };
    match status {
        0 => list(reply),
        _ => Some(alone(vec![
            format!("{seq:02X}"),
            format!("{status:02X}"),
            "-".to_string(),
        ])),
    }
}

/// "Simple: seq, status, short, length byte, descriptor." "A simple descriptor is read within its length, 0 meaning none."
fn simple(reply: &[u8]) -> Option<Read> {
    let mut words = header(reply)?;
    let end = 5 + usize::from(*reply.get(4)?);
    let within = reply.get(..end)?;
    if end == 5 {
        words.push("-".to_string());
        return Some(alone(words));
    }
    let front = within.get(5..11)?;
    words.push(
        [&front[0..1], &front[1..3], &front[3..5], &[front[5] % 16]]
            .map(hex)
            .concat(),
    );
    let inputs = clusters(within, 11)?;
    let outputs = clusters(within, inputs.end)?;
    let lists = vec![inputs, outputs];
    for list in &lists {
        words.extend([list.start.to_string(), (list.len() / 2).to_string()]);
    }
    Some(Read { words, lists })
}

/// A list of clusters, "2 each", behind its count at this place.
fn clusters(bytes: &[u8], place: usize) -> Option<Range<usize>> {
    let count = usize::from(*bytes.get(place)?);
    let list = place + 1..place + 1 + 2 * count;
    bytes.get(list.clone())?;
    Some(list)
}

/// "Address: seq, status, IEEE, short; 12, and two ... bytes more if extended." "An address reply of 14 bytes or more with status 0
/// [is read] as extended." Its list stands "from byte 14 to the end, two bytes each, a single last byte left out", and the number
/// that the reply claims "is given beside it".
fn addr(reply: &[u8]) -> Option<Read> {
    let mut words = status(reply)?;
    words.extend([hex(reply.get(2..10)?), hex(reply.get(10..12)?)]);
    if !succeeded(reply) || reply.len() < 14 {
        words.push("-".to_string());
        return Some(alone(words));
    }
    let count = (reply.len() - 14) / 2;
    words.extend([hex(&reply[12..13]), hex(&reply[13..14])]);
    words.extend(["14".to_string(), count.to_string()]);
    let lists = vec![14..14 + 2 * count];
    Some(Read { words, lists })
}
