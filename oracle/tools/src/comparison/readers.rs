//! The model of the readers that document 01 adds, and replay.

use super::{Compared, Exchange, triples};
use crate::readers::kind;

pub fn compared<'a>(texts: [&'a [u8]; 3]) -> Compared<'a> {
    let (triples, faults) = triples(texts);
    Compared {
        exchanges: triples.into_iter().map(exchange).collect(),
        faults,
    }
}

/// An exchange. What is no answer differs from all.
fn exchange<'a>([question, expected, actual]: [&'a [u8]; 3]) -> Exchange<'a> {
    let asked = String::from_utf8_lossy(question);
    let reader = asked.split(' ').next().unwrap_or("");
    Exchange {
        row: reader.to_string(),
        kind: kind(reader, &String::from_utf8_lossy(expected)).to_string(),
        question,
        expected,
        actual,
        differs: [&b""[..], b"?"].contains(&expected) || expected != actual,
    }
}
