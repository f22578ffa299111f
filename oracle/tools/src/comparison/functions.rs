//! The oracle and replay, on the functions of functions.txt.

use super::{Compared, Exchange, triples};
use crate::kinds::{NO_ANSWER, kind};

pub fn compared<'a>(texts: [&'a [u8]; 3]) -> Compared<'a> {
    let (triples, faults) = triples(texts);
    Compared {
        exchanges: triples.into_iter().map(exchange).collect(),
        faults,
    }
}

/// An exchange. What is no answer differs from all. The Rust may leave the front of a reply in a refused buffer, a listed
/// difference: the oracle's `R` with a buffer is `R`.
fn exchange<'a>([question, expected, actual]: [&'a [u8]; 3]) -> Exchange<'a> {
    let asked = String::from_utf8_lossy(question);
    let kind = kind(&asked, &String::from_utf8_lossy(expected));
    let told = match expected {
        [b'R', b' ', ..] => b"R",
        all => all,
    };
    Exchange {
        row: asked.split(' ').next().unwrap_or("").to_string(),
        kind: kind.to_string(),
        question,
        expected,
        actual,
        differs: kind == NO_ANSWER || told != actual,
    }
}
