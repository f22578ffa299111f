//! The readers of replies that document 01 adds. No Rust has them: what they answer is said by a model of document 01's text
//! (`model`), and they are asked about replies that the Rust wrote and about damaged copies of them (`copies`). What was given to
//! the Rust's writer (`given`) must be what the model reads from the reply.

pub mod copies;
pub mod given;
pub mod model;

/// The readers, as a question names them.
pub const READERS: [&str; 7] = [
    "NodeReply::try_read",
    "PowerReply::try_read",
    "ListReply::try_read",
    "MatchReply::try_read",
    "SimpleReply::try_read",
    "AddrReply::try_read",
    "StatusReply::try_read",
];

/// The kind of an answer of the model.
pub fn kind(reader: &str, answer: &str) -> &'static str {
    let (given, not_given) = match reader {
        "ListReply::try_read" => ("list", "list"),
        "MatchReply::try_read" => ("list", "failed"),
        "AddrReply::try_read" => ("extended", "single"),
        "StatusReply::try_read" => ("status", "status"),
        _ => ("descriptor", "no descriptor"),
    };
    match answer {
        "R" => "refused",
        _ if answer.ends_with(" -") => not_given,
        _ => given,
    }
}
