//! The kinds of answers, by which they are counted, and what decides answers of a kind.

use crate::cells::listed;
use crate::functions::{Decides, Function};
use crate::words::{bytes, decimal, pieces};

/// The kind of a refusal of what is too short.
pub const REFUSED: &str = "refused";

/// The kind of what is no answer: `?`, nothing, or one that the question cannot have.
pub const NO_ANSWER: &str = "?";

/// The three parts in which answers are counted.
pub const PARTS: [&str; 3] = [
    "compared with the Rust",
    "compared with the Rust over the stand-in of `byte`",
    "decided by a stand-in, not compared with the Rust",
];

/// The part in which answers of a kind are counted. Where the Rust goes through `byte`, the
/// stand-in may have decided to refuse.
pub fn part_of(function: &Function, kind: &str) -> usize {
    match function.decides {
        Decides::Rust => 0,
        Decides::Byte if kind != REFUSED => 1,
        _ => 2,
    }
}

/// The kind of an answer.
pub fn kind(question: &str, answer: &str) -> &'static str {
    let asked: Vec<&str> = question.split(' ').collect();
    let answered: Vec<&str> = answer.split(' ').collect();
    let kind = match answered[0] {
        "" | NO_ANSWER => None,
        "R" => Some(why_refused(&asked)),
        _ => told_apart(&asked, &answered),
    };
    kind.filter(|kind| listed(asked[0], kind))
        .unwrap_or(NO_ANSWER)
}

/// The kind of an answer that is no refusal.
fn told_apart(asked: &[&str], answered: &[&str]) -> Option<&'static str> {
    let flag = |set, unset| match answered[0] {
        "1" => Some(set),
        "0" => Some(unset),
        _ => None,
    };
    let given = |place: usize, some, none| {
        answered
            .get(place)
            .map(|&word| if word == "-" { none } else { some })
    };
    match asked[0] {
        "parse_bind_req" => destination(answered.get(2)?),
        "parse_mgmt_leave_req" => given(1, "address", "no address"),
        "parse_node_desc_rsp" => given(3, "mask", unmasked(answered.get(1)?)),
        "stack_revision" => given(0, "mask", "no mask"),
        "addr_rsp" => Some(if *asked.get(4)? == "1" {
            "extended"
        } else {
            "single"
        }),
        "match_desc_rsp" => Some(if pieces(asked.get(3)?, 2)?.len() > 255 {
            "above 255"
        } else {
            "up to 255"
        }),
        "simple_desc_rsp" => simple(answered.get(1)?),
        "matching_endpoints" => matched(answered),
        "endpoint" => given(0, "known", "unknown"),
        "supports_endpoint" => flag("known", "unknown"),
        "Binding::eq" | "Binding::matches" | "NodePowerDescriptor::supports" => flag("yes", "no"),
        "NodeDescriptor::logical_type" | "NodePowerDescriptor::accessors" => named(answered[0]),
        "links" => last_step(asked, answered),
        _ => Some("answered"),
    }
}

/// Why a question was refused: bind requests by their mode, power descriptors by their source, or else for what is too
/// short.
fn why_refused(asked: &[&str]) -> &'static str {
    let payload = asked
        .get(1)
        .and_then(|word| bytes(word))
        .unwrap_or_default();
    match (asked[0], &payload[..]) {
        ("parse_bind_req", bytes) if bytes.get(12).is_some_and(|m| *m != 1 && *m != 3) => {
            "refused, mode"
        }
        ("NodePowerDescriptor::try_read", [_, source, ..]) => match source % 16 {
            1 | 2 | 4 => "refused, absent",
            _ => "refused, unnamed",
        },
        _ => REFUSED,
    }
}

/// Why a node reply has no mask: its status, or its length.
fn unmasked(status: &str) -> &'static str {
    if status == "00" {
        "short"
    } else {
        "other status"
    }
}

/// Where an entry sends.
fn destination(entry: &str) -> Option<&'static str> {
    match entry.get(..2)? {
        "01" => Some("group"),
        "03" => Some("device"),
        _ => None,
    }
}

/// By the status of a simple descriptor's reply.
fn simple(reply: &str) -> Option<&'static str> {
    match reply.get(2..4)? {
        "00" => Some("described"),
        "83" => Some("not active"),
        _ => None,
    }
}

/// By how many endpoints were written, and for how many there was room.
fn matched(answered: &[&str]) -> Option<&'static str> {
    let [count, buffer] = answered else {
        return None;
    };
    let count = decimal(count)?;
    Some(match pieces(buffer, 2)?.len() {
        0 => "no room",
        _ if count == 0 => "none",
        room if count == room => "full",
        _ => "all",
    })
}

/// Have all values a name, or is one of them `Reserved`?
fn named(values: &str) -> Option<&'static str> {
    let reserved = pieces(values, 4)?
        .iter()
        .any(|value| value.starts_with("01"));
    Some(if reserved { "reserved" } else { "named" })
}

/// By the last step and its status, and by how many of its entry were held before.
fn last_step(asked: &[&str], answered: &[&str]) -> Option<&'static str> {
    let ([_, limit, words @ ..], [statuses, count, ..]) = (asked, answered) else {
        return None;
    };
    let begin = words
        .iter()
        .take_while(|word| word.starts_with('h'))
        .count();
    let (held, steps) = words.split_at(begin);
    let statuses = pieces(statuses, 2)?;
    let (Some((last, before)), Some(status)) = (steps.split_last(), statuses.last()) else {
        return Some("no step");
    };
    let held = held_then(held, before, &statuses, last.get(1..)?);
    match (last.get(..1)?, *status, held) {
        ("b", "00", 0) => Some("bind 00 added"),
        ("b", "00", _) if count == limit => Some("bind 00 held, full"),
        ("b", "00", _) => Some("bind 00 held"),
        ("b", "8C", _) => Some("bind 8C"),
        ("u", "00", 0 | 1) => Some("unbind 00"),
        ("u", "00", _) => Some("unbind 00 of two"),
        ("u", "88", _) => Some("unbind 88"),
        _ => None,
    }
}

/// How many of an entry a table holds after these steps.
fn held_then(held: &[&str], steps: &[&str], statuses: &[&str], entry: &str) -> usize {
    let own = |word: &str| word.get(1..) == Some(entry);
    let begin = held.iter().filter(|word| own(word)).count();
    let done = steps.iter().zip(statuses);
    let done = done.filter(|(step, status)| own(step) && **status == "00");
    done.fold(begin, |held, (step, _)| match step.starts_with('b') {
        true => held.max(1),
        false => held.saturating_sub(1),
    })
}
