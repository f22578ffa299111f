//! Entries of the binding table, and histories of it.

use super::terms::{self, Digits, Words, address};
use super::{Claim, Part, part};
use crate::words;

pub fn claim(name: &str) -> Option<Claim> {
    Some(match name {
        "Binding::group" => group,
        "Binding::device" => device,
        "Binding::matches" => matches,
        "Binding::eq" => eq,
        "links" => links,
        _ => return None,
    })
}

/// An entry: its endpoint and cluster, and the numbers of its destination.
pub struct Entry {
    pub from: String,
    pub cluster: String,
    to: Destination,
}

enum Destination {
    Group(String),
    Device(String, String),
}

pub fn entry(word: &str) -> Option<Entry> {
    let mut digits = Digits::of(word)?;
    let mode = digits.take(2)?;
    let from = digits.number(2)?;
    let cluster = digits.number(4)?;
    let to = match mode {
        "01" => Destination::Group(digits.number(4)?),
        "03" => Destination::Device(digits.number(16)?, digits.number(2)?),
        _ => return None,
    };
    digits.end()?;
    Some(Entry { from, cluster, to })
}

impl Entry {
    /// As an entry of the table.
    pub fn term(&self) -> String {
        let Entry { from, cluster, to } = self;
        match to {
            Destination::Group(group) => format!("(to_group {from} {cluster} {group})"),
            Destination::Device(ieee, endpoint) => {
                format!("(to_device {from} {cluster} {ieee} {endpoint})")
            }
        }
    }

    /// As the destination of a request.
    pub fn destination(&self) -> String {
        match &self.to {
            Destination::Group(group) => format!("destination.Group {}", address(group)),
            Destination::Device(ieee, endpoint) => {
                format!("destination.Device {} {endpoint}", address(ieee))
            }
        }
    }
}

fn group(mut question: Words, answer: &str) -> Option<Vec<Part>> {
    let (from, cluster, group) = (
        question.number(2)?,
        question.number(4)?,
        question.number(4)?,
    );
    question.end()?;
    Some(vec![part(
        format!("group_binding {from} {cluster} {}", address(&group)),
        entry(answer)?.term(),
    )])
}

fn device(mut question: Words, answer: &str) -> Option<Vec<Part>> {
    let (from, cluster) = (question.number(2)?, question.number(4)?);
    let (ieee, endpoint) = (address(&question.number(16)?), question.number(2)?);
    question.end()?;
    Some(vec![part(
        format!("device_binding {from} {cluster} {ieee} {endpoint}"),
        entry(answer)?.term(),
    )])
}

fn matches(mut question: Words, answer: &str) -> Option<Vec<Part>> {
    let entry = entry(question.word()?)?.term();
    let (from, cluster) = (question.number(2)?, question.number(4)?);
    question.end()?;
    Some(vec![part(
        format!("routes {entry} {from} {cluster}"),
        terms::flag(answer)?,
    )])
}

fn eq(mut question: Words, answer: &str) -> Option<Vec<Part>> {
    let (one, other) = (
        entry(question.word()?)?.term(),
        entry(question.word()?)?.term(),
    );
    question.end()?;
    Some(vec![part(
        format!("same {one} {other}"),
        terms::flag(answer)?,
    )])
}

/// A step: does it bind, and the entry as it is written.
fn step(word: &str) -> Option<(bool, &str)> {
    match word.split_at_checked(1)? {
        ("b", entry) => Some((true, entry)),
        ("u", entry) => Some((false, entry)),
        _ => None,
    }
}

/// The entries after a step. Only to have a table between two steps to write down: it stands on the right of one equation and
/// on the left of the next, so a wrong one is refused.
fn after<'a>(limit: usize, held: &[&'a str], (binds, entry): (bool, &'a str)) -> Vec<&'a str> {
    let mut held = held.to_vec();
    match held.iter().position(|h| *h == entry) {
        None if binds && held.len() < limit => held.push(entry),
        Some(i) if !binds => drop(held.remove(i)),
        _ => (),
    }
    held
}

/// A table that counts so many entries and has the group binding of zeros in each place that is not used.
fn table(limit: usize, count: usize, held: &[&str]) -> Option<String> {
    let held = held
        .iter()
        .map(|h| Some(entry(h)?.term()))
        .collect::<Option<_>>()?;
    Some(format!("(table {limit} {count} {})", terms::list(held)))
}

/// The table to begin with: the empty one, or one that holds these entries.
fn begin(limit: usize, held: &[&str]) -> Option<String> {
    match held {
        [] => Some(format!("(empty_table {limit})")),
        _ => table(limit, held.len(), held),
    }
}

/// Each step with its status and the table after it; the last table is the answer's.
fn links(mut question: Words, answer: &str) -> Option<Vec<Part>> {
    let limit = words::decimal(question.word()?)?;
    let mut rest = question.rest();
    let first = rest.iter().take_while(|word| word.starts_with('h')).count();
    let mut held: Vec<&str> = rest.drain(..first).map(|word| &word[1..]).collect();
    let steps: Vec<(bool, &str)> = rest.into_iter().map(step).collect::<Option<_>>()?;
    let mut answer = Words::of(answer);
    let statuses = words::pieces(answer.word()?, 2)?;
    let count = words::decimal(answer.word()?)?;
    let last = table(limit, count, &answer.rest())?;
    let mut before = begin(limit, &held)?;
    if statuses.len() != steps.len() {
        return None;
    }
    if steps.is_empty() {
        return Some(vec![part(before, last)]);
    }
    let mut parts = Vec::new();
    for (i, (step, status)) in steps.iter().zip(statuses).enumerate() {
        held = after(limit, &held, *step);
        let next = match i + 1 == steps.len() {
            true => last.clone(),
            false => table(limit, held.len(), &held)?,
        };
        parts.extend(link(&before, *step, status, &next)?);
        before = next;
    }
    Some(parts)
}

/// One step: what it tells, and the table that it leaves.
fn link(before: &str, (binds, word): (bool, &str), status: &str, after: &str) -> Option<[Part; 2]> {
    let definition = if binds {
        "create_binding_link"
    } else {
        "remove_binding_link"
    };
    let call = format!("({definition} {before} {})", entry(word)?.term());
    let told = format!("answer {}", terms::number(status, 2)?);
    Some([
        part(format!("link_told {call}"), told),
        part(format!("table_left {before} {call}"), after.to_string()),
    ])
}
