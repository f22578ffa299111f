//! Device tables, and the replies made from them.

use super::descriptors::endpoint as endpoint_of;
use super::terms::{self, Digits, Words, address};
use super::{Claim, Part, part, told_and_left, wrote};
use crate::words;

pub fn claim(name: &str) -> Option<Claim> {
    Some(match name {
        "endpoint" => endpoint,
        "supports_endpoint" => supports_endpoint,
        "matching_endpoints" => matching_endpoints,
        "active_ep_rsp" => active_ep_rsp,
        "simple_desc_rsp" => simple_desc_rsp,
        _ => return None,
    })
}

/// Why nothing is said of a question about tables, if so.
pub fn outside(question: &[&str]) -> Option<&'static str> {
    let (inputs, outputs, records) = match question {
        ["endpoint" | "supports_endpoint", i, o, r, ..] => (i, o, r),
        ["matching_endpoints", _, i, o, r, ..] => (i, o, r),
        ["active_ep_rsp", _, _, i, o, r, ..] => (i, o, r),
        ["simple_desc_rsp", _, _, _, i, o, r, ..] => (i, o, r),
        _ => return None,
    };
    if inputs.len() > 4 * 512 || outputs.len() > 4 * 512 || records.len() > 28 * 32 {
        return Some("tables beyond document 01's sizes");
    }
    let records = words::pieces(records, 28)?;
    let own: usize = records.iter().map(|r| cluster_count(r).1).sum();
    let compared = question[1].len() / 4 * own;
    (question[0] == "matching_endpoints" && compared > MOST_COMPARED)
        .then_some("too many clusters to compare")
}

/// A match request is skipped that may have more clusters than this compared: the prover would take long for it.
const MOST_COMPARED: usize = 300_000;

/// Tables as terms; how many clusters the pools have; and of each record its endpoint number with how many clusters it has.
struct Tables<'a> {
    pools: String,
    sizes: [usize; 2],
    rows: String,
    counts: Vec<(&'a str, usize)>,
}

fn tables<'a>(question: &mut Words<'a>) -> Option<Tables<'a>> {
    let (inputs, outputs) = (question.word()?, question.word()?);
    let size = |pool| words::pieces(pool, 4).map(|clusters| clusters.len());
    let records = words::pieces(question.word()?, 28)?;
    Some(Tables {
        pools: format!(
            "(pools {} {})",
            terms::clusters(inputs)?,
            terms::clusters(outputs)?
        ),
        sizes: [size(inputs)?, size(outputs)?],
        rows: terms::list(records.iter().map(|r| row(r)).collect::<Option<_>>()?),
        counts: records.iter().map(|r| cluster_count(r)).collect(),
    })
}

impl Tables<'_> {
    /// The device. Behind the records in use stand some of this endpoint and profile that have both pools whole: what is not
    /// in use must not be found, nor match.
    fn device(&self, endpoint: &str, profile: &str) -> String {
        let Tables {
            sizes: [inputs, outputs],
            rows,
            ..
        } = self;
        format!("(device {rows} (row {endpoint} {profile} 0 0 0 {inputs} 0 {outputs}))")
    }
}

fn row(record: &str) -> Option<String> {
    let mut digits = Digits::of(record)?;
    let values: Vec<String> = [2, 4, 4, 2, 4, 4, 4, 4]
        .iter()
        .map(|n| digits.number(*n))
        .collect::<Option<_>>()?;
    Some(format!("row {}", values.join(" ")))
}

/// A record's endpoint number, as it is written, and how many clusters it has.
fn cluster_count(record: &str) -> (&str, usize) {
    let count = |at: usize| words::u16_of(&record[at..at + 4]).map_or(0, usize::from);
    (&record[..2], count(16) + count(24))
}

/// An endpoint or a profile that does not matter.
const ANY: &str = "0";

/// The first record of a number, and its parts of both pools.
fn endpoint(mut question: Words, answer: &str) -> Option<Vec<Part>> {
    let tables = tables(&mut question)?;
    let number = question.number(2)?;
    question.end()?;
    let (pools, device) = (&tables.pools, tables.device(&number, ANY));
    let (record, inputs, outputs) = match answer {
        "-" => ("None".to_string(), "-", "-"),
        _ => {
            let mut answer = Words::of(answer);
            let (fields, inputs, outputs) = (answer.word()?, answer.word()?, answer.word()?);
            answer.end()?;
            (
                format!("Some {}", endpoint_of(fields, inputs, outputs)?),
                inputs,
                outputs,
            )
        }
    };
    let side = |side: &str, clusters: &str| {
        Some(part(
            format!("endpoint_clusters {pools} {device} side.{side} {number}"),
            terms::clusters(clusters)?,
        ))
    };
    Some(vec![
        part(format!("found {pools} {device} {number}"), record),
        side("Input", inputs)?,
        side("Output", outputs)?,
    ])
}

fn supports_endpoint(mut question: Words, answer: &str) -> Option<Vec<Part>> {
    let tables = tables(&mut question)?;
    let number = question.number(2)?;
    question.end()?;
    let device = tables.device(&number, ANY);
    Some(vec![part(
        format!("supports_endpoint {device} {number}"),
        terms::flag(answer)?,
    )])
}

/// The profile that a match request asks for: bytes 3 and 4.
fn profile(payload: &str) -> String {
    match (payload.get(6..8), payload.get(8..10)) {
        (Some(low), Some(high)) => format!("0x{high}{low}"),
        _ => ANY.to_string(),
    }
}

/// By the device, and by the run of its records.
fn matching_endpoints(mut question: Words, answer: &str) -> Option<Vec<Part>> {
    let asked = question.word()?;
    let payload = terms::bytes(asked)?;
    let tables = tables(&mut question)?;
    let (pools, rows) = (&tables.pools, &tables.rows);
    let device = tables.device(ANY, &profile(asked));
    let before = question.bytes()?;
    question.end()?;
    let (told, after) = told_and_left(&before, answer, 3)?;
    let mut parts = Vec::new();
    for outcome in [
        format!("matched {pools} {device} {payload}"),
        format!("matched_run {pools} {rows} {payload}"),
    ] {
        parts.push(part(
            format!("begun_length {before} ({outcome})"),
            told.clone(),
        ));
        parts.push(part(format!("begun {before} ({outcome})"), after.clone()));
    }
    Some(parts)
}

/// By the device, and by the run of its records.
fn active_ep_rsp(mut question: Words, answer: &str) -> Option<Vec<Part>> {
    let (seq, short) = (question.number(2)?, address(&question.number(4)?));
    let tables = tables(&mut question)?;
    let (rows, device) = (&tables.rows, tables.device(ANY, ANY));
    let buffer = question.word()?;
    question.end()?;
    let mut parts = wrote(
        &format!("active_ep_rsp {seq} {short} {device}"),
        buffer,
        answer,
        5,
    )?;
    parts.extend(wrote(
        &format!("active_records {seq} {short} {rows}"),
        buffer,
        answer,
        5,
    )?);
    Some(parts)
}

/// Refused for more than 28 clusters, and otherwise for a short buffer.
fn simple_desc_rsp(mut question: Words, answer: &str) -> Option<Vec<Part>> {
    let (seq, short) = (question.number(2)?, address(&question.number(4)?));
    let asked = question.word()?;
    let number = terms::number(asked, 2)?;
    let tables = tables(&mut question)?;
    let (pools, device) = (&tables.pools, tables.device(&number, ANY));
    let buffer = question.word()?;
    question.end()?;
    let crowded = tables
        .counts
        .iter()
        .find(|(n, _)| *n == asked)
        .is_some_and(|(_, clusters)| *clusters > 28);
    let outcome = format!("simple_desc_rsp {seq} {short} {pools} {device} {number}");
    wrote(&outcome, buffer, answer, if crowded { 4 } else { 5 })
}
