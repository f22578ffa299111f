//! Requests, the one reader of a reply, and the numbers that requests are told apart by.

use super::bindings::entry;
use super::terms::{self, Words, address, record};
use super::{Claim, Part, part, refused, wrote};

pub fn claim(name: &str) -> Option<Claim> {
    Some(match name {
        "parse_nwk_addr_req" => nwk_addr_req,
        "parse_ieee_addr_req" => ieee_addr_req,
        "parse_addr_of_interest" => addr_of_interest,
        "parse_bind_req" => bind_req,
        "parse_match_desc_req" => match_desc_req,
        "parse_mgmt_leave_req" => mgmt_leave_req,
        "node_desc_req" => node_desc_req,
        "constants" => constants,
        "parse_node_desc_rsp" => node_desc_rsp,
        "stack_revision" => stack_revision,
        _ => return None,
    })
}

/// A parser: refusal 3, or what `answered` makes of the payload and of the answer's words: each a view of the request `q`, and
/// what is seen.
fn parsed(
    definition: &str,
    mut question: Words,
    answer: &str,
    answered: impl FnOnce(&str, &mut Words) -> Option<Vec<(String, String)>>,
) -> Option<Vec<Part>> {
    let bytes = question.bytes()?;
    question.end()?;
    let outcome = format!("{definition} {bytes}");
    if answer == "R" {
        return Some(vec![refused(outcome, 3)]);
    }
    let mut words = Words::of(answer);
    let views = answered(&bytes, &mut words)?;
    words.end()?;
    let seen = |(view, value): (String, String)| match view.as_str() {
        "q" => part(outcome.clone(), format!("answer {value}")),
        _ => part(
            format!("mapped (λ q. {view}) ({outcome})"),
            format!("answer {value}"),
        ),
    };
    Some(views.into_iter().map(seen).collect())
}

/// The request itself, as a record of these fields.
fn whole(fields: &[(&str, &str)]) -> (String, String) {
    ("q".to_string(), record(fields))
}

fn nwk_addr_req(question: Words, answer: &str) -> Option<Vec<Part>> {
    parsed("nwk_addr_req_in", question, answer, |_, a| {
        let (seq, ieee, kind) = (a.number(2)?, address(&a.number(16)?), a.number(2)?);
        let fields = [
            ("seq", &*seq),
            ("ieee_addr", &ieee),
            ("request_type", &kind),
        ];
        Some(vec![whole(&fields)])
    })
}

fn ieee_addr_req(question: Words, answer: &str) -> Option<Vec<Part>> {
    parsed("ieee_addr_req_in", question, answer, |_, a| {
        let (seq, short, kind) = (a.number(2)?, address(&a.number(4)?), a.number(2)?);
        let fields = [
            ("seq", &*seq),
            ("nwk_addr_of_interest", &short),
            ("request_type", &kind),
        ];
        Some(vec![whole(&fields)])
    })
}

fn addr_of_interest(question: Words, answer: &str) -> Option<Vec<Part>> {
    parsed("addr_of_interest_in", question, answer, |_, a| {
        Some(vec![whole(&[("0", &a.number(4)?)])])
    })
}

/// The request, and the entry that it names.
fn bind_req(question: Words, answer: &str) -> Option<Vec<Part>> {
    parsed("bind_req_in", question, answer, |_, a| {
        let (seq, source, entry) = (a.number(2)?, address(&a.number(16)?), entry(a.word()?)?);
        let fields = [
            ("seq", &*seq),
            ("src_address", &source),
            ("src_endpoint", &entry.from),
            ("cluster_id", &entry.cluster),
            ("destination", &entry.destination()),
        ];
        Some(vec![
            whole(&fields),
            ("binding_of q".to_string(), entry.term()),
        ])
    })
}

/// The request, whose lists are places in the payload, and the lists that stand there.
fn match_desc_req(question: Words, answer: &str) -> Option<Vec<Part>> {
    parsed("match_desc_req_in", question, answer, |bytes, a| {
        let (seq, short, profile) = (a.number(2)?, address(&a.number(4)?), a.number(4)?);
        let inputs = record(&[("start", &a.decimal()?), ("count", &a.decimal()?)]);
        let outputs = record(&[("start", &a.decimal()?), ("count", &a.decimal()?)]);
        let fields = [
            ("seq", &*seq),
            ("nwk_addr_of_interest", &short),
            ("profile_id", &profile),
            ("input_clusters", &inputs),
            ("output_clusters", &outputs),
        ];
        let list = |side: &str| format!("entries_at 2 {bytes} q.{side}");
        Some(vec![
            whole(&fields),
            (list("input_clusters"), a.clusters()?),
            (list("output_clusters"), a.clusters()?),
        ])
    })
}

fn mgmt_leave_req(question: Words, answer: &str) -> Option<Vec<Part>> {
    parsed("mgmt_leave_req_in", question, answer, |_, a| {
        let seq = a.number(2)?;
        let device = match a.word()? {
            "-" => "None".to_string(),
            ieee => format!("Some {}", address(&terms::number(ieee, 16)?)),
        };
        let (children, rejoin) = (a.flag()?, a.flag()?);
        let fields = [
            ("seq", &*seq),
            ("device_address", &device),
            ("remove_children", children),
            ("rejoin", rejoin),
        ];
        Some(vec![whole(&fields)])
    })
}

fn node_desc_req(mut question: Words, answer: &str) -> Option<Vec<Part>> {
    let (seq, short) = (question.number(2)?, address(&question.number(4)?));
    let buffer = question.word()?;
    question.end()?;
    wrote(&format!("node_desc_req {seq} {short}"), buffer, answer, 5)
}

/// The ten requests in the order of the Rust's constants.
const REQUESTS: [&str; 10] = [
    "NWK_ADDR_REQ_NUMBER",
    "IEEE_ADDR_REQ_NUMBER",
    "NODE_DESC_REQ_NUMBER",
    "POWER_DESC_REQ_NUMBER",
    "SIMPLE_DESC_REQ_NUMBER",
    "ACTIVE_EP_REQ_NUMBER",
    "MATCH_DESC_REQ_NUMBER",
    "BIND_REQ_NUMBER",
    "UNBIND_REQ_NUMBER",
    "MGMT_LEAVE_REQ_NUMBER",
];

fn constants(question: Words, answer: &str) -> Option<Vec<Part>> {
    question.end()?;
    let mut answer = Words::of(answer);
    let mut parts = Vec::new();
    for request in REQUESTS {
        parts.push(part(request, answer.number(4)?));
    }
    for request in REQUESTS {
        parts.push(part(format!("reply_cluster {request}"), answer.number(4)?));
    }
    for kind in ["ADDR_REQUEST_SINGLE_NUMBER", "ADDR_REQUEST_EXTENDED_NUMBER"] {
        parts.push(part(kind, answer.number(2)?));
    }
    answer.end()?;
    Some(parts)
}

/// A number of so many digits, or none.
fn option(word: &str, digits: usize) -> Option<String> {
    match word {
        "-" => Some("None".to_owned()),
        _ => Some(format!("(Some {})", terms::number(word, digits)?)),
    }
}

fn node_desc_rsp(question: Words, answer: &str) -> Option<Vec<Part>> {
    parsed("node_desc_rsp_in", question, answer, |_, a| {
        let (seq, status, short) = (a.number(2)?, a.number(2)?, address(&a.number(4)?));
        let mask = option(a.word()?, 4)?;
        let fields = [
            ("seq", &*seq),
            ("status", &status),
            ("nwk_addr_of_interest", &short),
            ("server_mask", &mask),
        ];
        Some(vec![whole(&fields)])
    })
}

fn stack_revision(mut question: Words, answer: &str) -> Option<Vec<Part>> {
    let mask = option(question.word()?, 4)?;
    question.end()?;
    Some(vec![part(
        format!("stack_revision_of {mask}"),
        match answer {
            "-" => "None".to_owned(),
            _ => format!("Some {}", terms::number(answer, 2)?),
        },
    )])
}
