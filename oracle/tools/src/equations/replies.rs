//! Replies that need no endpoint records, and the statuses of the Rust's reasons.

use super::descriptors::{node, power};
use super::terms::{self, BIND, DISCOVERY, LEAVE, Names, Words, address};
use super::{Claim, Part, part, wrote};

pub fn claim(name: &str) -> Option<Claim> {
    Some(match name {
        "node_desc_rsp" => |q, a| reply(q, a, node_desc_rsp),
        "power_desc_rsp" => |q, a| reply(q, a, power_desc_rsp),
        "addr_rsp" => |q, a| reply(q, a, addr_rsp),
        "addr_rsp_error" => |q, a| reply(q, a, addr_rsp_error),
        "descriptor_rsp_error" => {
            |q, a| reply(q, a, |seq, q| short_error("descriptor_rsp_error", seq, q))
        }
        "active_ep_rsp_error" | "simple_desc_rsp_error" => {
            |q, a| reply(q, a, |seq, q| short_error("empty_rsp", seq, q))
        }
        "match_desc_rsp" => |q, a| reply(q, a, match_desc_rsp),
        "match_desc_rsp_error" => |q, a| reply(q, a, match_desc_rsp_error),
        "bind_rsp" => |q, a| reply(q, a, bind_rsp),
        "mgmt_leave_rsp" => |q, a| reply(q, a, mgmt_leave_rsp),
        "leave_status" => |q, a| code("leave_status", &LEAVE, q, a),
        "DiscoveryError::code" => |q, a| code("discovery_code", &DISCOVERY, q, a),
        "BindStatus::code" => |q, a| code("bind_code", &BIND, q, a),
        _ => return None,
    })
}

/// A reply: its sequence number, what its definition takes besides, and the buffer.
fn reply(
    mut question: Words,
    answer: &str,
    outcome: impl FnOnce(&str, &mut Words) -> Option<String>,
) -> Option<Vec<Part>> {
    let seq = question.number(2)?;
    let outcome = outcome(&seq, &mut question)?;
    let buffer = question.word()?;
    question.end()?;
    wrote(&outcome, buffer, answer, 5)
}

/// The status of the reason that comes next.
fn status(definition: &str, names: &Names, question: &mut Words) -> Option<String> {
    Some(format!("({definition} {})", names.value(question.word()?)?))
}

fn node_desc_rsp(seq: &str, q: &mut Words) -> Option<String> {
    let short = address(&q.number(4)?);
    Some(format!("node_desc_rsp {seq} {short} {}", node(q.word()?)?))
}

fn power_desc_rsp(seq: &str, q: &mut Words) -> Option<String> {
    let short = address(&q.number(4)?);
    Some(format!(
        "power_desc_rsp {seq} {short} {}",
        power(q.word()?, q.word()?)?
    ))
}

fn addr_rsp(seq: &str, q: &mut Words) -> Option<String> {
    let (ieee, short) = (address(&q.number(16)?), address(&q.number(4)?));
    Some(format!("addr_rsp {seq} {ieee} {short} {}", q.flag()?))
}

fn addr_rsp_error(seq: &str, q: &mut Words) -> Option<String> {
    let status = status("discovery_code", &DISCOVERY, q)?;
    let (ieee, short) = (address(&q.number(16)?), address(&q.number(4)?));
    Some(format!("addr_rsp_single {seq} {status} {ieee} {short}"))
}

/// An error form that has the address of interest.
fn short_error(definition: &str, seq: &str, q: &mut Words) -> Option<String> {
    let status = status("discovery_code", &DISCOVERY, q)?;
    Some(format!(
        "{definition} {seq} {status} {}",
        address(&q.number(4)?)
    ))
}

fn match_desc_rsp(seq: &str, q: &mut Words) -> Option<String> {
    let short = address(&q.number(4)?);
    Some(format!("list_rsp {seq} {short} {}", q.bytes()?))
}

fn match_desc_rsp_error(seq: &str, q: &mut Words) -> Option<String> {
    Some(format!(
        "match_desc_rsp_error {seq} {}",
        status("discovery_code", &DISCOVERY, q)?
    ))
}

fn bind_rsp(seq: &str, q: &mut Words) -> Option<String> {
    Some(format!(
        "status_rsp {seq} {}",
        status("bind_code", &BIND, q)?
    ))
}

fn mgmt_leave_rsp(seq: &str, q: &mut Words) -> Option<String> {
    Some(format!("status_rsp {seq} {}", q.number(2)?))
}

fn code(definition: &str, names: &Names, mut question: Words, answer: &str) -> Option<Vec<Part>> {
    let value = names.value(question.word()?)?;
    question.end()?;
    Some(vec![part(
        format!("{definition} {value}"),
        terms::number(answer, 2)?,
    )])
}
