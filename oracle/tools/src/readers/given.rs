//! What was given to a writer of the Rust, as a reader must give it back (document 01, "Reply readers", read-back). From the fields
//! in the question alone: no reply is read here.

use super::model::named;
use crate::words::{bytes, clusters, pieces, show_bytes, u8_of, u16_of};

/// The writers of replies.
pub const WRITERS: [&str; 13] = [
    "node_desc_rsp",
    "power_desc_rsp",
    "descriptor_rsp_error",
    "active_ep_rsp",
    "active_ep_rsp_error",
    "match_desc_rsp",
    "match_desc_rsp_error",
    "simple_desc_rsp",
    "simple_desc_rsp_error",
    "addr_rsp",
    "addr_rsp_error",
    "bind_rsp",
    "mgmt_leave_rsp",
];

/// The readers of what a writer wrote, the answer that each must give, and the bytes of the lists that it must find.
pub struct Given {
    pub readers: &'static [&'static str],
    pub answer: String,
    pub lists: Vec<Vec<u8>>,
}

/// What a question gave to a writer; none where it asks no writer.
pub fn given(question: &str) -> Option<Given> {
    let words: Vec<&str> = question.split(' ').collect();
    let (readers, answer, lists): (&'static [&'static str], String, Vec<Vec<u8>>) = match words[..]
    {
        ["node_desc_rsp", seq, short, node, _] => (
            &["NodeReply::try_read"],
            format!("{seq} 00 {short} {}", cut_node(node)?),
            vec![],
        ),
        ["power_desc_rsp", seq, short, power, sources, _] => (
            &["PowerReply::try_read"],
            match usable(power, sources)? {
                Some(power) => format!("{seq} 00 {short} {power}"),
                None => "R".to_string(),
            },
            vec![],
        ),
        ["descriptor_rsp_error", seq, reason, short, _] => (
            &["NodeReply::try_read", "PowerReply::try_read"],
            format!("{seq} {} {short} -", discovery(reason)?),
            vec![],
        ),
        ["active_ep_rsp", seq, short, _, _, records, _] => {
            let records = pieces(records, 28)?;
            let endpoints: Option<Vec<u8>> = records.iter().map(|r| u8_of(&r[..2])).collect();
            (
                &["ListReply::try_read"],
                format!("{seq} 00 {short} 5 {}", records.len()),
                vec![endpoints?],
            )
        }
        ["active_ep_rsp_error", seq, reason, short, _] => (
            &["ListReply::try_read"],
            format!("{seq} {} {short} 5 0", discovery(reason)?),
            vec![vec![]],
        ),
        ["match_desc_rsp", seq, short, endpoints, _] => {
            let mut endpoints = bytes(endpoints)?;
            endpoints.truncate(255);
            (
                &["MatchReply::try_read"],
                format!("{seq} 00 {short} 5 {}", endpoints.len()),
                vec![endpoints],
            )
        }
        ["match_desc_rsp_error", seq, reason, _] => (
            &["MatchReply::try_read"],
            format!("{seq} {} -", discovery(reason)?),
            vec![],
        ),
        [
            "simple_desc_rsp",
            seq,
            short,
            endpoint,
            inputs,
            outputs,
            records,
            _,
        ] => {
            let records = pieces(records, 28)?;
            let Some(record) = records.iter().find(|record| &record[..2] == endpoint) else {
                return Some(Given {
                    readers: &["SimpleReply::try_read"],
                    answer: format!("{seq} 83 {short} -"),
                    lists: vec![],
                });
            };
            let lists = [
                part(inputs, &record[12..20])?,
                part(outputs, &record[20..28])?,
            ];
            let [inputs, outputs] = lists.each_ref().map(|list| list.len() / 2);
            let answer = [
                format!("{seq} 00 {short} {}0{}", &record[..10], &record[11..12]),
                format!("12 {inputs} {} {outputs}", 13 + 2 * inputs),
            ];
            (&["SimpleReply::try_read"], answer.join(" "), lists.to_vec())
        }
        ["simple_desc_rsp_error", seq, reason, short, _] => (
            &["SimpleReply::try_read"],
            format!("{seq} {} {short} -", discovery(reason)?),
            vec![],
        ),
        ["addr_rsp", seq, ieee, short, "0", _] => (
            &["AddrReply::try_read"],
            format!("{seq} 00 {ieee} {short} -"),
            vec![],
        ),
        ["addr_rsp", seq, ieee, short, "1", _] => (
            &["AddrReply::try_read"],
            format!("{seq} 00 {ieee} {short} 00 00 14 0"),
            vec![vec![]],
        ),
        ["addr_rsp_error", seq, reason, ieee, short, _] => (
            &["AddrReply::try_read"],
            format!("{seq} {} {ieee} {short} -", discovery(reason)?),
            vec![],
        ),
        ["bind_rsp", seq, reason, _] => (
            &["StatusReply::try_read"],
            format!("{seq} {}", bound(reason)?),
            vec![],
        ),
        ["mgmt_leave_rsp", seq, status, _] => (
            &["StatusReply::try_read"],
            format!("{seq} {status}"),
            vec![],
        ),
        _ => return None,
    };
    Some(Given {
        readers,
        answer,
        lists,
    })
}

/// A node cut to its widths: the type modulo 8, and five bits of the band.
fn cut_node(node: &str) -> Option<String> {
    let logical_type = named(u8_of(node.get(2..4)?)? % 8, &[0, 1, 2]);
    let band = u8_of(node.get(8..10)?)? % 32;
    Some(format!(
        "{logical_type}{}{band:02X}{}",
        &node[4..8],
        node.get(10..)?
    ))
}

/// A power cut to four bits each, and its available sources; none where it cannot be read: the source is 1, 2 or 4, and available.
fn usable(power: &str, sources: &str) -> Option<Option<String>> {
    let field = |place: usize| Some(u8_of(power.get(place..place + 2)?)? % 16);
    let [mode, source, level] = [field(2)?, field(6)?, field(10)?];
    let numbers = clusters(sources)?;
    let available = numbers.iter().fold(0, |all, n| all | *n as u8) % 16;
    if ![1, 2, 4].contains(&source) || available & source == 0 {
        return Some(None);
    }
    let fields = [
        named(mode, &[0, 1, 2]),
        named(source, &[1, 2, 4]),
        named(level, &[0, 4, 8, 12]),
    ];
    Some(Some(format!("{} {available:02X}", fields.concat())))
}

/// The clusters of a part of a pool, as bytes: four digits of its start, and four of its count.
fn part(pool: &str, part: &str) -> Option<Vec<u8>> {
    let start = usize::from(u16_of(&part[..4])?);
    let count = usize::from(u16_of(&part[4..])?);
    let clusters = clusters(pool)?;
    let part = clusters.get(start..start + count)?;
    Some(
        part.iter()
            .flat_map(|cluster| cluster.to_le_bytes())
            .collect(),
    )
}

/// The status of an error of discovery: INV_REQUESTTYPE, DEVICE_NOT_FOUND.
fn discovery(reason: &str) -> Option<&'static str> {
    ["80", "81"].get(usize::from(u8_of(reason)?)).copied()
}

/// The status of a bind: success, INVALID_EP, TABLE_FULL, NO_ENTRY, NOT_SUPPORTED.
fn bound(reason: &str) -> Option<&'static str> {
    ["00", "82", "8C", "88", "84"]
        .get(usize::from(u8_of(reason)?))
        .copied()
}

/// The reply that a writer wrote: the first bytes of the buffer, as many as its answer says. None where it refused.
pub fn reply_of(answer: &str) -> Option<Vec<u8>> {
    let (count, buffer) = answer.split_once(' ')?;
    let count = count.parse().ok()?;
    Some(bytes(buffer)?.get(..count)?.to_vec())
}

/// A question to a reader.
pub fn question(reader: &str, reply: &[u8]) -> String {
    format!("{reader} {}", show_bytes(reply))
}
