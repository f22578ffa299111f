//! Requests, and the one reader of replies (000).

use tools::words::{bytes, show_clusters, show_flag, u8_of, u16_of};
use zigbee_core::zdo::descriptor::{
    self as zdo, BindReqDestination, MatchDescReq, NodeDescRsp, probe,
};

use crate::bindings::{show_device, show_group};
use crate::{refused, wrote};

pub fn answer(name: &str, words: &[&str]) -> Option<String> {
    match (name, words) {
        ("constants", []) => Some(constants()),
        ("node_desc_req", [seq, short, buffer]) => {
            let (seq, short) = (u8_of(seq)?, u16_of(short)?);
            Some(wrote(bytes(buffer)?, |out| {
                zdo::node_desc_req(seq, short, out)
            }))
        }
        ("stack_revision", [mask]) => stack_revision(mask),
        (_, [asdu]) => Some(parsed(name, &bytes(asdu)?)?.unwrap_or_else(refused)),
        _ => None,
    }
}

/// What a parser says of a payload: none where there is no such parser, and none within where it refuses.
fn parsed(name: &str, asdu: &[u8]) -> Option<Option<String>> {
    Some(match name {
        "parse_nwk_addr_req" => zdo::parse_nwk_addr_req(asdu).map(|r| {
            format!(
                "{:02X} {:016X} {:02X}",
                r.seq, r.ieee_addr.0, r.request_type
            )
        }),
        "parse_ieee_addr_req" => zdo::parse_ieee_addr_req(asdu).map(|r| {
            format!(
                "{:02X} {:04X} {:02X}",
                r.seq, r.nwk_addr_of_interest, r.request_type
            )
        }),
        "parse_addr_of_interest" => zdo::parse_addr_of_interest(asdu).map(|a| format!("{a:04X}")),
        "parse_bind_req" => zdo::parse_bind_req(asdu).map(|r| show_bind(&r)),
        "parse_match_desc_req" => zdo::parse_match_desc_req(asdu).map(|r| show_match(&r, asdu)),
        "parse_mgmt_leave_req" => zdo::parse_mgmt_leave_req(asdu).map(|r| show_leave(&r)),
        "parse_node_desc_rsp" => zdo::parse_node_desc_rsp(asdu).map(|r| show_node_rsp(&r)),
        _ => return None,
    })
}

fn show_bind(r: &zdo::BindReq) -> String {
    let entry = match r.destination {
        BindReqDestination::Group(group) => show_group(r.src_endpoint, r.cluster_id, group),
        BindReqDestination::Device { ieee, endpoint } => {
            show_device(r.src_endpoint, r.cluster_id, ieee, endpoint)
        }
    };
    format!("{:02X} {:016X} {entry}", r.seq, r.src_address.0)
}

fn show_match(r: &MatchDescReq<'_>, asdu: &[u8]) -> String {
    let places = probe::lists(r).map(|list| {
        let start = list.as_ptr() as usize - asdu.as_ptr() as usize;
        format!("{start} {}", list.len() / 2)
    });
    let inputs: Vec<u16> = r.input_clusters().collect();
    let outputs: Vec<u16> = r.output_clusters().collect();
    format!(
        "{:02X} {:04X} {:04X} {} {} {}",
        r.seq,
        r.nwk_addr_of_interest,
        r.profile_id,
        places.join(" "),
        show_clusters(&inputs),
        show_clusters(&outputs),
    )
}

fn show_leave(r: &zdo::MgmtLeaveReq) -> String {
    let address = r
        .device_address
        .map_or("-".to_string(), |a| format!("{:016X}", a.0));
    let [children, rejoin] = [r.remove_children, r.rejoin].map(show_flag);
    format!("{:02X} {address} {children} {rejoin}", r.seq)
}

fn show_node_rsp(r: &NodeDescRsp) -> String {
    let mask = r
        .server_mask
        .map_or("-".to_string(), |m| format!("{m:04X}"));
    format!(
        "{:02X} {:02X} {:04X} {mask}",
        r.seq, r.status, r.nwk_addr_of_interest
    )
}

fn stack_revision(mask: &str) -> Option<String> {
    let server_mask = if mask == "-" {
        None
    } else {
        Some(u16_of(mask)?)
    };
    let reply = NodeDescRsp {
        seq: 0,
        status: 0,
        nwk_addr_of_interest: 0,
        server_mask,
    };
    Some(
        reply
            .stack_revision()
            .map_or("-".to_string(), |r| format!("{r:02X}")),
    )
}

fn constants() -> String {
    let clusters = [
        zdo::NWK_ADDR_REQ,
        zdo::IEEE_ADDR_REQ,
        zdo::NODE_DESC_REQ,
        zdo::POWER_DESC_REQ,
        zdo::SIMPLE_DESC_REQ,
        zdo::ACTIVE_EP_REQ,
        zdo::MATCH_DESC_REQ,
        zdo::BIND_REQ,
        zdo::UNBIND_REQ,
        zdo::MGMT_LEAVE_REQ,
        zdo::NWK_ADDR_RSP,
        zdo::IEEE_ADDR_RSP,
        zdo::NODE_DESC_RSP,
        zdo::POWER_DESC_RSP,
        zdo::SIMPLE_DESC_RSP,
        zdo::ACTIVE_EP_RSP,
        zdo::MATCH_DESC_RSP,
        zdo::BIND_RSP,
        zdo::UNBIND_RSP,
        zdo::MGMT_LEAVE_RSP,
    ]
    .map(|c| format!("{c:04X}"));
    let types = [zdo::ADDR_REQUEST_SINGLE, zdo::ADDR_REQUEST_EXTENDED].map(|t| format!("{t:02X}"));
    format!("{} {}", clusters.join(" "), types.join(" "))
}
