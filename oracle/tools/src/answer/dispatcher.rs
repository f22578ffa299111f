//! The dispatcher that document 01 adds ("Binding and dispatch"), for its device. Requests are parsed, replies written and bindings
//! kept by the Rust's functions; the rules between them are document 01's, and each names its sentence.

use zigbee_core::apl::descriptors::node_descriptor::LogicalType;
use zigbee_core::aps::binding::{Binding, BindingTable, probe as links};
use zigbee_core::zdo::descriptor::{self as zdo, BindReqDestination, BindStatus, DiscoveryError};
use zigbee_types::IeeeAddress;

use super::device::{DEVICE, IEEE, LIMIT, ROOM, SHORT};

/// A refusal ("Refusal numbers"). Number 1 is not here: the tables are this device's, two records with five clusters in all, and
/// the limit is 32, which the Rust's table never passes. Numbers 4 and 5 are here for their rules; this device never gives them, since
/// its endpoints have three clusters and two, and its longest reply, the simple one of endpoint 1, has 19 of 128 bytes.
#[derive(Debug, Clone, Copy, PartialEq, Eq)]
pub enum Refusal {
    /// "The request cluster is not one of the ten in 000".
    Cluster = 2,
    /// "A payload ... is shorter than its layout needs, has a bind mode other than 1 or 3".
    Payload = 3,
    /// "A simple descriptor is to be written whose two counts sum to more than 28".
    Clusters = 4,
    /// "The reply is longer than the buffer".
    Room = 5,
}

/// An answer: a reply with its cluster, or a leave request for the host.
#[derive(Debug, Clone, PartialEq, Eq)]
pub enum Answer {
    Reply(u16, Vec<u8>),
    Leave(zdo::MgmtLeaveReq),
}

/// How many bytes of a reply were written.
type Written = Result<usize, Refusal>;

/// The device with its binding table.
pub struct Dispatcher {
    table: BindingTable<LIMIT>,
}

impl Default for Dispatcher {
    /// With an empty table.
    fn default() -> Self {
        let table = BindingTable::empty();
        Dispatcher { table }
    }
}

impl Dispatcher {
    /// How many bindings are held.
    pub fn bindings(&self) -> usize {
        self.table.len()
    }

    /// Answers a request. Refusals are "checked in this order", by number: an unknown cluster before the payload is looked at, and a
    /// bad payload before any rule of a reply. "The dispatcher's reply cluster is the request's plus 0x8000."
    pub fn dispatch(&mut self, cluster: u16, payload: &[u8]) -> Result<Answer, Refusal> {
        let buffer = &mut [0; ROOM];
        let written = match cluster {
            zdo::NWK_ADDR_REQ => nwk_addr(payload, buffer),
            zdo::IEEE_ADDR_REQ => ieee_addr(payload, buffer),
            zdo::NODE_DESC_REQ => node(payload, buffer),
            zdo::POWER_DESC_REQ => power(payload, buffer),
            zdo::SIMPLE_DESC_REQ => simple(payload, buffer),
            zdo::ACTIVE_EP_REQ => active(payload, buffer),
            zdo::MATCH_DESC_REQ => matched(payload, buffer),
            zdo::BIND_REQ => self.linked(links::create, payload, buffer),
            zdo::UNBIND_REQ => {
                self.linked(|table, entry| links::remove(table, &entry), payload, buffer)
            }
            zdo::MGMT_LEAVE_REQ => return leave(payload),
            _ => Err(Refusal::Cluster),
        }?;
        let reply = buffer[..written].to_vec();
        Ok(Answer::Reply(cluster + 0x8000, reply))
    }

    /// Bind and unbind: the reply is "seq, status". "A refusal ... changes neither reply buffer nor binding table" (demand 1): the
    /// reply has two bytes whatever its status, so that a buffer that is too short shows before the table is changed.
    fn linked(&mut self, link: Link, payload: &[u8], buffer: &mut [u8]) -> Written {
        let request = zdo::parse_bind_req(payload).ok_or(Refusal::Payload)?;
        written(zdo::bind_rsp(request.seq, BindStatus::Success, buffer))?;
        let status = self.status(link, &request);
        written(zdo::bind_rsp(request.seq, status, buffer))
    }

    /// "Bind and unbind: source address not ours, NOT_SUPPORTED (0x84); then endpoint not ours, INVALID_EP (0x82); then as above":
    /// TABLE_FULL (0x8C) where a bind finds no room, NO_ENTRY (0x88) where an unbind finds no equal entry.
    fn status(&mut self, link: Link, request: &zdo::BindReq) -> BindStatus {
        if request.src_address != IEEE {
            return BindStatus::NotSupported;
        }
        if !DEVICE.supports_endpoint(request.src_endpoint) {
            return BindStatus::InvalidEndpoint;
        }
        match link(&mut self.table, entry(request)) {
            links::Outcome::Done => BindStatus::Success,
            links::Outcome::TableFull => BindStatus::TableFull,
            links::Outcome::InvalidBinding => BindStatus::NoEntry,
            links::Outcome::IllegalRequest => panic!("the Rust never says this"),
        }
    }
}

/// The Rust's bind or unbind.
type Link = fn(&mut BindingTable<LIMIT>, Binding) -> links::Outcome;

/// The entry of a request: "`Binding::device` and `Binding::group` build an entry".
fn entry(request: &zdo::BindReq) -> Binding {
    let (endpoint, cluster) = (request.src_endpoint, request.cluster_id);
    match request.destination {
        BindReqDestination::Group(group) => Binding::group(endpoint, cluster, group),
        BindReqDestination::Device { ieee, endpoint: to } => {
            Binding::device(endpoint, cluster, ieee, to)
        }
    }
}

/// What a writer of the Rust says: its error is a buffer that is too short, refusal 5.
fn written(result: Result<usize, byte::Error>) -> Written {
    result.map_err(|_| Refusal::Room)
}

/// NWK_addr_req. "Address: another device, DEVICE_NOT_FOUND (0x81), echoing the address asked for, the other all ones".
fn nwk_addr(payload: &[u8], buffer: &mut [u8]) -> Written {
    let request = zdo::parse_nwk_addr_req(payload).ok_or(Refusal::Payload)?;
    if request.ieee_addr != IEEE {
        let (seq, asked) = (request.seq, request.ieee_addr);
        let error = DiscoveryError::DeviceNotFound;
        return written(zdo::addr_rsp_error(seq, error, asked, u16::MAX, buffer));
    }
    own_addr(request.seq, request.request_type, buffer)
}

/// IEEE_addr_req, by the same sentence.
fn ieee_addr(payload: &[u8], buffer: &mut [u8]) -> Written {
    let request = zdo::parse_ieee_addr_req(payload).ok_or(Refusal::Payload)?;
    if request.nwk_addr_of_interest != SHORT {
        let (seq, asked) = (request.seq, request.nwk_addr_of_interest);
        let (error, ones) = (DiscoveryError::DeviceNotFound, IeeeAddress(u64::MAX));
        return written(zdo::addr_rsp_error(seq, error, ones, asked, buffer));
    }
    own_addr(request.seq, request.request_type, buffer)
}

/// "Else type 0 single, type 1 extended, others INV_REQUESTTYPE (0x80) with our two addresses."
fn own_addr(seq: u8, request_type: u8, buffer: &mut [u8]) -> Written {
    let error = DiscoveryError::InvalidRequestType;
    written(match request_type {
        0 => zdo::addr_rsp(seq, IEEE, SHORT, false, buffer),
        1 => zdo::addr_rsp(seq, IEEE, SHORT, true, buffer),
        _ => zdo::addr_rsp_error(seq, error, IEEE, SHORT, buffer),
    })
}

/// "Node, power, active: seq, short (2). Simple: the same".
fn asked(payload: &[u8]) -> Result<(u8, u16), Refusal> {
    let short = zdo::parse_addr_of_interest(payload).ok_or(Refusal::Payload)?;
    Ok((payload[0], short))
}

/// "Node, power, simple, active, match for another short address: 0x81 if our type is Router or Coordinator (a reserved type,
/// before it is cut, is neither), else 0x80; the address is echoed where the error form has one."
fn other() -> DiscoveryError {
    match DEVICE.node.logical_type {
        LogicalType::Router | LogicalType::Coordinator => DiscoveryError::DeviceNotFound,
        LogicalType::EndDevice | LogicalType::Reserved(_) => DiscoveryError::InvalidRequestType,
    }
}

fn node(payload: &[u8], buffer: &mut [u8]) -> Written {
    let (seq, short) = asked(payload)?;
    written(match short {
        SHORT => DEVICE.node_desc_rsp(seq, SHORT, buffer),
        _ => zdo::descriptor_rsp_error(seq, other(), short, buffer),
    })
}

fn power(payload: &[u8], buffer: &mut [u8]) -> Written {
    let (seq, short) = asked(payload)?;
    written(match short {
        SHORT => DEVICE.power_desc_rsp(seq, SHORT, buffer),
        _ => zdo::descriptor_rsp_error(seq, other(), short, buffer),
    })
}

fn active(payload: &[u8], buffer: &mut [u8]) -> Written {
    let (seq, short) = asked(payload)?;
    written(match short {
        SHORT => DEVICE.active_ep_rsp(seq, SHORT, buffer),
        _ => zdo::active_ep_rsp_error(seq, other(), short, buffer),
    })
}

/// "Simple: the same, then the endpoint." The endpoint must be there whoever is asked for (docs/DECISIONS.md, "refusals come before
/// replies"). The Rust refuses more than 28 clusters as a short buffer; document 01 has number 4 for that, before 5.
fn simple(payload: &[u8], buffer: &mut [u8]) -> Written {
    let (seq, short) = asked(payload)?;
    let number = *payload.get(3).ok_or(Refusal::Payload)?;
    if short != SHORT {
        return written(zdo::simple_desc_rsp_error(seq, other(), short, buffer));
    }
    let clusters = zdo::probe::endpoint(&DEVICE, number)
        .map_or(0, |e| e.input_clusters.len() + e.output_clusters.len());
    if clusters > 28 {
        return Err(Refusal::Clusters);
    }
    written(DEVICE.simple_desc_rsp(seq, SHORT, number, buffer))
}

/// "The dispatcher matches into 32 places of its own, so its list is whole (SUCCESS and length 0 if none match)". The lists must be
/// there whoever is asked for.
fn matched(payload: &[u8], buffer: &mut [u8]) -> Written {
    let request = zdo::parse_match_desc_req(payload).ok_or(Refusal::Payload)?;
    if request.nwk_addr_of_interest != SHORT {
        return written(zdo::match_desc_rsp_error(request.seq, other(), buffer));
    }
    let places = &mut [0; 32];
    let count = DEVICE.matching_endpoints(&request, places);
    let list = &places[..count];
    written(zdo::match_desc_rsp(request.seq, SHORT, list, buffer))
}

/// "Leave: the parsed request is handed to the host and nothing is written", so that there is no refusal 5.
fn leave(payload: &[u8]) -> Result<Answer, Refusal> {
    let request = zdo::parse_mgmt_leave_req(payload).ok_or(Refusal::Payload)?;
    Ok(Answer::Leave(request))
}
