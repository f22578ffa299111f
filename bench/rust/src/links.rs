//! Bind requests and the binding table.

use crate::Run;
use zigbee_core::aps::binding::{Binding, BindingTable, probe};
use zigbee_core::zdo::descriptor::{BindReq, BindReqDestination, parse_bind_req};

pub type Table = BindingTable<32>;

/// The entry that a request names.
pub fn entry(request: &BindReq) -> Binding {
    let (endpoint, cluster) = (request.src_endpoint, request.cluster_id);
    match request.destination {
        BindReqDestination::Group(group) => Binding::group(endpoint, cluster, group),
        BindReqDestination::Device { ieee, endpoint: to } => {
            Binding::device(endpoint, cluster, ieee, to)
        }
    }
}

#[unsafe(no_mangle)]
pub unsafe extern "C" fn rust_parse(payload: &Run, request: &mut Option<BindReq>) {
    *request = parse_bind_req(unsafe { payload.bytes() });
}

/// The fields of a parsed request, for the driver to hold the two sides against each other.
#[repr(C)]
pub struct Parsed {
    seq: u8,
    src_address: u64,
    src_endpoint: u8,
    cluster_id: u16,
    group: u16,
    ieee: u64,
    endpoint: u8,
}

#[unsafe(no_mangle)]
pub extern "C" fn rust_parsed(request: &Option<BindReq>, parsed: &mut Parsed) -> bool {
    let Some(request) = request else { return false };
    parsed.seq = request.seq;
    parsed.src_address = request.src_address.0;
    parsed.src_endpoint = request.src_endpoint;
    parsed.cluster_id = request.cluster_id;
    match request.destination {
        BindReqDestination::Group(group) => parsed.group = group,
        BindReqDestination::Device { ieee, endpoint } => {
            (parsed.ieee, parsed.endpoint) = (ieee.0, endpoint);
        }
    }
    true
}

/// 0 for success, 1 for a full table, 2 for no entry, 3 for a payload that is refused.
#[unsafe(no_mangle)]
pub unsafe extern "C" fn rust_bind(table: &mut Table, payload: &Run) -> u8 {
    match parse_bind_req(unsafe { payload.bytes() }) {
        Some(request) => said(probe::create(table, entry(&request))),
        None => 3,
    }
}

#[unsafe(no_mangle)]
pub unsafe extern "C" fn rust_unbind(table: &mut Table, payload: &Run) -> u8 {
    match parse_bind_req(unsafe { payload.bytes() }) {
        Some(request) => said(probe::remove(table, &entry(&request))),
        None => 3,
    }
}

fn said(outcome: probe::Outcome) -> u8 {
    match outcome {
        probe::Outcome::Done => 0,
        probe::Outcome::TableFull => 1,
        probe::Outcome::InvalidBinding | probe::Outcome::IllegalRequest => 2,
    }
}

/// An empty table.
#[unsafe(no_mangle)]
pub extern "C" fn rust_table(table: &mut Table) {
    *table = Table::empty();
}

/// How many bytes the driver keeps for a table.
#[unsafe(no_mangle)]
pub extern "C" fn rust_table_size() -> usize {
    size_of::<Table>()
}

/// An entry as this library holds it, for the driver to hold the two tables against each other.
#[repr(C)]
pub struct Flat {
    dst_ieee: u64,
    cluster_id: u16,
    src_endpoint: u8,
    dst_addr_mode: u8,
    dst_group: u16,
    dst_endpoint: u8,
}

/// How many entries are held, and the entry at a place.
#[unsafe(no_mangle)]
pub extern "C" fn rust_entry(table: &Table, place: usize, flat: &mut Flat) -> usize {
    if let Some(held) = table.get(place) {
        *flat = Flat {
            dst_ieee: held.dst_ieee.map_or(0, |address| address.0),
            cluster_id: held.cluster_id,
            src_endpoint: held.src_endpoint,
            dst_addr_mode: if held.dst_addr_mode.is_group() { 1 } else { 3 },
            dst_group: held.dst_group.unwrap_or(0),
            dst_endpoint: held.dst_endpoint.unwrap_or(0),
        };
    }
    table.len()
}
