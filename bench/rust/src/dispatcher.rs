//! A dispatcher over the Rust's functions, by document 01's rules. The Rust has none: this one is written as its firmware might have
//! it, the device and the table behind references. It refuses no tables, since the Rust's cannot be bad.

use crate::links::{Table, entry};
use crate::{Device, Run};
use zigbee_core::apl::descriptors::node_descriptor::LogicalType;
use zigbee_core::aps::binding::probe::{Outcome, create, remove};
use zigbee_core::zdo::descriptor::{self as zdo, BindStatus, DiscoveryError};
use zigbee_types::IeeeAddress;

/// The number of a refusal.
type Refusal = u8;

/// What a request came to.
pub enum Response {
    Reply { cluster: u16, length: usize },
    Leave(zdo::MgmtLeaveReq),
}

type Written = Result<usize, Refusal>;

/// What a request is asked of.
pub struct Host<'a> {
    device: &'a Device,
    ieee_addr: IeeeAddress,
    nwk_addr: u16,
}

fn dispatch(
    host: &Host,
    table: &mut Table,
    cluster: u16,
    payload: &[u8],
    out: &mut [u8],
) -> Result<Response, Refusal> {
    let length = match cluster {
        zdo::NWK_ADDR_REQ => host.nwk_addr(payload, out),
        zdo::IEEE_ADDR_REQ => host.ieee_addr(payload, out),
        zdo::NODE_DESC_REQ => host.node(payload, out),
        zdo::POWER_DESC_REQ => host.power(payload, out),
        zdo::SIMPLE_DESC_REQ => host.simple(payload, out),
        zdo::ACTIVE_EP_REQ => host.active(payload, out),
        zdo::MATCH_DESC_REQ => host.matched(payload, out),
        zdo::BIND_REQ => host.linked(table, true, payload, out),
        zdo::UNBIND_REQ => host.linked(table, false, payload, out),
        zdo::MGMT_LEAVE_REQ => {
            return zdo::parse_mgmt_leave_req(payload)
                .map(Response::Leave)
                .ok_or(3);
        }
        _ => Err(2),
    }?;
    let cluster = cluster + 0x8000;
    Ok(Response::Reply { cluster, length })
}

fn written(result: Result<usize, byte::Error>) -> Written {
    result.map_err(|_| 5)
}

fn asked(payload: &[u8]) -> Result<(u8, u16), Refusal> {
    let short = zdo::parse_addr_of_interest(payload).ok_or(3)?;
    Ok((payload[0], short))
}

impl Host<'_> {
    fn nwk_addr(&self, payload: &[u8], out: &mut [u8]) -> Written {
        let request = zdo::parse_nwk_addr_req(payload).ok_or(3)?;
        if request.ieee_addr == self.ieee_addr {
            return self.own_addr(request.seq, request.request_type, out);
        }
        let error = DiscoveryError::DeviceNotFound;
        written(zdo::addr_rsp_error(
            request.seq,
            error,
            request.ieee_addr,
            u16::MAX,
            out,
        ))
    }

    fn ieee_addr(&self, payload: &[u8], out: &mut [u8]) -> Written {
        let request = zdo::parse_ieee_addr_req(payload).ok_or(3)?;
        let asked = request.nwk_addr_of_interest;
        if asked == self.nwk_addr {
            return self.own_addr(request.seq, request.request_type, out);
        }
        let error = DiscoveryError::DeviceNotFound;
        let ones = IeeeAddress(u64::MAX);
        written(zdo::addr_rsp_error(request.seq, error, ones, asked, out))
    }

    fn own_addr(&self, seq: u8, request_type: u8, out: &mut [u8]) -> Written {
        let error = DiscoveryError::InvalidRequestType;
        let (ieee, short) = (self.ieee_addr, self.nwk_addr);
        written(match request_type {
            zdo::ADDR_REQUEST_SINGLE => zdo::addr_rsp(seq, ieee, short, false, out),
            zdo::ADDR_REQUEST_EXTENDED => zdo::addr_rsp(seq, ieee, short, true, out),
            _ => zdo::addr_rsp_error(seq, error, ieee, short, out),
        })
    }

    fn other(&self) -> DiscoveryError {
        match self.device.node.logical_type {
            LogicalType::Router | LogicalType::Coordinator => DiscoveryError::DeviceNotFound,
            LogicalType::EndDevice | LogicalType::Reserved(_) => DiscoveryError::InvalidRequestType,
        }
    }

    fn node(&self, payload: &[u8], out: &mut [u8]) -> Written {
        let (seq, short) = asked(payload)?;
        if short == self.nwk_addr {
            return written(self.device.node_desc_rsp(seq, short, out));
        }
        written(zdo::descriptor_rsp_error(seq, self.other(), short, out))
    }

    fn power(&self, payload: &[u8], out: &mut [u8]) -> Written {
        let (seq, short) = asked(payload)?;
        if short == self.nwk_addr {
            return written(self.device.power_desc_rsp(seq, short, out));
        }
        written(zdo::descriptor_rsp_error(seq, self.other(), short, out))
    }

    fn active(&self, payload: &[u8], out: &mut [u8]) -> Written {
        let (seq, short) = asked(payload)?;
        if short == self.nwk_addr {
            return written(self.device.active_ep_rsp(seq, short, out));
        }
        written(zdo::active_ep_rsp_error(seq, self.other(), short, out))
    }

    fn simple(&self, payload: &[u8], out: &mut [u8]) -> Written {
        let (seq, short) = asked(payload)?;
        let endpoint = *payload.get(3).ok_or(3u8)?;
        if short == self.nwk_addr {
            return written(self.device.simple_desc_rsp(seq, short, endpoint, out));
        }
        written(zdo::simple_desc_rsp_error(seq, self.other(), short, out))
    }

    fn matched(&self, payload: &[u8], out: &mut [u8]) -> Written {
        let request = zdo::parse_match_desc_req(payload).ok_or(3)?;
        if request.nwk_addr_of_interest != self.nwk_addr {
            return written(zdo::match_desc_rsp_error(request.seq, self.other(), out));
        }
        let places = &mut [0; 32];
        let count = self.device.matching_endpoints(&request, places);
        let list = &places[..count];
        written(zdo::match_desc_rsp(request.seq, self.nwk_addr, list, out))
    }

    /// The room is tested before anything is stored.
    fn linked(&self, table: &mut Table, bind: bool, payload: &[u8], out: &mut [u8]) -> Written {
        let request = zdo::parse_bind_req(payload).ok_or(3)?;
        if out.len() < 2 {
            return Err(5);
        }
        let status = self.status(table, bind, &request);
        written(zdo::bind_rsp(request.seq, status, out))
    }

    fn status(&self, table: &mut Table, bind: bool, request: &zdo::BindReq) -> BindStatus {
        if request.src_address != self.ieee_addr {
            return BindStatus::NotSupported;
        }
        if !self.device.supports_endpoint(request.src_endpoint) {
            return BindStatus::InvalidEndpoint;
        }
        let outcome = match bind {
            true => create(table, entry(request)),
            false => remove(table, &entry(request)),
        };
        match outcome {
            Outcome::Done => BindStatus::Success,
            Outcome::TableFull => BindStatus::TableFull,
            Outcome::InvalidBinding | Outcome::IllegalRequest => BindStatus::NoEntry,
        }
    }
}

#[unsafe(no_mangle)]
pub unsafe extern "C" fn rust_dispatch(
    response: &mut Result<Response, Refusal>,
    device: &Device,
    ieee_addr: u64,
    nwk_addr: u16,
    table: &mut Table,
    cluster: u16,
    payload: &Run,
    out: &Run,
) {
    let ieee_addr = IeeeAddress(ieee_addr);
    let host = Host {
        device,
        ieee_addr,
        nwk_addr,
    };
    *response = unsafe { dispatch(&host, table, cluster, payload.bytes(), out.buffer()) };
}

/// What a response says, for the driver to hold the two sides against each other.
#[repr(C)]
pub struct Said {
    cluster: u16,
    length: usize,
    leave: bool,
    seq: u8,
    device: u64,
    remove_children: bool,
    rejoin: bool,
    refused: u8,
}

#[unsafe(no_mangle)]
pub extern "C" fn rust_said(response: &Result<Response, Refusal>, said: &mut Said) {
    match response {
        Ok(Response::Reply { cluster, length }) => {
            (said.cluster, said.length) = (*cluster, *length);
        }
        Ok(Response::Leave(request)) => {
            said.leave = true;
            said.seq = request.seq;
            said.device = request.device_address.map_or(0, |address| address.0);
            said.remove_children = request.remove_children;
            said.rejoin = request.rejoin;
        }
        Err(number) => said.refused = *number,
    }
}
