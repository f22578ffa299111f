//! The Rust's functions, each behind a name that the driver calls, and what makes their inputs. (Files 000 to 004 are compiled as
//! `oracle/README.md` says.)

mod dispatcher;
mod inputs;
mod links;

use std::slice;
use zigbee_core::zdo::descriptor::{DeviceDescriptorConfig, MatchDescReq, parse_match_desc_req};

/// What is told of a call that refused.
pub const REFUSED: usize = usize::MAX;

/// A run of bytes as the driver hands it over.
#[repr(C)]
#[derive(Clone, Copy)]
pub struct Run {
    start: *mut u8,
    length: usize,
}

impl Run {
    /// # Safety
    /// The driver lends the run for the call, and nothing else writes it.
    pub unsafe fn bytes<'a>(self) -> &'a [u8] {
        unsafe { slice::from_raw_parts(self.start, self.length) }
    }

    /// # Safety
    /// As above, and nothing else reads it.
    pub unsafe fn buffer<'a>(self) -> &'a mut [u8] {
        unsafe { slice::from_raw_parts_mut(self.start, self.length) }
    }
}

pub type Device = DeviceDescriptorConfig<'static>;

#[unsafe(no_mangle)]
pub unsafe extern "C" fn rust_node(device: &Device, seq: u8, nwk_addr: u16, out: &Run) -> usize {
    let out = unsafe { out.buffer() };
    device.node_desc_rsp(seq, nwk_addr, out).unwrap_or(REFUSED)
}

#[unsafe(no_mangle)]
pub unsafe extern "C" fn rust_simple(
    device: &Device,
    seq: u8,
    nwk_addr: u16,
    endpoint: u8,
    out: &Run,
) -> usize {
    let out = unsafe { out.buffer() };
    device
        .simple_desc_rsp(seq, nwk_addr, endpoint, out)
        .unwrap_or(REFUSED)
}

/// Parsed before the measured call: the Rust's request holds slices of its payload.
#[unsafe(no_mangle)]
pub unsafe extern "C" fn rust_match_request(
    payload: &Run,
    request: &mut Option<MatchDescReq<'static>>,
) {
    *request = parse_match_desc_req(unsafe { payload.bytes() });
}

#[unsafe(no_mangle)]
pub unsafe extern "C" fn rust_matching(
    device: &Device,
    request: &MatchDescReq<'static>,
    out: &Run,
) -> usize {
    device.matching_endpoints(request, unsafe { out.buffer() })
}
