//! Replies that need no endpoint records (000).

use tools::words::{bytes, flag, u8_of, u16_of, u64_of};
use zigbee_core::nwk::nlme::management::NlmeLeaveStatus;
use zigbee_core::zdo::descriptor::{
    self as zdo, BindStatus, DeviceDescriptorConfig, DiscoveryError, NodeDescriptorConfig,
    PowerDescriptorConfig, probe,
};
use zigbee_types::IeeeAddress;

use crate::descriptors::{node_of, power_of, sources_of};
use crate::wrote;

pub fn answer(name: &str, words: &[&str]) -> Option<String> {
    if let [reason] = words {
        return code(name, u8_of(reason)?).map(|code| format!("{code:02X}"));
    }
    let [seq, arguments @ .., buffer] = words else {
        return None;
    };
    let (seq, buffer) = (u8_of(seq)?, bytes(buffer)?);
    errors(name, seq, arguments, &buffer)
        .or_else(|| descriptions(name, seq, arguments, &buffer))
        .or_else(|| others(name, seq, arguments, buffer))
}

fn discovery_error(word: &str) -> Option<DiscoveryError> {
    match u8_of(word)? {
        0 => Some(DiscoveryError::InvalidRequestType),
        1 => Some(DiscoveryError::DeviceNotFound),
        _ => None,
    }
}

fn bind_status(n: u8) -> Option<BindStatus> {
    match n {
        0 => Some(BindStatus::Success),
        1 => Some(BindStatus::InvalidEndpoint),
        2 => Some(BindStatus::TableFull),
        3 => Some(BindStatus::NoEntry),
        4 => Some(BindStatus::NotSupported),
        _ => None,
    }
}

fn leave_status(n: u8) -> Option<NlmeLeaveStatus> {
    match n {
        0 => Some(NlmeLeaveStatus::Success),
        1 => Some(NlmeLeaveStatus::InvalidRequest),
        2 => Some(NlmeLeaveStatus::UnknownDevice),
        3 => Some(NlmeLeaveStatus::MacError),
        4 => Some(NlmeLeaveStatus::NotAuthorized),
        _ => None,
    }
}

/// The status of a reason.
fn code(name: &str, reason: u8) -> Option<u8> {
    match name {
        "leave_status" => Some(zdo::leave_status(leave_status(reason)?)),
        "BindStatus::code" => Some(probe::bind_code(bind_status(reason)?)),
        "DiscoveryError::code" => Some(probe::discovery_code(discovery_error(&format!(
            "{reason:02X}"
        ))?)),
        _ => None,
    }
}

/// Replies that report an error of discovery.
fn errors(name: &str, seq: u8, arguments: &[&str], buffer: &[u8]) -> Option<String> {
    let [reason, arguments @ ..] = arguments else {
        return None;
    };
    let buffer = buffer.to_vec();
    match (name, arguments) {
        ("addr_rsp_error", [ieee, short]) => {
            let (error, ieee, short) = (discovery_error(reason)?, u64_of(ieee)?, u16_of(short)?);
            Some(wrote(buffer, |out| {
                zdo::addr_rsp_error(seq, error, IeeeAddress(ieee), short, out)
            }))
        }
        ("descriptor_rsp_error", [short]) => {
            let (error, short) = (discovery_error(reason)?, u16_of(short)?);
            Some(wrote(buffer, |out| {
                zdo::descriptor_rsp_error(seq, error, short, out)
            }))
        }
        ("active_ep_rsp_error", [short]) => {
            let (error, short) = (discovery_error(reason)?, u16_of(short)?);
            Some(wrote(buffer, |out| {
                zdo::active_ep_rsp_error(seq, error, short, out)
            }))
        }
        ("simple_desc_rsp_error", [short]) => {
            let (error, short) = (discovery_error(reason)?, u16_of(short)?);
            Some(wrote(buffer, |out| {
                zdo::simple_desc_rsp_error(seq, error, short, out)
            }))
        }
        ("match_desc_rsp_error", []) => {
            let error = discovery_error(reason)?;
            Some(wrote(buffer, |out| {
                zdo::match_desc_rsp_error(seq, error, out)
            }))
        }
        _ => None,
    }
}

/// Replies that hold the node or the power descriptor.
fn descriptions(name: &str, seq: u8, arguments: &[&str], buffer: &[u8]) -> Option<String> {
    let [short, arguments @ ..] = arguments else {
        return None;
    };
    let buffer = buffer.to_vec();
    match (name, arguments) {
        ("node_desc_rsp", [node]) => {
            let (short, node) = (u16_of(short)?, node_of(node)?);
            let power = power_of("000000010000", &[])?;
            let device = device(node, power);
            Some(wrote(buffer, |out| device.node_desc_rsp(seq, short, out)))
        }
        ("power_desc_rsp", [power, sources]) => {
            let (short, sources) = (u16_of(short)?, sources_of(sources)?);
            let device = device(NodeDescriptorConfig::default(), power_of(power, &sources)?);
            Some(wrote(buffer, |out| device.power_desc_rsp(seq, short, out)))
        }
        _ => None,
    }
}

/// A device without endpoints.
fn device(
    node: NodeDescriptorConfig,
    power: PowerDescriptorConfig<'_>,
) -> DeviceDescriptorConfig<'_> {
    DeviceDescriptorConfig {
        node,
        power,
        endpoints: &[],
    }
}

fn others(name: &str, seq: u8, arguments: &[&str], buffer: Vec<u8>) -> Option<String> {
    match (name, arguments) {
        ("addr_rsp", [ieee, short, extended]) => {
            let (ieee, short, extended) = (u64_of(ieee)?, u16_of(short)?, flag(extended)?);
            Some(wrote(buffer, |out| {
                zdo::addr_rsp(seq, IeeeAddress(ieee), short, extended, out)
            }))
        }
        ("match_desc_rsp", [short, endpoints]) => {
            let (short, endpoints) = (u16_of(short)?, bytes(endpoints)?);
            Some(wrote(buffer, |out| {
                zdo::match_desc_rsp(seq, short, &endpoints, out)
            }))
        }
        ("bind_rsp", [reason]) => {
            let status = bind_status(u8_of(reason)?)?;
            Some(wrote(buffer, |out| zdo::bind_rsp(seq, status, out)))
        }
        ("mgmt_leave_rsp", [status]) => {
            let status = u8_of(status)?;
            Some(wrote(buffer, |out| zdo::mgmt_leave_rsp(seq, status, out)))
        }
        _ => None,
    }
}
