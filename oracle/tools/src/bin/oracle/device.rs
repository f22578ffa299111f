//! Device tables: matching, and the replies made from them (000).

use tools::words::{bytes, clusters, pieces, show_clusters, show_flag, u8_of, u16_of};
use zigbee_core::zdo::descriptor::{
    DeviceDescriptorConfig, EndpointDescriptor, NodeDescriptorConfig, parse_match_desc_req, probe,
};

use crate::descriptors::{endpoint_of, power_of};
use crate::{refused, wrote};

pub fn answer(name: &str, words: &[&str]) -> Option<String> {
    match (name, words) {
        ("endpoint", [inputs, outputs, records, number]) => {
            let number = u8_of(number)?;
            over([inputs, outputs, records], |device| known(device, number))
        }
        ("supports_endpoint", [inputs, outputs, records, number]) => {
            let number = u8_of(number)?;
            over([inputs, outputs, records], |device| {
                show_flag(device.supports_endpoint(number)).to_string()
            })
        }
        ("matching_endpoints", [asdu, inputs, outputs, records, buffer]) => {
            let (asdu, buffer) = (bytes(asdu)?, bytes(buffer)?);
            over([inputs, outputs, records], |device| {
                matching(device, &asdu, buffer)
            })
        }
        ("active_ep_rsp", [seq, short, inputs, outputs, records, buffer]) => {
            let (seq, short, buffer) = (u8_of(seq)?, u16_of(short)?, bytes(buffer)?);
            over([inputs, outputs, records], |device| {
                wrote(buffer, |out| device.active_ep_rsp(seq, short, out))
            })
        }
        ("simple_desc_rsp", [seq, short, number, inputs, outputs, records, buffer]) => {
            let (seq, short, number) = (u8_of(seq)?, u16_of(short)?, u8_of(number)?);
            let buffer = bytes(buffer)?;
            over([inputs, outputs, records], |device| {
                wrote(buffer, |out| {
                    device.simple_desc_rsp(seq, short, number, out)
                })
            })
        }
        _ => None,
    }
}

/// The answer of a device with these tables: none if a record runs past its pool.
fn over(
    [inputs, outputs, records]: [&str; 3],
    ask: impl FnOnce(&DeviceDescriptorConfig<'_>) -> String,
) -> Option<String> {
    let inputs = clusters(inputs)?;
    let outputs = clusters(outputs)?;
    let records = pieces(records, 28)?;
    let endpoints: Vec<EndpointDescriptor<'_>> = records
        .into_iter()
        .map(|r| record(r, &inputs, &outputs))
        .collect::<Option<_>>()?;
    Some(ask(&DeviceDescriptorConfig {
        node: NodeDescriptorConfig::default(),
        power: power_of("000000010000", &[])?,
        endpoints: &endpoints,
    }))
}

/// A record, with its parts of the two pools.
fn record<'a>(word: &str, inputs: &'a [u16], outputs: &'a [u16]) -> Option<EndpointDescriptor<'a>> {
    let inputs = part(word.get(12..20)?, inputs)?;
    let outputs = part(word.get(20..28)?, outputs)?;
    endpoint_of(word.get(..12)?, inputs, outputs)
}

/// The part of a pool that a start and a count name.
fn part<'a>(word: &str, pool: &'a [u16]) -> Option<&'a [u16]> {
    let start = usize::from(u16_of(&word[..4])?);
    let count = usize::from(u16_of(&word[4..])?);
    pool.get(start..start + count)
}

fn known(device: &DeviceDescriptorConfig<'_>, number: u8) -> String {
    let Some(e) = probe::endpoint(device, number) else {
        return "-".to_string();
    };
    format!(
        "{:02X}{:04X}{:04X}{:02X} {} {}",
        e.endpoint,
        e.profile_id,
        e.device_id,
        e.device_version,
        show_clusters(e.input_clusters),
        show_clusters(e.output_clusters),
    )
}

fn matching(device: &DeviceDescriptorConfig<'_>, asdu: &[u8], buffer: Vec<u8>) -> String {
    let Some(request) = parse_match_desc_req(asdu) else {
        return refused();
    };
    wrote(buffer, |out| Ok(device.matching_endpoints(&request, out)))
}
