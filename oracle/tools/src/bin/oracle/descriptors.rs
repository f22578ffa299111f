//! Descriptors: 001, 002, 003, and the descriptor writers of 000.

use byte::TryRead;
use byte::ctx::LE;
use tools::words::{bytes, clusters, number, pieces, show_bytes, show_flag, u8_of, u16_of};
use zigbee_core::apl::descriptors::node_descriptor::{
    DescriptorCapabilityFlag, FrequencyBandFlag, LogicalType, MacCapabilityFlag, NodeDescriptor,
    ServerMaskFlag, probe as node_probe,
};
use zigbee_core::apl::descriptors::node_power_descriptor::{
    CurrentPowerMode, CurrentPowerSourceLevel, NodePowerDescriptor, PowerSource,
    probe as power_probe,
};
use zigbee_core::apl::descriptors::simple_descriptor::{SimpleDescriptor, probe as simple_probe};
use zigbee_core::zdo::descriptor::{
    EndpointDescriptor, NodeDescriptorConfig, PowerDescriptorConfig, probe,
};

use crate::{refused, wrote};

pub fn answer(name: &str, words: &[&str]) -> Option<String> {
    match name.split_once("::")? {
        ("NodeDescriptorConfig" | "NodeDescriptor", _) => node_answer(name, words),
        (_, "is_set" | "get_stack_compliance_revision") => flags_answer(name, words),
        ("PowerDescriptorConfig" | "NodePowerDescriptor", _) => power_answer(name, words),
        (_, "bits" | "bitmap") => bits_answer(name, words),
        _ => simple_answer(name, words),
    }
}

/// A named value of four digits: is it reserved, and its number.
fn named(word: &str) -> Option<(bool, u8)> {
    match number(word, 4)? {
        n @ 0..=0xFF => Some((false, n as u8)),
        n @ 0x100..=0x1FF => Some((true, n as u8)),
        _ => None,
    }
}

fn show_named(reserved: bool, number: u8) -> String {
    format!("{:02X}{number:02X}", u8::from(reserved))
}

// ---- node

fn node_answer(name: &str, words: &[&str]) -> Option<String> {
    match (name, words) {
        ("NodeDescriptorConfig::default", []) => Some(show_node(&NodeDescriptorConfig::default())),
        ("NodeDescriptorConfig::write", [node, buffer]) => {
            let node = node_of(node)?;
            Some(wrote(bytes(buffer)?, |out| probe::write_node(&node, out)))
        }
        ("NodeDescriptor::try_read", [from]) => {
            Some(match NodeDescriptor::try_read(&bytes(from)?, LE) {
                Ok((_, taken)) => taken.to_string(),
                Err(_) => refused(),
            })
        }
        ("NodeDescriptor::logical_type", [from]) => {
            let from = bytes(from).filter(|b| b.len() >= 13)?;
            Some(show_logical_type(node_probe::over(&from).logical_type()))
        }
        ("NodeDescriptor::accessors", [from]) => {
            let from = bytes(from).filter(|b| b.len() >= 13)?;
            Some(show_node_fields(&node_probe::over(&from)))
        }
        _ => None,
    }
}

pub fn node_of(word: &str) -> Option<NodeDescriptorConfig> {
    let part = |start: usize, digits: usize| number(word.get(start..start + digits)?, digits);
    if word.len() != 32 {
        return None;
    }
    Some(NodeDescriptorConfig {
        logical_type: logical_type_of(word.get(0..4)?)?,
        complex_descriptor_available: part(4, 2).filter(|n| *n < 2)? == 1,
        user_descriptor_available: part(6, 2).filter(|n| *n < 2)? == 1,
        frequency_band: part(8, 2)? as u8,
        mac_capability_flags: part(10, 2)? as u8,
        manufacturer_code: part(12, 4)? as u16,
        maximum_buffer_size: part(16, 2)? as u8,
        maximum_incoming_transfer_size: part(18, 4)? as u16,
        server_mask: part(22, 4)? as u16,
        maximum_outgoing_transfer_size: part(26, 4)? as u16,
        descriptor_capability_field: part(30, 2)? as u8,
    })
}

fn show_node(n: &NodeDescriptorConfig) -> String {
    format!(
        "{}{:02X}{:02X}{:02X}{:02X}{:04X}{:02X}{:04X}{:04X}{:04X}{:02X}",
        show_logical_type(n.logical_type),
        u8::from(n.complex_descriptor_available),
        u8::from(n.user_descriptor_available),
        n.frequency_band,
        n.mac_capability_flags,
        n.manufacturer_code,
        n.maximum_buffer_size,
        n.maximum_incoming_transfer_size,
        n.server_mask,
        n.maximum_outgoing_transfer_size,
        n.descriptor_capability_field,
    )
}

fn show_node_fields(n: &NodeDescriptor<'_>) -> String {
    format!(
        "{:02X}{:02X}{:02X}{:02X}{:04X}{:02X}{:04X}{:04X}{:04X}{:02X}",
        u8::from(n.complex_descriptor_available()),
        u8::from(n.user_descriptor_available()),
        node_probe::band(&n.frequency_bands()),
        node_probe::mac(&n.mac_capabilities()),
        n.manufacturer_code(),
        n.maximum_buffer_size(),
        n.maximum_incoming_transfer_size(),
        node_probe::mask(&n.server_mask()),
        n.maximum_outgoing_transfer_size(),
        node_probe::capabilities(&n.descriptor_capabilities()),
    )
}

fn logical_type_of(word: &str) -> Option<LogicalType> {
    match named(word)? {
        (false, 0b000) => Some(LogicalType::Coordinator),
        (false, 0b001) => Some(LogicalType::Router),
        (false, 0b010) => Some(LogicalType::EndDevice),
        (false, _) => None,
        (true, n) => Some(LogicalType::Reserved(n)),
    }
}

fn show_logical_type(value: LogicalType) -> String {
    match value {
        LogicalType::Coordinator => show_named(false, 0b000),
        LogicalType::Router => show_named(false, 0b001),
        LogicalType::EndDevice => show_named(false, 0b010),
        LogicalType::Reserved(n) => show_named(true, n),
    }
}

// ---- flags

fn flags_answer(name: &str, words: &[&str]) -> Option<String> {
    let [field] = words else { return None };
    Some(match name {
        "FrequencyBands::is_set" => band_flags(u8_of(field)?),
        "MacCapabilities::is_set" => mac_flags(u8_of(field)?),
        "ServerMask::is_set" => mask_flags(u16_of(field)?),
        "DescriptorCapabilities::is_set" => capability_flags(u8_of(field)?),
        "ServerMask::get_stack_compliance_revision" => {
            format!("{:02X}", node_probe::revision(u16_of(field)?))
        }
        _ => return None,
    })
}

fn band_flags(field: u8) -> String {
    use FrequencyBandFlag::*;
    flags([Low, Mid, High, EuropeanFSK], |f| {
        node_probe::band_is_set(field, f)
    })
}

fn mac_flags(field: u8) -> String {
    use MacCapabilityFlag::*;
    let all = [
        AlternatePanCoordinator,
        DeviceType,
        PowerSource,
        ReceiverOnWhenIdle,
        SecurityCapability,
        AllocateAddress,
    ];
    flags(all, |f| node_probe::mac_is_set(field, f))
}

fn mask_flags(field: u16) -> String {
    use ServerMaskFlag::*;
    let all = [
        PrimaryTrustCenter,
        BackupTrustCenter,
        PrimaryBindingTableCache,
        BackupBindingTableCache,
        PrimaryDiscoveryCache,
        BackupDiscoveryCache,
        NetworkManager,
    ];
    flags(all, |f| node_probe::mask_is_set(field, f))
}

fn capability_flags(field: u8) -> String {
    use DescriptorCapabilityFlag::*;
    let all = [
        ExtendedActiveEndpontListAvailable,
        ExtendedSimpleDescriptorListAvailable,
    ];
    flags(all, |f| node_probe::capability_is_set(field, f))
}

/// A flag for each of these, without spaces.
fn flags<F, const N: usize>(all: [F; N], is_set: impl Fn(F) -> bool) -> String {
    all.into_iter()
        .map(|flag| show_flag(is_set(flag)))
        .collect()
}

// ---- power

fn power_answer(name: &str, words: &[&str]) -> Option<String> {
    match (name, words) {
        ("PowerDescriptorConfig::write", [power, sources, buffer]) => {
            let sources = sources_of(sources)?;
            let power = power_of(power, &sources)?;
            Some(wrote(bytes(buffer)?, |out| probe::write_power(&power, out)))
        }
        ("NodePowerDescriptor::try_read", [from]) => {
            Some(match NodePowerDescriptor::try_read(&bytes(from)?, LE) {
                Ok((_, taken)) => taken.to_string(),
                Err(_) => refused(),
            })
        }
        ("NodePowerDescriptor::accessors", [from]) => {
            let from = bytes(from).filter(|b| b.len() >= 2)?;
            Some(show_power(&power_probe::over(&from)))
        }
        ("NodePowerDescriptor::supports", [from, source]) => {
            let from = bytes(from).filter(|b| b.len() >= 2)?;
            let source = source_of(source)?;
            Some(show_flag(power_probe::over(&from).supports(source)).to_string())
        }
        _ => None,
    }
}

fn bits_answer(name: &str, words: &[&str]) -> Option<String> {
    let [word] = words else { return None };
    let bits = match name {
        "CurrentPowerMode::bits" => mode_of(word)?.bits(),
        "PowerSource::bits" => source_of(word)?.bits(),
        "CurrentPowerSourceLevel::bits" => level_of(word)?.bits(),
        "PowerSource::bitmap" => PowerSource::bitmap(&sources_of(word)?),
        _ => return None,
    };
    Some(format!("{bits:02X}"))
}

pub fn power_of<'a>(word: &str, sources: &'a [PowerSource]) -> Option<PowerDescriptorConfig<'a>> {
    let pieces = pieces(word, 4)?;
    let [mode, source, level] = pieces[..] else {
        return None;
    };
    Some(PowerDescriptorConfig {
        current_power_mode: mode_of(mode)?,
        available_power_sources: sources,
        current_power_source: source_of(source)?,
        current_power_source_level: level_of(level)?,
    })
}

pub fn sources_of(word: &str) -> Option<Vec<PowerSource>> {
    pieces(word, 4)?.into_iter().map(source_of).collect()
}

fn show_power(power: &NodePowerDescriptor<'_>) -> String {
    let mode = match power_probe::mode(power) {
        CurrentPowerMode::Reserved(n) => show_named(true, n),
        mode => show_named(false, mode.bits()),
    };
    let source = match power_probe::source(power) {
        PowerSource::Reserved(n) => show_named(true, n),
        source => show_named(false, source.bits()),
    };
    let level = match power_probe::level(power) {
        CurrentPowerSourceLevel::Reserved(n) => show_named(true, n),
        level => show_named(false, level.bits()),
    };
    mode + &source + &level
}

fn mode_of(word: &str) -> Option<CurrentPowerMode> {
    match named(word)? {
        (false, 0b0000) => Some(CurrentPowerMode::Synchronized),
        (false, 0b0001) => Some(CurrentPowerMode::Periodically),
        (false, 0b0010) => Some(CurrentPowerMode::Stimulated),
        (false, _) => None,
        (true, n) => Some(CurrentPowerMode::Reserved(n)),
    }
}

fn source_of(word: &str) -> Option<PowerSource> {
    match named(word)? {
        (false, 0b0001) => Some(PowerSource::ConstantMainPower),
        (false, 0b0010) => Some(PowerSource::RechargeableBattery),
        (false, 0b0100) => Some(PowerSource::DisposableBattery),
        (false, _) => None,
        (true, n) => Some(PowerSource::Reserved(n)),
    }
}

fn level_of(word: &str) -> Option<CurrentPowerSourceLevel> {
    match named(word)? {
        (false, 0b0000) => Some(CurrentPowerSourceLevel::Critical),
        (false, 0b0100) => Some(CurrentPowerSourceLevel::OneThird),
        (false, 0b1000) => Some(CurrentPowerSourceLevel::TwoThirds),
        (false, 0b1100) => Some(CurrentPowerSourceLevel::Full),
        (false, _) => None,
        (true, n) => Some(CurrentPowerSourceLevel::Reserved(n)),
    }
}

// ---- simple

fn simple_answer(name: &str, words: &[&str]) -> Option<String> {
    match (name, words) {
        ("EndpointDescriptor::write", [endpoint, inputs, outputs, buffer]) => {
            let (inputs, outputs) = (clusters(inputs)?, clusters(outputs)?);
            let endpoint = endpoint_of(endpoint, &inputs, &outputs)?;
            Some(wrote(bytes(buffer)?, |out| {
                probe::write_endpoint(&endpoint, out)
            }))
        }
        ("SimpleDescriptor::try_read", [from]) => {
            Some(match SimpleDescriptor::try_read(&bytes(from)?, LE) {
                Ok((simple, taken)) => format!("{taken} {}", show_simple(&simple)),
                Err(_) => refused(),
            })
        }
        _ => None,
    }
}

/// An endpoint of twelve digits, with its lists.
pub fn endpoint_of<'a>(
    word: &str,
    input_clusters: &'a [u16],
    output_clusters: &'a [u16],
) -> Option<EndpointDescriptor<'a>> {
    if word.len() != 12 {
        return None;
    }
    Some(EndpointDescriptor {
        endpoint: u8_of(word.get(0..2)?)?,
        profile_id: u16_of(word.get(2..6)?)?,
        device_id: u16_of(word.get(6..10)?)?,
        device_version: u8_of(word.get(10..12)?)?,
        input_clusters,
        output_clusters,
    })
}

fn show_simple(simple: &SimpleDescriptor<'_>) -> String {
    let (endpoint, profile, device, version) = simple_probe::head(simple);
    let [inputs, outputs] = simple_probe::lists(simple).map(show_bytes);
    format!("{endpoint:02X}{profile:04X}{device:04X}{version:02X} {inputs} {outputs}")
}
