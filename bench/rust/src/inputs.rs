//! What makes the inputs, before anything is measured.

use crate::Device;
use std::slice;
use zigbee_core::apl::descriptors::node_descriptor::LogicalType;
use zigbee_core::apl::descriptors::node_power_descriptor::{
    CurrentPowerMode, CurrentPowerSourceLevel, PowerSource,
};
use zigbee_core::zdo::descriptor::{
    DeviceDescriptorConfig, EndpointDescriptor, NodeDescriptorConfig, PowerDescriptorConfig,
};

/// An endpoint record as the driver has it, a start and a count in each pool.
#[repr(C)]
#[derive(Clone, Copy)]
pub struct Record {
    endpoint: u8,
    device_version: u8,
    profile_id: u16,
    device_id: u16,
    input_start: u16,
    input_count: u16,
    output_start: u16,
    output_count: u16,
}

/// Where a device and its records are kept.
pub struct Kept {
    device: Device,
    endpoints: [EndpointDescriptor<'static>; 32],
}

static SOURCES: [PowerSource; 1] = [PowerSource::DisposableBattery];

/// Document 01's device, but for its records.
const NODE: NodeDescriptorConfig = NodeDescriptorConfig {
    logical_type: LogicalType::EndDevice,
    complex_descriptor_available: false,
    user_descriptor_available: false,
    frequency_band: 8,
    mac_capability_flags: 0x80,
    manufacturer_code: 0xabcd,
    maximum_buffer_size: 0x52,
    maximum_incoming_transfer_size: 0x0080,
    server_mask: 0x2c00,
    maximum_outgoing_transfer_size: 0x0080,
    descriptor_capability_field: 0,
};

const POWER: PowerDescriptorConfig<'static> = PowerDescriptorConfig {
    current_power_mode: CurrentPowerMode::Stimulated,
    available_power_sources: &SOURCES,
    current_power_source: PowerSource::DisposableBattery,
    current_power_source_level: CurrentPowerSourceLevel::TwoThirds,
};

fn part(pool: *const u16, start: u16, count: u16) -> &'static [u16] {
    // SAFETY: the driver's pools stay, and its records lie within them.
    unsafe { slice::from_raw_parts(pool.add(start.into()), count.into()) }
}

/// The device that has these records, kept in `kept`.
#[unsafe(no_mangle)]
pub unsafe extern "C" fn rust_device(
    kept: &'static mut Kept,
    records: &[Record; 32],
    count: usize,
    inputs: *const u16,
    outputs: *const u16,
) -> *const Device {
    kept.endpoints = records.map(|r| EndpointDescriptor {
        endpoint: r.endpoint,
        profile_id: r.profile_id,
        device_id: r.device_id,
        device_version: r.device_version,
        input_clusters: part(inputs, r.input_start, r.input_count),
        output_clusters: part(outputs, r.output_start, r.output_count),
    });
    kept.device = DeviceDescriptorConfig {
        node: NODE,
        power: POWER,
        endpoints: &kept.endpoints[..count],
    };
    &kept.device
}

/// How many bytes the driver keeps for a device.
#[unsafe(no_mangle)]
pub extern "C" fn rust_device_size() -> usize {
    size_of::<Kept>()
}
