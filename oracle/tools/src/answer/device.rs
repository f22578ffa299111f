//! Document 01's device ("Counter-cases", "Our device"), in the Rust's types, and the two sizes of the program `answer`.

use zigbee_core::apl::descriptors::node_descriptor::LogicalType;
use zigbee_core::apl::descriptors::node_power_descriptor::{
    CurrentPowerMode, CurrentPowerSourceLevel, PowerSource,
};
use zigbee_core::zdo::descriptor::{
    DeviceDescriptorConfig, EndpointDescriptor, NodeDescriptorConfig, PowerDescriptorConfig,
};
use zigbee_types::IeeeAddress;

/// "Short 0x1234".
pub const SHORT: u16 = 0x1234;

/// "IEEE 0x0102030405060708".
pub const IEEE: IeeeAddress = IeeeAddress(0x0102_0304_0506_0708);

/// "Program `answer`, this device, limit 32".
pub const LIMIT: usize = 32;

/// "A 128-byte reply buffer".
pub const ROOM: usize = 128;

/// "End device, band 8, MAC 0x80, maker 0xABCD, buffer 0x52, sizes 0x0080, server mask 0x2C00, capabilities 0". By K1 it has
/// neither a complex nor a user descriptor.
const NODE: NodeDescriptorConfig = NodeDescriptorConfig {
    logical_type: LogicalType::EndDevice,
    complex_descriptor_available: false,
    user_descriptor_available: false,
    frequency_band: 8,
    mac_capability_flags: 0x80,
    manufacturer_code: 0xABCD,
    maximum_buffer_size: 0x52,
    maximum_incoming_transfer_size: 0x0080,
    server_mask: 0x2C00,
    maximum_outgoing_transfer_size: 0x0080,
    descriptor_capability_field: 0,
};

/// "Power bytes `42 84`": mode 2, sources 4; source 4, level 8 (module 3).
const POWER: PowerDescriptorConfig<'static> = PowerDescriptorConfig {
    current_power_mode: CurrentPowerMode::Stimulated,
    available_power_sources: &[PowerSource::DisposableBattery],
    current_power_source: PowerSource::DisposableBattery,
    current_power_source_level: CurrentPowerSourceLevel::TwoThirds,
};

/// "Endpoint 1: profile 0x0104, device 0x0302, version 0x11, inputs 0x0000 and 0x0402, output 0x0019. Endpoint 2: the same
/// profile, device 0x0402, version 0, inputs 0x0000 and 0x0500, no outputs."
const ENDPOINTS: [EndpointDescriptor<'static>; 2] = [
    EndpointDescriptor {
        endpoint: 1,
        profile_id: 0x0104,
        device_id: 0x0302,
        device_version: 0x11,
        input_clusters: &[0x0000, 0x0402],
        output_clusters: &[0x0019],
    },
    EndpointDescriptor {
        endpoint: 2,
        profile_id: 0x0104,
        device_id: 0x0402,
        device_version: 0,
        input_clusters: &[0x0000, 0x0500],
        output_clusters: &[],
    },
];

pub const DEVICE: DeviceDescriptorConfig<'static> = DeviceDescriptorConfig {
    node: NODE,
    power: POWER,
    endpoints: &ENDPOINTS,
};
