/// Makes private items callable.
pub mod probe {
    use super::*;

    /// A descriptor over these bytes, made without reading.
    pub fn over(bytes: &[u8]) -> NodePowerDescriptor<'_> {
        NodePowerDescriptor { bytes }
    }

    pub fn mode(power: &NodePowerDescriptor<'_>) -> CurrentPowerMode {
        power.current_power_mode()
    }

    pub fn source(power: &NodePowerDescriptor<'_>) -> PowerSource {
        power.current_power_source()
    }

    pub fn level(power: &NodePowerDescriptor<'_>) -> CurrentPowerSourceLevel {
        power.current_power_source_level()
    }
}
