/// Makes private items callable.
pub mod probe {
    use super::*;

    /// A descriptor over these bytes, made without reading.
    pub fn over(bytes: &[u8]) -> NodeDescriptor<'_> {
        NodeDescriptor { bytes }
    }

    pub fn band(field: &FrequencyBands) -> u8 {
        field.0
    }

    pub fn mac(field: &MacCapabilities) -> u8 {
        field.0
    }

    pub fn mask(field: &ServerMask) -> u16 {
        field.0
    }

    pub fn capabilities(field: &DescriptorCapabilities) -> u8 {
        field.0
    }

    pub fn band_is_set(field: u8, flag: FrequencyBandFlag) -> bool {
        FrequencyBands(field).is_set(flag)
    }

    pub fn mac_is_set(field: u8, flag: MacCapabilityFlag) -> bool {
        MacCapabilities(field).is_set(flag)
    }

    pub fn mask_is_set(field: u16, flag: ServerMaskFlag) -> bool {
        ServerMask(field).is_set(flag)
    }

    pub fn capability_is_set(field: u8, flag: DescriptorCapabilityFlag) -> bool {
        DescriptorCapabilities(field).is_set(flag)
    }

    pub fn revision(field: u16) -> u8 {
        ServerMask(field).get_stack_compliance_revision()
    }
}
