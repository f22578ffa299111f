/// Makes private items callable.
pub mod probe {
    use super::*;

    /// Endpoint, profile, device and version.
    pub fn head(simple: &SimpleDescriptor<'_>) -> (u8, u16, u16, u8) {
        (
            simple.endpoint,
            simple.application_profile_identifier,
            simple.application_device_identifier,
            simple.application_device_version,
        )
    }

    /// The bytes of the two lists.
    pub fn lists<'a>(simple: &SimpleDescriptor<'a>) -> [&'a [u8]; 2] {
        [
            simple.application_input_cluster_list,
            simple.application_output_cluster_list,
        ]
    }
}
