/// Makes private items callable.
pub mod probe {
    use super::*;

    pub fn write_node(node: &NodeDescriptorConfig, out: &mut [u8]) -> Result<usize, byte::Error> {
        node.write(out)
    }

    pub fn write_power(
        power: &PowerDescriptorConfig<'_>,
        out: &mut [u8],
    ) -> Result<usize, byte::Error> {
        power.write(out)
    }

    pub fn write_endpoint(
        endpoint: &EndpointDescriptor<'_>,
        out: &mut [u8],
    ) -> Result<usize, byte::Error> {
        endpoint.write(out)
    }

    pub fn endpoint<'a>(
        device: &'a DeviceDescriptorConfig<'_>,
        endpoint: u8,
    ) -> Option<&'a EndpointDescriptor<'a>> {
        device.endpoint(endpoint)
    }

    pub fn bind_code(status: BindStatus) -> u8 {
        status.code()
    }

    pub fn discovery_code(error: DiscoveryError) -> u8 {
        error.code()
    }

    /// The bytes of the two lists.
    pub fn lists<'a>(request: &MatchDescReq<'a>) -> [&'a [u8]; 2] {
        [request.input_clusters, request.output_clusters]
    }
}
