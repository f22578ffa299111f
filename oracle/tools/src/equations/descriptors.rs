//! Node, power and simple descriptor.

use super::terms::{self, Digits, LEVEL, MODE, Names, SOURCE, TYPE, Words};
use super::{Claim, Part, part, refused, wrote};
use crate::words;

pub fn claim(name: &str) -> Option<Claim> {
    Some(match name {
        "NodeDescriptorConfig::default" => default_node,
        "NodeDescriptorConfig::write" => write_node,
        "NodeDescriptor::try_read" => try_read_node,
        "NodeDescriptor::logical_type" => logical_type,
        "NodeDescriptor::accessors" => node_accessors,
        "FrequencyBands::is_set" => |q, a| flags(2, "frequency_band_flag_of", &BANDS, q, a),
        "MacCapabilities::is_set" => |q, a| flags(2, "mac_capability_flag_of", &MAC, q, a),
        "ServerMask::is_set" => |q, a| flags(4, "server_mask_flag_of", &SERVER, q, a),
        "DescriptorCapabilities::is_set" => {
            |q, a| flags(2, "descriptor_capability_flag_of", &CAPABILITIES, q, a)
        }
        "ServerMask::get_stack_compliance_revision" => stack_compliance_revision,
        "CurrentPowerMode::bits" => |q, a| bits("mode_bits", &MODE, q, a),
        "PowerSource::bits" => |q, a| bits("source_bits", &SOURCE, q, a),
        "CurrentPowerSourceLevel::bits" => |q, a| bits("level_bits", &LEVEL, q, a),
        "PowerSource::bitmap" => bitmap,
        "PowerDescriptorConfig::write" => write_power,
        "NodePowerDescriptor::try_read" => try_read_power,
        "NodePowerDescriptor::accessors" => power_accessors,
        "NodePowerDescriptor::supports" => supports,
        "EndpointDescriptor::write" => write_simple,
        _ => return None,
    })
}

const BANDS: [&str; 4] = ["band.Low", "band.Mid", "band.High", "band.EuropeanFSK"];

const MAC: [&str; 6] = [
    "mac.AlternatePanCoordinator",
    "mac.DeviceType",
    "mac.PowerSource",
    "mac.ReceiverOnWhenIdle",
    "mac.SecurityCapability",
    "mac.AllocateAddress",
];

const SERVER: [&str; 7] = [
    "server.PrimaryTrustCenter",
    "server.BackupTrustCenter",
    "server.PrimaryBindingTableCache",
    "server.BackupBindingTableCache",
    "server.PrimaryDiscoveryCache",
    "server.BackupDiscoveryCache",
    "server.NetworkManager",
];

const CAPABILITIES: [&str; 2] = [
    "capability.ExtendedActiveEndpontListAvailable",
    "capability.ExtendedSimpleDescriptorListAvailable",
];

/// The ten fields of a node behind its type: the name of each, and how many digits it has. The first two are flags.
const NODE_FIELDS: [(&str, usize); 10] = [
    ("complex_descriptor_available", 2),
    ("user_descriptor_available", 2),
    ("frequency_band", 2),
    ("mac_capability_flags", 2),
    ("manufacturer_code", 4),
    ("maximum_buffer_size", 2),
    ("maximum_incoming_transfer_size", 4),
    ("server_mask", 4),
    ("maximum_outgoing_transfer_size", 4),
    ("descriptor_capability_field", 2),
];

/// A flag that is written as a byte.
fn byte_flag(word: &str) -> Option<String> {
    terms::flag(word.strip_prefix('0')?).map(str::to_string)
}

/// The values of these ten fields.
fn node_values(digits: &mut Digits) -> Option<Vec<String>> {
    let value = |(i, (_, width)): (usize, &(&str, usize))| {
        let word = digits.take(*width)?;
        if i < 2 {
            byte_flag(word)
        } else {
            terms::number(word, *width)
        }
    };
    NODE_FIELDS.iter().enumerate().map(value).collect()
}

/// A node.
pub fn node(word: &str) -> Option<String> {
    let mut digits = Digits::of(word)?;
    let kind = TYPE.named(digits.take(4)?)?;
    let values = node_values(&mut digits)?;
    digits.end()?;
    Some(format!("(node {kind} {})", values.join(" ")))
}

/// A power with the list of its available sources.
pub fn power(word: &str, sources: &str) -> Option<String> {
    let mut digits = Digits::of(word)?;
    let mode = MODE.named(digits.take(4)?)?;
    let source = SOURCE.named(digits.take(4)?)?;
    let level = LEVEL.named(digits.take(4)?)?;
    digits.end()?;
    let sources = SOURCE.nameds(sources)?;
    Some(format!(
        "(power {mode} {source} {level} (source_bitmap (map source_bits {sources})))"
    ))
}

/// An endpoint with its two lists of clusters.
pub fn endpoint(word: &str, inputs: &str, outputs: &str) -> Option<String> {
    let mut digits = Digits::of(word)?;
    let number = digits.number(2)?;
    let profile = digits.number(4)?;
    let device = digits.number(4)?;
    let version = digits.number(2)?;
    digits.end()?;
    let inputs = terms::clusters(inputs)?;
    let outputs = terms::clusters(outputs)?;
    Some(format!(
        "(endpoint {number} {profile} {device} {version} {inputs} {outputs})"
    ))
}

fn default_node(question: Words, answer: &str) -> Option<Vec<Part>> {
    question.end()?;
    Some(vec![part("default_node", node(answer)?)])
}

fn write_node(mut question: Words, answer: &str) -> Option<Vec<Part>> {
    let node = node(question.word()?)?;
    let buffer = question.word()?;
    question.end()?;
    wrote(
        &format!("answer (laid (node_descriptor_of {node}))"),
        buffer,
        answer,
        5,
    )
}

/// A reader that refuses bytes, or takes so many as its widths say.
fn try_read(reader: &str, widths: &str, bytes: &str, answer: &str) -> Option<Part> {
    if answer == "R" {
        return Some(refused(format!("{reader} {bytes}"), 3));
    }
    let took = terms::decimal(answer)?;
    Some(part(
        format!("mapped (λ d. size {widths}) ({reader} {bytes})"),
        format!("answer {took}"),
    ))
}

/// What it reads is told by the accessors.
fn try_read_node(mut question: Words, answer: &str) -> Option<Vec<Part>> {
    let bytes = question.bytes()?;
    question.end()?;
    let taken = try_read("node_descriptor_in", "node_widths", &bytes, answer)?;
    Some(vec![taken])
}

/// What it reads are the first two bytes.
fn try_read_power(mut question: Words, answer: &str) -> Option<Vec<Part>> {
    let word = question.word()?;
    let bytes = terms::bytes(word)?;
    question.end()?;
    let mut parts = vec![try_read(
        "power_descriptor_in",
        "power_widths",
        &bytes,
        answer,
    )?];
    if answer != "R" {
        parts.push(part(
            format!("power_descriptor_in {bytes}"),
            format!("answer {}", power_bytes(word)?),
        ));
    }
    Some(parts)
}

/// One field of a node descriptor that is read from bytes.
fn node_field(bytes: &str, field: &str, value: &str) -> Part {
    part(
        format!("mapped (λ d. (node_fields d).{field}) (node_descriptor_in {bytes})"),
        format!("answer {value}"),
    )
}

fn logical_type(mut question: Words, answer: &str) -> Option<Vec<Part>> {
    let bytes = question.bytes()?;
    question.end()?;
    Some(vec![node_field(
        &bytes,
        "logical_type",
        &TYPE.named(answer)?,
    )])
}

fn node_accessors(mut question: Words, answer: &str) -> Option<Vec<Part>> {
    let bytes = question.bytes()?;
    question.end()?;
    let mut digits = Digits::of(answer)?;
    let values = node_values(&mut digits)?;
    digits.end()?;
    Some(
        NODE_FIELDS
            .iter()
            .zip(values)
            .map(|((field, _), value)| node_field(&bytes, field, &value))
            .collect(),
    )
}

/// Each flag of a field of so many digits.
fn flags(
    digits: usize,
    number: &str,
    names: &[&str],
    mut question: Words,
    answer: &str,
) -> Option<Vec<Part>> {
    let field = question.number(digits)?;
    question.end()?;
    let set = words::pieces(answer, 1)?;
    if set.len() != names.len() {
        return None;
    }
    let flag = |(name, set): (&&str, &str)| {
        Some(part(
            format!("bit_at ({number} {name}) {field}"),
            terms::flag(set)?,
        ))
    };
    names.iter().zip(set).map(flag).collect()
}

fn stack_compliance_revision(mut question: Words, answer: &str) -> Option<Vec<Part>> {
    let mask = question.number(4)?;
    question.end()?;
    Some(vec![part(
        format!("stack_revision {mask}"),
        terms::number(answer, 2)?,
    )])
}

fn bits(definition: &str, names: &Names, mut question: Words, answer: &str) -> Option<Vec<Part>> {
    let value = names.named(question.word()?)?;
    question.end()?;
    Some(vec![part(
        format!("{definition} {value}"),
        terms::number(answer, 2)?,
    )])
}

/// Of the sources, and of the numbers that they hold.
fn bitmap(mut question: Words, answer: &str) -> Option<Vec<Part>> {
    let word = question.word()?;
    question.end()?;
    let sources = SOURCE.nameds(word)?;
    let held = words::pieces(word, 4)?
        .into_iter()
        .map(|s| terms::number(&s[2..], 2))
        .collect::<Option<_>>()?;
    let bits = terms::number(answer, 2)?;
    Some(vec![
        part(
            format!("source_bitmap (map source_bits {sources})"),
            bits.clone(),
        ),
        part(format!("source_bitmap {}", terms::list(held)), bits),
    ])
}

fn write_power(mut question: Words, answer: &str) -> Option<Vec<Part>> {
    let power = power(question.word()?, question.word()?)?;
    let buffer = question.word()?;
    question.end()?;
    wrote(
        &format!("answer (laid (power_descriptor_of {power}))"),
        buffer,
        answer,
        5,
    )
}

/// The descriptor of the first two bytes.
fn power_bytes(word: &str) -> Option<String> {
    let mut digits = Digits::of(word)?;
    Some(format!(
        "(power_bytes {} {})",
        digits.number(2)?,
        digits.number(2)?
    ))
}

fn power_accessors(mut question: Words, answer: &str) -> Option<Vec<Part>> {
    let bytes = power_bytes(question.word()?)?;
    question.end()?;
    let mut digits = Digits::of(answer)?;
    let field = |field: &str, value: String| part(format!("(power_fields {bytes}).{field}"), value);
    let parts = vec![
        field("current_power_mode", MODE.named(digits.take(4)?)?),
        field("current_power_source", SOURCE.named(digits.take(4)?)?),
        field("current_power_source_level", LEVEL.named(digits.take(4)?)?),
    ];
    digits.end()?;
    Some(parts)
}

fn supports(mut question: Words, answer: &str) -> Option<Vec<Part>> {
    let bytes = power_bytes(question.word()?)?;
    let source = SOURCE.named(question.word()?)?;
    question.end()?;
    Some(vec![part(
        format!("supports {bytes} {source}"),
        terms::flag(answer)?,
    )])
}

fn write_simple(mut question: Words, answer: &str) -> Option<Vec<Part>> {
    let (fields, inputs, outputs) = (question.word()?, question.word()?, question.word()?);
    let buffer = question.word()?;
    question.end()?;
    let endpoint = endpoint(fields, inputs, outputs)?;
    wrote(&format!("simple_written {endpoint}"), buffer, answer, 5)
}

/// Has an endpoint more than 28 clusters? Document 01 writes none of these, and the Rust's inner writer does, which is listed.
pub fn crowded(inputs: &str, outputs: &str) -> bool {
    let count = |list| words::clusters(list).map_or(0, |clusters| clusters.len());
    count(inputs) + count(outputs) > 28
}
