//! Questions about descriptors, but those about reading them whole; and about enums and flags.

use super::dice::Dice;
use super::words::{
    LEVELS, MODES, SOURCES, buffer, clusters, hex, node, numbers, power, sources, value, values,
};
use super::{Arguments, Questions};
use crate::words::{show_bytes, show_clusters};

/// What makes the arguments for the function of this name, if it is one of these.
pub fn arguments(name: &str) -> Option<Arguments> {
    written(name)
        .or_else(|| looked_into(name))
        .or_else(|| converted(name))
}

/// Descriptors that are made or written.
fn written(name: &str) -> Option<Arguments> {
    Some(match name {
        "NodeDescriptorConfig::default" => |_| String::new(),
        "NodeDescriptorConfig::write" => |ask| [node(ask), buffer(&mut ask.dice, 13)].join(" "),
        "PowerDescriptorConfig::write" => |ask| {
            let power = power(ask);
            [power, sources(&mut ask.dice), buffer(&mut ask.dice, 2)].join(" ")
        },
        "EndpointDescriptor::write" => |ask| endpoint(&mut ask.dice),
        _ => return None,
    })
}

/// An endpoint, its two lists, which have at most 28 clusters together and often just that, and a
/// buffer.
fn endpoint(dice: &mut Dice) -> String {
    let endpoint = numbers(dice, &[1, 2, 2, 1]).replace(' ', "");
    let count = match dice.below(4) {
        0 => 27 + dice.below(2),
        _ => dice.length(6, 28),
    };
    let inputs = dice.below(count + 1);
    let lists = [inputs, count - inputs].map(|count| show_clusters(&clusters(dice, count)));
    [endpoint, lists.join(" "), buffer(dice, 8 + 2 * count)].join(" ")
}

/// Descriptors whose fields are asked for, given as bytes.
fn looked_into(name: &str) -> Option<Arguments> {
    Some(match name {
        "NodeDescriptor::logical_type" | "NodeDescriptor::accessors" => |ask| {
            let n = ask.walked(13 * 256);
            let mut bytes = ask.dice.bytes(13);
            bytes[n / 256] = n as u8;
            with_more(&mut ask.dice, bytes)
        },
        "NodePowerDescriptor::accessors" => |ask| {
            let bytes = two_bytes(ask);
            with_more(&mut ask.dice, bytes)
        },
        "NodePowerDescriptor::supports" => |ask| {
            let n = ask.walked(256 * values(SOURCES));
            let bytes = vec![n as u8, ask.dice.byte()];
            [with_more(&mut ask.dice, bytes), value(SOURCES, n / 256)].join(" ")
        },
        _ => return None,
    })
}

/// These bytes as they are written, sometimes with a few more.
fn with_more(dice: &mut Dice, mut bytes: Vec<u8>) -> String {
    if dice.one_in(4) {
        let more = 1 + dice.below(8);
        bytes.extend(dice.bytes(more));
    }
    show_bytes(&bytes)
}

/// The two bytes of a power descriptor: early ones go through all, and most of the others have
/// names for all their numbers.
fn two_bytes(ask: &mut Questions) -> Vec<u8> {
    if let Some(n) = ask.early(65_536) {
        return (n as u16).to_le_bytes().to_vec();
    }
    let mut bytes = ask.dice.bytes(2);
    if !ask.dice.one_in(4) {
        bytes[0] = bytes[0] & 0xF0 | ask.dice.pick(MODES);
        bytes[1] = ask.dice.pick(LEVELS) << 4 | ask.dice.pick(SOURCES);
    }
    bytes
}

/// Enums and flags, and the numbers they stand for.
fn converted(name: &str) -> Option<Arguments> {
    Some(match name {
        "FrequencyBands::is_set" | "MacCapabilities::is_set" | "DescriptorCapabilities::is_set" => {
            |ask| hex(ask.walked(256) as u64, 1)
        }
        "ServerMask::is_set" | "ServerMask::get_stack_compliance_revision" => mask,
        "stack_revision" => |ask| match ask.turn % 6 {
            0 => "-".to_string(),
            _ => mask(ask),
        },
        "CurrentPowerMode::bits" => |ask| value(MODES, ask.walked(values(MODES))),
        "PowerSource::bits" => |ask| value(SOURCES, ask.walked(values(SOURCES))),
        "CurrentPowerSourceLevel::bits" => |ask| value(LEVELS, ask.walked(values(LEVELS))),
        "PowerSource::bitmap" => |ask| match ask.early(values(SOURCES)) {
            Some(place) => value(SOURCES, place),
            None => sources(&mut ask.dice),
        },
        _ => return None,
    })
}

/// A server mask: any at the first question of every three, and at the others through all.
fn mask(ask: &mut Questions) -> String {
    match ask.turn % 3 {
        0 => numbers(&mut ask.dice, &[2]),
        _ => hex(ask.walked(65_536) as u64, 2),
    }
}
