//! Binding entries in the payloads of a session.

use super::device::IEEE;
use crate::questions::bindings::{Entry, To};
use crate::questions::dice::Dice;

/// An entry that this device can hold: one of its two endpoints, and any cluster and destination.
pub fn fresh(dice: &mut Dice) -> Entry {
    owned(dice, Entry::any)
}

/// One that differs in one field from another, which this device can hold too.
pub fn near(dice: &mut Dice, entry: Entry) -> Entry {
    owned(dice, |dice| entry.near(dice))
}

/// An entry with one of our endpoints for another.
fn owned(dice: &mut Dice, entry: impl FnOnce(&mut Dice) -> Entry) -> Entry {
    let mut entry = entry(dice);
    if ![1, 2].contains(&entry.source) {
        entry.source = dice.pick(&[1, 2]);
    }
    entry
}

/// The payload of a bind or unbind request from us: "seq, source IEEE (8), endpoint, cluster (2), mode; mode 1: group (2), 15 bytes;
/// mode 3: IEEE (8) and endpoint, 22 bytes".
pub fn payload(seq: u8, entry: &Entry) -> Vec<u8> {
    let mut payload = vec![seq];
    payload.extend(IEEE.0.to_le_bytes());
    payload.push(entry.source);
    payload.extend(entry.cluster.to_le_bytes());
    match entry.to {
        To::Group(group) => {
            payload.push(1);
            payload.extend(group.to_le_bytes());
        }
        To::Device(ieee, endpoint) => {
            payload.push(3);
            payload.extend(ieee.to_le_bytes());
            payload.push(endpoint);
        }
    }
    payload
}

/// The entry that a payload binds or unbinds; none where it gets a refusal or a status before the table is looked at.
pub fn entry(payload: &[u8]) -> Option<Entry> {
    let ours = payload.get(1..9)? == IEEE.0.to_le_bytes();
    let [source, cluster, above, mode] = *payload.get(9..13)?.first_chunk()?;
    let to = match mode {
        1 => To::Group(u16::from_le_bytes(*payload[13..].first_chunk()?)),
        3 => To::Device(
            u64::from_le_bytes(*payload[13..].first_chunk()?),
            *payload.get(21)?,
        ),
        _ => return None,
    };
    let cluster = u16::from_le_bytes([cluster, above]);
    let entry = Entry {
        source,
        cluster,
        to,
    };
    Some(entry).filter(|_| ours && [1, 2].contains(&source))
}
