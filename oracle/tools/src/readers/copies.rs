//! Copies of a reply, damaged or as it is.

use super::READERS;
use crate::questions::dice::Dice;

/// The kinds of copies.
pub const COPIES: [&str; 10] = [
    "as written",
    "bytes behind it",
    "cut by one byte",
    "cut elsewhere",
    "another status",
    "a count one more",
    "a count one less",
    "bits that are not read",
    "another byte",
    "to another reader",
];

/// A copy of a kind, and the reader that it is for. One that has no count to damage, or no bits that are not read, gets another
/// byte.
pub fn copy(
    kind: &str,
    reader: &'static str,
    reply: &[u8],
    dice: &mut Dice,
) -> (&'static str, Vec<u8>) {
    let mut copy = reply.to_vec();
    match kind {
        "as written" => {}
        "bytes behind it" => behind(dice, &mut copy),
        "cut by one byte" => copy.truncate(reply.len() - 1),
        "cut elsewhere" => copy.truncate(dice.below(reply.len())),
        "another status" => {
            copy[1] = match copy[1] {
                0 => dice.pick(&[0x01, 0x80, 0x81, 0x83, 0xFF]),
                _ => 0,
            };
            sometimes_behind(dice, &mut copy);
        }
        "a count one more" => counted(dice, reader, &mut copy, 1),
        "a count one less" => counted(dice, reader, &mut copy, u8::MAX),
        "bits that are not read" => unread(dice, reader, &mut copy),
        "another byte" => {
            another(dice, &mut copy);
            sometimes_behind(dice, &mut copy);
        }
        _ => {
            sometimes_behind(dice, &mut copy);
            return (dice.pick(&READERS), copy);
        }
    }
    (reader, copy)
}

/// Puts a few bytes behind a reply.
fn behind(dice: &mut Dice, reply: &mut Vec<u8>) {
    let count = 1 + dice.below(6);
    reply.extend(dice.bytes(count));
}

/// Puts up to 700 there: those behind an address reply can be more than 255 short addresses.
pub fn far_behind(dice: &mut Dice, reply: &mut Vec<u8>) {
    let count = dice.below(701);
    reply.extend(dice.bytes(count));
}

/// Puts some there half of the time.
fn sometimes_behind(dice: &mut Dice, reply: &mut Vec<u8>) {
    if dice.one_in(2) {
        behind(dice, reply);
    }
}

/// Puts another byte somewhere.
fn another(dice: &mut Dice, reply: &mut [u8]) {
    let place = dice.place(reply.len());
    reply[place] = reply[place].wrapping_add(1 + dice.below(255) as u8);
}

/// Adds a number to a count or a length, if the reply has one.
fn counted(dice: &mut Dice, reader: &str, reply: &mut Vec<u8>, by: u8) {
    let places = counts(reader, reply);
    match places[..] {
        [] => another(dice, reply),
        _ => {
            let place = dice.pick(&places);
            reply[place] = reply[place].wrapping_add(by);
        }
    }
    sometimes_behind(dice, reply);
}

/// Sets bits that the Rust's writer leaves at zero and the reader leaves out: those beside the type and the band of a node, the high
/// ones of a version, and the third byte of a match error.
fn unread(dice: &mut Dice, reader: &str, reply: &mut [u8]) {
    let bits = 1 + dice.below(255) as u8;
    match (reader, reply) {
        ("NodeReply::try_read", [_, 0, _, _, first, band, ..]) => {
            *first |= bits & 0xE0;
            *band |= bits & 0x07;
        }
        ("SimpleReply::try_read", [_, 0, _, _, _, _, _, _, _, _, version, ..]) => {
            *version |= (bits % 15 + 1) << 4;
        }
        ("MatchReply::try_read", [_, 1..=255, third]) => *third = bits,
        (_, reply) => another(dice, reply),
    }
}

/// Where a reply has a count or a length: of its list or descriptor, of the clusters in that, or of associated devices.
fn counts(reader: &str, reply: &[u8]) -> Vec<usize> {
    let mut places = match reader {
        "ListReply::try_read" => vec![4],
        "MatchReply::try_read" => vec![2, 4],
        "SimpleReply::try_read" => vec![4, 4, 11],
        "AddrReply::try_read" => vec![12],
        _ => vec![],
    };
    if let ("SimpleReply::try_read", Some(inputs)) = (reader, reply.get(11)) {
        places.push(12 + 2 * usize::from(*inputs));
    }
    places.retain(|place| *place < reply.len());
    if reader == "MatchReply::try_read" && places.len() > 1 {
        places.remove(0);
    }
    places
}
