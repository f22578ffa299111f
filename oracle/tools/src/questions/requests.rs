//! Questions about what is read from bytes: requests, replies and descriptors.

use super::dice::Dice;
use super::words::{SOURCES, buffer, numbers};
use super::{Arguments, Questions};
use crate::words::show_bytes;

/// What makes the arguments for the function of this name, if it is one of these.
pub fn arguments(name: &str) -> Option<Arguments> {
    Some(match name {
        "NodeDescriptor::try_read" => |ask| payload(ask, &NODE),
        "NodePowerDescriptor::try_read" => |ask| match ask.walked_at(1, 65_536) {
            Some(n) => show_bytes(&(n as u16).to_le_bytes()),
            None => payload(ask, &POWER),
        },
        "SimpleDescriptor::try_read" => |ask| payload(ask, &SIMPLE),
        "parse_nwk_addr_req" => |ask| payload(ask, &NWK_ADDR_REQ),
        "parse_ieee_addr_req" => |ask| payload(ask, &IEEE_ADDR_REQ),
        "parse_addr_of_interest" => |ask| payload(ask, &ADDR_OF_INTEREST),
        "parse_bind_req" => |ask| payload(ask, &BIND_REQ),
        "parse_match_desc_req" => |ask| payload(ask, &MATCH_DESC_REQ),
        "parse_mgmt_leave_req" => |ask| payload(ask, &MGMT_LEAVE_REQ),
        "parse_node_desc_rsp" => |ask| payload(ask, &NODE_DESC_RSP),
        "node_desc_req" => |ask| {
            let dice = &mut ask.dice;
            [numbers(dice, &[1, 2]), buffer(dice, 3)].join(" ")
        },
        "constants" => |_| String::new(),
        _ => return None,
    })
}

/// How the payloads for one function are made.
struct Payload {
    /// What makes one that is well formed, or nearly.
    good: fn(&mut Dice) -> Vec<u8>,
    /// The lengths where the answer may change.
    lengths: &'static [usize],
    /// The place of a byte that goes through all its values.
    telling: usize,
}

const NODE: Payload = Payload {
    good: |dice| dice.bytes(13),
    lengths: &[13],
    telling: 0,
};
const POWER: Payload = Payload {
    good: power,
    lengths: &[2],
    telling: 1,
};
const SIMPLE: Payload = Payload {
    good: simple,
    lengths: &[7, 8],
    telling: 6,
};
const NWK_ADDR_REQ: Payload = Payload {
    good: |dice| fields(dice, &[1, 8, 1]),
    lengths: &[1, 9, 10],
    telling: 9,
};
const IEEE_ADDR_REQ: Payload = Payload {
    good: |dice| fields(dice, &[1, 2, 1]),
    lengths: &[1, 3, 4],
    telling: 3,
};
const ADDR_OF_INTEREST: Payload = Payload {
    good: |dice| fields(dice, &[1, 2]),
    lengths: &[3],
    telling: 0,
};
const BIND_REQ: Payload = Payload {
    good: bind,
    lengths: &[13, 15, 22],
    telling: 12,
};
const MATCH_DESC_REQ: Payload = Payload {
    good: match_desc,
    lengths: &[5, 6, 7],
    telling: 5,
};
const MGMT_LEAVE_REQ: Payload = Payload {
    good: leave,
    lengths: &[1, 9, 10],
    telling: 9,
};
const NODE_DESC_RSP: Payload = Payload {
    good: node_rsp,
    lengths: &[4, 14, 17],
    telling: 1,
};

/// A payload as it is written. Early ones go through that of no bytes, all of one byte, and all
/// values of the telling byte.
fn payload(ask: &mut Questions, of: &Payload) -> String {
    let early = ask.early(256 + 1 + 256);
    let dice = &mut ask.dice;
    let bytes = match early {
        Some(n @ 0..256) => vec![n as u8],
        Some(256) => Vec::new(),
        Some(n) => {
            let mut bytes = (of.good)(dice);
            bytes.extend(dice.bytes(10));
            bytes[of.telling] = (n - 257) as u8;
            bytes
        }
        None => any(dice, of),
    };
    show_bytes(&bytes)
}

/// Any payload: good, with bytes behind it, damaged, cut or drawn out to about one of the lengths,
/// or any bytes.
fn any(dice: &mut Dice, of: &Payload) -> Vec<u8> {
    let mut bytes = (of.good)(dice);
    let length = match dice.below(8) {
        0..3 => bytes.len(),
        3 => bytes.len() + 1 + dice.below(4),
        4 => (dice.pick(of.lengths) + dice.below(6)).saturating_sub(2),
        5 => {
            bytes.clear();
            dice.below(41)
        }
        _ => {
            damage(dice, &mut bytes);
            bytes.len()
        }
    };
    bytes.truncate(length);
    bytes.extend(dice.bytes(length - bytes.len()));
    bytes
}

/// Changes, drops or adds a byte, cuts the end off, or exchanges two bytes.
pub fn damage(dice: &mut Dice, bytes: &mut Vec<u8>) {
    let [place, other] = [(); 2].map(|()| dice.below(bytes.len()));
    match dice.below(5) {
        0 => bytes[place] ^= 1 + dice.below(255) as u8,
        1 => drop(bytes.remove(place)),
        2 => bytes.insert(place, dice.byte()),
        3 => bytes.truncate(place),
        _ => bytes.swap(place, other),
    }
}

/// The bytes of numbers of these sizes, one after the other.
fn fields(dice: &mut Dice, sizes: &[usize]) -> Vec<u8> {
    let field = |&size: &usize| dice.number(size).to_le_bytes()[..size].to_vec();
    sizes.iter().flat_map(field).collect()
}

/// Fields of these sizes, and two lists, each behind the count of its pieces of so many bytes. Of
/// twelve, one has a count that is one too high, and one a count that is one too low.
pub fn with_lists(dice: &mut Dice, sizes: &[usize], lists: [Vec<u8>; 2], piece: usize) -> Vec<u8> {
    let mut bytes = fields(dice, sizes);
    let (wrong, by) = (dice.below(2), dice.below(12));
    for (place, list) in lists.iter().enumerate() {
        let count = (list.len() / piece) as u8;
        bytes.push(match by {
            0 if place == wrong => count.wrapping_add(1),
            1 if place == wrong => count.wrapping_sub(1),
            _ => count,
        });
        bytes.extend(list);
    }
    bytes
}

/// A list of pieces of so many bytes, mostly short.
fn list(dice: &mut Dice, piece: usize) -> Vec<u8> {
    let length = dice.length(6, 255);
    fields(dice, &vec![piece; length])
}

/// A power descriptor. Mostly its source has a name, and is among the available.
fn power(dice: &mut Dice) -> Vec<u8> {
    let source = match dice.below(4) {
        0 => dice.below(16) as u8,
        _ => dice.pick(SOURCES),
    };
    let available = if dice.one_in(4) { 0 } else { source };
    let [low, high] = [(); 2].map(|()| dice.any() as u8);
    vec![low | available << 4, high & 0xF0 | source]
}

/// A simple descriptor of 003, where a cluster is one byte.
fn simple(dice: &mut Dice) -> Vec<u8> {
    let lists = [(); 2].map(|()| list(dice, 1));
    with_lists(dice, &[1, 2, 2, 1], lists, 1)
}

/// A bind request, sometimes of another mode than the two.
fn bind(dice: &mut Dice) -> Vec<u8> {
    let mut bytes = fields(dice, &[1, 8, 1, 2]);
    let mode = match dice.below(8) {
        0 => dice.byte(),
        1..4 => dice.below(5) as u8,
        _ => dice.pick(&[1, 3]),
    };
    bytes.push(mode);
    bytes.extend(match mode {
        1 => fields(dice, &[2]),
        _ => fields(dice, &[8, 1]),
    });
    bytes
}

/// A match request.
fn match_desc(dice: &mut Dice) -> Vec<u8> {
    let lists = [(); 2].map(|()| list(dice, 2));
    with_lists(dice, &[1, 2, 2], lists, 2)
}

/// A leave request, often without an address.
fn leave(dice: &mut Dice) -> Vec<u8> {
    let mut bytes = fields(dice, &[1, 8, 1]);
    if dice.one_in(3) {
        bytes[1..9].fill(0);
    }
    bytes
}

/// A node reply, mostly of status 0, and often without a descriptor.
fn node_rsp(dice: &mut Dice) -> Vec<u8> {
    let mut bytes = fields(dice, &[1, 1, 2]);
    if !dice.one_in(3) {
        bytes[1] = 0;
    }
    if !dice.one_in(4) {
        bytes.extend(dice.bytes(13));
    }
    bytes
}
