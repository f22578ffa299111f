//! Random requests of a session, and their lines.

use super::device::{IEEE, SHORT};
use super::model::LONGEST;
use crate::questions::dice::Dice;

/// The ten clusters but bind and unbind. Match, which has most to go wrong, is here three times.
pub const UNLINKED: [u16; 10] = [
    0x0000, 0x0001, 0x0002, 0x0003, 0x0004, 0x0005, 0x0006, 0x0006, 0x0006, 0x0034,
];

/// Clusters that are none of the ten: between and beside them, their replies', with the bytes changed about.
const UNKNOWN: [u16; 20] = [
    0x0007, 0x0008, 0x0010, 0x0020, 0x0023, 0x0024, 0x0033, 0x0035, 0x0100, 0x0121, 0x0500, 0x2100,
    0x2200, 0x3400, 0x7FFF, 0x8000, 0x8005, 0x8021, 0x8034, 0xFFFF,
];

/// The payload of a whole request to one of those.
pub fn payload(dice: &mut Dice, cluster: u16) -> Vec<u8> {
    let mut payload = vec![dice.byte()];
    match cluster {
        0x0000 => payload.extend(ieee(dice).to_le_bytes()),
        0x0006 => {
            payload.extend(matching(dice));
            return payload;
        }
        0x0034 => payload.extend(dice.pick(&[0, IEEE.0, u64::MAX, 1 << 40]).to_le_bytes()),
        _ => payload.extend(short(dice).to_le_bytes()),
    }
    match cluster {
        0x0000 | 0x0001 => payload.push(match dice.below(4) {
            0 => dice.pick(&[2, 3, 0x10, 0x80, 0x81, 0xFF]),
            _ => dice.pick(&[0, 1, 0, 1, 2]),
        }),
        0x0004 => payload.push(match dice.below(4) {
            0 => dice.pick(&[0, 3, 0x11, 0x12, 0x81, 0xF2, 0xFF]),
            _ => dice.pick(&[1, 2]),
        }),
        0x0034 => payload.push(dice.pick(&[0x00, 0x40, 0x80, 0xC0, 0x3F, 0xFF])),
        _ => {}
    }
    payload
}

/// A cluster that is none of the ten: any with another high byte, any behind them, or one of those.
pub fn unknown(dice: &mut Dice) -> u16 {
    let any = dice.any() as u16;
    match dice.below(4) {
        0 => any | 0x0100,
        1 => 0x0035 + any % (0x0100 - 0x0035),
        _ => dice.pick(&UNKNOWN),
    }
}

/// A short address: mostly ours.
fn short(dice: &mut Dice) -> u16 {
    match dice.below(12) {
        0 => SHORT ^ 1 << dice.below(16),
        1 => SHORT.swap_bytes(),
        2 => dice.pick(&[0x0000, 0xFFFB, 0xFFFC, 0xFFFD, 0xFFFE, 0xFFFF]),
        3 => dice.number(2) as u16,
        _ => SHORT,
    }
}

/// An IEEE address: mostly ours.
pub fn ieee(dice: &mut Dice) -> u64 {
    match dice.below(8) {
        0 => stranger(dice),
        1 => IEEE.0 ^ 1 << dice.below(64),
        _ => IEEE.0,
    }
}

/// An IEEE address that is hardly ours.
pub fn stranger(dice: &mut Dice) -> u64 {
    match dice.below(4) {
        0 => IEEE.0.swap_bytes(),
        1 => dice.pick(&[0, u64::MAX, IEEE.0 + 1, IEEE.0 >> 8]),
        2 => IEEE.0 ^ 1 << dice.below(64),
        _ => dice.any(),
    }
}

/// Our inputs and outputs, and clusters that are neither.
const INPUTS: [u16; 3] = [0x0000, 0x0402, 0x0500];
const OUTPUTS: [u16; 1] = [0x0019];
const NEITHER: [u16; 10] = [
    0x0001, 0x0003, 0x0005, 0x0018, 0x0204, 0x0401, 0x0403, 0x0501, 0x1900, 0xFFFF,
];

/// A match request behind its sequence number. One in eight has a count that is not its list's; one in sixteen has two long lists.
fn matching(dice: &mut Dice) -> Vec<u8> {
    let profile = match dice.below(8) {
        0 | 1 => 0xFFFF,
        2 => dice.pick(&[0x0000, 0x0004, 0x0100, 0x0105, 0x0401, 0xFFFE, 0xFF04]),
        _ => 0x0104,
    };
    let mut payload = short(dice).to_le_bytes().to_vec();
    payload.extend(u16::to_le_bytes(profile));
    let long = dice.one_in(16);
    let inputs = list(dice, long, &INPUTS, &OUTPUTS);
    let counts = [payload.len(), payload.len() + inputs.len()];
    payload.extend(inputs);
    payload.extend(list(dice, long, &OUTPUTS, &INPUTS));
    if dice.one_in(8) {
        let count = dice.pick(&counts);
        payload[count] = match dice.below(4) {
            0 => dice.any() as u8,
            1 => 0xFF,
            2 => payload[count].wrapping_sub(1),
            _ => payload[count].wrapping_add(1),
        };
    }
    payload
}

/// A count and a list of so many clusters: half of the time one of this side, at the first or last place or between, and else of the
/// other side or of neither.
fn list(dice: &mut Dice, long: bool, side: &[u16], other: &[u16]) -> Vec<u8> {
    let count = match long {
        true => dice.pick(&[127, 128, 254, 255, 255]),
        false => dice.length(3, 255),
    };
    let miss = |dice: &mut Dice| match dice.below(3) {
        0 => dice.pick(other),
        _ => dice.pick(&NEITHER),
    };
    let mut clusters: Vec<u16> = (0..count).map(|_| miss(dice)).collect();
    if count > 0 && dice.one_in(2) {
        let place = dice.place(count);
        clusters[place] = dice.pick(side);
    }
    let mut bytes = vec![count as u8];
    bytes.extend(clusters.into_iter().flat_map(u16::to_le_bytes));
    bytes
}

/// A payload as it is, cut by a byte or two, cut anywhere, or with some or many bytes behind it. One byte is left.
pub fn sized(dice: &mut Dice, mut payload: Vec<u8>) -> Vec<u8> {
    let length = payload.len();
    let behind = match dice.below(32) {
        0..9 => 1 + dice.below(8),
        9 => dice.below(600),
        _ => 0,
    };
    match dice.below(16) {
        0 => payload.truncate((length - 1).max(1)),
        1 => payload.truncate(length.saturating_sub(2).max(1)),
        2 => payload.truncate(1 + dice.below(length)),
        _ => payload.extend(dice.bytes(behind)),
    }
    payload
}

/// A payload with bytes behind it, so that its line has so many characters, or one less. It is shorter than that.
pub fn stretched(dice: &mut Dice, mut payload: Vec<u8>, characters: usize) -> Vec<u8> {
    let count = ((characters - 5) / 2).saturating_sub(payload.len());
    let behind = match dice.below(3) {
        0 => vec![0; count],
        1 => vec![0xFF; count],
        _ => dice.bytes(count),
    };
    payload.extend(behind);
    payload
}

/// The most characters that a line of the right shape can have: an odd number.
pub const LONGEST_GOOD: usize = LONGEST - 1;

/// The line of a request: capitals, small letters, or some of both.
pub fn line(dice: &mut Dice, cluster: u16, payload: &[u8]) -> Vec<u8> {
    let digits: String = payload.iter().map(|byte| format!("{byte:02X}")).collect();
    let mut line = format!("{cluster:04X} {digits}").into_bytes();
    match dice.below(3) {
        0 => line.make_ascii_lowercase(),
        1 => {
            let letters = line.iter_mut().filter(|_| dice.one_in(2));
            letters.for_each(|letter| letter.make_ascii_lowercase());
        }
        _ => {}
    }
    line
}
