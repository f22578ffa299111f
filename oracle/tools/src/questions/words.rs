//! Arguments that several functions take.

use super::Questions;
use super::dice::Dice;
use crate::words::{show_bytes, show_list};

/// A number of so many bytes as it is written.
pub fn hex(number: u64, bytes: usize) -> String {
    format!("{number:0digits$X}", digits = 2 * bytes)
}

/// Numbers of these sizes: a word for each.
pub fn numbers(dice: &mut Dice, sizes: &[usize]) -> String {
    let words = sizes.iter().map(|&size| hex(dice.number(size), size));
    words.collect::<Vec<String>>().join(" ")
}

/// A buffer where a reply of this length is to be written: mostly about as long.
pub fn buffer(dice: &mut Dice, reply: usize) -> String {
    let length = match dice.below(16) {
        0 => 0,
        1 => 1,
        2 | 3 => dice.below(41),
        4 => reply + dice.below(300),
        _ => (reply + dice.below(6)).saturating_sub(2),
    };
    filled(dice, length)
}

/// A buffer of this length: any bytes, or the same one throughout.
pub fn filled(dice: &mut Dice, length: usize) -> String {
    let mut bytes = dice.bytes(length);
    if dice.one_in(4) {
        bytes.fill(dice.pick(&[0x00, 0xFF, 0xEE]));
    }
    show_bytes(&bytes)
}

/// The numbers that have a name as a `LogicalType`.
const TYPES: &[u8] = &[0, 1, 2];
/// Those of `CurrentPowerMode`.
pub const MODES: &[u8] = &[0, 1, 2];
/// Those of `PowerSource`.
pub const SOURCES: &[u8] = &[1, 2, 4];
/// Those of `CurrentPowerSourceLevel`.
pub const LEVELS: &[u8] = &[0, 4, 8, 12];

/// How many values an enum has: those with a name, and `Reserved` of each byte.
pub fn values(names: &[u8]) -> usize {
    names.len() + 256
}

/// The value at a place among all of an enum's; after the last comes the first again.
pub fn value(names: &[u8], place: usize) -> String {
    let place = place % values(names);
    match names.get(place) {
        Some(number) => format!("00{number:02X}"),
        None => format!("01{:02X}", place - names.len()),
    }
}

/// Any value of an enum: half have a name, and some are `Reserved` of a number that has one.
fn named(dice: &mut Dice, names: &[u8]) -> String {
    match dice.below(8) {
        0 => format!("01{:02X}", dice.pick(names)),
        1..4 => format!("01{:02X}", dice.byte()),
        _ => format!("00{:02X}", dice.pick(names)),
    }
}

/// A node. Early ones go through all values of the type.
pub fn node(ask: &mut Questions) -> String {
    let early = ask.early(values(TYPES));
    let dice = &mut ask.dice;
    let logical_type = match early {
        Some(place) => value(TYPES, place),
        None => named(dice, TYPES),
    };
    let [complex, user] = [(); 2].map(|()| hex(dice.below(2) as u64, 1));
    let rest = numbers(dice, &[1, 1, 2, 1, 2, 2, 2, 1]).replace(' ', "");
    [logical_type, complex, user, rest].concat()
}

/// A power. Early ones go through all values of each of the three enums.
pub fn power(ask: &mut Questions) -> String {
    let fields = [MODES, SOURCES, LEVELS];
    match ask.early(values(LEVELS)) {
        Some(place) => [0, 1, 2].map(|n| value(fields[n], place + 87 * n)).concat(),
        None => fields.map(|names| named(&mut ask.dice, names)).concat(),
    }
}

/// A list of power sources. In some all but the last are one.
pub fn sources(dice: &mut Dice) -> String {
    let length = dice.length(4, 40);
    let mut list: Vec<String> = (0..length).map(|_| named(dice, SOURCES)).collect();
    if dice.one_in(4) && length > 1 {
        let first = list[0].clone();
        list[..length - 1].fill(first);
    }
    show_list(list.into_iter())
}

/// A cluster: mostly one of a few, some of which are others with their bytes exchanged.
pub fn cluster(dice: &mut Dice) -> u16 {
    match dice.below(4) {
        0 => dice.number(2) as u16,
        _ => dice.pick(&[
            0x0000, 0x0006, 0x0600, 0x0019, 0x1900, 0x0402, 0x0500, 0x8000,
        ]),
    }
}

/// So many clusters.
pub fn clusters(dice: &mut Dice, count: usize) -> Vec<u16> {
    (0..count).map(|_| cluster(dice)).collect()
}
