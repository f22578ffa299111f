//! Questions about fields.

use super::words::numbers;
use super::{Arguments, Questions};
use crate::words::show_bytes;

/// What makes the arguments for the function of this name, if it is one of these.
pub fn arguments(name: &str) -> Option<Arguments> {
    Some(match name {
        "read_u8" | "read_u16" | "read_u64" => |ask| {
            let (bytes, place) = bytes_and_place(ask);
            format!("{bytes} {place}")
        },
        "write_u8" => |ask| write(ask, 1),
        "write_u16" => |ask| write(ask, 2),
        "write_u64" => |ask| write(ask, 8),
        _ => return None,
    })
}

/// A write of a number of this size.
fn write(ask: &mut Questions, size: usize) -> String {
    let (bytes, place) = bytes_and_place(ask);
    format!("{place} {} {bytes}", numbers(&mut ask.dice, &[size]))
}

/// Up to 20 bytes, and a place. Early ones go through all lengths with the places 0 to 23; the
/// others have a place in the bytes or shortly behind, and some of them far behind.
fn bytes_and_place(ask: &mut Questions) -> (String, usize) {
    let early = ask.early(21 * 24);
    let dice = &mut ask.dice;
    let length = early.map_or_else(|| dice.below(21), |n| n % 21);
    let place = match early {
        Some(n) => n / 21,
        None if dice.one_in(16) => dice.pick(&[255, 256, 65_535, 65_536, 999_999_999]),
        None => dice.below(length + 4),
    };
    (show_bytes(&dice.bytes(length)), place)
}
