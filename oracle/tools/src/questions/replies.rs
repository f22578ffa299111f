//! Questions about replies that need no endpoint records, and about the statuses in them.

use super::dice::Dice;
use super::words::{buffer, hex, node, numbers, power, sources};
use super::{Arguments, Questions};
use crate::words::{show_bytes, show_flag};

/// What makes the arguments for the function of this name, if it is one of these.
pub fn arguments(name: &str) -> Option<Arguments> {
    Some(match name {
        "node_desc_rsp" => |ask| {
            let node = node(ask);
            let dice = &mut ask.dice;
            [numbers(dice, &[1, 2]), node, buffer(dice, 17)].join(" ")
        },
        "power_desc_rsp" => |ask| {
            let power = power(ask);
            let dice = &mut ask.dice;
            [
                numbers(dice, &[1, 2]),
                power,
                sources(dice),
                buffer(dice, 6),
            ]
            .join(" ")
        },
        "addr_rsp" => |ask| address(&mut ask.dice),
        "addr_rsp_error" => |ask| error(&mut ask.dice, &[8, 2], 12),
        "descriptor_rsp_error" => |ask| error(&mut ask.dice, &[2], 4),
        "active_ep_rsp_error" | "simple_desc_rsp_error" => |ask| error(&mut ask.dice, &[2], 5),
        "match_desc_rsp" => |ask| matched(&mut ask.dice),
        "match_desc_rsp_error" => |ask| error(&mut ask.dice, &[], 3),
        "bind_rsp" => |ask| status(ask, 5),
        "mgmt_leave_rsp" => |ask| status(ask, 256),
        "DiscoveryError::code" => |ask| hex(ask.walked(2) as u64, 1),
        "BindStatus::code" | "leave_status" => |ask| hex(ask.walked(5) as u64, 1),
        _ => return None,
    })
}

/// An address reply, of either form.
fn address(dice: &mut Dice) -> String {
    let extended = dice.one_in(2);
    let length = if extended { 14 } else { 12 };
    let flag = show_flag(extended).to_string();
    [numbers(dice, &[1, 8, 2]), flag, buffer(dice, length)].join(" ")
}

/// The error form of a reply: sequence number, reason, numbers of these sizes, and a buffer.
fn error(dice: &mut Dice, sizes: &[usize], length: usize) -> String {
    let mut words = vec![numbers(dice, &[1]), hex(dice.below(2) as u64, 1)];
    words.extend(sizes.iter().map(|&size| numbers(dice, &[size])));
    words.push(buffer(dice, length));
    words.join(" ")
}

/// A match reply: mostly of a few endpoints, and often of about 255.
fn matched(dice: &mut Dice) -> String {
    let count = match dice.below(8) {
        0 => 252 + dice.below(8),
        1 => 256 + dice.length(100, 500),
        _ => dice.length(6, 300),
    };
    let endpoints = show_bytes(&dice.bytes(count));
    [numbers(dice, &[1, 2]), endpoints, buffer(dice, 5 + count)].join(" ")
}

/// A reply that is a status alone: the questions go through so many.
fn status(ask: &mut Questions, count: usize) -> String {
    let status = hex(ask.walked(count) as u64, 1);
    let dice = &mut ask.dice;
    [numbers(dice, &[1]), status, buffer(dice, 2)].join(" ")
}
