//! Numbers at a place of a slice. The functions require room, so nothing is said of a refusal.

use super::terms::Words;
use super::{Claim, Part, part};

pub fn claim(name: &str) -> Option<Claim> {
    Some(match name {
        "read_u8" => |q, a| read(1, q, a),
        "read_u16" => |q, a| read(2, q, a),
        "read_u64" => |q, a| read(8, q, a),
        "write_u8" => |q, a| write(1, q, a),
        "write_u16" => |q, a| write(2, q, a),
        "write_u64" => |q, a| write(8, q, a),
        _ => return None,
    })
}

/// There is room for a field of so many bytes, as the functions require.
fn fits(width: usize, at: &str, bytes: &str) -> Part {
    part(format!("leb ({at} + {width}) (room {bytes})"), "true")
}

fn read(width: usize, mut question: Words, answer: &str) -> Option<Vec<Part>> {
    let bytes = question.bytes()?;
    let at = question.decimal()?;
    question.end()?;
    let mut answer = Words::of(answer);
    let value = answer.number(2 * width)?;
    let next = answer.decimal()?;
    answer.end()?;
    Some(vec![
        fits(width, &at, &bytes),
        part(format!("number_at {width} {bytes} {at}"), value),
        part(format!("{at} + {width}"), next),
    ])
}

fn write(width: usize, mut question: Words, answer: &str) -> Option<Vec<Part>> {
    let at = question.decimal()?;
    let value = question.number(2 * width)?;
    let before = question.bytes()?;
    question.end()?;
    let mut answer = Words::of(answer);
    let next = answer.decimal()?;
    let after = answer.bytes()?;
    answer.end()?;
    Some(vec![
        fits(width, &at, &before),
        part(format!("{at} + {width}"), next),
        part(format!("sets {before} {at} (le {width} {value})"), after),
    ])
}
