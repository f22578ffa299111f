//! Fields: the stand-in of `byte` itself.

use byte::ctx::{Endian, LE};
use byte::{BytesExt, TryRead, TryWrite};
use tools::words::{bytes, decimal, u8_of, u16_of, u64_of};

use crate::{refused, wrote};

pub fn answer(name: &str, words: &[&str]) -> Option<String> {
    match (name, words) {
        ("read_u8", [b, at]) => read(b, at, |x: u8| format!("{x:02X}")),
        ("read_u16", [b, at]) => read(b, at, |x: u16| format!("{x:04X}")),
        ("read_u64", [b, at]) => read(b, at, |x: u64| format!("{x:016X}")),
        ("write_u8", [at, x, b]) => write(at, u8_of(x)?, b),
        ("write_u16", [at, x, b]) => write(at, u16_of(x)?, b),
        ("write_u64", [at, x, b]) => write(at, u64_of(x)?, b),
        _ => None,
    }
}

fn read<T: for<'a> TryRead<'a, Endian>>(
    from: &str,
    at: &str,
    show: impl FnOnce(T) -> String,
) -> Option<String> {
    let from = bytes(from)?;
    let mut at = decimal(at)?;
    Some(match from.read_with(&mut at, LE) {
        Ok(x) => format!("{} {at}", show(x)),
        Err(_) => refused(),
    })
}

fn write<T: TryWrite<Endian>>(at: &str, x: T, buffer: &str) -> Option<String> {
    let mut at = decimal(at)?;
    Some(wrote(bytes(buffer)?, |out| {
        out.write_with(&mut at, x, LE)?;
        Ok(at)
    }))
}
