//! The binding table (004).

use tools::words::{decimal, show_bytes, show_flag, u8_of, u16_of, u64_of};
use zigbee_core::aps::binding::{Binding, BindingAddrMode, BindingTable, probe};
use zigbee_types::IeeeAddress;

pub fn answer(name: &str, words: &[&str]) -> Option<String> {
    match (name, words) {
        ("Binding::group", [endpoint, cluster, group]) => Some(show(&Binding::group(
            u8_of(endpoint)?,
            u16_of(cluster)?,
            u16_of(group)?,
        ))),
        ("Binding::device", [endpoint, cluster, ieee, to]) => {
            let ieee = IeeeAddress(u64_of(ieee)?);
            Some(show(&Binding::device(
                u8_of(endpoint)?,
                u16_of(cluster)?,
                ieee,
                u8_of(to)?,
            )))
        }
        ("Binding::matches", [entry, endpoint, cluster]) => {
            let matches = entry_of(entry)?.matches(u8_of(endpoint)?, u16_of(cluster)?);
            Some(show_flag(matches).to_string())
        }
        ("Binding::eq", [a, b]) => Some(show_flag(entry_of(a)? == entry_of(b)?).to_string()),
        ("links", [limit, words @ ..]) => {
            let begin = words.iter().take_while(|w| w.starts_with('h')).count();
            let (held, steps) = words.split_at(begin);
            let held: Vec<Binding> = held
                .iter()
                .map(|h| entry_of(&h[1..]))
                .collect::<Option<_>>()?;
            let steps: Vec<Step> = steps.iter().map(|s| step_of(s)).collect::<Option<_>>()?;
            linked(decimal(limit)?, &held, &steps)
        }
        _ => None,
    }
}

// ---- entries

fn entry_of(word: &str) -> Option<Binding> {
    let endpoint = u8_of(word.get(2..4)?)?;
    let cluster = u16_of(word.get(4..8)?)?;
    let rest = word.get(8..)?;
    match word.get(..2)? {
        "01" => Some(Binding::group(endpoint, cluster, u16_of(rest)?)),
        "03" => {
            let ieee = IeeeAddress(u64_of(rest.get(..16)?)?);
            Some(Binding::device(
                endpoint,
                cluster,
                ieee,
                u8_of(&rest[16..])?,
            ))
        }
        _ => None,
    }
}

pub fn show_group(endpoint: u8, cluster: u16, group: u16) -> String {
    format!("01{endpoint:02X}{cluster:04X}{group:04X}")
}

pub fn show_device(endpoint: u8, cluster: u16, ieee: IeeeAddress, to: u8) -> String {
    format!("03{endpoint:02X}{cluster:04X}{:016X}{to:02X}", ieee.0)
}

/// An entry by its fields. One that has not exactly the destination of its mode is shown as the Rust shows it, which is no
/// entry of README.md.
fn show(b: &Binding) -> String {
    match (b.dst_addr_mode, b.dst_group, b.dst_ieee, b.dst_endpoint) {
        (BindingAddrMode::Group, Some(group), None, None) => {
            show_group(b.src_endpoint, b.cluster_id, group)
        }
        (BindingAddrMode::Device, None, Some(ieee), Some(to)) => {
            show_device(b.src_endpoint, b.cluster_id, ieee, to)
        }
        _ => format!("{b:?}"),
    }
}

// ---- bind and unbind

enum Step {
    Bind(Binding),
    Unbind(Binding),
}

fn step_of(word: &str) -> Option<Step> {
    match word.get(..1)? {
        "b" => Some(Step::Bind(entry_of(&word[1..])?)),
        "u" => Some(Step::Unbind(entry_of(&word[1..])?)),
        _ => None,
    }
}

/// What the steps come to in a table of this limit that holds these entries before. The limit is the Rust's N: 0 to 32, and
/// 33 to show that the Rust has more.
fn linked(limit: usize, held: &[Binding], steps: &[Step]) -> Option<String> {
    macro_rules! by_limit {
        ($($n:literal)*) => {
            match limit {
                $($n => run::<$n>(held, steps),)*
                _ => None,
            }
        };
    }
    by_limit!(0 1 2 3 4 5 6 7 8 9 10 11 12 13 14 15 16 17 18 19 20 21 22 23 24 25 26 27 28 29 30 31 32 33)
}

fn run<const N: usize>(held: &[Binding], steps: &[Step]) -> Option<String> {
    let mut table = BindingTable::<N>::empty();
    for binding in held {
        table.push(binding.clone()).ok()?;
    }
    let statuses: Vec<u8> = steps
        .iter()
        .map(|step| status(apply(&mut table, step)))
        .collect();
    let mut words = vec![show_bytes(&statuses), table.len().to_string()];
    words.extend(table.iter().map(show));
    Some(words.join(" "))
}

fn apply<const N: usize>(table: &mut BindingTable<N>, step: &Step) -> probe::Outcome {
    match step {
        Step::Bind(binding) => probe::create(table, binding.clone()),
        Step::Unbind(binding) => probe::remove(table, binding),
    }
}

/// Document 01's status of an outcome.
fn status(outcome: probe::Outcome) -> u8 {
    match outcome {
        probe::Outcome::Done => 0x00,
        probe::Outcome::TableFull => 0x8C,
        probe::Outcome::InvalidBinding => 0x88,
        probe::Outcome::IllegalRequest => panic!("the Rust never says this"),
    }
}
