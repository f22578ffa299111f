//! Questions about the binding table and its entries.

use super::dice::Dice;
use super::words::{cluster, numbers};
use super::{Arguments, Questions};

/// What makes the arguments for the function of this name, if it is one of these.
pub fn arguments(name: &str) -> Option<Arguments> {
    Some(match name {
        "Binding::group" => |ask| numbers(&mut ask.dice, &[1, 2, 2]),
        "Binding::device" => |ask| numbers(&mut ask.dice, &[1, 2, 8, 1]),
        "Binding::matches" => |ask| {
            let [entry, other] = pair(&mut ask.dice);
            let Entry {
                source, cluster, ..
            } = other;
            format!("{} {source:02X} {cluster:04X}", entry.show())
        },
        "Binding::eq" => |ask| pair(&mut ask.dice).map(|entry| entry.show()).join(" "),
        "links" => links,
        _ => return None,
    })
}

/// An entry of the binding table.
#[derive(Clone, Copy, PartialEq)]
pub struct Entry {
    pub source: u8,
    pub cluster: u16,
    pub to: To,
}

/// Where an entry sends.
#[derive(Clone, Copy, PartialEq)]
pub enum To {
    Group(u16),
    Device(u64, u8),
}

impl Entry {
    /// Any entry. One in eight has zeros in all fields, but perhaps for the mode.
    pub fn any(dice: &mut Dice) -> Entry {
        let zeros = dice.one_in(8);
        let mut number = |bytes| if zeros { 0 } else { dice.number(bytes) };
        let (group, ieee, endpoint) = (number(2), number(8), number(1));
        let to = match dice.below(2) {
            0 => To::Group(group as u16),
            _ => To::Device(ieee, endpoint as u8),
        };
        Entry {
            source: if zeros { 0 } else { dice.byte() },
            cluster: if zeros { 0 } else { cluster(dice) },
            to,
        }
    }

    /// This entry with one field changed: a bit of it, or the mode.
    pub fn near(mut self, dice: &mut Dice) -> Entry {
        let field = dice.below(5);
        match field {
            0 => self.source ^= 1 << dice.below(8),
            1 => self.cluster ^= 1 << dice.below(16),
            _ => self.to = self.to.near(dice, field),
        }
        self
    }

    /// The digits of an entry.
    fn show(&self) -> String {
        let Entry {
            source,
            cluster,
            to,
        } = self;
        match to {
            To::Group(group) => format!("01{source:02X}{cluster:04X}{group:04X}"),
            To::Device(ieee, to) => format!("03{source:02X}{cluster:04X}{ieee:016X}{to:02X}"),
        }
    }
}

impl To {
    /// This destination with the mode changed, or a bit of the address, or of the endpoint.
    fn near(self, dice: &mut Dice, field: usize) -> To {
        match (field, self) {
            (2, To::Group(group)) => To::Device(group.into(), 0),
            (2, To::Device(ieee, _)) => To::Group(ieee as u16),
            (_, To::Group(group)) => To::Group(group ^ 1 << dice.below(16)),
            (3, To::Device(ieee, to)) => To::Device(ieee ^ 1 << dice.below(64), to),
            (_, To::Device(ieee, to)) => To::Device(ieee, to ^ 1 << dice.below(8)),
        }
    }
}

/// Two entries: equal, near to each other, or any.
fn pair(dice: &mut Dice) -> [Entry; 2] {
    let entry = Entry::any(dice);
    let other = match dice.below(8) {
        0..3 => entry,
        3..7 => entry.near(dice),
        _ => Entry::any(dice),
    };
    [entry, other]
}

/// So many different entries, half of them near to one before.
fn different(dice: &mut Dice, count: usize) -> Vec<Entry> {
    let mut entries = vec![Entry::any(dice)];
    while entries.len() < count {
        let next = match dice.below(2) {
            0 => Entry::any(dice),
            _ => dice.pick(&entries).near(dice),
        };
        if !entries.contains(&next) {
            entries.push(next);
        }
    }
    entries
}

/// A step: does it bind, and what.
type Step = (bool, Entry);

/// A limit, the entries held to begin with, and steps.
struct History {
    limit: usize,
    held: Vec<Entry>,
    steps: Vec<Step>,
}

/// A history. At one question of three, early ones go through all sequences of up to four steps
/// over three entries, with limits of 0 to 3; at another, through all limits with tables that are
/// full, or nearly, or hold an entry twice.
fn links(ask: &mut Questions) -> String {
    let early = ask.early(4 * (1 + 6 + 36 + 216 + 1296));
    let filled = ask.walked_at(1, 33 * 4);
    let dice = &mut ask.dice;
    let history = match (early, filled) {
        (Some(n), _) => History {
            limit: n % 4,
            held: Vec::new(),
            steps: short(dice, n / 4),
        },
        (_, Some(n)) => full(dice, n % 33, n / 33),
        _ => long(dice),
    };
    let held = history.held.iter().map(|entry| ('h', entry));
    let steps = history
        .steps
        .iter()
        .map(|(binds, entry)| (if *binds { 'b' } else { 'u' }, entry));
    let words = held
        .chain(steps)
        .map(|(letter, entry)| format!(" {letter}{}", entry.show()));
    format!("{}{}", history.limit, words.collect::<String>())
}

/// The sequence at this place among all sequences over three entries, the shorter ones first.
fn short(dice: &mut Dice, mut place: usize) -> Vec<Step> {
    let entries = different(dice, 3);
    let mut steps = Vec::new();
    while place > 0 {
        let step = (place - 1) % 6;
        steps.push((step < 3, entries[step % 3]));
        place = (place - 1) / 6;
    }
    steps
}

/// A table of this limit, of one of four kinds: full, twice; with one place left; with entries that
/// are held more than once. Then a few steps about entries that are held, mostly, or are not.
fn full(dice: &mut Dice, limit: usize, kind: usize) -> History {
    let entries = different(dice, limit + 2);
    let few = 1 + dice.below(3);
    let mut held = match kind {
        0 | 1 => entries[..limit].to_vec(),
        2 => entries[..limit.saturating_sub(1)].to_vec(),
        _ => (0..limit - dice.below(limit / 2 + 1))
            .map(|_| dice.pick(&entries[..few.min(limit)]))
            .collect(),
    };
    let mut steps: Vec<Step> = Vec::new();
    if kind < 3 && dice.one_in(2) {
        steps = held.drain(..).map(|entry| (true, entry)).collect();
    }
    let about = if kind < 3 { limit + 2 } else { few + 1 };
    for _ in 0..1 + dice.below(4) {
        let place = dice.place(about.min(limit + 2));
        steps.push((dice.one_in(2), entries[place]));
    }
    History { limit, held, steps }
}

/// A limit, and up to 100 steps over a few entries. Half of the time the table is filled first: all
/// but full, full, or more than that.
fn long(dice: &mut Dice) -> History {
    let limit = match dice.below(8) {
        0 => 32,
        1 => dice.below(33),
        _ => dice.below(5),
    };
    let (count, first) = match dice.below(2) {
        0 => (1 + dice.below(6), 0),
        _ => (limit + 3, (limit + dice.below(4)).saturating_sub(1)),
    };
    let entries = different(dice, count);
    let mut steps: Vec<Step> = entries[..first]
        .iter()
        .map(|&entry| (true, entry))
        .collect();
    let most = if dice.one_in(8) { 100 - first } else { 12 };
    for _ in 0..dice.below(most + 1) {
        steps.push((dice.below(5) < 3, dice.pick(&entries)));
    }
    History {
        limit,
        held: Vec::new(),
        steps,
    }
}
