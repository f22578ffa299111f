//! Questions about device tables. All of them are within document 01's sizes.

use super::Arguments;
use super::dice::Dice;
use super::requests::{damage, with_lists};
use super::words::{buffer, cluster, clusters, filled, hex, numbers};
use crate::words::{show_bytes, show_clusters, show_list};

/// What makes the arguments for the function of this name, if it is one of these.
pub fn arguments(name: &str) -> Option<Arguments> {
    Some(match name {
        "endpoint" | "supports_endpoint" => |ask| {
            let tables = Tables::any(&mut ask.dice);
            let asked = tables.asked(&mut ask.dice);
            [tables.show(), hex(asked.into(), 1)].join(" ")
        },
        "matching_endpoints" => |ask| matching(&mut ask.dice),
        "active_ep_rsp" => |ask| {
            let dice = &mut ask.dice;
            let tables = Tables::any(dice);
            let buffer = buffer(dice, 5 + tables.records.len());
            [numbers(dice, &[1, 2]), tables.show(), buffer].join(" ")
        },
        "simple_desc_rsp" => |ask| simple(&mut ask.dice),
        _ => return None,
    })
}

/// A part of a pool: its start, and its count.
type Part = (usize, usize);

/// An endpoint record.
struct Record {
    endpoint: u8,
    profile: u16,
    device: u16,
    version: u8,
    /// Its parts of the input pool and of the output pool.
    parts: [Part; 2],
}

/// The input pool and the output pool, and the records.
struct Tables {
    pools: [Vec<u16>; 2],
    records: Vec<Record>,
}

impl Tables {
    /// Any tables, mostly small ones, and now and then full ones.
    fn any(dice: &mut Dice) -> Tables {
        if dice.one_in(32) {
            return Tables::of_sizes(dice, [512, 512], 32);
        }
        let pools = [(); 2].map(|()| dice.length(8, 512));
        let records = dice.length(4, 32);
        Tables::of_sizes(dice, pools, records)
    }

    /// Any tables of these sizes. In one of three all endpoints are different.
    fn of_sizes(dice: &mut Dice, pools: [usize; 2], count: usize) -> Tables {
        let mut records: Vec<Record> = Vec::new();
        let first = dice.one_in(3).then(|| dice.byte());
        while records.len() < count {
            let last = records.last().map_or([(0, 0); 2], |record| record.parts);
            let next = first.map(|first| first.wrapping_add(records.len() as u8));
            records.push(Record {
                endpoint: next.unwrap_or_else(|| endpoint(dice)),
                profile: profile(dice),
                device: dice.number(2) as u16,
                version: dice.byte(),
                parts: [0, 1].map(|side| part(dice, pools[side], last[side])),
            });
        }
        let pools = pools.map(|size| clusters(dice, size));
        Tables { pools, records }
    }

    /// The endpoint to ask for: mostly one of the records.
    fn asked(&self, dice: &mut Dice) -> u8 {
        match &self.records[..] {
            [] => endpoint(dice),
            _ if dice.one_in(4) => endpoint(dice),
            records => records[dice.place(records.len())].endpoint,
        }
    }

    /// How many clusters the first record of an endpoint has.
    fn clusters_of(&self, endpoint: u8) -> Option<usize> {
        let mut records = self.records.iter();
        let record = records.find(|record| record.endpoint == endpoint)?;
        Some(record.parts[0].1 + record.parts[1].1)
    }

    /// Three words.
    fn show(&self) -> String {
        let [inputs, outputs] = self.pools.each_ref().map(|pool| show_clusters(pool));
        let records = show_list(self.records.iter().map(Record::show));
        [inputs, outputs, records].join(" ")
    }
}

impl Record {
    /// 28 digits.
    fn show(&self) -> String {
        let parts = self
            .parts
            .map(|(start, count)| format!("{start:04X}{count:04X}"));
        let [inputs, outputs] = parts;
        format!(
            "{:02X}{:04X}{:04X}{:02X}{inputs}{outputs}",
            self.endpoint, self.profile, self.device, self.version
        )
    }
}

/// An endpoint: mostly one of a few, so that they repeat.
fn endpoint(dice: &mut Dice) -> u8 {
    match dice.below(4) {
        0 => dice.byte(),
        _ => 1 + dice.below(5) as u8,
    }
}

/// A profile: mostly one of a few, among them the one that asks for all.
fn profile(dice: &mut Dice) -> u16 {
    match dice.below(4) {
        0 => dice.number(2) as u16,
        _ => dice.pick(&[0x0104, 0x0104, 0x0401, 0xC05E, 0xFFFF]),
    }
}

/// A part of a pool of this size, where the record before has the part `last`.
fn part(dice: &mut Dice, pool: usize, last: Part) -> Part {
    let start = dice.below(pool + 1);
    let rest = pool - start;
    match dice.below(8) {
        0 => last,
        1 => (last.0, dice.below(pool - last.0 + 1)),
        2 => (0, pool),
        3 => (start, 0),
        4 => (start, rest),
        5 => (start, dice.below(rest + 1)),
        _ => (start, dice.below(4).min(rest)),
    }
}

/// A simple descriptor's reply.
fn simple(dice: &mut Dice) -> String {
    let (tables, asked) = if dice.one_in(3) {
        crowded(dice)
    } else {
        let tables = Tables::any(dice);
        let asked = tables.asked(dice);
        (tables, asked)
    };
    let length = tables.clusters_of(asked).map_or(5, |count| 13 + 2 * count);
    let numbers = [numbers(dice, &[1, 2]), hex(asked.into(), 1)].join(" ");
    [numbers, tables.show(), buffer(dice, length)].join(" ")
}

/// Tables with a record of about 28 clusters, and its endpoint.
fn crowded(dice: &mut Dice) -> (Tables, u8) {
    let pools = [(); 2].map(|()| 31 + dice.length(8, 481));
    let records = 1 + dice.length(3, 31);
    let mut tables = Tables::of_sizes(dice, pools, records);
    let count = dice.pick(&[26, 27, 28, 28, 28, 29, 29, 31]);
    let inputs = dice.below(count + 1);
    let counts = [inputs, count - inputs];
    let record = &mut tables.records[dice.below(records)];
    record.parts = [0, 1].map(|side| {
        let start = dice.below(pools[side] - counts[side] + 1);
        (start, counts[side])
    });
    let asked = record.endpoint;
    (tables, asked)
}

/// A match request, sometimes damaged, tables, and a buffer that is often too short.
fn matching(dice: &mut Dice) -> String {
    let (tables, mut request) = match dice.below(8) {
        0 => lone(dice),
        kind => {
            let tables = match kind {
                1 => alike(dice),
                _ => Tables::any(dice),
            };
            let request = request(dice, &tables);
            (tables, request)
        }
    };
    if dice.one_in(8) {
        damage(dice, &mut request);
    }
    let records = tables.records.len();
    let length = match dice.below(8) {
        0 => 0,
        1..4 => 1 + dice.below(2),
        4..6 => (records + dice.below(5)).saturating_sub(2),
        _ => dice.below(records + 3),
    };
    [show_bytes(&request), tables.show(), filled(dice, length)].join(" ")
}

/// Pools of different clusters, mostly large, and a request for one of them among many others.
fn lone(dice: &mut Dice) -> (Tables, Vec<u8>) {
    let pools = [(); 2].map(|()| 1 + dice.place(512));
    let mut tables = Tables::of_sizes(dice, pools, 3);
    tables.records[0].parts = pools.map(|size| (0, size));
    tables.pools = pools.map(|size| (0x1000..).take(size).collect());
    let mut lists = [(); 2].map(|()| {
        let length = 1 + dice.place(255);
        (0x2000..).take(length).collect::<Vec<u16>>()
    });
    let side = dice.below(2);
    let place = dice.place(lists[side].len());
    lists[side][place] = tables.pools[side][dice.place(pools[side])];
    let lists = lists.map(|list| list.into_iter().flat_map(u16::to_le_bytes).collect());
    let request = with_lists(dice, &[1, 2, 2], lists, 2);
    (tables, for_profile(0xFFFF, request))
}

/// Up to 32 records of one profile, all with the whole pools.
fn alike(dice: &mut Dice) -> Tables {
    let pools = [(); 2].map(|()| 1 + dice.below(4));
    let records = 1 + dice.place(32);
    let mut tables = Tables::of_sizes(dice, pools, records);
    for record in &mut tables.records {
        record.profile = 0x0104;
        record.parts = pools.map(|size| (0, size));
    }
    tables
}

/// A match request: for the profile of a record, for all, or for any.
fn request(dice: &mut Dice, tables: &Tables) -> Vec<u8> {
    let profile = match (dice.below(4), &tables.records[..]) {
        (0, _) => 0xFFFF,
        (1, _) | (_, []) => profile(dice),
        (_, records) => records[dice.below(records.len())].profile,
    };
    let lists = [0, 1].map(|side| wanted(dice, tables, side));
    let request = with_lists(dice, &[1, 2, 2], lists, 2);
    for_profile(profile, request)
}

/// A match request with this profile in it.
fn for_profile(profile: u16, mut request: Vec<u8>) -> Vec<u8> {
    request[3..5].copy_from_slice(&profile.to_le_bytes());
    request
}

/// A list of clusters to ask for, as bytes: of this side's pool, of the other side's, or any.
fn wanted(dice: &mut Dice, tables: &Tables, side: usize) -> Vec<u8> {
    let pool = match dice.below(4) {
        0 => &[],
        1 => &tables.pools[1 - side][..],
        _ => &tables.pools[side][..],
    };
    let length = dice.length(3, 255);
    let wanted = (0..length).map(|_| match pool {
        [] => cluster(dice),
        _ => dice.pick(pool),
    });
    wanted.flat_map(u16::to_le_bytes).collect()
}
