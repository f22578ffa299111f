//! Fresh sessions: the input lines that a seed gives. A session goes through scenes that fill, thin out and empty the binding table, and
//! through single lines of all kinds between them.

use std::collections::VecDeque;

use super::device::LIMIT;
use super::entries::{self, entry, fresh, near};
use super::misshapen::{misshapen, overlong};
use super::requests::{
    LONGEST_GOOD, UNLINKED, ieee, line, payload, sized, stranger, stretched, unknown,
};
use crate::questions::bindings::Entry;
use crate::questions::dice::Dice;

const BIND: u16 = 0x0021;
const UNBIND: u16 = 0x0022;

/// The session of a seed, of so many lines. One half of the sessions have no line feed behind the last.
pub fn session(seed: u64, lines: usize) -> Vec<u8> {
    let mut session = Session::new(seed);
    let mut input = Vec::new();
    for _ in 0..lines {
        input.extend(session.line());
        input.push(b'\n');
    }
    if session.dice.one_in(2) {
        input.pop();
    }
    input
}

/// A session that goes on. `held` steers it: it has the entries that are bound, if all goes by document 01.
pub struct Session {
    dice: Dice,
    held: Vec<Entry>,
    waiting: VecDeque<Vec<u8>>,
}

/// A request: its cluster and its payload.
type Request = (u16, Vec<u8>);

impl Session {
    /// That of a seed.
    pub fn new(seed: u64) -> Session {
        Session {
            dice: Dice::new(seed, "answer"),
            held: Vec::new(),
            waiting: VecDeque::new(),
        }
    }

    /// The next line.
    pub fn line(&mut self) -> Vec<u8> {
        loop {
            if let Some(line) = self.waiting.pop_front() {
                return line;
            }
            self.scene();
        }
    }

    /// Puts the lines of another scene in the queue.
    fn scene(&mut self) {
        match self.dice.below(96) {
            0 => self.fill(),
            1 => self.empty(),
            2 | 3 => self.thin_out(),
            4 => self.long(),
            _ => self.single(),
        }
    }

    /// Binds until the table is full, and more; binds again what is held then, and unbinds what is not.
    fn fill(&mut self) {
        while self.held.len() < LIMIT {
            let entry = self.absent();
            self.link(BIND, entry);
            self.sometimes();
        }
        for _ in 0..1 + self.dice.below(4) {
            let entry = self.absent();
            let cluster = self.dice.pick(&[BIND, BIND, UNBIND]);
            self.link(cluster, entry);
            let entry = self.some_held();
            self.link(BIND, entry);
        }
    }

    /// Unbinds all: from the front, from the end, or from anywhere. Then some of that again.
    fn empty(&mut self) {
        let order = self.dice.below(3);
        let mut gone = Vec::new();
        while !self.held.is_empty() {
            let place = match order {
                0 => 0,
                1 => self.held.len() - 1,
                _ => self.dice.below(self.held.len()),
            };
            gone.push(self.held[place]);
            self.link(UNBIND, self.held[place]);
        }
        for _ in 0..gone.len().min(2) {
            let entry = self.dice.pick(&gone);
            self.link(UNBIND, entry);
        }
    }

    /// Unbinds some, binds one of them again, and unbinds each once more.
    fn thin_out(&mut self) {
        let mut gone = Vec::new();
        for _ in 0..self.dice.below(self.held.len() + 1).min(6) {
            gone.push(self.some_held());
            self.link(UNBIND, gone[gone.len() - 1]);
            self.sometimes();
        }
        if !gone.is_empty() {
            let entry = self.dice.pick(&gone);
            self.link(BIND, entry);
        }
        for entry in gone {
            self.link(UNBIND, entry);
        }
    }

    /// A line of the most characters, or one that is too long with a good one behind it.
    fn long(&mut self) {
        let (cluster, request) = self.request();
        let length = LONGEST_GOOD - self.dice.pick(&[0, 0, 2]);
        let request = stretched(&mut self.dice, request, length);
        if self.dice.one_in(2) {
            return self.ask(cluster, request);
        }
        let longest = stretched(&mut self.dice, request, LONGEST_GOOD);
        let longest = line(&mut self.dice, cluster, &longest);
        let (cluster, request) = self.request();
        let good = line(&mut self.dice, cluster, &request);
        let long = overlong(&mut self.dice, &longest, &good);
        self.waiting.push_back(long);
        self.ask(cluster, request);
    }

    /// A single line: mostly a request.
    fn single(&mut self) {
        let (cluster, request) = self.request();
        match self.dice.below(20) {
            0 => {
                let cluster = unknown(&mut self.dice);
                let length = self.dice.pick(&[1, 2, 3, 10, request.len()]);
                self.ask(cluster, request[..length.min(request.len())].to_vec());
            }
            1..4 => {
                let line = line(&mut self.dice, cluster, &request);
                let line = misshapen(&mut self.dice, line);
                self.waiting.push_back(line);
            }
            _ => {
                let request = sized(&mut self.dice, request);
                self.ask(cluster, request);
            }
        }
    }

    /// One time of four a single line.
    fn sometimes(&mut self) {
        if self.dice.one_in(4) {
            self.single();
        }
    }

    /// Puts the line of a request in the queue, and keeps up with what is held then.
    fn ask(&mut self, cluster: u16, request: Vec<u8>) {
        let line = line(&mut self.dice, cluster, &request);
        self.waiting.push_back(line);
        let Some(entry) = entry(&request) else {
            return;
        };
        let place = self.held.iter().position(|held| *held == entry);
        match (cluster, place) {
            (BIND, None) if self.held.len() < LIMIT => self.held.push(entry),
            (UNBIND, Some(place)) => drop(self.held.remove(place)),
            _ => {}
        }
    }

    /// Asks to bind or unbind an entry, with bytes behind the request at times.
    fn link(&mut self, cluster: u16, entry: Entry) {
        let mut request = entries::payload(self.dice.byte(), &entry);
        if self.dice.one_in(8) {
            let count = 1 + self.dice.below(9);
            request.extend(self.dice.bytes(count));
        }
        self.ask(cluster, request);
    }

    /// An entry that is not held: any, or one that differs in one field from one that is.
    fn absent(&mut self) -> Entry {
        loop {
            let entry = match self.dice.below(2) {
                0 => fresh(&mut self.dice),
                _ => self.close(),
            };
            if !self.held.contains(&entry) {
                return entry;
            }
        }
    }

    /// One that is held, or any if none is.
    fn some_held(&mut self) -> Entry {
        match self.held.len() {
            0 => fresh(&mut self.dice),
            count => self.held[self.dice.place(count)],
        }
    }

    /// One that differs in one field from one that is held.
    fn close(&mut self) -> Entry {
        let entry = self.some_held();
        near(&mut self.dice, entry)
    }

    /// A whole request to one of the ten clusters.
    fn request(&mut self) -> Request {
        match self.dice.below(12) {
            0 | 1 => (BIND, self.linking()),
            2 | 3 => (UNBIND, self.linking()),
            _ => {
                let cluster = self.dice.pick(&UNLINKED);
                (cluster, payload(&mut self.dice, cluster))
            }
        }
    }

    /// A bind or unbind request about an entry that is held, or near to one, or any. Some have another source address, endpoint or
    /// mode, or more than one of these.
    fn linking(&mut self) -> Vec<u8> {
        let entry = match self.dice.below(4) {
            0 | 1 => self.some_held(),
            2 => self.close(),
            _ => self.absent(),
        };
        let dice = &mut self.dice;
        let mut request = entries::payload(dice.byte(), &entry);
        if dice.one_in(8) {
            request[9] = dice.pick(&[0, 3, 0x11, 0x81, 0xF2, 0xFE, 0xFF]);
        }
        if dice.one_in(8) {
            request[12] = dice.pick(&[0, 2, 4, 5, 0x11, 0x13, 0x81, 0x83, 0xFE, 0xFF]);
        }
        let source = match dice.below(8) {
            0 => stranger(dice),
            1 => ieee(dice),
            _ => return request,
        };
        request[1..9].copy_from_slice(&source.to_le_bytes());
        request
    }
}
