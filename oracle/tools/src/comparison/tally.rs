//! Exchanges counted by cell, and the counts kept in a folder: `cells` has a line for each cell, and `seen` a hash of eight bytes for
//! each different question, in the order of the cells. So the counts of many runs can be added, and how many questions differ too.

use std::collections::BTreeMap;
use std::fs;
use std::hash::{DefaultHasher, Hash, Hasher};
use std::path::Path;

use super::Exchange;

/// The questions of one cell, how many answers differ, and a hash of each question.
#[derive(Default)]
pub struct Count {
    questions: usize,
    differences: usize,
    seen: Vec<u64>,
}

impl Count {
    /// How many questions there are, how many different ones, and how many answers differ.
    pub fn numbers(&self) -> [usize; 3] {
        [self.questions, self.seen.len(), self.differences]
    }

    /// Keeps each hash once.
    fn once(&mut self) {
        self.seen.sort_unstable();
        self.seen.dedup();
    }
}

/// The counts by row and kind.
#[derive(Default)]
pub struct Tally(pub BTreeMap<(String, String), Count>);

impl Tally {
    /// Counts exchanges.
    pub fn of(exchanges: &[Exchange]) -> Tally {
        let mut tally = Tally::default();
        for exchange in exchanges {
            let cell = (exchange.row.clone(), exchange.kind.clone());
            let count = tally.0.entry(cell).or_default();
            count.questions += 1;
            count.differences += usize::from(exchange.differs);
            count.seen.push(hash(exchange.question));
        }
        tally.0.values_mut().for_each(Count::once);
        tally
    }

    /// The sum of what folders have.
    pub fn sum<P: AsRef<Path>>(folders: &[P]) -> Result<Tally, String> {
        let mut tally = Tally::default();
        for folder in folders {
            let folder = folder.as_ref();
            tally
                .add(folder)
                .ok_or_else(|| format!("{}: no counts", folder.display()))?;
        }
        tally.0.values_mut().for_each(Count::once);
        Ok(tally)
    }

    /// Adds what a folder has; none if it is not whole.
    fn add(&mut self, folder: &Path) -> Option<()> {
        let cells = fs::read_to_string(folder.join("cells")).ok()?;
        let seen = fs::read(folder.join("seen")).ok()?;
        let (mut hashes, []) = seen.as_chunks::<8>() else {
            return None;
        };
        for line in cells.lines() {
            let [row, kind, questions, different, differences] =
                line.split('\t').collect::<Vec<&str>>()[..]
            else {
                return None;
            };
            let cell = (row.to_string(), kind.to_string());
            let count = self.0.entry(cell).or_default();
            count.questions += questions.parse::<usize>().ok()?;
            count.differences += differences.parse::<usize>().ok()?;
            let (own, rest) = hashes.split_at_checked(different.parse().ok()?)?;
            count
                .seen
                .extend(own.iter().map(|h| u64::from_le_bytes(*h)));
            hashes = rest;
        }
        hashes.is_empty().then_some(())
    }

    /// Writes what a folder shall have, `cells` last.
    pub fn write(&self, folder: &Path) -> std::io::Result<()> {
        let hashes = self.0.values().flat_map(|count| &count.seen);
        let hashes: Vec<u8> = hashes.flat_map(|hash| hash.to_le_bytes()).collect();
        let line = |((row, kind), count): (&(String, String), &Count)| {
            let [questions, different, differences] = count.numbers();
            format!("{row}\t{kind}\t{questions}\t{different}\t{differences}\n")
        };
        let cells: String = self.0.iter().map(line).collect();
        fs::write(folder.join("seen"), hashes)?;
        fs::write(folder.join("cells"), cells)
    }
}

/// A hash of a question.
fn hash(question: &[u8]) -> u64 {
    let mut hasher = DefaultHasher::new();
    question.hash(&mut hasher);
    hasher.finish()
}
