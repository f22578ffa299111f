//! The list of cells (cells.txt): the kinds of answers that each row of a comparison can have.

use std::collections::HashSet;
use std::sync::LazyLock;

/// A row of a comparison, and a kind of answer.
pub struct Cell {
    pub comparison: &'static str,
    pub row: &'static str,
    pub kind: &'static str,
    /// Why no question reaches it, where that is so.
    pub unreached: Option<&'static str>,
}

/// All of them, in the order of the list.
pub static CELLS: LazyLock<Vec<Cell>> = LazyLock::new(|| {
    let lines = include_str!("../../cells.txt").lines();
    lines
        .filter(|line| !line.starts_with('#'))
        .map(cell)
        .collect()
});

/// Row and kind of each.
static LISTED: LazyLock<HashSet<(&str, &str)>> =
    LazyLock::new(|| CELLS.iter().map(|cell| (cell.row, cell.kind)).collect());

fn cell(line: &'static str) -> Cell {
    let columns: Vec<&str> = line.splitn(4, '|').map(str::trim).collect();
    let [comparison, row, kind, ref unreached @ ..] = columns[..] else {
        panic!("cells.txt: {line}");
    };
    Cell {
        comparison,
        row,
        kind,
        unreached: unreached.first().copied(),
    }
}

/// Has this row this kind of answer?
pub fn listed(row: &str, kind: &str) -> bool {
    LISTED.contains(&(row, kind))
}

/// The row of a comparison that begins so.
pub fn row_with(comparison: &str, front: &str) -> Option<&'static str> {
    let mut cells = CELLS.iter();
    let cell = cells.find(|cell| cell.comparison == comparison && cell.row.starts_with(front))?;
    Some(cell.row)
}
