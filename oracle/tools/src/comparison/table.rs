//! The table of a comparison: rows by kinds of answers.

use std::collections::BTreeMap;

use super::tally::{Count, Tally};
use crate::cells::{CELLS, Cell};
use crate::functions::{Decides, Function, functions};
use crate::kinds::{PARTS, part_of};

/// The titles of the parts: those of the functions, and of the two other comparisons.
const TITLES: [&str; 5] = [
    PARTS[0],
    PARTS[1],
    PARTS[2],
    "the readers that document 01 adds, compared with their model",
    "the program `answer`, compared with its model over the Rust",
];

/// Prints the table of these comparisons, and what is missing. True if nothing differs, each cell that can be reached has so many
/// questions at least, and no other cell has any.
pub fn print(comparisons: &[&str], least: usize, tally: &Tally) -> bool {
    let functions = functions();
    let asked = |cell: &&Cell| comparisons.contains(&cell.comparison);
    let cells: Vec<&Cell> = CELLS.iter().filter(asked).collect();
    for (part, title) in TITLES.iter().enumerate() {
        let own = cells
            .iter()
            .filter(|cell| part_of_cell(cell, &functions) == part);
        print_part(title, &functions, own.copied(), tally);
    }
    print_unreached(&cells);
    let scarce = print_scarce(&cells, least, tally);
    let strange = print_strange(&cells, tally);
    let [questions, different, differences] = sums(tally.0.values());
    println!("{questions} questions ({different} different), {differences} differences");
    questions > 0 && differences == 0 && !scarce && !strange
}

/// The function of a cell.
fn function_of<'a>(cell: &Cell, functions: &'a [Function]) -> Option<&'a Function> {
    functions.iter().find(|function| function.name == cell.row)
}

/// The part in which a cell is printed.
fn part_of_cell(cell: &Cell, functions: &[Function]) -> usize {
    match (cell.comparison, function_of(cell, functions)) {
        (_, Some(function)) => part_of(function, cell.kind),
        ("readers", _) => PARTS.len(),
        _ => PARTS.len() + 1,
    }
}

/// A row's name, and of a function the stand-in that decides.
fn title_of(cell: &Cell, functions: &[Function]) -> String {
    match function_of(cell, functions) {
        Some(function) => match function.decides {
            Decides::StandIn(stand_in) => format!("{} ({stand_in})", cell.row),
            _ if part_of(function, cell.kind) == 2 => format!("{} (byte)", cell.row),
            _ => cell.row.to_string(),
        },
        None => cell.row.to_string(),
    }
}

/// Prints the cells of a part that were reached, and their sum.
fn print_part<'a>(
    title: &str,
    functions: &[Function],
    cells: impl Iterator<Item = &'a Cell>,
    tally: &Tally,
) {
    let counted = cells.filter_map(|cell| Some((cell, tally.0.get(&key(cell))?)));
    let counted: Vec<_> = counted.collect();
    if counted.is_empty() {
        return;
    }
    println!("{title}");
    print_row("", "answer", ["questions", "different", "differences"]);
    for (cell, count) in &counted {
        print_row(&title_of(cell, functions), cell.kind, count.numbers());
    }
    print_row(
        "all of these",
        "",
        sums(counted.into_iter().map(|(_, count)| count)),
    );
    println!();
}

/// A cell as the tally has it.
fn key(cell: &Cell) -> (String, String) {
    (cell.row.to_string(), cell.kind.to_string())
}

/// Prints five columns.
fn print_row<T: std::fmt::Display>(
    row: &str,
    kind: &str,
    [questions, different, differences]: [T; 3],
) {
    println!("  {row:<44}{kind:<20}{questions:>10}{different:>10}{differences:>13}");
}

/// The sums of three columns.
fn sums<'a>(counts: impl Iterator<Item = &'a Count>) -> [usize; 3] {
    let add = |sums: [usize; 3], row: [usize; 3]| [0, 1, 2].map(|n| sums[n] + row[n]);
    counts.map(Count::numbers).fold([0; 3], add)
}

/// Prints the cells that no question reaches, by reason.
fn print_unreached(cells: &[&Cell]) {
    let mut reasons: BTreeMap<&str, Vec<String>> = BTreeMap::new();
    for cell in cells {
        if let Some(reason) = cell.unreached {
            let name = format!("{} {}", cell.row, cell.kind);
            reasons.entry(reason).or_default().push(name);
        }
    }
    println!("cells without questions");
    for (reason, names) in reasons {
        println!("  {reason}: {}", names.join("; "));
    }
}

/// Prints how many cells can be reached, the one with the fewest questions, and those with too few. True if there are any of these.
fn print_scarce(cells: &[&Cell], least: usize, tally: &Tally) -> bool {
    let reachable = cells.iter().filter(|cell| cell.unreached.is_none());
    let asked = |cell: &Cell| tally.0.get(&key(cell)).map_or(0, |c| c.numbers()[0]);
    let mut counted: Vec<(usize, &Cell)> = reachable.map(|cell| (asked(cell), *cell)).collect();
    counted.sort_by_key(|(questions, _)| *questions);
    if let Some((fewest, cell)) = counted.first() {
        let (row, kind, count) = (cell.row, cell.kind, counted.len());
        println!("{count} cells to be reached; the fewest questions: {row}, {kind}: {fewest}");
    }
    let scarce = counted
        .iter()
        .take_while(|(questions, _)| *questions < least);
    for (questions, Cell { row, kind, .. }) in scarce.clone() {
        println!("fewer than {least} questions: {row}, {kind}: {questions}");
    }
    scarce.count() > 0
}

/// Prints the cells that have questions and are not among those that can be reached. True if there are any.
fn print_strange(cells: &[&Cell], tally: &Tally) -> bool {
    let mut strange = false;
    for ((row, kind), count) in &tally.0 {
        let known = cells
            .iter()
            .any(|cell| cell.unreached.is_none() && cell.row == row && cell.kind == kind);
        if !known {
            println!(
                "no cell that questions reach: {row}, {kind}: {}",
                count.numbers()[0]
            );
            strange = true;
        }
    }
    strange
}
