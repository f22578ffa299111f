//! Compares what was expected with what a program answered:
//! `compare count COMPARISON FOLDER`, the files `questions`, `expected` and `actual` of a folder, line by line: writes how many answers
//! of each cell there are and how many differ (`cells` and `seen`), and fails if any do; `compare table COMPARISON LEAST FOLDER..`,
//! the table of what these folders have together: fails if answers differ, if a cell has fewer questions than LEAST, and if one is not
//! listed. COMPARISON is one of cells.txt, or `all`.

use std::path::Path;
use std::process::ExitCode;

use tools::comparison::tally::Tally;
use tools::comparison::{COMPARISONS, Compared, Exchange, compared, table};

const USAGE: &str = "count COMPARISON FOLDER, or table COMPARISON LEAST FOLDER..";

/// So many differences are printed, and so many characters of a line.
const SHOWN: usize = 10;
const CHARACTERS: usize = 400;

fn main() -> ExitCode {
    let words: Vec<String> = std::env::args().skip(1).collect();
    let words: Vec<&str> = words.iter().map(String::as_str).collect();
    let done = match words[..] {
        ["count", comparison, folder] => count(comparison, Path::new(folder)),
        ["table", comparison, least, ref folders @ ..] => tabled(comparison, least, folders),
        _ => Err(USAGE.to_string()),
    };
    match done {
        Ok(true) => ExitCode::SUCCESS,
        Ok(false) => ExitCode::FAILURE,
        Err(why) => {
            eprintln!("compare: {why}");
            ExitCode::from(2)
        }
    }
}

/// Counts what a folder has. True if nothing differs.
fn count(comparison: &str, folder: &Path) -> Result<bool, String> {
    let read = |name: &str| {
        let path = folder.join(name);
        std::fs::read(&path).map_err(|error| format!("{}: {error}", path.display()))
    };
    let texts = [read("questions")?, read("expected")?, read("actual")?];
    let Compared { exchanges, faults } = compared(comparison, texts.each_ref().map(Vec::as_slice))?;
    let alike = print_differences(&exchanges);
    faults.iter().for_each(|fault| println!("{fault}"));
    if !faults.is_empty() {
        return Err("the answers are not whole, and are not counted".to_string());
    }
    let tally = Tally::of(&exchanges);
    tally.write(folder).map_err(|error| error.to_string())?;
    Ok(alike)
}

/// Prints the first differences. True if there are none.
fn print_differences(exchanges: &[Exchange]) -> bool {
    let numbered = exchanges.iter().enumerate();
    let mut differing = numbered.filter(|(_, exchange)| exchange.differs).peekable();
    let alike = differing.peek().is_none();
    for (place, exchange) in differing.take(SHOWN) {
        println!("difference in line {}", place + 1);
        println!("  question {}", shown(exchange.question));
        println!("  expected {}", shown(exchange.expected));
        println!("  actual   {}", shown(exchange.actual));
    }
    alike
}

/// A line as it is shown: in printable characters, the front of it where it is long.
fn shown(line: &[u8]) -> String {
    let front = &line[..line.len().min(CHARACTERS)];
    match line.len() {
        0..=CHARACTERS => front.escape_ascii().to_string(),
        length => format!("{}.. ({length} characters)", front.escape_ascii()),
    }
}

/// Prints a table. True if nothing is wrong with it.
fn tabled(comparison: &str, least: &str, folders: &[&str]) -> Result<bool, String> {
    let least = least.parse().map_err(|_| format!("{least}: no number"))?;
    let comparisons = match comparison {
        "all" => &COMPARISONS[..],
        _ if COMPARISONS.contains(&comparison) => &[comparison],
        _ => return Err(format!("{comparison}: no comparison")),
    };
    Ok(table::print(comparisons, least, &Tally::sum(folders)?))
}
