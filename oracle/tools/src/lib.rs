//! What the tools share: the words of a line (README.md, "Lines"), the table of functions, the questions of a seed, the kinds
//! of answers, the readers of replies that document 01 adds, the model of its program `answer`, and comparisons by cell.

pub mod answer;
pub mod cells;
pub mod comparison;
pub mod equations;
pub mod functions;
pub mod kinds;
pub mod questions;
pub mod readers;
pub mod words;
