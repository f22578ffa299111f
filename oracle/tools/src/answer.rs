//! The program `answer` of document 01 ("Counter-cases"). No Rust has it: what it prints is said by a model of document 01's text
//! over the Rust's own functions (`model`, `dispatcher`, `device`), and that model is held against answers derived by hand (`cases`).
//! The program is asked the lines of fresh sessions (`sessions`), and its output is compared with the model's.

pub mod cases;
pub mod device;
pub mod dispatcher;
pub mod ends;
mod entries;
pub mod kinds;
mod misshapen;
pub mod model;
mod requests;
pub mod sessions;
