//! The table of functions (functions.txt).

/// What decides a function's answers.
#[derive(Clone, Copy, Debug, PartialEq, Eq)]
pub enum Decides {
    /// The Rust's text alone.
    Rust,
    /// The Rust's text over the stand-in of `byte`.
    Byte,
    /// The stand-in of this name.
    StandIn(&'static str),
}

/// One function that the oracle answers for.
#[derive(Clone, Copy, Debug)]
pub struct Function {
    pub name: &'static str,
    pub decides: Decides,
    /// Does replay speak it?
    pub spoken: bool,
}

/// All of them, in the order of the table.
pub fn functions() -> Vec<Function> {
    include_str!("../../functions.txt")
        .lines()
        .filter(|line| !line.starts_with('#') && !line.trim().is_empty())
        .map(function)
        .collect()
}

fn function(line: &'static str) -> Function {
    let columns: Vec<&str> = line.split('|').map(str::trim).collect();
    let [name, decides, spoken] = columns[..] else {
        panic!("functions.txt: {line}");
    };
    let decides = match decides {
        "rust" => Decides::Rust,
        "byte" => Decides::Byte,
        other => Decides::StandIn(
            other
                .strip_prefix("stand-in ")
                .expect("functions.txt: what decides"),
        ),
    };
    Function {
        name,
        decides,
        spoken: spoken == "yes",
    }
}
