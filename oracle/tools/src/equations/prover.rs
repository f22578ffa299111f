//! The prover's verdict on samples.

use std::collections::BTreeMap;
use std::fs;
use std::path::Path;
use std::process::Command;

use super::page::{self, Frame};
use super::samples::Sample;
use crate::functions::functions;

pub type Fault = Box<dyn std::error::Error>;

/// What the prover says against samples, by their places. The folder has a copy of the repository's crates.txt and crates/.
/// A check that fails is followed by one without what was refused, so that in the end all others stand in a crate that is
/// proved.
pub fn refusals(folder: &Path, samples: &[Sample]) -> Result<BTreeMap<usize, String>, Fault> {
    let crates_txt = fs::read_to_string(folder.join("crates.txt"))?;
    let needs = page::dependencies(&crates_txt);
    if !crates_txt.lines().any(|line| line.starts_with("sampled:")) {
        let line = format!("sampled: {}\n", needs.join(" "));
        fs::write(folder.join("crates.txt"), crates_txt + &line)?;
    }
    let frame = Frame::read(&folder.join("crates"), &needs)?;
    let mut refused = BTreeMap::new();
    while refused.len() < samples.len() {
        let left = samples
            .iter()
            .enumerate()
            .filter(|(i, _)| !refused.contains_key(i));
        page::write(
            &folder.join("crates/sampled"),
            &pages(&frame, left.collect()),
        )?;
        let more = check(folder)?;
        if more.is_empty() {
            break;
        }
        refused.extend(more);
    }
    Ok(refused)
}

/// A page for each function.
fn pages(frame: &Frame, samples: Vec<(usize, &Sample)>) -> Vec<(String, String)> {
    let mut pages = Vec::new();
    for (i, function) in functions().iter().enumerate() {
        let own: Vec<_> = samples
            .iter()
            .filter(|(_, s)| s.function == function.name)
            .collect();
        if !own.is_empty() {
            let text = frame.page(own.iter().map(|(place, s)| (name(*place), &s.parts[..])));
            pages.push((format!("F{:02}", i + 1), text));
        }
    }
    pages
}

/// The name of a sample's declaration.
fn name(place: usize) -> String {
    format!("e{place}")
}

/// Has the crate proved: no refusals if it is, and otherwise at least one.
fn check(folder: &Path) -> Result<BTreeMap<usize, String>, Fault> {
    let mut command = Command::new("rt");
    let output = command
        .arg("check")
        .current_dir(folder.join("crates/sampled"))
        .output()?;
    let said = String::from_utf8_lossy(&output.stdout).to_string()
        + &String::from_utf8_lossy(&output.stderr);
    if output.status.success() {
        return Ok(BTreeMap::new());
    }
    match errors(&said) {
        Some(refused) if !refused.is_empty() => Ok(refused),
        _ => Err(format!("rt check failed, and not by an equation:\n{said}").into()),
    }
}

/// The samples that the prover speaks against, and what it says; `None` if it speaks against anything else.
fn errors(said: &str) -> Option<BTreeMap<usize, String>> {
    let mut refused: BTreeMap<usize, String> = BTreeMap::new();
    let mut last = None;
    for line in said.lines() {
        if let Some((place, error)) = line.split_once(": error: ") {
            let (name, message) = error.strip_prefix("`e")?.split_once("`: ")?;
            let sample = name
                .parse()
                .ok()
                .filter(|_| place.starts_with("./proofs/F"))?;
            refused.entry(sample).or_default().push_str(message);
            last = Some(sample);
        } else if let Some(sample) = last.filter(|_| line.starts_with("  ")) {
            refused.entry(sample).or_default().push_str(&line[1..]);
        } else {
            last = None;
        }
    }
    Some(refused)
}
