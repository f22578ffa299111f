//! The crate `sampled`, which holds equations for the prover: a page for each function, a declaration for each question.

use std::collections::BTreeMap;
use std::fs;
use std::io;
use std::path::Path;

use super::Part;

/// The crates whose definitions the equations cite.
const CITED: [&str; 14] = [
    "zigbee_types",
    "node_flags",
    "node_descriptor",
    "power_names",
    "node_power_descriptor",
    "simple_descriptor",
    "aps_binding",
    "aps_binding_table",
    "zdo_requests",
    "zdo_replies",
    "zdo_readers",
    "zdo_device",
    "zdo_matching",
    "zdo_device_rsp",
];

/// These crates and all crates of the repository that they depend on, by its crates.txt.
pub fn dependencies(crates_txt: &str) -> Vec<String> {
    let lines = crates_txt.lines();
    let lines = lines.filter_map(|line| line.split('#').next()?.split_once(':'));
    let needs: BTreeMap<&str, &str> = lines.map(|(name, needs)| (name.trim(), needs)).collect();
    let mut found = CITED.to_vec();
    let mut i = 0;
    while i < found.len() {
        for need in needs.get(found[i]).unwrap_or(&"").split_whitespace() {
            if needs.contains_key(need) && !found.contains(&need) {
                found.push(need);
            }
        }
        i += 1;
    }
    found.into_iter().map(str::to_string).collect()
}

/// The name that a line of definitions declares, if it marks it as public and unfoldable.
fn unfoldable(line: &str) -> Option<&str> {
    let words: Vec<&str> = line.split_whitespace().collect();
    match words[..] {
        ["unfoldable", "pub", "use", ..] => None,
        ["unfoldable", "pub", name, ..] | ["unfoldable", "abbrev", "pub", name, ..] => Some(name),
        _ => None,
    }
}

/// The modules of definitions of a crate, each with its unfoldable names.
fn modules(folder: &Path) -> io::Result<Vec<(String, Vec<String>)>> {
    let mut modules = Vec::new();
    let specs = folder.join("specs");
    if !specs.is_dir() {
        return Ok(modules);
    }
    for file in fs::read_dir(specs)? {
        let path = file?.path();
        let name = path.file_stem().unwrap_or_default().to_string_lossy();
        let text = fs::read_to_string(&path)?;
        let names: Vec<String> = text
            .lines()
            .filter_map(unfoldable)
            .map(str::to_string)
            .collect();
        if !names.is_empty() {
            modules.push((name.to_string(), names));
        }
    }
    modules.sort();
    Ok(modules)
}

/// What stands on top of each page, and the line of each declaration that names every definition to compute with.
pub struct Frame {
    header: String,
    unfolding: String,
}

impl Frame {
    /// Read from the definitions of these crates.
    pub fn read(folder: &Path, crates: &[String]) -> io::Result<Frame> {
        let mut header = include_str!("header.txt").to_string();
        let mut unfolding = "unfolding".to_string();
        for name in crates {
            for (module, names) in modules(&folder.join(name))? {
                let alias = format!("{name}_{module}");
                header += &format!("use Rattle.{name}.specs.{module} as {alias}\n");
                for name in names {
                    unfolding += &format!(" {alias}.{name}");
                }
            }
        }
        Ok(Frame { header, unfolding })
    }

    /// A page with these declarations.
    pub fn page<'a>(&self, declarations: impl Iterator<Item = (String, &'a [Part])>) -> String {
        let mut page = self.header.clone();
        for (name, parts) in declarations {
            page += &self.declaration(&name, parts);
        }
        page
    }

    /// All equations of one question, and the proof that both sides of each compute to the same.
    fn declaration(&self, name: &str, parts: &[Part]) -> String {
        let equations: Vec<String> = parts
            .iter()
            .map(|p| format!("{} ≡ {}", p.left, p.right))
            .collect();
        let (claim, proof) = match &equations[..] {
            [one] => (one.clone(), "refl".to_string()),
            all => (
                format!("({})", all.join(") × (")),
                format!("({})", vec!["refl"; all.len()].join(", ")),
            ),
        };
        format!(
            "\npub {name} : {claim}\n{}\n{name} = {proof}\n",
            self.unfolding
        )
    }
}

/// Writes the crate with these pages, each a name and a text.
pub fn write(folder: &Path, pages: &[(String, String)]) -> io::Result<()> {
    let _ = fs::remove_dir_all(folder);
    fs::create_dir_all(folder.join("src"))?;
    fs::create_dir_all(folder.join("proofs"))?;
    fs::write(
        folder.join("src/lib.rt"),
        "// No code: equations stand in proofs/.\n\n#![tactic(auto)]\n",
    )?;
    fs::write(
        folder.join("proofs/Shapes.antt"),
        include_str!("shapes.txt"),
    )?;
    let mut root = "pub mod Shapes\n".to_string();
    for (name, text) in pages {
        root += &format!("pub mod {name}\n");
        fs::write(folder.join(format!("proofs/{name}.antt")), text)?;
    }
    fs::write(folder.join("proofs/Lib.antt"), root)
}
