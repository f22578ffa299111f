//! Copies the Rust's files into the build, each with its probe behind it, and stops where a copy does not begin with
//! exactly the original.

use std::env;
use std::fs;
use std::path::{Path, PathBuf};

/// The five files, by their paths in the Rust's crate; a probe has the file's name.
const FILES: [&str; 5] = [
    "zdo/descriptor.rs",
    "apl/descriptors/node_descriptor.rs",
    "apl/descriptors/node_power_descriptor.rs",
    "apl/descriptors/simple_descriptor.rs",
    "aps/binding.rs",
];

/// Of this file one enum is taken.
const MANAGEMENT: &str = "nwk/nlme/management.rs";

fn main() {
    let sources = sources();
    let out = PathBuf::from(env::var_os("OUT_DIR").expect("cargo sets OUT_DIR"));
    for file in FILES {
        copy(&sources, file, &out);
    }
    let management = read(&sources.join(MANAGEMENT));
    fs::write(out.join("management.rs"), leave_status(&management)).expect("management.rs");
    fs::write(out.join("modules.rs"), modules(&out)).expect("modules.rs");
    println!("cargo::rerun-if-env-changed=ZIGBEE_CORE");
    println!("cargo::rerun-if-changed=probes");
    println!("cargo::rerun-if-changed=build.rs");
}

/// Where the Rust's crate stands, as the script `build` says.
fn sources() -> PathBuf {
    PathBuf::from(env::var_os("ZIGBEE_CORE").expect("ZIGBEE_CORE is not set: run oracle/build"))
}

fn read(path: &Path) -> String {
    println!("cargo::rerun-if-changed={}", path.display());
    fs::read_to_string(path).unwrap_or_else(|e| panic!("{}: {e}", path.display()))
}

/// The original, then the probe.
fn copy(sources: &Path, file: &str, out: &Path) {
    let original = read(&sources.join(file));
    let name = Path::new(file).file_name().expect("a file");
    let probe = read(&Path::new("probes").join(name));
    let path = out.join(name);
    fs::write(&path, format!("{original}\n{probe}")).expect("a copy");
    let written = fs::read(&path).expect("a copy");
    let unchanged = fs::read(sources.join(file)).expect("an original");
    assert!(
        written.starts_with(&unchanged),
        "{file}: the copy does not begin with the original"
    );
}

/// The text of `NlmeLeaveStatus`, with the lines of comment and attributes above it.
fn leave_status(management: &str) -> String {
    let name = management
        .find("pub enum NlmeLeaveStatus {")
        .expect("management.rs: the enum");
    let start = management[..name]
        .rfind("\n\n")
        .expect("management.rs: a blank line")
        + 2;
    let end = name
        + management[name..]
            .find("\n}\n")
            .expect("management.rs: its end")
        + 3;
    management[start..end].to_string()
}

/// The modules, at the paths by which the files call each other.
fn modules(out: &Path) -> String {
    let module = |name: &str| {
        let path = out.join(name).with_extension("rs");
        format!("#[path = {path:?}] pub mod {name};")
    };
    format!(
        "pub mod zdo {{ {} }}
pub mod apl {{ pub mod descriptors {{ {} {} {} }} }}
pub mod aps {{ {} }}
pub mod nwk {{ pub mod nlme {{ {} }} }}
",
        module("descriptor"),
        module("node_descriptor"),
        module("node_power_descriptor"),
        module("simple_descriptor"),
        module("binding"),
        module("management"),
    )
}
