//! The Rust's files, unchanged, at their paths (build.rs). Behind each stands its probe, a module `probe` that makes its
//! private items callable.

include!(concat!(env!("OUT_DIR"), "/modules.rs"));
