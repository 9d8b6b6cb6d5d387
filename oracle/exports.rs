//! Finds which functions the archive of SURUKEVA_LIBRARY exports, and links it. Each is known to
//! the compiler as `export = "NAME"`, so an archive need not have them all.

use std::collections::BTreeSet;

const PREFIXES: [&[u8]; 2] = [b"parts_", b"surukeva_"];

fn main() {
    println!("cargo::rustc-check-cfg=cfg(export, values(any()))");
    println!("cargo::rerun-if-env-changed=SURUKEVA_LIBRARY");
    println!("cargo::rerun-if-changed=exports.rs");
    let Ok(path) = std::env::var("SURUKEVA_LIBRARY") else { return };
    if std::env::var_os("CARGO_FEATURE_LIBRARY").is_none() {
        return;
    }
    println!("cargo::rerun-if-changed={path}");
    let archive = std::fs::read(&path).expect("the archive can be read");
    for name in names(&archive) {
        println!("cargo::rustc-cfg=export=\"{name}\"");
    }
    println!("cargo::rustc-link-arg-bins={path}");
    println!("cargo::rustc-link-arg-bins=-lm");
}

/// The names in the archive's tables, from a prefix to their end; tables may share the ends of
/// longer names.
fn names(archive: &[u8]) -> BTreeSet<String> {
    let mut names = BTreeSet::new();
    for word in archive.split(|byte| *byte == 0) {
        for prefix in PREFIXES {
            let Some(at) = word.windows(prefix.len()).rposition(|w| w == prefix) else { continue };
            let name = &word[at..];
            if name.iter().all(|b| b.is_ascii_alphanumeric() || *b == b'_') {
                names.insert(String::from_utf8_lossy(name).into_owned());
            }
        }
    }
    names
}
