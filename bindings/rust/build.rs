//! Links the archive that `tools/build` writes, or the one that Z_LIB
//! names. Which calls it has, the build script of a crate above knows by
//! DEP_CAPI_CALLS.

use std::path::{Path, PathBuf};
use std::process::Command;

fn main() {
    let archive = archive();
    assert!(archive.exists(), "no archive at {}: tools/build writes it", archive.display());
    println!("cargo::rerun-if-env-changed=Z_LIB");
    println!("cargo::rerun-if-changed=build.rs");
    println!("cargo::rerun-if-changed={}", archive.display());
    println!("cargo::metadata=archive={}", archive.display());
    println!("cargo::metadata=calls={}", symbols(&archive).join(" "));
    link(&archive);
}

fn archive() -> PathBuf {
    let path = match std::env::var("Z_LIB") {
        Ok(path) if !path.is_empty() => PathBuf::from(path),
        _ => PathBuf::from("../../target/staticlib/libcapi.a"),
    };
    path.canonicalize().unwrap_or(path)
}

/// The calls that the archive defines.
fn symbols(archive: &Path) -> Vec<String> {
    let output = Command::new("nm").arg("--defined-only").arg(archive).output().expect("nm runs");
    let text = String::from_utf8_lossy(&output.stdout).into_owned();
    let name = |line: &str| match line.split_whitespace().collect::<Vec<_>>()[..] {
        [_, "T" | "W", name] if name.starts_with("z_") => Some(name.to_string()),
        _ => None,
    };
    text.lines().filter_map(name).collect()
}

fn link(archive: &Path) {
    let directory = archive.parent().expect("the archive's directory");
    let stem = archive.file_stem().expect("a name").to_string_lossy().into_owned();
    let name = stem.strip_prefix("lib").expect("the archive is called lib*.a");
    println!("cargo::rustc-link-search=native={}", directory.display());
    println!("cargo::rustc-link-lib=static={name}");
}
