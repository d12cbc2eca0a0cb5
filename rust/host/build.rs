//! Finds the static library of the crate `host` and links it.

use std::env;
use std::path::{Path, PathBuf};

/// Names the archive, where it is not the checkout's.
const VARIABLE: &str = "MURGWETHAN_ARCHIVE";
/// Where `rust/archive host` puts it, seen from this folder.
const ARCHIVE: &str = "../../target/staticlib/libhost.a";

fn main() {
    println!("cargo:rerun-if-env-changed={VARIABLE}");
    let archive = match archive() {
        Ok(path) => path,
        Err(reason) => {
            eprintln!("{reason}");
            std::process::exit(1);
        }
    };
    println!("cargo:rerun-if-changed={}", archive.display());
    println!("cargo:rustc-env={VARIABLE}={}", archive.display());
    // Where nothing is linked (cargo check, cargo doc) there need be no archive.
    if !archive.exists() {
        println!(
            "cargo:warning=no archive at {}: to link, run rust/archive host, or set {VARIABLE} to one",
            archive.display()
        );
    }
    if let Some(folder) = archive.parent() {
        println!("cargo:rustc-link-search=native={}", folder.display());
    }
    // The archive becomes a part of this crate's library, and so of a kernel that is a `staticlib`.
    println!("cargo:rustc-link-lib=static=host");
}

/// The whole path of the archive, whether it is there or not. It has the name that the linker looks for.
fn archive() -> Result<PathBuf, String> {
    let given = env::var(VARIABLE).ok().filter(|path| !path.is_empty());
    let path = match given {
        Some(path) => PathBuf::from(path),
        None => Path::new(env!("CARGO_MANIFEST_DIR")).join(ARCHIVE),
    };
    if path.file_name().is_none_or(|name| name != "libhost.a") {
        return Err(format!("{VARIABLE} must name a file libhost.a, not {}", path.display()));
    }
    std::path::absolute(&path).map_err(|error| format!("{}: {error}", path.display()))
}
