//! Links the proved archive.

use std::env;
use std::path::{Path, PathBuf};
use std::process::exit;

const ARCHIVE: &str = "libreefmitten.a";

fn main() {
    println!("cargo:rerun-if-env-changed=REEFMITTEN_LIB");
    let folder = folder();
    println!("cargo:rerun-if-changed={}", folder.join(ARCHIVE).display());
    if !folder.join(ARCHIVE).is_file() {
        refuse(&folder);
    }
    println!("cargo:rustc-link-search=native={}", folder.display());
    println!("cargo:rustc-link-lib=static=reefmitten");
}

/// The folder that REEFMITTEN_LIB names, or the one that the archive is built into. A relative
/// one is taken from this package's folder, and made absolute: the linker runs elsewhere.
fn folder() -> PathBuf {
    let package = PathBuf::from(env::var_os("CARGO_MANIFEST_DIR").unwrap_or_default());
    let named = env::var_os("REEFMITTEN_LIB").filter(|name| !name.is_empty());
    let folder = package.join(named.unwrap_or("../crates/reefmitten/out".into()));
    folder.canonicalize().unwrap_or(folder)
}

fn refuse(folder: &Path) -> ! {
    eprintln!("There is no {ARCHIVE} in {}.", folder.display());
    eprintln!("Run `rt lib` in the repository's folder crates/reefmitten to prove and build it,");
    eprintln!("or let REEFMITTEN_LIB name the folder that it is in.");
    exit(1)
}
