//! Links the archive of the proved library, which
//! `host/build-library` proves, builds and lays below the repository's main
//! folder.

use std::path::Path;
use std::process::exit;

/// From this package's folder to the archive's.
const ARCHIVE_FOLDER: &str = "../../target/staticlib";

const ARCHIVE: &str = "libbridge.a";

fn main() {
    let package = std::env::var_os("CARGO_MANIFEST_DIR").unwrap_or_default();
    let folder = Path::new(&package).join(ARCHIVE_FOLDER);
    let archive = folder.join(ARCHIVE);
    println!("cargo:rerun-if-changed={}", archive.display());
    if !archive.is_file() {
        eprintln!("{} is missing: run host/build-library", archive.display());
        exit(1);
    }
    println!("cargo:rustc-link-search=native={}", folder.display());
    println!("cargo:rustc-link-lib=static=bridge");
}
