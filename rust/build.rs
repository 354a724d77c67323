//! Links the archive that `./archive` writes at the root of the repository.

use std::env;
use std::path::PathBuf;

/// Names another folder that holds the archive.
const VARIABLE: &str = "TEMGURISK_ARCHIVE_DIR";

fn main() {
    println!("cargo:rustc-check-cfg=cfg(archive)");
    println!("cargo:rerun-if-env-changed={VARIABLE}");
    let folder = archive_folder();
    let archive = folder.join("libtemgurisk.a");
    println!("cargo:rerun-if-changed={}", archive.display());
    if !archive.is_file() {
        println!(
            "cargo:warning={} is not there: run `./archive` at the root of the repository, then build again",
            archive.display()
        );
        return;
    }
    println!("cargo:rustc-cfg=archive");
    println!("cargo:rustc-link-search=native={}", folder.display());
    println!("cargo:rustc-link-lib=static=temgurisk");
}

fn archive_folder() -> PathBuf {
    if let Some(folder) = env::var_os(VARIABLE) {
        return PathBuf::from(folder);
    }
    let package = PathBuf::from(env::var_os("CARGO_MANIFEST_DIR").unwrap());
    package.join("../target/staticlib")
}
