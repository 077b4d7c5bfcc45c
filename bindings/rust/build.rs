//! Links the archive that `tools/archive` writes.
//!
//! SEWUROGI_LIB names another one (a relative path is taken from the repository's folder).

use std::{env, fs, path::PathBuf};

const DEFAULT: &str = "target/staticlib/libexports.a";

fn main() {
    println!("cargo::rerun-if-env-changed=SEWUROGI_LIB");
    let repository = PathBuf::from(env::var("CARGO_MANIFEST_DIR").unwrap()).join("../..");
    let given = env::var("SEWUROGI_LIB").unwrap_or_else(|_| DEFAULT.to_string());
    let archive = repository.join(&given);
    // Of an archive that is not there cargo watches the path, and runs this script again once it is.
    println!("cargo::rerun-if-changed={}", archive.display());
    let Ok(archive) = fs::canonicalize(&archive) else {
        println!("cargo::error=there is no archive {given}: run `tools/archive`, or name one in SEWUROGI_LIB");
        return;
    };
    let (folder, file) = (archive.parent().unwrap(), archive.file_name().unwrap());
    println!("cargo::rustc-link-search=native={}", folder.display());
    println!("cargo::rustc-link-lib=static:+verbatim={}", file.display());
    // For the tests, which build C programs with it.
    println!("cargo::rustc-env=SEWUROGI_ARCHIVE={}", archive.display());
}
