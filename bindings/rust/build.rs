//! Links the proved library. Its folder is `SINEWHOPA_LIB_DIR` (a path that is
//! not absolute counts from this crate's folder), or else where the repository
//! builds it.

use std::env;
use std::path::PathBuf;
use std::process::exit;

const FOLDER: &str = "SINEWHOPA_LIB_DIR";
const ARCHIVE: &str = "libsinewhopa.a";

fn main() {
    let here = PathBuf::from(env::var_os("CARGO_MANIFEST_DIR").unwrap_or_default());
    let folder = match env::var_os(FOLDER) {
        Some(set) => here.join(set),
        None => here.join("../../target/staticlib"),
    };
    let archive = folder.join(ARCHIVE);
    if !archive.is_file() {
        let looked = archive.display();
        eprintln!(
            "no {looked}: build it with `make archive`, or set {FOLDER} to its folder"
        );
        exit(1);
    }
    println!("cargo:rustc-link-search=native={}", folder.display());
    println!("cargo:rustc-link-lib=static=sinewhopa");
    println!("cargo:rerun-if-changed={}", archive.display());
    println!("cargo:rerun-if-changed=build.rs");
    println!("cargo:rerun-if-env-changed={FOLDER}");
}
