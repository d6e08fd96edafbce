//! Links the server's static archive into whatever uses this package, and with the feature `inner` the archive of
//! repeated inner work too.
use std::env;
use std::path::{Path, PathBuf};

const SERVER: &str = "ushanderi";
const REPEATED_INNER_WORK: &str = "repeated";
const FOLDER_VARIABLE: &str = "USHANDERI_LIB_DIR";

fn main() {
    let package = PathBuf::from(env::var_os("CARGO_MANIFEST_DIR").expect("cargo names the package's folder"));
    let folder = match env::var_os(FOLDER_VARIABLE) {
        Some(folder) => package.join(folder),
        None => package.join("../target/staticlib"),
    };
    println!("cargo:rerun-if-env-changed={FOLDER_VARIABLE}");
    println!("cargo:rustc-link-search=native={}", folder.display());
    if env::var_os("CARGO_FEATURE_INNER").is_some() {
        link(&folder, REPEATED_INNER_WORK);
    }
    link(&folder, SERVER);
}

fn link(folder: &Path, name: &str) {
    let archive = folder.join(format!("lib{name}.a"));
    println!("cargo:rerun-if-changed={}", archive.display());
    assert!(
        archive.exists(),
        "{} is not there: run `tools/archives` in the repository's root first, or set {FOLDER_VARIABLE}",
        archive.display()
    );
    println!("cargo:rustc-link-lib=static={name}");
}
