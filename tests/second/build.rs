//! Tells the linker where libchannelfox.a is: CHANNELFOX_LIB_DIR, otherwise crates/channelfox/out of the repository.

use std::env;
use std::path::PathBuf;

// Only the folder is told here. That the archive is wanted is said in src/header.rs, which is part of the comparison and
// not of the paper: so the paper's own tests build and run where there is no archive.
fn main() {
    println!("cargo:rerun-if-env-changed=CHANNELFOX_LIB_DIR");
    println!("cargo:rerun-if-changed=build.rs");
    let folder = library_folder();
    println!("cargo:rustc-link-search=native={}", folder.display());
    println!("cargo:rerun-if-changed={}", folder.join("libchannelfox.a").display());
}

fn library_folder() -> PathBuf {
    match env::var_os("CHANNELFOX_LIB_DIR") {
        Some(folder) => PathBuf::from(folder),
        None => {
            let package = env::var_os("CARGO_MANIFEST_DIR").expect("cargo names the package folder");
            PathBuf::from(package).join("../../crates/channelfox/out")
        }
    }
}
