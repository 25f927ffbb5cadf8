//! Tells the linker where libchannelfox.a and libtiming.a are: both in CHANNELFOX_LIB_DIR, otherwise each in its crate's out of the repository.

use std::env;
use std::path::PathBuf;

fn main() {
    println!("cargo:rerun-if-env-changed=CHANNELFOX_LIB_DIR");
    println!("cargo:rerun-if-changed=build.rs");
    for library in ["channelfox", "timing"] {
        let folder = library_folder(library);
        println!("cargo:rustc-link-search=native={}", folder.display());
        println!(
            "cargo:rerun-if-changed={}",
            folder.join(format!("lib{library}.a")).display()
        );
    }
}

fn library_folder(library: &str) -> PathBuf {
    match env::var_os("CHANNELFOX_LIB_DIR") {
        Some(folder) => PathBuf::from(folder),
        None => {
            let package = env::var_os("CARGO_MANIFEST_DIR").expect("cargo names the package folder");
            PathBuf::from(package).join(format!("../crates/{library}/out"))
        }
    }
}
