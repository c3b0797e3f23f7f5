//! Links `liblanecard.a`: from the folder LANECARD_LIB, else from the project's
//! `target/staticlib`.

use std::env;
use std::path::{Path, PathBuf};

fn library_folder() -> PathBuf {
    match env::var_os("LANECARD_LIB") {
        Some(folder) => PathBuf::from(folder),
        None => {
            let here = env::var_os("CARGO_MANIFEST_DIR").expect("cargo sets the crate's folder");
            Path::new(&here).join("../../target/staticlib")
        }
    }
}

fn main() {
    let folder = library_folder();
    println!("cargo:rerun-if-env-changed=LANECARD_LIB");
    // Links anew whenever the archive is built anew.
    println!(
        "cargo:rerun-if-changed={}",
        folder.join("liblanecard.a").display()
    );
    println!("cargo:rustc-link-search=native={}", folder.display());
    println!("cargo:rustc-link-lib=static=lanecard");
}
