//! Links the static library that `bash bindings/build` writes: from the folder that `GAPLINTE_LIBRARY_DIR` names, or
//! else from `target/staticlib` of the repository.

use std::env;
use std::path::{self, PathBuf};

const FOLDER: &str = "GAPLINTE_LIBRARY_DIR";
const ARCHIVE: &str = "libgaplinte.a";

fn main() {
    println!("cargo::rerun-if-env-changed={FOLDER}");
    let named = env::var_os(FOLDER).filter(|folder| !folder.is_empty());
    let folder = named.map_or("../../target/staticlib".into(), PathBuf::from);
    // Cargo runs this in the crate's folder, and the linker elsewhere.
    let folder = path::absolute(folder).expect("the current folder is known");
    let archive = folder.join(ARCHIVE);
    println!("cargo::rerun-if-changed={}", archive.display());
    if archive.is_file() {
        println!("cargo::rustc-link-search=native={}", folder.display());
        println!("cargo::rustc-link-lib=static=gaplinte");
    } else {
        println!(
            "cargo::error=there is no {}: run `bash bindings/build` in the repository, or set {FOLDER} to the full \
             path of the folder that has {ARCHIVE}",
            archive.display()
        );
    }
}
