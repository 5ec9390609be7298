//! Links `libmungaite.a` from the folder that MUNGAITE_LIB names (a relative one from this folder), by default from the
//! repository's `target/staticlib`.

use std::{env, path::PathBuf, process};

const DEFAULT_FOLDER: &str = "../target/staticlib";

fn main() {
    let crate_folder = PathBuf::from(env::var_os("CARGO_MANIFEST_DIR").expect("cargo sets CARGO_MANIFEST_DIR"));
    let folder = match env::var_os("MUNGAITE_LIB") {
        Some(named) => crate_folder.join(named),
        None => crate_folder.join(DEFAULT_FOLDER),
    };
    let archive = folder.join("libmungaite.a");
    println!("cargo:rerun-if-env-changed=MUNGAITE_LIB");
    println!("cargo:rerun-if-changed={}", archive.display());
    if !archive.is_file() {
        eprintln!("{} is absent.", archive.display());
        eprintln!("Run `tools/build mungaite` in the repository, or set MUNGAITE_LIB to the folder that holds it.");
        process::exit(1);
    }
    println!("cargo:rustc-link-search=native={}", folder.display());
    println!("cargo:rustc-link-lib=static=mungaite");
}
