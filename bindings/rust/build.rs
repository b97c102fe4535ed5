//! Says where `libghatumri.a` is: in the folder that GHATUMRI_LIB names (a relative one counts from this package), or
//! else in target/native of the repository.

use std::path::PathBuf;

fn main() {
    let here = PathBuf::from(std::env::var_os("CARGO_MANIFEST_DIR").unwrap());
    let folder = here.join(std::env::var_os("GHATUMRI_LIB").unwrap_or_else(|| "../../target/native".into()));
    let archive = folder.join("libghatumri.a");
    println!("cargo:rerun-if-changed=build.rs");
    println!("cargo:rerun-if-env-changed=GHATUMRI_LIB");
    println!("cargo:rerun-if-changed={}", archive.display());
    if !archive.is_file() {
        eprintln!("There is no {}. `scripts/native-lib` of the repository proves and compiles it.", archive.display());
        eprintln!("Where it is in another folder, GHATUMRI_LIB names that folder.");
        std::process::exit(1);
    }
    println!("cargo:rustc-link-search=native={}", folder.display());
    println!("cargo:rustc-link-lib=static=ghatumri");
}
