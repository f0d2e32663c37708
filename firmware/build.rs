//! Links libboundary.a from the folder that BORESACU_LIB names by its absolute path. Without it the crate compiles, and
//! whatever links it into a program has to bring the four functions.

use std::env;
use std::path::Path;

fn main() {
    println!("cargo:rerun-if-env-changed=BORESACU_LIB");
    let Ok(folder) = env::var("BORESACU_LIB") else {
        return;
    };
    let archive = Path::new(&folder).join("libboundary.a");
    if !archive.is_absolute() {
        panic!("BORESACU_LIB: {folder} is not an absolute path");
    }
    if !archive.is_file() {
        panic!("BORESACU_LIB: there is no {}", archive.display());
    }
    println!("cargo:rerun-if-changed={}", archive.display());
    println!("cargo:rustc-link-search=native={folder}");
    println!("cargo:rustc-link-lib=static=boundary");
}
