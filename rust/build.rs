//! Links libplate.a of the folder that PLATE_LIB names, else that of build/lib beside this
//! package, where `make` puts it, else the one that the system has installed.

use std::env;
use std::path::PathBuf;

/// The folder that PLATE_LIB names, if it names one.
fn named() -> Option<PathBuf> {
    let folder = PathBuf::from(env::var_os("PLATE_LIB").filter(|folder| !folder.is_empty())?);
    // Cargo runs this in the package's folder, and the compiler in others.
    assert!(folder.is_absolute(), "PLATE_LIB is not an absolute path: {}", folder.display());
    Some(folder)
}

fn built() -> PathBuf {
    PathBuf::from(env::var_os("CARGO_MANIFEST_DIR").unwrap()).join("../build/lib")
}

fn main() {
    println!("cargo:rerun-if-env-changed=PLATE_LIB");
    let named = named();
    let must_be_there = named.is_some();
    let folder = named.unwrap_or_else(built);
    let library = folder.join("libplate.a");
    // Watched where it is missing too: after the first `make` it is the one to link.
    println!("cargo:rerun-if-changed={}", library.display());
    if must_be_there || library.is_file() {
        println!("cargo:rustc-link-search=native={}", folder.display());
        println!("cargo:rustc-link-lib=static=plate");
    } else {
        println!("cargo:rustc-link-lib=plate");
    }
}
