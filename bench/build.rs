//! The package in rust/ links libplate.a. libmpfr is named by its file, so that Debian's
//! libmpfr6 is enough and libmpfr-dev does as well. libsoftfloat.a is that of
//! tests/softfloat/build, or the one in the folder that SOFTFLOAT_LIB names. An
//! earlier libplate.a, in the folder that PLATE_BEFORE names, is linked with
//! "before_" in front of its functions' names.

use std::env;
use std::path::PathBuf;
use std::process::Command;

/// A copy of the earlier library under other names, in cargo's own folder.
fn link_before() {
    let folder = PathBuf::from(env::var_os("PLATE_BEFORE").expect("PLATE_BEFORE names the folder of the earlier libplate.a"));
    let earlier = folder.join("libplate.a");
    let out = PathBuf::from(env::var_os("OUT_DIR").unwrap());
    let mut objcopy = Command::new("objcopy");
    for name in [
        "plate_raw", "plate_binary32", "plate_fill_tables", "plate_raw64", "plate_binary64", "plate_list", "plate_lifted_list",
        "plate_record",
    ] {
        objcopy.arg("--redefine-sym").arg(format!("{name}=before_{name}"));
    }
    let done = objcopy.arg(&earlier).arg(out.join("libplate_before.a")).status();
    assert!(done.expect("objcopy, of Debian's binutils").success(), "objcopy {}", earlier.display());
    println!("cargo:rerun-if-changed={}", earlier.display());
    println!("cargo:rustc-link-search=native={}", out.display());
    println!("cargo:rustc-link-lib=static=plate_before");
}

fn main() {
    println!("cargo:rerun-if-env-changed=SOFTFLOAT_LIB");
    println!("cargo:rerun-if-env-changed=PLATE_BEFORE");
    if env::var_os("CARGO_FEATURE_BEFORE").is_some() {
        link_before();
    }
    if env::var_os("CARGO_FEATURE_MPFR").is_some() {
        println!("cargo:rustc-link-arg-bins=-l:libmpfr.so.6");
    }
    if env::var_os("CARGO_FEATURE_SOFTFLOAT").is_some() {
        let folder = match env::var_os("SOFTFLOAT_LIB") {
            Some(folder) => PathBuf::from(folder),
            None => PathBuf::from(env::var_os("CARGO_MANIFEST_DIR").unwrap()).join("../target/softfloat"),
        };
        println!("cargo:rerun-if-changed={}", folder.join("libsoftfloat.a").display());
        println!("cargo:rustc-link-search=native={}", folder.display());
        println!("cargo:rustc-link-lib=static=softfloat");
    }
}
