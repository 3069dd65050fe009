//! Links libnalfipode.a, which `.ci/archive` writes. NALFIPODE_LIB_DIR names its folder; the
//! default is the repository's target/staticlib.
use std::env;
use std::path::PathBuf;

fn main() {
    let here = PathBuf::from(env::var("CARGO_MANIFEST_DIR").expect("cargo names the package's folder"));
    let folder = match env::var("NALFIPODE_LIB_DIR") {
        Ok(name) => PathBuf::from(name),
        Err(_) => here.join("../target/staticlib"),
    };
    let archive = folder.join("libnalfipode.a");
    println!("cargo:rerun-if-env-changed=NALFIPODE_LIB_DIR");
    println!("cargo:rerun-if-changed={}", archive.display());
    if !archive.exists() {
        panic!("{} is not there: run .ci/archive first", archive.display());
    }
    println!("cargo:rustc-link-search=native={}", folder.display());
    println!("cargo:rustc-link-lib=static=nalfipode");
}
