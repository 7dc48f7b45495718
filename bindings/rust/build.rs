//! Says where the static library of the proved machine is: in the directory `GOULVIZAD_LIB`, or where
//! the repository builds it. A relative path starts at this package.

use std::env;
use std::path::PathBuf;

fn main() {
    let package = PathBuf::from(env::var_os("CARGO_MANIFEST_DIR").unwrap_or_default());
    let library = env::var_os("GOULVIZAD_LIB").unwrap_or_else(|| "../../target/staticlib".into());
    let directory = package.join(library);
    let archive = directory.join("libgoulvizad.a");
    if !archive.exists() {
        let archive = archive.display();
        println!("cargo:warning=no {archive}: `tools/build` makes it");
    }
    println!("cargo:rerun-if-env-changed=GOULVIZAD_LIB");
    println!("cargo:rerun-if-changed={}", archive.display());
    println!("cargo:rustc-link-search=native={}", directory.display());
    // For dependents that link the library into other programs, as DEP_GOULVIZAD_LIB.
    println!("cargo:lib={}", directory.display());
}
