//! Tells the tests where the static library is that they are linked with, so that the C program is
//! linked with the very same.

use std::env;

fn main() {
    println!("cargo:rerun-if-changed=build.rs");
    let directory = env::var("DEP_GOULVIZAD_LIB").unwrap_or_default();
    println!("cargo:rustc-env=GOULVIZAD_LIB_USED={directory}");
}
