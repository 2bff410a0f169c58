//! Tells the linker where the engine's static library is: the file that
//! `TECUHUALMA_LIBRARY` names, else `crates/host_c/out/libhost_c.a`, where
//! `rt lib` puts it.
//!
//! Only the programs are linked with it. The checks themselves and their tests
//! are built without, so that they can be tried before there is a library.

use std::path::PathBuf;

const VARIABLE: &str = "TECUHUALMA_LIBRARY";

fn main() {
    let named = std::env::var_os(VARIABLE).map(PathBuf::from);
    let here = PathBuf::from(env!("CARGO_MANIFEST_DIR"));
    let library = named.unwrap_or(here.join("../crates/host_c/out/libhost_c.a"));
    println!("cargo:rerun-if-env-changed={VARIABLE}");
    println!("cargo:rerun-if-changed={}", library.display());
    println!("cargo:rustc-link-arg-bins={}", library.display());
}
