//! Links the library's archive to the two programs that call it.
//! FOLLOWUP_LIB_DIR is the folder that holds libfollowup.a.

use std::env;
use std::path::PathBuf;

fn main() {
    println!("cargo:rerun-if-env-changed=FOLLOWUP_LIB_DIR");
    println!("cargo:rerun-if-changed=build.rs");
    let package = PathBuf::from(env::var("CARGO_MANIFEST_DIR").expect("set by cargo"));
    let folder = env::var_os("FOLLOWUP_LIB_DIR")
        .map(PathBuf::from)
        .unwrap_or_else(|| package.join("../target/staticlib"));
    let archive = folder.join("libfollowup.a");
    println!("cargo:rerun-if-changed={}", archive.display());
    for program in ["compare", "bench"] {
        println!("cargo:rustc-link-arg-bin={program}={}", archive.display());
    }
}
