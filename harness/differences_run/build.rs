//! Links the static libraries: those in the folder that KULTYGASH_LIBRARIES names, or else those that `harness/make_libraries` makes.
use std::env;

fn main() {
    let made = format!("{}/../../target/staticlib", env::var("CARGO_MANIFEST_DIR").unwrap());
    let folder = env::var("KULTYGASH_LIBRARIES").unwrap_or(made);
    println!("cargo:rerun-if-changed=build.rs");
    println!("cargo:rerun-if-env-changed=KULTYGASH_LIBRARIES");
    for library in ["exports", "exports_float"] {
        println!("cargo:rerun-if-changed={folder}/lib{library}.a");
        println!("cargo:rustc-link-arg-bins={folder}/lib{library}.a");
    }
}
