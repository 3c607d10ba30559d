//! Tells src/lib.rs where the source of rustdct 0.7.1 is. Whole files are included from there as they are. Of the two files that also
//! name the planner and other modules, the part with the traits is cut out here, again as it is.
use std::path::PathBuf;
use std::{env, fs};

fn main() {
    println!("cargo:rerun-if-changed=build.rs");
    println!("cargo:rerun-if-env-changed=KULTYGASH_RUSTDCT");
    let folder = env::var_os("KULTYGASH_RUSTDCT").expect("harness/build_oracle says where rustdct is");
    let source = PathBuf::from(folder).join("src");
    println!("cargo:rerun-if-changed={}", source.display());
    println!("cargo:rustc-env=RUSTDCT={}", source.display());

    let out = PathBuf::from(env::var("OUT_DIR").unwrap());
    let cut = |file: &str, from: &str, to: Option<&str>| {
        let text = fs::read_to_string(source.join(file)).unwrap();
        let start = text.find(from).unwrap_or_else(|| panic!("{} has no {:?}", file, from));
        let end = to.map_or(text.len(), |to| {
            text.find(to).unwrap_or_else(|| panic!("{} has no {:?}", file, to))
        });
        text[start..end].to_string()
    };
    fs::write(
        out.join("traits.rs"),
        cut("lib.rs", "pub trait RequiredScratch", Some("#[test]")),
    )
    .unwrap();
    fs::write(out.join("mdct.rs"), cut("mdct/mod.rs", "/// An umbrella trait", None)).unwrap();
}
