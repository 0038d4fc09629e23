//! Links the proved static libraries from the folder CREST_LIBS, by default ../target/staticlib.

use std::env;
use std::path::{Path, PathBuf};

fn main() {
    println!("cargo:rerun-if-env-changed=CREST_LIBS");
    let here = PathBuf::from(env::var("CARGO_MANIFEST_DIR").expect("cargo gives the package's folder"));
    let libraries = env::var("CREST_LIBS").map_or_else(|_| here.join("../target/staticlib"), PathBuf::from);
    println!("cargo:rustc-link-search=native={}", libraries.display());
    for name in ["crest", "probes"] {
        let file = libraries.join(format!("lib{name}.a"));
        assert!(Path::new(&file).is_file(), "{} is missing: run tools/prove {name}", file.display());
        println!("cargo:rerun-if-changed={}", file.display());
        println!("cargo:rustc-link-lib=static={name}");
    }
}
