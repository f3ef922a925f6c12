//! Says where libengine.a lies: in ENGINE_LIBRARY, or where ./build of the repository writes it.

use std::env;
use std::path::PathBuf;

fn main() {
    let here = PathBuf::from(env::var("CARGO_MANIFEST_DIR").expect("cargo sets it"));
    let folder = env::var("ENGINE_LIBRARY").map(PathBuf::from).unwrap_or_else(|_| here.join("../../target/lib"));
    println!("cargo:rerun-if-env-changed=ENGINE_LIBRARY");
    println!("cargo:rerun-if-changed={}", folder.join("libengine.a").display());
    println!("cargo:rustc-link-search=native={}", folder.display());
    println!("cargo:rustc-link-lib=static=engine");
}
