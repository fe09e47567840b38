//! Links libsg.a: from `SG_LIBRARY`, or from where `tools/staticlib.sh` writes it.
use std::env;
use std::path::PathBuf;

fn main() {
    println!("cargo:rerun-if-env-changed=SG_LIBRARY");
    let root = PathBuf::from(env::var("CARGO_MANIFEST_DIR").unwrap()).join("..");
    let folder = env::var("SG_LIBRARY").map_or(root.join("target/staticlib"), PathBuf::from);
    println!("cargo:rerun-if-changed={}", folder.join("libsg.a").display());
    println!("cargo:rustc-link-search=native={}", folder.display());
    println!("cargo:rustc-link-lib=static=sg");
}
